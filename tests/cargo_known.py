"""Where Cargo and the crate's rules differ: the rules of tests/cargo, each with the settings and variables that show it."""
import collections
import re

from cargo_trees import BAD_KEYS, SPARE_COMMAS

# what a build runs instead of rustc and rustdoc
TOOLS = (("build", "rustc"), ("build", "rustdoc"), ("build", "rustc-wrapper"), ("build", "rustc-workspace-wrapper"))
# a rule: which settings of files and overrides it speaks of, which variables, and which overrides alone, where a
# variable is set whose name has this form
Rule = collections.namedtuple(
    "Rule", "name meaning takes_setting takes_variable takes_override beside", defaults=[lambda *_: False, ""]
)


def is_cfg(path):
    """Whether a key path is that of a setting of a key `cfg(..)`."""
    return len(path) > 2 and path[0] == "target" and path[1].startswith("cfg(")


def is_command(path):
    """Whether a key path is that of a command or of a provider, of which one file's counts."""
    return path[-1] in ("runner", "browser", "credential-provider") or path[0] == "credential-alias"


def never(*_):
    """Nothing of the tree."""
    return False


KNOWN = (
    Rule(
        "commands-at-random",
        "of a command that two files have as arrays Cargo 1.95 joins the words in some runs; here the near one counts",
        lambda path, value: is_command(path) and isinstance(value, list),
        never,
    ),
    Rule(
        "commands-of-two-kinds",
        "a command that one file has as a text and another as an array is refused by Cargo; here the near one counts",
        lambda path, value: is_command(path) and isinstance(value, str),
        never,
    ),
    Rule(
        "build-flags-join",
        "Cargo appends the flags of CARGO_BUILD_RUSTFLAGS and CARGO_BUILD_RUSTDOCFLAGS to those of the files; here they replace them",
        never,
        lambda name, value: name in ("CARGO_BUILD_RUSTFLAGS", "CARGO_BUILD_RUSTDOCFLAGS"),
    ),
    Rule(
        "debug-assertions-hold",
        "`debug_assertions` holds in Cargo, as rustc prints it; here it never does",
        lambda path, value: is_cfg(path) and "debug_assertions" in path[1],
        never,
    ),
    Rule(
        "one-true-key",
        "several true keys with a linker or a runner are refused by Cargo; here the first in byte order counts",
        lambda path, value: is_cfg(path) and path[2] in ("linker", "runner"),
        never,
    ),
    Rule(
        "flags-make-keys-true",
        "Cargo runs rustc for its cfgs with the flags that a target has; here rustc is run without them",
        lambda path, value: is_cfg(path) and "cc2_" in path[1],
        never,
    ),
    Rule(
        "doc-flags-of-keys",
        "doc flags of a key `cfg(..)` are passed over by Cargo 1.95, and read by 1.97; here they count",
        lambda path, value: is_cfg(path) and path[2] == "rustdocflags",
        never,
    ),
    Rule(
        "bad-keys",
        "a key `cfg(..)` that is in no grammar is passed over by Cargo; here each query for a target is refused",
        lambda path, value: is_cfg(path) and path[1] in BAD_KEYS,
        never,
    ),
    Rule(
        "spare-commas",
        "a key with a comma after its root, or with two in a row, is ignored by Cargo; here it is in the grammar",
        lambda path, value: is_cfg(path) and path[1] in SPARE_COMMAS,
        never,
    ),
    Rule(
        "raw-words",
        "a key may have raw identifiers in Cargo; here it is in no grammar",
        lambda path, value: is_cfg(path) and "r#" in path[1],
        never,
    ),
    Rule(
        "empty-wrappers",
        "an empty wrapper of a file is none in Cargo; here it stays a wrapper with the empty path",
        lambda path, value: path[0] == "build" and path[-1].endswith("wrapper") and value == "",
        never,
    ),
    Rule(
        "includes",
        "Cargo reads the files that `include` names; here nothing reads it",
        lambda path, value: path == ("include",),
        never,
    ),
    Rule(
        "kinds-of-values",
        "a float or a date at a key that nobody reads is refused by Cargo; here it is passed over",
        lambda path, value: isinstance(value, float),
        never,
    ),
    Rule(
        "one-of-two-keys",
        "Cargo has rules between keys, as of `term.quiet` and `term.verbose`; here each key is read by itself",
        lambda path, value: path[0] == "term",
        never,
    ),
    Rule(
        "links",
        "a table below a triple is one of links in Cargo, and nothing else; here it is ignored",
        lambda path, value: path[0] == "target" and path[-1] == "other",
        never,
    ),
    Rule(
        "unread-types",
        "a value of a wrong type is refused by Cargo where it reads it; here in every load, and so is a variable's",
        lambda path, value: value == {"wrong": True},
        lambda name, value: value == "wrong",
    ),
    Rule(
        "default-jobs",
        'Cargo reads `jobs = "default"`; here it is a value of a wrong type',
        lambda path, value: path == ("build", "jobs") and value == "default",
        never,
    ),
    Rule(
        "no-jobs",
        "`jobs = 0` is refused by Cargo; here it is a number",
        lambda path, value: path == ("build", "jobs") and value == 0,
        never,
    ),
    Rule(
        "places-of-sources",
        "a table `[source.x]` with places of two kinds, or with none, is refused by Cargo; here each key is read",
        lambda path, value: path[0] == "source",
        never,
    ),
    Rule(
        "quoted-triples",
        "a triple with a dot as one quoted key below `target` is passed over by Cargo; here it is looked up first",
        lambda path, value: path[0] == "target" and "." in path[1] and not is_cfg(path),
        never,
    ),
    Rule(
        "homes-by-another-path",
        "a cargo home that is a `.cargo` of the walk by another path is read once by Cargo; here it is read once more",
        never,
        lambda name, value: name == "CARGO_HOME" and value == "../../p/.cargo",
    ),
    Rule(
        "overrides-over-flags",
        "Cargo leaves `build.rustflags` out under RUSTFLAGS and CARGO_ENCODED_RUSTFLAGS; here an override has precedence",
        never,
        never,
        lambda path, value: path == ("build", "rustflags"),
        "RUSTFLAGS|CARGO_ENCODED_RUSTFLAGS",
    ),
    Rule(
        "overrides-over-doc-flags",
        "the same of `build.rustdocflags` under RUSTDOCFLAGS and CARGO_ENCODED_RUSTDOCFLAGS",
        never,
        never,
        lambda path, value: path == ("build", "rustdocflags"),
        "RUSTDOCFLAGS|CARGO_ENCODED_RUSTDOCFLAGS",
    ),
    Rule(
        "overrides-over-tools",
        "Cargo takes RUSTC, RUSTDOC and the variables of wrappers before an override; here the override has precedence",
        never,
        never,
        lambda path, value: path in TOOLS,
        "RUSTC|RUSTDOC|RUSTC_WRAPPER|RUSTC_WORKSPACE_WRAPPER",
    ),
    Rule(
        "overrides-over-builds",
        "Cargo takes CARGO_TARGET_DIR and CARGO_INCREMENTAL before an override; here the override has precedence",
        never,
        never,
        lambda path, value: path in (("build", "target-dir"), ("build", "incremental")),
        "CARGO_TARGET_DIR|CARGO_INCREMENTAL",
    ),
    Rule(
        "overrides-after-variables",
        "Cargo appends an override's flags of a target to those of its variable; here they come before, with the table's",
        never,
        never,
        lambda path, value: path[0] == "target" and path[-1] in ("rustflags", "rustdocflags"),
        "CARGO_TARGET_.*_RUST(DOC)?FLAGS",
    ),
    Rule(
        "empty-directories",
        "an empty target directory is refused by Cargo; here it is the root itself",
        lambda path, value: path in (("build", "target-dir"), ("build", "build-dir")) and value == "",
        lambda name, value: name in ("CARGO_TARGET_DIR", "CARGO_BUILD_TARGET_DIR") and value == "",
    ),
)


def without(tree, rules):
    """The tree without what these rules speak of."""
    files = {
        path: [it for it in settings if not any(rule.takes_setting(*it) for rule in rules)]
        for path, settings in tree.files.items()
    }
    kept = {it: value for it, value in tree.variables.items() if not any(r.takes_variable(it, value) for r in rules)}
    of_overrides = [it for it in rules if it.beside and any(re.fullmatch(it.beside, name) for name in tree.variables)]
    overrides = [
        (
            name,
            [
                it
                for it in settings
                if not any(rule.takes_setting(*it) for rule in rules)
                and not any(rule.takes_override(*it) for rule in of_overrides)
            ],
        )
        for name, settings in tree.overrides
    ]
    return tree._replace(files=files, variables=kept, overrides=[it for it in overrides if it[1]])
