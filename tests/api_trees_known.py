"""The differences on random trees that are explained, for tests/api-trees.

Each has a row in docs/DIFFERENCES.md or in bindings/rust/README.md, of which `reason` has the words. It is recognised by one
of two functions: `leave_out` takes out of an answer what the difference is about, and then both answers must be the same.
`is_met` looks at both answers to a question.
"""
import collections
import itertools
import json
import os
import re
import tomllib

# how a difference is recognised; one of both functions is none
Kind = collections.namedtuple("Kind", "name reason leave_out is_met", defaults=[None, None])
Question = collections.namedtuple("Question", "tree name theirs")
PROVIDER = re.compile(r"CARGO_REGISTRIES_(.*)_CREDENTIAL_PROVIDER")
# the error of a cfg text: the text, and a mark with the reason
CFG_TEXT = re.compile(r"(?s)(.*)\n *\^+ .*")
# how errors of programs begin
PROGRAMS = ("could not execute process `", "process didn't exit successfully: `", "failed to parse output from `")
# how errors of a load begin, and those of one file
LOADS = ("failed to parse `", "failed to read `", "failed to merge config from `", "failed to parse environment variable `", "must be ",
         "invalid length ", "args should be empty ", "wrong type at `")
FILE = re.compile(r"failed to (?:parse|read) `(.*)`(?: as cargo configuration)?$")
# questions that run cargo or rustc for a version
VERSIONS = ("rustc_version", "cargo_version", "host", "targets_for_config")
# the questions whose answer is the JSON of a resolved configuration
RESOLVED = ("resolved json", "process", "json ", "json again")


def variables(question):
    """The names of the variables that a load of this question sees."""
    tree = question.tree
    pairs = tree["process"] if tree["env"] is None or question.name == "process" else tree["env"]
    return [name for name, _ in pairs]


def error_of(answer):
    """The texts of an error and its causes; none where the answer is no error."""
    return (answer or {}).get("error")


def of_json(question, answer, change):
    """The answer where a function has changed the JSON in it; answers without JSON stay."""
    if question.name not in RESOLVED or "text" not in answer:
        return answer
    found = json.loads(answer["text"])
    change(found)
    return {"text": json.dumps(found)}


def without_vcs(question, answer):
    """Leaves `cargo-new.vcs` out."""
    if "CARGO_CARGO_NEW_VCS" not in variables(question):
        return answer
    if question.name == "resolved cargo_new":
        return {"text": ""}
    return of_json(question, answer, lambda found: found.pop("cargo-new", None))


def refuses_vcs(question, ours, _theirs):
    """Whether the variable is refused here."""
    return question.name in ("resolved", "process") and (error_of(ours) or [""])[0] == "failed to parse environment variable `CARGO_CARGO_NEW_VCS`"


def without_providers(question, answer):
    """Leaves the providers out of the registries for which a variable sets one."""
    names = [it[1] for it in map(PROVIDER.fullmatch, variables(question)) if it]
    if not names:
        return answer
    if question.name == "resolved registries":
        return {"text": ""}

    def drop(found):
        for name in names:
            found.get("registries", {}).get(name, {}).pop("credential-provider", None)

    return of_json(question, answer, drop)


def refuses_provider(question, ours, _theirs):
    """Whether the value of such a variable is refused here."""
    text = (error_of(ours) or [""])[0]
    has_variable = any(PROVIDER.fullmatch(name) for name in variables(question))
    return question.name in ("resolved", "process") and has_variable and text.startswith(("invalid length ", "args should be empty "))


def reads(value):
    """Whether a value below a key of `target` reads as the settings of a target."""
    kinds = {"linker": str, "runner": (str, list), "rustflags": (str, list), "rustdocflags": (str, list)}
    return isinstance(value, dict) and all(isinstance(value[key], kinds[key]) for key in kinds if key in value)


def read_of(target):
    """The settings of a target, and what reads below its other keys."""
    own = {key: it for key, it in target.items() if key in ("linker", "runner", "rustflags", "rustdocflags")}
    return own | {key: read_of(it) for key, it in target.items() if key not in own and reads(it)}


def without_unread(question, answer):
    """Leaves out what doesn't read below the keys of a target."""
    if not question.name.startswith(("file ", "files again", "files json", "files of")) or not answer.get("text", "").startswith("{"):
        return answer
    found, end = json.JSONDecoder().raw_decode(answer["text"])
    found["target"] = {key: read_of(it) for key, it in found.get("target", {}).items()}
    return {"text": json.dumps(found) + answer["text"][end:]}


def without_top(question, answer):
    """Makes the paths below the process's directory relative, where the cargo home is."""
    tree = question.tree
    if not any(not path.startswith("/") for path in tree["cargo_home"] or ()):
        return answer
    return json.loads(json.dumps(answer).replace(json.dumps(f"{tree['top']}/")[1:-1], ""))


def without_chosen(question, answer):
    """Leaves versions and hosts out, where a command for rustc is chosen."""
    is_version = question.name.split(" ")[0] in VERSIONS
    return {"text": ""} if is_version and question.tree["rustc"] else answer


def without_nightly(question, answer):
    """Leaves out whether rustc is nightly, where a variable decides it."""
    pairs = question.tree["process"] + (question.tree["env"] or [])
    if "text" not in answer or not any(name == "RUSTC_BOOTSTRAP" for name, _ in pairs):
        return answer
    return {"text": re.sub(r"^(RustcVersion .*nightly: )(true|false)", r"\1", answer["text"])}


def without_causes(_question, answer):
    """Leaves the causes of an error out, but not its kind. Of a merge the last one stays: which forms don't merge."""
    if not error_of(answer):
        return answer
    first, *causes = answer["error"]
    return {**answer, "error": [first, *causes[-1:]] if first.startswith("failed to merge ") else [first]}


def is_spec_name(question, ours, theirs):
    """Whether the target of the question is a path without a file name."""
    panics = "panic" in (theirs or {}) and "Option::unwrap()" in theirs["panic"]
    target = question.name.partition(" ")[2]
    return panics and (error_of(ours) == ["target spec path has no file name"] or target.rstrip("/") in (".", "..", ""))


def is_second_version(question, ours, theirs):
    """Whether an assertion of the crate fails at a version."""
    return question.name.split(" ")[0] in VERSIONS and (theirs or {}).get("panic") == "assertion failed: r.is_ok()"


def value_at(path, keys):
    """The value of a key path in a file; none where there is no such."""
    try:
        with open(path, "rb") as file:
            found = tomllib.load(file)
        for key in keys.split("."):
            found = found[key]
    except (OSError, ValueError, LookupError, TypeError):
        return None
    return found


def is_shape(question, ours, theirs):
    """Whether a list where a table belongs, or a table where a word does, is refused here, and the crate accepts the file."""
    first, cause = [*(error_of(ours) or ()), "", ""][:2]
    file, key = FILE.match(first), re.fullmatch("wrong type at `(.*)`", cause)
    if not file or not key or "panic" in theirs:
        return False
    is_word = key[1].rpartition(".")[2] in ("color", "when", "frequency", "vcs", "protocol")
    value = value_at(os.path.join(question.tree["top"], file[1]), key[1])
    taken = question.theirs.get(f"file {file[1]}", {"text": ""})
    return isinstance(value, dict if is_word else list) and ("text" in theirs or "text" in taken)


def is_cfg_text(_question, ours, theirs):
    """Whether both refuse the same cfg text, with other reasons or marks."""
    texts = [CFG_TEXT.fullmatch((error_of(answer) or [""])[0]) for answer in (ours, theirs)]
    return all(texts) and texts[0][1] == texts[1][1]


def is_key_first(_question, ours, theirs):
    """Whether a key or a variable is refused here, where the crate has run a program that fails."""
    texts = [(error_of(answer) or [""])[0] for answer in (ours, theirs)]
    return CFG_TEXT.fullmatch(texts[0]) and texts[1].startswith(PROGRAMS)


def is_other_cause(question, ours, theirs):
    """Whether both refuse a load for reasons of their own: a file, a merge or a variable. What is refused here of one file must be
    refused there when that file is loaded by itself."""
    texts = [(error_of(answer) or [""])[0] for answer in (ours, theirs)]
    if not all(text.startswith(LOADS) for text in texts):
        return False
    file = FILE.match(texts[0])
    alone = question.theirs.get(f"file {file[1]}") if file else None
    return alone is None or "error" in alone


EXPLAINED = (
    Kind("causes", "the texts of causes are our own", without_causes),
    Kind("relative home", "a relative cargo home is joined to the process's directory", without_top),
    Kind("cargo-new", "CARGO_CARGO_NEW_VCS sets cargo-new.vcs", without_vcs),
    Kind("cargo-new refused", "CARGO_CARGO_NEW_VCS sets cargo-new.vcs, and may be refused", is_met=refuses_vcs),
    Kind("provider", "CARGO_REGISTRIES_n_CREDENTIAL_PROVIDER sets its value", without_providers),
    Kind("provider refused", "CARGO_REGISTRIES_n_CREDENTIAL_PROVIDER sets its value, and may be refused", is_met=refuses_provider),
    Kind("chosen rustc", "versions ask the chosen rustc", without_chosen),
    Kind("unread", "what doesn't read below a target is left out of what is serialized", without_unread),
    Kind("bootstrap", "RUSTC_BOOTSTRAP is that of the variables that a load sees", without_nightly),
    Kind("shape", "a table is taken only from a table, and a text only from a text", is_met=is_shape),
    Kind("key first", "all keys and variables of a target are read before a program is run", is_met=is_key_first),
    Kind("other cause", "of several causes another one may be reported", is_met=is_other_cause),
    Kind("cfg text", "an invalid cfg text has a reason and a mark of our own", is_met=is_cfg_text),
    Kind("spec name", "a spec path without a file name is refused, where the crate panics", is_met=is_spec_name),
    Kind("second version", "the first version that was printed is cached, where the crate meets an assertion", is_met=is_second_version),
)


def explain(tree, name, answers):
    """The names of the kinds that explain a difference; none where nothing explains it."""
    ours, theirs = (it.get(name) for it in answers)
    question = Question(tree, name, answers[1])
    if ours is None or theirs is None:
        return ()
    kinds = [kind for kind in EXPLAINED if kind.leave_out]
    for count in range(1, len(kinds) + 1):
        for some in itertools.combinations(kinds, count):
            left = [ours, theirs]
            for kind in some:
                left = [kind.leave_out(question, it) for it in left]
            if left[0] == left[1]:
                return tuple(kind.name for kind in some)
    return tuple(kind.name for kind in EXPLAINED if kind.is_met and kind.is_met(question, ours, theirs))[:1]
