"""Random trees for tests/api-trees: folders with configuration files, variables, and stand-ins for rustc and cargo.

A tree is laid out below a folder of its own, and is an object as `Tree` in tests/api-trees.rs reads it. It is the same for
the same seed and number. In one tree of four something is broken by intent: a wrong type, a file that is no TOML, a
variable that can't be read, a program that fails.
"""
import json
import os
import random

import api_trees_words as words

TABLES = words.TABLES
# the chance that a list is one text in this tree, by its key
TEXT = 0.4


class Maker:
    """Makes one tree."""

    def __init__(self, seed, number):
        self.chance = random.Random(f"{seed} {number}")
        self.is_broken = self.chance.random() < 0.25
        self.are_texts = {}

    def rarely(self, count):
        """Whether a thing happens that happens once in so many times."""
        return self.chance.randrange(count) == 0

    def one(self, values):
        return self.chance.choice(values)

    def some(self, values, most):
        return [self.one(values) for _ in range(self.chance.randrange(most + 1))]

    def spoilt(self, count):
        """Whether something is broken here."""
        return self.is_broken and self.rarely(count)

    def list_or_text(self, key, values, least=0):
        """A list, or its texts in one; mostly the same of both for a key of a tree, so that files merge."""
        is_text = self.are_texts.setdefault(key, self.chance.random() < TEXT)
        if self.spoilt(12):
            is_text = not is_text
        found = self.some(values, 4)
        while len(found) < least:
            found.append(self.one(values))
        return self.one((" ", "  ")).join(found) if is_text else found

    def value(self, kind, key):
        """A value of a kind, which is that of a key."""
        if self.spoilt(25):
            return self.one((3, -1, 2**31, 2**40, True, "", "x", [], ["a"], [1], ["a", 1], {}, {"a": 1}, 1.5, [["a"]]))
        if kind in words.CHOICES:
            return self.one(words.CHOICES[kind])
        if kind == "words":
            return self.list_or_text(key, words.FLAGS)
        if kind == "command":
            return self.list_or_text(key, words.PROGRAMS, least=0 if self.spoilt(20) else 1)
        if kind == "provider":
            provider = self.one(words.PROVIDERS)
            return provider.split(" ") if self.rarely(3) else provider
        if kind == "providers":
            return self.some(words.PROVIDERS, 3)
        if kind == "targets":
            return self.list_or_text(key, words.TARGETS, least=1) if self.rarely(2) else self.one(words.TARGETS)
        assert kind == "variable", kind
        return self.variable_of_table(key)

    def variable_of_table(self, key):
        """A value of the table env."""
        text = self.one(words.CHOICES["path"] + words.CHOICES["text"])
        is_text = self.are_texts.setdefault(key, self.chance.random() < TEXT)
        if is_text != self.spoilt(10):
            return text
        table = {"value": text}
        for name in ("force", "relative"):
            if self.rarely(2):
                table[name] = self.rarely(2)
        if self.rarely(20):
            table["other"] = 1
        return table

    def settings(self):
        """The settings of a file: nested tables."""
        found = {}
        for _ in range(self.chance.choice((0, 1, 2, 4, 8, 16))):
            name = self.one(list(TABLES))
            front, field, kind = self.place(name)
            table = found
            for key in front:
                if not isinstance(table.setdefault(key, {}), dict):
                    break
                table = table[key]
            else:
                table[field] = self.value(kind, (*front, field))
        if self.rarely(8):
            found.update(self.one(words.OTHERS))
        if self.spoilt(25):
            found.update(self.one(words.WRONG))
        return found

    def place(self, name):
        """The tables around a key of a table, the key, and the kind of its value."""
        fields = TABLES[name]
        if name in words.NAMED:
            return (name,), self.one(words.NAMED[name]), fields
        field = self.one(list(fields))
        if name in ("registries", "source"):
            return (name, self.one(words.NAMES)), field, fields[field]
        if name == "target":
            return self.place_of_target(field, fields[field])
        if name == "term.progress":
            return ("term", "progress"), field, fields[field]
        return (name,), field, fields[field]

    def place_of_target(self, field, kind):
        """The same below the table target."""
        roll = self.chance.randrange(20)
        if roll < 9:
            key = self.one(words.TRIPLES)
        elif roll < 18:
            key = self.one(words.CFGS)
        else:
            key = self.one(words.BAD_CFGS if self.is_broken else words.ODD_CFGS)
        keys = key.split(".") if "." in key and not key.startswith("cfg(") and self.rarely(2) else (key,)
        return ("target", *keys), field, kind

    def content(self):
        """The bytes of a configuration file."""
        text = words.Writer(self.chance).document(self.settings()).encode()
        if not self.spoilt(10):
            return text
        at = self.chance.randrange(len(text) + 1)
        return text[:at] + self.one(words.SPLICES) + text[at:]

    def put_file(self, path):
        """Lays a configuration file out, or now and then something in its place that can't be read."""
        os.makedirs(os.path.dirname(path), exist_ok=True)
        kind = self.chance.randrange(5) if self.spoilt(25) else -1
        if kind == 0:
            os.mkdir(path)
        elif kind == 1:
            os.symlink("nowhere", path)
        elif kind == 2:
            os.symlink(os.path.basename(path), path)
        else:
            with open(path, "wb") as file:
                file.write(self.content())

    def put_folder(self, folder, odds):
        """Lays the files of a folder out, in its folder .cargo."""
        os.makedirs(folder, exist_ok=True)
        if self.chance.random() < odds:
            name = self.one(("config.toml", "config.toml", "config.toml", "config"))
            self.put_file(f"{folder}/.cargo/{name}")
            if self.rarely(10):
                other = "config" if name == "config.toml" else "config.toml"
                self.put_file(f"{folder}/.cargo/{other}")

    def put_program(self, path, name):
        """Lays a stand-in for rustc or cargo out. It prints a version, or the cfg for a target."""
        version = self.one(words.BAD_VERSIONS if self.rarely(12) else words.VERSIONS).replace("NAME", name)
        lists = [self.one(words.BAD_CFG_LISTS if self.rarely(15) else words.CFG_LISTS) for _ in range(2)]
        status = self.one((1, 101)) if self.rarely(25) else 0
        error = self.one(("", "", "", "warning: w\n"))
        lines = [
            "#!/bin/sh",
            f"printf %s {words.shell_quoted(error)} >&2",
            'case "$*" in',
            f"*-vV) printf %s {words.shell_quoted(version)};;",
            f"*'--print cfg --target x86'*) printf %s {words.shell_quoted(lists[0])};;",
            f"*'--print cfg --target'*) printf %s {words.shell_quoted(lists[1])};;",
            '*) echo "unexpected: $*"; exit 3;;',
            "esac",
            f"exit {status}",
            "",
        ]
        put_script(path, "\n".join(lines))

    def variable(self, top):
        """A variable that sets something: its name, and its bytes."""
        name, kind = self.one(list(words.VARIABLES.items()))
        name = name.replace("TRIPLE", self.one(words.TRIPLES).replace("-", "_").replace(".", "_").upper())
        if kind == "program":
            return name, f"{top}/bin/{'cargo' if name == 'CARGO' else 'rustc'}".encode()
        if kind == "encoded":
            return name, "\x1f".join(self.some(words.FLAGS, 3)).encode()
        if self.spoilt(15):
            return name, self.one((b"", b"\xff", b"x", b"-1", b"a\x1fb", b"4294967296", b" ", b"tr\xc3\xbce"))
        value = self.value(kind, name)
        while isinstance(value, dict):
            value = self.value(kind, name)
        if isinstance(value, bool):
            value = "true" if value else "false"
        text = " ".join(map(str, value)) if isinstance(value, list) else str(value)
        if text == "" and not self.spoilt(3) and kind in ("command", "provider"):
            text = "p"
        return name, text.encode()

    def variables(self, top, most):
        found = dict(self.variable(top) for _ in range(self.chance.randrange(most + 1)))
        return [[name, list(value)] for name, value in found.items()]

    def questions(self):
        """All questions without a target and some with one, in any order."""
        targets = [self.one(words.TARGETS) for _ in range(self.one((1, 2, 3)))]
        if self.rarely(15):
            targets.append(self.one(words.ODD_TARGETS))
        found = [[name, ""] for name in words.QUESTIONS]
        found += [[name, target] for target in targets for name in self.chance.sample(words.TARGET_QUESTIONS, 10)]
        self.chance.shuffle(found)
        return found + [["json", "again"], ["host", "again"], ["rustc", "again"]]

    def lay(self, top):
        """Lays the tree out below a folder, and gives its object."""
        os.makedirs(f"{top}/bin")
        dirs = [top]
        for _ in range(self.chance.randrange(1, 5)):
            dirs.append(f"{dirs[-1]}/{self.one(words.FOLDERS)}")
        odds = self.one((0.4, 0.7, 0.9))
        for folder in dirs:
            self.put_folder(folder, odds)
        home = f"{top}/{self.one(('home', 'cargo home', 'hé'))}"
        self.put_folder(home, 0.7)
        if self.rarely(2):
            os.makedirs(f"{top}/cargo", exist_ok=True)
            self.put_file(f"{top}/cargo/config.toml")
        for name in ("rustc", "cargo", "own"):
            self.put_program(f"{top}/bin/{name}", name.replace("own", "rustc"))
        put_script(f"{top}/bin/wrap", '#!/bin/sh\nexec "$@"\n')
        return self.chosen(top, dirs[-1], home)

    def chosen(self, top, dir, home):
        """The object of a tree: what the process has, and what is chosen."""
        process = [["HOME", list(home.encode())], ["PATH", list(b"/usr/bin:/bin")]]
        process += self.variables(top, 3) if self.rarely(4) else []
        for name in ("CARGO_HOME", "RUSTUP_HOME"):
            if self.rarely(5):
                path = self.one((f"{top}/cargo", f"{top}/cargo", f"{home}/.cargo", "cargo", ""))
                process.append([name, list(path.encode())])
        names = {"RUSTC", "CARGO"}
        env = None if self.rarely(6) else self.variables(top, 6)
        programs = [[name, list(f"{top}/bin/{name.lower()}".encode())] for name in sorted(names) if not self.rarely(8)]
        into = process if env is None else env
        into[:0] = [it for it in programs if it[0] not in {name for name, _ in into}]
        if self.rarely(10):
            into.append(["RUSTC_WRAPPER", list(f"{top}/bin/wrap".encode())])
        homes = ([], [f"{top}/cargo"], [f"{top}/cargo"], [f"{home}/.cargo"], ["cargo"])
        return {
            "top": top,
            "dir": self.one((dir, dir, dir, dir, f"{dir}/", os.path.relpath(dir, top))) if self.rarely(8) else dir,
            "process": process,
            "env": env,
            "cargo_home": self.one(homes) if self.rarely(2) else None,
            "rustc": self.one(([f"{top}/bin/own"], [f"{top}/bin/wrap", f"{top}/bin/own"], ["gone"])) if self.rarely(10) else None,
            "cargo": self.one((f"{top}/bin/cargo", f"{top}/bin/cargo", "gone")) if self.rarely(10) else None,
            "host": self.one(words.TARGETS) if self.rarely(10) else None,
            "questions": self.questions(),
        }


def put_script(path, text):
    with open(path, "w", encoding="utf-8", errors="surrogateescape") as file:
        file.write(text)
    os.chmod(path, 0o755)


def lay(seed, number, top):
    """Lays the tree of a number out, and gives its line for the programs."""
    return json.dumps(Maker(seed, number).lay(top))
