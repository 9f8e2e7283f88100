#!/usr/bin/env python3
"""Spells the repository's own antt names in snake case: chainOf as chain_of, row-round as row_round.

usage: tools/respell.py [--check]     at the top of the repository, once, on a tree with no changes

It turns the names that specs/ and proofs/ declare (definitions, lemmas, constructors, fields, local helpers), where they stand: in .antt files,
in clauses and ghost items of .rt files, in must-fail edits, and in code spans of comments and of pages. Types and modules stay in camel case.
A lemma whose new name a definition has already gets _lem. What a library declares stays, and so does what Rattle makes of the source.
Lines that begin 'look:' name the files in which two names meet. --check writes nothing.
"""

import collections
import os
import re
import sys

# what stands in the folder of a function, whose name is in small letters
MADE = re.compile(r"/crates/\w+/proofs/(\w+/)*[a-z+][^/]*/(Proof|Answers|Invariants)\.antt$")
WORD = r"[^\s(){}.;,@\"«»`|\[\]]+"
DECLARED = re.compile(r"^(\s*)(?:(?:unfoldable|abbrev|pub|record|data)\s+)*(" + WORD + r")(?:\s*\{[^{}\n]*\})*\s*:(?:\s|$)")
LET = re.compile(r"\blet (" + WORD + r")(?:\s*:|\s*=)\s")
USE = re.compile(r"^\s*(?:pub |ghost )*use ([^\s;{]+?)(?:\.\{([^}]*)\})?(?: as \S+)?;?\s*$")
TOKEN = re.compile(WORD)
SPAN = re.compile(r"`[^`\n]+`")
COMMENT = {".antt": "--", ".rt": "//"}


def antt_files(root):
    for folder, dirs, files in os.walk(os.path.join(root, "crates")):
        dirs[:] = sorted(d for d in dirs if d != "out")
        for name in sorted(files):
            if name.endswith((".antt", ".rt", ".edit")):
                yield os.path.join(folder, name)


def read(path):
    with open(path, encoding="utf-8") as it:
        return it.read()


def snake(name):
    return re.sub(r"(?<=[a-z0-9])([A-Z])", lambda m: "_" + m[1].lower(), name).replace("-", "_")


def turns(name):
    return name[:1].islower() and bool(re.search(r"[a-z0-9'][A-Z]|\w-\w", name))


def code_of(line, mark):
    """The line's code and its comment."""
    at = re.search(r"(?:^|(?<=\s))" + re.escape(mark) + r"(?=[\s-]|$)", line)
    return (line[: at.start()], line[at.start() :]) if at else (line, "")


class Turner:
    def __init__(self, root):
        self.root = root
        self.crates = set(os.listdir(os.path.join(root, "crates")))
        self.texts = {path: read(path) for path in antt_files(root)}
        self.declared = collections.defaultdict(set)
        for path, text in self.texts.items():
            if path.endswith(".antt") and not MADE.search(path):
                for line in text.splitlines():
                    code = code_of(line, "--")[0]
                    it = DECLARED.match(code)
                    if it:
                        self.declared[it[2]].add(path)
                    for name in LET.findall(code):
                        self.declared[name].add(path)
        self.table = self.spell()

    def spell(self):
        meets = collections.defaultdict(set)
        for name in self.declared:
            meets[snake(name) if turns(name) else name].add(name)
        table = {}
        for new, names in meets.items():
            for name in names:
                if not turns(name):
                    continue
                # the definition, which has no dash, keeps the plain name
                is_lemma = "-" in name and len(names) > 1
                table[name] = new + "_lem" if is_lemma else new
            # a lemma that is spelled so already, beside the definition that it speaks of
            if new in names and any("-" not in name and self.beside(new, name) for name in names if turns(name)):
                table[new] = new + "_lem"
        return table

    def beside(self, lemma, name):
        """Whether a file declares the lemma, outside any record, and has the name."""
        return any(re.search(rf"(?m)^(?:pub )?{re.escape(lemma)} :", self.texts[path]) and name in TOKEN.findall(self.texts[path]) for path in self.declared[lemma])

    def lent(self, path):
        """What the file takes from a library."""
        taken = set()
        for line in self.texts[path].splitlines():
            it = USE.match(line)
            if it and it[2]:
                steps = it[1].split(".")
                if steps[0] != "Rattle" or (len(steps) > 1 and steps[1] not in self.crates):
                    for part in it[2].split(","):
                        taken.add(part.strip().split(" as ")[-1].strip())
        return taken

    def owned(self, path):
        """What the file declares, or takes from the repository's own files."""
        own = {name for name, paths in self.declared.items() if path in paths}
        for line in self.texts[path].splitlines():
            it = USE.match(line)
            if it and it[2]:
                steps = it[1].split(".")
                if steps[0] == "Rattle" and len(steps) > 1 and steps[1] in self.crates:
                    for part in it[2].split(","):
                        own |= {word.strip() for word in part.strip().split(" as ")}
        return own

    def turned(self, path):
        text = self.texts[path]
        suffix = os.path.splitext(path)[1]
        lent, owned = self.lent(path), self.owned(path)
        stay = lent - {name for name in lent if path in self.declared.get(name, ())}
        made = bool(MADE.search(path))

        def word(m, line):
            name = m[0]
            if name not in self.table or name in stay:
                return name
            behind = line[m.start() - 1 : m.start()] == "."
            if not turns(name) and (behind or name not in owned):
                return name
            if made and (name not in owned or behind):
                return name
            if suffix == ".rt" and not turns(name):
                return name
            return self.table[name]

        def spans(text):
            return SPAN.sub(lambda s: TOKEN.sub(lambda m: self.table.get(m[0], m[0]) if turns(m[0]) else m[0], s[0]), text)

        lines = []
        for line in text.split("\n"):
            if suffix == ".edit":
                lines.append(TOKEN.sub(lambda m: self.table.get(m[0], m[0]) if turns(m[0]) else m[0], line))
                continue
            code, comment = code_of(line, COMMENT[suffix])
            lines.append(TOKEN.sub(lambda m: word(m, code), code) + spans(comment))
        new = "\n".join(lines)
        # names that fall together: the new spelling stood in the file already, for something else
        if suffix != ".edit":
            before = set(TOKEN.findall(text))
            for name in sorted(before & set(self.table)):
                to = self.table[name]
                if to in before and to not in self.table and name not in stay and (not made or name in owned) and to not in self.crates:
                    print(f"look: {os.path.relpath(path, self.root)}: {name} and {to}")
        return new

    def page(self, text):
        return SPAN.sub(lambda s: TOKEN.sub(lambda m: self.table.get(m[0], m[0]) if turns(m[0]) else m[0], s[0]), text)


def main(argv):
    root = os.getcwd()
    turner = Turner(root)
    new = {path: turner.turned(path) for path in turner.texts}
    for folder in (".", "docs", "examples", "bench"):
        for name in sorted(os.listdir(os.path.join(root, folder))):
            if name.endswith(".md"):
                path = os.path.join(root, folder, name)
                new[path] = turner.page(read(path))
    changed = [path for path in new if new[path] != read(path)]
    if "--check" not in argv:
        for path in changed:
            with open(path, "w", encoding="utf-8") as it:
                it.write(new[path])
    print(f"{len(turner.table)} names, {len(changed)} files")
    if "--table" in argv:
        for name in sorted(turner.table):
            print(f"{name}\t{turner.table[name]}")
    return 0


if __name__ == "__main__":
    raise SystemExit(main(sys.argv[1:]))
