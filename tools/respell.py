#!/usr/bin/env python3
"""Spells this repository's own names as today's Rattle does: definitions, lemmas and labels in snake case.

usage: tools/respell.py    at the top of the repository, once, after the port.py of the kit

It reads which names specs/ and the lemma files of proofs/ declare. A name in camel case or with dashes becomes its words with
underscores: `everyBelow` is `every_below`, `sent-one` is `sent_one`. Types, modules, functions of src/, exported names, texts
in quotes and what another library declares keep their names. Where two names would fall together, the definition has the plain
name, the lemma ends in `_lem` and the label of a record in `_holds`. Comments and pages turn in their code spans alone.
"""

import collections
import os
import re
import sys

HEAD = re.compile(r'^( *)(?:(?:abbrev|unfoldable|pub|opaque|private|instance) +)*([^\s(){}.;,@"]+)(?: \{[^{}\n]*\}| \([^()\n]*\))* :(?= |$)')
WORD = re.compile(r'[^\s(){}.;,@"«»:`\[\]|]+')
USE = re.compile(r"(?m)^\s*(?:ghost )?use ([^\s{;]+)\.\{([^}]*)\}")
PIECES = re.compile(r'"(?:[^"\\\n]|\\.)*"|(?:--|//)[^\n]*', re.S)
SPAN = re.compile(r"`[^`\n]+`")
NOT_NAMES = {"data", "record", "use", "where", "let", "in", "elim"}


def read(path):
    with open(path, encoding="utf-8") as f:
        return f.read()


def below(top, endings):
    for folder, dirs, files in os.walk(top):
        dirs[:] = sorted(d for d in dirs if d not in ("out", "target", ".git"))
        for f in sorted(files):
            if f.endswith(endings):
                yield os.path.join(folder, f)


def snake(name):
    return re.sub(r"(?<=[a-z0-9])[A-Z]|(?<=[A-Z])[A-Z](?=[a-z])", lambda m: "_" + m[0], name).lower().replace("-", "_") if re.match(r"[a-z]", name) else name


def of_functions(path):
    """Whether a file is a function's own proof, in a folder of proofs/: its names are Rattle's, but for helpers."""
    return re.search(r"/proofs/.*/(Proof|Answers|Invariants)\.antt$", path) is not None


class Names:
    def __init__(self):
        self.kinds = collections.defaultdict(set)  # a name: {'spec', 'lemma', 'label'}
        self.at = collections.defaultdict(dict)  # a file: name -> kind
        self.brought = {}  # a file: the names that it imports
        for path in below("crates", ".antt"):
            text = read(path)
            self.brought[path] = {re.split(" as ", it.strip())[0] for _, items in USE.findall(text) for it in items.split(",")}
            if of_functions(path):
                continue
            kind = "spec" if "/specs/" in path else "lemma"
            for line in text.split("\n"):
                m = HEAD.match(line)
                if m and m[2] not in NOT_NAMES and re.match(r"[a-z]", m[2]):
                    it = "label" if m[1] else kind
                    self.kinds[m[2]].add(it)
                    self.at[path].setdefault(m[2], it)
        groups = collections.defaultdict(set)
        for name in self.kinds:
            groups[snake(name)].add(name)
        self.plain, self.lemma, self.label = {}, {}, {}
        for new, group in groups.items():
            first = min(group, key=lambda n: ("spec" not in self.kinds[n], not re.search("[a-z0-9][A-Z]", n), "-" in n, n))
            for name in group:
                if name != new:
                    self.plain[name] = new
                if name != first:
                    self.lemma[name] = new + "_lem"
                    self.label[name] = new + "_holds"

    def turned(self, path, word, after_dot):
        if word not in self.kinds:
            return word
        here = self.at.get(path, {}).get(word)
        if after_dot:
            if "label" in self.kinds[word] and word in self.label:
                return self.label[word] if word != snake(word) or here == "label" else word
            return self.plain.get(word, word)
        if here == "label" and word in self.label:
            return self.label[word]
        if word in self.lemma and (here or word in self.brought.get(path, ())):
            return self.lemma[word]
        return self.plain.get(word, word)

    def code(self, path, text):
        def one(m):
            word = m[0]
            before = text[m.start() - 1] if m.start() else " "
            return self.turned(path, word, before == ".")

        return WORD.sub(one, text)

    def file(self, path, text):
        out, at = [], 0
        for m in PIECES.finditer(text):
            out.append(self.code(path, text[at : m.start()]))
            out.append(m[0] if m[0].startswith('"') else SPAN.sub(lambda s: self.code(path, s[0]), m[0]))
            at = m.end()
        return "".join(out) + self.code(path, text[at:])

    def page(self, path, text):
        return SPAN.sub(lambda s: self.code(path, s[0]), text)

    def edit(self, path, text):
        where, of = os.path.dirname(os.path.dirname(path)), ""
        out = []
        for line in text.split("\n"):
            m = re.match(r"file: *(.*)", line)
            if m:
                of = os.path.join(where, m[1].strip())
            m = re.match(r"((?:old|new):)(.*)", line)
            out.append(m[1] + self.file(of, m[2]) if m else SPAN.sub(lambda s: self.code(of, s[0]), line))
        return "\n".join(out)


def main():
    if not os.path.isdir("crates"):
        print(__doc__)
        return 2
    names = Names()
    changed = 0
    for path in [*below("crates", (".antt", ".rt", ".edit")), *below("docs", ".md"), "README.md"]:
        old = read(path)
        new = (names.edit if path.endswith(".edit") else names.page if path.endswith(".md") else names.file)(path, old)
        if new != old:
            with open(path, "w", encoding="utf-8") as f:
                f.write(new)
            changed += 1
    for name in sorted(names.lemma):
        print("fell together:", name, "->", names.lemma[name] if "label" != min(names.kinds[name]) else names.label[name], sorted(names.kinds[name]))
    print(f"respell: {len(names.plain)} names, {changed} files")
    return 0


if __name__ == "__main__":
    sys.exit(main())
