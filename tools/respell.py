#!/usr/bin/env python3
"""Spells the repository's own definitions and lemmas in snake case, after /opt/rattle/port/port.py, which turns only some of them.

usage: respell.py [--table FILE] [--report] TOP

A definition or lemma that specs/ or proofs/ declares, or a field of a record of theirs, loses its capitals and its dashes: `firstNot-is` is
`first_not_is`. Types keep their capitals. A lemma that would then have the name of a definition gets `_lem`, as the library's own do. Names
that Rattle makes of the source (`tie.Need-..`, the proof `statement` of a function) stay. --table writes each old name beside its new one,
--report lists files in which a new name stood already and changes nothing.
"""

import os
import re
import sys

WORD = r'[^\s(){}.;,@"«»⟨⟩]+'
DECLARED = re.compile(r"(?m)^( *)((?:(?:unfoldable|abbrev|pub|data|record|axiom) +)*)(" + WORD + r")((?: +\{[^{}\n]*\})*) :(?= |$)")
PLAIN = re.compile(r"^[A-Za-z][A-Za-z0-9_'-]*$")
TOKEN = re.compile(WORD)
QUIET = re.compile(r'"(?:[^"\\\n]|\\.)*"|--[^\n]*|\{-.*?-\}', re.S)
QUIET_RT = re.compile(r'b?"(?:[^"\\\n]|\\.)*"|//[^\n]*')
CAMEL = re.compile(r"[a-z0-9][A-Z]")

# A lemma and a definition would share these names, or a lemma would share one with what a file has of its own: the lemma's is on the left.
OTHER = {}


def files(top):
    for folder, dirs, names in os.walk(os.path.join(top, "crates")):
        dirs[:] = sorted(d for d in dirs if d != "out")
        for name in sorted(names):
            if name.endswith((".antt", ".rt", ".edit")):
                yield os.path.join(folder, name)


def read(path):
    with open(path, encoding="utf-8") as f:
        return f.read()


def snake(name):
    if not name[0].isupper():
        name = re.sub(r"(?<=[a-z0-9])[A-Z]", lambda m: "_" + m[0].lower(), name)
    return name.replace("-", "_")


def declared(top):
    """Each declared name, with whether specs/ declare it."""
    found = {}
    for path in files(top):
        if not path.endswith(".antt"):
            continue
        for m in DECLARED.finditer(read(path)):
            kind = read(path)[m.end() : m.end() + 200].split("\n\n")[0]
            if "tie." in kind or re.search(r"\bstatement\b", kind) or not PLAIN.match(m[3]):
                continue
            found[m[3]] = found.get(m[3], False) or "/specs/" in path or bool(CAMEL.search(m[3]))
    return found


def table(top):
    found = declared(top)
    names = {}
    for name in found:
        names.setdefault(snake(name), []).append(name)
    turned = {}
    for new, olds in names.items():
        for old in olds:
            clash = len(olds) > 1 and not found[old]
            to = OTHER.get(old, new + "_lem" if clash else new)
            if to != old:
                turned[old] = to
    return turned


def turn(text, turned, quiet, dashes_in_comments=False):
    def word(m):
        return turned.get(m[0], m[0])

    def comment(m):
        if m[0].startswith(("--", "//", "{-")):
            return TOKEN.sub(lambda w: turned[w[0]] if w[0] in turned and CAMEL.search(w[0]) else w[0], m[0])
        return m[0]

    out, at = [], 0
    for m in quiet.finditer(text):
        out += [TOKEN.sub(word, text[at : m.start()]), comment(m)]
        at = m.end()
    return "".join(out + [TOKEN.sub(word, text[at:])])


def turned_file(path, turned):
    text = read(path)
    if path.endswith(".antt"):
        return text, turn(text, turned, QUIET)
    # Code has neither capitals within a word nor dashes within a name, so that only clauses and comments change.
    camel = {old: new for old, new in turned.items() if "-" not in old and CAMEL.search(old)}
    if path.endswith(".edit"):
        return text, TOKEN.sub(lambda m: camel.get(m[0], m[0]), text)
    return text, turn(text, camel, QUIET_RT)


def report(top, turned):
    for path in files(top):
        text = read(path)
        if path.endswith(".antt"):
            text = QUIET.sub(" ", text)
        words = {m[0] for m in TOKEN.finditer(re.sub(r"\." + WORD, " ", text))}
        every = {m[0] for m in TOKEN.finditer(text)}
        for old in sorted(every & set(turned)):
            if turned[old] in words:
                print(f"{path}: {old} -> {turned[old]}, which stands there already")


def main(argv):
    top = argv[-1]
    turned = table(top)
    if "--table" in argv:
        with open(argv[argv.index("--table") + 1], "w", encoding="utf-8") as f:
            f.writelines(f"{old}\t{new}\n" for old, new in sorted(turned.items()))
    if "--report" in argv:
        report(top, turned)
        return
    for path in files(top):
        before, after = turned_file(path, turned)
        if after != before:
            with open(path, "w", encoding="utf-8") as f:
                f.write(after)


main(sys.argv)
