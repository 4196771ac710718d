#!/usr/bin/env python3
"""Brings the pages to the names that the port gave: respell_pages.py TABLE PAGE.., where TABLE has a row for each name, old, a tab, new.

Within code spans and blocks every name turns; outside of them only one with a capital inside a word, which no English word has.
"""

import re
import sys

CODE = re.compile(r"```.*?```|`[^`\n]*`", re.S)
NAME = re.compile(r"(?<![\w'·-])[A-Za-z][\w'-]*(?![\w·])")
CAMEL = re.compile(r"[a-z0-9][A-Z]")


def main(table, pages):
    with open(table, encoding="utf-8") as f:
        turned = dict(line.rstrip("\n").split("\t") for line in f)
    for page in pages:
        with open(page, encoding="utf-8") as f:
            text = f.read()

        def name(m):
            return turned.get(m[0], m[0])

        def prose(part):
            return NAME.sub(lambda m: turned[m[0]] if m[0] in turned and CAMEL.search(m[0]) else m[0], part)

        out, at = [], 0
        for m in CODE.finditer(text):
            out += [prose(text[at : m.start()]), NAME.sub(name, m[0])]
            at = m.end()
        new = "".join(out + [prose(text[at:])])
        if new != text:
            with open(page, "w", encoding="utf-8") as f:
                f.write(new)


main(sys.argv[1], sys.argv[2:])
