"""Checks the citations `FILE#NAME` and `FILE` of the pages that are given, and the links [`NAME`](FILE) to files of ours, and prints those that do not
hold. A file is named from the project's root or from the page; what a build makes (target/) is not looked for."""
import os
import re
import sys

ITEM = r'^\s*(?:pub(?:\([a-z]+\))?\s+)?(?:extern\s+"C"\s+)?(?:fn|struct|enum|const|mod)\s+{name}(?!\w)'

# What defines NAME, by the kind of file: an item of Rattle or Rust; a signature or a declaration of antt, which within a section is public
# (an indented one without `pub` is a helper of a proof); a function of Python or of a shell script.
DEFINITIONS = {
    '.antt': r'^(?:(?:unfoldable\s+|abbrev\s+)?(?:pub\s+)?|\s+(?:unfoldable\s+|abbrev\s+)?pub\s+)'
             r'(?:(?:record|data)\s+{name}(?=\s|$)|{name}\s+:(?=\s))',
    '.rt': ITEM,
    '.rs': ITEM,
    '.py': r'^\s*def\s+{name}\(',
    '.sh': r'^\s*{name}\(\)',
}

# Words that a pattern could take for a name, as `fn` in `const fn`.
KEYWORDS = frozenset('const else enum extern fn for if impl in let loop match mod mut pub return static struct trait type use where while'.split())


def cited(page):
    for number, line in enumerate(open(page, encoding='utf-8'), 1):
        for text in re.findall(r'`([^`]+)`', line):
            if re.fullmatch(r'[\w./-]+/[\w.-]+(?:#\S+)?', text) and not text.startswith('target/'):
                beside = os.path.join(os.path.dirname(page), text)
                yield number, os.path.normpath(beside) if os.path.exists(beside.partition('#')[0]) else text
        for name, target in re.findall(r'\[`([^`/]+)`\]\(([^)]+)\)', line):
            yield number, os.path.normpath(os.path.join(os.path.dirname(page), target)) + '#' + name


def defines(path, name):
    pattern = DEFINITIONS.get(os.path.splitext(path)[1])
    if pattern is None or name in KEYWORDS:
        return False
    return re.search(pattern.format(name=re.escape(name)), open(path, encoding='utf-8').read(), re.M) is not None


def fault(text):
    path, mark, name = text.partition('#')
    if not os.path.exists(path):
        return f'no file {path}'
    if mark and not defines(path, name):
        return f'{path} defines no {name}'
    return None


def main(pages):
    checked, faults = 0, []
    for page in pages:
        if not os.path.exists(page):
            faults.append(f'no page {page}')
            continue
        for number, text in cited(page):
            checked += 1
            reason = fault(text)
            if reason:
                faults.append(f'{page}:{number}: {reason}')
    print('\n'.join(faults + [f'claims: {checked} citations, {len(faults)} wrong']))
    return 1 if faults or checked == 0 else 0


sys.exit(main(sys.argv[1:]))
