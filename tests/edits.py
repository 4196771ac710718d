"""edits.py LIST CRATES LOG: where the prover loses the fact, for each must-fail edit.
edits.py --write LIST CRATES LOG: writes the list anew, and prints what moved; to be read before it is committed. An edit of which the log does not
tell keeps its line.

LIST has one line for each edit, `CRATE/EDIT FILE NAME`: the first fault that is told of it stands in the crate's FILE, in the declaration NAME (a goal of a
function, or a law). Of a function whose goals the tactics are left to prove FILE is `src/FILE.rt#FUNCTION`. CRATES/CRATE/must-fail/EDIT.edit are the
edits, LOG what `rt ci` or `rt must-fail` said of them, one line for each. Prints what is otherwise; exit 1 if anything is."""
import pathlib
import re
import sys

# What is said of an edit; a fault in a file, and a goal that nothing proves.
TOLD = re.compile(r'^rt: must-fail (?P<edit>[^/\s]+/\S+)\.edit: (?P<said>.*)', re.M)
REFUSED = 'refused, as it must be: '
ERROR = re.compile(r'(?:\./)?(?P<path>\S+):(?P<line>\d+):\d+: error: `(?P<name>[^`]+)`')
OPEN = re.compile(r'note: (?:\./)?(?P<path>\S+):(?P<line>\d+):\d+: .*?\(`(?P<name>[^`]+)`\)')
FUNCTION = re.compile(r'^\s*(?:pub(?:\([a-z]+\))?\s+)?(?:extern\s+"C"\s+)?fn\s+(\w+)')


def expectations(path):
    found = {}
    for line in path.read_text(encoding='utf-8').splitlines():
        words = line.partition(' # ')[0].split() if not line.startswith('#') else []
        if len(words) == 3 and words[0] not in found:
            found[words[0]] = ' '.join(words[1:])
        elif words:
            sys.exit(f'{path}: not one line `CRATE/EDIT FILE NAME` for an edit: {line}')
    return found


def enclosing(source, line):
    """The function in which a line of a source stands, an attribute's before it too. (An edit leaves every line where it is.)"""
    lines = source.read_text(encoding='utf-8').splitlines()
    while lines[line - 1].startswith('#['):
        line += 1
    names = [match[1] for match in map(FUNCTION.match, lines[:line]) if match]
    return names[-1] if names else '(no function)'


def first_fault(edit, said, crates):
    """The file, relative to the crate, and the declaration of the first fault; or why there is none."""
    if not said.startswith(REFUSED):
        return said.partition(':')[0]
    fault = ERROR.match(said[len(REFUSED):]) or OPEN.match(said[len(REFUSED):])
    if not fault:
        return f'no fault with a name: {said}'
    path = fault['path']
    if path.endswith('.rt'):
        source = crates / edit.partition('/')[0] / path
        path += f'#{enclosing(source, int(fault["line"]))}' if source.is_file() else ''
    return f"{path} {fault['name']}"


def faults(crates, log):
    """Of each edit that the log tells of, the first fault. Where it is told of twice, both must be the same."""
    found = {}
    for match in TOLD.finditer(log.read_text(encoding='utf-8', errors='replace')):
        fault = first_fault(match['edit'], match['said'], crates)
        found[match['edit']] = fault if found.get(match['edit'], fault) == fault else f'{found[match["edit"]]}, and {fault}'
    return found


def write(path, edits, found):
    """The list as it is found to be, below the comments that it begins with."""
    old = expectations(path) if path.is_file() else {}
    found = {**old, **found}
    known = [edit for edit in edits if re.fullmatch(r'\S+ \S+', found.get(edit, ''))]
    for edit in edits:
        if found.get(edit) != old.get(edit):
            print(f'{edit}: {old.get(edit, "not listed")} -> {found.get(edit, "not told of")}')
    head = [line for line in path.read_text(encoding='utf-8').splitlines() if line.startswith('#')] if path.is_file() else []
    wide = [max((len(cells[at]) for cells in ([edit, *found[edit].split()] for edit in known)), default=0) for at in (0, 1)]
    lines = [f'{edit:<{wide[0]}} {found[edit].split()[0]:<{wide[1]}} {found[edit].split()[1]}' for edit in known]
    path.write_text('\n'.join([*head, *lines, '']), encoding='utf-8')
    missing = sorted(set(edits) - set(known))
    print(f'edits: {len(known)} of {len(edits)} written' + (f'; not refused at a fault with a name: {", ".join(missing)}' if missing else ''))
    return 1 if missing else 0


def main(path, crates, log, is_to_write=False):
    path, crates, log = map(pathlib.Path, (path, crates, log))
    edits = {f'{edit.parts[-3]}/{edit.stem}' for edit in crates.glob('*/must-fail/*.edit')}
    if not log.is_file():
        print(f'edits: there is no log {log}: .ci/run leaves it, or `rt must-fail > {log}` makes it')
        return 1
    found = faults(crates, log)
    if is_to_write:
        return write(path, sorted(edits), found)
    expected = expectations(path)
    wrong = [f'{edit}: listed, and there is no such edit' for edit in sorted(expected.keys() - edits)]
    wrong += [f'{edit}: not listed' for edit in sorted(edits - expected.keys())]
    for edit in sorted(edits & expected.keys()):
        if found.get(edit) != expected[edit]:
            wrong.append(f'{edit}: expected {expected[edit]}, found {found.get(edit, "nothing in the log")}')
    print('\n'.join(wrong + [f'edits: {len(edits)}, {len(wrong)} faults']))
    return 1 if wrong or not edits else 0


if __name__ == '__main__':
    sys.exit(main(*sys.argv[2:], True) if sys.argv[1] == '--write' else main(*sys.argv[1:]))
