"""built.py ROOT: the MIR that the rules read is that of the sources below ROOT, as the proved libraries have it. Every function that a wrong program of
edits.py changes is compiled anew from the sources as they stand, and compared with the library's; so what is found in a wrong program is its own. (That
the libraries are of these sources, all of them, tests/libraries.py sees to.)"""
import multiprocessing
import os
import pathlib
import sys

from edits import EDITS
from mir import Refused, Unknown, functions_of
from libraries import mir_file
from source import compiled, functions_in, path_of


def changed_by_edits(root):
    """By crate, the functions that the edits change, as far as the sources have them."""
    found = {}
    for _, _, files in EDITS:
        for path, pairs in files.items():
            if not path.endswith('.rt'):
                continue
            inside = pathlib.Path(path)
            before = after = (root / 'crates' / path).read_text()
            for old, new in pairs:
                after = after.replace(old, new)
            was, now = functions_in(before), functions_in(after)
            module = path_of(pathlib.Path(*inside.parts[2:]))
            names = {f'{module}::{name}' if module else name for name in was if now.get(name) != was[name]}
            found.setdefault(inside.parts[0], set()).update(names)
    return {crate: sorted(names) for crate, names in found.items() if names}


def by_name(term):
    """A body with each function that it calls by its name alone."""
    if isinstance(term, dict):
        return {'Fn': term['Fn'][0]} if 'Fn' in term else {word: by_name(has) for word, has in term.items()}
    return list(map(by_name, term)) if isinstance(term, list) else term


def plain(function):
    """What is compared of a function. (Of a constant that is lent, which bytes it has is not read, nor for which types a generic function is called.)"""
    body = [{'LendStatic': [*part['LendStatic'][:2], 'Unread']} if isinstance(part, dict) and 'LendStatic' in part else by_name(part) for part in function['body']]
    types = sorted((one['name'], str(one['shape'])) for one in function['types'])
    return function['params'], function['locals'], types, body


def compare(root, folder, crate, names):
    """The functions of a crate that the sources in a folder have otherwise than the library."""
    try:
        made = compiled(root, folder, crate, names, set())
    except (Refused, Unknown) as why:
        return [f'{crate}: {why}']
    built = functions_of(mir_file(root, crate))
    return sorted(name for name, function in made.items() if name not in built or plain(function) != plain(built[name]))


def main(root):
    crates = changed_by_edits(root)
    with multiprocessing.Pool(int(os.environ.get('JOBS', '2'))) as pool:
        different = sum(pool.starmap(compare, [(root, root, crate, names) for crate, names in crates.items()], 1), [])
    for name in different:
        print(f'stores: {name} is another function, or none, in the proved library')
    compared = sum(map(len, crates.values()))
    if not different:
        print(f'stores: {compared} functions, compiled anew, are in the proved libraries as they are in the sources')
    return bool(different) or not compared


if __name__ == '__main__':
    sys.exit(main(pathlib.Path(sys.argv[1]).resolve()))
