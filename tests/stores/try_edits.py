"""try_edits.py ROOT: applies each edit of edits.py to a copy of the sources below ROOT; the rules must find each, for the reason that it names. And
puts forms into the MIR that no rule covers; each must be an error. And puts a store into every function that gets the image, `&` or `&mut`."""
import json
import multiprocessing
import os
import pathlib
import shutil
import sys
import tempfile

from built import compare
from check import judge
from edits import EDITS, FORMS
from flow import Flows
from mir import Assign, Program, Refused, Unknown, kit_functions, library_functions
from rules import SESSION_CALLS, Findings
from source import compiled, compiled_together, other_functions

# The functions of the libraries by their names, and how many edits are compiled in one run at most.
FUNCTIONS, TOGETHER = {}, 12


def copy_sources(root, folder):
    shutil.copy(root / 'crates.txt', folder)
    shutil.copytree(root / 'include', folder / 'include')
    for source in sorted(root.glob('crates/*/src')):
        shutil.copytree(source, folder / source.relative_to(root))


def apply(files, folder):
    for path, pairs in files.items():
        file = folder / 'crates' / path
        text = file.read_text()
        for old, new in pairs:
            if text.count(old) != 1:
                return f'the edit does not fit: {text.count(old)} times in {path}: {old!r}'
            text = text.replace(old, new)
        file.write_text(text)
    return None


class Attempt:
    """An edit, applied to a copy of the sources: what it changes there, and the MIR of that, or why there is none."""

    def __init__(self, root, folder, edit):
        self.title, self.words, files = edit
        self.folder, self.made, self.why = folder, {}, None
        copy_sources(root, folder)
        self.misfit = apply(files, folder)
        self.changed, self.crates = ({}, set()) if self.misfit else other_functions(root, folder)
        self.changed = {crate: names for crate, names in self.changed.items() if names}
        self.has_list = (folder / 'crates.txt').read_text() != (root / 'crates.txt').read_text()

    def alone_in(self):
        """The crate, where all that is changed is in one, and its libraries are what they were."""
        return next(iter(self.changed)) if len(self.crates) == 1 and self.changed and not self.has_list else None

    def found(self, root):
        """None if the edit is found, else what happened instead."""
        if self.misfit:
            return f'{self.title}: {self.misfit}'
        broken = [self.why]
        if not self.why:
            broken, _ = judge(self.folder, list({**FUNCTIONS, **self.made}.items()))
        if any(self.words in line for line in broken):
            return None
        return f'{self.title}: was not found as expected ({self.words}); found: {broken or "nothing"}'


def compile_one(root, attempt):
    """The MIR of what an edit changes, or why there is none."""
    try:
        made = {}
        for crate, names in attempt.changed.items():
            made.update(compiled(root, attempt.folder, crate, names, attempt.crates - {crate}))
        return made, None
    except Refused as refused:
        return {}, f'refused by the compiler: {refused}'
    except Unknown as unknown:
        return {}, f'not understood: {unknown}'


def compile_some(root, attempts):
    """The same of several edits: in one run, where all that they change is in one crate and nothing is refused."""
    crate = attempts[0].alone_in()
    if len(attempts) > 1:
        try:
            return [(made, None) for made in compiled_together(root, crate, [(one.folder, one.changed[crate]) for one in attempts])]
        except (Refused, Unknown):
            pass
    return [compile_one(root, one) for one in attempts]


def in_batches(attempts):
    """The edits that are compiled in one run, those that change most first."""
    by_crate, batches = {}, []
    for attempt in attempts:
        if attempt.alone_in():
            by_crate.setdefault(attempt.alone_in(), []).append(attempt)
        elif attempt.changed:
            batches.append([attempt])
    for some in by_crate.values():
        batches += [some[at:at + TOGETHER] for at in range(0, len(some), TOGETHER)]
    return sorted(batches, key=len, reverse=True)


def other_than_built(root):
    """None if a source that is not the proved one is told from it, else what happened instead."""
    with tempfile.TemporaryDirectory() as name:
        folder = pathlib.Path(name).resolve()
        copy_sources(root, folder)
        apply(EDITS[0][2], folder)
        different = compare(root, folder, 'steps', ['beginning::stage_image', 'beginning::stage_table'])
    return None if different == ['steps::beginning::stage_image'] else f'an edited source was not told from the proved one; found: {different}'


def put_form(root, old, new):
    """None if a form that stands for another is refused, else what happened instead."""
    text = json.dumps(list(FUNCTIONS.items()))
    if old not in text:
        return f'the MIR has no {old}'
    broken, _ = judge(root, json.loads(text.replace(old, new, 1)))
    return None if any('not understood' in line for line in broken) else f'{new} for {old} was not refused; found: {broken or "nothing"}'


def stores_everywhere(root):
    """What happens where a store is put into each function that a call hands the image to: those in which it is not found, and how many there are."""
    program = Program(list(FUNCTIONS.items()), kit_functions)
    missed, tried = [], 0
    for name in SESSION_CALLS:
        for function, parameters in Flows(program, f'gateway::teplovist_{name}', 1).flows:
            for parameter in parameters:
                tried += 1
                if not finds_store(root, program, name, function, parameter):
                    missed.append(f'a store of {name} in {function} was not found')
    return missed, tried


def finds_store(root, program, name, function, parameter):
    changed = program.function(function)
    statements = changed.statements
    byte = [{'Deref': {'Int': 8}}]
    steps = [{'Field': 0}, *byte] if changed.locals[parameter][0] == 'struct' else byte
    changed.statements = [Assign([{'local': parameter, 'steps': steps}, {'Opd': {'Int': {'width': 8, 'value': 0}}}], False), *statements]
    findings = Findings(root, program)
    findings.stores_of(name)
    changed.statements = statements
    found = [f'the image is stored to by {function}:', f'expected one store statement in {function},']
    return any(words in line for words in found for line in findings.broken)


def main(root, *chosen):
    FUNCTIONS.update(library_functions(root))
    edits = [edit for edit in EDITS if not chosen or edit[0] in chosen]
    with tempfile.TemporaryDirectory() as name, multiprocessing.Pool(int(os.environ.get('JOBS', '2'))) as pool:
        room = pathlib.Path(name).resolve()
        attempts = []
        for at, edit in enumerate(edits):
            (room / str(at)).mkdir()
            attempts.append(Attempt(root, room / str(at), edit))
        batches = in_batches(attempts)
        for some, made in zip(batches, pool.starmap(compile_some, [(root, some) for some in batches], 1)):
            for attempt, (attempt.made, attempt.why) in zip(some, made):
                pass
        results = pool.starmap(Attempt.found, [(attempt, root) for attempt in attempts])
        results.append(pool.apply(other_than_built, [root]))
        results += pool.starmap(put_form, [(root, old, new) for old, new in FORMS])
    missed, tried = stores_everywhere(root)
    missed += [result for result in results if result]
    for line in missed:
        print(f'stores: {line}')
    if not missed:
        print(f'stores: each of {len(edits)} wrong programs was found, and a store put in each of {tried} places; '
              f'{len(FORMS)} unknown forms were refused')
    return bool(missed)


if __name__ == '__main__':
    sys.exit(main(pathlib.Path(sys.argv[1]).resolve(), *sys.argv[2:]))
