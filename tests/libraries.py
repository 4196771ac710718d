"""The libraries of the project as the toolchain builds them, for tests that link them or read their MIR.

Usage: libraries.py archive NAME   the static library NAME, target/staticlib/libNAME.a
       libraries.py program NAME   the program NAME, target/bin/NAME
       libraries.py mir            every library of crates.txt, with its MIR: `mir_file` says where
       libraries.py left SUM       notes what `rt ci` has left in crates/*/out, if the sources still have that sum: .ci/run calls this

What is there already is taken where the sources are those that it was made of. So are the libraries and programs that `rt ci` has left, where they and
the sources are as they were noted. Otherwise `rt lib` and `rt run` make what is missing, over what earlier checks kept.
"""
import functools
import hashlib
import json
import pathlib
import shutil
import subprocess
import sys
import tempfile

PARTS = ('src', 'specs', 'proofs')


class Failed(Exception):
    """What should have been made was not."""


# ---- the crates


@functools.cache
def listed(root):
    """The crates of crates.txt: each with whether it is a static library, and what it needs."""
    found = {}
    for line in (root / 'crates.txt').read_text(encoding='utf-8').splitlines():
        head, _, needs = line.partition('#')[0].partition(':')
        if head.split():
            found[head.split()[0]] = ('staticlib' in head.split()[1:], needs.split())
    return found


def libraries(root):
    """The crates that are libraries, static ones among them."""
    return [name for name in listed(root) if (root / 'crates' / name / 'src' / 'lib.rt').is_file()]


def is_static(root, name):
    return listed(root)[name][0]


def below(root, name):
    """The crates that a crate needs, and those that these need, lowest first."""
    found = []
    for need in listed(root)[name][1]:
        if need in listed(root):
            found += [one for one in [*below(root, need), need] if one not in found]
    return found


def of_kit(root, name):
    """The kit's libraries that a crate needs."""
    return ['std', *(need for need in listed(root)[name][1] if need not in listed(root))]


@functools.cache
def kit():
    """The kit's folder."""
    guide = subprocess.run(['rt', 'doc'], capture_output=True, text=True, check=True).stdout.strip()
    return pathlib.Path(guide).parent


def rlib(root, name):
    """Where the library stands that a check built."""
    return root / 'crates' / name / 'out' / 'rlib' / f'{name}.rlib'


def words(root, name, code=None, sources=(), folder=None):
    """How rattle is called for a crate over the libraries in root: its root file, or that of a copy whose crates.txt stands in `folder`, and the libraries
    below it, built or, where `sources` names them, as files."""
    folder = folder or root
    found = ['--crate-name', name, str(code or root / 'crates' / name / 'src' / 'lib.rt'), '--links', f'{name}=']
    kits = [need for one in [name, *sources] for need in of_kit(folder, one)] + ['core'] * bool(sources)
    for need in dict.fromkeys(kits):
        found += ['--extern', f'{need}={kit()}/rlibs/{need}.rlib']
    found += ['-L', f'dependency={kit()}/rlibs']
    named = {need for one in [name, *sources] for need in listed(folder)[one][1]}
    for need in below(folder, name):
        if need in sources:
            used = ','.join(dict.fromkeys(['core', *of_kit(folder, need), *listed(folder)[need][1]]))
            found += ['--lib', f'{need}:{used}={sources[need]}']
            continue
        if need in named:
            found += ['--extern', f'{need}={rlib(root, need)}']
        found += ['-L', f'dependency={rlib(root, need).parent}']
    return [*found, '--antt-project', f'{kit()}/rattle/logic/antt-project.json', '--logic-built', f'{kit()}/logic_built']


def rattle(*words, folder):
    """Runs rattle; gives its status and what it said."""
    ran = subprocess.run([kit() / 'bin' / 'rattle', *words], cwd=folder, stdin=subprocess.DEVNULL, stdout=subprocess.PIPE, stderr=subprocess.STDOUT,
                         text=True, errors='replace')
    return ran.returncode, ran.stdout


# ---- what is made of which sources


@functools.cache
def sum_of(root):
    """A sum of all that the proofs are of: see tests/sources."""
    return subprocess.run(['bash', root / 'tests' / 'sources'], capture_output=True, text=True, check=True).stdout.strip()


def is_of_these(root, made):
    """Whether a file is there and was made of the sources as they are."""
    note = made.with_name(f'{made.name}.sources')
    return made.is_file() and note.is_file() and note.read_text().strip() == sum_of(root)


def note(root, made):
    made.with_name(f'{made.name}.sources').write_text(f'{sum_of(root)}\n')


def in_out(root, name):
    """What a check leaves of a crate in its out/, by which it is known: of a library the file that has the sums of the others, and a program. A library
    that has a stamp is one of `rt lib`, which looks after it itself."""
    format, program = rlib(root, name) / 'format', root / 'crates' / name / 'out' / name
    files = [file for file in (format, program) if file.is_file() and not (file == format and (rlib(root, name).parent / 'stamp').exists())]
    return {file.name: hashlib.sha256(file.read_bytes()).hexdigest() for file in files}


def note_left(root, sources):
    """Notes what `rt ci` has left, if the sources are still those that it began with."""
    noted = root / 'target' / 'left.json'
    noted.parent.mkdir(exist_ok=True)
    noted.unlink(missing_ok=True)
    if sources == sum_of(root):
        noted.write_text(json.dumps({'sources': sources, 'crates': {name: in_out(root, name) for name in listed(root)}}, indent=1))


def left_by_ci(root, names):
    """Whether what stands in the out/ of these crates is what `rt ci` left there, of the sources as they are."""
    noted = root / 'target' / 'left.json'
    said = json.loads(noted.read_text()) if noted.is_file() else {}
    return said.get('sources') == sum_of(root) and all(said['crates'].get(name) and said['crates'][name] == in_out(root, name) for name in names)


def run_rt(root, name, *words):
    """Runs rt in a crate's folder, and shows its own lines as they come, and the last one."""
    last = []
    with subprocess.Popen(['rt', *words], cwd=root / 'crates' / name, stdin=subprocess.DEVNULL, stdout=subprocess.PIPE, stderr=subprocess.STDOUT,
                          text=True, errors='replace') as ran:
        for line in ran.stdout:
            last = [*last[-40:], line]
            if line.startswith('rt:'):
                print(line, end='', flush=True)
    if ran.returncode:
        raise Failed(f'rt {words[0]} failed in crates/{name}:\n{"".join(last)}')
    print(last[-1] if last else '', end='', flush=True)


def build(root, name, made, *more):
    """Has rattle build a crate over the libraries in out/, and over what earlier checks or builds of the crate left there."""
    out = root / 'crates' / name / 'out'
    work = out / 'incremental' if (out / 'incremental').is_dir() else out / 'work'
    work.mkdir(parents=True, exist_ok=True)
    status, said = rattle('build', *words(root, name), '--jobs', '2', '--incremental', str(work), *more, '-o', str(made), folder=root / 'crates' / name)
    if status:
        raise Failed(f'{name} was not built:\n{said}')
    print(said.splitlines()[-1], flush=True)


# ---- what tests ask for


def archive(root, name):
    made = root / 'target' / 'staticlib' / f'lib{name}.a'
    if is_of_these(root, made):
        return
    made.parent.mkdir(parents=True, exist_ok=True)
    made.unlink(missing_ok=True)
    if left_by_ci(root, below(root, name)):
        build(root, name, made, '--crate-type', 'staticlib', '--toolchain', f'{kit()}/toolchain', '--backend', 'llvm')
    else:
        run_rt(root, name, 'lib')
        shutil.copyfile(root / 'crates' / name / 'out' / f'lib{name}.a', made)
    note(root, made)


def program(root, name):
    made = root / 'target' / 'bin' / name
    if is_of_these(root, made):
        return
    made.parent.mkdir(parents=True, exist_ok=True)
    made.unlink(missing_ok=True)
    built = root / 'crates' / name / 'out' / name
    if not left_by_ci(root, [name]):
        run_rt(root, name, 'run')
    shutil.copy(built, made)
    note(root, made)


def mir_file(root, name):
    """Where a library's MIR stands: in its rlib, or for a static library, which has none, apart."""
    if is_static(root, name):
        return root / 'target' / 'mir' / f'{name}.json'
    return rlib(root, name) / 'toolchain' / 'mir.json'


def mir(root):
    static = [name for name in libraries(root) if is_static(root, name)]
    others = [name for name in libraries(root) if name not in static]
    tops = [name for name in others if not any(name in below(root, other) for other in others)]
    if not left_by_ci(root, others):
        for name in tops:
            run_rt(root, name, 'lib')
    for name in static:
        made = mir_file(root, name)
        if is_of_these(root, made):
            continue
        made.parent.mkdir(parents=True, exist_ok=True)
        with tempfile.TemporaryDirectory() as room:
            build(root, name, pathlib.Path(room) / f'{name}.rlib')
            shutil.copyfile(pathlib.Path(room) / f'{name}.rlib' / 'toolchain' / 'mir.json', made)
        note(root, made)


def main(what='', *names):
    root = pathlib.Path(__file__).resolve().parent.parent
    try:
        if what == 'mir' and not names:
            mir(root)
        elif what == 'left' and len(names) == 1:
            note_left(root, *names)
        elif what in ('archive', 'program') and len(names) == 1:
            {'archive': archive, 'program': program}[what](root, *names)
        else:
            sys.exit(__doc__)
    except Failed as failed:
        sys.exit(f'libraries: {failed}')


if __name__ == '__main__':
    main(*sys.argv[1:])
