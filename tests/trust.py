"""What a reader has to believe, computed from what the public contracts and the closed statements use; docs/TRUST.md must list it.

Usage: trust.py PAGE [BASE ALL]. From the names that the contracts of the public calls import, and from every closed statement that a function of any
crate ensures, every definition that they rest on is followed, through the imports of the specs. The page's first list has six parts: the files of specs of the base, of the requests, of the C boundary and of 01's examples, the files of
Rattle that declare types which the definitions are over, and the modules of the kit: those that declare the names, whatever module they are passed on
by. What is reached must be listed, and what is listed must be reached;
each part of specs says how many lines of definitions it has, without imports and comments. Whatever 01's calls rest on must be listed among the base;
its lines, with those that its statements add, may be at most BASE (1,200), and all together at most ALL (2,400)."""
import functools
import glob
import os
import re
import subprocess
import sys

# The public calls.
PUBLIC = ['crates/container/src/reading.rt', 'crates/container/src/sessions.rt', 'crates/container/src/blocks.rt', 'crates/save/src/calls.rt',
          'crates/signing/src/digests.rt', 'crates/blank/src/making.rt', 'crates/gateway/src/lib.rt']

# A closed statement that a function ensures: it speaks of no argument and no result.
CLOSED = re.compile(r'^ +ensures(?: \w+)? \{ (?!result\b)(\w+) \}', re.M)

# 01's calls, and the statements on them. The statements speak of every call that there is, so that of them only what lies in the base's files counts.
CALLS = {
    'crates/container/src/reading.rt': ['open', 'read_committed', 'read_staged', 'verified', 'count_verified'],
    'crates/container/src/sessions.rt': ['new', 'begin', 'write', 'commit', 'abandon'],
}
STATEMENTS = {'crates/history/src/lib.rt': ['demand3', 'read_back']}

SPECS = ['Of the base', 'Of the requests', 'Of the C boundary', "Of 01's examples"]
TYPES, KIT = 'The types', "The kit's"

# An import of names, of a module by another name, or of a module by its own.
IMPORT = re.compile(r'^(?:ghost )?use ([^\s{;:]+?)\.?(?:\{([^}]*)\}| as (\w+)|(?=;?$))', re.M)
CODE = re.compile(r'^(?:ghost )?use [^;]*;', re.M)
OURS = re.compile(r'Rattle\.(\w+)\.specs\.(\w+)$')
DECLARED = re.compile(r'Rattle\.(\w+)\.specs\.declared\.(?:\w+\.)*?(\w+)(?:\.TheVariants)?$')
ITEM = re.compile(r'^(?:unfoldable |abbrev )?(?:pub )?(?:(?:record|data) (\S+)|((?:[^\s(){}:]+ )+):)(?=\s|$)')
CASE = re.compile(r'^  ((?:[^\s(){}:]+ )+):')
# A word that nothing qualifies: in `opening.Refused` that is `opening`, and in `st .image` it is `st`.
WORD = re.compile(r'(?<![^\s(){}\[\];,])[^\s(){}\[\];,.]+')


# ---- the kit's modules, of which many pass on what others declare

PASSED = re.compile(r'^(?:unfoldable )?pub use ([^\s{]+?)(?:\.\{([^}]*)\}| as (\w+))?$', re.M)


@functools.cache
def crates():
    """The crates of the project."""
    return {line.partition('#')[0].partition(':')[0].split()[0] for line in open('crates.txt', encoding='utf-8') if line.partition('#')[0].strip()}


@functools.cache
def kit():
    """The folder of the kit's sources."""
    guide = subprocess.run(['rt', 'doc'], capture_output=True, text=True, check=True).stdout.strip()
    return os.path.join(os.path.dirname(guide), 'rattle')


@functools.cache
def passes_on(path):
    """What a file of the kit passes on: of a name the module that it comes from and its name there; of a module, the module and nothing."""
    found = {}
    for module, listed, alias in PASSED.findall(open(path, encoding='utf-8').read()):
        if not listed:
            found[alias or module.rpartition('.')[2]] = (module, None)
        for name in filter(None, re.split(r',\s*', listed)):
            own, _, other = name.partition(' as ')
            found[other or own] = (module, own)
    return found


def declaring(module, name=None):
    """The module of the kit that declares what a module gives under a name, or that a module is."""
    words = module.split('.')
    if words[0] != 'Rattle' or words[1] in crates():
        return module
    folder = os.path.join(kit(), words[1], words[2])
    path = os.path.join(folder, 'Lib.antt')
    for at, word in enumerate(words[3:], 3):
        folder = os.path.join(folder, word)
        if os.path.isfile(f'{folder}.antt'):
            path = f'{folder}.antt'
        elif os.path.isfile(path) and word in passes_on(path):
            return declaring('.'.join([passes_on(path)[word][0], *words[at + 1:]]), name)
        else:
            return module
    if name in passes_on(path):
        return declaring(*passes_on(path)[name])
    return module


class Imports:
    """What a file imports: names and modules of specs, types of Rattle with their variants, and names of the kit."""

    def __init__(self, text):
        self.names, self.modules, self.types, self.kit = {}, {}, {}, {}
        for module, listed, alias in IMPORT.findall(text):
            ours, declared = OURS.match(module), DECLARED.match(module)
            is_ours = module.startswith('Rattle.') and module.split('.')[1] in crates()
            for name in re.split(r',\s*', listed.strip().rstrip(',')) if listed else [alias or module.rpartition('.')[2]]:
                own, _, other = name.partition(' as ')
                word = (other or own).strip()
                if is_ours and declared:
                    self.types[word] = declared.groups()
                elif is_ours and ours and not listed:
                    self.modules[word] = f'crates/{ours[1]}/specs/{ours[2]}.antt'
                elif is_ours and ours:
                    self.names[word] = (f'crates/{ours[1]}/specs/{ours[2]}.antt', own.strip())
                elif not is_ours:
                    self.kit[word] = declaring(module, own.strip() if listed else None)
                else:
                    raise SystemExit(f'an import that is not understood: {module}')

    def used(self, text):
        """The definitions of other files, the types and the modules of the kit that a text uses."""
        words = set(WORD.findall(text))

        def occurs(name):
            """Whether a name is used; of an operator, whether all its parts are."""
            parts = [part for part in name.split('◌') if part]
            return name in words or '◌' in name and (words.issuperset(parts) or all(part in text for part in parts))

        definitions = [place for name, place in self.names.items() if occurs(name)]
        for alias, path in self.modules.items():
            definitions += [(path, name) for name in re.findall(rf'(?<![\w.]){alias}\.([^\s(){{}}\[\];,.]+)', text)]
        return definitions, {self.types[n] for n in self.types if occurs(n)}, {self.kit[n] for n in self.kit if occurs(n)}


class Specs:
    """The definitions of a file: the text of each, with the heads of the sections that it stands in, by its name and by those of its cases."""

    def __init__(self, path):
        text = open(path, encoding='utf-8').read()
        self.imports = Imports(text)
        self.items = {}
        item, sections = [], []
        for line in text.splitlines():
            if not line.strip() or line.lstrip().startswith('--') or line.startswith('use '):
                continue
            depth = len(line) - len(line.lstrip())
            sections = [section for section in sections if depth > len(section) - len(section.lstrip())]
            if line.lstrip().startswith('module '):
                sections.append(line)
                continue
            inner = line[2 * len(sections):]
            found = ITEM.match(inner)
            if found:
                item = list(sections)
                for name in (found.group(1) or found.group(2)).split():
                    self.items[name] = item
            case = CASE.match(inner)
            if case and item and ' data ' in f' {item[len(sections)]}':
                for name in case.group(1).split():
                    self.items[name] = item
            item.append(line)


class Reached:
    """What is reached from some definitions: definitions, types and modules of the kit."""

    def __init__(self, files):
        self.files, self.done, self.types, self.kit, self.lost = files, set(), set(), set(), []

    def specs(self, path):
        if path not in self.files:
            self.files[path] = Specs(path)
        return self.files[path]

    def from_contracts(self, path, functions=None):
        """What the contracts of a file of Rattle, or of some of its functions, rest on."""
        text = open(path, encoding='utf-8').read()
        words = CODE.sub('', text)
        if functions is not None:
            words = '\n'.join(re.search(rf'^pub fn {name}\b.*?^\{{', words, re.M | re.S)[0] for name in functions)
        definitions, types, kit = Imports(text).used(words)
        self.types |= types
        self.kit |= kit
        return definitions

    def from_statements(self):
        """The closed statements that functions of any crate ensure."""
        found = []
        for path in sorted(glob.glob('crates/*/src/**/*.rt', recursive=True)):
            text = open(path, encoding='utf-8').read()
            found += [Imports(text).names[name] for name in CLOSED.findall(text)]
        return found

    def follow(self, todo, stays=lambda path: True):
        while todo:
            path, name = todo.pop()
            if (path, name) in self.done or not stays(path):
                continue
            file = self.specs(path)
            if name not in file.items:
                self.lost.append(f'{path} defines no {name}')
                continue
            self.done.add((path, name))
            text = '\n'.join(file.items[name])
            definitions, types, kit = file.imports.used(text)
            self.types |= types
            self.kit |= kit
            todo += definitions + [(path, word) for word in WORD.findall(text) if word in file.items]
        return self

    def lines(self, paths):
        items = {id(self.files[path].items[name]): self.files[path].items[name] for path, name in self.done if path in paths}
        return len(items), sum(map(len, items.values()))


def declared_in(crate, name):
    """The file of Rattle that declares a type."""
    for path in sorted(glob.glob(f'crates/{crate}/src/*.rt')):
        if re.search(rf'^pub (?:struct|enum) {name}\b', open(path, encoding='utf-8').read(), re.M):
            return path
    return f'crates/{crate}/src, no file of which declares {name}'


def parts(page):
    """The parts of the page's list: for each its text, what it cites, and how many lines it says it has."""
    text = open(page, encoding='utf-8').read()
    first = text[text.index('\n1. '):text.index('\n2. ')]
    first = first[:first.index('The `Rules.antt` and')]
    found = {}
    for part in re.split(r'\n   (?=\*)', first)[1:]:
        name = re.match(r"\*([^*]+)\*", part)[1]
        said = re.search(r'([\d,]+) lines', part)
        cited = {text for text in re.findall(r'`([\w./]+)`', part) if '.' in text}
        found[name] = (cited, int(said[1].replace(',', '')) if said else None)
    return found


def differences(page, kind, reached, named):
    return ([f'{page} does not list {path}{reached[path]}' for path in sorted(set(reached) - named)]
            + [f'{page} lists {path}, on which no contract and no statement rests{kind}' for path in sorted(named - set(reached))])


def lines_said(page, listed, counts):
    return [f'{page}, {part}: {listed[part][1]} lines, and there are {counts[part]}' for part in SPECS if listed[part][1] != counts[part]]


def by_file(places):
    """The files of some definitions, each with their names."""
    names = {}
    for path, name in sorted(places):
        names[path] = names.get(path, ':') + f' {name}'
    return names


def main(page, most_base=1200, most_all=2400):
    listed = parts(page)
    if list(listed) != SPECS + [TYPES, KIT]:
        print(f'{page} has the parts {", ".join(listed)}, not {", ".join(SPECS + [TYPES, KIT])}')
        return 1
    base_files, request_files, boundary_files, example_files = (listed[part][0] - {'include/teplovist.h'} for part in SPECS)
    everything = Reached({})
    everything.follow([name for root in PUBLIC for name in everything.from_contracts(root)] + everything.from_statements())
    calls = Reached(everything.files)
    calls.follow([name for root in CALLS for name in calls.from_contracts(root, CALLS[root])])
    base = Reached(everything.files)
    base.done = set(calls.done)
    base.follow([name for root in STATEMENTS for name in base.from_contracts(root, STATEMENTS[root])], lambda path: path in base_files)

    names = by_file(everything.done)
    types = by_file((declared_in(crate, name), name) for crate, name in everything.types)
    faults = list(everything.lost)
    faults += differences(page, '', names, base_files | request_files | boundary_files | example_files)
    faults += differences(page, ' by a type', types, listed[TYPES][0])
    faults += differences(page, ' by the kit', dict.fromkeys(everything.kit, ''), listed[KIT][0])
    faults += [f"01's calls rest on {path}, which {page} does not list among the base{found}" for path, found in by_file(calls.done).items() if path not in base_files]
    faults += [f'{path} is listed among the base, whose calls and statements rest on nothing in it' for path in sorted(base_files - set(by_file(base.done)))]

    count, lines = everything.lines(set(names))
    counts = {SPECS[0]: base.lines(base_files)[1], SPECS[2]: everything.lines(boundary_files)[1], SPECS[3]: everything.lines(example_files)[1]}
    counts[SPECS[1]] = lines - sum(counts.values())
    faults += lines_said(page, listed, counts)
    if counts[SPECS[0]] > most_base:
        faults.append(f'the base has {counts[SPECS[0]]} lines of definitions, more than {most_base}')
    if lines > most_all:
        faults.append(f'there are {lines} lines of definitions, more than {most_all}')
    print('\n'.join(faults + [f'trust: {count} definitions in {len(names)} files, {lines} lines, {counts[SPECS[0]]} of them the base\'s; {len(everything.types)} types in '
                              f'{len(types)} files; {len(faults)} faults']))
    return 1 if faults or not count else 0


if __name__ == '__main__':
    sys.exit(main(sys.argv[1], *map(int, sys.argv[2:4])))
