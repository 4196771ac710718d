"""laws.py FOLDER [PAGE..]: what the proofs under FOLDER say twice, or for nobody.

- an import that its file does not use;
- a law (a name with a type, in a file of laws) that nothing cites: no other declaration, no tactic(..) of a function, and no PAGE, by its name or by its
  whole file;
- two laws that say the same, but for the names of their variables.

It goes by names and lines, as the files are laid out by `rt fmt`. It prints what it found, and ends with 1 if that is anything.
"""
import os
import re
import sys
from collections import Counter, defaultdict

WORDS = re.compile(r"[\s(){}\[\],;.:«»]+")
IMPORT = re.compile(r'^(?:pub )?(?:ghost )?use ([^\s{;]+)(?:\.\{([^}]*)\}| as (\S+?))?;?$', re.M)
# What a function hands to the tactics, as in #[tactic(auto, using(Rattle.number.proofs.BlockLaws.size_pos))].
TACTIC = re.compile(r'^\s*#!?\[tactic\(([^\]]*)\)\]', re.M)
# The files that answer a function's goals, whose names the check itself asks for.
OF_A_FUNCTION = ('/Proof.antt', '/Invariants.antt', '/Answers.antt')
LAW = re.compile(r'^((?:  )*)(?:abbrev |unfoldable )?(?:pub )?([^\s:({]+) : (.*)$')


def read(folder):
    """The files, but for what the check left in a crate's out/."""
    for root, folders, names in os.walk(folder):
        folders[:] = sorted(name for name in folders if name != 'out')
        for name in sorted(names):
            if name.endswith(('.antt', '.rt')):
                path = os.path.join(root, name)
                with open(path, encoding='utf-8') as file:
                    yield path, file.read()


def bare(path, text):
    """The text without imports and comments."""
    comment = '//' if path.endswith('.rt') else '--'
    return re.sub(r'(?m)(^|\s)' + comment + r'(\s.*|-.*)?$', '', IMPORT.sub('', text))


def words(text):
    found = Counter()
    for word in WORDS.split(text):
        found[word] += 1
        if word.startswith('λ'):
            found[word[1:]] += 1
    found['[]'] += text.count('[]')
    return found


def uses(found, name):
    """How often a name stands there; of an operator, as often as all its parts do."""
    parts = [part for part in name.split('◌') if part]
    return found[name] or min(found[part] for part in parts)


def depth(line):
    return len(line) - len(line.lstrip())


def imports(path, text):
    """(module's last name, name there, name here) of each import."""
    for match in IMPORT.finditer(text):
        module = match.group(1).split('.')[-1]
        if match.group(2) is None:
            yield module, None, match.group(3) or module
        for name in (match.group(2) or '').split(','):
            if name.strip():
                there, _, here = name.strip().partition(' as ')
                yield module, there.strip(), (here or there).strip()


def laws(path, text):
    """(line, indentation, name, statement) of each law, a statement that goes on over lines joined."""
    lines = text.split('\n')
    for number, line in enumerate(lines):
        match = LAW.match(line)
        if match and not line.strip().startswith('let '):
            statement, next_line = match.group(3), number + 1
            while next_line < len(lines) and lines[next_line].strip() and depth(lines[next_line]) > len(match.group(1)) and not lines[next_line].strip().startswith('unfolding '):
                statement += ' ' + lines[next_line].strip()
                next_line += 1
            yield number, match.group(1), match.group(2), statement


def without(lines, indent, name):
    """The lines but those of a declaration: its signature, its clauses, and what is indented under them."""
    own, inside = [], False
    for line in lines:
        starts = re.match(indent + r'(?:abbrev |unfoldable )?(?:pub )?' + re.escape(name) + r'(?: :| =| .* =)(?= |$)', line)
        inside = bool(starts) or inside and (not line.strip() or depth(line) > len(indent))
        if not inside:
            own.append(line)
    return '\n'.join(own)


def is_field(lines, number, indent):
    """A field of a record stands under the record's first line."""
    above = [line for line in lines[:number] if line.strip() and depth(line) < len(indent)]
    return bool(above) and re.search(r'\brecord\b.*\bwhere$', above[-1]) is not None


def plain(statement):
    """A statement with its variables numbered in the order in which they are bound."""
    bound = []
    for match in re.finditer(r'[({]([^(){}:]+) : ', statement):
        bound += [name for name in match.group(1).split() if name not in bound]
    for number, name in enumerate(bound):
        statement = re.sub(r'(?<![^\s(){}\[\],.;])' + re.escape(name) + r'(?![^\s(){}\[\],.;])', f'#{number}', statement)
    return ' '.join(statement.split())


def main(folder, pages):
    texts = {path: text for path, text in read(folder)}
    bodies = {path: bare(path, text) for path, text in texts.items()}
    counts = {path: words(body) for path, body in bodies.items()}
    cited = ''.join(open(page, encoding='utf-8').read() for page in pages)
    faults, abroad, said = [], defaultdict(int), defaultdict(list)
    for path, text in texts.items():
        for given in TACTIC.findall(text):
            for module, name in re.findall(r'(\w+)\.([^\s.,()]+)(?=[\s,)]|$)', given):
                abroad[module, name] += 1
        for module, there, here in imports(path, text):
            if there is None:
                if path.endswith('.antt') and not uses(counts[path], here) and f'{here}.' not in bodies[path]:
                    faults.append(f'{path}: imports {module} for nothing')
                for match in re.finditer(re.escape(here) + r'\.([^\s(){}\[\],;]+)', bodies[path]):
                    abroad[module, match.group(1)] += 1
                continue
            abroad[module, there] += uses(counts[path], here)
            ghost = path.endswith('.antt') or re.search(r'(?m)^ghost use .*[{ ,]' + re.escape(there) + r'(?=[,} ])', text)
            if ghost and not uses(counts[path], here):
                faults.append(f'{path}: imports {there} for nothing')
    for path in texts:
        if not path.endswith('.antt') or '/proofs/' not in path or path.endswith(OF_A_FUNCTION):
            continue
        module, lines = os.path.basename(path)[:-len('.antt')], bodies[path].split('\n')
        for number, indent, name, statement in laws(path, bodies[path]):
            if not indent and len(plain(statement)) > 24 and re.search('[≡≢≤<⊥↔]', statement):
                said[plain(statement)].append(f'{path}: {name}')
            named = abroad[module, name] or f'`{name}`' in cited or f'#{name}`' in cited or f'{path}`' in cited
            if not (named or is_field(lines, number, indent)):
                if not uses(words(without(lines, indent, name)), name):
                    faults.append(f'{path}: nothing cites {name}')
    faults += [' says the same as '.join(places) for places in said.values() if len(places) > 1]
    for fault in sorted(set(faults)):
        print(fault)
    print(f'laws: {sum(len(places) for places in said.values())} laws, {len(set(faults))} faults')
    return 1 if faults else 0


if __name__ == '__main__':
    sys.exit(main(sys.argv[1], sys.argv[2:]))
