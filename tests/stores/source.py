"""The MIR of functions as the compiler makes it of a source that nobody has proved, as the wrong programs of edits.py are: `rattle check --generated --start`
writes the modules that it makes for a function's proof, and one of them, Code/Mir.antt, is the function's MIR in the words of the kit's
rattle/logic/Mir/Syntax.antt. This reads it into the form that an rlib's mir.json has. The contracts are left out, since they change no code: what the
functions promise need not be stated for them."""
import json
import pathlib
import re
import sys
import tempfile

sys.path.append(str(pathlib.Path(__file__).resolve().parent.parent))
from libraries import below, rattle, words  # noqa: E402
from mir import Refused, Unknown  # noqa: E402

# ---- the text of a source


def without_contracts(text):
    """A source without clauses, imports for them, and words to the tactics."""
    text = re.sub(r'(?m)^ghost use [^;]*;\n', '', text)
    text = re.sub(r'(?m)^ *#!?\[tactic\([^\]]*\)\]\n', '', text)
    kept, depth = [], 0
    for line in text.splitlines(keepends=True):
        if depth or re.match(r' +(requires|ensures)\*?( \w+)? \{', line):
            depth += line.count('{') - line.count('}')
        else:
            kept.append(line)
    return ''.join(kept)


ITEM = re.compile(r'(?ms)^(?:pub(?:\([a-z]+\))? )?(?:extern "C" )?(fn (\w+)\b.*?^(?:\}|\{\}))$')


def functions_in(text):
    """The functions of a source, each with its text but for its contract and who may call it."""
    return {name: text for text, name in ITEM.findall(without_contracts(text))}


def path_of(file):
    """The path in its crate of what a file of src/ has."""
    parts = file.with_suffix('').parts
    return '::'.join(part for part in parts if part not in ('lib', 'mod'))


def other_functions(root, folder):
    """By crate, the functions that a copy of the sources has otherwise than these, or has alone; and the crates in which anything is otherwise."""
    changed, crates = {}, set()
    for file in sorted(folder.glob('crates/*/src/**/*.rt')):
        inside = file.relative_to(folder)
        before, after = (root / inside).read_text(), file.read_text()
        if without_contracts(before) != without_contracts(after):
            crate = inside.parts[1]
            crates.add(crate)
            was = functions_in(before)
            names = [name for name, text in functions_in(after).items() if was.get(name) != text]
            module = path_of(pathlib.Path(*inside.parts[3:]))
            changed.setdefault(crate, []).extend(f'{module}::{name}' if module else name for name in names)
    return changed, crates


# ---- antt's text, read into terms: a name, a number, ('apply', head, arguments), ('tuple', parts), ('record', fields)

TOKEN = re.compile(r'\s*(?:--[^\n]*\n)?\s*([(){},;]|[^\s(){},;]+)')


class Reader:
    def __init__(self, text):
        self.tokens, self.at = TOKEN.findall(text + '\n'), 0

    def peek(self):
        return self.tokens[self.at] if self.at < len(self.tokens) else None

    def take(self, wanted=None):
        token = self.peek()
        if token is None or wanted and token != wanted:
            raise Unknown(f'antt text: {token} in place of {wanted}')
        self.at += 1
        return token

    def term(self):
        parts = []
        while self.peek() not in (None, ')', '}', ',', ';'):
            parts.append(self.atom())
        if not parts:
            raise Unknown('antt text: nothing where a term should stand')
        return parts[0] if len(parts) == 1 else ('apply', parts[0], parts[1:])

    def atom(self):
        token = self.take()
        if token == '(':
            parts, is_tuple = [self.term()], False
            while self.peek() == ',':
                self.take()
                is_tuple = True
                if self.peek() != ')':
                    parts.append(self.term())
            self.take(')')
            return ('tuple', parts) if is_tuple else parts[0]
        if token == 'record':
            self.take('{')
            fields = {}
            while self.peek() != '}':
                name = self.take()
                self.take('=')
                fields[name] = self.term()
                self.take(';')
            self.take('}')
            return ('record', fields)
        return int(token) if token.isdigit() else token


DEFINED = re.compile(r'^abbrev pub (\S+) : .*?^\1 =(?=\s)(.*?)(?=^abbrev |\Z)', re.M | re.S)
USED = re.compile(r'^use (\S+?)(?: as (\S+))?$', re.M)

# What `?` and a comparison of slices call, which std hands on from core.
HANDED_ON = {f'std::prelude::{name}': f'core::result::{name}' for name in ('ResultTry::branch', 'ResultFromResidualErrResidual::from_residual')}
HANDED_ON['std::prelude::RefSlicePartialEq::eq'] = 'core::cmp::slices::RefSlicePartialEq::eq'


class Module:
    """A module Code.Mir: what its names stand for, and the modules that it imports."""

    def __init__(self, text):
        self.terms = {name: Reader(body) for name, body in DEFINED.findall(text)}
        self.modules = {alias or module.rpartition('.')[2]: module for module, alias in USED.findall(text)}

    def term(self, name):
        if isinstance(self.terms[name], Reader):
            reader = self.terms[name]
            self.terms[name] = reader.term()
            if reader.peek() is not None:
                raise Unknown(f'antt text: {reader.peek()} behind the end of {name}')
        return self.terms[name]

    def has(self, name):
        return name in self.terms

    def split(self, term):
        """The head of a term, a constructor of Syntax by its own name, and its arguments."""
        while isinstance(term, str) and term in self.terms:
            term = self.term(term)
        head, arguments = (term[1], term[2]) if isinstance(term, tuple) and term[0] == 'apply' else (term, [])
        if isinstance(head, str) and '.' in head:
            module, _, name = head.partition('.')
            head = name if self.modules.get(module, '') in ('mir.Syntax', 'mir.Table', 'mathlib.Core.List') else head
        return head, arguments

    # ---- lists, names, places

    def items(self, term):
        found = []
        while True:
            head, has = self.split(term)
            if head in ('[]', 'tnil', 'ttnil', 'dnil') and not has:
                return found
            if head not in ('◌∷◌', 'tcons', 'ttcons', 'dcons') or len(has) != 2:
                raise Unknown(f'no list: {head}')
            found.append(has[0])
            term = has[1]

    def text(self, term):
        """A name, which is the list of its letters."""
        return ''.join(map(chr, self.items(term)))

    def number(self, term):
        term = self.term(term) if isinstance(term, str) and term in self.terms else term
        if not isinstance(term, int):
            raise Unknown(f'no number: {term}')
        return term

    def pair(self, term):
        term = self.term(term) if isinstance(term, str) and term in self.terms else term
        if not isinstance(term, tuple) or term[0] != 'tuple':
            raise Unknown(f'no tuple: {term}')
        return term[1]

    def width(self, term):
        head, _ = self.split(term)
        if not re.fullmatch(r'w\d+', str(head)):
            raise Unknown(f'a width: {head}')
        return int(head[1:])

    def place(self, term):
        head, has = self.split(term)
        if head != 'place':
            raise Unknown(f'a place: {head}')
        return {'local': self.number(has[0]), 'steps': [self.step(one) for one in self.items(has[1])]}

    def step(self, term):
        head, has = self.split(term)
        if head == 'deref':
            return {'Deref': self.type(has[0])}
        if head in ('field', 'variant'):
            return {head.title(): self.number(has[0])}
        raise Unknown(f'a step: {head}')

    # ---- types

    def lifetime(self, term):
        head, has = self.split(term)
        if head in ('erased', 'static'):
            return head.title()
        name = {'named': 'Named', 'bound_lv': 'Bound'}.get(head)
        if not name:
            raise Unknown(f'a lifetime: {head}')
        return {name: self.number(has[0])}

    def type(self, term):
        head, has = self.split(term)
        if head in ('ty_bool', 'ty_unit', 'ty_ptr'):
            return head[3:].title()
        if head == 'ty_int':
            return {'Int': self.width(has[0])}
        if head == 'ty_param':
            return {'Param': self.number(has[0])}
        if head == 'ty_ref':
            return {'Ref': [self.lifetime(has[0]), self.split(has[1])[0].title(), self.type(has[2])]}
        if head == 'ty_array':
            return {'Array': [self.type(has[0]), {'Lit': self.number(has[1])}]}
        if head == 'ty_struct':
            return {'Struct': [self.text(has[0]), list(map(self.type, self.items(has[1])))]}
        if head == 'ty_named':
            name, lifetimes = self.pair(has[0])
            return {'Named': [{'name': self.text(name), 'lifetimes': list(map(self.lifetime, self.items(lifetimes)))}, list(map(self.type, self.items(has[1])))]}
        raise Unknown(f'a type: {head}')

    def declared(self, term):
        """An entry of the table of declared types."""
        name, *_, shape = self.pair(term)
        head, has = self.split(shape)
        if head == 'fields':
            shape = {'Fields': list(map(self.type, self.items(has[0])))}
        elif head == 'variants':
            shape = {'Variants': [list(map(self.type, self.items(fields))) for fields in self.items(has[0])]}
        else:
            raise Unknown(f'a declaration: {head}')
        return {'name': self.text(name), 'shape': shape}

    # ---- values

    OPERATIONS = {'bit_and': 'And', 'bit_or': 'Or', 'bit_xor': 'Xor', 'bit_not': 'Not', 'count_leading_zeros': 'LeadingZeros',
                  'count_trailing_zeros': 'TrailingZeros'}

    def operation(self, term):
        head, has = self.split(term)
        name = self.OPERATIONS.get(head) or ''.join(map(str.title, head.split('_')))
        said = [self.width(one) if re.fullmatch(r'w\d+', str(self.split(one)[0])) else self.split(one)[0].title() for one in has]
        return {name: said[0] if len(said) == 1 else said} if said else name

    def operand(self, term):
        head, has = self.split(term)
        if head == 'copy':
            return {'Copy': self.place(has[0])}
        if head in ('int', 'int_big'):
            return {'Int': {'width': self.width(has[0]), 'value': self.number(has[1])}}
        if head == 'int_neg':
            return {'Int': {'width': self.width(has[0]), 'value': 2 ** self.width(has[0]) - self.number(has[1])}}
        if head in ('opd_true', 'opd_false', 'opd_unit'):
            return head[4:].title()
        raise Unknown(f'an operand: {head}')

    def value(self, term):
        head, has = self.split(term)
        if head == 'rv_opd':
            return {'Opd': self.operand(has[0])}
        if head in ('op1', 'op2'):
            return {head.title(): [self.operation(has[0]), *map(self.operand, has[1:])]}
        if head == 'addr_of':
            return {'AddrOf': self.place(has[0])}
        if head == 'aggregate':
            return {'Aggregate': list(map(self.operand, self.items(has[0])))}
        if head == 'repeat':
            return {'Repeat': [self.operand(has[0]), {'Lit': self.number(has[1])}]}
        raise Unknown(f'a value: {head}')

    # ---- statements

    def callee(self, term):
        """A function by the module of its symbol, as Rattle.number.proofs.runs.copy_into.Symbol, or of its key, for one that calls itself. Of a generic one, for
        which types it is called is not read: no rule asks it."""
        head, has = self.split(term)
        module, _, name = str(head).partition('.')
        found = re.fullmatch(r'Rattle\.(?:\w+\.below\.)?(\w+)\.(?:proofs|specs\.contracts)\.(\S+)\.(?:Symbol|Key)', self.modules.get(module, ''))
        if not found or name != 'name':
            raise Unknown(f'what is called: {head}')
        path = '::'.join([found[1], *found[2].split('.')])
        return {'Fn': [HANDED_ON.get(path, path), {'types': [], 'dicts': []}]}

    def row(self, term):
        """A body as a row of its parts, each before what it is made of."""
        head, has = self.split(term)
        if head in ('skip', 'return', 'unreachable'):
            return [head.title()]
        if head in ('seq', 'block', 'loop'):
            return [head.title(), *(part for one in has for part in self.row(one))]
        if head == 'cond':
            return [{'If': self.operand(has[0])}, *self.row(has[1]), *self.row(has[2])]
        if head == 'assign':
            return [{'Assign': [self.place(has[0]), self.value(has[1])]}]
        if head == 'call':
            return [{'Call': [self.callee(has[0]), list(map(self.operand, self.items(has[1]))), self.place(has[2])]}]
        if head == 'exit':
            return [{'Exit': self.number(has[0])}]
        if head == 'lend_static':
            return [{'LendStatic': [self.place(has[0]), self.type(has[1]), 'Unread']}]
        if head == 'switch':
            keys, rows, arms = [], [], has[1]
            while self.split(arms)[0] == 'arm':
                number, body, arms = self.split(arms)[1]
                keys.append(list(map(self.number, self.items(number))))
                rows += self.row(body)
            last, default = self.split(arms)
            if last not in ('default', 'no_default'):
                raise Unknown(f'an arm: {last}')
            rows += self.row(default[0]) if last == 'default' else []
            return [{'Switch': [self.operand(has[0]), keys, last == 'default']}, *rows]
        raise Unknown(f'a statement: {head}')

    def function(self):
        """The function, as an rlib's mir.json has it."""
        name = 'by_name' if self.has('by_name') else 'function'
        term = self.term(name)
        if not isinstance(term, tuple) or term[0] != 'record':
            raise Unknown('a function that is no record')
        fields = term[1]
        if self.items(fields['ty_params']) or self.number(fields['givens']):
            raise Unknown('a function for types that its caller chooses')
        local = [self.split(one)[1] for one in self.items(fields['locals'])]
        homes = {'value_local': 'ValueLocal', 'memory_slot': 'MemorySlot'}
        return {
            'params': self.number(fields['params']),
            'generics': {'types': [], 'impls': [], 'method_of': None},
            'types': list(map(self.declared, self.items('table'))) if self.has('table') else [],
            'locals': [{'ty': self.type(kind), 'home': homes[self.split(home)[0]]} for kind, home in local],
            'body': self.row(fields['body']),
        }


# ---- the compiler


def laid_out(folder, crate, to, name):
    """Writes the sources of a crate without their contracts: its root file under a name, and the files of its modules where that file looks for them."""
    inside = to if name == 'lib' else to / name
    for file in sorted((folder / 'crates' / crate / 'src').glob('**/*.rt')):
        path = file.relative_to(folder / 'crates' / crate / 'src')
        place = to / f'{name}.rt' if path.name == 'lib.rt' and len(path.parts) == 1 else inside / path
        place.parent.mkdir(parents=True, exist_ok=True)
        text = without_contracts(file.read_text())
        place.write_text(text if name == 'lib' else text.replace('#[unsafe(no_mangle)]\n', ''))


def generated(words, room, crate, names):
    """What rattle makes of these functions of a crate."""
    start = [word for name in names for word in ('--start', name)]
    status, said = rattle('check', *words, '--jobs', '1', '--generated', str(room / 'generated'), *start, folder=room)
    found = []
    for name in names:
        *above, last = name.split('::')
        place = (room / 'generated' / f'Rattle-{crate}-proofs').joinpath(*above)
        # one that calls itself is a cycle of its own
        paths = [path for path in (place / last / 'Code' / 'Mir.antt', place / f'+{last}' / 'Code' / f'+{last}.antt') if path.is_file()]
        if len(paths) != 1:
            raise Refused(f'{name}: {said[-2000:] or f"status {status}"}')
        found.append(Module(paths[0].read_text()).function())
    return found


def compiled(root, folder, crate, names, changed):
    """The MIR of functions of a crate by their names, of the sources in a folder, over the libraries that stand in root. `changed` are the crates whose
    sources are others there: these, and what lies between them and the crate, are given as sources."""
    with tempfile.TemporaryDirectory() as name:
        room = pathlib.Path(name).resolve()
        of_source = [one for one in below(folder, crate) if one in changed or changed & set(below(folder, one))]
        for one in [crate, *of_source]:
            laid_out(folder, one, room / one / 'src', 'lib')
        sources = {one: room / one / 'src' / 'lib.rt' for one in of_source}
        made = generated(words(root, crate, room / crate / 'src' / 'lib.rt', sources, folder), room, crate, names)
    return {f'{crate}::{name}': function for name, function in zip(names, made)}


def compiled_together(root, crate, copies):
    """The same of several copies of the sources, each a folder with the names of its functions, that are others in this crate alone: in one run, each copy
    as a module of one crate. Gives a list, in the order of the copies."""
    with tempfile.TemporaryDirectory() as name:
        room = pathlib.Path(name).resolve()
        for at, (folder, _) in enumerate(copies):
            laid_out(folder, crate, room / 'src', f'copy{at}')
        (room / 'src' / 'lib.rt').write_text(''.join(f'pub mod copy{at};\n' for at in range(len(copies))))
        names = [(at, name) for at, (_, names) in enumerate(copies) for name in names]
        made = generated(words(root, crate, room / 'src' / 'lib.rt'), room, crate, [f'copy{at}::{name}' for at, name in names])
    found = [{} for _ in copies]
    for (at, name), function in zip(names, made):
        text = json.dumps(function).replace(f'"{crate}::copy{at}::', f'"{crate}::')
        found[at][f'{crate}::{name}'] = json.loads(text)
    return found
