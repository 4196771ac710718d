"""The compiler's MIR, read into functions, types and statements: of a proved library its rlib's toolchain/mir.json, a list of functions by their names,
each with the types that it uses, its locals and its body. What a reader of MIR must know stands in the kit's rattle/logic/Mir/Syntax.antt; a form that is
not understood here raises Unknown, so that nothing is passed over."""
import functools
import json
import pathlib
import sys

sys.path.append(str(pathlib.Path(__file__).resolve().parent.parent))
from libraries import kit, libraries, mir_file  # noqa: E402

sys.setrecursionlimit(100000)


class Unknown(Exception):
    """A form of MIR, or a way of using it, that these rules do not cover."""


class Refused(Exception):
    """The compiler refused the source."""


# ---- forms: a word, or one word with what it has


def form(term):
    """The word of a form, and what it has."""
    if isinstance(term, str):
        return term, None
    if isinstance(term, dict) and len(term) == 1:
        return next(iter(term.items()))
    raise Unknown(f'no form: {term}')


def words(term):
    """A form in plain words, as `lt unsigned`."""
    name, has = form(term)
    return ' '.join([camel(name), *([] if has is None else [has.lower() if isinstance(has, str) else json.dumps(has)])])


def camel(name):
    return name[0].lower() + name[1:]


# ---- types: ('plain',), ('pointer',), ('param', number), ('reference', mutable, type), ('array', type), ('struct', name, types), ('named', name, types)

PLAIN = {'Bool', 'Unit', 'Int', 'Float', 'Const', 'Vector'}


def named(name):
    """A declared type that has no parameters."""
    return ('named', name, ())


def read_type(term):
    name, has = form(term)
    if name in PLAIN:
        return ('plain',)
    if name == 'Ptr':
        return ('pointer',)
    if name == 'Param':
        return ('param', has)
    if name == 'Ref' and has[1] in ('Imm', 'Mut'):
        return ('reference', has[1] == 'Mut', read_type(has[2]))
    if name == 'Array':
        return ('array', read_type(has[0]))
    if name == 'Struct':
        return ('struct', has[0], tuple(map(read_type, has[1])))
    if name == 'Named':
        return ('named', has[0]['name'], tuple(map(read_type, has[1])))
    raise Unknown(f'a type: {term}')


def with_types(kind, given):
    """A type of a declaration, where these types are given for its parameters."""
    if kind[0] == 'param':
        return given[kind[1]]
    if kind[0] in ('reference', 'array'):
        return (*kind[:-1], with_types(kind[-1], given))
    if kind[0] in ('struct', 'named'):
        return (*kind[:2], tuple(with_types(part, given) for part in kind[2]))
    return kind


class Types:
    """The declared types of a program: each a list of variants, a struct's being one, and whether it is a struct."""

    def __init__(self):
        self.declared, self.known = {}, {}

    def declare(self, name, shape):
        head, has = form(shape)
        if head == 'Fields':
            variants, is_struct = [list(map(read_type, has))], True
        elif head == 'Variants':
            variants, is_struct = [list(map(read_type, fields)) for fields in has], False
        else:
            raise Unknown(f'a declaration: {shape}')
        if self.declared.setdefault(name, (variants, is_struct)) != (variants, is_struct):
            raise Unknown(f'{name} is declared in two ways')

    def variants(self, kind):
        if kind[1] not in self.declared:
            raise Unknown(f'the type {kind[1]} is not declared')
        variants, is_struct = self.declared[kind[1]]
        return [[with_types(field, kind[2]) for field in fields] for fields in variants], is_struct

    def holds(self, kind, wanted):
        """Whether a value of a type is, or holds or leads to, one whose type is `wanted`: a type, or the words 'pointer' or 'mutable'. Of a type that a
        caller chooses, a word is taken for granted; a type is seen at the caller, where it is that type."""
        if (kind, wanted) not in self.known:
            self.known[kind, wanted] = False
            self.known[kind, wanted] = self._is(kind, wanted) or any(self.holds(part, wanted) for part in self._parts(kind))
        return self.known[kind, wanted]

    def _is(self, kind, wanted):
        if kind[0] == 'param':
            return isinstance(wanted, str)
        if wanted == 'pointer':
            return kind[0] in ('pointer', 'reference')
        if wanted == 'mutable':
            return kind[0] == 'reference' and kind[1]
        return kind == wanted

    def _parts(self, kind):
        """The types of what a value is made of, or leads to."""
        if kind[0] in ('reference', 'array'):
            return [kind[-1]]
        if kind[0] == 'struct':
            return kind[2]
        if kind[0] == 'named':
            return [field for fields in self.variants(kind)[0] for field in fields]
        return []

    def rows_and_references(self, kind):
        """The references and arrays that a type is made of."""
        own = [kind] if kind[0] in ('reference', 'array') else []
        return own + [one for part in self._parts(kind) for one in self.rows_and_references(part)]

    def carries_pointer(self, kind):
        return self.holds(kind, 'pointer')

    def carries_mutable(self, kind):
        return self.holds(kind, 'mutable')

    def step(self, kind, variant, step):
        """The type after one step from a place, and the variant that the place is then seen as."""
        name, has = form(step)
        if name == 'Deref':
            return read_type(has), None
        if kind[0] == 'named':
            variants, is_struct = self.variants(kind)
            if name == 'Variant' and not is_struct:
                return kind, has
            if name == 'Field' and is_struct:
                return variants[0][has], None
            if name == 'Field' and variant is not None:
                return ('plain',) if has == 0 else variants[variant][has - 1], None
        if kind[0] == 'struct' and name == 'Field':
            return kind[2][has], None
        raise Unknown(f'a step {step} at a value of type {kind}')


# ---- functions

BYTE = {'Int': 8}


class Place:
    def __init__(self, term):
        if not isinstance(term, dict) or set(term) != {'local', 'steps'}:
            raise Unknown(f'a place: {term}')
        self.local, self.steps = term['local'], term['steps']
        if any(form(step)[0] not in ('Deref', 'Field', 'Variant') for step in self.steps):
            raise Unknown(f'a place: {term}')

    def through(self):
        """Whether the place lies behind a pointer."""
        return any('Deref' in step for step in self.steps)

    def __str__(self):
        text = f'_{self.local}'
        for name, has in map(form, self.steps):
            if name == 'Deref':
                text = f'(*{text})' if has == BYTE else f'(*{text} as {words(has)})'
            else:
                text += ('.' if name == 'Field' else '#') + str(has)
        return text


# A number, or one that stands for a type's parameter or size.
CONSTANTS = {'Int', 'Float', 'NumOf', 'SizeOf'}


def operand(term):
    """The place that an operand copies, or None for a constant."""
    name, has = form(term)
    if term in ('True', 'False', 'Unit') or name in CONSTANTS:
        return None
    if name == 'Copy':
        return Place(has)
    raise Unknown(f'an operand: {term}')


def show_operand(term):
    name, has = form(term)
    if name == 'Copy':
        return str(Place(has))
    if name not in CONSTANTS:
        return camel(name)
    if name in ('NumOf', 'SizeOf'):
        return f'{camel(name)} {json.dumps(has)}'
    if 'width' not in has or len(has) != 2:
        raise Unknown(f'an operand: {term}')
    return f'{camel(name)} {next(value for key, value in has.items() if key != "width")}'


# The operations whose result is a number, a yes or no, or a vector of these, whatever they are given.
PLAIN2 = {'Add', 'Sub', 'Mul', 'Div', 'Rem', 'And', 'Or', 'Xor', 'Shl', 'Shr', 'Eq', 'Ne', 'Lt', 'Le', 'WrapAdd', 'WrapSub', 'WrapMul'}
PLAIN2 |= {'FloatAdd', 'FloatSub', 'FloatMul', 'FloatDiv', 'FloatRem', 'FloatEq', 'FloatNe', 'FloatLt', 'FloatLe'}
PLAIN1 = {'Not', 'Cast', 'LeadingZeros', 'TrailingZeros', 'CountOnes'}
PLAIN1 |= {'FloatNeg', 'FloatSqrt', 'FloatToInt', 'IntToFloat', 'FloatToFloat', 'FloatToBits', 'FloatFromBits'}


class Value:
    """The right side of an assignment: its form, the places that it copies or points to, its text."""

    def __init__(self, term):
        head, has = form(term)
        self.pointed, name = None, camel(head)
        if head == 'Opd':
            self.form, name, operands = 'operand', 'rvOpd', [has]
        elif head == 'Op2' and (form(has[0])[0] in PLAIN2 or has[0] == 'Offset'):
            self.form, name, operands = 'offset' if has[0] == 'Offset' else 'number', words(has[0]), has[1:]
        elif head == 'Op1' and form(has[0])[0] in PLAIN1:
            self.form, name, operands = 'number', words(has[0]), has[1:]
        elif head == 'AddrOf':
            self.form, self.pointed, operands = 'address', Place(has), []
        elif head == 'Aggregate':
            self.form, operands = 'aggregate', has
        elif head == 'Repeat':
            self.form, operands = 'repeat', has[:1]
        elif head == 'Static':
            self.form, operands = 'static', []
        else:
            raise Unknown(f'a value: {term}')
        self.operands = operands
        self.places = [place for place in map(operand, operands) if place]
        self.text = f'&{self.pointed}' if self.pointed else f'{name}({", ".join(map(show_operand, operands))})'


class Assign:
    def __init__(self, term, in_loop):
        self.target, self.value, self.in_loop = Place(term[0]), Value(term[1]), in_loop

    def __str__(self):
        return f'{self.target} = {self.value.text}'


class Call:
    """A call of a function by its name, or of a method that a trait's table has: of the latter `callee` is the table and the method's number, which no
    function is called."""

    def __init__(self, term, in_loop):
        head, has = form(term[0])
        if head not in ('Fn', 'Method'):
            raise Unknown(f'a call: {term[0]}')
        self.callee = has[0] if head == 'Fn' else f'method {json.dumps(has[:2])}'
        self.is_named = head == 'Fn'
        self.arguments = [operand(one) for one in term[1]]
        self.target, self.in_loop = Place(term[2]), in_loop
        self.shown = [show_operand(one) for one in term[1]]
        self.text = f'{self.target} = {self.callee}({", ".join(self.shown)})'

    def __str__(self):
        return self.text


def read_body(row):
    """A body as one nested list, from the row of its parts: each part comes before what it is made of."""
    parts = iter(row)

    def read():
        before = []
        for part in parts:
            name, has = form(part)
            if name == 'Seq':
                before.append(read())
                continue
            inner = {'Block': 1, 'Loop': 1, 'If': 2}.get(name, 0)
            if name == 'Switch':
                inner = len(has[1]) + bool(has[2])
            body = [name, has, *(read() for _ in range(inner))]
            for first in reversed(before):
                body = ['Seq', None, first, body]
            return body
        raise Unknown('a body that breaks off')

    body = read()
    if next(parts, None) is not None:
        raise Unknown('a body with something behind its end')
    return body


def in_sequence(body):
    while body[0] == 'Seq':
        yield body[2]
        body = body[3]
    yield body


def statements(whole, in_loop=False):
    """The assignments and calls of a body, each with whether it stands in a loop. What lends a constant is an assignment."""
    for body in in_sequence(whole):
        name, has, *inner = body
        if name == 'Seq':
            yield from statements(body, in_loop)
        elif name == 'Assign':
            yield Assign(has, in_loop)
        elif name == 'LendStatic':
            # a pointer to bytes that are never written
            yield Assign([has[0], {'Static': has[2]}], in_loop)
        elif name == 'Call':
            yield Call(has, in_loop)
        elif name in ('Block', 'Loop', 'If', 'Switch'):
            if name in ('If', 'Switch'):
                operand(has if name == 'If' else has[0])
            for one in inner:
                yield from statements(one, in_loop or name == 'Loop')
        elif name not in ('Skip', 'Return', 'Exit', 'Unreachable'):
            raise Unknown(f'a statement: {name}')


def outline(whole, indent=''):
    """A body as lines, its branches and loops included: what a pinned function is compared by."""
    for body in in_sequence(whole):
        name, has, *inner = body
        if name == 'Seq':
            yield from outline(body, indent)
        elif name in ('Skip', 'Return'):
            yield indent + camel(name)
        elif name in ('Assign', 'Call', 'LendStatic'):
            yield indent + str(next(statements(body)))
        elif name in ('Block', 'Loop'):
            yield indent + camel(name)
            yield from outline(inner[0], indent + '  ')
        elif name == 'If':
            yield indent + f'if {show_operand(has)}'
            yield from outline(inner[0], indent + '  ')
            yield indent + 'else'
            yield from outline(inner[1], indent + '  ')
        elif name == 'Exit':
            yield indent + f'exit {has}'
        else:
            raise Unknown(f'a statement of a pinned function: {name}')


class Function:
    def __init__(self, name, term, types):
        self.name, self.types, self.body = name, types, read_body(term['body'])
        self.parameters = range(1, term['params'] + 1)
        self.methods = [method for table in term['generics']['impls'] for method in table['methods']]
        self.locals = [read_type(local['ty']) for local in term['locals']]
        self.statements = list(statements(self.body))

    def crate(self):
        return self.name.split('::')[0]

    def calls(self):
        return [one for one in self.statements if isinstance(one, Call)]

    def kinds_along(self, place):
        """The types of a place's local and of what each of its steps leads to."""
        kind, variant = self.locals[place.local], None
        found = [kind]
        for step in place.steps:
            kind, variant = self.types.step(kind, variant, step)
            found.append(kind)
        return found

    def kind_of(self, place):
        return self.kinds_along(place)[-1]

    def outline(self):
        return list(outline(self.body))


class Program:
    """The functions of the libraries, and of the kit's libraries those that are asked for. What a function calls is known, but for what a table of
    methods has; it makes the tables that it hands on, or was handed them, and a function of the kit can name none of the project."""

    def __init__(self, functions, of_kit):
        self.types, self.functions, self.of_kit, self.read = Types(), {}, of_kit, {}
        for name, term in functions:
            if name in self.functions:
                raise Unknown(f'{name} is there twice')
            self.functions[name] = self._read(name, term)
        for function in self.functions.values():
            for call in function.calls():
                if call.is_named and not self.is_of_kit(call.callee):
                    self.function(call.callee, function.name)

    def _read(self, name, term):
        for declared in term['types']:
            self.types.declare(declared['name'], declared['shape'])
        return Function(name, term, self.types)

    def is_of_kit(self, name):
        return name not in self.functions and name in self.of_kit(name.split('::')[0])

    def function(self, name, caller='somebody'):
        if name in self.functions:
            return self.functions[name]
        if name not in self.read:
            body = self.of_kit(name.split('::')[0]).get(name)
            if body is None:
                raise Unknown(f'{caller} calls {name}, which has no body')
            self.read[name] = self._read(name, body)
        return self.read[name]

    def reached_from(self, names):
        """Every function of the project that a call of these can reach, by name or by a table of methods that one of them makes."""
        reached, waiting = set(), list(names)
        while waiting:
            name = waiting.pop()
            if name not in reached and not self.is_of_kit(name):
                reached.add(name)
                function = self.function(name)
                waiting += [call.callee for call in function.calls() if call.is_named] + function.methods
        return reached


# ---- where they stand


@functools.cache
def functions_of(file):
    """The functions of a file by their names, and nothing where there is no file."""
    return dict(json.loads(file.read_text())) if file.is_file() else {}


def library_functions(root):
    """The functions of every library of the project, as it was proved, with their names."""
    missing = [name for name in libraries(root) if not mir_file(root, name).is_file()]
    if missing:
        raise SystemExit(f'stores: no MIR of {", ".join(missing)}: python3 tests/libraries.py mir makes it')
    return [one for name in libraries(root) for one in functions_of(mir_file(root, name)).items()]


def kit_functions(crate):
    """The functions of a library of the kit by their names."""
    return functions_of(kit() / 'rlibs' / f'{crate}.rlib' / 'toolchain' / 'mir.json')
