"""What must hold of the stores to an image, and what is found where it does not. See docs/TRUST.md for what rests on it.

1. Begin stores to an image in one function, stores::staging::store: at the place i that it is given, of which its `requires` says that it is free
   in the space of the container that the image opens as. Write stores there too, and to an external level 4 in place (02, W10), in
   update::store_outside: at the place i of which its `requires` says that it lies in the external level 4 of a staged view of that container, in the
   range of n bytes from x on; and this is the range that the call is to write, in the staged view of its partition: place and bytes are handed on as they are, from the call to there, and what is put into
   the levels above goes elsewhere, since it is put into a level below 4. A commit stores in one place: it hands the image, whole, to
   number::runs::copy_into once, which stores each byte of the header once, from 0x100 on; a signed one twice, for the 16 bytes of the signature at
   the front and for the header. A revert (02, W13) has a commit's unit: the former header is stored once, and never to try it. The functions at the
   ends are compared statement by statement.
2. A space or a view is made in views::places alone, of a container that layout makes, when it opens the image that the call was lent, whole. That
   no other one will do is proved, since the contracts of 1 ask whose they are; this looks at the same from the other side.
   Nobody changes a field of one, or takes its address. What an image opens as under another header is asked by a revert alone, which uses no space.
3. The contracts that this rests on stand as they are written here.
4. One call is an exception to 1 and 2: making a blank image stores to every byte of the image that it is lent. 02, W12 says so: "01's list of bytes
   that only commit changes doesn't bind this call". Its stores are in three functions, and no other call reaches a function of its crate."""
import re

from flow import Flow, Flows, whole_slices
from mir import Assign, named

STORE = 'stores::staging::store'
OUTSIDE = 'update::store_outside'
OPEN = 'layout::opening::open'
ENTER = 'steps::entering::enter'
ENTER_BACK = 'steps::entering::enter_back'
COPY = 'number::runs::copy_into'
PUT_LEVEL = 'update::put_level'

# The commits and the reverts: the way of the image from the call to the store of its unit, and how often that one hands it to copy_into.
UNITS = {
    'commit': (['commits::switch_tables', 'commits::store_header'], 1),
    'commit_signed': (['commits::switch_signed', 'commits::store_signed'], 2),
    'revert': (['commits::store_header'], 1),
    'revert_signed': (['commits::store_signed'], 2),
}
SESSION_CALLS = ['begin', 'write', *UNITS]

# By what each call opens its image: by opening itself, or by a function that opens the image which it is lent, and then looks at the session.
OPENERS = {'begin': OPEN, 'write': ENTER, 'commit': ENTER, 'commit_signed': ENTER, 'revert': ENTER_BACK, 'revert_signed': ENTER_BACK}

# The functions in which the other calls on a session store to the image, which each has as its parameter 2.
STORES = {'begin': [STORE], 'write': [STORE, OUTSIDE]}

# Who else has a container than a call that opens its own image: a revert asks whether the image opens under the former header.
OPENED_UNDER = {name: {('steps::reverting::is_revertible', 'layout::opening::open_under')} for name in ('revert', 'revert_signed')}

# The way of a write in place, from the call on: of each function the parameters that are the partition or its staged view, the place, the bytes.
IN_PLACE = [
    ('gateway::teplovist_write', 3, 4, 5),
    ('container::sessions::write', 3, 4, 5),
    ('steps::writing::write_partition', 4, 5, 6),
    ('update::write_level4', 2, 4, 5),
    ('update::write_blocks', 2, 4, 5),
    (PUT_LEVEL, 2, 5, 6),
    ('update::put_outside', 1, 3, 4),
]

# Where the partition gives way to its staged view: in this function, by that one's answer.
VIEWED = ('steps::writing::write_partition', 'views::places::staged_view')

# Who else puts bytes into a level, and how the level comes to them, as parameter 4: enter_some has one below 4 by its contract; clear_above has one up
# to 4 by its contract, and hands on the one below it, which the others then have.
LEVELS = [
    ('update::enter_some', PUT_LEVEL),
    ('update::clearing::put_zeros', PUT_LEVEL),
    ('update::clearing::empty_block', 'update::clearing::put_zeros'),
    ('update::clearing::empty_one', 'update::clearing::empty_block'),
    ('update::clearing::empty_level', 'update::clearing::empty_one'),
    ('update::clearing::clear_above', 'update::clearing::empty_level'),
]
ONE_LESS = 'update::clearing::clear_above'

# The exception: its crate, and the functions that store to the image.
BLANK = 'make_blank'
BLANK_CRATE = 'blank'
BLANK_STORES = {'blank::making::clear', 'signing::blocks::put_field', COPY}

# The parameters of the public calls that are lent `&mut`, and what they are. Each function of container, of save::calls and of blank::making, and each
# call of the C boundary, is listed where it has one.
LENT = {
    'blank::making::make_blank': {1: 'image'},
    'container::blocks::signing_block': {3: 'block'},
    'container::blocks::signing_digest': {3: 'digest'},
    'container::reading::faults': {2: 'row'},
    'container::reading::read_committed': {4: 'buffer'},
    'container::reading::read_staged': {5: 'buffer'},
    'container::sessions::begin': {1: 'image'},
    'container::sessions::write': {1: 'image'},
    'container::sessions::commit': {1: 'image'},
    'container::sessions::commit_signed': {1: 'image'},
    'container::sessions::revert': {1: 'image'},
    'container::sessions::revert_signed': {1: 'image'},
    'save::calls::list_names': {2: 'row'},
    'gateway::teplovist_open': {2: 'description'},
    'gateway::teplovist_open_signed': {4: 'description'},
    'gateway::teplovist_read_committed': {4: 'buffer'},
    'gateway::teplovist_read_staged': {5: 'buffer'},
    'gateway::teplovist_faults': {2: 'row'},
    'gateway::teplovist_begin': {1: 'image', 2: 'session'},
    'gateway::teplovist_write': {1: 'image', 2: 'session'},
    'gateway::teplovist_commit': {1: 'image', 2: 'session'},
    'gateway::teplovist_commit_signed': {1: 'image', 2: 'session'},
    'gateway::teplovist_revert': {1: 'image', 2: 'session'},
    'gateway::teplovist_revert_signed': {1: 'image', 2: 'session'},
    'gateway::teplovist_abandon': {1: 'session'},
    'gateway::teplovist_list_names': {2: 'row'},
    'gateway::teplovist_signing_block': {3: 'block'},
    'gateway::teplovist_signing_digest': {3: 'digest'},
    'gateway::teplovist_make_blank': {1: 'image'},
    'gateway::teplovist_digest_start': {1: 'state'},
    'gateway::teplovist_digest_feed': {1: 'state'},
    'gateway::teplovist_digest_finish': {2: 'digest'},
}

# Who makes a value of a type by naming its fields.
MAKERS = {
    'dpfs::Space': {'views::places::space_of'},
    'dpfs::Tree': {'views::places::tree_in'},
    'ivfc::View': {'views::places::view_in'},
    'layout::Container': {'layout::opening::open_second'},
}

# What `?` is made of: it hands on the container that it is given, and makes none.
QUESTION = {'core::result::ResultTry::branch', 'core::result::ResultFromResidualErrResidual::from_residual'}

PINNED = {
    STORE: '''
        _5 = rvOpd(_3)
        _6 = offset(_2.0, _5)
        (*_6) = rvOpd(_4)
        _0 = rvOpd(unit)
        return''',
    OUTSIDE: '''
        _7 = rvOpd(_5)
        _8 = offset(_2.0, _7)
        (*_8) = rvOpd(_6)
        _0 = rvOpd(unit)
        return''',
    'update::put_outside': '''
        _8 = rvOpd(_4.1)
        _5 = rvOpd(_8)
        block
          _6 = rvOpd(int 0)
          _9 = rvOpd(_4.1)
          block
            loop
              _10 = lt unsigned(_6, _9)
              if _10
                skip
              else
                exit 1
              _11 = offset(_4.0, _6)
              _7 = &(*_11)
              block
                _13 = &(*_2.0)
                _14 = aggregate(_13, _2.1)
                _15 = add unsigned(_1.8, _3)
                _16 = rvOpd(_6)
                _17 = add unsigned(_15, _16)
                _18 = rvOpd((*_7))
                _12 = update::store_outside(_1, _14, _3, _5, _17, _18)
              _6 = add unsigned(_6, int 1)
        _0 = rvOpd(unit)
        return''',
    'commits::store_header': '''
        _3 = rvOpd(_2)
        _5 = &(*_1.0)
        _6 = aggregate(_5, _1.1)
        _7 = &_3
        _8 = aggregate(_7, int 256)
        _4 = number::runs::copy_into(_6, int 256, _8)
        _0 = rvOpd(unit)
        return''',
    'commits::store_signed': '''
        _5 = rvOpd(_2)
        _8 = &_5
        _7 = signatures::sign(_3, _4, _8)
        _6 = rvOpd(_7)
        _10 = &(*_1.0)
        _11 = aggregate(_10, _1.1)
        _12 = &_6
        _13 = aggregate(_12, int 16)
        _9 = number::runs::copy_into(_11, int 0, _13)
        _14 = &(*_1.0)
        _15 = aggregate(_14, _1.1)
        _16 = &_5
        _17 = aggregate(_16, int 256)
        _9 = number::runs::copy_into(_15, int 256, _17)
        _0 = rvOpd(unit)
        return''',
    COPY: '''
        block
          _4 = rvOpd(int 0)
          _6 = rvOpd(_3.1)
          block
            loop
              _7 = lt unsigned(_4, _6)
              if _7
                skip
              else
                exit 1
              _8 = offset(_3.0, _4)
              _5 = &(*_8)
              block
                _9 = rvOpd((*_5))
                _10 = add unsigned(_2, _4)
                _11 = offset(_1.0, _10)
                (*_11) = rvOpd(_9)
              _4 = add unsigned(_4, int 1)
        _0 = rvOpd(unit)
        return''',
}

# A function with its contract, and the definition that the contract cites, by the module that it comes from.
CONTRACTS = [
    ('stores/src/staging.rt',
     'pub fn store(space: Space, image: &mut [u8], i: u64, value: u8) '
     'requires { (OwnSpace space image.old) × (Free space image.old i) × (i < length image.old) }',
     'Rattle.dpfs.specs.Free', 'Free'),
    ('stores/src/staging.rt', 'pub fn store(space: Space, image: &mut [u8], i: u64, value: u8) ', 'Rattle.stores.specs.Rules', 'OwnSpace'),
    ('update/src/lib.rt',
     'fn store_outside(view: View, image: &mut [u8], x: u64, n: u64, i: u64, value: u8) '
     'requires { (OwnView view image.old) × (x + n ≤ view.level4.size) × (InPlace view x n i) × (i < length image.old) }',
     'Rattle.update.specs.Rules', 'InPlace'),
    ('update/src/lib.rt', 'fn store_outside(view: View, image: &mut [u8], x: u64, n: u64, i: u64, value: u8) ',
     'Rattle.update.specs.Rules', 'OwnView'),
    ('update/src/lib.rt',
     'fn put_level(space: Space, view: View, image: &mut [u8], i: u64, x: u64, values: &[u8]) '
     'requires { (StagedIn space view image.old) × (i ≤ 4) × (x + length values.now ≤ (level_of view i).size) }',
     'Rattle.ivfc.specs.Views', 'level_of'),
    ('update/src/lib.rt',
     'fn enter_some(space: Space, view: View, image: &mut [u8], i: u64, b: u64, end: u64) -> u64 '
     'requires { (StagedIn space view image.old) × (i < 4) × ',
     'Rattle.update.specs.Rules', 'StagedIn'),
    ('update/src/clearing.rt',
     'pub fn clear_above( space: Space, view: View, image: &mut [u8], i: u64, first: u64, last: u64, front: bool, back: bool, ) '
     'requires staged_in { (StagedIn space view image.old) × (i ≤ 4) × ',
     'Rattle.update.specs.Rules', 'StagedIn'),
    ('views/src/places.rt', 'pub fn staged_view(c: Container, q: u64) -> View requires { PlacesFit c q } ensures { result ≡ staged_view c q }',
     'Rattle.views.specs.Places', 'staged_view'),
    ('views/src/places.rt', 'pub fn space_of(c: Container) -> Space requires { SpaceFits c } ensures { result ≡ space_of c }',
     'Rattle.views.specs.Places', 'space_of'),
    ('layout/src/opening.rt', 'pub fn open(image: &[u8]) -> Result<Container, Refusal> ensures { result ≡ opened image.now }',
     'Rattle.layout.specs.Opening', 'opened'),
]


class Findings:
    def __init__(self, root, program):
        self.root, self.program, self.types = root, program, program.types
        self.broken, self.said = [], []

    def rule(self, holds, words):
        if not holds:
            self.broken.append(words)

    def all(self):
        self.lent_parameters()
        self.pinned_functions()
        self.contracts()
        for name in SESSION_CALLS:
            self.stores_of(name)
            self.opened_image(name)
        self.in_place()
        self.blank_stores()
        self.reads()
        self.apart()
        self.guarded_types()
        self.every_store()
        return self

    # ---- the functions at both ends

    def public(self):
        """The calls of container, those for names and for blank images, and those of the C boundary."""
        return [one for name, one in sorted(self.program.functions.items()) if self.is_public(name)]

    def is_public(self, name):
        named = ('blank::making::make_blank', 'blank::making::blank_length')
        return name.startswith(('container::', 'save::calls::', 'gateway::teplovist_')) or name in named

    def lent_parameters(self):
        for function in self.public():
            lent = {at for at in function.parameters if self.types.carries_mutable(function.locals[at])}
            known = set(LENT.get(function.name, {}))
            self.rule(lent == known, f'{function.name}: a public call that is lent other parameters than those known: {sorted(lent)}')
        for name in LENT:
            self.rule(name in self.program.functions, f'{name}: there is no such call')
        declared = set(re.findall(r'^(?:uint64_t|void) (teplovist_\w+)\(', (self.root / 'include/teplovist.h').read_text(), re.M))
        called = {one.name.split('::')[1] for one in self.public() if one.crate() == 'gateway'}
        self.rule(declared == called, f'include/teplovist.h declares other calls than gateway has: {sorted(declared ^ called)}')

    def pinned_functions(self):
        for name, text in PINNED.items():
            lines = [line[8:] for line in text.strip('\n').split('\n')]
            found = self.program.function(name).outline()
            self.rule(found == lines, f'{name}: is not, statement by statement, what it was:\n    ' + '\n    '.join(found))

    def contracts(self):
        for path, wanted, module, definition in CONTRACTS:
            text = re.sub(r'//[^\n]*', '', (self.root / 'crates' / path).read_text())
            uses = [used for used, names in re.findall(r'ghost use (\S+?)\.\{([^}]*)\};', text) if definition in re.split(r'[\s,]+', names)]
            self.rule(uses == [module], f'{path}: has {definition} from {uses}, and not from {module}')
            self.rule('/*' not in text and re.sub(r'\s+', ' ', text).count(wanted) == 1, f'{path}: does not have: {wanted}')

    # ---- the way of the image

    def stores_of(self, name):
        root = f'gateway::teplovist_{name}'
        flows = Flows(self.program, root, 1)
        stores = {key: list(map(str, found)) for key, found in flows.stores().items()}
        ends = [(COPY, frozenset([1]))] if name in UNITS else [(end, frozenset([2])) for end in STORES[name]]
        for key, found in stores.items():
            self.rule(key in ends, f'{name}: the image is stored to by {key[0]}: {"; ".join(found)}')
        for end in ends:
            self.rule(len(stores.get(end, [])) == 1, f'{name}: expected one store statement in {end[0]}, found {stores.get(end, [])}')
        self.rule((f'container::sessions::{name}', frozenset([1])) in flows.flows, f'{root} does not hand its image to container::sessions::{name}')
        self.lent_whole(name, flows)
        if name in UNITS:
            self.unit_path(name, flows, [root, f'container::sessions::{name}', *UNITS[name][0]])
        self.said.append(f'{name} hands the image on by &mut:')
        self.said += [f'    {a} -> {b}, {n} {"call" if n == 1 else "calls"}' for (a, b), n in sorted(flows.links().items())]

    def lent_whole(self, name, flows):
        """Who lends the image on lends it whole, so that a place in it is the same place for everybody."""
        for (caller, parameters), call, lent in flows.lending():
            whole = whole_slices(self.program.function(caller), *parameters) if len(parameters) == 1 else set()
            good = len(lent) == 1 and not lent[0].steps and lent[0].local in whole
            self.rule(good, f'{name}: {caller} hands on something else than the whole image: {call}')

    def unit_path(self, name, flows, path):
        """From a commit or a revert on, each link to the store of its unit is one call, the last one as many as the unit has pieces, and none in a loop."""
        links = [(before, after, 1) for before, after in zip(path, path[1:])] + [(path[-1], COPY, UNITS[name][1])]
        for before, after, calls in links:
            found = [f'{caller[0]}{" in a loop" if call.in_loop else ""}' for caller, call in flows.callers((after, frozenset([1])))]
            wanted = 'one call' if calls == 1 else f'{calls} calls'
            self.rule(found == [before] * calls, f'{name}: {after} is to have the image from {wanted}, in {before} and in no loop; it has it from {found}')
        lent = sorted(flows.links())
        self.rule(lent == sorted((before, after) for before, after, _ in links), f'{name}: hands the image on by &mut beside the way to its unit: {lent}')

    def in_place(self):
        """A write in place stores to the range that the call is to write, in its partition: each function on the way hands on what it was given."""
        reached = map(self.program.function, sorted(self.program.reached_from([IN_PLACE[0][0]])))
        calls = [(caller, call) for caller in reached for call in caller.calls()]
        way = list(zip(IN_PLACE, IN_PLACE[1:]))
        links = [(before[0], after[0]) for before, after in way] + LEVELS + [(IN_PLACE[-1][0], OUTSIDE)]
        for callee in sorted({after for _, after in links}):
            found = sorted(caller.name for caller, call in calls if call.callee == callee)
            wanted = sorted(before for before, after in links if after == callee)
            self.rule(found == wanted, f'write: {callee} is called by {found}; expected {wanted}')
        for caller, call in calls:
            for before, after in way:
                if (caller.name, call.callee) == (before[0], after[0]):
                    self.same_range(caller, call, before[1:], after[1:])
            if (caller.name, call.callee) in LEVELS:
                self.level_below(caller, call)

    def same_range(self, caller, call, own, given):
        for mine, theirs in zip(own, given):
            place, kept = call.arguments[theirs - 1], whole_slices(caller, mine)
            good = place and not place.steps and (place.local in kept or mine == own[0] and self.viewed(caller, place.local, kept))
            self.rule(good, f'write: {caller.name} does not hand on its partition, place and bytes as they are: {call}')
        if call.callee == PUT_LEVEL:
            self.rule(call.shown[3] == 'int 4', f'write: {caller.name} puts its bytes into another level than 4: {call}')

    def viewed(self, caller, local, partition):
        """A local is the staged view of the partition, and no other value."""
        given = [one for one in caller.statements if one.target.local == local]
        good = [not isinstance(one, Assign) and (caller.name, one.callee) == VIEWED and not one.target.steps and one.arguments[1]
                and not one.arguments[1].steps and one.arguments[1].local in partition for one in given]
        return bool(good) and all(good)

    def level_below(self, caller, call):
        """The level that is handed on is the caller's own, or the one below that."""
        place, own = call.arguments[3], whole_slices(caller, 4)
        if caller.name == ONE_LESS:
            given = [one for one in caller.statements if place and one.target.local == place.local]
            good = bool(given) and bool(own) and all(str(one) == f'{place} = sub unsigned(_4, int 1)' for one in given)
        else:
            good = place and not place.steps and place.local in own
        self.rule(good, f'write: {caller.name} puts bytes into a level that may be 4: {call}')

    def blank_stores(self):
        """The exception's stores, and that it is one: who else reaches its crate."""
        root = f'gateway::teplovist_{BLANK}'
        found = {key[0] for key in Flows(self.program, root, 1).stores()}
        self.rule(found == BLANK_STORES, f'{BLANK}: the image is stored to by {sorted(found)}; expected {sorted(BLANK_STORES)}')
        for function in self.public():
            if function.crate() != BLANK_CRATE and function.name not in (root, 'gateway::teplovist_blank_length'):
                reached = sorted(one for one in self.program.reached_from([function.name]) if one.startswith(f'{BLANK_CRATE}::'))
                self.rule(not reached, f'{function.name} reaches {", ".join(reached)}, which stores where only {BLANK} may')
        self.said.append(f'{BLANK} stores to the image in {", ".join(sorted(found))}, and no other call reaches crate {BLANK_CRATE}')

    def reads(self):
        """No call that is lent an image by `&` stores to it."""
        for function in self.public():
            if 1 not in LENT.get(function.name, {}) and 1 in function.parameters and self.types.carries_pointer(function.locals[1]):
                stores = Flows(self.program, function.name, 1).stores()
                self.rule(not stores, f'{function.name}: stores to the image that it only reads, in {[key[0] for key in stores]}')

    def apart(self):
        """What stores for one call is out of reach of every other that does not store so: in place for write alone, a header for no other commit."""
        ways = {**STORES, **{name: path for name, (path, _) in UNITS.items()}}
        for name, own in ways.items():
            reached = self.program.reached_from([f'gateway::teplovist_{name}'])
            for step in sorted({step for path in ways.values() for step in path} - set(own)):
                self.rule(step not in reached, f'{name} reaches {step}')

    # ---- the space that a store is given

    def opened_image(self, name):
        """The container of a call is what opening gives of its own image, whole."""
        way = [f'container::sessions::{name}', *dict.fromkeys([OPENERS[name], OPEN])]
        steps = list(zip(way, way[1:]))
        for caller, callee in steps:
            self.opens_whole(caller, callee)
        for caller in map(self.program.function, sorted(self.program.reached_from([f'gateway::teplovist_{name}']))):
            for call in caller.calls():
                if caller.crate() != 'layout' and call.callee not in QUESTION and self.types.holds(caller.kind_of(call.target), named('layout::Container')):
                    known = {*steps, *OPENED_UNDER.get(name, [])}
                    self.rule((caller.name, call.callee) in known, f'{name}: {caller.name} has a container from {call.callee}')

    def opens_whole(self, caller, callee):
        """A function hands its image on to be opened, whole and once."""
        function = self.program.function(caller)
        opened = [call.arguments[0] for call in function.calls() if call.callee == callee]
        good = len(opened) == 1 and opened[0] and not opened[0].steps and opened[0].local in whole_slices(function, 1)
        self.rule(good, f'{caller}: is to open its image, whole and once')

    def guarded_types(self):
        for guarded, makers in MAKERS.items():
            found = set()
            for function in self.program.functions.values():
                self.guarded_type(function, named(guarded), found)
            self.rule(found == makers, f'{guarded}: is made by {sorted(found)}; expected {sorted(makers)}')
            self.said.append(f'{guarded} is made by {", ".join(sorted(found))} alone')

    def guarded_type(self, function, guarded, makers):
        """No place has a reference to such a value, or a row of them; none is changed in part; who makes one is noted."""
        def holds(kind):
            return self.types.holds(kind, guarded)

        for kind in filter(holds, function.locals):
            lent = any(map(holds, self.types.rows_and_references(kind)))
            self.rule(not lent, f'{function.name}: has a reference to a {guarded[1]}, or a row of them')
        for one in function.statements:
            along = function.kinds_along(one.target)
            self.rule(guarded not in along[:-1], f'{function.name}: changes a part of a {guarded[1]}: {one}')
            self.rule(not (one.target.through() and any(map(holds, along))), f'{function.name}: stores a {guarded[1]} behind a pointer: {one}')
            if isinstance(one, Assign):
                if one.value.pointed:
                    pointed = any(map(holds, function.kinds_along(one.value.pointed)))
                    self.rule(not pointed, f'{function.name}: takes the address of a {guarded[1]}: {one}')
                if along[-1] == guarded and one.value.form != 'operand':
                    makers.add(function.name)

    # ---- what is printed beside

    def every_store(self):
        """Every function that stores through a reference which it was lent."""
        found = []
        for function in sorted(self.program.functions.values(), key=lambda one: one.name):
            lent = [at for at in function.parameters if self.types.carries_mutable(function.locals[at])]
            stores = [f'parameter {at}: {len(Flow(function, frozenset([at])).stores)}' for at in lent if Flow(function, frozenset([at])).stores]
            if stores:
                found.append(f'    {function.name} ({", ".join(stores)})')
        self.said += ['functions that store through a lent reference, with their store statements:', *found]
