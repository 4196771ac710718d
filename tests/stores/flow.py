"""Where a reference to an image goes. A local is *tainted* if it may hold a pointer into the image, or lead to one; whether the pointer is `&` or
`&mut` is not asked, so that nothing rests on how the compiler writes the difference down. The rules err on the side of tainting too much:

- a value is tainted if one of its operands is and its type has room for a pointer; a call's result, if one of its arguments is;
- the order of statements is not looked at: a local that is tainted once is tainted everywhere in its function;
- every assignment through a tainted local counts as a store to the image;
- a tainted value that is itself stored through a pointer is an error, since what lies behind a pointer is not followed.

There is no unsafe code, no pointer made from a number, no function pointer, no heap and no variable outside functions (mir.Unknown says no to what
is not in these rules), so that a store to the image goes through a tainted local."""
from mir import Assign, Unknown


class Flow:
    """One function, where some of its parameters are tainted: its stores to the image, and its calls that hand a tainted value on."""

    def __init__(self, function, parameters):
        self.function, self.parameters = function, parameters
        self.tainted = set(parameters)
        while self._spread():
            pass
        self.stores, self.calls = [], []
        for one in function.statements:
            self._note(one)

    def _carried(self, place):
        """Whether what is copied from a place may be, or lead to, a pointer into the image."""
        return place.local in self.tainted and self.function.types.carries_pointer(self.function.kind_of(place))

    def _gives(self, one):
        """Whether an assignment or a call leaves a tainted value at its target."""
        if isinstance(one, Assign):
            if one.value.form == 'number':
                if self.function.types.carries_pointer(self.function.kind_of(one.target)):
                    raise Unknown(f'{self.function.name} makes a pointer from a number: {one}')
                return False
            if one.value.pointed:
                return one.value.pointed.local in self.tainted
            return any(self._carried(place) for place in one.value.places)
        handed = any(place and self._carried(place) for place in one.arguments)
        return handed and self.function.types.carries_pointer(self.function.kind_of(one.target))

    def _spread(self):
        """Taints what one pass over the statements taints; whether that was anything new."""
        before = len(self.tainted)
        for one in self.function.statements:
            if self._gives(one):
                if one.target.through():
                    raise Unknown(f'{self.function.name} keeps a reference to the image behind a pointer: {one}')
                self.tainted.add(one.target.local)
        return len(self.tainted) > before

    def _note(self, one):
        if one.target.through() and one.target.local in self.tainted:
            self.stores.append(one)
        if not isinstance(one, Assign):
            handed = frozenset(at for at, place in enumerate(one.arguments, 1) if place and self._carried(place))
            if any(self.function.kind_of(one.arguments[at - 1]) == ('pointer',) for at in handed):
                raise Unknown(f'{self.function.name} hands on a pointer that is no reference: {one}')
            if handed:
                self.calls.append((one, handed))


class Flows:
    """Everything that a function and its callees do with the image that one of its parameters is. A callee is looked at once for each set of
    parameters that it gets the image as."""

    def __init__(self, program, root, parameter):
        self.program, self.root = program, (root, frozenset([parameter]))
        self.flows = {}
        waiting = [self.root]
        while waiting:
            key = waiting.pop()
            if key not in self.flows:
                self.flows[key] = Flow(program.function(key[0]), key[1])
                waiting += [self._followed(key[0], call, handed) for call, handed in self.flows[key].calls]

    def _followed(self, name, call, handed):
        if not call.is_named:
            raise Unknown(f'{name} hands the image to a method that its caller chooses: {call}')
        return call.callee, handed

    def stores(self):
        """The functions that store to the image, with their statements."""
        return {key: flow.stores for key, flow in self.flows.items() if flow.stores}

    def callers(self, key):
        """The calls that hand the image to a function in that way: caller and call."""
        return [(caller, call) for caller, flow in self.flows.items() for call, handed in flow.calls if (call.callee, handed) == key]

    def lending(self):
        """The calls that hand the image on by `&mut`, or to a function by which it is stored to: the caller, the call, the places of the image."""
        storing, grown = set(self.stores()), True
        while grown:
            more = {key for key, flow in self.flows.items() if any((call.callee, handed) in storing for call, handed in flow.calls)}
            grown = not more <= storing
            storing |= more
        for key, flow in self.flows.items():
            for call, handed in flow.calls:
                lent = [call.arguments[at - 1] for at in handed]
                mutable = any(self.program.types.carries_mutable(flow.function.kind_of(place)) for place in lent)
                if mutable or (call.callee, handed) in storing:
                    yield key, call, lent

    def links(self):
        """Who lends the image so, to whom, and by how many calls."""
        found = {}
        for (name, _), call, _ in self.lending():
            found[name, call.callee] = found.get((name, call.callee), 0) + 1
        return found


def whole_slices(function, parameter):
    """The locals that hold the slice of a parameter whole, whatever path a run takes, and no other value: each of its assignments lends it again,
    or copies it."""
    assigned, touched = {}, set()
    for one in function.statements:
        if one.target.steps and not one.target.through():
            touched.add(one.target.local)
        elif not one.target.steps:
            assigned.setdefault(one.target.local, []).append(one)
        if isinstance(one, Assign) and one.value.pointed and not one.value.pointed.through():
            touched.add(one.value.pointed.local)
    if parameter in assigned or parameter in touched:
        return set()
    slices, pointers = {parameter}, set()

    def pointer_of_whole(one):
        place = isinstance(one, Assign) and one.value.pointed
        return place and place.local in slices and str(place) == f'(*_{place.local}.0)'

    def whole(one):
        if not isinstance(one, Assign) or one.value.form not in ('aggregate', 'operand'):
            return False
        places = one.value.places
        if one.value.form == 'operand':
            return len(places) == 1 and places[0].local in slices and not places[0].steps
        if len(places) != 2 or len(one.value.operands) != 2:
            return False
        start, count = places
        return start.local in pointers and not start.steps and count.local in slices and str(count) == f'_{count.local}.1'

    grown = True
    while grown:
        before = len(slices) + len(pointers)
        for local, given in assigned.items():
            if local not in touched and all(map(pointer_of_whole, given)):
                pointers.add(local)
            if local not in touched and all(map(whole, given)):
                slices.add(local)
        grown = len(slices) + len(pointers) > before
    return slices
