"""For gdb: counts, in each case that the program marks, how often ivfc::Reader::digests_from hashes each block. See bench/hashes."""
import collections

import gdb

LEVELS = (1, 2, 3, 4)


class Tally:
    name = ''
    level, most, seen = 0, 0, 0
    hashed = collections.Counter()
    cases = 0
    broken = []


def register(name):
    return int(gdb.parse_and_eval('$' + name)) & 0xFFFF_FFFF_FFFF_FFFF


def word(address):
    return int.from_bytes(gdb.selected_inferior().read_memory(address, 8), 'little')


class Returned(gdb.Breakpoint):
    """A place where digests_from returns to: its result says how many blocks it hashed."""

    places = {}
    waiting = None

    def stop(self):
        if Returned.waiting is not None:
            result, level, first = Returned.waiting
            Returned.waiting = None
            for block in range(first, first + word(result)):
                Tally.hashed[level, block] += 1
        return False


class Hashing(gdb.Breakpoint):
    """digests_from(reader, i, b, end): the places of the result and of the reader, the level and the first block are in registers, in this order.
    It does not call itself."""

    def stop(self):
        place = word(register('rsp'))
        if place not in Returned.places:
            Returned.places[place] = Returned(f'*{place:#x}', internal=True)
        Returned.waiting = (register('rdi'), register('rdx'), register('rcx'))
        return False


class Starts(gdb.Breakpoint):
    def stop(self):
        Tally.name = gdb.Value(register('rdi')).cast(gdb.lookup_type('char').pointer()).string()
        Tally.level, Tally.most, Tally.seen = register('rsi') & 0xFF, register('rdx') & 0xFF, register('rcx') & 0xFF
        Tally.hashed.clear()
        return False


def counts_of(level):
    """How often each block of the level was hashed that was hashed at all."""
    return [n for (at, _), n in Tally.hashed.items() if at == level]


def complaints():
    for level in LEVELS:
        most = max(counts_of(level), default=0)
        if level <= Tally.level and most > Tally.most:
            yield f'{Tally.name}: a block of level {level} is hashed {most} times'
        # The call cannot do its work without hashing there, so a count of nothing is a count that failed.
        if level <= Tally.seen and most == 0:
            yield f'{Tally.name}: no block of level {level} was seen to be hashed'


class Ends(gdb.Breakpoint):
    def stop(self):
        Tally.cases += 1
        Tally.broken += complaints()
        cells = [f'{len(counts):5} blocks {max(counts, default=0)} times' for counts in map(counts_of, LEVELS)]
        print(f'{Tally.name:44}' + ' |'.join(cells))
        return False


def run():
    print('at most, of levels 1, 2, 3 and 4:')
    gdb.execute('run')
    # As text, since it is void for a program that has not ended, and gdb ends with 0 where its script breaks off.
    if str(gdb.parse_and_eval('$_exitcode')) != '0' or Tally.cases == 0:
        Tally.broken.append('the program did not run to its end')


gdb.execute('set pagination off')
stops = [Hashing("'ivfc::Reader::digests_from'", internal=True), Starts('case_starts', internal=True), Ends('case_ends', internal=True)]
Tally.broken += [f'the program has no {stop.location}' for stop in stops if stop.pending]
if not Tally.broken:
    run()
print('\n'.join(Tally.broken) or f'hashes: {Tally.cases} calls, no block more often than it may')
gdb.execute(f'quit {1 if Tally.broken else 0}')
