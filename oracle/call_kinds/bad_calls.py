"""Bad calls of every kind, each at the end of a list that did something before."""
import struct

from .refiner_kinds import hall
from .smoother_frames import frame, refined
from .writing import ALL, COUNTERS, LIST, PUSH_LAST, TAKE, TAKE_SMOOTHED, bits, call, lend, lend_window, opening, packed, push, push_frame, smoother, write, write_smoother

CELLS = (20, 35_632, 561, 512, 768, 1664)
SMOOTHER_CELLS = (5, 15_470, 91_936)
LENGTHS = {1: 88, 4: 0, 5: 0, 6: 16, 7: 24, 9: 0, 11: 24, 12: 0, 14: 0, 16: 16, 17: 24}


def bad_calls():
    """One for each way."""
    for code in (0, 3, 8, 10, 15, 18, 255, (1 << 32) - 1, 1 << 31):
        yield call(code)
        yield call(code, bytes(24))
    for code, n in LENGTHS.items():
        for length in sorted({n - 8, n - 1, n + 1, n + 8, 0} - {n}):
            if length >= 0:
                yield call(code, bytes(length))
    for length in (0, 8, 15):
        yield call(13, bytes(length))
    for words, numbers, length in ((1, 0, 16), (0, 1, 16), (0, 0, 24), (0, 0, 17), (2, 1, 32)):
        yield call(13, packed((words, numbers)) + bytes(length - 16))
    for words, numbers in ((1 << 61, 0), (0, 1 << 61), (1 << 60, 1 << 60), (ALL, 1), (ALL, ALL)):  # in 64 bits these come to nothing, or to a little
        yield call(13, packed((words, numbers)))
    yield push_frame([0] * 4097, [])
    yield push_frame([0] * 6, [0] * 8193)
    for n in range(1, 8):
        yield bytes(n)
    yield from (TAKE[:7], opening(bytes(88))[:-1], push(bytes(64))[:-1], write(0, 0, 0)[:-8])
    for code, length in ((2, 1), (2, (1 << 32) - 1), (4, 8)):
        yield struct.pack("<II", code, length)
    for place, n in enumerate(CELLS):
        for index in (n, n + 1, 1 << 32, 1 << 63, ALL):
            yield write(place, index, 0)
    for place, n in enumerate(SMOOTHER_CELLS):
        for index in (n, n + 1, 1 << 32, ALL):
            yield write_smoother(place, index, 0)
    for place in (6, 7, 1 << 32, ALL):
        yield write(place, 0, 0)
    for place in (3, 4, 1 << 32, ALL):
        yield write_smoother(place, 0, 0)
    for byte in (256, 511, 1 << 32, ALL):
        yield write(1, 0, byte)
    for words, numbers in ((4097, 0), (0, 8193), (4097, 8193), (1 << 32, 0), (0, ALL)):
        yield lend(words, numbers)
    for words, numbers in ((15_471, 0), (0, 91_937), (1 << 32, 0), (0, ALL)):
        yield lend_window(words, numbers)


def begun(out):
    """Something before it, with cells, lengths and lists that are just in bounds."""
    r = out.r
    settings, bodies = hall(r)
    out.add(opening(settings), *map(push, bodies[: r.randint(1, 5)]), smoother(1, bits(0.5), 8), TAKE, PUSH_LAST)
    ends = [write(place, n - 1, 255) for place, n in enumerate(CELLS) if place != 0] + [write_smoother(place, n - 1, 0) for place, n in enumerate(SMOOTHER_CELLS) if place != 0]
    out.add(*r.sample(ends, 3), lend(4096, 8192), COUNTERS, push_frame(*frame(r, refined, 5, [1], 1, 1)), TAKE_SMOOTHED)
    if r.random() < 0.1:
        out.add(push_frame([0] * 4096, []), push_frame([0] * 6, [0] * 8192), lend_window(15_470, 91_936))


def bad(out):
    """Lists that end in a bad call, with more behind it; lists of 262,144 bytes, and of one more."""
    ways = list(bad_calls())
    way = out.seed % (len(ways) + 2)
    if out.r.random() < 0.9:
        begun(out)
    if way >= len(ways):  # as long as a list may be, or a byte more
        return out.add(push(bytes(LIST + way - len(ways) - out.size - 16)), COUNTERS)
    one = ways[way]
    out.add(one)
    if 8 <= len(one) == 8 + struct.unpack_from("<I", one, 4)[0]:  # else what is behind it would be taken for its rest
        out.add(COUNTERS)


KINDS = [bad]
