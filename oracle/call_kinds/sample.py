"""What `rt ci` plays: one list with a little of everything."""
import math
import struct

from .cells import BODY, COLUMN, FILTER, FIRST, FROZEN, LAG, NEXT, OWNED, PART, Image, changes
from .refiner_changes import class_word, filter_values, owners_in_another_order, past_the_counts
from .refiner_clauses import CLAUSES, sum_of_nine_holds
from .refiner_kinds import broken_once, generate, hall, parts
from .smoother_frames import broken, dense, faults, frame, refined, whole, wild
from .smoother_kinds import run
from .smoother_states import CLAUSES as SMOOTHER_CLAUSES
from .smoother_states import EMPTY, past_the_frames
from .writing import ALL, COUNTERS, DIGEST, PUSH_LAST, TAKE, TAKE_SMOOTHED, List, bits, lend, lend_window, opening, push, push_frame, smoother, window, write, write_smoother

STEP = 10**8


def scan(time, ids):
    """A scan of people who stand 100 m apart, under these engine ids; None for a dot without one."""
    return generate.body(time, [(100.0 * i, 0.0, 1.0) for i in range(len(ids))], [(i, e, 0 if e else 2, None) for i, e in enumerate(ids)])


def smoothed(out):
    """A smoother: a little of each kind of covariance with lag 3, density 0.7 and C 3, and a frame malformed in each
    way."""
    r = out.r
    out.add(TAKE_SMOOTHED, PUSH_LAST, smoother(17, bits(0.7), 3), smoother(3, bits(math.nan), 3), smoother(3, bits(0.7), 129), smoother(3, bits(0.7), 3), TAKE_SMOOTHED, PUSH_LAST)
    for covariance, room in ((refined, 3000), (dense, 3000), (broken, 3000), (wild, 3500), (whole, 5000)):
        run(out, covariance, 3, 3, 0.1, out.size + room, ids=[1, 1, 2, ALL])
    out.add(DIGEST)
    for w, x in faults(r, 3, 0):
        out.add(push_frame(w, x))
    out.add(DIGEST)
    run(out, refined, 3, 2, 0.0, out.size + 1000)


def turned_away(out, good):
    """1, 4, 5, 6 and 7, each between others, and nothing changed."""
    b = bytearray(good)
    dot = 16 + 16 * b[1] + 4 * b[4]
    link = dot + 24 * b[2]
    six, seven = bytearray(b), bytearray(b)
    struct.pack_into("<d", six, dot, math.inf)
    seven[link] = 255
    out.add(DIGEST, opening(generate.settings(lag=17)), opening(generate.settings(sigma=math.nan)), push(b""), push(good[:-1]), push(bytes(six)), push(bytes(seven)))
    out.add(lend(909, 5408), push(good), TAKE, TAKE_SMOOTHED, push_frame(EMPTY, []), lend(910, 5407), TAKE, lend(4096, 8192), DIGEST)


def alone(out, image, clause):
    """A state in which this clause is broken and no other, if one is found."""
    for _ in range(40):
        s = image.copy()
        if clause(out.r, s) is not False:
            trial = List(out.r, 0, out.oracle)
            trial.add(*out.calls, *changes(image, s), COUNTERS)
            if trial.ask("calls_named").decode().splitlines()[-1] == f"refused 3 {clause.__name__}":
                return s
    return s


def refined_and_smoothed(out):
    """A refiner whose frames go to a smoother; its state broken in each clause, then changed where it is free."""
    r = out.r
    settings, bodies = parts(generate.make("grid", 190))  # it makes moves of every kind
    out.add(push(b""), TAKE, COUNTERS, DIGEST, opening(settings), smoother(1, bits(0.5), 128))
    for b in bodies:
        out.add(push(b), PUSH_LAST)
    out.add(*[TAKE] * 2, PUSH_LAST, COUNTERS, opening(generate.settings(lag=2, coast=3 * STEP)))
    _, bodies = hall(r)
    for b in bodies[:3] + [scan(STEP * k, [1, 2, 2, None, 5]) for k in range(3, 6)]:
        out.add(push(b), PUSH_LAST)
    turned_away(out, bodies[5])
    out.add(TAKE_SMOOTHED)
    image = Image.after(out)
    for clause in CLAUSES:
        broken_once(out, image, alone(out, image, clause), [b""], seen=0.2)
    out.add(*past_the_counts(r, image, 1))
    s = image.copy()
    for change in (filter_values, class_word, owners_in_another_order):
        change(r, s)
    s.fields[LAG] = 4
    out.add(*changes(image, s), push(bodies[5]), push(bodies[6]), TAKE, PUSH_LAST, TAKE, PUSH_LAST, COUNTERS)
    out.add(write(0, NEXT, (1 << 60) + 1), push(bodies[7]), TAKE, PUSH_LAST, TAKE, TAKE, TAKE, COUNTERS)


def full(out):
    """32 people whose engine ids change at every scan, and whose tracks are joined: 256 engine ids are owned and 10
    refuses one more. Then 9; then 8, at the last scan's number."""
    out.add(opening(generate.settings(lag=1, coast=-1, forget=10**18)))
    for k in range(8):
        out.add(push(scan(STEP * k, range(1 + 32 * k, 33 + 32 * k))))
    out.add(DIGEST, push(scan(8 * STEP, [257])), DIGEST, write(0, OWNED, 257), COUNTERS, write(0, OWNED, 256), write(0, LAG, 16))
    for k in range(2):
        out.add(push(scan(STEP * (8 + k), range(225, 257))))
    image = Image.after(out)
    broken_once(out, image, alone(out, image, sum_of_nine_holds), [b""])
    out.add(push(scan(10 * STEP, [225])), TAKE, COUNTERS)
    out.add(opening(generate.settings(lag=1)), write(0, FIRST, 4_294_967_294), push(scan(0, [7])), push(scan(STEP, [7])), TAKE, PUSH_LAST, TAKE, COUNTERS)


def some(r, time):
    return frame(r, refined, time * STEP, [1, 2], 1, 1)


def kept(out):
    """A smoother's state broken, and put back; windows of other lengths."""
    r = out.r
    out.add(smoother(2, bits(0.7), 2), push_frame(*some(r, 1)), push_frame(*some(r, 2)))
    image = Image.after(out)
    for clause in SMOOTHER_CLAUSES:
        s = image.copy()
        clause(r, s)
        out.add(*changes(image, s), DIGEST, TAKE_SMOOTHED, push_frame(EMPTY, []), DIGEST, *changes(s, image))
    w, x = window(2, 2)
    out.add(*past_the_frames(r, image), lend_window(w, x - 1), TAKE_SMOOTHED, smoother(2, bits(0.7), 2), lend_window(w, x))
    out.add(push_frame(*some(r, 3)), write_smoother(0, 1, bits(0.0)), *[TAKE_SMOOTHED] * 4)


def alike(out, scans, last):
    """A refiner and a smoother are opened and get these scans, then the last one. The digest before that one, when that
    alone is held, and when all is taken, from the smoother too."""
    out.add(opening(generate.settings(lag=2, forget=STEP)), smoother(2, bits(0.5), 128))
    for b in scans:
        out.add(push(b), PUSH_LAST)
    out.add(DIGEST, push(last), PUSH_LAST, TAKE, PUSH_LAST, DIGEST, TAKE, PUSH_LAST, TAKE_SMOOTHED, TAKE_SMOOTHED, DIGEST)


def forgotten(out):
    """What is kept of people: lists of calls that differ and end alike. Two of other dots, all of them clutter but for
    an equal last scan; two of other people, who have all been forgotten when the last scan comes. Once it alone is
    held, and of the people before it too, the first numbers of the digests of each two are equal; at the end the second
    ones are too."""
    r = out.r
    out.add(lend_window(*window(2, 128)))
    for n in (3, 9):
        clutter = [[(r.uniform(-9, 9), r.uniform(-9, 9), r.uniform(1, 2)) for _ in range(n)] for _ in range(5)]
        scans = [generate.body(STEP * k, dots, [(i, None, 2, None) for i in range(n)]) for k, dots in enumerate(clutter)]
        alike(out, scans, scan(5 * STEP, [7, None, 8]))
    for step in (0.3, -0.7):
        people = [[(100.0 * i + step * k, step * i, 1.2 + step / 9) for i in range(4)] for k in range(5)]
        links = [(i, 40 + i if step > 0 else 90 - i, 0, step) for i in range(4)]
        scans = [generate.body(STEP * k, dots, links) for k, dots in enumerate(people)]
        alike(out, scans + [scan(STEP * k, [None]) for k in range(40, 44)], scan(44 * STEP, [7, None, 8]))


def next_cells(s):
    """Calls that write the first cells that no count reaches: past each body and each scan's ids, past the owners, the
    frozen parts and the heights of each."""
    held, frozen = s.slots(), s.fields[FROZEN]
    bodies = [(1, BODY * slot + len(s.body(slot)), 5) for slot in held]
    columns = [(2, COLUMN * slot + 1 + s.body(slot)[3], 9) for slot in held]
    heights = [(5, FILTER * k + 8 + n, bits(0.5)) for k in range(frozen) if (n := s.tracks[PART * k + 5]) < 5]
    return [write(*c) for c in bodies + columns + heights + [(3, 2 * s.fields[OWNED], 9), (4, PART * frozen, 9), (5, FILTER * frozen, bits(0.5))]]


def littered(out):
    """A refiner in whose memory the caller writes past the counts before each push: it stays where it was written, or
    is cleared with what was in use before it. Then a smoother, opened again over a window that was in use."""
    _, bodies = parts(generate.make("grid", 190))  # people are forgotten, and scans are empty
    out.add(opening(generate.settings(lag=1, forget=2 * STEP)))
    for b in bodies:
        out.add(*next_cells(Image.after(out)), push(b))
    again = smoother(2, bits(0.7), 2)
    out.add(DIGEST, lend_window(*window(2, 2)), again, *[push_frame(*some(out.r, k)) for k in (1, 2)], DIGEST, again, DIGEST)


def sample(out):
    """What `rt ci` plays: a little of each kind, every code, every refusal but those of a recording, and a bad call at
    the end."""
    smoothed(out)
    refined_and_smoothed(out)
    full(out)
    kept(out)
    forgotten(out)
    littered(out)
    out.add(write(1, 0, 256), COUNTERS)
