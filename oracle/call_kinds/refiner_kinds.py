"""Lists of calls of a refiner, and of a refiner with a smoother behind it."""
import importlib.machinery
import importlib.util
import pathlib
import struct

from .cells import COUNTS, FIRST, FROZEN, NEXT, PART, Image, changes
from .refiner_changes import FREE, past_the_counts
from .refiner_clauses import BOUND, CLAUSES, owners_at_most_256
from .smoother_frames import frame, refined, short_faults
from .writing import ALL, COUNTERS, DIGEST, PUSH_LAST, TAKE, TAKE_SMOOTHED, bits, lend, lend_window, opening, push, push_frame, smoother, window, write

loader = importlib.machinery.SourceFileLoader("generate", str(pathlib.Path(__file__).resolve().parent.parent / "generate"))
generate = importlib.util.module_from_spec(importlib.util.spec_from_loader("generate", loader))
loader.exec_module(generate)


def parts(recording):
    """Settings and bodies of a recording that 11 and 12 do not refuse, else None."""
    if len(recording) < 92:
        return None
    n = struct.unpack_from("<I", recording, 88)[0]
    if n > 256 or len(recording) < 92 + 8 * n:
        return None
    return recording[:88], [recording[o : o + k] for o, k in (struct.unpack_from("<II", recording, 92 + 8 * i) for i in range(n))]


def recorded(r, *names):
    """Settings and bodies of some recording."""
    among = [f for f in generate.SCENARIOS if not names or f.__name__ in names]
    while True:
        p = parts(r.choice(among)(r))
        if p:
            return p


def lag_of(settings):
    return min(struct.unpack_from("<Q", settings)[0], 16)


def played(out, settings, bodies, takes):
    """Opens, pushes and takes."""
    r = out.r
    out.add(opening(settings))
    for b in bodies:
        out.add(push(b))
        while r.random() < takes:
            out.add(TAKE)
        if r.random() < 0.05:
            out.refused(COUNTERS)
        if r.random() < 0.03:
            out.add(DIGEST)
    out.add(*[TAKE] * (lag_of(settings) + 1), COUNTERS)
    out.refused(TAKE)


def refiner(out):
    """A refiner: a recording as calls, takes anywhere, counters now and then; at the end takes until none is held and
    once more."""
    r = out.r
    if r.random() < 0.1:
        out.refused(push(b""), TAKE, COUNTERS, opening(generate.settings(lag=17)), TAKE)
    played(out, *recorded(r), r.choice((0.0, 0.0, 0.1, 0.3, 0.5)))


def woven(out, calls, each):
    """The same calls again, and after each of them what is made of it and of its lines."""
    for one, lines in calls:
        out.add(one)
        each(bool(lines) and lines[0].startswith("words"), lines)


def other_frame(r, lines):
    """Another frame than the refiner's: made up, or its own with a word changed."""
    if len(lines) == 2 and r.random() < 0.5:
        w, x = [int(v) for v in lines[0].split()[1:]], [int(v, 16) for v in lines[1].split()[1:]]
        w[r.choice((0, 1, 5))] = r.choice((0, 1, 10**8, 3))
        return push_frame(w, x)
    return push_frame(*frame(r, refined, r.randrange(10**10), [r.randint(1, 5) for _ in range(r.randrange(4))], r.randrange(3), r.randrange(3)))


def both(out):
    """A refiner and a smoother that gets its frames, and sometimes does not, or gets others; takes of both anywhere."""
    r = out.r
    settings, bodies = recorded(r, "quiet", "crossing", "duplicates", "teleports", "times", "extreme", "grid", "rich", "small", "refused")
    played(out, settings, bodies, r.choice((0.0, 0.1, 0.3)))
    calls, out.calls, out.size = out.answered(), [], 0
    lag = r.choice((lag_of(settings), r.randint(0, 16), r.randint(0, 4)))
    most = r.choice((128, 128, r.randint(1, 8)))
    if r.random() < 0.5:
        out.refused(PUSH_LAST, TAKE_SMOOTHED)
    out.add(smoother(lag, r.choice((int.from_bytes(settings[40:48], "little"), bits(0.7))), most))
    if r.random() < 0.5:
        out.refused(PUSH_LAST)  # no frame yet: two empty lists
    faithful = r.random() < 0.5

    def each(given, lines):
        if given and (faithful or r.random() < 0.9) or not faithful and r.random() < 0.03:
            out.add(PUSH_LAST)
        if not faithful and r.random() < 0.05:
            out.add(other_frame(r, lines))
        while r.random() < 0.05:
            out.add(TAKE_SMOOTHED)

    woven(out, calls, each)
    out.add(*[TAKE_SMOOTHED] * (lag + 1))
    out.refused(TAKE_SMOOTHED)


SHORT = [(0, 0), (909, 5408), (910, 5407), (909, 5407), (0, 8192), (4096, 0), (910, 0)]
LONG = [(910, 5408), (911, 5408), (910, 5409), (4096, 8192), (911, 8192)]


def buffers(out):
    """Output buffers and windows of odd lengths, lent between pushes and takes of both."""
    r = out.r
    settings, bodies = recorded(r, "quiet", "crossing", "grid", "rich", "small", "refused")
    lag, most, density = r.randint(0, 4), r.choice((1, 8, 128)), bits(0.5)
    played(out, settings, bodies[:30], 0.15)
    calls, out.calls, out.size = out.answered(), [], 0
    out.add(smoother(lag, density, most))
    exact = window(lag, most)
    bad = short_faults(r, most)

    def short():
        """With buffers that are too short: 4, in a broken state 3, with a bad frame still 4."""
        out.add(lend(*r.choice(SHORT)))
        tries = [push(r.choice(bodies or [b""])), push(b""), TAKE, COUNTERS, PUSH_LAST, push_frame(*r.choice(bad)), TAKE_SMOOTHED]
        out.refused(*r.sample(tries, r.randint(1, 4)))
        out.add(lend(*r.choice(LONG)))

    def other_window():
        """With another window: 2, whatever else is wrong."""
        w, x = exact
        out.add(lend_window(*r.choice(((w - 1, x), (w + 1, x), (w, x - 1), (w, x + 1), (0, 0), (w, 0), (0, x), (15_470, 91_936), (15_470, 91_935)))))
        tries = [PUSH_LAST, push_frame(*r.choice(bad)), TAKE_SMOOTHED, smoother(lag, density, most), smoother(lag + 1, density, most), smoother(lag, bits(float("nan")), most)]
        if r.random() < 0.3:
            out.add(lend(*r.choice(SHORT)))
        out.refused(*r.sample(tries, r.randint(1, 4)))
        out.add(lend(*r.choice(LONG)), lend_window(*exact))

    def each(given, lines):
        if given or r.random() < 0.05:
            out.add(PUSH_LAST)
        if r.random() < 0.1:
            out.add(TAKE_SMOOTHED)
        if r.random() < 0.2:
            short()
        if r.random() < 0.15:
            other_window()
        if r.random() < 0.02:  # an opening again: the window stays as it is lent
            out.add(smoother(lag, density, most))

    woven(out, calls, each)
    out.add(*[TAKE_SMOOTHED] * (lag + 2))


def hall(r):
    """Settings and bodies with which scans are held, parts frozen and ids owned, dots without an engine id, engine ids
    twice in a scan."""
    settings = generate.settings(lag=r.randint(2, 6), coast=r.choice((5 * 10**8, 10**18)), forget=r.choice((2 * 10**9, 10**18)))
    people = generate.Hall(r, r.randint(2, 4), r.choice((3.0, 6.0, 30.0)))
    return settings, generate.run(r, people, 60, swap=0.1, twice=0.25, lose=0.05, loose=0.25, extras=True)


def standing(r):
    """The same with 32 people in each scan who stand far apart: with lag 3 there is no room for one detection more."""
    bodies = []
    for k in range(20):
        ids = list(range(1, 33))
        bodies.append(generate.body(10**8 * k, [(100.0 * i, 0.0, 1.0) for i in range(32)], [(i, e, 0, None) for i, e in enumerate(ids)]))
    return generate.settings(lag=3, coast=-1), bodies


def broken_once(out, image, s, bodies, seen=0.4):
    """Cells written that break the state: a push, a take and counters are refused by 3. Then they are put back."""
    r, do, undo = out.r, changes(image, s), changes(s, image)
    if len(do) > 100:
        return
    if r.random() < 0.2:  # written as they are already, so that the digest before and the one at the end are of the same cells
        out.add(*undo, DIGEST)
        undo.append(DIGEST)
    if r.random() < 0.1:
        do, undo = [*do, lend(909, 5407)], [lend(910, 5408), *undo]
    tries = [push(r.choice(bodies)), TAKE, COUNTERS]
    out.add(*do)
    out.refused(*r.sample(tries, len(tries)), seen=seen)
    out.add(*undo)


def broken(out):
    """A refiner's state broken cell by cell in each clause of its rule and put back; cells that no count reaches
    changed and not noticed."""
    r = out.r
    crowded = r.random() < 0.25
    settings, bodies = standing(r) if crowded else hall(r)
    bodies = iter(bodies)
    out.add(opening(settings), write(0, NEXT, 0))
    out.refused(push(next(bodies)), TAKE, COUNTERS)
    out.add(write(0, NEXT, 1))
    for count in (4, 1, 2) if crowded else (r.randint(6, 14), 3, 1):
        for _ in range(count):
            out.add(push(next(bodies)), *[TAKE] * (r.random() < 0.1))
        image, pushed = Image.after(out), [next(bodies), b"", bytes(2097)]
        for clause in r.sample(CLAUSES, len(CLAUSES)):
            s = image.copy()
            if clause(r, s) is not False and out.has_room(6000):
                broken_once(out, image, s, [pushed[0], *pushed])
            if r.random() < 0.1:
                out.refused(COUNTERS)
        out.add(*past_the_counts(r, image))
        out.refused(COUNTERS)
    for _ in range(3):
        out.add(push(next(bodies)))
    out.add(*[TAKE] * (lag_of(settings) + 1))
    out.refused(TAKE, COUNTERS)


def free(out):
    """A refiner: what is free in its state changed, and played on."""
    r = out.r
    settings, bodies = hall(r)
    bodies = iter(bodies)
    out.add(opening(settings))
    clear = Image.after(out)
    out.add(*past_the_counts(r, clear), DIGEST)
    for _ in range(r.randint(1, 10)):
        out.add(push(next(bodies)))
    for _ in range(12):
        image = Image.after(out)
        s = image.copy()
        for change in r.sample(FREE, r.choice((1, 1, 2, 3))):
            change(r, s)
        opened = r.random() < 0.1  # from a new refiner on, whose memory is clear
        new = changes(clear if opened else image, s)
        if len(new) > (1000 if opened else 300) or not out.has_room(32 * len(new) + 6000):
            continue
        out.add(*[opening(settings)] * opened, *new)
        if r.random() < 0.3:
            out.add(*past_the_counts(r, s, 1))
        for _ in range(r.randint(1, 3)):
            out.add(push(next(bodies)) if r.random() < 0.7 else TAKE)
        out.refused(COUNTERS, seen=0.05)
    out.add(*[TAKE] * 17)
    out.refused(TAKE, COUNTERS)


EDGES = [(1 << 60) - 1, 1 << 60, (1 << 60) + 1, ALL]


def numbered(out, bodies):
    """First scans up to the greatest number, from an opened refiner on; frozen parts that were there in every scan."""
    r = out.r
    lag, short = r.randint(0, 5), r.randint(0, 8)
    out.add(opening(generate.settings(lag=lag, coast=10**18, forget=10**18)), write(0, FIRST, BOUND + 1))
    out.refused(push(next(bodies)), TAKE, COUNTERS)
    out.add(write(0, FIRST, BOUND - short))
    for _ in range(short + 3):
        out.add(push(next(bodies)))
        if r.random() < 0.3:
            out.add(TAKE)
        if r.random() < 0.3:
            image = Image.after(out)
            s = image.copy()
            for at in range(0, PART * s.fields[FROZEN], PART):
                s.tracks[at + 1 : at + 4 : 2] = r.choice(((s.fields[FIRST] - 1, s.fields[FIRST]), (0, 1)))
            out.add(*changes(image, s))
    out.refused(push(next(bodies)), push(b""), COUNTERS, TAKE)
    out.add(*[TAKE] * (lag + 1))
    out.refused(push(next(bodies)), COUNTERS, TAKE)


def counted(out, bodies):
    """Next ids and counters at 2^60 and at the greatest word: 8 at a push above it, and takes that work."""
    r = out.r
    lag = r.randint(1, 5)
    out.add(opening(generate.settings(lag=lag)))
    for _ in range(r.randint(0, 6)):
        out.add(push(next(bodies)))
    for _ in range(6):
        field, least = r.choice((NEXT, NEXT, *range(COUNTS, COUNTS + 4))), max([0, *Image.after(out).live()])
        out.add(write(0, field, r.choice([v for v in EDGES if field != NEXT or v > least])))
        nine = generate.body(0, [(0.0, 0.0, 0.0)] * 32, [(i, i, 0, None) for i in range(32)])
        out.add(*r.sample([push(next(bodies)), push(next(bodies)), push(nine), push(b""), push(nine[:-1]), TAKE, COUNTERS], r.randint(2, 5)))
        if r.random() < 0.7:
            low = max([0, *Image.after(out).live()]) + 1
            out.add(write(0, field, r.randint(low, low + 5) if field == NEXT else r.choice((0, 1, 1 << 59))))
            out.add(push(next(bodies)))
    out.add(*[TAKE] * (lag + 1))
    out.refused(push(next(bodies)), TAKE, COUNTERS)


def owned(out, bodies):
    """256 engine ids with an owner, or nearly as many, and one more: 10, and 9 before it."""
    r = out.r
    lag = r.randint(1, 3)
    out.add(opening(generate.settings(lag=lag, coast=-1, forget=10**18)))
    for _ in range(r.randint(2, 6)):
        out.add(push(next(bodies)))
    image = Image.after(out)
    s = image.copy()
    fresh = (e for e in range(10**6, ALL) if e not in dict(s.entries()))
    live, room = sorted(s.live()), 256 - len(s.entries()) - r.randint(0, 2)
    if not live:
        return
    s.put_entries(s.entries() + [(next(fresh), r.choice(live)) for _ in range(room)])
    out.add(*changes(image, s))
    past = s.copy()
    owners_at_most_256(r, past)
    broken_once(out, s, past, [b""])
    known = s.entries()[-1][0]
    for links in ([None], [known], [known, known], [next(fresh)], [next(fresh), next(fresh), known], [next(fresh)] * 2, [next(fresh) for _ in range(32)]):
        body = generate.body(10**9, [(50.0 * i, 9.0, 1.0) for i in range(len(links))], [(i, e, 0, None) for i, e in enumerate(links)])
        out.add(push(body), *[TAKE] * (r.random() < 0.3))
    out.add(*[TAKE] * (lag + 1))
    out.refused(TAKE, COUNTERS)


def crowd(out, bodies):
    """As many detections and frozen parts as there may be, and one more: 9, and 8 before it."""
    r = out.r
    settings, many = standing(r)
    out.add(opening(settings), *map(push, many[:4]))
    one = generate.body(10**9, [(0.0, 50.0, 1.0)], [(0, 99, 0, None)])
    image = Image.after(out)
    out.refused(push(one), push(generate.body(10**9, [(0.0, 50.0, 1.0)], [(0, None, 2, None)])[:-1]))
    out.add(write(0, NEXT, (1 << 60) + 1))
    out.refused(push(one), push(b""))
    out.add(write(0, NEXT, image.fields[NEXT]), push(generate.body(10**9, [], [])), push(one), TAKE, push(one), TAKE, push(many[5]), COUNTERS)
    out.add(*[TAKE] * 4)


def bounds(out):
    """A refiner's numbers at their bounds: next ids, counters, scan numbers, owners, detections."""
    _, bodies = hall(out.r)
    out.r.choice((numbered, numbered, counted, counted, owned, crowd))(out, iter(bodies))


KINDS = [refiner, both, buffers, broken, free, bounds]
