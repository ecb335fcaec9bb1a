"""The refiner's state rule broken, clause by clause: a function for each, named as in the oracle's rule.rs. Each
changes a sound image so that the clause does not hold, and gives False where the state has nothing to break; as far as
it can it breaks no other clause."""
from .cells import BODY, COLUMN, FIRST, FROZEN, HELD, LAG, NEXT, OWNED, PART, PASSES, SLOTS
from .writing import ALL, MOST, bits

NOT_FINITE = (bits(float("nan")), bits(float("inf")), bits(-float("inf")), 0x7FF0_0000_0000_0001, ALL)
BOUND = 4_294_967_295
EMPTY = bytes(16)


def settings_legal(r, s):
    i = r.choice((LAG, PASSES, *range(1, 8)))
    s.fields[i] = r.choice((17, 18, 1 << 32, 1 << 63, ALL)) if i == LAG else r.choice((1001, 1 << 63, ALL)) if i == PASSES else r.choice(NOT_FINITE)


def at_most_lag_held(r, s):
    held, kind = s.fields[HELD], r.randrange(3)
    if kind == 0 and held:
        s.fields[LAG] = r.randrange(held)
    elif kind == 1 and held < 16:  # one more scan, which is sound
        s.fields[LAG] = held
        s.put_body((s.fields[FIRST] + held) % SLOTS, EMPTY)
        s.fields[HELD] += 1
    else:
        s.fields[HELD] = r.choice((17, 18, 1 << 32, 1 << 63, ALL, ALL - s.fields[FIRST], ALL - s.fields[FIRST] + 1))


def held_frames_pass(r, s):
    if not s.fields[HELD]:
        return False
    slot = r.choice(s.slots())
    b, at, head = s.body(slot), BODY * slot, COLUMN * slot
    tracks, dots, links, sensors = b[1:5]
    dot = at + 16 + 16 * tracks + 4 * sensors
    link = dot + 24 * dots

    def put(i, *values):
        s.bodies[i : i + len(values)] = values

    ways = [
        lambda: put(at, r.choice((3, 255))),
        lambda: put(at + r.choice((5, 6, 7)), r.choice((1, 255))),
        lambda: put(at + 8, *r.choice((MOST + 1, -MOST - 1, -(1 << 63), (1 << 63) - 1)).to_bytes(8, "little", signed=True)),
        lambda: put(at + r.choice((1, 2, 3)), r.choice((33, 255))),
        lambda: put(at + 4, r.choice((9, 255))),
        lambda: s.columns.__setitem__(head, r.choice((0, 15, len(b) - 1, len(b) + 1, BODY + 1, BODY + len(b), 1 << 32 | len(b), 1 << 63, ALL))),
    ]
    if tracks:
        ways += [lambda: put(at + 16 + 12, 2), lambda: put(at + 16 + r.choice((13, 14, 15)), 1)]
    if dots:  # 6, in each coordinate
        ways += [lambda: put(dot + 24 * r.randrange(dots) + 8 * r.randrange(3), *r.choice(NOT_FINITE).to_bytes(8, "little"))] * 2
    if links:
        j = link + 24 * r.randrange(links)
        ways += [lambda: put(j, r.choice((dots, 255))), lambda: put(j + 1, 2), lambda: put(j + 2, 3), lambda: put(j + 3, 2), lambda: put(j + r.choice((4, 5, 6, 7)), 1)]
    if links > 1:
        k = r.choice([link + 24 * i for i in range(links) if link + 24 * i != j])
        ways += [lambda: put(j, s.bodies[k])] * 2
    r.choice(ways)()


def scans_in_bounds(r, s):
    first, held = s.fields[FIRST], s.fields[HELD]
    low = r.choice((BOUND + 1 - held, BOUND + 1 - held, BOUND + 1, 1 << 33, 1 << 63, (1 << 64) - SLOTS))
    s.fields[FIRST] = low + (first - low) % SLOTS if held else low  # the scans stay in their slots


def ids_rise(r, s):
    n = s.fields[FROZEN]
    if n < 2:
        return False
    a, b = PART * r.randrange(n - 1), r.choice((0, 1))
    s.tracks[a + b * PART], other = s.tracks[a + (1 - b) * PART], s.tracks[a + b * PART]
    if r.random() < 0.7:
        s.tracks[a + (1 - b) * PART] = other


def rename(s, old, new):
    """A track gets another id, everywhere."""
    for at in range(0, PART * s.fields[FROZEN], PART):
        if s.tracks[at] == old:
            s.tracks[at] = new
    for l in s.links():
        if l.id == old:
            s.columns[l.column] = new
    s.put_entries([(e, new if i == old else i) for e, i in s.entries()])


def ids_at_least_one(r, s):
    ids = s.frozen_ids()
    if not ids:
        return False
    if ids[0] in s.windows():
        s.tracks[0] = 0
    else:
        rename(s, ids[0], 0)


def ids_below_the_next(r, s):
    live, ids = s.live(), s.frozen_ids()
    if not live:
        return False
    loose, kind = sorted(s.windows() - set(ids)), r.randrange(4)
    past = r.choice((s.fields[NEXT], s.fields[NEXT] + 1, 1 << 63, ALL))
    if kind == 0 and ids:
        rename(s, ids[-1], past)
        s.mend_owners()
    elif kind == 1 and loose:
        rename(s, r.choice(loose), past)
        s.mend_owners()
    else:
        s.fields[NEXT] = r.choice((max(live), max(live), 1, min(live)))


def next_id_at_least_one(r, s):
    s.fields[NEXT] = 0


def windows_rise_in_scan(r, s):
    pairs = [(a, b) for a in s.links() for b in s.links() if a.scan == b.scan and a.place != b.place and a.engine is not None and a.id != b.id and b.id]
    if not pairs:
        return False
    a, b = r.choice(pairs)
    s.columns[a.column] = b.id
    s.mend_owners()


def without_engine_id_in_clutter(r, s):
    loose = [l for l in s.links() if l.engine is None]
    if not loose:
        return False
    a = r.choice(loose)
    others = sorted(s.live() - {l.id for l in s.links() if l.scan == a.scan})
    if others and r.random() < 0.5:
        s.columns[a.column] = r.choice(others)
    else:
        s.columns[a.column] = s.fields[NEXT]
        s.fields[NEXT] += 1


def owned_by_the_holder_of_the_latest(r, s):
    latest, live, entries = s.latest(), sorted(s.live()), s.entries()
    if not latest:
        return False
    equal = [l for l in s.links() for m in s.links() if l.id and l.engine is not None and (l.engine, l.scan) == (m.engine, m.scan) and m.id == latest[l.engine] != l.id]
    earlier = [l for l in s.links() if l.id and l.engine is not None and l.id != latest[l.engine]]
    e, kind = r.choice(sorted(latest)), r.randrange(4)
    if kind == 0 and equal:
        one = r.choice(equal)
        e, i = one.engine, one.id
    elif kind == 1 and earlier:
        one = r.choice(earlier)
        e, i = one.engine, one.id
    elif kind == 2 and len(live) > 1:
        i = r.choice([i for i in live if i != latest[e]])
    else:
        return s.put_entries([x for x in entries if x[0] != e])
    s.put_entries([(f, i if f == e else j) for f, j in entries])


def of_a_part(r, s, word, values):
    """A word of a frozen part out of bounds."""
    if not s.fields[FROZEN]:
        return False
    s.tracks[PART * r.randrange(s.fields[FROZEN]) + word] = r.choice(values) & ALL


def frozen_count(r, s):
    return of_a_part(r, s, 3, (0, s.fields[FIRST] + 1, 1 << 32, 1 << 63, ALL))


def frozen_heights(r, s):
    return of_a_part(r, s, 5, (0, 6, 7, 1 << 32, (1 << 32) + 1, 1 << 63, ALL))


def frozen_last_frame(r, s):
    return of_a_part(r, s, 1, (s.fields[FIRST], s.fields[FIRST] + 1, 1 << 32, 1 << 63, ALL))


def frozen_time(r, s):
    return of_a_part(r, s, 2, (MOST + 1, -MOST - 1, (1 << 63) - 1, -(1 << 63)))


def sum_of_nine_holds(r, s):
    detections = sum(1 for l in s.links() if l.id)
    many = s.fields[FROZEN] + detections
    if many < 120 or s.fields[FROZEN] == 128 or not s.fields[FIRST]:
        s.fields[FROZEN] = r.choice((129, 130, 1 << 32, 1 << 63, ALL, (1 << 64) - max(1, detections)))
        return
    while many < 129:  # just one too many, each sound in itself
        s.add_part(s.fields[NEXT], s.fields[FIRST] - 1, 0, 1, bits(1.0))
        s.fields[NEXT] += 1
        many += 1


def owners_distinct(r, s):
    entries = s.entries()
    if not entries or len(entries) == 256:
        return False
    again = r.choice(entries)
    s.put_entries(entries + [(again[0], r.choice((again[1], *s.live())))])


def owners_live(r, s):
    entries = s.entries()
    idle = [e for e, _ in entries if e not in s.latest()]
    dead = r.choice([i for i in (0, s.fields[NEXT], ALL, *range(1, min(s.fields[NEXT], 300))) if i not in s.live()])
    if idle and r.random() < 0.5:
        e = r.choice(idle)
        s.put_entries([(f, dead if f == e else i) for f, i in entries])
    elif len(entries) < 256:
        fresh = next(e for e in range(r.choice((0, 1 << 40)), ALL) if e not in dict(entries))
        s.put_entries(entries + [(fresh, dead)])
    else:
        return False


def owners_at_most_256(r, s):
    s.fields[OWNED] = r.choice((257, 258, 1 << 32, 1 << 63, ALL))


CLAUSES = [
    settings_legal,
    at_most_lag_held,
    held_frames_pass,
    scans_in_bounds,
    ids_rise,
    ids_at_least_one,
    ids_below_the_next,
    next_id_at_least_one,
    windows_rise_in_scan,
    without_engine_id_in_clutter,
    owned_by_the_holder_of_the_latest,
    frozen_count,
    frozen_heights,
    frozen_last_frame,
    frozen_time,
    sum_of_nine_holds,
    owners_distinct,
    owners_live,
    owners_at_most_256,
]
