"""Changes of what is free in a refiner's state: each makes another sound state of a sound one, and gives False where
there is nothing to change; and cells that no count reaches."""
import struct

from .cells import BODY, COAST, COLUMN, COUNTS, FILTER, FIRST, FORGET, FROZEN, HELD, LAG, NEXT, PART, PASSES, SLOTS
from .refiner_clauses import BOUND
from .writing import ALL, MOST, NONE, bits, write

NUMBERS = [bits(x) for x in (0.0, -0.0, 1.0, -3.5, 1e-300, 5e-324, 1e300, 1.7976931348623157e308)]
ANY = NUMBERS + [bits(float("nan")), bits(float("inf")), bits(-float("inf")), 0xFFF8_0000_0000_0001, 0x7FF0_0000_0000_0001]


def part(r, s):
    return r.randrange(s.fields[FROZEN]) if s.fields[FROZEN] else None


def filter_values(r, s):
    k = part(r, s)
    if k is None:
        return False
    for _ in range(r.choice((1, 1, 2, 8))):
        s.filters[FILTER * k + r.randrange(8)] = r.choice(ANY + [bits(r.uniform(-5, 5))] * 8)


def heights(r, s):
    """Their values and how many they are."""
    k = part(r, s)
    if k is None:
        return False
    n = r.randint(1, 5)
    s.tracks[PART * k + 5] = n
    s.put(s.refiner, 5, FILTER * k + 8, [r.choice(ANY + [bits(r.uniform(0, 2))] * 8) for _ in range(n)])


def class_word(r, s):
    k = part(r, s)
    if k is None:
        return False
    s.tracks[PART * k + 4] = r.choice((0, 5, NONE - 1, NONE, NONE + 1, NONE + 5, 1 << 63, ALL))


def part_count(r, s):
    k = part(r, s)
    if k is None:
        return False
    s.tracks[PART * k + 3] = r.choice((1, 2, s.fields[FIRST], r.randint(1, s.fields[FIRST]))) if s.fields[FIRST] > 1 else 1


def part_last_frame(r, s):
    k = part(r, s)
    if k is None:
        return False
    s.tracks[PART * k + 1] = r.choice((0, s.fields[FIRST] - 1, r.randrange(s.fields[FIRST])))


def part_last_time(r, s):
    k = part(r, s)
    if k is None:
        return False
    old = s.tracks[PART * k + 2]
    s.tracks[PART * k + 2] = r.choice((0, MOST, -MOST & ALL, old, *((t & ALL) for t in (10**8, 5 * 10**8, 10**9))))


def counter(r, s):
    s.fields[COUNTS + r.randrange(4)] = r.choice((0, 1, 1 << 32, (1 << 60) - 1, 1 << 40))


def a_setting(r, s):
    i = r.choice((LAG, LAG, COAST, FORGET, PASSES, *range(1, 8)))
    if i == LAG:
        s.fields[i] = r.randint(s.fields[HELD], 16)
    elif i in (COAST, FORGET):
        s.fields[i] = r.choice((0, 10**8, 5 * 10**8, 2 * 10**9, 10**18, -1 & ALL, 1 << 63, (1 << 63) - 1))
    else:
        s.fields[i] = r.choice((0, 1, 2, 20, 1000)) if i == PASSES else bits(r.choice((0.1, 0.5, 1.5, 3.0, 25.0, 0.0, -1.0)))


def owners_in_another_order(r, s):
    entries = s.entries()
    r.shuffle(entries)
    s.put_entries(entries)


def next_id(r, s):
    s.fields[NEXT] = max([0, *s.live()]) + r.choice((1, 1, 2, 100, 1 << 40))


def owner_more(r, s):
    """One more engine id is owned; also one that a frame may name later."""
    entries, live = s.entries(), sorted(s.live())
    fresh = [e for e in (*range(40), 1 << 63, ALL) if e not in dict(entries)]
    if not live or not fresh or len(entries) == 256:
        return False
    s.put_entries(entries + [(r.choice(fresh), r.choice(live))])


def owner_less(r, s):
    """An engine id that is in no window loses its owner."""
    entries, latest = s.entries(), s.latest()
    idle = [e for e, _ in entries if e not in latest]
    if not idle:
        return False
    gone = r.choice(idle)
    s.put_entries([x for x in entries if x[0] != gone])


def owner_other(r, s):
    """An engine id that is in no window gets another owner."""
    entries, latest, live = s.entries(), s.latest(), sorted(s.live())
    idle = [e for e, _ in entries if e not in latest]
    if not idle:
        return False
    changed = r.choice(idle)
    s.put_entries([(e, r.choice(live) if e == changed else i) for e, i in entries])


def part_more(r, s):
    if not s.fields[FIRST] or s.fields[FROZEN] + sum(1 for l in s.links() if l.id) >= 128:
        return False
    numbers = [bits(r.uniform(-5, 5)) for _ in range(4)] + [bits(r.uniform(0.01, 2)) for _ in range(4)]
    s.add_part(s.fields[NEXT], r.randrange(s.fields[FIRST]), r.randint(0, 10**9), r.randint(1, s.fields[FIRST]), bits(r.uniform(0, 2)), numbers)
    s.fields[NEXT] += 1


def part_less(r, s):
    k = part(r, s)
    if k is None:
        return False
    n = s.fields[FROZEN] = s.fields[FROZEN] - 1
    s.put(s.refiner, 4, PART * k, s.tracks[PART * (k + 1) : PART * (n + 1)])
    s.put(s.refiner, 5, FILTER * k, s.filters[FILTER * (k + 1) : FILTER * (n + 1)])
    s.mend_owners()


def a_link(r, s, with_track=False):
    links = [l for l in s.links() if l.engine is not None and (l.id or not with_track)]
    return r.choice(links) if links else None


def detection_to_clutter(r, s):
    l = a_link(r, s, True)
    if l is None:
        return False
    s.columns[l.column] = 0
    s.mend_owners()


def detection_to_another_track(r, s):
    l = a_link(r, s)
    if l is None or s.fields[FROZEN] + sum(1 for m in s.links() if m.id) >= 128:
        return False
    others = sorted(s.live() - {m.id for m in s.links() if m.scan == l.scan})
    if others and r.random() < 0.6:
        s.columns[l.column] = r.choice(others)
    else:
        s.columns[l.column] = s.fields[NEXT]
        s.fields[NEXT] += 1
    s.mend_owners()


def detections_exchanged(r, s):
    pairs = [(a, b) for a in s.links() for b in s.links() if a.scan == b.scan and a.id != b.id and None not in (a.engine, b.engine)]
    if not pairs:
        return False
    a, b = r.choice(pairs)
    s.columns[a.column], s.columns[b.column] = b.id, a.id
    s.mend_owners()


def dot(r, s):
    """A coordinate of a held scan."""
    slots = [slot for slot in s.slots() if s.body(slot)[2]]
    if not slots:
        return False
    slot = r.choice(slots)
    b = s.body(slot)
    at = BODY * slot + 16 + 16 * b[1] + 4 * b[4] + 24 * r.randrange(b[2]) + 8 * r.randrange(3)
    s.bodies[at : at + 8] = struct.pack("<d", r.choice((0.0, -0.0, 1.0, r.uniform(-5, 5), 1e300)))


def time_of_a_scan(r, s):
    if not s.fields[HELD]:
        return False
    at = BODY * r.choice(s.slots()) + 8
    old = struct.unpack("<q", bytes(s.bodies[at : at + 8]))[0]
    s.bodies[at : at + 8] = struct.pack("<q", max(-MOST, min(MOST, r.choice((old + 1, old - 10**8, old + 10**9, 0, MOST, -MOST)))))


def engine_id(r, s):
    """A held association gets another engine id."""
    l = a_link(r, s)
    if l is None or len(s.entries()) > 250:
        return False
    s.bodies[l.at + 8 : l.at + 16] = struct.pack("<Q", r.choice((0, 1, 2, 3, ALL, 77)))
    s.mend_owners()


def scans_renumbered(r, s):
    """Other numbers, the same slots."""
    most = (BOUND - s.fields[FIRST] - s.fields[HELD]) // SLOTS
    s.fields[FIRST] += SLOTS * r.choice((0, 1, 100, most, most - 1)) if most > 100 else 0


FREE = [
    filter_values,
    filter_values,
    heights,
    class_word,
    part_count,
    part_last_frame,
    part_last_time,
    counter,
    a_setting,
    a_setting,
    owners_in_another_order,
    next_id,
    owner_more,
    owner_less,
    owner_other,
    part_more,
    part_less,
    detection_to_clutter,
    detection_to_another_track,
    detections_exchanged,
    dot,
    time_of_a_scan,
    engine_id,
    scans_renumbered,
]


def past_the_counts(r, s, each=2):
    """Calls that write cells which no count reaches: past a body's length and a scan's associations, slots that are not
    held, past the owners, the frozen parts and the heights of each."""
    held = {slot: s.body(slot) for slot in s.slots()}
    bytes_at, words_at = [], []
    for slot in range(SLOTS):
        b = held.get(slot)
        bytes_at.append((BODY * slot + (len(b) if b else 0), BODY * (slot + 1)))
        words_at.append((2, COLUMN * slot + (1 + b[3] if b else 0), COLUMN * (slot + 1)))
    words_at += [(3, 2 * len(s.entries()), 512), (4, PART * s.fields[FROZEN], 768), (5, FILTER * s.fields[FROZEN], 1664)] * 3
    words_at += [(5, FILTER * k + 8 + s.tracks[PART * k + 5], FILTER * (k + 1)) for k in range(s.fields[FROZEN])]
    out = []
    for low, high in r.sample(bytes_at, min(3 * each, len(bytes_at))):
        out += [write(1, r.randrange(low, high), r.randrange(256))] if low < high else []
    for place, low, high in r.sample(words_at, min(5 * each, len(words_at))):
        out += [write(place, r.randrange(low, high), r.choice((0, 1, 2, 64, r.getrandbits(64), ALL, *ANY)))] if low < high else []
    return out
