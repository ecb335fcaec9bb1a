"""What the callers keep after a list of calls, as the oracle says: a refiner's and a smoother's fields and memory, cell
by cell; and the calls that change one into another."""
import struct

from .writing import write, write_smoother

SLOTS, BODY, COLUMN, PART, FILTER = 17, 2096, 33, 6, 13
LAG, COAST, FORGET, PASSES, FIRST, HELD, FROZEN, OWNED, NEXT, COUNTS = 0, 8, 9, 10, 11, 12, 13, 14, 15, 16
DENSITY, TRACKS_MOST, OLDEST, HELD_FRAMES = 1, 2, 3, 4


class Link:
    """An association of a held scan: its scan's place among those held, its own place, its engine id or None, its track
    or 0; where its cells are."""

    def __init__(self, scan, place, engine, id, column, at):
        self.scan, self.place, self.engine, self.id, self.column, self.at = scan, place, engine, id, column, at


class Image:
    """The cells; places are those of calls 7 and 17."""

    SIZES = [("Q", 20), ("B", 35_632), ("Q", 561), ("Q", 512), ("Q", 768), ("Q", 1664), ("Q", 5), ("Q", 15_470), ("Q", 91_936), ("Q", 4)]

    def __init__(self, raw):
        at, arrays = 0, []
        for kind, n in self.SIZES:
            arrays.append(list(struct.unpack_from(f"<{n}{kind}", raw, at)))
            at += struct.calcsize(f"<{n}{kind}")
        assert at == len(raw)
        self.refiner, self.smoother, self.window, self.room = arrays[:6], arrays[6:9], arrays[9][:2], arrays[9][2:]

    @staticmethod
    def after(out):
        return Image(out.ask("calls_cells"))

    def copy(self):
        """A copy to be changed."""
        new = object.__new__(Image)
        new.refiner, new.smoother, new.window, new.room = [list(a) for a in self.refiner], [list(a) for a in self.smoother], self.window, self.room
        return new

    def put(self, arrays, place, at, values):
        arrays[place][at : at + len(values)] = values

    # ---- the refiner's

    @property
    def fields(self):
        return self.refiner[0]

    @property
    def bodies(self):
        return self.refiner[1]

    @property
    def columns(self):
        return self.refiner[2]

    @property
    def owners(self):
        return self.refiner[3]

    @property
    def tracks(self):
        return self.refiner[4]

    @property
    def filters(self):
        return self.refiner[5]

    def slots(self):
        """The slots of the held scans, the oldest first."""
        return [(self.fields[FIRST] + k) % SLOTS for k in range(self.fields[HELD])]

    def body(self, slot):
        return bytes(self.bodies[BODY * slot :][: self.columns[COLUMN * slot]])

    def put_body(self, slot, body, ids=()):
        self.put(self.refiner, 1, BODY * slot, body)
        self.put(self.refiner, 2, COLUMN * slot, [len(body), *ids])

    def links(self):
        """The associations of the held scans."""
        out = []
        for scan, slot in enumerate(self.slots()):
            b = self.body(slot)
            first = 16 + 16 * b[1] + 4 * b[4] + 24 * b[2]
            for j in range(b[3]):
                at = first + 24 * j
                engine = int.from_bytes(b[at + 8 : at + 16], "little") if b[at + 1] else None
                column = COLUMN * slot + 1 + j
                out.append(Link(scan, j, engine, self.columns[column], column, BODY * slot + at))
        return out

    def frozen_ids(self):
        return self.tracks[0 : PART * self.fields[FROZEN] : PART]

    def windows(self):
        """The tracks that have a window."""
        return {l.id for l in self.links() if l.id}

    def live(self):
        return self.windows() | set(self.frozen_ids())

    def latest(self):
        """Of each engine id in a window the holder of its latest detection; of equal scans the greater id."""
        out = {}
        for l in self.links():
            if l.id and l.engine is not None:
                out[l.engine] = max(out.get(l.engine, (-1, 0)), (l.scan, l.id))
        return {e: i for e, (_, i) in out.items()}

    def entries(self):
        """The owner table: engine id and owner."""
        return [tuple(self.owners[2 * k : 2 * k + 2]) for k in range(self.fields[OWNED])]

    def put_entries(self, entries):
        old, cells = 2 * self.fields[OWNED], [x for e in entries for x in e]
        self.fields[OWNED] = len(entries)
        self.owners[: min(old, len(cells))] = cells[:old]
        self.put(self.refiner, 3, old, cells[old:])

    def mend_owners(self):
        """Makes the owner table fit the windows again: each engine id in one goes to the holder of its latest, entries
        without a live owner go."""
        latest, live = self.latest(), self.live()
        old = dict(self.entries())
        both = {**old, **latest}
        self.put_entries([(e, i) for e, i in both.items() if i in live])

    def add_part(self, id, last_frame, time, count, height, numbers=(0,) * 8):
        """One more frozen part, at the end."""
        k = self.fields[FROZEN]
        self.put(self.refiner, 4, PART * k, [id, last_frame, time, count, 1 << 32, 1])
        self.put(self.refiner, 5, FILTER * k, [*numbers, height])
        self.fields[FROZEN] += 1

    # ---- the smoother's

    @property
    def state(self):
        return self.smoother[0]

    def frame_places(self):
        """Where the words and the numbers of each held frame begin, the oldest first."""
        lag, _, most, oldest, held = self.state
        slots = [(oldest + k) % (lag + 1) for k in range(held)]
        return [(s * (142 + 6 * most), s * (32 + 42 * most)) for s in slots]

    def held_frame(self, k):
        """The words and numbers of held frame k."""
        w, x = self.frame_places()[k]
        _, _, tracks, associations, sensors = self.smoother[1][w : w + 5]
        return self.smoother[1][w : w + 6 + 6 * tracks + 4 * associations + sensors], self.smoother[2][x : x + 42 * tracks + associations]

    def put_frame(self, slot, words, numbers):
        most = self.state[TRACKS_MOST]
        w, x = slot * (142 + 6 * most), slot * (32 + 42 * most)
        self.put(self.smoother, 1, w, words)
        self.put(self.smoother, 2, x, numbers)


def changes(old, new):
    """The calls that make one image of another: of the cells that differ."""
    out = []
    for make, a, b in ((write, old.refiner, new.refiner), (write_smoother, old.smoother, new.smoother)):
        for place, (x, y) in enumerate(zip(a, b)):
            out += [make(place, i, v) for i, (u, v) in enumerate(zip(x, y)) if u != v]
    return out
