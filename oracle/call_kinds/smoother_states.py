"""A smoother's state changed cell by cell: broken in each clause of its rule, or to another sound one; and cells that
no frame reaches."""
from .cells import DENSITY, HELD_FRAMES, LAG, OLDEST, TRACKS_MOST, Image, changes
from .refiner_changes import ANY
from .refiner_clauses import NOT_FINITE
from .smoother_frames import dense, frame, later, refined, short_faults
from .writing import ALL, DIGEST, MOST, NONE, PUSH_LAST, TAKE_SMOOTHED, bits, lend, lend_window, push_frame, smoother, window, write_smoother

EMPTY = [0] * 6


def density_finite(r, s):
    s.state[DENSITY] = r.choice(NOT_FINITE)


def at_most_lag_frames_held(r, s):
    lag, _, _, oldest, held = s.state
    if r.random() < 0.6 and lag - held < 4:  # just one too many, each well formed
        for k in range(held, lag + 1):
            s.put_frame((oldest + k) % (lag + 1), EMPTY, [])
        s.state[HELD_FRAMES] = lag + 1
    else:
        s.state[HELD_FRAMES] = r.choice((lag + 1, lag + 2, 17, 18, 1 << 32, 1 << 63, ALL))


def held_frames_well_formed(r, s):
    if not s.state[HELD_FRAMES]:
        return False
    w, x = r.choice(s.frame_places())
    words, numbers = s.smoother[1], s.smoother[2]
    tracks, links, sensors = words[w + 2 : w + 5]
    most, link = s.state[TRACKS_MOST], w + 6 + 6 * tracks

    def one(at, *values):
        return lambda: words.__setitem__(at, r.choice(values) & ALL)

    ways = [one(w, MOST + 1, -MOST - 1, 1 << 63, (1 << 63) - 1), one(w + 1, 3, NONE, ALL), one(w + 5, 2, ALL)]
    ways += [one(w + 2, most + 1, 1 << 62, ALL), one(w + 3, 33, 1 << 62, ALL), one(w + 4, 9, NONE, ALL)]
    if tracks:
        row = w + 6 + 6 * r.randrange(tracks)
        ways += [one(row + 1, 2, ALL), one(row + 4, NONE + 1, ALL), one(row + 5, NONE, ALL)]
    if links:
        j = r.randrange(links)
        ways += [one(link + 4 * j + 2, 3, ALL), one(link + 4 * j + 3, 2, ALL)]
    absent = [j for j in range(links) if words[link + 4 * j + 3] == 0]
    if absent:
        ways += [lambda: numbers.__setitem__(x + 42 * tracks + r.choice(absent), r.choice((1, bits(-0.0), bits(float("nan")))))] * 2
    if sensors:
        ways.append(one(link + 4 * links + r.randrange(sensors), NONE, ALL))
    r.choice(ways)()


def window_fits(r, s):
    """2: lag or C out of bounds, or not those of the window."""
    if r.random() < 0.5:
        s.state[LAG] = r.choice((17, 1 << 32, 1 << 63, ALL, (s.state[LAG] + 1) % 17, s.state[LAG] + (1 << 32)))
    else:
        s.state[TRACKS_MOST] = r.choice((0, 129, 1 << 63, ALL, s.state[TRACKS_MOST] % 128 + 1, s.state[TRACKS_MOST] + (1 << 61)))


CLAUSES = [density_finite, at_most_lag_frames_held, held_frames_well_formed, held_frames_well_formed, held_frames_well_formed, window_fits]


def density(r, s):
    s.state[DENSITY] = bits(r.choice((0.5, 0.0, -0.0, 1e300, -2.0, 5e-324, r.uniform(0, 3))))


def oldest_counted_on(r, s):
    """The same slot by another number."""
    slots = s.state[LAG] + 1
    turns = r.choice((1, 2, 1 << 40, ((1 << 64) - 1 - s.state[OLDEST]) // slots))
    if s.state[OLDEST] + slots * turns <= ALL:
        s.state[OLDEST] += slots * turns


def frames_of(s):
    return [s.held_frame(k) for k in range(s.state[HELD_FRAMES])]


def lay(s, frames, oldest):
    """These frames, from that slot on."""
    s.state[OLDEST], s.state[HELD_FRAMES] = oldest, len(frames)
    for k, (w, x) in enumerate(frames):
        s.put_frame((oldest + k) % (s.state[LAG] + 1), w, x)


def other_slots(r, s):
    lay(s, frames_of(s), r.randrange(s.state[LAG] + 1))


def newest_gone(r, s):
    if not s.state[HELD_FRAMES]:
        return False
    s.state[HELD_FRAMES] -= 1


def oldest_gone(r, s):
    if newest_gone(r, s) is False:
        return False
    s.state[OLDEST] = (s.state[OLDEST] + 1) % (s.state[LAG] + 1)


def some_frame(r, s, time=0):
    tracks = r.randint(0, min(2, s.state[TRACKS_MOST]))
    return frame(r, r.choice((refined, dense)), time, [r.randint(1, 3) for _ in range(tracks)], r.randrange(3), r.randrange(3))


def frame_replaced(r, s):
    frames = frames_of(s)
    if not frames:
        return False
    k = r.randrange(len(frames))
    s.put_frame((s.state[OLDEST] + k) % (s.state[LAG] + 1), *some_frame(r, s, frames[k][0][0]))


def frame_more(r, s):
    if s.state[HELD_FRAMES] == s.state[LAG]:
        return False
    s.put_frame((s.state[OLDEST] + s.state[HELD_FRAMES]) % (s.state[LAG] + 1), *some_frame(r, s, r.randrange(10**9)))
    s.state[HELD_FRAMES] += 1


def words_of_a_frame(r, s):
    if not s.state[HELD_FRAMES]:
        return False
    w, _ = r.choice(s.frame_places())
    words = s.smoother[1]
    tracks, links, sensors = words[w + 2 : w + 5]
    words[w] = later(r, r.choice((0, 10**9))) & ALL
    words[w + 1], words[w + 5] = r.randrange(3), r.randrange(2)
    for row in range(w + 6, w + 6 + 6 * tracks, 6):
        words[row : row + 6] = [r.randint(1, 3), r.randrange(2), r.getrandbits(64), r.getrandbits(64), r.choice((0, NONE, NONE - 1)), r.choice((0, NONE - 1))]
    for link in range(w + 6 + 6 * tracks, w + 6 + 6 * tracks + 4 * links, 4):
        words[link : link + 3] = [r.getrandbits(64), r.choice((0, 1, ALL)), r.randrange(3)]
        words[link + 3] = 1 if r.random() < 0.5 else words[link + 3]
    if sensors and r.random() < 0.5:
        words[w + 4] -= 1


def numbers_of_a_frame(r, s):
    places = [(x, s.smoother[1][w + 2]) for w, x in s.frame_places() if s.smoother[1][w + 2]]
    if not places:
        return False
    x, tracks = r.choice(places)
    for _ in range(r.choice((1, 1, 3, 42))):
        s.smoother[2][x + r.randrange(42 * tracks)] = r.choice(ANY + [bits(r.uniform(0, 2))] * 10)


FREE = [density, oldest_counted_on, other_slots, newest_gone, oldest_gone, frame_replaced, frame_more, words_of_a_frame, numbers_of_a_frame, numbers_of_a_frame]


def past_the_frames(r, s):
    """Calls that write cells which no held frame reaches: in its slot, in the other slots, past the window."""
    lag, _, most, oldest, held = s.state
    strides, reach = (142 + 6 * most, 32 + 42 * most), {}
    for k in range(held):
        reach[(oldest + k) % (lag + 1)] = [len(cells) for cells in s.held_frame(k)]
    out = []
    for _ in range(6):
        slot, which = r.randint(0, lag), r.randrange(2)
        at = slot * strides[which] + r.randrange(reach.get(slot, (0, 0))[which], strides[which])
        out.append(write_smoother(1 + which, at, r.choice((0, 1, 2, r.getrandbits(64), *ANY))))
    size, which = (15_470, 91_936), r.randrange(2)
    if s.window[which] < size[which]:
        out.append(write_smoother(1 + which, r.randrange(s.window[which], size[which]), r.getrandbits(64)))
    return out


def small(out, lag, most):
    """An opened smoother with small frames in it; pushes one more with each call of what is given."""
    r, time = out.r, [0]
    out.add(smoother(lag, bits(r.choice((0.5, 0.7, 0.0))), most))

    def more():
        time[0] = later(r, time[0])
        tracks = r.randint(0, min(2, most))
        out.add(push_frame(*frame(r, r.choice((refined, dense)), time[0], [r.randint(1, 3) for _ in range(tracks)], r.randrange(3), r.randrange(3))))

    out.add(*past_the_frames(r, Image.after(out)), DIGEST)
    for _ in range(r.randint(1, lag + 3)):
        more()
    return more


def smoother_broken(out):
    """A smoother's state broken cell by cell in each clause of its rule and put back; cells that no frame reaches
    changed and not noticed."""
    r = out.r
    lag, most = r.choice((0, 1, 2, 3, 4, 16)), r.choice((1, 2, 3, 128))
    more = small(out, lag, most)
    bad = short_faults(r, most)
    for _ in range(4):
        image = Image.after(out)
        for clause in r.sample(CLAUSES, len(CLAUSES)):
            s = image.copy()
            if clause(r, s) is False:
                continue
            do, undo = changes(image, s), changes(s, image)
            if r.random() < 0.2:  # written as it is already, so that the digest before and the one at the end are of the same cells
                out.add(*undo, DIGEST)
                undo.append(DIGEST)
            if r.random() < 0.1:
                do, undo = [*do, lend(909, 5407)], [lend(910, 5408), *undo]
            tries = [push_frame(*r.choice(((EMPTY, []), r.choice(bad)))), PUSH_LAST, TAKE_SMOOTHED]
            out.add(*do)
            out.refused(*r.sample(tries, len(tries)), seen=0.4)
            out.add(*undo)
        out.add(*past_the_frames(r, image))
        for _ in range(r.randint(1, 3)):
            if r.random() < 0.7:
                more()
            else:
                out.add(TAKE_SMOOTHED)
    out.add(*[TAKE_SMOOTHED] * (lag + 1))
    out.refused(TAKE_SMOOTHED)


def other_window(out, image):
    """Another lag and C, with a window for them, and the frames laid into it."""
    r, s = out.r, image.copy()
    frames = frames_of(s)
    lag = r.randint(len(frames), min(16, len(frames) + 2))
    most = r.randint(max([1, *(w[2] for w, _ in frames)]), 4)
    s.state[LAG], s.state[TRACKS_MOST] = lag, most
    lay(s, frames, r.randrange(lag + 1))
    out.add(lend_window(*window(lag, most)), *changes(image, s))


def smoother_free(out):
    """A smoother: what is free in its state changed, and played on."""
    r = out.r
    lag, most = r.choice((0, 1, 2, 3, 4)), r.choice((2, 3, 4))
    more = small(out, lag, most)
    for _ in range(10):
        image = Image.after(out)
        s = image.copy()
        for change in r.sample(FREE, r.choice((1, 1, 2))):
            change(r, s)
        if r.random() < 0.15:  # from a new smoother on, whose window is clear
            out.add(smoother(s.state[LAG], bits(0.5), s.state[TRACKS_MOST]))
            image = Image.after(out)
        new = changes(image, s)
        if not out.has_room(32 * len(new) + 6000):
            break
        out.add(*new)
        if r.random() < 0.5:
            out.add(*past_the_frames(r, s))
        if r.random() < 0.2:
            other_window(out, Image.after(out))
        for _ in range(r.randint(1, 4)):
            if r.random() < 0.7:
                more()
            else:
                out.add(TAKE_SMOOTHED)
    out.add(*[TAKE_SMOOTHED] * 17)
    out.refused(TAKE_SMOOTHED)


KINDS = [smoother_broken, smoother_free]
