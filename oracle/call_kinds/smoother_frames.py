"""A smoother's frames in words and numbers: tracks with covariances of many kinds, and frames that 5 refuses."""
from .writing import ALL, MOST, NONE, bits


def refined(r):
    """A covariance as the refiner gives it."""
    a, b, d, s = r.uniform(0.01, 2), r.uniform(-0.05, 0.05), r.uniform(0.1, 2), r.uniform(0.01, 1)
    p = [0.0] * 36
    for i, v in enumerate((a, a, s, d, d, s)):
        p[7 * i] = v
    for i, j in ((0, 3), (1, 4)):
        p[6 * i + j] = p[6 * j + i] = b
    return p


def dense(r):
    """A covariance with no zero."""
    a = [[r.uniform(-1, 1) for _ in range(6)] for _ in range(6)]
    return [sum(a[i][k] * a[j][k] for k in range(6)) for i in range(6) for j in range(6)]


def broken(r):
    """One that Cholesky may refuse, or that is not symmetric."""
    p = dense(r)
    if r.random() < 0.3:
        p[7 * r.randrange(6)] *= -1
    if r.random() < 0.1:
        p = [r.uniform(-1, 1) for _ in range(36)]
    return p


ODD = (float("inf"), float("nan"), -float("inf"), 1e308, -1e308, 5e-324, -0.0, 0.0, 1e-300)


def wild(r):
    """One with infinities, NaN, subnormals and zeros."""
    p = dense(r)
    for _ in range(r.choice((0, 0, 1, 2))):
        p[r.randrange(36)] = r.choice(ODD)
    return p


def whole(r):
    """One of whole numbers and zeros of both signs: nothing but zeros; a diagonal; or m·mᵀ a second before, with m
    below the diagonal. A 0 on the diagonal makes it singular."""
    zero = r.choice((lambda: 0.0, lambda: -0.0, lambda: r.choice((0.0, -0.0))))
    some = lambda: float(r.randint(1, 4)) if r.random() < 0.8 else zero()
    kind = r.randrange(3)
    if kind < 2:
        return [some() if kind and i == j else zero() for i in range(6) for j in range(6)]
    m = [[some() if i == j else float(r.randint(-2, 2)) if j < i else 0.0 for j in range(6)] for i in range(6)]
    m = [[m[i][j] - (m[i + 3][j] if i < 3 else 0.0) for j in range(6)] for i in range(6)]
    return [sum(m[i][k] * m[j][k] for k in range(6)) or zero() for i in range(6) for j in range(6)]


def track(r, covariance, i):
    row = [i, r.randrange(2), r.getrandbits(64), r.choice((0, 1, ALL, r.getrandbits(64))), r.choice((NONE, 0, 5, NONE - 1)), r.randrange(1 << 32)]
    x = [r.uniform(-10, 10) for _ in range(6)]
    if covariance is whole:
        among = r.choice(((-0.0,), (-2.0,), (0.0, -0.0, 1.0, -2.0)))
        x = [r.choice(among) for _ in range(6)]
    if covariance is wild and r.random() < 0.2:
        x[r.randrange(6)] = r.choice(ODD)
    return row, [bits(v) for v in x + covariance(r)]


def association(r):
    present = r.randrange(2)
    cost = r.choice((bits(r.uniform(0, 9)), r.getrandbits(64), bits(float("nan")), bits(-0.0), 0))
    return [r.getrandbits(64), r.choice((0, 1, 2, ALL)), r.randrange(3), present], [cost if present else 0]


def frame(r, covariance, time, ids, associations, sensors):
    """A frame's words, and the bits of its numbers."""
    w, x = [time & ALL, r.randrange(3), len(ids), associations, sensors, r.randrange(2)], []
    for row, numbers in [track(r, covariance, i) for i in ids] + [association(r) for _ in range(associations)]:
        w, x = w + row, x + numbers
    return w + [r.choice((0, NONE - 1, r.randrange(NONE))) for _ in range(sensors)], x


def later(r, time):
    """A time after another: mostly a scan later, sometimes equal, before, or far away."""
    time += r.choice((10**8, 10**8, 10**8, 123456789, 1, 0, -(10**8), 10**12, r.randint(-(10**9), 10**9)))
    return max(-MOST, min(MOST, time))


def faults(r, most, tracks):
    """Malformed frames, one for each way; with so many tracks where the fault is in no track."""

    def good(tracks=tracks, associations=2, sensors=1):
        return frame(r, refined, r.randrange(10**9), [r.randint(1, 3) for _ in range(tracks)], associations, sensors)

    def one(i, v, tracks=tracks):
        w, x = good(tracks)
        w[i] = v & ALL
        return w, x

    link = 6 + 6 * tracks
    out = [one(0, t) for t in (MOST + 1, -MOST - 1, -(1 << 63), (1 << 63) - 1)]
    out += [one(1, m) for m in (3, NONE, 1 << 63)]
    out += [one(i, v) for i in (2, 3, 4) for v in (0, 1, 3, 33, 129, NONE, ALL, 1 << 61, 1 << 62, 1 << 63)]
    out += [one(5, v) for v in (2, ALL)]
    out += [one(6 + j, v, 1) for j, v in ((1, 2), (1, ALL), (4, NONE + 1), (4, ALL), (5, NONE), (5, ALL))]
    out += [one(link + 4 * k + j, v) for k in range(2) for j, v in ((2, 3), (2, ALL), (3, 2), (3, ALL))]
    out += [one(link + 8, v) for v in (NONE, ALL)]
    for v in (1, bits(-0.0), bits(float("nan"))):
        w, x = one(link + 7, 0)
        out.append((w, x[:-1] + [v]))
    out += [good(tracks=most + 1, associations=0, sensors=0), good(associations=33), good(sensors=9)]
    w, x = good()
    out += [([], []), (w[:5], []), (w[:6], []), (w[:-1], x), (w + [0], x), (w, x[:-1]), (w, x + [0]), (w[:-1], x + [0])]
    return [(w, x) for w, x in out if not well_formed(w, x, most)]


def short_faults(r, most):
    """Those that are not long."""
    return [(w, x) for w, x in faults(r, most, 0) if len(w) + len(x) < 400]


def well_formed(w, x, most):
    """Whether one of the changes above left a frame as it was."""
    if len(w) < 6 or w[2] > most or w[3] > 32 or w[4] > 8 or w[1] > 2 or w[5] > 1 or not -MOST <= ((w[0] + (1 << 63)) & ALL) - (1 << 63) <= MOST:
        return False
    if len(w) != 6 + 6 * w[2] + 4 * w[3] + w[4] or len(x) != 42 * w[2] + w[3]:
        return False
    rows, links = w[6 : 6 + 6 * w[2]], w[6 + 6 * w[2] :][: 4 * w[3]]
    if any(rows[i + 1] > 1 or rows[i + 4] > NONE or rows[i + 5] >= NONE for i in range(0, len(rows), 6)):
        return False
    if any(links[i + 2] > 2 or links[i + 3] > 1 or (links[i + 3] == 0 and x[42 * w[2] + i // 4] != 0) for i in range(0, len(links), 4)):
        return False
    return all(s < NONE for s in w[6 + 6 * w[2] + 4 * w[3] :])
