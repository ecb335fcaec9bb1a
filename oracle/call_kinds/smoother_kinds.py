"""Lists of calls of a smoother."""
from .smoother_frames import broken, dense, faults, frame, later, refined, whole, wild
from .writing import ALL, FULL, MOST, TAKE_SMOOTHED, bits, push_frame, smoother


def settings_of(r):
    """Lag, density and C."""
    return r.choice((0, 1, 2, 3, 5, 8, 16)), bits(r.choice((0.5, 0.5, 1.0, 0.0, -1.0, 1e-3, 1e300, r.uniform(0, 3)))), r.choice((8, 9, 128, r.randint(8, 128)))


def run(out, covariance, lag, most=8, takes=0.12, room=FULL, bad=(), ids=()):
    """Pushes and takes until so much is written; then takes, until none is held and once more."""
    r, end = out.r, [TAKE_SMOOTHED] * (min(lag, 16) + 2)
    time = 0 if covariance is whole else r.choice((0, -(10**9), r.randint(-(1 << 61), 1 << 61), MOST - 10**10))
    ids = ids or ([1, 2] if covariance is whole else [r.randint(1, 5) for _ in range(4)] + [0, ALL])
    bad = list(bad)
    while True:
        if r.random() < takes:
            out.add(TAKE_SMOOTHED)
            continue
        if bad and r.random() < 0.6:
            new, refused = push_frame(*bad.pop()), True
        else:
            n = min(most, r.choice((0, 1, 1, 2, 2, 3, 3, 4, 5, 8)))
            time = time + r.choice((10**9, 10**9, 10**9, 2 * 10**9, 5 * 10**8, 0)) if covariance is whole else later(r, time)
            new, refused = push_frame(*frame(r, covariance, time, [r.choice(ids) for _ in range(n)], r.randrange(4), r.randrange(3))), False
        if not out.has_room(len(new) + 8 * len(end), room):
            return out.add(*end)
        if refused:
            out.refused(new)
        else:
            out.add(new)


def opened(out, covariance, lag, density, most, **how):
    out.add(smoother(lag, density, most))
    run(out, covariance, lag, most=min(8, most), **how)


def plain(out):
    """A smoother: frames as the refiner emits them."""
    opened(out, refined, *settings_of(out.r))


def full(out):
    """A smoother: covariances with no zero."""
    opened(out, dense, *settings_of(out.r))


def failing(out):
    """A smoother: covariances that Cholesky refuses."""
    opened(out, broken, *settings_of(out.r))


def extreme(out):
    """A smoother: infinities, NaN and subnormals."""
    opened(out, wild, *settings_of(out.r))


def signed(out):
    """A smoother: zeros of both signs, whole-number and singular covariances, densities 0.0, -0.0, tiny and below 0."""
    r = out.r
    opened(out, whole, r.choice((1, 2, 3, 5)), bits(r.choice((0.0, 0.0, -0.0, 5e-324, 1e-300, -0.5, -3.0, 0.7, 3.0))), 8)


def crowded(out):
    """A smoother: frames near C tracks, 32 associations and 8 sensors, and whole output buffers."""
    r = out.r
    most, time = r.choice((1, 2, 40, 127, 128)), 0
    out.add(smoother(r.choice((0, 1, 2)), bits(0.5), most))
    while True:
        time = later(r, time)
        n = r.choice((most, most, most - 1, r.randint(0, most)))
        w, x = frame(r, refined, time, [r.randint(1, 2 * most) for _ in range(n)], r.choice((32, 0)), r.choice((8, 0)))
        new = push_frame(w, x) if r.random() < 0.95 else push_frame([0] * 910, [0] * 100)
        if not out.has_room(len(new) + 24):
            return out.add(*[TAKE_SMOOTHED] * 3)
        out.add(new)


def malformed(out):
    """A smoother: frames that 5 refuses, between others."""
    r = out.r
    most = r.choice((1, 2, 3, 8, 128))
    bad = faults(r, most, r.randint(0, min(most, 2)))
    r.shuffle(bad)
    opened(out, refined, r.choice((0, 1, 3)), bits(0.5), most, bad=bad)


def settings(out):
    """A smoother: openings in bounds and out of them, one after the other, and lists that end early or in a bad
    call."""
    r = out.r
    for _ in range(r.randint(1, 4)):
        lag = r.choice((0, 16, 17, ALL, 1 << 63, r.randint(0, 16)))
        density = r.choice((bits(0.5), bits(-0.0), bits(float("nan")), bits(float("inf")), bits(-float("inf")), bits(1.7976931348623157e308), 1, r.getrandbits(64)))
        most = r.choice((0, 1, 128, 129, ALL, r.randint(1, 128)))
        out.refused(smoother(lag, density, most))
        run(out, refined, lag, max(1, min(8, most)), room=out.size + r.choice((320, 3200, 16000)))
    if r.random() < 0.3:
        cut = out.bytes()[: r.randrange(out.size + 1)]
        out.calls, out.size = [], 0
        out.add(cut)
    elif r.random() < 0.5:
        w, x = r.choice(((4097, 0), (0, 8193), (ALL, 1), (1 << 61, 0)))
        out.add(smoother(0, bits(0.5), 1)[: r.randint(1, 31)] if r.random() < 0.5 else push_frame([], [])[:8] + w.to_bytes(8, "little") + x.to_bytes(8, "little"))


KINDS = [plain, full, failing, extreme, signed, crowded, malformed, settings]
