"""Calls as the program `calls` reads them, and a list of them that can be played through the oracle while it is
written."""
import struct
import subprocess

ALL = (1 << 64) - 1
MOST = (1 << 62) - 1
NONE = 1 << 32
LIST = 262_144
FULL = 65_536  # about as long as most lists get


def bits(x):
    return struct.unpack("<Q", struct.pack("<d", x))[0]


def packed(words):
    return struct.pack(f"<{len(words)}Q", *(w & ALL for w in words))


def call(code, what=b""):
    return struct.pack("<II", code, len(what)) + what


def opening(settings):
    return call(1, settings)


def push(body):
    return call(2, body)


TAKE, COUNTERS, DIGEST = call(4), call(5), call(9)


def lend(words, numbers):
    return call(6, packed((words, numbers)))


def write(place, index, value):
    return call(7, packed((place, index, value)))


def smoother(lag, density, most):
    """density: its bits."""
    return call(11, packed((lag, density, most)))


PUSH_LAST = call(12)


def push_frame(words, numbers):
    """numbers: their bits."""
    return call(13, packed((len(words), len(numbers), *words, *numbers)))


TAKE_SMOOTHED = call(14)


def lend_window(words, numbers):
    return call(16, packed((words, numbers)))


def write_smoother(place, index, value):
    return call(17, packed((place, index, value)))


def code_of(one):
    return struct.unpack_from("<I", one)[0]


def split(s):
    """The calls of a list; what is left at its end where that is no call."""
    out, at = [], 0
    while at < len(s):
        end = at + 8 + struct.unpack_from("<I", s, at + 4)[0] if at + 8 <= len(s) else len(s)
        out.append(s[at:end])
        at = end
    return out


def answers(calls, lines):
    """Each call, and the lines that it printed; a `bad call` of a call that prints nothing else is left over."""
    at = 0
    for one in calls:
        silent = len(one) >= 8 and code_of(one) in (6, 7, 16, 17)
        n = 0 if silent else 2 if lines[at : at + 1] and lines[at].startswith("words") else 1
        yield one, lines[at : at + n]
        at += n


def window(lag, most):
    """The lengths of a smoother's window."""
    return (lag + 1) * (142 + 6 * most), (lag + 1) * (32 + 42 * most)


class List:
    """A list of calls that grows; r is the source of chance."""

    def __init__(self, r, seed, oracle):
        self.r, self.seed, self.oracle, self.calls, self.size = r, seed, oracle, [], 0

    def add(self, *calls):
        for one in calls:
            self.calls.append(one)
            self.size += len(one)

    def bytes(self):
        return b"".join(self.calls)

    def has_room(self, more, room=FULL):
        return self.size + more <= room

    def refused(self, *calls, seen=0.3):
        """Calls that are expected to change nothing: sometimes with a digest before and after."""
        around = [DIGEST] if self.r.random() < seen else []
        self.add(*around, *calls, *around)

    def ask(self, what):
        """What the oracle prints of the list so far."""
        return subprocess.run([self.oracle, what], input=self.bytes(), capture_output=True, timeout=120, check=True).stdout

    def answered(self):
        """Each call so far, and the lines that it printed."""
        return list(answers(self.calls, self.ask("calls").decode().splitlines()))
