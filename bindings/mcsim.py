"""mcsim from Python, over libmcsim.so (scripts/build-library makes it), by ctypes and with no other package.

    swap = mcsim.Source(sector=256, unit=8, max_sectors=4, chunk=128, primary=4, secondary=3, kind=mcsim.TEST, a=old, b=new)
    swap.outcome([9, 4])["result"]      # "boot"
    swap.flash_at_cut([9])              # the bytes of both slots when power fails before operation 9

A call that is refused raises Refused, with the program's status and its line.
"""
import ctypes
import os
import pathlib

NONE, TEST, PERM, REVERT, FLASH = range(5)
CALL, UNIT = range(2)

_PATH = os.environ.get("MCSIM_LIBRARY", pathlib.Path(__file__).resolve().parent.parent / "crates/mc_c/out/libmcsim.so")
_LIBRARY = ctypes.CDLL(str(_PATH))


class _Numbers(ctypes.Structure):
    _fields_ = [(name, ctypes.c_uint32) for name in
                ("sector", "unit", "max_sectors", "chunk", "primary", "secondary", "grain", "profile", "kind")]


class _Lengths(ctypes.Structure):
    _fields_ = [(name, ctypes.c_uint64) for name in ("out", "err", "file")]


class Refused(Exception):
    """A call that is refused: `status` 1, 2 or 3, and the program's line."""

    def __init__(self, status, line):
        super().__init__(line)
        self.status, self.line = status, line


def _bytes(data):
    """A slice of bytes, as C takes it: where it begins, and its length. It is never null."""
    return [bytes(data), ctypes.c_size_t(len(data))]


def _buffer(room):
    return ctypes.create_string_buffer(max(room, 1))


def run(words, a=b"", b=b"", c=b"", stdin=b"", room=1 << 16):
    """Runs a command line whose files are a, b, c and out: its status, output, refusal and the bytes of out."""
    line = b"\0".join(word.encode() for word in ["mcsim", *words])
    while True:
        out, err, file, sizes = _buffer(room), _buffer(1 << 16), _buffer(room), _Lengths()
        status = _LIBRARY.mcsim_run(*_bytes(line), *_bytes(a), *_bytes(b), *_bytes(c), *_bytes(stdin), out, ctypes.c_size_t(room),
                                    err, ctypes.c_size_t(1 << 16), file, ctypes.c_size_t(room), ctypes.byref(sizes))
        if max(sizes.out, sizes.file) <= room:
            return status, out.raw[:sizes.out], err.raw[:sizes.err], file.raw[:sizes.file]
        room = max(sizes.out, sizes.file)


class Source:
    """A layout, rules, and two images of a kind, or with kind FLASH the bytes of both slots in `a`."""

    def __init__(self, sector, unit, max_sectors, chunk, primary, secondary, kind, a, b=b"", grain=CALL, profile=1):
        self._numbers = _Numbers(sector, unit, max_sectors, chunk, primary, secondary, grain, profile, kind)
        self._images = [*_bytes(a), *_bytes(b)]
        # A flash has at most 2^25 bytes; what has more is refused.
        self._room = min(max(sector * (primary + secondary), 1 << 16), 1 << 25)

    def _ask(self, name, *arguments, room=1 << 16):
        while True:
            out, count = _buffer(room), ctypes.c_uint64()
            status = getattr(_LIBRARY, name)(ctypes.byref(self._numbers), *self._images, *arguments, out, ctypes.c_size_t(room),
                                             ctypes.byref(count))
            if count.value > room:
                room = count.value
            elif status:
                raise Refused(status, out.raw[:count.value].decode())
            else:
                return out.raw[:count.value]

    @staticmethod
    def _cuts(cuts):
        return [(ctypes.c_uint32 * max(len(cuts), 1))(*cuts), ctypes.c_size_t(len(cuts))]

    def trace(self, cuts=(), first=0, last=0xffffffff):
        """What the boots do, operation by operation, of each boot from one number to another."""
        return self._ask("mcsim_trace", *self._cuts(cuts), ctypes.c_uint32(first), ctypes.c_uint32(last)).decode()

    def picture(self, cuts=(), end=False, every=False):
        """The text of what lies in each sector when the last cut falls, or at the end; in plain words or in every one."""
        return self._ask("mcsim_sectors", *self._cuts(cuts), ctypes.c_bool(end), ctypes.c_bool(every)).decode()

    def sectors(self, cuts=(), end=False, every=False):
        """The same as a list of words for each slot."""
        lines = self.picture(cuts, end, every).splitlines()
        return {line.split()[0]: line.split()[1:] for line in lines}

    def flash_at_cut(self, cuts=()):
        """The bytes of both slots when the last cut falls, of no cut those of the start."""
        return self._ask("mcsim_flash_at_cut", *self._cuts(cuts), room=self._room)

    def outcome(self, cuts=()):
        """What the uncut boot after the cuts comes to: result, type, ops, primary, secondary, next."""
        lines = self._ask("mcsim_outcome", *self._cuts(cuts)).decode().splitlines()
        return dict(line.split(" ", 1) for line in lines)

    def flash_left(self, cuts=()):
        """The bytes of both slots that it leaves."""
        return self._ask("mcsim_flash_left", *self._cuts(cuts), room=self._room)

    def tears(self, cuts=(), rough=False, every=False):
        """The text of what power that is lost within an operation of the uncut boot after the cuts leads to: where it ends otherwise than
        after a cut, or in every case."""
        return self._ask("mcsim_tears", *self._cuts(cuts), ctypes.c_bool(rough), ctypes.c_bool(every)).decode()

    def census(self, bound=16):
        """What all schedules of at most so many cuts come to, by the names of the lines."""
        lines = self._ask("mcsim_census", ctypes.c_uint32(bound)).decode().splitlines()
        return dict(line.split(" ", 1) for line in lines)

    def page(self, bound, limit, after=None):
        """The text of a page: from the first row on, or after a schedule."""
        return self._ask("mcsim_rows", ctypes.c_uint32(bound), ctypes.c_bool(after is None), *self._cuts(after or ()),
                         ctypes.c_uint32(limit)).decode()

    def rows(self, bound, limit=4096):
        """Every row of at most so many cuts, in order: its cuts, and what it comes to."""
        after = None
        while True:
            *lines, last = self.page(bound, limit, after).splitlines()
            for line in lines:
                words = line.split(" ")
                after = [] if words[0] == "-" else [int(cut) for cut in words[0].split(".")]
                yield after, words[1:]
            if last == "end":
                return
