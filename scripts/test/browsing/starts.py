"""What a case asks, and what the library says of it when it is asked directly."""
import hashlib
import re
import struct

from common import each_word

FIELDS = ("sector", "unit", "max-sectors", "chunk", "primary", "secondary")
SMALL, BOARD = (256, 8, 4, 128, 4, 3), (4096, 4, 128, 1024, 118, 117)
FINE = (64, 8, 16, 64, 16, 15)  # small images have many sectors
LETTERS = {"primary": "a", "secondary": "b"}
NAMED = {"none": "a", "test": "b", "perm": "b", "revert": "b"}  # docs/MODEL.md, "Start flashes"


def image_of(version, size, seed):
    """A valid image of so many bytes, with a payload that differs from sector to sector; without a seed it is of zeros."""
    blocks = [hashlib.sha256(b"%d %d" % (seed, block)).digest() if seed else bytes(32) for block in range(size // 32 + 1)]
    payload = b"".join(blocks)[:size - 72]
    body = struct.pack("<IIHHIIBBHII", 0x96f3b83d, 0, 32, 0, len(payload), 0, version, 0, 0, 0, 0) + payload
    return body + struct.pack("<HHHH", 0x6907, 40, 0x10, 32) + hashlib.sha256(body).digest()


class Start:
    """What a case asks: numbers, rules, and images or a dump; with the words of its command lines."""

    def __init__(self, library, numbers, files, kind="test", grain="call", profile="1", expected=()):
        self.library, self.numbers, self.files, self.kind, self.grain, self.profile = library, numbers, files, kind, grain, profile
        self.layout = [word for name, number in zip(FIELDS, numbers) for word in ("--" + name, str(number))]
        self.source = ["--flash", "a"] if kind == "flash" else ["--kind", kind, "--image-a", "a", "--image-b", "b"]
        self.rules = ["--grain", grain, "--profile", profile]
        self.in_slots = list(expected)
        self.expected = self.in_slots if kind == "flash" else ["--all-right"]
        self.at_start = None
        self.names = {"a": "flash of us.bin" if kind == "flash" else "a of us.bin", "b": "b of us.bin"}

    def say(self, command, *more):
        """What the library prints for a command of this start."""
        return self.library.run([command, *self.layout, *self.source, *self.rules, *more], *self.files, room=1 << 20)[1].decode()

    def flash(self, cuts, end=False):
        source = self.library.Source(*self.numbers, kind=("none", "test", "perm", "revert", "flash").index(self.kind), a=self.files[0],
                                     b=self.files[-1] if len(self.files) > 1 else b"", grain=int(self.grain == "unit"), profile=int(self.profile))
        return source.flash_left(cuts) if end else source.flash_at_cut(cuts)

    def outcome(self, cuts=()):
        """The lines of `replay`, by their names."""
        return dict(line.split(" ", 1) for line in self.say("replay", "--schedule", text_of(cuts)).splitlines())

    def frames(self, cuts, first, last):
        """The frames of the boot after the cuts, of these operations, by the names of their fields; `words` has a word for each sector."""
        asked = ["--schedule", text_of(cuts), "--from", str(first), "--to", str(last), *self.in_slots]
        names, *rows = [line.split("\t") for line in self.say("frames", *asked).splitlines() if "\t" in line]
        frames = [dict(zip(names, row)) for row in rows if row[0] == str(len(cuts))]
        return [{**frame, "words": [*each_word(frame["primary"].split()), *each_word(frame["secondary"].split())]} for frame in frames]

    def sectors(self, cuts, end=False):
        """The words of both slots. Where several sectors of the start hold the same bytes, which of them is named is found in these bytes."""
        lines = self.say("sectors", "--schedule", text_of(cuts), "--words", "all", *(["--end"] if end else [])).splitlines()
        return [[self.word_at(word, LETTERS[slot], number) for number, word in enumerate(words)] for slot, *words in map(str.split, lines)]

    def word_at(self, word, own, number):
        """The word for a sector, of the program's word, the letter of its slot and its number."""
        whole = word.rstrip("~")
        if not re.fullmatch(r"[ab]\d+", whole):
            return word
        places, other = self.places(), "ab".replace(own, "")
        like = [it for it, data in places.items() if data == places[whole]]
        same = [f"{own}{number}"] if word == whole else []
        order = [*same, f"{other}{number}", f"{own}{max(number - 1, 0)}", *(it for it in like if it[0] == other), *(it for it in like if it[0] == own)]
        return word.replace(whole, next(it for it in order if it in like))

    def places(self):
        """The bytes of each sector of the start, by its place: the primary's first."""
        if self.at_start is None:
            data, size, primary = self.flash([]), self.numbers[0], self.numbers[4]
            sectors = [data[begin:begin + size] for begin in range(0, len(data), size)]
            self.at_start = {f"a{i}" if i < primary else f"b{i - primary}": sector for i, sector in enumerate(sectors)}
        return self.at_start

    def say_of_flash(self, command, cuts, *more):
        """What the library prints of the flash that cuts leave; the images are b and c."""
        known = () if self.kind == "flash" else self.files
        return self.library.run([command, *self.layout, "--flash", "a", *more], self.flash(cuts), *known)[1].decode()

    def link(self, cuts=()):
        said = [f"{name}={number}" for name, number in zip(FIELDS, self.numbers)] + [f"grain={self.grain}", f"profile={self.profile}"]
        if self.kind == "flash":
            said += ["source=flash", *(f"{option[2:]}={value}" for option, value in zip(self.expected[::2], self.expected[1::2]))]
        else:
            said.append(f"kind={self.kind}")
        return "#" + "&".join(said + ([f"cuts={text_of(cuts)}"] if cuts else []))


def text_of(cuts):
    return ".".join(map(str, cuts)) or "-"


def bytes_text(data, offset):
    """The bytes of a sector as the page shows them."""
    lines = []
    for begin in range(0, len(data), 16):
        part = data[begin:begin + 16]
        line = "   ⋯    ff" if part.strip(b"\xff") == b"" else f"{offset + begin:06x}  {part.hex(' ')}"
        if line.startswith(" ") and lines and lines[-1] == line:
            continue
        lines.append(line)
    return "\n".join(lines[:512] + ([f"{len(lines) - 512} more lines: save the flash to see them"] if len(lines) > 512 else []))
