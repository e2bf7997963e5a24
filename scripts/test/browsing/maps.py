"""The map of a boot as it is drawn, against its frames."""

LEAST = 5  # pixels of what is not right
SIGNS = {"right": "right", "wrong": "wrong", "no-boot": "bad"}
MARKS = {"erase": "E", "copy": "C", "write": "W", "right": "✓", "wrong": "≠", "bad": "✗"}
KINDS = {"-": "blank", "t": "trailer", "*": "other"}

# What is drawn: the boxes of each part, with class, place, size and text.
READ = """(map => {
    const place = it => ['x', 'y', 'width', 'height'].map(name => Number(it.getAttribute(name)));
    const text = it => it.nextElementSibling?.matches('text') ? it.nextElementSibling.textContent : '';
    const boxes = part => [...map.querySelectorAll(`.${part} rect`)].map(it => [it.getAttribute('class'), ...place(it), text(it)]);
    return [map.viewBox.baseVal.width, ...['edges', 'ends', 'operations', 'words', 'targets'].map(boxes)]; })"""


def class_of(word):
    return KINDS.get(word) or word[0] + (" half" if word.endswith("~") else "")


def row_at(boxes, y):
    """The boxes at a height, the last drawn first."""
    return [box for box in reversed(boxes) if box[2] <= y < box[2] + box[4]]


def drawn_at(row, x):
    """The boxes of a row at a place, as class and text."""
    return [(box[0], box[5]) for box in row if box[1] <= x < box[1] + box[3]]


class DrawnMap:
    """What a map shows of so many sectors of the primary and the secondary, and of operations, of which `frames` says what is to be seen."""

    def __init__(self, read, frames, sectors):
        wide, self.edges, self.ends, self.operations, self.words, self.targets = read
        begin = self.edges[0][1] + 0.5
        self.frames, self.column = frames, (wide - begin) / len(frames)
        self.centres = [begin + (i + 0.5) * self.column for i in range(len(frames))]
        high = self.edges[1][4] / sectors[0]
        self.heights = [edge[2] + 0.5 + (i + 0.5) * high for edge, count in zip(self.edges[1:], sectors) for i in range(count)]
        self.names = [f"{slot} {i}" for slot, count in zip(("primary", "secondary"), sectors) for i in range(count)]

    def differences(self, can_be_cut):
        """What is drawn otherwise than the frames say: the number of the operation, what is drawn, and what is to be."""
        found = [*self.in_strip(self.operations, self.edges[0][2] + 7, lambda frame: frame["operation"].split()[0]), *self.in_sectors(), *self.of_targets()]
        if not can_be_cut:
            return found + self.ends
        return found + list(self.in_strip(self.ends, 6, lambda frame: SIGNS[frame["ends"]]))

    def in_strip(self, boxes, y, kind_of):
        """The operations' kinds in a strip; what is not right is wide enough to be seen, and may lie over what is beside it."""
        row = row_at(boxes, y)
        for frame, x in zip(self.frames, self.centres):
            kind, drawn = kind_of(frame), drawn_at(row, x)
            seen = [it for it in drawn if it[0] == kind] if self.column < LEAST else drawn[:1]
            if not seen or seen[0][0] != kind or seen[0][1] not in ("", MARKS[kind]):
                yield frame["number"], drawn, kind

    def in_sectors(self):
        """The class of each sector's word before each operation, and the word where it is written."""
        for sector, y in enumerate(self.heights):
            row = row_at(self.words, y)
            for frame, x in zip(self.frames, self.centres):
                word, drawn = frame["words"][sector], drawn_at(row, x)
                if len(drawn) != 1 or drawn[0][0] != class_of(word) or drawn[0][1] not in ("", word):
                    yield frame["number"], self.names[sector], drawn, word

    def of_targets(self):
        """The sector that each operation changes, which alone is marked; marks of narrow operations are wider than these."""
        rows = {name: row_at(self.targets, y) for name, y in zip(self.names, self.heights)}
        for frame, x in zip(self.frames, self.centres):
            marked = [name for name, row in rows.items() if drawn_at(row, x)]
            if frame["sector"] not in marked or self.column >= 1 and len(marked) != 1:
                yield frame["number"], marked, frame["sector"]
