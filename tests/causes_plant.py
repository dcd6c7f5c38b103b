#!/usr/bin/env python3
"""Makes a night's folder in which each card but one goes wrong in a way of its own, and holds the report to it.

    causes_plant.py make FOLDER          the folder
    causes_plant.py check REPORT.json    each card's first cause must be the one that was planted; of a card with two
                                         faults the first two

What a wrong card leaves is computed by the model of night_oracle.py with one rule of docs/SHEETS.md read wrongly.
"""
import json
import math
import os
import random
import sys

sys.dont_write_bytecode = True
import night_oracle  # noqa: E402
from night_oracle import (CLAMP_TO_EDGE, CONSTANT, MIRROR_REPEAT, NAMES, NONE, PACKED_S8, PACKED_U8, REPEAT, ROW_MAJOR,
                          S32, SIZES, U8, U32, COLUMN_MAJOR)

S8, U16, S16 = 1, 2, 3
MODES = {CONSTANT: "Constant", CLAMP_TO_EDGE: "ClampToEdge", REPEAT: "Repeat", MIRROR_REPEAT: "MirrorRepeat"}
ROW, COLUMN, BOTH = 1, 2, 3
ADD, MIN = 0, 1
WHOLE = [0, 65535, 0, 65535]
MEMORY = 4096
SOURCE, TARGET = 512, 2048  # where loads read and stores write


# -- Wrong cards -----------------------------------------------------------------------------------

class Card(night_oracle.Machine):
    """A card that reads one rule, or two, wrongly."""

    def __init__(self, sheet, memory, faults):
        super().__init__(sheet, memory)
        self.faults = faults

    def remainder(self, c, n):
        return int(math.fmod(c, n)) if "remainder of the dividend's sign" in self.faults else c % n

    def clamped(self, mode, c, n):
        """A coordinate outside; None: no byte."""
        for wrong in MODES:
            if f"{MODES[mode]} read as {MODES[wrong]}" in self.faults:
                mode = wrong
                break
        if mode == CONSTANT:
            return None
        if mode == CLAMP_TO_EDGE:
            return min(max(c, 0), n - 1)
        if mode == REPEAT:
            return self.remainder(c, n)
        m = 2 * n - 2
        c = self.remainder(c, m)
        return m - c if c >= n else c

    def outside(self, mode, c, n, is_store):
        if not is_store:
            return self.clamped(mode, c, n)
        if "stores go on outside" in self.faults:
            return c
        return self.clamped(mode, c, n) if "clamped stores" in self.faults else None

    def index(self, layout, view, row, column, columns):
        if view is None or "clip width as N minus offset" not in self.faults:
            return night_oracle.index_through_view(layout, view, row, column, columns)
        row_offset, row_span, column_offset, column_span = view["clip"]
        if not (row_offset <= row < row_offset + row_span and column_offset <= column < column_offset + column_span):
            return None
        return (row - row_offset) * min(columns - column_offset, column_span) + column - column_offset

    def byte(self, layout, index, base, size, is_store):
        tensor = 0
        for dimension in reversed(layout["dimensions"]):
            index, c = divmod(index, dimension["span"])
            c += dimension["offset"]
            if not 0 <= c < dimension["size"]:
                c = self.outside(layout["mode"], c, dimension["size"], is_store)
                if c is None:
                    return None
            if "block not floored" in self.faults:
                tensor += c * dimension["stride"] // dimension["block"]
            else:
                tensor += c // dimension["block"] * dimension["stride"]
        return (base + tensor * size) % (len(self.memory) - size)

    def addresses(self, register, layout, view, base, is_store):
        kind, rows, columns, _ = self.registers[register]
        layout = self.sheet["layouts"][layout]
        view = None if view == NONE else self.sheet["views"][view]
        for element in range(rows * columns):
            index = self.index(layout, view, element // columns, element % columns, columns)
            yield element, index is None, None if index is None else self.byte(layout, index, base, SIZES[kind], is_store)

    def load(self, number, register, object, layout, view, base):
        kind, rows, columns, elements = self.registers[register if object == NONE else object]
        elements, size = list(elements), SIZES[kind]
        self.registers[register] = (kind, rows, columns, elements)
        width = 1 if "fill of the wrong width" in self.faults else size
        for element, skipped, byte in self.addresses(register, layout, view, base, False):
            if byte is not None:
                elements[element] = int.from_bytes(self.memory[byte:byte + size], "little")
            elif not skipped:
                elements[element] = self.sheet["layouts"][layout]["value"] % (1 << 8 * width)
            elif "skipped element not kept" in self.faults:
                elements[element] = 0

    def store(self, number, register, layout, view, base):
        kind, _, _, elements = self.registers[register]
        size = SIZES[kind]
        for element, _, byte in self.addresses(register, layout, view, base, True):
            if byte is not None:
                self.memory[byte:byte + size] = elements[element].to_bytes(size, "little")

    def give(self, *_):
        pass

    def transpose(self, number, result, source):
        super().transpose(number, result, source)
        if "transposed twice" in self.faults:
            self.registers[result] = self.registers[source]

    def reduce(self, number, result, source, rows, columns, mode, combine):
        kind, source_rows, source_columns, elements = self.registers[source]
        if "columns for rows in a reduce" in self.faults and mode in (ROW, COLUMN):
            mode = ROW + COLUMN - mode
        sums = []
        for row in range(rows):
            for column in range(columns):
                at = row if rows > 1 else column
                taken = [elements[r * source_columns + c] for r in range(source_rows) for c in range(source_columns)
                         if mode == BOTH or (r if mode == ROW else c) == at]
                values = [night_oracle.value(kind, e) for e in taken]
                number = min(values) if combine == MIN else sum(values)
                if "saturating sums" in self.faults:
                    number = night_oracle.saturated(kind, number)
                sums.append(number % (1 << 8 * SIZES[kind]))
        self.registers[result] = (kind, rows, columns, sums)

    def vector(self, number, result, kind, source, interpretation, matrix, m, k, order, stride, offset, has_bias, bias):
        if "columns for rows in a vector step" in self.faults:
            order = ROW_MAJOR
        if "bias of the next row" in self.faults:
            bias += 4
        source_kind, rows, columns, elements = self.registers[source]
        if "packed highest first" in self.faults and interpretation in (PACKED_S8, PACKED_U8):
            turned = [int.from_bytes(e.to_bytes(4, "big"), "little") for e in elements]
            self.registers[source] = (source_kind, rows, columns, turned)
        super().vector(number, result, kind, source, interpretation, matrix, m, k, order, stride, offset, has_bias, bias)
        if result != source:
            self.registers[source] = (source_kind, rows, columns, elements)


# -- Sheets ----------------------------------------------------------------------------------------

def layout(mode, dimensions, value=0):
    keys = ("block", "size", "stride", "offset", "span")
    return {"mode": mode, "value": value, "dimensions": [dict(zip(keys, d)) for d in dimensions]}


DENSE = layout(CONSTANT, [(1, 256, 1, 0, 256)])


def sheet(layouts, steps, views=(), edition=2):
    return {"edition": edition, "layouts": layouts, "views": list(views), "steps": steps}


def bordered(mode, kind, width):
    """A picture of 6 by 6 with a border."""
    span = 6 + 2 * width
    picture = layout(mode, [(1, 6, 6, -width, span), (1, 6, 1, -width, span)], 0x12345678)
    return sheet([picture, DENSE], [("fill", 0, span, span, kind, 0), ("load", 1, 0, 0, NONE, SOURCE),
                                    ("store", 1, 1, NONE, TARGET)])


def moved(mode, kind, shift):
    """A picture that leaves its frame on the way to memory."""
    frame = layout(mode, [(1, 6, 16, shift, 8), (1, 6, 1, shift, 8)])
    return sheet([DENSE, frame], [("fill", 0, 8, 8, kind, 0), ("load", 0, 0, 0, NONE, SOURCE),
                                  ("store", 0, 1, NONE, TARGET)])


def clipped(kind, clip):
    """A load that leaves a part of its object as it was."""
    view = {"permutation": [0], "dimensions": [], "clip": clip}
    return sheet([layout(CONSTANT, [(1, 64, 1, 0, 64)]), DENSE],
                 [("fill", 0, 6, 8, kind, 90), ("load", 1, 0, 0, 0, SOURCE), ("store", 1, 1, NONE, TARGET)], [view])


def turned(kind, side):
    return sheet([DENSE], [("fill", 0, side, side, kind, 0), ("load", 0, 0, 0, NONE, SOURCE), ("transpose", 1, 0),
                           ("store", 1, 0, NONE, TARGET)])


def reduced(kind, mode, combine):
    sides = {ROW: (8, 1), COLUMN: (1, 8), BOTH: (1, 1)}[mode]
    return sheet([DENSE], [("fill", 0, 8, 8, kind, 0), ("load", 0, 0, 0, NONE, SOURCE),
                           ("reduce", 1, 0, *sides, mode, combine), ("store", 1, 0, NONE, TARGET)])


def blocked(kind):
    blocks = layout(REPEAT, [(2, 8, 8, 0, 8), (2, 8, 3, 0, 8)])
    return sheet([blocks, DENSE], [("fill", 0, 8, 8, kind, 0), ("load", 0, 0, 0, NONE, SOURCE),
                                   ("store", 0, 1, NONE, TARGET)])


def multiplied(order, interpretation, has_bias):
    packed = interpretation in (PACKED_S8, PACKED_U8)
    rows, kind = (2, U32) if packed else (8, S16)
    return sheet([DENSE], [("fill", 0, rows, 1, kind, 0), ("load", 0, 0, 0, NONE, SOURCE),
                           ("vector", 1, S32, 0, interpretation, S8, 8, 8, order, 16, 1024, has_bias,
                            1536 if has_bias else 0), ("store", 1, 0, NONE, TARGET)])


def sheets():
    made = {}
    for mode, name in MODES.items():
        for kind in (U8, S16, U32):
            for width in (1, 2):
                made[f"border-{name}-{NAMES[kind]}-{width}"] = bordered(mode, kind, width)
            made[f"moved-{name}-{NAMES[kind]}"] = moved(mode, kind, 3)
            made[f"moved-back-{name}-{NAMES[kind]}"] = moved(mode, kind, -2)
    for kind in (U8, U16, S32):
        made[f"clip-rows-{NAMES[kind]}"] = clipped(kind, [1, 3, 0, 65535])
        made[f"clip-columns-{NAMES[kind]}"] = clipped(kind, [0, 65535, 2, 65535])
        made[f"turned-{NAMES[kind]}"] = turned(kind, 7)
        made[f"blocks-{NAMES[kind]}"] = blocked(kind)
        for mode, name in ((ROW, "row"), (COLUMN, "column"), (BOTH, "both")):
            for combine, word in ((ADD, "add"), (MIN, "min")):
                made[f"reduce-{name}-{word}-{NAMES[kind]}"] = reduced(kind, mode, combine)
    for order in (ROW_MAJOR, COLUMN_MAJOR):
        for interpretation in (S16, PACKED_S8, PACKED_U8):
            for has_bias in (0, 1):
                made[f"vector-{order}-{interpretation}-{has_bias}"] = multiplied(order, interpretation, has_bias)
    return made


# -- What must be said -----------------------------------------------------------------------------

CLAMPS = {CONSTANT: "elements that Constant fills", CLAMP_TO_EDGE: "elements that ClampToEdge clamps",
          REPEAT: "elements that Repeat clamps", MIRROR_REPEAT: "elements that MirrorRepeat clamps"}

# By fault: the words with which its cause begins.
FAULTS = {f"{MODES[mode]} read as {MODES[wrong]}": CLAMPS[mode] for mode in MODES for wrong in MODES if mode != wrong}
FAULTS.update({
    "remainder of the dividend's sign": "elements that a remainder clamps below",
    "clamped stores": "elements where a store would clamp what it must discard",
    "stores go on outside": "elements where a store must discard",
    "skipped element not kept": "elements that a load skips",
    "fill of the wrong width": "elements that Constant fills",
    "saturating sums": "elements of a reduce with add",
    "bias of the next row": "elements of a vector step with a bias",
    "columns for rows in a vector step": "elements of a vector step with a matrix that is column-major",
    "columns for rows in a reduce": "elements of a reduce",
    "transposed twice": "elements of a transpose",
    "packed highest first": "elements of a vector step with a packed input",
    "block not floored": "elements amid a block",
    "clip width as N minus offset": "elements that a load reads inside its tensor through a view that clips columns",
})

PAIRS = [("MirrorRepeat read as ClampToEdge", "transposed twice"), ("saturating sums", "skipped element not kept"),
         ("clamped stores", "bias of the next row"), ("Constant read as Repeat", "block not floored"),
         ("packed highest first", "Repeat read as MirrorRepeat")]


def cards():
    """By name: the faults of each card. A name has no dots."""
    single = {fault.replace(" ", "-").replace("'", ""): [fault] for fault in FAULTS}
    double = {"+".join(fault.replace(" ", "-") for fault in pair): list(pair) for pair in PAIRS}
    return {"exact": [], **single, **double}


def make(folder):
    rng = random.Random(5)
    os.makedirs(folder)

    def write(name, content):
        with open(os.path.join(folder, name), "wb") as file:
            file.write(content)

    for name, made in sheets().items():
        memory = rng.randbytes(MEMORY)
        write(name + ".sheet", night_oracle.sheet_bytes(made))
        write(name + ".memory", memory)
        for card, faults in cards().items():
            machine = Card(made, memory, faults)
            for number, step in enumerate(made["steps"]):
                machine.perform(number, step)
            write(f"{name}.{card}.after", bytes(machine.memory))


def check(path):
    with open(path, encoding="utf-8") as file:
        causes = {entry["card"]: entry["causes"] for entry in json.load(file)["causes"]}
    wrong = 0
    for card, faults in cards().items():
        found = sorted(cause["cause"] for cause in causes[card][:max(1, len(faults))])
        planted = sorted(FAULTS[fault] for fault in faults)
        if len(found) != len(planted) or not all(f.startswith(p) for f, p in zip(found, planted)):
            wrong += 1
            print(f"{card}: {[cause['headline'] for cause in causes[card]]}, not {planted}")
    if wrong > 0:
        sys.exit(f"{wrong} of {len(causes)} cards are not explained by their faults")
    print(f"{len(FAULTS)} faults and {len(PAIRS)} pairs of them are named")


if __name__ == "__main__":
    if len(sys.argv) != 3 or sys.argv[1] not in ("make", "check"):
        sys.exit(__doc__)
    (make if sys.argv[1] == "make" else check)(sys.argv[2])
