#!/usr/bin/env python3
"""Makes a night's folder: sheets, memories, and what three cards left.

    make_night.py FOLDER

alder does what the sheets say. birch reads mirrored edges wrongly: it repeats the element at the edge.
cedar stores elements that lie outside the tensor, which must be discarded. What the cards leave is
computed here, by a model of its own, so that the folder tests the reference too.
"""
import os
import sys
from dataclasses import dataclass

NONE = 255
KINDS = {"u8": (0, 1), "u16": (2, 2), "u32": (4, 4)}  # number, bytes
MODES = {"Constant": 1, "ClampToEdge": 2, "Repeat": 3, "MirrorRepeat": 4}


@dataclass
class Dimension:
    size: int
    stride: int
    offset: int
    span: int


@dataclass
class Layout:
    mode: str
    value: int
    dimensions: list


# -- What a card does ------------------------------------------------------------------------------

def mirrored(c, n):
    if n == 1:
        return 0
    m = 2 * n - 2
    c %= m
    return m - c if c >= n else c


def mirrored_with_edge_twice(c, n):
    c %= 2 * n
    return 2 * n - 1 - c if c >= n else c


@dataclass
class Card:
    mirror: callable = mirrored
    discards: bool = True


CARDS = {"alder": Card(), "birch": Card(mirror=mirrored_with_edge_twice), "cedar": Card(discards=False)}


def clamped(card, mode, c, n):
    """The coordinate of a load outside the tensor; None: the clamp value."""
    return {"Constant": None, "ClampToEdge": min(max(c, 0), n - 1), "Repeat": c % n,
            "MirrorRepeat": card.mirror(c, n)}[mode]


def tensor_index(card, layout, number, is_store):
    """Where an element goes, in elements from the base; "fill" or "discard" if nowhere."""
    index = 0
    for dimension in reversed(layout.dimensions):
        number, coordinate = divmod(number, dimension.span)
        c = coordinate + dimension.offset
        if not 0 <= c < dimension.size:
            if is_store and card.discards:
                return "discard"
            if not is_store:
                c = clamped(card, layout.mode, c, dimension.size)
                if c is None:
                    return "fill"
        index += c * dimension.stride
    return index


class Machine:
    def __init__(self, card, layouts, memory):
        self.card, self.layouts, self.memory = card, layouts, bytearray(memory)
        self.registers = {}

    def fill(self, register, rows, columns, kind, value):
        self.registers[register] = (kind, rows, columns, [value] * (rows * columns))

    def load(self, register, object, layout, base):
        kind, rows, columns, elements = self.registers[register if object == NONE else object]
        elements, size = list(elements), KINDS[kind][1]
        for i in range(rows * columns):
            index = tensor_index(self.card, self.layouts[layout], i, False)
            if index == "fill":
                elements[i] = self.layouts[layout].value
            else:
                at = base + index * size
                elements[i] = int.from_bytes(self.memory[at:at + size], "little")
        self.registers[register] = (kind, rows, columns, elements)

    def store(self, register, layout, base):
        kind, rows, columns, elements = self.registers[register]
        size = KINDS[kind][1]
        for i in range(rows * columns):
            index = tensor_index(self.card, self.layouts[layout], i, True)
            if index != "discard" and base + index * size >= 0:
                at = base + index * size
                self.memory[at:at + size] = elements[i].to_bytes(size, "little")

    def transpose(self, register, source):
        kind, rows, columns, elements = self.registers[source]
        turned = [elements[r * columns + c] for c in range(columns) for r in range(rows)]
        self.registers[register] = (kind, columns, rows, turned)

    def registers_file(self):
        types, words = bytearray(), bytearray()
        for register in range(4):
            kind, rows, columns, elements = self.registers.get(register, ("u8", 0, 0, []))
            types += bytes([KINDS[kind][0] if rows else 0, rows, columns, 0])
            words += b"".join(e.to_bytes(4, "little") for e in elements).ljust(1024, b"\0")
        return bytes(types + words)


# -- Sheets ----------------------------------------------------------------------------------------

def as_text(layouts, steps):
    lines = ["edition 1"]
    for i, layout in enumerate(layouts):
        lines.append(f"layout L{i} {layout.mode} value {layout.value}")
        for d in layout.dimensions:
            lines.append(f"  dim block 1 size {d.size} stride {d.stride} offset {d.offset} span {d.span}")
    for name, *numbers in steps:
        if name == "fill":
            lines.append("fill r{} {}x{} {} {}".format(*numbers))
        elif name == "load":
            register, object, layout, base = numbers
            of = "" if object == NONE else f" object r{object}"
            lines.append(f"load r{register}{of} L{layout} base {base}")
        elif name == "store":
            lines.append("store r{} L{} base {}".format(*numbers))
        else:
            lines.append("transpose r{} of r{}".format(*numbers))
    return ("\n".join(lines) + "\n").encode()


def as_bytes(layouts, steps):
    def field(tag, content):
        return bytes([tag]) + len(content).to_bytes(2, "little") + content

    sheet = field(0x01, b"\x01")
    for layout in layouts:
        content = bytes([len(layout.dimensions), MODES[layout.mode]]) + layout.value.to_bytes(4, "little")
        for d in layout.dimensions:
            for number in (1, d.size, d.stride, d.offset % 65536, d.span):
                content += number.to_bytes(2, "little")
        sheet += field(0x10, content)
    for name, *numbers in steps:
        if name == "fill":
            register, rows, columns, kind, value = numbers
            sheet += field(0x20, bytes([register, rows, columns, KINDS[kind][0]]) + value.to_bytes(4, "little"))
        elif name == "load":
            register, object, layout, base = numbers
            sheet += field(0x21, bytes([register, object, layout, NONE]) + base.to_bytes(4, "little"))
        elif name == "store":
            register, layout, base = numbers
            sheet += field(0x22, bytes([register, layout, NONE]) + base.to_bytes(4, "little"))
        else:
            sheet += field(0x24, bytes(numbers))
    return sheet


def border(mode, side, width, kind, value=0):
    """Loads a picture with a border on all sides and stores it, densely, behind the picture."""
    full = side + 2 * width
    size = KINDS[kind][1]
    behind = (side * side * size + 15) // 16 * 16
    layouts = [Layout(mode, value, [Dimension(side, side, -width, full), Dimension(side, 1, -width, full)]),
               Layout("Constant", 0, [Dimension(full * full, 1, 0, full * full)])]
    steps = [("fill", 0, full, full, kind, 0), ("load", 1, 0, 0, 0), ("store", 1, 1, behind)]
    return layouts, steps, behind + full * full * size


def corner(mode, side, shift, kind):
    """Loads a picture and stores it again, moved: what leaves its frame is discarded."""
    size = KINDS[kind][1]
    base = (side * side * size + 15) // 16 * 16 + 128
    layouts = [Layout(mode, 0, [Dimension(side, side, 0, side), Dimension(side, 1, 0, side)]),
               Layout(mode, 0, [Dimension(side, side, shift, side), Dimension(side, 1, shift, side)])]
    steps = [("fill", 2, side, side, kind, 0), ("load", 2, NONE, 0, 0), ("store", 2, 1, base)]
    return layouts, steps, base + (side + shift) * (side + 1) * size + 16


def turned(side, kind):
    size = KINDS[kind][1]
    layouts = [Layout("ClampToEdge", 0, [Dimension(side * side, 1, 0, side * side)])]
    steps = [("fill", 0, side, side, kind, 0), ("load", 0, NONE, 0, 0), ("transpose", 1, 0), ("store", 1, 0, 1024)]
    return layouts, steps, 1024 + side * side * size


SHEETS = {
    "border-clamp-u8": border("ClampToEdge", 8, 2, "u8"),
    "border-constant-u16": border("Constant", 8, 3, "u16", 777),
    "border-mirror-u16": border("MirrorRepeat", 6, 3, "u16"),
    "border-mirror-u8": border("MirrorRepeat", 12, 2, "u8"),
    "border-repeat-u32": border("Repeat", 10, 3, "u32"),
    "moved-u32": corner("ClampToEdge", 8, 2, "u32"),
    "moved-u8": corner("Constant", 16, 3, "u8"),
    "turned-u32": turned(16, "u32"),
    "turned-u8": turned(9, "u8"),
}


def main(folder):
    os.makedirs(folder, exist_ok=True)

    def write(name, content):
        with open(os.path.join(folder, name), "wb") as file:
            file.write(content)

    for number, (name, (layouts, steps, length)) in enumerate(sorted(SHEETS.items())):
        memory = bytes((7 * i + 3 * number) % 251 for i in range(length))
        if number % 2 == 0:
            write(name + ".txt", as_text(layouts, steps))
        else:
            write(name + ".sheet", as_bytes(layouts, steps))
        write(name + ".memory", memory)
        for card_name, card in CARDS.items():
            machine = Machine(card, layouts, memory)
            for step in steps:
                getattr(machine, step[0])(*step[1:])
            write(f"{name}.{card_name}.after", bytes(machine.memory))
            write(f"{name}.{card_name}.registers", machine.registers_file())


if __name__ == "__main__":
    if len(sys.argv) != 2:
        sys.exit("usage: make_night.py FOLDER")
    main(sys.argv[1])
