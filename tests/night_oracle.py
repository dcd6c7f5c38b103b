#!/usr/bin/env python3
"""Makes a night's folder of random sheets and says what `moonbleat night` must report of it.

    night_oracle.py FOLDER SEED SHEETS

FOLDER/night gets the night's files, FOLDER/report.txt the expected report, FOLDER/maps.json the expected
maps. Written from the rules of docs/SHEETS.md, beside the tool and not from it: memories, registers and
the origin of each byte come from carrying out the sheets here, element by element.
"""
import json
import os
import random
import sys

NONE = 255
VECTOR_EDITION, ZEROS_EDITION, LAST_EDITION = 2, 3, 3
ROW_MAJOR, COLUMN_MAJOR = 0, 1
PACKED_S8, PACKED_U8 = 8, 9
NAMES = ["u8", "s8", "u16", "s16", "u32", "s32"]
SIZES = [1, 1, 2, 2, 4, 4]
U8, S8, _, _, U32, S32 = range(6)
UNDEFINED, CONSTANT, CLAMP_TO_EDGE, REPEAT, MIRROR_REPEAT = range(5)
VERDICTS = ["agree", "differ", "missing", "refused", "unreadable"]


class Refused(Exception):
    pass


# -- Addressing: rules 1 to 5 ----------------------------------------------------------------------

def index_through_view(layout, view, row, column, columns, has_end=True):
    """Rules 1 and 2; None for a skipped element, or, if the clip has no end, for one before it."""
    if view is None:
        return row * columns + column
    row_offset, row_span, column_offset, column_span = view["clip"]
    if row < row_offset or column < column_offset:
        return None
    if has_end and (row >= row_offset + row_span or column >= column_offset + column_span):
        return None
    index = (row - row_offset) * min(columns, column_span) + column - column_offset
    sizes = [d["span"] for d in layout["dimensions"]]
    strides = [1] * len(sizes)
    for i in reversed(range(len(sizes) - 1)):
        strides[i] = strides[i + 1] * sizes[i + 1]
    if view["dimensions"]:
        sizes = [size for size, _ in view["dimensions"]]
        strides = [stride for _, stride in view["dimensions"]]
    coordinates = [0] * len(sizes)
    for i in reversed(view["permutation"]):
        index, coordinates[i] = divmod(index, sizes[i])
    index = sum(c * s for c, s in zip(coordinates, strides))
    if index >= 1 << 32:
        raise Refused
    return index


def coordinate_of(layout, c, n, is_store):
    """Rule 4; None for an element that has no byte."""
    if 0 <= c < n:
        return c
    if layout["mode"] == UNDEFINED:
        raise Refused
    if is_store or layout["mode"] == CONSTANT:
        return None
    if layout["mode"] == CLAMP_TO_EDGE:
        return 0 if c < 0 else n - 1
    if layout["mode"] == REPEAT:
        return c % n
    if n == 1:
        return 0
    c %= 2 * n - 2
    return 2 * n - 2 - c if c >= n else c


def byte_of(layout, index, base, size, is_store):
    """Rules 3 to 5; None for an element that has no byte."""
    tensor = 0
    outside = False
    for dimension in reversed(layout["dimensions"]):
        index, c = divmod(index, dimension["span"])
        c = coordinate_of(layout, c + dimension["offset"], dimension["size"], is_store)
        if c is None:
            outside = True
        else:
            tensor += c // dimension["block"] * dimension["stride"]
    return None if outside else base + tensor * size


def coordinates_of(layout, index):
    """Rule 3, with the offsets of rule 4."""
    coordinates = []
    for dimension in reversed(layout["dimensions"]):
        index, c = divmod(index, dimension["span"])
        coordinates.insert(0, c + dimension["offset"])
    return coordinates


def side_words(layout, index):
    """Where an element first lies outside; None if it is inside."""
    for i, (c, dimension) in enumerate(zip(coordinates_of(layout, index), layout["dimensions"])):
        if not 0 <= c < dimension["size"]:
            return f" {'below' if c < 0 else 'above'} in dimension {i}"
    return None


def load_words(layout, index):
    if index is None:
        return ", which a load skips"
    side = side_words(layout, index)
    if side is None:
        return ", which a load reads inside its tensor"
    mode = layout["mode"]
    name = {CLAMP_TO_EDGE: "ClampToEdge", REPEAT: "Repeat", MIRROR_REPEAT: "MirrorRepeat"}.get(mode)
    return f", which {name} clamps{side}" if name else f", which Constant fills{side}"


def byte_through(layout, coordinates, base, size):
    return base + size * sum(c * d["stride"] for c, d in zip(coordinates, layout["dimensions"]))


# -- Numbers ---------------------------------------------------------------------------------------

def is_signed(kind):
    return kind % 2 == 1


def value(kind, bits):
    width = 8 * SIZES[kind]
    return bits - (1 << width) if is_signed(kind) and bits >> (width - 1) else bits


def saturated(kind, number):
    numbers = 1 << 8 * SIZES[kind]
    low = -numbers // 2 if is_signed(kind) else 0
    return max(low, min(low + numbers - 1, number))


def components(interpretation, count, kind, elements):
    """What a vector step takes its input for."""
    if interpretation in (PACKED_S8, PACKED_U8):
        packed = b"".join(e.to_bytes(4, "little") for e in elements)
        return [value(S8 if interpretation == PACKED_S8 else U8, byte) for byte in packed[:count]]
    return [saturated(interpretation, value(kind, e)) for e in elements]


# -- Carrying out ----------------------------------------------------------------------------------

class Machine:
    def __init__(self, sheet, memory):
        self.sheet, self.memory = sheet, bytearray(memory)
        self.registers = {}
        self.givers = {}
        self.makers = {}
        self.origins = {}
        self.left_out = []
        self.shadows = {}

    def give(self, register, number, name, rows, columns, words):
        """Notes which step made a register's elements, and what is said of each."""
        self.givers[register] = (number, name)
        self.makers[register] = {"step": number, "name": name, "register": register, "sides": (rows, columns),
                                 "words": words if isinstance(words, list) else [words] * (rows * columns)}

    def addresses(self, register, layout, view, base, is_store):
        kind, rows, columns, _ = self.registers[register]
        layout = self.sheet["layouts"][layout]
        view = None if view == NONE else self.sheet["views"][view]
        if view and not view["dimensions"] and len(view["permutation"]) != len(layout["dimensions"]):
            raise Refused
        for element in range(rows * columns):
            index = index_through_view(layout, view, element // columns, element % columns, columns)
            byte = None if index is None else byte_of(layout, index, base, SIZES[kind], is_store)
            if byte is not None and byte + SIZES[kind] > len(self.memory):
                raise Refused
            yield element, index is None, byte

    def indices(self, register, layout, view, has_end=True):
        """The index of each element after rule 2, None where it is skipped."""
        _, rows, columns, _ = self.registers[register]
        view = None if view == NONE else self.sheet["views"][view]
        for element in range(rows * columns):
            try:
                yield index_through_view(self.sheet["layouts"][layout], view, element // columns, element % columns,
                                         columns, has_end)
            except Refused:
                yield None

    def leave_out(self, maker, placed, layout, view, base, size):
        """Notes where the elements that a store leaves out would have gone: by which mistake, and their bytes."""
        register, numbered = maker["register"], self.sheet["layouts"][layout]
        sizes = [d["size"] for d in numbered["dimensions"]]
        pairs = zip(self.indices(register, layout, view), self.indices(register, layout, view, has_end=False))
        for element, (index, unclipped) in enumerate(pairs):
            if element in placed:
                continue
            if index is None:
                if unclipped is not None and side_words(numbered, unclipped) is None:
                    byte = byte_through(numbered, coordinates_of(numbered, unclipped), base, size)
                    self.left_out.append(("unclipped", maker, element, ", which it must skip", byte, size))
                continue
            coordinates = coordinates_of(numbered, index)
            words = ", which it must discard" + side_words(numbered, index)
            byte = byte_through(numbered, coordinates, base, size)
            self.left_out.append(("outside", maker, element, words, byte, size))
            if numbered["mode"] != CONSTANT:
                inside = [coordinate_of(numbered, c, n, False) for c, n in zip(coordinates, sizes)]
                byte = byte_through(numbered, inside, base, size)
                self.left_out.append(("clamped", maker, element, words, byte, size))

    def cast_shadows(self):
        """By byte and mistake: the first element that would have gone there, behind the last store."""
        for mistake, maker, element, words, byte, size in self.left_out:
            if byte < 0 or byte + size > len(self.memory):
                continue
            for i in range(byte, byte + size):
                if i not in self.origins or self.origins[i][0] <= maker["step"]:
                    self.shadows.setdefault(i, {}).setdefault(mistake, (maker, element, words))

    def fill(self, number, register, rows, columns, kind, value):
        self.registers[register] = (kind, rows, columns, [value] * (rows * columns))
        self.give(register, number, "fill", rows, columns, "")

    def load(self, number, register, object, layout, view, base):
        kind, rows, columns, elements = self.registers[register if object == NONE else object]
        from_zeros = object == NONE and self.sheet["edition"] >= ZEROS_EDITION
        elements, size = [0] * len(elements) if from_zeros else list(elements), SIZES[kind]
        self.registers[register] = (kind, rows, columns, elements)
        for element, skipped, byte in self.addresses(register, layout, view, base, False):
            if byte is not None:
                elements[element] = int.from_bytes(self.memory[byte:byte + size], "little")
            elif not skipped:
                elements[element] = self.sheet["layouts"][layout]["value"] % (1 << 8 * size)
        words = [load_words(self.sheet["layouts"][layout], index) for index in self.indices(register, layout, view)]
        self.give(register, number, "load", rows, columns, words)

    def store(self, number, register, layout, view, base):
        kind, rows, columns, elements = self.registers[register]
        size = SIZES[kind]
        if any(d["block"] > 1 for d in self.sheet["layouts"][layout]["dimensions"]):
            raise Refused
        seen = set()
        placed = []
        for element, _, byte in self.addresses(register, layout, view, base, True):
            if byte is not None:
                if byte in seen:
                    raise Refused
                seen.add(byte)
                placed.append((element, byte))
        maker = {"step": number, "name": "store", "register": register, "sides": (rows, columns)}
        for element, byte in placed:
            self.memory[byte:byte + size] = elements[element].to_bytes(size, "little")
            for i in range(size):
                self.origins[byte + i] = (number, register, element, element // columns, element % columns, i, size,
                                          self.makers[register])
        self.leave_out(maker, {element for element, _ in placed}, layout, view, base, size)

    def transpose(self, number, result, source):
        kind, rows, columns, elements = self.registers[source]
        turned = [elements[r * columns + c] for c in range(columns) for r in range(rows)]
        self.registers[result] = (kind, columns, rows, turned)
        self.give(result, number, "transpose", columns, rows, "")

    def number_at(self, byte, kind):
        if byte + SIZES[kind] > len(self.memory):
            raise Refused
        return value(kind, int.from_bytes(self.memory[byte:byte + SIZES[kind]], "little"))

    def vector(self, number, result, kind, source, interpretation, matrix, m, k, order, stride, offset, has_bias, bias):
        down, across = (stride, SIZES[matrix]) if order == ROW_MAJOR else (SIZES[matrix], stride)
        source_kind, _, _, elements = self.registers[source]
        vector = components(interpretation, k, source_kind, elements)
        sums = []
        for row in range(m):
            start = offset + row * down
            products = sum(self.number_at(start + column * across, matrix) * vector[column] for column in range(k))
            addend = self.number_at(bias + 4 * row, S32) if has_bias else 0
            sums.append((products + addend) % (1 << 32))
        self.registers[result] = (kind, m, 1, sums)
        words = f", with a matrix that is {'row' if order == ROW_MAJOR else 'column'}-major"
        words += " with a bias" if has_bias else ""
        packed = {PACKED_S8: "packed-s8", PACKED_U8: "packed-u8"}
        words += f" with an input as {packed[interpretation] if interpretation in packed else NAMES[interpretation]}"
        self.give(result, number, "vector", m, 1, words + f" with a matrix of {NAMES[matrix]}")

    def perform(self, number, step):
        getattr(self, step[0])(number, *step[1:])


# -- Random sheets ---------------------------------------------------------------------------------

def random_layout(rng):
    dimensions = [{"block": rng.choice([1, 1, 1, 2]), "size": rng.randint(1, 20), "stride": rng.randint(1, 40),
                   "offset": rng.randint(-3, 3), "span": rng.randint(1, 20)} for _ in range(rng.randint(1, 3))]
    if rng.random() < 0.7:  # one that stores can use: each element has bytes of its own, unless it lies outside
        stride = 1
        for dimension in reversed(dimensions):
            dimension.update(block=1, stride=stride, size=rng.randint(1, 8), span=rng.randint(4, 20))
            stride *= dimension["size"]
        dimensions[0]["span"] = 4096
    return {"mode": rng.choice([CONSTANT, CLAMP_TO_EDGE, REPEAT, MIRROR_REPEAT]), "value": rng.getrandbits(32),
            "dimensions": dimensions}


def random_view(rng):
    count = rng.randint(1, 3)
    permutation = rng.sample(range(count), count)
    own = [(rng.randint(1, 20), rng.randint(1, 20)) for _ in range(count)] if rng.random() < 0.3 else []
    clip = [rng.choice([0, 0, 1, 2]), rng.choice([3, 65535]), rng.choice([0, 0, 1, 2]), rng.choice([4, 65535])]
    return {"permutation": permutation, "dimensions": own, "clip": clip}


def random_vector(rng, machine, source):
    kind, rows, _, _ = machine.registers[source]
    packed = kind == U32 and rows <= 4 and rng.random() < 0.7
    has_bias = rng.randrange(2)
    return ("vector", rng.randrange(4), rng.choice([U32, S32]), source,
            rng.choice([PACKED_S8, PACKED_U8]) if packed else rng.randrange(6), rng.randrange(6),
            rng.randint(1, 16), 4 * rows - rng.randrange(4) if packed else rows, rng.choice([ROW_MAJOR, COLUMN_MAJOR]),
            rng.randint(0, 40), rng.randrange(len(machine.memory)),
            has_bias, rng.randrange(len(machine.memory)) if has_bias else 0)


def random_step(rng, machine):
    filled = list(machine.registers)
    vectors = [register for register in filled if machine.registers[register][2] == 1]
    names = ["load", "store", "store", "transpose", "fill"]
    if machine.sheet["edition"] >= VECTOR_EDITION and vectors:
        names += ["vector"] * 2
    name = rng.choice(names) if filled else "fill"
    if name == "vector":
        return random_vector(rng, machine, rng.choice(vectors))
    if name == "fill":
        kind = rng.randrange(6)
        return (name, rng.randrange(4), rng.randint(1, 16), rng.choice([1, rng.randint(1, 16)]), kind,
                rng.getrandbits(8 * SIZES[kind]))
    if name == "transpose":
        return (name, rng.randrange(4), rng.choice(filled))
    layout = rng.randrange(len(machine.sheet["layouts"]))
    view = rng.choice([NONE] + list(range(len(machine.sheet["views"]))))
    base = 16 * rng.randrange(len(machine.memory) // 16)
    if name == "load":
        register, object = rng.choice([(rng.choice(filled), NONE), (rng.randrange(4), rng.choice(filled))])
        return (name, register, object, layout, view, base)
    return (name, rng.choice(filled), layout, view, base)


def random_sheet(rng, memory):
    sheet = {"edition": rng.randint(1, LAST_EDITION), "layouts": [random_layout(rng) for _ in range(rng.randint(1, 4))],
             "views": [random_view(rng) for _ in range(rng.randint(0, 4))], "steps": []}
    wanted = rng.randint(1, 32)
    for _ in range(400):
        if len(sheet["steps"]) == wanted:
            break
        before = Machine(sheet, memory)
        for number, step in enumerate(sheet["steps"]):
            before.perform(number, step)
        step = random_step(rng, before)
        try:
            before.perform(len(sheet["steps"]), step)
            sheet["steps"].append(step)
        except Refused:
            pass
    return sheet


def long_sheet():
    """Nine stores of 128 runs each: more records than a tape may have, yet the sheet is carried out."""
    dimensions = [{"block": 1, "size": 2, "stride": 128, "offset": 0, "span": 2},
                  {"block": 1, "size": 128, "stride": 1, "offset": 0, "span": 128}]
    view = {"permutation": [1, 0], "dimensions": [], "clip": [0, 65535, 0, 65535]}
    stores = [("store", 0, 0, 0, 16 * i) for i in range(9)]
    return {"edition": 1, "layouts": [{"mode": CONSTANT, "value": 0, "dimensions": dimensions}], "views": [view],
            "steps": [("fill", 0, 16, 16, 0, 90)] + stores}


def field(tag, numbers):
    content = b"".join((n % (1 << 8 * w)).to_bytes(w, "little") for n, w in numbers)
    return bytes([tag]) + len(content).to_bytes(2, "little") + content


def sheet_bytes(sheet):
    out = field(0x01, [(sheet["edition"], 1)])
    for layout in sheet["layouts"]:
        numbers = [(len(layout["dimensions"]), 1), (layout["mode"], 1), (layout["value"], 4)]
        for d in layout["dimensions"]:
            numbers += [(d[key], 2) for key in ("block", "size", "stride", "offset", "span")]
        out += field(0x10, numbers)
    for view in sheet["views"]:
        numbers = [(len(view["permutation"]), 1), (1 if view["dimensions"] else 0, 1)]
        numbers += [(p, 1) for p in view["permutation"]] + [(n, 2) for pair in view["dimensions"] for n in pair]
        out += field(0x11, numbers + [(n, 2) for n in view["clip"]])
    tags = {"fill": (0x20, [1, 1, 1, 1, 4]), "load": (0x21, [1, 1, 1, 1, 4]), "store": (0x22, [1, 1, 1, 4]),
            "reduce": (0x23, [1, 1, 1, 1, 1, 1]), "transpose": (0x24, [1, 1]), "vector": (0x26, [1, 1, 1, 1, 1, 1, 1, 1, 2, 4, 1, 4])}
    for name, *numbers in sheet["steps"]:
        tag, widths = tags[name]
        out += field(tag, list(zip(numbers, widths)))
    return out


def registers_bytes(registers):
    types = b"".join(bytes([kind, rows, columns, 0]) for kind, rows, columns, _ in registers)
    return types + b"".join(b"".join(e.to_bytes(4, "little") for e in elements).ljust(1024, b"\0")
                            for _, _, _, elements in registers)


# -- What must be found ----------------------------------------------------------------------------

def counted(count, noun):
    return f"{count} {noun}{'' if count == 1 else 's'} differ{'s' if count == 1 else ''}"


def memory_words(machine, after):
    differing = [i for i in range(len(after)) if after[i] != machine.memory[i]]
    if not differing:
        return None

    def step(i):
        return machine.origins.get(i, (None,))[0]

    runs = sum(1 for i in differing if i - 1 not in differing or step(i) != step(i - 1))
    first = differing[0]
    words = f"byte {first} wants {machine.memory[first]:02X}, has {after[first]:02X}; "
    if first in machine.origins:
        number, register, element, row, column, byte, size, _ = machine.origins[first]
        words += f"step {number} store r{register}, element {element} ({row}, {column}), byte {byte} of {size}"
    else:
        words += "no step writes there"
    return words + f"; {counted(len(differing), 'byte')} in {runs} run{'' if runs == 1 else 's'}"


def shown_elements(machine, after, wanted=None, had=None):
    """Every element that memory, and registers if they are given, show: (step, element), its maker, what is said of
    it, the store that shows it, and whether it differs."""
    for i in range(len(after)):
        differs = after[i] != machine.memory[i]
        if i in machine.origins:
            number, _, element, _, _, _, _, maker = machine.origins[i]
            yield maker, element, maker["words"][element], number, differs
        else:
            for maker, element, words in machine.shadows.get(i, {}).values():
                yield maker, element, words, maker["step"], differs
    for register, maker in machine.makers.items() if wanted else []:
        for element, word in enumerate(maker["words"]):
            same_type = wanted[register][:3] == had[register][:3]
            differs = not same_type or wanted[register][3][element] != had[register][3][element]
            yield maker, element, word, None, differs


def lead_of(shown):
    """The words and the map of the earliest step that made an element that differs, or must leave one out."""
    shown = list(shown)
    differing = [(maker["step"], element, maker, words) for maker, element, words, _, differs in shown if differs]
    if not differing:
        return None, None
    step, element, maker, words = min(differing, key=lambda found: found[:2])
    rows, columns = maker["sides"]
    cells = ["."] * (rows * columns)
    for other, e, _, store, differs in shown:
        if other["step"] == step or (maker["name"] == "store" and store == step):
            cells[e] = "x" if differs or cells[e] == "x" else "="
    lead = (f"step {step} {maker['name']} r{maker['register']}, element {element} ({element // columns}, "
            f"{element % columns}){words}")
    return lead, ["".join(cells[r * columns:(r + 1) * columns]) for r in range(rows)]


def type_words(register):
    kind, rows, columns, _ = register
    return f"{rows} by {columns} of {NAMES[kind]}" if rows else "nothing"


def register_words(machine, wanted, had):
    differing = [i for i in range(4) if wanted[i] != had[i]]
    if not differing:
        return None
    first = differing[0]
    want, has = wanted[first], had[first]
    if want[:3] == has[:3]:
        kind, rows, columns, elements = want
        element = next(i for i in range(rows * columns) if elements[i] != has[3][i])
        words = (f"register {first}, element {element} ({element // columns}, {element % columns}) wants "
                 f"{value(kind, elements[element])}, has {value(kind, has[3][element])}")
    else:
        words = f"register {first} wants {type_words(want)}, has {type_words(has)}"
    if first in machine.givers:
        number, name = machine.givers[first]
        words += f"; step {number} {name} r{first}"
    else:
        words += "; no step gives it"
    return words + f"; {counted(len(differing), 'register')}"


def spoiled_memory(rng, machine):
    after = bytearray(machine.memory)
    stored = list(machine.origins)
    for _ in range(rng.choice([1, 1, 3, 10])):
        at = rng.choice(stored) if stored and rng.random() < 0.8 else rng.randrange(len(after))
        for i in range(at, min(len(after), at + rng.choice([1, 2, 7, 40]))):
            after[i] ^= rng.randint(1, 255)
    return bytes(after)


def spoiled_registers(rng, registers):
    had = [list(r) for r in registers]
    for i in rng.sample(range(4), rng.randint(1, 2)):
        kind, rows, columns, elements = had[i]
        if rows and rng.random() < 0.7:
            elements = list(elements)
            for _ in range(rng.choice([1, 4])):
                elements[rng.randrange(len(elements))] ^= rng.randrange(1, 1 << 8 * SIZES[kind])
            had[i] = [kind, rows, columns, elements]
        else:
            had[i] = [3, 1, 2, [5, 6]] if (kind, rows) != (3, 1) else [0, 0, 0, []]
    return [tuple(r) for r in had]


def main(folder, seed, count):
    rng = random.Random(seed)
    night = os.path.join(folder, "night")
    os.makedirs(night)
    cards = ["exact", "memory", "registers", "absent"]
    totals = {card: dict.fromkeys(VERDICTS, 0) for card in cards}
    lines, maps = [], {}

    def write(name, content):
        with open(os.path.join(night, name), "wb") as file:
            file.write(content)

    def say(name, card, verdict, words):
        totals[card][verdict] += 1
        word = {"agree": "agrees", "differ": "differs"}.get(verdict, verdict)
        lines.append((name, card, f"{name} {card} {word}{': ' if words else ''}{words}"))

    for number in range(count):
        name = f"sheet{number:04}"
        memory = rng.randbytes(rng.choice([512, 2048, 8192]))
        sheet = random_sheet(rng, memory) if number > 0 else long_sheet()
        machine = Machine(sheet, memory)
        for step_number, step in enumerate(sheet["steps"]):
            machine.perform(step_number, step)
        machine.cast_shadows()
        registers = [machine.registers.get(i, (0, 0, 0, [])) for i in range(4)]
        write(name + ".sheet", sheet_bytes(sheet))
        write(name + ".memory", memory)

        write(name + ".exact.after", machine.memory)
        write(name + ".exact.registers", registers_bytes(registers))
        say(name, "exact", "agree", "")

        after = spoiled_memory(rng, machine)
        write(name + ".memory.after", after)
        words = memory_words(machine, after)
        lead, found_map = lead_of(shown_elements(machine, after))
        say(name, "memory", "differ" if words else "agree", "; ".join(w for w in (lead, words) if w))
        if found_map:
            maps[f"{name} memory"] = found_map

        had = spoiled_registers(rng, registers)
        after = spoiled_memory(rng, machine) if rng.random() < 0.3 else machine.memory
        write(name + ".registers.after", after)
        write(name + ".registers.registers", registers_bytes(had))
        lead, found_map = lead_of(shown_elements(machine, after, registers, had))
        words = (lead, memory_words(machine, after), register_words(machine, registers, had))
        say(name, "registers", "differ", "; ".join(w for w in words if w))
        if found_map:
            maps[f"{name} registers"] = found_map

        kind = rng.randrange(3)
        if kind == 0:
            write(name + ".absent.after", machine.memory)
            say(name, "absent", "agree", "")
        elif kind == 1:
            say(name, "absent", "missing", f"{name}.absent.after")
        else:
            write(name + ".absent.after", machine.memory[:-1])
            say(name, "absent", "unreadable", f"{name}.absent.after: it has {len(memory) - 1} bytes, not the "
                f"memory's {len(memory)}")

    with open(os.path.join(folder, "report.txt"), "w") as file:
        for _, _, line in sorted(lines):
            print(line, file=file)
        print(file=file)
        for card in sorted(cards):
            print(f"{card}: " + ", ".join(f"{totals[card][v]} {v}" for v in VERDICTS), file=file)
        sums = {v: sum(totals[card][v] for card in cards) for v in VERDICTS}
        print(f"night: {count} sheets, {len(cards)} cards: " + ", ".join(f"{sums[v]} {v}" for v in VERDICTS), file=file)
    with open(os.path.join(folder, "maps.json"), "w") as file:
        json.dump(maps, file)


if __name__ == "__main__":
    if len(sys.argv) != 4:
        sys.exit("usage: night_oracle.py FOLDER SEED SHEETS")
    main(sys.argv[1], int(sys.argv[2]), int(sys.argv[3]))
