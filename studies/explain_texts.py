"""What is wrong with a line of a machine, of faults, of a list of defects or of vectors, or with a byte of an image."""

import re
from itertools import islice

import teramac_texts as texts
from explain_call import alike, counted, listed, numbered_words, printed, shown, stand

FAULT_FORMS = {
    "stuck0": "WIRE", "stuck1": "WIRE", "open": "TAP LINE", "closed": "TAP LINE", "cell": "TABLE ADDRESS VALUE",
    "register": "TABLE VALUE", "bridge": "WIRE WIRE",
}  # fmt: skip
ENTRIES = {"wire": 1, "cross": 2, "table": 1}
PLACES = {"ports": " (of a module, a chip and a hextant)", "lines": " (of the root, a module, a chip and a hextant)"}
COUNTS = ("modules", "chips", "hextants", "tables", "ports of a module", "ports of a chip", "ports of a hextant")
COUNTS += ("lines of the root", "lines of a module", "lines of a chip", "lines of a hextant", "pins")


def machine_limit(data):
    """Which limit the counts of a machine pass."""
    form, *counts = [int(word) for _, words in numbered_words(data) for word in words[1:]][:13]
    found = texts.passed_limits(counts, texts.SMALL if form == 1 else texts.LARGE)
    more = "; with `teramac 2` as its first line it is taken" if form == 1 and texts.are_within_limits(counts) else ""
    return "its counts give " + "; ".join(f"{count:,} {name}, and at most {most:,} may be" for name, count, most in found) + more


def machine_wrong(call, number, kind):
    """What is wrong with a line of a machine."""
    lines = numbered_words(call.data("machine"))
    words = dict(lines).get(number, [""])
    before, due = [line[0] for at, line in lines if at < number or not number], list(texts.MACHINE_WORDS)
    match kind:
        case "limit":
            return machine_limit(call.data("machine"))
        case "missing" if not lines:
            return "the file is empty"
        case "missing":
            return f"the file ends where `{due[len(before)]}` is due; the last line of a machine is `end`"
        case "after":
            return f"behind `end` only blanks and comments may stand, and here stands `{shown(words[0])}`"
        case "order":
            again = ", and stands above already" if words[0] in before else ""
            return f"`{words[0]}` stands where `{due[len(before)]}` is due{again}; the order is {', '.join(due)}"
        case "word" if words[0] not in due:
            return f"`{shown(words[0])}` is no word of a machine, and `{due[len(before)]}` is due{alike(words[0], due)}"
        case "word" if words[0] == "teramac" and len(words) == 2:
            return f"`teramac {shown(words[1])}` isn't known; the first line is `teramac 1`, or `teramac 2` for a larger machine"
        case "word":
            takes = counted(texts.MACHINE_WORDS[words[0]] - 1, "number")
            return f"`{words[0]}` takes {takes}{PLACES.get(words[0], '')}, and {stand(len(words) - 1)}"
        case "number":
            bad = next((word for word in words[1:] if not texts.numeral(word, 65_535)), "")
            return f"`{shown(bad)}` is no number from 1 to 65,535 without leading zeros"
    return None


# Names of parts.


def name_wrong(known, words):
    """Which of some names is none of these, or None."""
    parts = {".".join(name.split(".")[:end]) for name in known for end in range(1, name.count(".") + 2)}
    for word in words:
        if word in known:
            continue
        pieces = word.split(".")
        heads = [".".join(pieces[:end]) for end in range(1, len(pieces) + 1)]
        first = next((head for head in heads if head not in parts), "")
        kinds = re.escape(first.rstrip("0123456789")) + "[0-9]+"
        last = max((part for part in parts if first and re.fullmatch(kinds, part)), key=lambda part: (len(part), part), default="")
        return f"`{shown(word)}` is no part of this machine" + (f"; the last of its kind there is {last}" if last else "")
    return None


def parts_wrong(machine, kind, words):
    """What is wrong with the names of a wire, a crosspoint or a table."""
    known, other = (machine.table_numbers, machine.numbers) if kind == "table" else (machine.numbers, machine.table_numbers)
    if word := next((word for word in words if word in other), ""):
        return f"`{word}` is a " + ("wire and no table" if kind == "table" else f"table; its wires are {word}.i0 to .i5 and {word}.q")
    if wrong := name_wrong(known, words):
        return wrong
    exchanged = len(words) == 2 and machine.number("cross", words[::-1]) is not None
    return f"the tap comes first and then the line: {' '.join(words[::-1])}" if exchanged else "only taps of its own node cross a line"


# Faults.


def fault_place(words):
    """What an entry is about, alike for the entries that are doubled or against each other."""
    if words[0] == "bridge":
        return "bridge", frozenset(words[1:])
    group = {"stuck0": "stuck", "stuck1": "stuck", "open": "cross", "closed": "cross"}.get(words[0], words[0])
    return group, *(words[1:-1] if words[0] in ("cell", "register") else words[1:])


def faults_word(words):
    """What is wrong with the words of an entry."""
    if words[0] not in FAULT_FORMS:
        return f"`{shown(words[0])}` is no kind of fault; kinds are {', '.join(FAULT_FORMS)}{alike(words[0], FAULT_FORMS)}"
    form = FAULT_FORMS[words[0]]
    return f"`{words[0]}` takes {counted(len(form.split()), 'word')} ({form}), and {stand(len(words) - 1)}"


def faults_wrong(call, number, kind):
    """What is wrong with a line of a fault file."""
    lines = numbered_words(call.data("rig"))
    words = dict(lines).get(number, [""])
    match kind:
        case "word":
            return faults_word(words)
        case "wire":
            return parts_wrong(call.machine, "wire", words[1:])
        case "cross":
            return parts_wrong(call.machine, "cross", words[1:])
        case "cell" | "register":
            if words[1] not in call.machine.table_numbers:
                return parts_wrong(call.machine, "table", words[1:2])
            if kind == "cell" and texts.numeral(words[2], 63) is None:
                return f"the address `{shown(words[2])}` is none of 0 to 63, the addresses of a table"
            return f"the value `{shown(words[-1])}` is neither 0 nor 1"
        case "same":
            return f"a bridge joins two wires, and both words are {words[1]}"
        case "doubled" | "against":
            at, first = next((at, line) for at, line in lines if fault_place(line) == fault_place(words))
            return f"line {at} says {'the same' if kind == 'doubled' else 'the other value of the same part'}: {' '.join(first)}"
        case "limit" if number:
            return f"{call.machine.limits.faults:,} entries stand before this line, and no more may be"
    return None


# Lists of defects.


def defects_word(data, number, line):
    """What is wrong with the spelling of a line of a list."""
    lines = data.decode("utf-8", "surrogateescape").split("\n")
    if "\r" in line:
        return "the line ends with CR LF, as editors of Windows write it; a list of defects has LF alone: tr -d '\\r' < OLD > NEW"
    if not data:
        return "the file is empty; a list of no defects has three lines: defects 1, shape with the twelve counts, end"
    if number == len(lines):
        return f"the last line, `{shown(line)}`, ends without LF" if line else "the list ends without the line `end`"
    if number < 3:
        wanted = "first line is `defects 1`" if number == 1 else "second line is `shape` and the twelve counts, with single blanks"
        return f"the {wanted}, and not `{shown(line)}`"
    words = line.split()
    if "#" in line or not words or " ".join(words) != line:
        return f"`{shown(line)}` isn't spelled as in a list of defects: single blanks, no comments, no empty lines"
    if words[0] not in ENTRIES:
        entries = "entries are wire WIRE, cross TAP LINE and table TABLE"
        return f"`{shown(words[0])}` is no word of a list of defects; {entries}{alike(words[0], [*ENTRIES, 'end'])}"
    return f"`{words[0]}` takes {counted(ENTRIES[words[0]], 'name')}, and {stand(len(words) - 1)}"


def defects_doubled(machine, data, number):
    """Which earlier line has an entry, or a wire of it."""
    lines = data.decode("utf-8", "surrogateescape").split("\n")
    kind, *names = lines[number - 1].split(" ")
    if lines[number - 1] in lines[: number - 1]:
        return f"line {lines.index(lines[number - 1]) + 1} is the same"
    wires = [machine.names[wire] for wire in machine.wires_of(kind, machine.number(kind, names))]
    wire = next((wire for wire in wires if f"wire {wire}" in lines[: number - 1]), "")
    what = "a table with a listed pin" if kind == "table" else "a crosspoint with a listed wire"
    return f"{wire} stands in line {lines.index(f'wire {wire}') + 1} already, and {what} isn't listed again" if wire else None


def defects_wrong(call, number, kind):
    """What is wrong with a line of a list of defects."""
    line, before = call.line("defects", number), call.line("defects", number - 1)
    words = line.split(" ")
    match kind:
        case "word":
            return defects_word(call.data("defects"), number, line)
        case "machine":
            return f"the list is for {' '.join(words[1:])}, the machine {' '.join(map(str, call.machine.counts))}"
        case "name":
            return parts_wrong(call.machine, words[0], words[1:])
        case "order" if words[0] != before.split(" ")[0]:
            return f"`{words[0]}` comes behind `{before.split(' ')[0]}`: wires stand first, then crosspoints, then tables"
        case "order":
            numbers = [call.machine.number(words[0], each.split(" ")[1:]) for each in (line, before)]
            return f"`{line}` has the number {numbers[0]}, and stands behind `{before}`, which has {numbers[1]}: numbers ascend"
        case "doubled":
            return defects_doubled(call.machine, call.data("defects"), number)
        case "after":
            rows = ", and rows stand there: take the output of diagnose, not of go or pair" if line == "outputs" else ""
            return f"behind the line `end` nothing may stand{rows}"
    return None


# Vectors.


def inputs_of(call):
    """Whose inputs the columns of vectors are, and their names: of an image its pins'."""
    if "image" in call.roles:
        return "image", [call.machine.names[pin] for pin in texts.read_image(call.machine, call.data("image")).inputs]
    found = call.designs
    names = [printed(name) for design in found for name in design.inputs]
    return "designs together" if len(found) > 1 else "design" if found else "", names


def vectors_wrong(call, number, kind):
    """What is wrong with a line of vectors."""
    line = call.line("vectors", number).split("#", 1)[0]
    if kind not in ("width", "char"):
        return "the file has more than 1,099,511,627,776 bytes" if kind == "limit" else None
    whose, names = inputs_of(call)
    places = [place for place, mark in enumerate(line) if mark not in " \t\r"]
    if kind == "width":
        due = f"and the {whose} {counted(len(names), 'input')}: {listed(names)}" if whose else "give the design to hear how many are due"
        return f"this line has {counted(len(places), 'column')}, {due}"
    right = "01" if names or not whose else "."
    column, place = next((column, place) for column, place in enumerate(places) if line[place] not in right)
    if right == ".":
        return f"the {whose} has no inputs, so a vector is a lone `.`, and here stands `{shown(line[place])}`"
    where = f" (of the input {names[column]})" if column < len(names) else ""
    return f"column {column + 1}{where}, byte {place + 1} of the line, is `{shown(line[place])}`, and only 0 and 1 may stand there"


# Images.


def image_fields(data):
    """Place, name, number of bytes and value of each field, up to the first that isn't there whole."""
    at, values = 0, {}

    def field(name, size):
        nonlocal at
        start, at = at, at + size
        values[name] = int.from_bytes(data[start:at], "big") if at <= len(data) else 0
        return start, name, size, values[name]

    names = ["the word TERAIMG1", *COUNTS, "the number of ticks", "the number of inputs", "the number of outputs"]
    yield from (field(name, 8 if name == names[0] else 2) for name in names)
    for whose in ("input", "output"):
        yield from (field(f"the pin of {whose} {k}", 2) for k in range(values[f"the number of {whose}s"]))
    yield field("the number of tables", 2)
    for k in range(values["the number of tables"]):
        yield from (field(f"the {name} of table entry {k}", size) for name, size in (("number", 2), ("flags", 1), ("cells", 8)))
    yield field("the number of crosspoints", 4)
    yield from (field(f"crosspoint entry {k}", 4) for k in range(values["the number of crosspoints"]))


def image_range(machine, name, value):
    """Which values a field may have, as words."""
    tables, crosses = machine.sizes["table"], machine.sizes["cross"]
    for start, least, most in (
        ("the number of ticks", 1, machine.limits.ticks),
        ("the pin", 0, len(machine.pins) - 1),
        ("the number of tables", 0, tables),
        ("the number of table", 0, tables - 1),
        ("the flags", 0, 3),
        ("the number of crosspoints", 0, min(machine.limits.closed, crosses)),
        ("crosspoint", 0, crosses - 1),
    ):
        if name.startswith(start):
            return f"{name}: {value:,} stands there, and {least} to {most:,} may on this machine"
    return None


def image_whole(data):
    """How many bytes an image has by its own counts, if these are there."""
    place, value = next(((at, value) for at, name, _, value in image_fields(data) if name == "the number of crosspoints"), (len(data), 0))
    return place + 4 + 4 * value if place + 4 <= len(data) else None


def image_wrong(call, place, kind):
    """What is wrong with the byte at a place of an image."""
    data = call.data("image")
    name, size, value = next((field[1:] for field in image_fields(data) if field[0] + field[2] > place), ("", 0, 0))
    match kind:
        case "magic":
            return "the file doesn't begin as an image: its first eight bytes aren't TERAIMG1"
        case "shape":
            counts = [str(field[3]) for field in islice(image_fields(data), 1, 13)]
            machine = list(map(str, call.machine.counts))
            number = machine[COUNTS.index(name)]
            return f"the image is for {' '.join(counts)}, the machine {' '.join(machine)}: {name} are {value} and {number}"
        case "range":
            return image_range(call.machine, name, value)
        case "order" if name.startswith("the pin"):
            return f"{name}: {value} stands there, and an input or output before it has this pin"
        case "order":
            return f"{name}: {value} stands there, and isn't above the one before it"
        case "short" if not data:
            return "the file is empty"
        case "short":
            whole = image_whole(data)
            wants = f", and by its own counts it has {whole:,}" if whole else ""
            return f"the file ends within {name}: {len(data):,} bytes are there{wants}; was it cut off?"
        case "after":
            return f"by its own counts the image has {place:,} bytes, and the file has {len(data):,}"
        case "limit" if len(data) <= texts.FILE_LIMIT:
            closed = next(value for _, name, _, value in image_fields(data) if name == "the number of crosspoints")
            return f"the image closes {closed:,} crosspoints, and repair takes at most {call.machine.limits.repaired:,}"
    return None


READERS = {"machine": machine_wrong, "rig": faults_wrong, "defects": defects_wrong, "image": image_wrong, "vectors": vectors_wrong}
