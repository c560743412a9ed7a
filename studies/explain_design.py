"""What is wrong with a line of a BLIF design, or with the signal, model or formal that a refusal names."""

import re
from collections import deque

import teramac_texts as texts
from explain_call import alike, counted, listed, printed, shown, stand, words_of

BLIF_WORDS = (".model", ".inputs", ".outputs", ".clock", ".names", ".latch", ".subckt", ".end", ".param", ".attr", ".cname")


def blif_lines(data):
    """The number and the words of each line of a BLIF text that is looked at, with the lines that are joined to it."""
    words, first = [], 0
    for number, line in enumerate(data.decode("utf-8", "surrogateescape").split("\n"), 1):
        line = line.split("#", 1)[0].translate(texts.BLANK).rstrip(" ")
        first = first or number
        words += words_of(line.removesuffix("\\"))
        if not line.endswith("\\"):
            if words and words[0] not in (".param", ".attr", ".cname"):
                yield first, words
            words, first = [], 0
    if words:
        yield first, words


def row_wrong(cover, rows, kind, words):
    """What is wrong with a row below a cover's line."""
    inputs = len(cover[1]) - 2
    where = f"the cover of line {cover[0]}, `{cover[1][-1]}`, has {counted(inputs, 'input')}"
    if kind == "rowmixed":
        return f"this row ends with {words[-1]}, and that of line {rows[0][0]}, of the same cover, with {rows[0][1][-1]}"
    if not inputs:
        return f"{where}, so its row is 0 or 1 alone, and here stands `{shown(' '.join(words))}`"
    if len(words) != 2:
        return f"{where}, so a row is two words, the inputs' and the output's, and here {'is' if len(words) == 1 else 'are'} {len(words)}"
    if len(words[0]) != inputs:
        return f"{where}, and the row's first word has {counted(len(words[0]), 'character')}"
    bad = next((mark for mark in words[0] if mark not in "01-"), "")
    return f"`{shown(bad)}` in the row is none of 0, 1 and -" if bad else f"the row ends with `{shown(words[1])}`, which is neither 0 nor 1"


def blif_word(words, before):
    """What is wrong with the number of words, or the place, of a line of BLIF."""
    if before and before[-1][1][0] == ".end":
        return f"behind .end (line {before[-1][0]}) only a further .model may stand, and here stands `{shown(words[0])}`"
    match words[0]:
        case ".latch":
            return f".latch takes 2 to 5 words (INPUT OUTPUT re CONTROL INIT), and {stand(len(words) - 1)}"
        case ".model":
            return f"a model has one name, and {stand(len(words) - 1)}"
        case ".names":
            return ".names has no name behind it; the last one is the output"
        case ".subckt":
            bad = next((word for word in words[2:] if not re.fullmatch("[^=]+=.+", word, re.S)), "")
            return f"`{shown(bad)}` isn't FORMAL=ACTUAL" if bad else ".subckt names no model"
        case ".end":
            return ".end stands alone"
    last = before[-1] if before else (0, [""])
    return f"a row may stand only below .names, and above stands `{shown(' '.join(last[1]))}` (line {last[0]})"


def latch_wrong(kind, words, before):
    """What is wrong with the words of a latch."""
    if kind == "latchtype":
        return f"`{words[3]}` is a latch of another type than re; let yosys run dfflegalize and dffunmap (docs/BLIF.md)"
    if kind == "latchinit":
        return f"the initial value `{shown(words[-1])}` is none of 0, 1, 2 and 3"
    others = [(at, line[4]) for at, line in before if line[0] == ".latch" and len(line) > 4 and line[4] not in ("NIL", words[4])]
    earlier = f": line {others[0][0]} has {others[0][1]}, this line {words[4]}" if others else ""
    return f"a second control{earlier}; a design has one clock (docs/BLIF.md says what helps)"


def blif_limit(words):
    """Which limit a line passes."""
    if long := next((word for word in words if len(word.encode("utf-8", "surrogateescape")) > 255), ""):
        return f"the name {long[:40]}.. has more than 255 bytes"
    if words[0] == ".names" and len(words) > 258:
        return f"this cover has {len(words) - 2} inputs, and at most 256 may be"
    is_row = not words[0].startswith(".")
    return "this is the 4,097th row of its cover, and 4,096 may be" if is_row else "a model has at most 65,535 signals"


def formals_of(lines, model):
    """The names of a model's inputs, outputs and clocks."""
    found, inside = [], False
    for _, words in lines:
        inside = words[1:] == [model] if words[0] == ".model" else inside
        found += words[1:] if inside and words[0] in (".inputs", ".outputs", ".clock") else []
    return found


def within(name):
    """Of a signal inside an instance, what stands before its own name."""
    place, _, own = name.rpartition("/")
    if not re.fullmatch("[0-9]+(/[0-9]+)*", place):
        return ""
    return f"; {place}/ before {own} is the way there, of .subckt lines counted from 0 in their models"


def drivers(lines):
    """The number of the line and the signal of each input, cover and latch."""
    for number, words in lines:
        names = words[1:] if words[0] == ".inputs" else words[-1:] if words[0] == ".names" else words[2:3] if words[0] == ".latch" else []
        yield from ((number, name) for name in names)


def circle(design, name):
    """The covers on a cycle, each of which reads the next, from the one with this name on."""
    reads = {printed(output): [printed(source) for source in names] for names, output, _, _ in design.covers}
    came, waiting = {}, deque([name])
    while waiting:
        at = waiting.popleft()
        for source in reads.get(at, ()):
            if source == name:
                found = [at]
                while found[-1] != name:
                    found.append(came[found[-1]])
                return [*reversed(found), name]
            if source not in came:
                came[source] = at
                waiting.append(source)
    return [name]


def named_wrong(call, role, number, kind, name):
    """What is wrong with a signal, model or formal that the refusal names."""
    lines = list(blif_lines(call.data(role)))
    models, of = [words[1] for _, words in lines if words[0] == ".model" and len(words) > 1], dict(lines).get(number, ["", ""])
    match kind:
        case "nosuchmodel":
            cell = "; it is a cell of yosys: synth, dfflegalize (docs/BLIF.md)" if name.startswith("$") else alike(name, models)
            return f"no model of the file is called `{name}`; they are {listed(models)}{cell}"
        case "formal":
            given = [word.split("=", 1)[0] for word in of[2:]]
            formals = formals_of(lines, of[1])
            wrong = "is no input, output or .clock of it" if name not in formals else "stands twice here"
            return f"of the model {of[1]} `{name}` {wrong if name in given else 'is not given, and each input has to be'}"
        case "recursive":
            return f"through this line, which uses {name}, its own model is used again: a model may not use itself"
        case "doubled":
            others = [f"line {at}" for at, signal in drivers(lines) if signal == name and at != number]
            return f"`{name}` is driven a second time here" + (f", first in {others[0]}" if others else "") + within(name)
        case "undriven":
            hint = within(name) or alike(name, [signal for _, signal in drivers(lines)]) or "; in yosys setundef -undriven -zero"
            return f"no .inputs, .names or .latch gives a value to `{name}`{hint}"
        case "cyclic":
            cycle = circle(texts.read_design(call.data(role)), name)
            return f"covers read each other in a circle without a latch: {listed(cycle[:1] + [f'reads {each}' for each in cycle[1:]], 20)}"
    return None


def design_wrong(call, role, number, kind, names):
    """What is wrong with a line of a design."""
    if names:
        return named_wrong(call, role, number, kind, names[0])
    lines = list(blif_lines(call.data(role)))
    words = dict(lines).get(number, [""])
    start = max((at for at, line in lines if line[0] == ".model" and at < number), default=0)
    before = [(at, line) for at, line in lines if start <= at < number]
    covers = [(at, line) for at, line in before if line[0].startswith(".")]
    is_row = bool(covers) and covers[-1][1][0] == ".names" and not words[0].startswith(".")
    match kind:
        case "nomodel":
            first = f"the first line here is `{shown(' '.join(words))}`" if words[0] else "this file is empty"
            return f"a BLIF file begins with .model, and {first}"
        case "row" | "rowmixed" | "word" if is_row:
            return row_wrong(covers[-1], [line for line in before if line[0] > covers[-1][0]], kind, words)
        case "word":
            return blif_word(words, before)
        case "leftout":
            return f"{words[0]} isn't read; let yosys map to .names and .latch (docs/BLIF.md)"
        case "unknown":
            return f"`{shown(words[0])}` is no word of BLIF{alike(words[0], BLIF_WORDS)}"
        case "samemodel":
            first = next(at for at, line in lines if line[0] == ".model" and line[1:] == words[1:])
            return f"line {first} begins a model `{words[1]}` already"
        case "latchtype" | "latchinit" | "control":
            return latch_wrong(kind, words, before)
        case "limit":
            whole = "flattened, the design has more than 65,535 signals, 65,535 instances or 16,777,216 characters of rows"
            return blif_limit(words) if number else whole
    return None
