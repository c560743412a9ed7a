#!/usr/bin/env python3
"""Says of the last line of a command what it means in the files at hand: which word, how many columns, which limit, which nets.

The line stands before the words of the command or its files, as in: explain.py 'refused vectors 1 width' eval lfsr.blif lfsr.vec;
or the command is run, as in: explain.py teramac eval lfsr.blif lfsr.vec; or its output comes by a pipe, as in:
teramac eval lfsr.blif lfsr.vec | explain.py eval lfsr.blif lfsr.vec. The last two pass the output on, and speak on the standard error.
"""

import argparse
import os
import re
import shutil
import subprocess
import sys

import teramac_texts as texts
from explain_call import COMMANDS, Call, alike, counted, numbered_words, program_of, shown
from explain_design import design_wrong
from explain_room import in_doubt, noroom
from explain_texts import ENTRIES, FAULT_FORMS, READERS
from program import DEFAULT, MAPPER, PORT

BUILT = {"teramac": DEFAULT, "teramac_map": MAPPER, "teramac_port": PORT}
FILES = {
    "machine": "a machine", "rig": "a fault file", "defects": "a list of defects", "image": "an image", "design": "a design",
    "vectors": "a vector file", "rows": "the rows of a command", "refused": "the output of a command that was refused",
}  # fmt: skip
FIRST_WORDS = {"teramac": "machine", "defects": "defects", ".model": "design", "outputs": "rows", "refused": "refused"}
TAIL = 4_194_304  # a last line is at most so long


def words_wrong(call):
    """What is wrong with the words of a command."""
    if call.program == "teramac_map":
        return f"teramac_map takes a DESIGN alone, or MACHINE DEFECTS DESIGN, and not {counted(len(call.words), 'word')}"
    if not call.command:
        first = call.words[0] if call.words else ""
        return f"`{first}` is no command; commands are {', '.join(COMMANDS)}{alike(first, COMMANDS)}"
    wanted = COMMANDS[call.command].split()
    given = len(call.words) - 1
    if given != len(wanted):
        verb = "was" if given == 1 else "were"
        return f"`{call.command}` takes {counted(len(wanted), 'word')} ({' '.join(wanted).upper()}), and {given} {verb} given"
    if word := next((word for word in call.words if word.startswith("-")), ""):
        return f"`{word}` begins with -, and there are no options; of a file with this name write ./{word}"
    number = call.words[1]
    return f"`{number}` is no number from 0 to 4,294,967,295 without leading zeros" if call.command == "bench" else "the words look right"


def file_wrong(role, path):
    """Why a file can't be read, or None."""
    if not os.path.exists(path):
        return f"the {role} file {path} isn't there"
    if os.path.isdir(path):
        return f"{path}, the {role} file, is a directory"
    return None if os.access(path, os.R_OK) else f"{path}, the {role} file, may not be read"


def rig_wrong(call):
    """Why a rig failed."""
    name = call.roles.get("rig", "")
    if call.program == "teramac_port":
        return f"the port {name} can't be opened, or what is behind it doesn't answer as docs/PORT.md says"
    if re.fullmatch("@0[0-9]+", name):
        return f"{name} is a file's name, since a number has no leading zeros"
    if re.fullmatch("@[0-9]+", name) and int(name[1:]) > 4_294_967_295:
        return f"{name} is a file's name, since numbers go to 4,294,967,295"
    wrong = None if re.fullmatch("@[0-9]+|", name) else file_wrong("fault", name)
    return wrong or "no fault file is missing here, so the rig itself failed"


def kind_of(head):
    """What a file is by its first word, or ''."""
    if head.startswith(b"TERAIMG1"):
        return "image"
    word = next((words[0] for _, words in numbered_words(head)), "")
    vectors = "vectors" if re.fullmatch("[01.]+", word) else ""
    return FIRST_WORDS.get(word) or ("rig" if word in FAULT_FORMS else vectors)


def other_file(call, role, number, kind):
    """What is wrong with a file as a whole, seen at its first bytes; or None."""
    path, head = call.roles[role], call.data(role, 65_536)
    if number > next((at for at, _ in numbered_words(head)), 1):
        return None
    if head.startswith(b"\xef\xbb\xbf"):
        return f"{path} begins with a byte order mark (UTF-8 with BOM), three bytes that are no text here: tail -c +4 OLD > NEW"
    if head.startswith((b"\xff\xfe", b"\xfe\xff")):
        return f"{path} was saved as UTF-16: iconv -f UTF-16 -t UTF-8 OLD > NEW"
    if kind not in ("word", "nomodel", "magic", "char"):
        return None
    is_one, wanted = kind_of(head), "design" if role in ("first", "second") else role
    if is_one in ("", wanted):
        return None
    order = f"; the words of `{call.command}` are {COMMANDS[call.command].upper()}" if call.command else ""
    begins = "doesn't begin as an image: it " if role == "image" else ""
    first = f"; its first line is `{shown(call.line(role, 1))}`" if is_one == "refused" else order
    return f"{path} {begins}is {FILES[is_one]}, where {FILES[wanted]} is wanted{first}"


def text_wrong(call, file, number, kind, names):
    """What is wrong with a line of a text, or a byte of an image."""
    role = {"faults": "rig"}.get(file, file)
    if role not in call.roles:
        wanted = "words of pair" if file in ("first", "second") else f"{file} file"
        return f"give the {wanted} after the line, to hear more of line {number}"
    size = os.path.getsize(call.roles[role])
    if kind == "limit" and not number and role != "vectors":
        most = call.machine.limits.text if role in ("rig", "defects") else texts.FILE_LIMIT
        if size > most:
            return f"the file has {size:,} bytes, and at most {most:,} are read"
    if other := other_file(call, role, number, kind):
        return other
    if kind == "byte":
        bad = re.search(r"[\x00-\x08\x0b\x0c\x0e-\x1f\x7f]", call.line(role, number).split("#", 1)[0])
        hint = "; is this a text, and not UTF-16?" if bad and bad[0] == "\0" else ""
        return f"the byte {ord(bad[0])} at place {bad.start() + 1} of the line may not stand in a text{hint}" if bad else None
    return READERS[role](call, number, kind) if role in READERS else design_wrong(call, role, number, kind, names)


def explain(line, words, written=b""):
    """A sentence or two about the last line of a command, of whose output this much is known."""
    call = Call(words, written)
    match line.split():
        case ["refused", "words"]:
            return words_wrong(call)
        case ["refused", "store"]:
            found = filter(None, (file_wrong(role, path) for role, path in call.roles.items() if role not in ("rig", "number")))
            return next(found, "every file can be read, so the output failed: is the disk full, or the pipe closed?")
        case ["refused", "rig"]:
            return rig_wrong(call)
        case ["refused", "noroom", _, _, need, have, *_] as found if need.isdigit() and have.isdigit():
            return noroom(call, found[2:])
        case ["refused", "memory"]:
            return "memory was wanting: close what else runs, or take a smaller machine"
        case ["refused", "differ"]:
            return (
                "the two copies of the design read differently, so the machine has changed since it was diagnosed: give the command again,"
                " and it lays them around what is broken now; the rows above are right if one copy was sound up to there"
            )
        case ["refused", file, number, kind, *names] if number.isdigit():
            return text_wrong(call, file, int(number), kind, names) or f"docs/FORMATS.md says what `{kind}` of {file} is"
        case ["doubt", ("wire" | "cross" | "table") as kind, *names] if len(names) == ENTRIES[kind]:
            return in_doubt(call, kind, names)
        case ["sound"]:
            return "the image reads the same as on a machine without faults"
    return "no line of a refusal; these begin with `refused`, or of check with `doubt`"


def said_of(line, words, written=b""):
    """What is to be said of a line, also where a file can't be read that tells it."""
    try:
        return explain(line, words, written)
    except (OSError, texts.Refused, ValueError) as error:
        return f"{line}: no more can be said, since a file that tells it can't be read ({error})"
    except (LookupError, StopIteration, TypeError):
        return f"{line}: no more can be said, since these aren't the files of which the line was written"


def passed_on(source):
    """Copies an output to the standard output; the first bytes of it and the last line."""
    head, tail = bytearray(), b""
    while block := source.read1(65_536):
        sys.stdout.buffer.write(block)
        sys.stdout.buffer.flush()
        head += block[: texts.FILE_LIMIT - len(head)]
        tail += block
        tail = tail[tail.rfind(b"\n", 0, -1) + 1 :][-TAIL:]
    return bytes(head), tail.removesuffix(b"\n").decode("utf-8", "surrogateescape")


def say_last(line, words, written):
    """Says on the standard error what a last line means, if it is one of refusal or doubt."""
    if line.startswith(("refused ", "doubt ")):
        print(said_of(line, words, written), file=sys.stderr)


def run(words):
    """Runs a command, passes its output and its status on, and says what its last line means."""
    built = BUILT.get(words[0], "")
    path = words[0] if "/" in words[0] else built if os.path.exists(built) else shutil.which(words[0])
    if not path:
        sys.exit(f"{words[0]}: it stands neither built here nor on the path")
    try:
        with subprocess.Popen([path, *words[1:]], stdout=subprocess.PIPE) as process:
            written, line = passed_on(process.stdout)
    except (FileNotFoundError, PermissionError) as error:
        sys.exit(f"{path}: {error.strerror}")
    if process.returncode > 0 or line.startswith("doubt "):
        say_last(line, words, written)
    sys.exit(process.returncode if process.returncode >= 0 else f"{path}: ended by signal {-process.returncode}")


def main():
    parser = argparse.ArgumentParser(description=__doc__, formatter_class=argparse.RawDescriptionHelpFormatter)
    parser.add_argument("words", nargs="*", metavar="WORD", help="the last line and the command's words; or a command; or its words")
    if sys.argv[1:2] in (["-h"], ["--help"]) or (len(sys.argv) < 2 and sys.stdin.isatty()):
        parser.print_help()
        return
    words = sys.argv[1:]
    try:
        if words[:1] in (["refused"], ["doubt"]):
            sys.exit("the line is one word of this command: put it in quotes")
        if words and (words[0] == "sound" or " " in words[0] and not os.path.exists(words[0])):
            print(said_of(words[0], words[1:]))
        elif program_of(words):
            run(words)
        elif sys.stdin.isatty():
            sys.exit("nothing comes by a pipe; give the last line before these words, or teramac to run them")
        else:
            written, line = passed_on(sys.stdin.buffer)
            say_last(line, words, written)
    except BrokenPipeError:
        os.dup2(os.open(os.devnull, os.O_WRONLY), sys.stdout.fileno())
        sys.exit(5)


if __name__ == "__main__":
    main()
