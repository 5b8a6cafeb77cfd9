"""What the tools beside this file share: names of frames, of opens and of objects, texts and their faults, arguments, what is
written where, and how a tool ends."""
import argparse
import os
import re
import sys

BAD_INPUT, UNREADABLE = 3, 5  # the statuses of hleak for them
MOST_DIGITS = 20  # of a sequence
MOST_WORKERS = 4
OBJECT = re.compile(r"0x[0-9a-f]{1,16}$", re.I)
# What a table of names can be by, and what is said of a row that isn't one.
KINDS_OF_NAMES = {"sequence": "not a sequence in decimal and a name", "object": "not an object, as 0xffffa00000001000, and a name"}


def workers():
    """The option that says how many threads read the files: one for a processor, up to 4."""
    return f"--workers={min(os.cpu_count() or 1, MOST_WORKERS)}"


class Fault(Exception):
    """A place, as a file and its line, and why what stands there can't be taken."""


def name_of(frame, with_offset=True):
    """A frame of an answer as JSON, as the texts of answers have it. In a module without names the offset is all that tells calls apart."""
    if "name" not in frame:
        return frame["address"]
    offset = f"+0x{frame['offset']:x}" if frame["offset"] and (with_offset or not frame["name"]) else ""
    return f"{frame['module']}!{frame['name']}{offset}"


def is_sequence(text):
    return text.isascii() and text.isdigit() and len(text) <= MOST_DIGITS


def lines_of(path):
    """The numbered lines of a text file, each with its place for a fault."""
    with open(path, "rb") as file:
        data = file.read()
    try:
        text = data.decode("utf-8-sig")
    except UnicodeDecodeError as error:
        before = data[: error.start]
        raise Fault(f"{path}, line {before.count(10) + 1}", "not a text in UTF-8") from None
    for line, words in enumerate(text.split("\n"), 1):
        yield f"{path}, line {line}", words.rstrip("\r")


def key_of(kind, text):
    """The sequence of an open, or the address of an object as answers have it; or None where it is neither."""
    if kind == "sequence":
        return int(text) if is_sequence(text) else None
    return f"0x{int(text, 16):016x}" if OBJECT.match(text) else None


def names_of(path):
    """What opens are of by their sequences, or objects by their addresses: a table of names, as --names of other tools writes it."""
    import csv  # (few runs have a table, and it takes as long to load as much else)

    rows, names = csv.reader((words + "\n" for _, words in lines_of(path)), strict=True), {}
    try:
        kind, *others = next(rows, None) or [""]
        if kind not in KINDS_OF_NAMES or others != ["name"]:
            raise Fault(f"{path}, line 1", "the first line is neither sequence,name nor object,name: is it a table of --names?")
        for row in filter(None, rows):
            key = key_of(kind, row[0]) if len(row) == 2 else None
            if key is None:
                raise Fault(f"{path}, line {rows.line_num}", KINDS_OF_NAMES[kind])
            if key in names:
                raise Fault(f"{path}, line {rows.line_num}", f"the {kind} {key} stands twice")
            names[key] = row[1]
    except csv.Error as error:
        raise Fault(f"{path}, line {rows.line_num}", f"not a row of a table: {error}") from None
    return names


def write(texts, path=None):
    """Writes texts one after the other to a file, or to standard output."""
    if path is None:
        for text in texts:
            sys.stdout.buffer.write(text.encode())
        sys.stdout.flush()
    else:
        with open(path, "w", encoding="utf-8", newline="") as file:
            file.writelines(texts)


def arguments(about):
    """A parser of arguments, for a tool that is described so."""
    parser = argparse.ArgumentParser(description=about, formatter_class=argparse.RawDescriptionHelpFormatter)
    parser.add_argument("-o", metavar="FILE", dest="output", help="write to this file in place of standard output, and only where all went well")
    return parser


def ended(tool, act):
    """The status of a tool. A fault, a file that can't be read and an output that is gone are one line on standard error."""
    sys.stdout.reconfigure(encoding="utf-8", errors="backslashreplace")  # names are such, whatever the terminal is
    try:
        status = act()
        sys.stdout.flush()
        return status
    except Fault as fault:
        print(f"{tool}: {': '.join(fault.args)}", file=sys.stderr)
        return BAD_INPUT
    except Ended as ended_with:
        return ended_with.args[0]
    except OSError as error:
        print(f"{tool}: {error.filename or 'output'}: {error.strerror}", file=sys.stderr)
        if not error.filename:
            os.dup2(os.open(os.devnull, os.O_WRONLY), sys.stdout.fileno())  # what is left is flushed once more at the end
        return UNREADABLE


class Ended(Exception):
    """The program ended in the middle of a dialogue, with this status. It has said why."""
