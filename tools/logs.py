"""What the tools that read logs of the debugger share: the text of a log, its faults, the names of addresses, the text form of
segments, and what is written where."""
import argparse
import codecs
import collections
import gc
import io
import itertools
import re
import sys

from hleaklib import arguments, write

GREATEST = 2**64 - 1
GREATEST_NUMBER = 2**32 - 2
MOST_EVENTS, MOST_FRAMES, MOST_FRAMES_OF_VERSION_1 = 4096, 64, 32
BLOCK = 1 << 20  # letters of a log that are read at once
MOST_TEXTS = 20_000  # of stacks, as a log has them, that are kept to be found again
HEADER = ("start", "end", "module", "name")
# a prompt of the kernel's or of a user program's debugger, as `0: kd>` and `0:004>`
PROMPT = re.compile(r"\s*(?:(?:\d+:\s*)?l?kd|\d+:\d+(?::[\w.]+)?)>\s*(.*)$", re.I)

Row = collections.namedtuple("Row", HEADER)
Name = collections.namedtuple("Name", "start module name")
Stack = collections.namedtuple("Stack", "text frames")  # the lines of its frames, and how many they are
NO_STACK = Stack("", 0)
# What a tool makes: the pieces of its text, the notes, the names of addresses, and the pieces of a table of names.
Made = collections.namedtuple("Made", "text notes symbols names", defaults=(None, None))


class Fault(Exception):
    """A line, from 1, and why it can't be read; or None and why the log can't be taken."""


def open_log(path):
    """The lines of a log, each with its end. The debugger and PowerShell can write UTF-16."""
    file = open(path, "rb")
    begins = file.peek(2)[:1000]
    is_wide = begins[:2] in (codecs.BOM_UTF16_LE, codecs.BOM_UTF16_BE)
    for form, place in ("UTF-16LE", 1), ("UTF-16BE", 0):
        if not is_wide and len(begins) > 1 and not begins[place::2].strip(b"\0"):
            file.close()
            raise Fault(1, f"the log is in UTF-16 without a byte order mark: convert it, as 'iconv -f {form} -t UTF-8' does")
    return io.TextIOWrapper(file, "utf-16" if is_wide else "utf-8-sig", errors="replace", newline="\n")


def blocks_of(path):
    """The text of a log in blocks of whole lines, each with the number of its first line, from 1. Their ends are line feeds."""
    with open_log(path) as file:
        yield from blocks_in(file)


def blocks_in(file):
    line = 1
    while text := file.read(BLOCK):
        text = (text + file.readline()).replace("\r\n", "\n")
        yield line, text
        line += text.count("\n")


def numbered(line, text):
    """The lines of a text, each with its end, and their numbers from this one on."""
    return enumerate(io.StringIO(text, newline="\n"), line)


def lines_of(path):
    """The numbered lines of a file, without their ends."""
    with open_log(path) as file:
        return list(enumerate(re.split(r"\r*\n", file.read()), 1))


def number(line, digits, most=GREATEST):
    """The value of hexadecimal digits, between which the debugger may write a backquote."""
    value = int(digits.replace("`", ""), 16)
    if value > most:
        raise Fault(line, f"0x{value:x} is above 0x{most:x}")
    return value


def runs_of(events):
    """Events in runs, each as long as a segment may be."""
    events = iter(events)
    while run := list(itertools.islice(events, MOST_EVENTS)):
        yield run


def head_of(number, most, given):
    """The line that a segment begins with, whose events have at most so many frames."""
    version = 2 if most > MOST_FRAMES_OF_VERSION_1 else 1
    return f"segment version={version} trace=0x{given.trace_id:016x} processors=1 processor=0 number={number}\n"


def segments(runs, given):
    """The text form of segments, one by one, with these runs of events in the order of their sequences. An event is a line and its stack."""
    for number, run in enumerate(runs, first_number(given)):
        head = head_of(number, max(stack.frames for _, stack in run), given)
        yield head + "".join([f"{line}\n{stack.text}" for line, stack in run])


class Names:
    """The names of addresses. Of two at one address the first stays, but a module alone is no name where there is one."""

    def __init__(self):
        self.names = {}
        self.others = []

    def add(self, line, address, name):
        first = self.names.setdefault(address, name)
        if first != name and name.name:
            if first.name:
                self.others.append(f"line {line}: {text_of(address, name)} was {text_of(address, first)} before, which stays its name")
            else:
                self.names[address] = name

    def notes(self):
        return [self.others[0] + more(self.others)] if self.others else []

    def rows(self):
        """A row for each name, from its start to behind the greatest address that has it. Where another name's addresses lie
        between, an address has a row of its own, and the offset is part of the name: so it is shown as the log has it."""
        rows = []
        for address, (start, module, name) in sorted(self.names.items()):
            end = min(address + 1, GREATEST)
            if rows and (rows[-1].start, *rows[-1][2:]) == (start, module, name):
                rows[-1] = rows[-1]._replace(end=end)
            elif not rows or rows[-1].end <= start:
                rows.append(Row(start, end, module, name))
            else:
                rows.append(Row(address, end, module, f"{name}+0x{address - start:x}"))
        return [row for row in rows if row.start < row.end]


def text_of(address, name):
    """An address as an answer shows it."""
    offset = address - name.start
    return f"{name.module}!{name.name}" + (f"+0x{offset:x}" if offset else "")


def quoted(text):
    """A field of a symbol table."""
    return '"' + text.replace('"', '""') + '"' if re.search('[,"\r\n]', text) else text


def table_of(rows):
    """The text of a symbol table."""
    lines = [f"0x{row.start:x},0x{row.end:x},{quoted(row.module)},{quoted(row.name)}\n" for row in rows]
    return ",".join(HEADER) + "\n" + "".join(lines)


def names_table_of(key, names):
    """The text of a table of what opens or objects are of, by their sequences or addresses."""
    return f"{key},name\n" + "".join(f"{its},{quoted(name)}\n" for its, name in sorted(names.items()))


def more(places):
    """How many places there are behind the first one."""
    return f" ({len(places) - 1} more such)" if len(places) > 1 else ""


def whole(most):
    """A reader of numbers up to a greatest one: as the debugger writes them, with 0x, or in decimal digits."""

    def read(text):
        value = int(text, 16 if text[:2].lower() == "0x" else 10)
        if not 0 <= value <= most:
            raise argparse.ArgumentTypeError(f"above 0x{most:x}, or below 0")
        return value

    read.__name__ = "number"  # (for argparse's message about what isn't one)
    return read


def first_number(given):
    """The number of the first segment."""
    return given.number or 0


def notes_of_trace(given, segments):
    """Says which number a further log of the trace begins with, behind so many segments, where several logs seem to be wanted."""
    if given.number is not None:
        yield f"a further log of this trace goes on with --number {given.number + segments}"


def segments_of(events):
    """How many segments have so many events."""
    return -(-events // MOST_EVENTS)


def arguments_of_log(about, about_names):
    """The same for one that makes the text of segments, a symbol table, and a table of names of one log."""
    parser = arguments(about)
    parser.add_argument("--symbols", metavar="NAMES.csv", help="write the names in the log to this file, as a symbol table")
    parser.add_argument("--names", metavar="FILES.csv", help=about_names)
    about = "the trace's id, 1 where it is left out: the same for all logs of one boot"
    parser.add_argument("--trace-id", type=whole(GREATEST), default=1, metavar="ID", help=about)
    about = "the number of the first segment, 0 where it is left out: for a further log of one trace, one above those before"
    parser.add_argument("--number", type=whole(GREATEST_NUMBER), metavar="N", help=about)
    parser.add_argument("log", metavar="LOG")
    return parser


def say(tool, text):
    """Prints a line on standard error, with what a terminal would take for more than text shown by its escapes."""
    shown = "".join(letter if letter.isprintable() else ascii(letter)[1:-1] for letter in text)
    print(f"{tool}: {shown}", file=sys.stderr)


def run(tool, work, given):
    """Makes what is to be written, writes it where all went well, and then the notes. The status is 0, 3 for a fault of a log, and 5 for
    one of files."""
    gc.disable()  # (nothing that the tools make refers to itself, and there is much of it to look at)
    try:
        made = work(given)
        notes = list(made.notes)
        if made.symbols and given.symbols:
            write([table_of(made.symbols.rows())], given.symbols)
            notes += made.symbols.notes()
        if made.names and given.names:
            write(made.names, given.names)
        write(made.text, given.output)
    except Fault as fault:
        line, why = fault.args
        say(tool, f"line {line}: {why}" if line else why)
        return 3
    except OSError as error:
        say(tool, f"{error.filename or 'output'}: {error.strerror}")
        return 5
    for note in notes:
        say(tool, f"note: {note}")
    return 0
