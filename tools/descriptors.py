"""What the tools share that read logs of Linux's calls: which descriptors each process has open, as events of handles."""
import argparse
import collections
import heapq
import itertools
import re
import tempfile

import logs
from logs import NO_STACK, Fault, Stack

GREATEST_DESCRIPTOR, GREATEST_PROCESS = (1 << 29) - 2, 0xFFFFFFFF
STANDARD = range(3)
MOST_DIGITS, OCTAL = 24, re.compile(r"-?0[0-7]+$")
MOST_OLDER = 1024  # descriptors that a program has from before the log, at the most that is believed
IN_MEMORY = 1 << 24  # bytes that are kept in memory before they go to a temporary file

# The flag by which a call's descriptor closes at the next exec: the place of its argument, and its bit. Some always close so, or never.
Flag = collections.namedtuple("Flag", "argument bit")
CLOEXEC, NEVER, ALWAYS = 0o2000000, None, True
# The calls of which the result is a descriptor.
GIVES = {
    "open": Flag(1, CLOEXEC),
    "openat": Flag(2, CLOEXEC),
    "openat2": Flag(2, CLOEXEC),
    "open_by_handle_at": Flag(2, CLOEXEC),
    "creat": NEVER,
    "socket": Flag(1, CLOEXEC),
    "accept": NEVER,
    "accept4": Flag(3, CLOEXEC),
    "dup": NEVER,
    "eventfd": NEVER,
    "eventfd2": Flag(1, CLOEXEC),
    "epoll_create": NEVER,
    "epoll_create1": Flag(0, CLOEXEC),
    "inotify_init": NEVER,
    "inotify_init1": Flag(0, CLOEXEC),
    "timerfd_create": Flag(1, CLOEXEC),
    "signalfd": NEVER,
    "signalfd4": Flag(3, CLOEXEC),
    "memfd_create": Flag(1, 1),
    "memfd_secret": Flag(0, CLOEXEC),
    "pidfd_open": ALWAYS,
    "pidfd_getfd": ALWAYS,
    "io_uring_setup": ALWAYS,
    "mq_open": ALWAYS,
    "perf_event_open": Flag(4, 8),
    "userfaultfd": Flag(0, CLOEXEC),
    "fanotify_init": Flag(0, 1),
    "fsopen": Flag(1, 1),
    "fsmount": Flag(1, 1),
    "fspick": Flag(2, 1),
    "open_tree": Flag(2, CLOEXEC),
    "landlock_create_ruleset": ALWAYS,
}
CLONES = ("clone", "clone3", "fork", "vfork")
# The calls that count when they begin: what they close can be given out again, and whom they begin can call, before they end.
EARLY = {*CLONES, "close", "close_range", "dup2", "dup3"}
# The calls that act on descriptors, for strace.
CALLS = (*GIVES, *sorted(EARLY), "pipe", "pipe2", "socketpair", "recvmsg", "recvmmsg", "fcntl", "fcntl64", "ioctl", "execve", "execveat", "unshare")
# The arguments that are descriptors, of calls of which it isn't the first one alone.
DESCRIPTORS = {
    "dup2": (0, 1),
    "dup3": (0, 1),
    "epoll_ctl": (0, 2),
    "mmap": (4,),
    "sendfile": (0, 1),
    "splice": (0, 2),
    "tee": (0, 1),
    "copy_file_range": (0, 2),
    "linkat": (0, 2),
    "renameat": (0, 2),
    "renameat2": (0, 2),
    "symlinkat": (1,),
}
# The errors of a close that closes.
CLOSED_ALL_THE_SAME = ("EINTR", "EIO", "ENOSPC", "EDQUOT")

# What a call does. A descriptor that is opened is of a file of this name; a copy of one of which the log has a name has this one.
Opened = collections.namedtuple("Opened", "descriptor at_exec name copy_of", defaults=(None, None))
LowestOpened = collections.namedtuple("LowestOpened", "at_exec name")  # the lowest one that is free, since the log doesn't say which
Replaced = collections.namedtuple("Replaced", Opened._fields, defaults=(None, None))
Closed = collections.namedtuple("Closed", "descriptor")
RangeClosed = collections.namedtuple("RangeClosed", "first last")
Marked = collections.namedtuple("Marked", "first last at_exec")
Cloned = collections.namedtuple("Cloned", "child is_thread shares_files")
Executed = collections.namedtuple("Executed", "")
Unshared = collections.namedtuple("Unshared", "")
Ended = collections.namedtuple("Ended", "")
Bad = collections.namedtuple("Bad", "descriptors")

Open = collections.namedtuple("Open", "at_exec stack name")


def value(text):
    """A number of a log, as C writes it. One with too many digits is above all that a call has."""
    if len(text) > MOST_DIGITS:
        return 1 << 64
    return int(text, 16 if "x" in text else 8 if OCTAL.match(text) else 10)


class Call:
    """A call: its line, its moment in microseconds (or 0), its thread, the thread's process where the log has it, and once it has ended what it does and its stack."""

    __slots__ = ("line", "moment", "thread", "process", "place", "end", "is_whole", "acts", "stack")

    def __init__(self, line, moment, thread):
        self.line, self.moment, self.thread, self.process = line, moment, thread, None
        self.place, self.end, self.is_whole, self.acts, self.stack = line, None, False, (), NO_STACK


class InOrder:
    """Calls in the order in which they count. Those that count when they begin wait until all of them is known."""

    def __init__(self, take):
        self.take = take
        self.waiting = []

    def wait(self, call):
        """A call counts from its place on."""
        heapq.heappush(self.waiting, (call.place, call))

    def go_on(self):
        """Takes the calls up to the first one that isn't known whole."""
        while self.waiting and self.waiting[0][1].is_whole:
            call = heapq.heappop(self.waiting)[1]
            if not self.take(call):
                call.place = call.end
                self.wait(call)

    def finish(self):
        """Takes all calls. Those that haven't ended do nothing."""
        for _, call in self.waiting:
            call.is_whole = True
        self.go_on()


class Table:
    """The open descriptors of a process, or of several that share them: their events are those of the first one. Some may be open that are
    older than the log: since the lowest free one is given out, all below one that is given out are open."""

    def __init__(self, process, older=(), seen=len(STANDARD)):
        self.process = process
        self.sharing = {process}
        self.open = {}
        self.older, self.seen = set(older), seen

    def learn(self, descriptor):
        """One was given out. Whether those below it are open wasn't known before of those above the greatest one that was."""
        if descriptor - self.seen < MOST_OLDER:
            self.older.update(it for it in range(self.seen, descriptor) if it not in self.open)
        self.older.discard(descriptor)
        self.seen = max(self.seen, descriptor + 1)

    def lowest(self):
        """The lowest one that is free."""
        return next(it for it in itertools.count(len(STANDARD)) if it not in self.open and it not in self.older)

    def among(self, first, last):
        """The open descriptors from the first to the last one."""
        if last - first < len(self.open):
            return [it for it in range(first, last + 1) if it in self.open]
        return sorted(it for it in self.open if first <= it <= last)


class Segments:
    """The text form of events, which is written segment by segment."""

    def __init__(self, file, given):
        self.file, self.given = file, given
        self.number, self.events, self.most = logs.first_number(given), [], 0

    def add(self, line, stack):
        self.events.append(f"{line}\n{stack.text}")
        self.most = max(self.most, stack.frames)
        if len(self.events) == logs.MOST_EVENTS:
            self.finish()

    def finish(self):
        """Writes what isn't written yet."""
        if self.events:
            self.file.write(logs.head_of(self.number, self.most, self.given))
            self.file.writelines(self.events)
            self.number, self.events, self.most = self.number + 1, [], 0


class Notes:
    """What is to be said once all is written: of each kind of it the first, and how many more there are."""

    def __init__(self):
        self.first, self.counts = {}, collections.Counter()

    def add(self, kind, text):
        self.first.setdefault(kind, text)
        self.counts[kind] += 1

    def lines(self):
        for kind, text in self.first.items():
            more = self.counts[kind] - 1
            yield text + (f" ({more} more such)" if more else "")


class Descriptors:
    """The descriptors of all processes, and the events of their handles."""

    def __init__(self, given, segments, names):
        self.given, self.segments, self.names = given, segments, names
        self.notes, self.counts = Notes(), collections.Counter()
        self.process_of, self.threads, self.tables, self.ended = {}, {}, {}, set()
        self.sequence, self.first_moment = 0, 0
        self.ways = {
            Opened: self.opened,
            LowestOpened: self.lowest_opened,
            Replaced: self.replaced,
            Closed: self.closed,
            RangeClosed: self.range_closed,
            Marked: self.marked,
            Cloned: self.cloned,
            Executed: self.executed,
            Unshared: self.unshared,
            Ended: self.end,
            Bad: self.bad,
        }

    def sees(self, moment):
        """Sequences count from the first moment of a log, or with --number by the log's clock: those of a further log are above then."""
        if self.given.number is None:
            self.first_moment = self.first_moment or moment

    def take(self, call):
        """Does what a call does. A close of what isn't open yet isn't done where an open may end before it does: then it is false."""
        process = self.process(call)
        table = self.tables[process]
        for act in call.acts:
            if isinstance(act, Closed) and act.descriptor not in table.open and call.place < call.end:
                return False
            self.ways[type(act)](call, table, act)
        return True

    def process(self, call):
        """The process of a call's thread. One that the log doesn't begin has one thread, or is the one that the user names."""
        process = self.process_of.get(call.thread)
        if process not in self.tables:  # (its number was given out again, where the log doesn't have its end)
            process = None
        if process is None and call.process is not None:
            process = call.process
            self.begin(process)
            self.join(call.thread, process)
        elif process is None:
            process = call.thread if self.given.process is None else self.given.process
            if self.tables and self.given.process is None:
                text = f"line {call.line}: no call before it begins {process}: what it has from its parent isn't known, or it is a thread"
                self.notes.add("begin", text + ", for --process")
            self.begin(process)
            self.join(call.thread, process)
        return process

    def begin(self, process):
        if process not in self.tables:
            self.threads[process], self.tables[process] = set(), Table(process)

    def join(self, thread, process):
        self.process_of[thread] = process
        self.threads[process].add(thread)

    def emit(self, kind, call, process, handle="", stack=NO_STACK):
        """Writes an event, at its microsecond of the log or later."""
        self.sequence = max(self.sequence + 1, call.moment - self.first_moment + 1)
        self.counts[kind] += 1
        self.segments.add(f"{kind}{handle} seq={self.sequence} process={process} thread={call.thread}", stack)

    def emit_of(self, kind, call, table, descriptor, stack):
        self.emit(kind, call, table.process, f" handle=0x{4 * (descriptor + 1) & 0xFFFFFFFF:x}", stack)

    def is_shown(self, descriptor):
        return descriptor not in STANDARD or self.given.std

    def put(self, call, table, descriptor, entry):
        """Opens a descriptor."""
        if not 0 <= descriptor <= GREATEST_DESCRIPTOR:
            raise Fault(call.line, f"{descriptor} is no descriptor that can be open")
        if descriptor in table.open:
            self.notes.add("again", f"line {call.line}: descriptor {descriptor} is opened while it is open: its close isn't in the log, or came at the same time as its open")
        table.open[descriptor] = entry
        if self.is_shown(descriptor):
            self.emit_of("OPEN", call, table, descriptor, entry.stack)
            if entry.name:
                self.names.write(f"{self.sequence},{logs.quoted(entry.name)}\n")

    def opened(self, call, table, act):
        name = act.name
        if act.copy_of is None:
            table.learn(act.descriptor)
        elif act.copy_of in table.open:
            name = table.open[act.copy_of].name
        self.put(call, table, act.descriptor, Open(act.at_exec, call.stack, name))

    def lowest_opened(self, call, table, act):
        descriptor = table.lowest()
        self.notes.add("lowest", f"line {call.line}: the log doesn't say that {act.name} gave {descriptor}, the lowest one that was free")
        self.put(call, table, descriptor, Open(act.at_exec, call.stack, act.name))

    def replaced(self, call, table, act):
        if act.descriptor != act.copy_of:
            if act.descriptor in table.open:
                self.drop(call, table, act.descriptor, call.stack)
            self.opened(call, table, act)

    def drop(self, call, table, descriptor, stack=NO_STACK):
        """Closes a descriptor."""
        table.open.pop(descriptor, None)
        table.older.discard(descriptor)
        if self.is_shown(descriptor):
            self.emit_of("CLOSE", call, table, descriptor, stack)

    def closed(self, call, table, act):
        """Closes a descriptor, which may be older than the log."""
        self.drop(call, table, act.descriptor, call.stack)

    def range_closed(self, call, table, act):
        for each in table.among(act.first, act.last):
            self.drop(call, table, each, call.stack)
        table.older = {it for it in table.older if not act.first <= it <= act.last}

    def marked(self, call, table, act):
        for each in table.among(act.first, act.last):
            table.open[each] = table.open[each]._replace(at_exec=act.at_exec)

    def inherit(self, call, process, table):
        """Gives a process a table of its own, with what is open in another one."""
        self.tables[process], first = Table(process, table.older, table.seen), Call(call.line, call.moment, process)
        for descriptor, entry in sorted(table.open.items()):
            self.put(first, self.tables[process], descriptor, entry)

    def cloned(self, call, table, act):
        process = self.process_of[call.thread]
        if act.is_thread:
            self.join(act.child, process)
            return
        if act.child in self.ended:
            self.notes.add("number", f"line {call.line}: process {act.child} ended before, and begins anew with nothing open")
            self.emit("EXIT", call, act.child)
        self.process_of[act.child], self.threads[act.child] = act.child, {act.child}
        if act.shares_files:
            self.tables[act.child] = table
            table.sharing.add(act.child)
        else:
            self.inherit(call, act.child, table)

    def unshared(self, call, table, _):
        process = self.process_of[call.thread]
        if len(table.sharing) > 1:
            table.sharing.discard(process)
            self.inherit(call, process, table)

    def executed(self, call, table, act):
        """Another program: it has a table of its own, from which some descriptors go, and its other threads have ended."""
        self.unshared(call, table, act)
        process = self.process_of[call.thread]
        own = self.tables[process]
        for descriptor in sorted(it for it, entry in own.open.items() if entry.at_exec):
            self.drop(call, own, descriptor)
        own.older, own.seen = set(), len(STANDARD)  # (those that close at exec aren't known)
        for thread in self.threads[process] - {call.thread}:
            self.process_of.pop(thread, None)
        self.threads[process] = {call.thread}

    def end(self, call, table, _):
        """A thread ends, and with its last one its process."""
        process = self.process_of.pop(call.thread)
        self.threads[process].discard(call.thread)
        if not self.threads[process]:
            if self.given.exits:
                self.emit("EXIT", call, process)
            del self.threads[process], self.tables[process]
            table.sharing.discard(process)
            self.ended.add(process)

    def bad(self, call, table, act):
        """A call with a descriptor that isn't open: the first one of these that isn't known to be open."""
        for descriptor in act.descriptors:
            if descriptor not in table.open:
                self.emit_of("BAD REF", call, table, descriptor, call.stack)
                return


class Frames:
    """The addresses of frames. Where a log has offsets in files, each file has addresses of its own."""

    def __init__(self):
        self.files, self.names = {}, logs.Names()
        self.known, self.stacks = {}, {}  # the texts of frames by their lines, and stacks by theirs

    def file(self, path):
        """The first address of a file's own."""
        return self.files.setdefault(path, (len(self.files) + 1) << 40)

    def stack(self, texts, line, new_frame):
        """The stack of the frames that stand before a line, as these lines. Each that wasn't there before is read by a call, which gives the
        empty text for one that isn't shown."""
        lines = "".join(texts)
        if lines not in self.stacks:
            for place, text in enumerate(texts, line - len(texts)):
                if text not in self.known:
                    self.known[text] = new_frame(place, text.rstrip("\r\n"))
            if len(self.stacks) >= logs.MOST_TEXTS:
                self.stacks.clear()
            frames = [shown for shown in map(self.known.get, texts) if shown][: logs.MOST_FRAMES]
            self.stacks[lines] = Stack("".join(frames), len(frames))
        return self.stacks[lines]


def process(text):
    """A process that the user names."""
    value = int(text)
    if not 0 <= value <= GREATEST_PROCESS:
        raise argparse.ArgumentTypeError("above 0xffffffff, or below 0")
    return value


def arguments(about, about_names):
    """A parser of arguments, for a tool that is described so."""
    parser = logs.arguments_of_log(about, about_names)
    parser.add_argument("--exits", action="store_true", help="write the ends of processes, which close all that they have open")
    parser.add_argument("--std", action="store_true", help="with descriptors 0 to 2, which are left out otherwise")
    about_process = "the process of the threads that the log doesn't begin, as those of one that ran before; each is one where it is left out"
    parser.add_argument("--process", type=process, metavar="N", help=about_process)
    return parser


def spool():
    return tempfile.SpooledTemporaryFile(IN_MEMORY, "w+", encoding="utf-8", newline="")


def pieces_of(spool):
    """What was kept, in pieces."""
    spool.seek(0)
    return iter(lambda: spool.read(1 << 20), "")


def convert(given, read, text, names):
    """Reads a log. The text of its segments and the names are kept in files."""
    segments, frames = Segments(text, given), Frames()
    names.write("sequence,name\n")
    descriptors = Descriptors(given, segments, names)
    read(given.log, frames, descriptors)
    segments.finish()
    if not descriptors.counts:
        raise Fault(None, f"{given.log}: no call in it opens or closes a descriptor")
    notes = [*descriptors.notes.lines(), *logs.notes_of_trace(given, segments.number - logs.first_number(given))]
    return logs.Made(pieces_of(text), notes, frames.names, pieces_of(names))


def run(tool, read, given):
    """Reads a log into descriptors, and writes what is to be written. The status is that of logs.run."""
    with spool() as text, spool() as names:
        return logs.run(tool, lambda _: convert(given, read, text, names), given)
