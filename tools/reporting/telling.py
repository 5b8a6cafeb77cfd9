"""The call that tells a stack from the others of a list, of those that are not the system's."""
import bisect
import collections
import functools
import itertools
import re

# Modules whose calls say little about who leaks: of Windows, in its kernel and in its programs, and of Linux.
SYSTEM = (
    "nt,ntoskrnl,ntkrnlmp,hal,win32k,win32kbase,win32kfull,fltmgr,wdf01000,ntdll,KERNELBASE,kernel32,user32,win32u,wow64,wow64cpu,wow64win,"
    "ucrtbase,msvcrt,vcruntime140,verifier,vrfcore,vfbasics,libc.so.6,libc,libpthread.so.0,libpthread,ld-linux-x86-64.so.2,ld,"
    "ld-musl-x86_64.so.1,[vdso]"
)


# What a module's name can have at its end: its base, where the debugger has another module of this name too, as the ntdll of 32-bit
# programs (ntdll_77dc0000); or its version, as files of the C library before glibc 2.34 (libc-2.31.so).
ENDING = re.compile(r"(?:_[0-9a-f]{8,16}|-2\.\d+\.so)$")
# What the line of a stack shows of its calls: at most one each.
Line = collections.namedtuple("Line", "before telling caller")


class System:
    """The modules whose calls lines leave out. Their letters may be of either case."""

    def __init__(self, modules):
        self.modules = {module.strip().lower() for module in modules.split(",")}
        self.has, self.own = functools.lru_cache(None)(self.has), functools.lru_cache(None)(self.own)  # (most stacks are in many lists)

    def has(self, name):
        """Whether a call is of one of these."""
        module, mark, _ = name.partition("!")
        return bool(mark) and (module.lower() in self.modules or ENDING.sub("", module.lower()) in self.modules)

    def own(self, names):
        """The calls of a stack that are not of these, or all of them where there are no others."""
        if "!" not in "".join(names):
            return names
        return tuple(itertools.filterfalse(self.has, names)) or names


class Apart:
    """The lines of a list of stacks. That of a stack shows the first call in which it differs from all the others, of those that a line
    shows. Before it stands the innermost of these, or where stacks differ in other calls alone, such a call; else its caller comes behind
    it. A page shows few stacks of a long list, so lines are made where they are shown."""

    def __init__(self, stacks, system):
        self.system, self.shared = system, shared_by(stacks)
        self.all_have = set(self.shared)
        self.begun, self.groups = collections.defaultdict(list), {}
        path = self.path if self.shared else system.own
        for names in stacks:
            self.begun[first_of(path(names))].append(names)
        self.line = functools.lru_cache(None)(self.line)

    def path(self, names):
        """The calls that a line shows: neither the system's nor those that all stacks have, but where there are no others."""
        own = self.system.own(names)
        return tuple(itertools.filterfalse(self.all_have.__contains__, own)) or own

    def group(self, first):
        """The stacks whose paths begin with a call, by their paths, and these in an order in which those are neighbours that begin most
        alike."""
        if first not in self.groups:
            alike = collections.defaultdict(list)
            for names in self.begun[first]:
                alike[self.path(names)].append(names)
            self.groups[first] = alike, sorted(alike)
        return self.groups[first]

    def line(self, names):
        path = self.path(names)
        alike, ordered = self.group(first_of(path))
        at = depth_in(sorted(alike[path]), names) if len(alike[path]) > 1 else 0
        return line_of(path, max(depth_in(ordered, path) - 1, 0), names[at - 1 : at])


def first_of(path):
    return path[0] if path else None


def depth_in(ordered, path):
    """How many names of a path, from its first one on, tell it from all the others of a list; all of them where another begins as it does."""
    place = bisect.bisect_left(ordered, path)
    neighbours = ordered[max(place - 1, 0) : place] + ordered[place + 1 : place + 2]
    return min(1 + max((common_of(path, other) for other in neighbours), default=0), len(path))


def common_of(path, other):
    """How many names two paths have in common, from their first one on."""
    for at, (name, its) in enumerate(zip(path, other)):
        if name != its:
            return at
    return min(len(path), len(other))


def line_of(path, at, other):
    """The line of the stacks of a path, which the call at a place tells from others, and another call from stacks of the same path."""
    before = [name for name in other + path[: min(at, 1)] if name != path[at]][:1]
    return Line(before, path[at : at + 1], [] if before else path[at + 1 : at + 2])


def shared_by(stacks):
    """The calls that all stacks have, where there are several stacks, in the order of the first."""
    first = next(iter(stacks), ())
    common = set(first) if len(stacks) > 1 else set()
    for names in stacks:
        common.intersection_update(names)
        if not common:
            break
    return [name for name in dict.fromkeys(first) if name in common]
