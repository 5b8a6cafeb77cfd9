"""Stacks by the names of their calls: those of many rows of answers, added up."""
import functools
import heapq
import json
import sys

MOST_STACKS, MOST_FRAMES = 20_000, 500_000  # that are kept to be found again

# What stands before a row's stack, how its JSON begins, and what is before each next frame, and before how far within its function a call
# is. Within a string the quotes would be escaped.
STACK, FIRST, NEXT, OFFSET = b',"stack":', b'[{"address":"', b'},{"address":"', b',"offset":'
NO_NAME = b'"name":""'
NEXT_ADDRESS = '"},{"address":"'  # behind a frame without a name


def frames_of(text):
    """The frames of a stack by its JSON: of each the JSON behind its first quotes."""
    return text[len(FIRST) : -2].split(NEXT) if text != b"[]" else []


def has_names(text):
    """Whether a call of a stack has a name, by the stack's JSON."""
    return OFFSET in text


def addresses_of(text):
    """The addresses of a stack by its JSON, where no frame has a name."""
    return text[len(FIRST) : -3].decode().split(NEXT_ADDRESS) if text != b"[]" else []


def call_of(text):
    """The address of such a frame, its name, or None, and its name with how far within its function the call is."""
    address, _, called = text.partition(b'"')
    called, _, offset = called.rpartition(OFFSET)
    if not called:
        return address.decode(), None, None
    name, within = called_of(called), f"+0x{int(offset):x}" if offset != b"0" else ""
    # (in a module without names this is all that tells calls apart)
    return address.decode(), name + within if called.endswith(NO_NAME) else name, name + within


@functools.lru_cache(MOST_FRAMES)
def called_of(text):
    """The module and the name of calls by their JSON, which is read once for all addresses."""
    frame = json.loads(b"{" + text[1:] + b"}")
    return f"{frame['module']}!{frame['name']}"


class Stack:
    """A stack as an answer in JSON has it, and the names of its calls, without how far within its function each call is."""

    __slots__ = ("text", "names")

    def __init__(self, text, names):
        self.text, self.names = text, names


class Names(dict):
    """The name of each frame by its JSON. Most frames are in many stacks, and each is read once; and of those that differ only in their
    address and in how far within their function they are, one is."""

    def __init__(self):
        super().__init__()
        self.called = {}

    def __missing__(self, text):
        if len(self) >= MOST_FRAMES:
            self.clear()
        called = text[text.index(b'"') : text.rfind(OFFSET)]
        name = self.called.get(called)
        if name is None:
            address, name, whole = call_of(text)
            name = sys.intern(name or address)
            if whole and not called.endswith(NO_NAME):
                self.called[called] = name
        self[text] = name
        return name


def fields_of(rows):
    """The fields of rows without stacks, by their JSON."""
    return json.loads(b"[" + b",".join(rows) + b"]")


class Rows:
    """Reads stacks of rows in JSON. One that comes again, as most do, is not read again."""

    def __init__(self):
        self.stacks, self.names = {}, Names()

    def stack(self, text):
        """The stack with this JSON, behind which the rest of its line stands."""
        return self.stacks.get(text) or self.added(text)

    def innermost(self, text):
        """The name of the innermost call of such a stack, which is read alone, or None where the stack has fewer than two."""
        end = text.find(NEXT)
        return None if end < 0 else self.names[text[len(FIRST) : end]]

    def added(self, text):
        if len(self.stacks) >= MOST_STACKS:
            self.stacks.clear()
        own = text.rstrip()[:-1]
        stack = self.stacks[text] = Stack(own, self.names_of(own))
        return stack

    def names_of(self, text):
        if has_names(text):
            return tuple(map(self.names.__getitem__, frames_of(text)))
        return tuple(map(sys.intern, addresses_of(text)))


class Site:
    """All stacks whose calls have these names: how many rows or handles they come to, by stack and by key, such as a process."""

    __slots__ = ("names", "count", "stacks", "keys")

    def __init__(self, names):
        self.names, self.count, self.stacks, self.keys = names, 0, {}, {}

    def left(self):
        """How much of it is told of no key."""
        return self.count - sum(self.keys.values())

    def texts(self):
        """The stacks by their JSON, those that come most often first, and how often each comes."""
        texts = {}
        for stack, count in self.stacks.items():
            texts[stack.text] = texts.get(stack.text, 0) + count
        return sorted(texts.items(), key=lambda it: -it[1])

    def greatest_keys(self, most):
        """The first keys of those with the greatest counts, each with its count."""
        return heapq.nsmallest(most, self.keys.items(), key=lambda it: -it[1])


class Sites:
    """The sites of a list, by their names."""

    def __init__(self):
        self.sites, self.rows = {}, []

    def add(self, stack, count):
        """Adds a stack. Gives its site."""
        site = self.sites.get(stack.names)
        if site is None:
            site = self.sites[stack.names] = Site(stack.names)
        site.count += count
        site.stacks[stack] = site.stacks.get(stack, 0) + count
        return site

    def add_rows(self, rows):
        """Adds rows, of each its stack, its key and its count. The keys are told of none of the sites yet."""
        counts = {}
        for stack, _, count in rows:
            counts[stack] = counts.get(stack, 0) + count
        for stack, count in counts.items():
            self.add(stack, count)
        self.rows = rows

    def tell_keys(self, sites):
        """Adds to some sites how much of each of them is of which key."""
        keys_of = {stack: site.keys for site in sites for stack in site.stacks}
        for stack, key, count in self.rows:
            keys = keys_of.get(stack)
            if keys is not None:
                keys[key] = keys.get(key, 0) + count

    def count(self):
        return sum([site.count for site in self.sites.values()])

    def greatest(self, most, but=frozenset()):
        """All but those of some names: first the ones with the greatest counts, at most so many, and then by their names."""
        return first_of([site for site in self.sites.values() if not but or site.names not in but], most, order_of)


def order_of(site):
    return -site.count, site.names


def first_of(sites, most, order):
    """The same sites, of which the first ones, at most so many, are in an order, and the others behind them in none."""
    first = heapq.nsmallest(most, sites, key=order)
    before = set(map(id, first))
    return first + [site for site in sites if id(site) not in before]
