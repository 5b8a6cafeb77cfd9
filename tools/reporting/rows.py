"""Stacks as a page shows them: a line that opens by a click, and within it the calls, the handles and what these are of."""
import collections
import functools

from .pages import Html, counted, element, html_of, joined, left_out, note
from .sites import addresses_of, call_of, fields_of, frames_of, has_names
from .telling import Apart

MOST_LETTERS = 200  # of a call in a line; within the stack it is whole
MOST_STACKS, MOST_NAMES, MOST_HANDLES = 5, 10, 50  # that differ in their addresses alone, and of what is within a stack


def short(name):
    return name if len(name) <= MOST_LETTERS else name[:MOST_LETTERS] + "…"


class Lines:
    """The lines of a list of stacks, which are told apart within it."""

    def __init__(self, stacks, system):
        self.apart = Apart(stacks, system)

    def call(self, names):
        """The call that tells a stack from the others."""
        return element("code", short("".join(self.apart.line(names).telling) or "no stack"))

    def call_within(self, names):
        """The same behind a call that it makes, where a line has one."""
        before = [element("span", element("code", short(name)), " ← ", class_="by") for name in self.apart.line(names).before]
        return joined(*before, element("strong", self.call(names)))

    def of(self, names):
        """The same, or with its caller."""
        after = [element("span", " ← ", element("code", short(name)), class_="by") for name in self.apart.line(names).caller]
        return element("span", self.call_within(names), *after, class_="calls")

    def note(self):
        """Which calls are in all stacks, so that no line shows them."""
        shared = self.apart.shared
        if not shared:
            return Html()
        calls = [part for name in shared[:MOST_NAMES] for part in (", ", element("code", short(name)))][1:]
        more = f" and {len(shared) - MOST_NAMES:,} more" if len(shared) > MOST_NAMES else ""
        return note("All of these stacks have ", *calls, more, ".")


def stack_of(numbers, line, *inside, **attributes):
    """A stack: its numbers, of which the first is the greatest, and its line; by a click what is within."""
    first, *others = numbers
    parts = element("b", first), *(element("span", number, class_="share") for number in others)
    return element("details", element("summary", *parts, line), *inside, class_="stack", **attributes)


@functools.lru_cache(None)
def call_with_address(text):
    """A call with how far within its function it is, and its address, by its JSON."""
    address, _, name = call_of(text)
    return Html(f'<li><code>{html_of(name)}</code> <code class="at">{address}</code></li>' if name else f"<li><code>{address}</code></li>")


def calls_with_addresses(text):
    """The calls of a stack by its JSON. (Of all elements a page has most of these.)"""
    if has_names(text):
        return element("ol", *map(call_with_address, frames_of(text)))
    return element("ol", Html("".join([f"<li><code>{address}</code></li>" for address in addresses_of(text)])))


def calls_of(names):
    return element("ol", *(element("li", element("code", name)) for name in names)) if names else element("p", "It came without a stack.")


def calls_of_site(site):
    """The calls of a site. Where its stacks differ in how far within their functions the calls are, each stands within."""
    if not site.names:
        return calls_of(())
    stacks = site.texts()
    lists = [calls_with_addresses(text) for text, _ in stacks[:MOST_STACKS]]
    if len(stacks) == 1:
        return lists[0]
    head = element("summary", f"{counted(len(stacks), 'stack')} with these names, by their addresses")
    parts = [joined(element("h5", f"{count:,} of them"), calls) for (_, count), calls in zip(stacks, lists)]
    return joined(calls_of(site.names), element("details", head, *parts, left_out(len(stacks), parts, "stack"), class_="stacks"))


def counts_of_names(rows, names):
    """What open handles are of, that of which there are most first, and how many each is. The handles are rows in JSON."""
    sequences = [row["sequence"] for row in fields_of(rows)] if names else []
    return collections.Counter(names[sequence] for sequence in sequences if sequence in names).most_common()


def names_of_handles(rows, names):
    """The same as a list."""
    found = counts_of_names(rows, names)
    items = [element("li", element("code", name), f" {count:,}" if count > 1 else "") for name, count in found[:MOST_NAMES]]
    parts = element("h5", "What they are"), element("ul", *items, class_="names"), left_out(len(found), items, "name")
    return joined(*parts) if items else ""


def handles_of(rows, names, count):
    """Open handles one by one, with the sequences and threads of their opens, and what they are of."""
    items = []
    for row in fields_of(rows[:MOST_HANDLES]):
        name = (" ", element("code", names[row["sequence"]])) if row["sequence"] in names else ()
        items.append(element("li", element("b", row["handle"]), f" sequence {row['sequence']:,}, thread {row['thread']}", *name))
    return listed("Handles", items, count)


def listed(title, items, count):
    """A list of handles within a stack, and how many others there are."""
    items = [element("h5", title), element("ul", *items, class_="handles"), left_out(count, items, "handle")] if items else []
    return joined(*items)


def shown(lines, rows, count, room, most):
    """The first rows of a list of stacks for which there is room, and how many others there are."""
    told = [*room.first([lines.note()], 1)]
    rows = list(room.first(rows, most))
    return joined(*told, *rows, left_out(count, rows, "stack"))
