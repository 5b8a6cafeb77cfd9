"""The processes with open handles or bad references: a curve of each, and the stacks behind them."""
import heapq

from .pages import Room, counted, element, facts, joined, left_out, note, opened, share_of
from .pictures import curve_of
from .questions import MOST_HANDLES
from .rows import MOST_HANDLES as MOST_LISTED
from .rows import Lines, calls_of_site, handles_of, listed, names_of_handles, shown, stack_of

BYTES = 900_000


def processes_of(material):
    """The processes, those with most open handles first, and how many others there are."""
    trace, found, room = material.trace, material.trace.found, Room(BYTES)
    most, parts, bad = max((row["outstanding"] for row in found), default=0), [], []
    for row in trace.shown():
        for head in room.first([head_of(material, row, most)], 1):
            stacks = stacks_of(material, row, room), bad_of(material, row, room, bad)
            parts.append(opened(row is found[0], head, *stacks, class_="process"))
    if bad:
        times, process, call = max(bad, key=lambda it: it[0])
        told = f" used handles that weren't open {counted(times, 'time')} in process {process}."
        material.findings.append(joined(call, told))
    others = counted(len(trace.processes) - len(found), "process has", "processes have")
    return joined(
        *parts,
        left_out(len(found), parts, "process", "processes"),
        note(others, " neither an open handle nor a bad reference.") if len(trace.processes) > len(found) else "",
        "" if trace.processes else note("No process has an event of a handle."),
    )


def head_of(material, row, most):
    """A process without its stacks. The bar shows its open handles beside those of the process with most."""
    bar = element("meter", min=0, max=max(most, 1), value=row["outstanding"], aria_hidden="true")
    name = element("h3", f"Process {row['process']} (0x{row['process']:x})")
    head = element("summary", name, bar, element("b", f"{row['outstanding']:,} open"))
    numbers = [("opened", row["opens"]), ("closed", row["closes"]), ("bad references", row["bad"])]
    moments = [("sequence of the last snapshot", row["mark"]), ("sequence of the last exit", row["exit"])]
    told = facts(*((name, f"{number:,}") for name, number in numbers + [moment for moment in moments if moment[1]]))
    title = element("h4", "Open handles, by the sequence of the events")
    return joined(head, told, title, curve_of(material.trace.growth(row)))


def stacks_of(material, row, room):
    """The stacks that opened what is open."""
    sites = material.trace.sites_of(row).greatest(material.given.top, material.files.known)
    whole, lines = sum(site.count for site in sites), Lines([site.names for site in sites], material.system)
    handles, names = material.handles[row["process"]].rows, material.files.names

    def stack(site):
        own, numbers = handles.get(site.names, []), (f"{site.count:,}", share_of(site.count, whole))
        inside = calls_of_site(site), names_of_handles(own, names), handles_of(own, names, site.count)
        return stack_of(numbers, lines.of(site.names), *inside)

    some = f"Only the {MOST_HANDLES:,} handles with the least numbers were looked at one by one."
    rows = shown(lines, map(stack, sites), len(sites), room, material.given.top)
    return joined(element("h4", "Stacks that opened them"), rows, note(some) if row["outstanding"] > MOST_HANDLES else "") if sites else ""


def bad_of(material, row, room, bad):
    """The stacks that used handles that weren't open. The first is added to a list."""
    if not row["bad"]:
        return ""
    found, most = material.trace.bad(row), material.given.top
    sites = found.greatest(most)
    found.tell_keys(sites[:most])
    lines = Lines([site.names for site in sites], material.system)
    bad.append((sites[0].count, row["process"], lines.call(sites[0].names)))

    def stack(site):
        handles = heapq.nsmallest(MOST_LISTED, site.keys.items(), key=lambda it: (-it[1], int(it[0], 16)))
        items = [element("li", element("b", handle.decode()), f" {counted(times, 'time')}") for handle, times in handles]
        numbers = f"{site.count:,}", counted(len(site.keys), "handle")
        return stack_of(numbers, lines.of(site.names), calls_of_site(site), listed("Handles", items, len(site.keys)))

    rows = shown(lines, map(stack, sites), len(sites), room, most)
    return joined(element("h4", "Uses of handles that weren't open"), rows)
