"""The stacks that leave handles open, over all processes: as a list, as a flame graph, and beside an older answer."""
import collections

from stacklists import changes

from .pages import Html, Room, counted, element, joined, left_out, note, share_of
from .pictures import flame_of, small_curve_of
from .rows import MOST_NAMES, Lines, calls_of, calls_of_site, names_of_handles, stack_of

WORST = 10  # stacks with a curve
BYTES, BYTES_OF_GRAPH, BYTES_OF_CHANGES = 700_000, 400_000, 300_000

# What the script of the page shows, and works with.
TOOLS = Html(
    '<p class="tools" hidden><label>Only with these words <input type="search"></label> <label>Sorted by <select>'
    '<option value="count">handles</option><option value="growth">growth</option></select></label></p>'
)
CLICKS = Html('<p class="note clicks" hidden>A click on a call makes it as wide as the graph, and one on the uppermost shows all again.</p>')


def list_of(material):
    """The stacks, those with most open handles first."""
    room, known = Room(BYTES), material.known()
    shared = [*room.first([material.lines.note()], 1)]
    rows = list(room.first((row_of(material, site, at < WORST) for at, site in enumerate(material.leaking)), material.given.top))
    told = counted(len(known), "known stack"), counted(sum(site.count for site in known), "handle")
    return joined(
        note("A handle that is open need not be a leak: some are kept open on purpose." if rows else "No stack leaves a handle open."),
        *shared,
        TOOLS if len(rows) > 1 else "",
        element("div", *rows, id="list"),
        left_out(len(material.leaking), rows, "stack"),
        note(f"{told[0]} with {told[1]} left out.") if known else "",
        note_on_asked(material.trace),
        note_on_curves(material),
    )


def note_on_asked(trace):
    others = sum(1 for row in trace.processes if row["outstanding"]) - len(trace.asked())
    told = counted(others, "process has", "processes have")
    return note(f"{told} fewer open handles: which of a stack's handles are theirs is not shown.") if others else ""


def note_on_curves(material):
    if not material.moments:
        return ""
    first, middle = material.moments[0][0], material.middle()[0]
    curves = f"Curves have {len(material.moments) + 1} moments from sequence {first:,} to {material.trace.last:,}"
    has_signs = any(material.growth_of(site) for site in material.leaking[: material.given.top])
    signs = f"; a number with a sign is the difference to sequence {middle:,}" if has_signs else ""
    of_some = "" if material.trace.is_by_sites() else " Only processes with open handles count for this."
    return note(f"{curves}{signs}.{of_some}")


def row_of(material, site, with_curve):
    """A stack: its handles in all processes, its curve, and in which processes it has handles."""
    growth, numbers = material.growth_of(site), (f"{site.count:,}", share_of(site.count, material.whole))
    difference = element("span", f"{growth:+,}", class_="growth", title="since the middle") if growth else ""
    curve = small_curve_of(material.points_of(site)) if with_curve and material.moments else ""
    inside = element("p", f"In {where_of(site)}."), calls_of_site(site), names_of_handles(material.handles_of(site), material.files.names)
    line = joined(material.lines.of(site.names), difference, curve)
    return stack_of(numbers, line, *inside, data_count=site.count, data_growth=growth)


def where_of(site):
    """The processes that have handles of a site: those that were asked, and how many handles are left for others."""
    first = site.greatest_keys(MOST_NAMES)
    told = [f"{'process' if len(site.keys) == 1 else 'processes'} " + ", ".join(f"{process} ({count:,})" for process, count in first)]
    told += [f"{len(site.keys) - len(first):,} more"] if len(site.keys) > len(first) else []
    told += [f"other processes ({site.left():,})"] if site.left() else []
    return " and ".join(told if site.keys else told[1:])


def graph_of(material):
    stacks = ((site.names, site.count) for site in material.leaking)
    picture, small = flame_of(stacks, material.system, Room(BYTES_OF_GRAPH))
    return joined(
        note("A call is as wide as its share of the open handles, and stands below its caller. The system's calls are grey."),
        CLICKS,
        element("div", picture, class_="graph"),
        note(f"{counted(small, 'call is', 'calls are')} too small to be drawn.") if small else "",
    )


def changes_of(material):
    """Which stacks leak more and which less than in the older answer."""
    before, after = material.before(), collections.Counter({site.names: site.count for site in material.leaking})
    more, less = changes(before, after)
    lines, room = Lines(sorted({*before, *after}), material.system), Room(BYTES_OF_CHANGES)
    parts = [note(f"{counted(sum(before.values()), 'handle')} before, in {material.given.before}, and {sum(after.values()):,} now.")]
    for title, sign, changed in (("More than before", "+", more), ("Less than before", "−", less)):
        rows = (change_of(f"{sign}{difference:,}", names, before, after, lines) for difference, names in changed)
        rows = list(room.first(rows, material.given.top))
        parts += [element("h4", title), *rows, left_out(len(changed), rows, "stack"), "" if changed else note("No stack.")]
    for difference, names in more[:1]:
        others = f", the most of {len(more):,} stacks that leave more" if len(more) > 1 else ""
        told = f" leaves {counted(difference, 'handle')} more open than before{others}."
        material.findings.append(joined(lines.call(names), told))
    return joined(*parts)


def change_of(difference, names, before, after, lines):
    return stack_of((difference, f"{before[names]:,} → {after[names]:,}"), lines.of(names), calls_of(names))
