"""Pictures of a page, which are SVG and need no script: curves of open handles, and flame graphs. What is written in them keeps the size
of its letters whatever the width, since only the lines are stretched."""
import collections
import heapq
import itertools
import zlib

from .pages import Html, counted, element, joined, share_of
from .telling import common_of

MOST_BOXES, LEAST_SHARE = 800, 1 / 2000  # of a flame graph: how many calls at most, and the least share of its handles that is drawn
ROW, COLOURS, MOST_LETTERS = 20, 6, 120  # how high a call is, in how many colours modules are, and how long its label may be
THIN = 1 / 200  # below this share a call has no line around it, which would hide it (page.js has the same)


def place(part, whole):
    """Where a part of a whole is, in percent."""
    return f"{100 * part / max(whole, 1):.2f}"


def places_of(points):
    """The places of points, across and from above, in percent of a curve's width and height."""
    first, last, most = points[0][0], points[-1][0], max(number for _, number in points)
    return [(place(sequence - first, last - first), place(max(most, 1) - number, most)) for sequence, number in points]


def stretched(places):
    """A line through places, over all of the picture around it."""
    path = element("path", d="M" + "L".join(f"{across},{down}" for across, down in places))
    return element("svg", path, viewBox="0 0 100 100", preserveAspectRatio="none", width="100%", height="100%")


def told_of(points):
    (first, at_first), (last, at_last), most = points[0], points[-1], max(number for _, number in points)
    return f"{at_first:,} at sequence {first:,}, at most {most:,}, and {at_last:,} at sequence {last:,}"


def curve_of(points):
    """How many handles were open as of each of some moments, as a curve with its axes. Each point has its numbers as its title."""
    first, last, most = points[0][0], points[-1][0], max(number for _, number in points)
    heights = sorted({0, most // 2, most})
    tops = [place(max(most, 1) - number, most) for number in heights]
    lines = [element("line", x1="0", x2="100%", y1=f"{top}%", y2=f"{top}%") for top in tops]
    dots = []
    for (sequence, number), (across, down) in zip(points, places_of(points)):
        title = f"<title>{number:,} at sequence {sequence:,}</title>"
        dots.append(Html(f'<circle cx="{across}%" cy="{down}%" r="2.5">{title}</circle>'))
    picture = element("svg", element("title", "Open handles: ", told_of(points)), *lines, stretched(places_of(points)), *dots, role="img")
    labels = [element("span", f"{number:,}", style=f"top:{top}%") for number, top in zip(heights, tops)]
    ends = [element("span", f"{sequence:,}") for sequence in sorted({first, (first + last) // 2, last})]
    sides = element("div", *labels, class_="heights", aria_hidden="true"), element("div", *ends, class_="ends", aria_hidden="true")
    return element("div", sides[0], picture, sides[1], class_="curve")


def small_curve_of(points):
    """The same as small as a word, without axes."""
    picture = stretched(places_of(points))
    return element("svg", element("title", told_of(points)), picture, class_="small", role="img")


# A call in a flame graph: how deep it is, the handles of the stacks that have it here, its place among them, and these stacks.
Box = collections.namedtuple("Box", "name depth count at stacks")


def calls_in(box):
    """The calls within a call. Beside one another they are by name, so that a graph of a later trace is like it."""
    stacks, at = collections.defaultdict(list), box.at
    for stack in box.stacks:
        if len(stack[0]) > box.depth:
            stacks[stack[0][box.depth]].append(stack)
    for name in sorted(stacks):
        count = sum(count for _, count in stacks[name])
        yield Box(name, box.depth + 1, count, at, stacks[name])
        at += count


def widest(whole):
    """The calls that are drawn: the widest ones, of equal ones the outermost first. A call is never wider than its caller."""
    numbers = itertools.count()
    waiting, drawn = [(-whole.count, 0, next(numbers), whole)], []
    while waiting and len(drawn) < MOST_BOXES:
        box = heapq.heappop(waiting)[-1]
        drawn.append(box)
        for call in calls_in(box):
            if call.count >= LEAST_SHARE * whole.count:
                heapq.heappush(waiting, (-call.count, call.depth, next(numbers), call))
    return drawn


def number_of_calls(paths):
    """How many calls a whole graph has: of neighbours in their order the later one's are new where they differ."""
    ordered = sorted(paths)
    return 1 + sum(len(path) - common_of(path, before) for before, path in zip([(), *ordered], ordered))


def flame_of(stacks, system, room):
    """A flame graph of stacks, each with its handles, and how many calls are too small for it. The outermost calls are at its top, and a
    call is as wide as its share of the handles."""
    stacks = [(names[::-1], count) for names, count in stacks]
    whole = Box("all", 0, sum(count for _, count in stacks), 0, stacks)
    boxes = widest(whole)
    parts = list(room.first((box_of(box, whole.count, system) for box in boxes), len(boxes)))
    height = ROW * (1 + max((box.depth for box in boxes[: len(parts)]), default=0))
    told = f"The calls of stacks that leave {counted(whole.count, 'handle')} open, the outermost at the top"
    picture = element("svg", *parts, class_="flame", role="img", aria_label=told, width="100%", height=height)
    return picture, number_of_calls(path for path, _ in stacks) - len(parts)


WHOLE = element("rect", width="100%", height="100%")


def box_of(box, whole, system):
    module = box.name.partition("!")[0]
    colour = "s" if system.has(box.name) or not box.depth else f"c{zlib.crc32(module.encode()) % COLOURS}"
    label = box.name if len(box.name) <= MOST_LETTERS else box.name[:MOST_LETTERS] + "…"
    title = element("title", f"{box.name}: {box.count:,}, {share_of(box.count, whole)}")
    parts = title, WHOLE, element("text", label, x=4, y=14)
    x, width = f"{100 * box.at / max(whole, 1):.3f}%", f"{100 * box.count / max(whole, 1):.3f}%"
    thin = " thin" if box.count < THIN * whole else ""
    return element("svg", joined(*parts), class_=colour + thin, x=x, y=ROW * box.depth, width=width, height=ROW - 1)
