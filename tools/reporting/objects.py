"""The objects with unbalanced tags: their tags, and the stacks that used those that don't balance."""
from .pages import Room, counted, element, joined, left_out, note, opened, table
from .tags import balance_of, stacks_of

BYTES = 200_000


def objects_of(material):
    """The objects, those with most unbalanced tags first, and how many others there are."""
    trace, room, parts = material.trace, Room(BYTES), []
    for row in trace.objects:
        tags = trace.tags(row["object"])
        for head in room.first([head_of(row, material.name_of(row["object"]), tags, material.given.top)], 1):
            stacks = stacks_within(material, row, room)
            parts.append(opened(row is trace.objects[0], head, *stacks, class_="object"))
    others = counted(trace.head["objects"] - trace.head["unbalanced"], "object has", "objects have")
    return joined(
        *parts,
        left_out(trace.head["unbalanced"], parts, "object"),
        note(others, " no unbalanced tag.") if trace.head["objects"] > trace.head["unbalanced"] else "",
        "" if trace.head["objects"] else note("No object has an event."),
    )


def head_of(row, name, tags, most):
    """An object with its tags."""
    number = counted(row["unbalanced"], "unbalanced tag")
    head = element("summary", element("h3", name), element("b", number))
    lines = [(element("code", tag["tag"]), f"{tag['references']:,}", f"{tag['dereferences']:,}", balance_of(tag)) for tag in tags[:most]]
    return joined(head, table(("Tag", "References", "Dereferences", "Balance"), lines), left_out(len(tags), lines, "tag"))


def stacks_within(material, row, room):
    """The stacks that used some of an object's unbalanced tags. Those of the others stand among those of all objects."""
    tags = material.trace.tags_shown[row["object"]]
    for tag in tags:
        yield stacks_of(material, material.trace.uses(row["object"], tag), tag, room)
    if row["unbalanced"] > len(tags):
        yield note(f"The stacks of {counted(row['unbalanced'] - len(tags), 'unbalanced tag')} are not shown here.")
