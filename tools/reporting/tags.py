"""The tags that don't balance on some object, over all objects: how often each was used, and the stacks that used it."""
from .pages import Room, counted, element, facts, joined, left_out, opened
from .questions import SIDES
from .rows import Lines, calls_of_site, shown, stack_of
from .sites import first_of
from .trace import is_unbalanced

BYTES, MOST_FINDINGS = 200_000, 3


def tags_of(material):
    """The tags, those that don't balance on most objects first, and how many others there are."""
    trace, room, parts = material.trace, Room(BYTES), []
    for tag in trace.balance:
        for head in room.first([head_of(tag, trace)], 1):
            stacks = stacks_of(material, trace.uses_of_all(tag), tag, room)
            parts.append(opened(tag is trace.balance[0], head, stacks, class_="tag"))
    return joined(*parts, left_out(trace.unbalanced, parts, "tag"))


def head_of(tag, trace):
    """A tag without its stacks."""
    name, number = element("h3", "Tag ", element("code", tag["tag"])), element("b", counted(tag["objects"], "object"))
    told = facts(*((side, f"{tag[side]:,}") for side in SIDES), ("balance in all", balance_of(tag)), ("objects that have an event", f"{trace.head['objects']:,}"))
    return joined(element("summary", name, number), told)


def balance_of(tag):
    """How a tag's references and dereferences differ."""
    if tag["over"]:
        return f"{tag['over']:,} not dropped"
    return f"{tag['under']:,} dropped too often" if tag["under"] else "balanced"


def net_of(counts):
    """References minus dereferences."""
    return counts["references"] - counts["dereferences"]


def order_of(site):
    """The place of a stack: those come first whose references and dereferences differ most."""
    return -abs(net_of(site.keys)), -site.count, site.names


def stacks_of(material, uses, tag, room):
    """The stacks that used a tag. Over all objects each says on how many of them."""
    sites = first_of(list(uses.sites.sites.values()), material.given.top, order_of)
    lines = Lines([site.names for site in sites], material.system)

    def stack(site):
        sides = [counted(site.keys[side], side[:-1]) for side in SIDES if site.keys[side]]
        objects = [objects_of_site(uses, site)] if uses.objects else []
        return stack_of((f"{net_of(site.keys):+,}", " and ".join(sides), *objects), lines.of(site.names), calls_of_site(site))

    rows = shown(lines, map(stack, sites), len(sites), room, material.given.top)
    return joined(element("h4", "Stacks of ", element("code", tag["tag"])), rows)


def objects_of_site(uses, site):
    """On how many objects a site used a tag. Those of its stacks may be the same ones."""
    told = counted(uses.objects[site.names], "object")
    return told if len(site.stacks) == 1 else f"{told} or more"


# ---- what was found


def add_findings(material):
    """The tags that don't balance on most objects are findings: the first, and others with a tenth of these objects."""
    trace = material.trace
    for tag in trace.balance[:MOST_FINDINGS]:
        if tag is trace.balance[0] or 10 * tag["objects"] >= trace.head["unbalanced"]:
            row = object_of(trace, tag)
            material.findings.append(finding_on(material.name_of(row["object"]), tag) if row else finding_of(material, tag))


def object_of(trace, tag):
    """The only object on which a tag doesn't balance, where it is one of those that are shown."""
    if tag["objects"] > 1:
        return None
    return next((row for row in trace.objects for it in trace.tags(row["object"]) if it["bytes"] == tag["bytes"] and is_unbalanced(it)), None)


def finding_on(name, tag):
    over, under = counted(tag["over"], "reference"), counted(tag["under"], "dereference")
    told = f"{over} that nobody dropped" if tag["over"] else f"{under} too many"
    return joined(name, " has under the tag ", element("code", tag["tag"]), f" {told}.")


def finding_of(material, tag):
    """On how many objects a tag doesn't balance, and by how much in all. Often a stack alone has as many."""
    where = f" doesn't balance on {tag['objects']:,} of {counted(material.trace.head['objects'], 'object')}: "
    over, under = counted(tag["over"], "reference"), counted(tag["under"], "dereference")
    if not is_unbalanced(tag):
        told = ["what is missing on some came too often on others"]
    else:
        told = [f"{over} more than dereferences" if tag["over"] else f"{under} more than references", *told_of_stack(material, tag)]
    return joined("The tag ", element("code", tag["tag"]), where, *told, ".")


def told_of_stack(material, tag):
    """The only stack whose references and dereferences differ by as much as the tag's, where there is one."""
    sites = material.trace.uses_of_all(tag).sites.sites
    same = [names for names, site in sites.items() if net_of(site.keys) == net_of(tag)]
    return [", as many as come from ", Lines(sites, material.system).call_within(same[0])] if len(same) == 1 else []
