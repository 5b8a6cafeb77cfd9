"""What leaks at all: a sentence, what was found, the numbers of the summary, and which moments are certain."""
from .material import MOST_FINDINGS
from .pages import counted, element, facts, joined, left_out, share_of
from .rows import counts_of_names, short

MOST_GAPS = 100


def lead_of(material):
    """What leaks, in a sentence."""
    trace = material.trace
    handles = counted(material.sites.count(), "handle is", "handles are")
    used = f"handles that weren't open were used {counted(sum(row['bad'] for row in trace.processes), 'time')}"
    unbalanced = counted(trace.head["unbalanced"], "object has", "objects have")
    if material.given.process:
        return f"{handles} open {material.as_of()}, and {used}."
    return f"{handles} open {material.as_of()}, {used}, and {unbalanced} an unbalanced tag."


def add_leaks(material):
    """The stacks with most open handles are findings: the first, and others that have a tenth of all."""
    not_known = " that are not known" if material.known() else ""
    for site in material.leaking[:MOST_FINDINGS]:
        if site is material.leaking[0] or 10 * site.count >= material.whole:
            of_all = f"{share_of(site.count, material.whole)} of {material.whole:,}{not_known}"
            where = " and ".join([counted(len(site.keys), "process", "processes")] * bool(site.keys) + ["others"] * bool(site.left()))
            growth = material.growth_of(site)
            since = f", {growth:+,} since sequence {material.middle()[0]:,}" if growth else ""
            told = f" left {counted(site.count, 'handle')} open", *told_of_names(material, site), f": {of_all}, in {where}{since}."
            material.findings.append(joined(material.lines.call_within(site.names), *told))


def told_of_names(material, site):
    """What a site's handles are of, or most of them, where that is known and they aren't of different things each."""
    name, count = next(iter(counts_of_names(material.handles_of(site), material.files.names)), (None, 0))
    if count == 0 or count == 1 < site.count:
        return []
    return [", of " if count == site.count else ", most often of ", element("code", short(name), class_="of")]


def is_certain(trace):
    """Whether the page is about a moment up to which nothing is missing."""
    return trace.until is not None and trace.until <= trace.head["complete_to"]


def add_gaps(material):
    if material.trace.gaps and not is_certain(material.trace):
        why = element("strong", "Segments are missing"), ": a handle that seems to be open may have been closed in one. "
        material.findings.append(joined(*why, element("a", "What is certain", href="#certain"), " says more."))


def findings_of(material):
    if not material.findings:
        handles = "Each open handle is of a known stack" if material.known() else f"No handle is open {material.as_of()}"
        objects = "" if material.given.process else ", and the tags of all objects balance"
        return element("p", f"{handles}, none was used that wasn't open{objects}.")
    return element("ul", *(element("li", finding) for finding in material.findings), class_="findings")


def numbers_of(material):
    """The numbers of the summary, of the processes that the page is about: where these were named, it has no objects."""
    head, processes = material.trace.head, material.trace.processes
    handles, bad = (sum(row[of] for row in processes) for of in ("outstanding", "bad"))
    opened = "open handles" if material.trace.since is None else "open handles, older ones too"
    unbalanced = ("unbalanced tags", material.trace.unbalanced), ("unbalanced objects", head["unbalanced"])
    numbers = [(opened, handles), ("bad references", bad), *([] if material.given.process else unbalanced), ("gaps", head["gaps"])]
    names = ("events", "segments", "processors") if material.given.process else ("objects", "events", "segments", "processors")
    numbers += [("processes", len(processes)), *((name, head[name]) for name in names)]
    return facts(*((name, f"{number:,}") for name, number in numbers))


def missing_of(gap):
    if "to" not in gap:
        return "all segments"
    return f"segment {gap['from']:,}" if gap["from"] == gap["to"] else f"segments {gap['from']:,} to {gap['to']:,}"


def certain_of(material):
    """Up to where nothing is missing, and which segments are."""
    trace, gaps = material.trace, material.trace.gaps
    whole = f"{trace.head['complete_to']:,}"
    if not trace.head["complete_to"]:
        told = "No moment is certain: of some processor no event is here before what is missing or may be missing. It may have been idle."
    elif is_certain(trace):
        told = f"This page is about sequence {trace.until:,}. All events up to sequence {whole} are here, so what it says is certain."
    else:
        told = f"All events up to sequence {whole} are here: what was so then is certain, and --until complete shows it."
    if not gaps:
        last = "Of each processor no segment is missing before its last one that is here. Whether later ones are missing can't be seen."
        return joined(element("p", told), element("p", last))
    rows = [element("li", f"of processor {gap['processor']} {missing_of(gap)}") for gap in gaps[:MOST_GAPS]]
    closed = "A handle that seems to be open may have been closed in one of them."
    why = "Segments are missing. " + (f"Their events come after sequence {whole}." if is_certain(trace) else closed)
    return joined(element("p", why, class_="warning"), element("ul", *rows), left_out(len(gaps), rows, "gap"), element("p", told))
