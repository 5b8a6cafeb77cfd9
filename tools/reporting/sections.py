"""The page: its sections, in their order, within the frame of page.html."""
import base64
import hashlib
import os
import string
import time

from . import objects, processes, stacks, summary, tags
from .material import Material
from .pages import Html, counted, element, joined, left_out, table
from .trace import Trace

HERE = os.path.dirname(os.path.realpath(__file__))
MOST_FILES = 50


def file_of(path):
    told = os.stat(path)
    return element("code", path), f"{told.st_size:,}", time.strftime("%Y-%m-%d %H:%M:%S", time.localtime(told.st_mtime))


def files_of(paths):
    lines = list(map(file_of, paths[:MOST_FILES]))
    return joined(table(("File", "Bytes", "Written"), lines), left_out(len(paths), lines, "file"))


def sections_of(material):
    """The sections: of each its name, its title and what it has. What they find comes before them."""
    summary.add_leaks(material)
    sections = [("numbers", "Numbers", summary.numbers_of(material)), ("stacks", "Stacks, over all processes", stacks.list_of(material))]
    if material.leaking:
        sections.append(("graph", "Flame graph", stacks.graph_of(material)))
    if material.files.before is not None:
        sections.append(("changes", "What changed", stacks.changes_of(material)))
    sections.append(("certain", "What is certain", summary.certain_of(material)))
    sections.append(("processes", "Processes", processes.processes_of(material)))
    tags.add_findings(material)
    if material.trace.balance:
        sections.append(("tags", "Tags, over all objects", tags.tags_of(material)))
    if not material.given.process:
        sections.append(("objects", "Objects", objects.objects_of(material)))
    summary.add_gaps(material)
    findings = "findings", "What was found", summary.findings_of(material)
    return [findings, *sections, ("files", "Files", files_of(material.given.files))]


def made_of(given):
    """When the page was made, and of what."""
    made = f"Made on {time.strftime('%Y-%m-%d %H:%M:%S %Z')} of {counted(len(given.files), 'file')}"
    options = [("process", number) for number in given.process or ()]
    options += [(name, getattr(given, name)) for name in ("since", "until", "symbols", "names", "known", "before")]
    words = [element("code", element("span", f"--{name}"), f" {value}") for name, value in options if value is not None]
    return joined(made, " with ", *[part for word in words for part in (", ", word)][1:], ".") if words else f"{made}."


def text_of(name):
    with open(os.path.join(HERE, name), encoding="utf-8") as file:
        return file.read()


def page_of(dialogues, given, files):
    """The page. Its script is the only one that a browser runs."""
    material = Material(Trace(dialogues, given), given, files)
    sections, script = sections_of(material), text_of("page.js")
    parts = {
        "title": "Handles and references that leak",
        "lead": summary.lead_of(material),
        "made": made_of(given),
        "links": joined(*(element("li", element("a", title, href="#" + name)) for name, title, _ in sections)),
        "sections": joined(*(element("section", element("h2", title, id=name), it, aria_labelledby=name) for name, title, it in sections)),
        "digest": base64.b64encode(hashlib.sha256(script.encode()).digest()).decode(),
    }
    parts = {name: joined(part) for name, part in parts.items()}
    return string.Template(text_of("page.html")).substitute(parts, script=Html(script))
