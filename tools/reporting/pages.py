"""Pieces of a page in HTML: elements in which every text is escaped, and the room that a page has."""
import functools
import html
import itertools

MOST_TEXTS = 50_000  # that are kept as HTML, since many come again


class Html(str):
    """What is HTML already."""


def shown(text):
    """A text in which what can't be seen, or turns the direction of writing, is shown by its number."""
    return text if text.isprintable() else "".join(it if it.isprintable() else f"\\u{{{ord(it):x}}}" for it in text)


def html_of(part):
    return part if isinstance(part, Html) else escaped(str(part))


@functools.lru_cache(MOST_TEXTS)
def escaped(text):
    return html.escape(shown(text))


@functools.lru_cache(None)
def attribute_of(name):
    return name.strip("_").replace("_", "-")


def joined(*parts):
    return Html("".join([part if type(part) is Html else escaped(str(part)) for part in parts]))


def element(name, *parts, **attributes):
    """An element with these parts. An attribute is named as Python allows it: `class_`, `aria_label`."""
    words = "".join([f' {attribute_of(key)}="{html_of(value)}"' for key, value in attributes.items()]) if attributes else ""
    inside = "".join([part if type(part) is Html else escaped(str(part)) for part in parts])
    return Html(f"<{name}{words}>{inside}</{name}>")


def counted(number, one, more=None):
    """A number and what it is of: `1 handle`, `2,000 handles`."""
    return f"{number:,} {one if number == 1 else more or one + 's'}"


def share_of(number, whole):
    """A share in percent, with a digit behind the point where it is small."""
    percent = 100 * number / max(whole, 1)
    return f"{percent:.0f}%" if percent >= 10 or percent == int(percent) else f"{percent:.1f}%"


def opened(is_open, *parts, **attributes):
    """What opens and closes by a click."""
    return element("details", *parts, **attributes, **({"open": ""} if is_open else {}))


def facts(*pairs):
    return element("dl", *(element("div", element("dt", name), element("dd", value)) for name, value in pairs), class_="facts")


def table(names, lines):
    """A table. What is wider than the page moves beneath its head by itself."""
    head = element("tr", *(element("th", name, scope="col") for name in names))
    rows = [element("tr", *(element("td", it) for it in line)) for line in lines]
    return element("div", element("table", element("thead", head), element("tbody", *rows)), class_="wide")


def note(*parts):
    return element("p", *parts, class_="note")


def left_out(count, rows, what, more=None):
    """A line on what the page doesn't show."""
    return note(f"And {counted(count - len(rows), what, more)} more.") if count > len(rows) else ""


class Room:
    """How many bytes a part of the page may still have."""

    def __init__(self, left):
        self.left = left

    def first(self, parts, most):
        """The first parts, at most so many, for which there is room."""
        for part in itertools.islice(parts, most):
            size = len(part.encode())
            if size > self.left:
                return
            self.left -= size
            yield part
