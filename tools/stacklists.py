"""Files of stacks, as tools/check, tools/compare and tools/report take them: answers of `leaks --json` or `sites --json`, and lists of known
stacks. A stack is the names of its frames, from the innermost call outwards, with or without how far within its function each call is."""
import collections
import json
import re

from hleaklib import Fault, lines_of, name_of

OFFSET = re.compile(r"\+0x[0-9a-f]+$")
ADDRESS = re.compile(r"0x[0-9a-f]{1,16}$", re.I)
STACK_BEGINS = re.compile(r"(LEAK|SITE|STACK|MORE|LESS) handles=")
FIRST_LINE = re.compile(r"leaks process=|sites (since=\w+ )?(until=\d+ )?count=|check stacks=|compare before=")


def checked(holds, place, why):
    if not holds:
        raise Fault(place, why)


def is_number(value):
    return isinstance(value, int) and not isinstance(value, bool)


def is_frame(frame):
    if not isinstance(frame, dict) or not isinstance(frame.get("address"), str):
        return False
    named = isinstance(frame.get("module"), str) and isinstance(frame.get("name"), str) and is_number(frame.get("offset"))
    return named or "name" not in frame


def value_of(place, text):
    """The object in a line of an answer."""
    try:
        value = json.loads(text)
    except (ValueError, RecursionError):
        raise Fault(place, "not a line of JSON: is it an answer of `leaks --json`?") from None
    checked(isinstance(value, dict), place, "not an object of JSON: is it an answer of `leaks --json`?")
    return value


def stack_of(place, row, with_offsets):
    """The names of a row's frames, and its handles."""
    stack = row.get("stack")
    is_row = is_number(row.get("handles")) and isinstance(stack, list) and all(map(is_frame, stack))
    checked(is_row, place, "not a row of `leaks --json`")
    return tuple(name_of(frame, with_offsets) for frame in stack), row["handles"]


def is_head(value):
    """Whether this is the first line of an answer with stacks: of a process, or of all."""
    return value["answer"] in ("leaks", "sites") and is_number(value.get("count"))


def leaks_in(lines, path, with_offsets):
    """How many handles each stack has, in the answers of which these are the lines, each with its place."""
    handles, head, kind, count, missing = collections.Counter(), None, None, 0, 0

    def end_answer():
        checked(not missing, head, f"this answer has {count} stacks, and the file {count - missing}: was it asked with --top?")

    for place, text in lines:
        if not text.strip():
            continue
        value = value_of(place, text)
        if "answer" in value:
            end_answer()
            checked(is_head(value), place, "not an answer of `leaks --json`")
            checked(kind in (None, value["answer"]), place, f"an answer of `{value['answer']}` behind one of `{kind}`")
            head, kind, count, missing = place, value["answer"], value["count"], value["count"]
        else:
            checked(missing > 0, place, "a row that no answer of `leaks --json` has")
            stack, number = stack_of(place, value, with_offsets)
            handles[stack] += number
            missing -= 1
    checked(head, path, "the file has no answer of `leaks --json`")
    end_answer()
    return handles


def leaks_of(path, with_offsets):
    """The same in the answers of a file."""
    return leaks_in(lines_of(path), path, with_offsets)


def frame_of(place, words, with_offsets):
    """The name of a frame in a text, or its address with all its digits."""
    if ADDRESS.match(words):
        return f"0x{int(words, 16):016x}"
    checked("!" in words, place, "neither a frame, as module!name or an address, nor LEAK or a comment")
    return words if with_offsets or "!+" in words else OFFSET.sub("", words)


def known_of(path, with_offsets):
    """The stacks in a file of known ones."""
    stacks, stack = [], None
    for place, text in lines_of(path):
        words = text.strip()
        if words.startswith("#") or FIRST_LINE.match(words):
            continue
        begins = STACK_BEGINS.match(words)
        if begins or (words and stack is None):
            stack = []
            stacks.append(stack)
        if not words:
            stack = None
        elif not begins:
            stack.append(frame_of(place, words, with_offsets))
    return set(map(tuple, stacks))


def changes(before, after):
    """The stacks whose handles differ: those with more and those with fewer, each by the greatest difference."""
    differing = [(abs(after[stack] - before[stack]), stack) for stack in {*before, *after} if after[stack] != before[stack]]
    differing.sort(key=lambda change: (-change[0], change[1]))
    more = [change for change in differing if after[change[1]] > before[change[1]]]
    return more, [change for change in differing if after[change[1]] < before[change[1]]]
