"""What a report asks about a trace, and what of the answers it takes."""
import collections
import re

from .sites import STACK, Rows, Sites, fields_of

MOST_HANDLES = 1000  # of a process that are looked at one by one
POINTS = 100  # of the curve of a process

# Rows before their stacks, of the answers that have most rows: of a process, and of all; of an object, and of all.
LEAK = re.compile(rb'{"handles":(\d+)(?:,"processes":\d+)?$')
BAD = re.compile(rb'{"event":"BAD REF","handle":"(0x[0-9a-f]+)","times":(\d+)$', re.M)
USE = re.compile(rb'{"references":(\d+),"dereferences":(\d+)(?:,"objects":(\d+))?$')

SIDES = ("references", "dereferences")  # of a tag
# The stacks that used a tag, and where this is over all objects, the most of them on which a stack with these names did.
Uses = collections.namedtuple("Uses", "sites objects")
# Open handles of a process: the JSON of each without its stack, by the names of the calls that opened it; and how many each stack has.
Handles = collections.namedtuple("Handles", "rows stacks")
NO_HANDLES = Handles({}, {})
# A question, and what reads the lines of its answer: the first one, and those of its rows, which have all to be taken.
Question = collections.namedtuple("Question", "text read")


def as_of(moment):
    return "" if moment is None else f" --until {moment}"


def after(since):
    return "" if since is None else f" --since {since}"


class Questions:
    """The questions about a trace as of the moment that was given, or of its end. Where a sequence was given, only handles that were opened
    after it count as leaks."""

    def __init__(self, given):
        self.rows, self.until, self.since, self.counted = Rows(), given.until, given.since, {}

    def about(self, text, read):
        return Question(text + as_of(self.until), read)

    def since_of(self, process):
        """The sequence after which handles of a process count, or None."""
        return process["mark"] if self.since == "snapshot" else self.since

    def summary(self, most):
        """The summary with all gaps, and at most so many processes and objects."""
        return self.about("summary" + ("" if most is None else f" --top {most}"), self.read_all)

    def read_all(self, head, lines):
        head, *rows = fields_of([head, *lines])
        return head, rows

    def growth(self, process):
        """How many handles of a process were open as of each of many moments, from the first sequence on."""
        return self.about(f"growth --process {process['process']} --points {POINTS}", self.read_growth)

    def read_growth(self, _, lines):
        return [(row["sequence"], row["outstanding"]) for row in fields_of(lines)]

    def sites(self):
        """The stacks with open handles in any process, and how many handles each has."""
        return Question(self.text_of_sites(self.until), self.read_leaks)

    def leaks(self, process):
        """The same in a process."""
        return Question(self.text_of_leaks(process, self.until), self.read_leaks)

    def sites_at(self, moment):
        """How many handles those stacks had as of a moment that are counted."""
        return Question(self.text_of_sites(moment), self.read_counts)

    def leaks_at(self, process, moment):
        """The same in a process."""
        return Question(self.text_of_leaks(process, moment), self.read_counts)

    def text_of_sites(self, moment):
        return f"sites{after(self.since)}{as_of(moment)}"

    def text_of_leaks(self, process, moment):
        return f"leaks --process {process['process']}{after(self.since_of(process))}{as_of(moment)}"

    def read_leaks(self, _, lines):
        parted = (line.partition(STACK) for line in lines)
        return [(self.rows.stack(text), int(LEAK.match(head)[1])) for head, _, text in parted]

    def count(self, stacks):
        """Says which stacks are counted as of moments, by the names of their calls. None of these answers has been read yet."""
        self.counted = collections.defaultdict(set)
        for names in stacks:
            self.counted[names[0] if len(names) > 1 else None].add(names)

    def read_counts(self, _, lines):
        counts = collections.Counter()
        for line in lines:
            head, _, text = line.partition(STACK)
            alike = self.counted.get(self.rows.innermost(text))
            if alike and (names := self.rows.stack(text).names) in alike:  # (most stacks needn't be read)
                counts[names] += int(LEAK.match(head)[1])
        return counts

    def handles(self, process):
        """The open handles of a process, those with the least numbers where there are many."""
        since = self.since_of(process)
        words = f"{'outstanding' if since is None else 'diff'} --process {process['process']}{after(since)}"
        return self.about(f"{words} --top {MOST_HANDLES}", self.read_handles)

    def read_handles(self, _, lines):
        rows, stacks = collections.defaultdict(list), collections.Counter()
        for line in lines:
            head, _, text = line.partition(STACK)
            stack = self.rows.stack(text)
            rows[stack.names].append(head + b"}")
            stacks[stack] += 1
        return Handles(rows, stacks)

    def bad(self, process):
        """The stacks that used handles which weren't open, and how often they used each."""
        return self.about(f"bad --process {process['process']}", self.read_bad)

    def read_bad(self, _, lines):
        heads, stacks, sites = [], [], Sites()
        for line in lines:  # (an answer may have a million, of which no two have the same handle and stack)
            head, _, text = line.partition(STACK)
            heads.append(head)
            stacks.append(self.rows.stack(text))
        sites.add_rows([(stack, handle, int(times)) for stack, (handle, times) in zip(stacks, BAD.findall(b"\n".join(heads)))])
        return sites

    def tags(self, number):
        """The tags of an object, those with the greatest balance first."""
        return self.about(f"tags --object {number}", self.read_tags)

    def read_tags(self, _, lines):
        return sorted(fields_of(lines), key=lambda tag: -tag["over"] - tag["under"])

    def balance(self, most):
        """The tags that don't balance on some object, those with most such objects first, and at most so many."""
        return self.about(f"balance --top {most}", self.read_all)

    def uses(self, number, tag):
        """The stacks that used a tag of an object, and how often they took and dropped a reference."""
        return self.about(f"stacks --object {number} --tag 0x{tag['bytes']}", self.read_uses)

    def uses_of_all(self, tag):
        """The same of all objects."""
        return self.about(f"balance --tag 0x{tag['bytes']}", self.read_uses)

    def read_uses(self, _, lines):
        sites, objects = Sites(), {}
        for line in lines:
            head, _, text = line.partition(STACK)
            references, dereferences, number = USE.match(head).groups()
            stack, counts = self.rows.stack(text), (int(references), int(dereferences))
            keys = sites.add(stack, sum(counts)).keys
            for side, count in zip(SIDES, counts):
                keys[side] = keys.get(side, 0) + count
            if number:
                objects[stack.names] = max(objects.get(stack.names, 0), int(number))
        return Uses(sites, objects)
