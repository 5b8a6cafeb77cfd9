"""What is known before a page is made: the answers that several of its sections need."""
import collections

from .pages import element, joined
from .rows import Lines
from .telling import System

MOST_FINDINGS = 3  # of stacks that leave handles open


class Material:
    """The stacks that leave handles open, those with most handles first; how many handles the first ones had at moments, and of the first
    processes curves and handles. Sections add what they find to the findings."""

    def __init__(self, trace, given, files):
        self.trace, self.given, self.files = trace, given, files
        self.system = System(given.system)
        self.sites = trace.sites()
        most = max(given.top, MOST_FINDINGS)
        self.leaking = self.sites.greatest(most, files.known)
        trace.add_processes(self.leaking[:most])
        trace.questions.count(site.names for site in self.leaking[:most])
        self.lines = Lines([site.names for site in self.leaking], self.system)
        self.whole = sum(site.count for site in self.leaking)
        self.handles = {row["process"]: trace.handles(row) for row in trace.shown()}
        moments = trace.moments() if self.leaking else []
        self.moments = [(moment, trace.counts_at(moment)) for moment in moments]
        self.findings = []

    def points_of(self, site):
        """How many handles a site had as of each moment, and has now."""
        return [*((moment, counts[site.names]) for moment, counts in self.moments), (self.trace.last, site.count)]

    def middle(self):
        """The moment in the middle, and how many handles the stacks had as of it."""
        return self.moments[len(self.moments) // 2]

    def growth_of(self, site):
        """How many more handles a site has than in the middle."""
        return site.count - self.middle()[1][site.names] if self.moments else 0

    def handles_of(self, site):
        """The open handles of a site that were looked at one by one, each by its JSON."""
        return [row for found in self.handles.values() for row in found.rows.get(site.names, ())]

    def known(self):
        """The sites that the list of known ones has."""
        return [site for names, site in self.sites.sites.items() if names in self.files.known] if self.files.known else []

    def before(self):
        """How many handles each stack had in the older answer, without known ones."""
        return collections.Counter({names: count for names, count in self.files.before.items() if names not in self.files.known})

    def name_of(self, number):
        """An object, with what it is where that is known."""
        name = self.files.names.get(number)
        return joined("Object ", element("code", number), *([" (", element("code", name), ")"] if name else []))

    def as_of(self):
        """As of when handles count, and since when, in words."""
        until, since = self.trace.until, self.trace.since
        moment = "at the end" if until is None else f"as of sequence {until:,}"
        after = "the last snapshot of their process" if since == "snapshot" else f"sequence {since or 0:,}"
        return moment if since is None else f"{moment}, of those opened after {after}"
