"""A trace that a report is about: what the program answers about it."""
import collections

from hleaklib import Fault

from .questions import MOST_HANDLES, NO_HANDLES, Questions
from .sites import Sites

MOST_ROWS = 1000  # of a summary, where no more are needed
MOST_PROCESSES = 100  # whose stacks are asked for, those with most open handles
MOST_EXAMPLES = 3  # of objects on which a tag doesn't balance, where its stacks are asked for
MOST_MOMENTS, MOST_QUESTIONS = 7, 48  # as of which it is asked how many handles stacks had, and of how many processes each by itself


def is_unbalanced(tag):
    return tag["over"] or tag["under"]


def is_before(since, moment):
    """Whether a moment comes after the one from which on handles count, of which each may be None."""
    return None in (since, moment) or since < moment


class Trace:
    """A trace as of the moment that was given, or of its end. What sections tell is asked for before any is made, so that the program has
    always something to answer; and first what takes long to read, so that this is done while it answers the rest."""

    def __init__(self, dialogues, given):
        self.dialogues, self.questions, self.answers, self.own = dialogues, Questions(given), {}, {}
        self.asked_ahead = collections.deque()
        self.since, self.top, self.is_over_all = given.since, given.top, not given.process
        self.head, rows = self.summary(max(MOST_ROWS, given.top))
        self.until = self.questions.until = self.head.get("until")
        before = self.head["gaps"] + self.head["processes"]
        self.gaps, every = rows[: self.head["gaps"]], rows[self.head["gaps"] : before]
        self.processes = [row for row in every if given.process is None or row["process"] in given.process]
        self.found = [row for row in self.processes if row["outstanding"] or row["bad"]]
        self.objects = [] if given.process else rows[before : before + given.top]
        self.numbers_shown = {row["process"] for row in self.shown()}
        for number in given.process or ():
            if all(row["process"] != number for row in every):
                raise Fault(f"process {number}", "it has no open, close or bad reference here, or none up to --until")
        of_objects = [] if given.process else [self.questions.balance(given.top)]
        self.ask([*of_objects, *map(self.questions.growth, self.shown()[:1]), *(self.questions.tags(row["object"]) for row in self.objects)])
        self.ask(map(self.questions.bad, self.used_badly()))
        self.ask([*map(self.questions.growth, self.shown()[1:]), *self.questions_of_handles()])
        head, self.balance = self.told(of_objects[0]) if of_objects else ({"count": 0}, [])
        self.unbalanced = head["count"]  # tags, of which these are the first
        points = self.growth(self.found[0]) if self.found else [(0, 0)]
        self.first, self.last = points[0][0], points[-1][0]
        self.ask(self.questions_of_moments())
        self.tags_shown = self.examples()
        self.ask(self.questions_of_objects())

    def ask(self, questions):
        """Asks questions, whose answers are read once one of them is told."""
        questions = list(questions)
        self.asked_ahead.extend(questions)
        self.dialogues.ask(question.text for question in questions)

    def read_answer(self):
        """Keeps what is taken of the next answer."""
        question, lines = self.asked_ahead.popleft(), self.dialogues.answer()
        head = next(lines, None)
        if head is None:
            raise Fault(question.text, "the program has no answer")
        self.answers[question.text] = question.read(head, lines)

    def told(self, question):
        """What was taken of the answer to a question."""
        while question.text not in self.answers:
            if not self.asked_ahead:
                self.ask([question])
            self.read_answer()
        return self.answers[question.text]

    def summary(self, most):
        """The summary with all gaps and processes. There may be many objects, so only the first ones are asked for where that is enough."""
        head, rows = self.told(self.questions.summary(most))
        return (head, rows) if head["processes"] <= most else self.told(self.questions.summary(None))

    # ---- what is asked ahead

    def questions_of_handles(self):
        yield from (self.questions.handles(process) for process in self.shown() if process["outstanding"])
        for process in self.asked():
            if not self.is_told_by_handles(process) and self.is_after(process, self.until):
                yield self.questions.leaks(process)

    def questions_of_moments(self):
        if self.is_over_all:
            yield self.questions.sites()
        for moment in self.moments():
            yield from self.questions_at(moment)

    def questions_at(self, moment):
        """The questions that tell how many handles stacks had as of a moment."""
        if self.is_by_sites():
            return [self.questions.sites_at(moment)] if is_before(self.since, moment) else []
        return [self.questions.leaks_at(process, moment) for process in self.asked() if self.is_after(process, moment)]

    def questions_of_objects(self):
        yield from map(self.questions.uses_of_all, self.balance)
        for number, tags in self.tags_shown.items():
            for tag in tags:
                yield self.questions.uses(number, tag)

    # ---- what is told of processes

    def shown(self):
        """The processes of which all is told."""
        return self.found[: self.top]

    def used_badly(self):
        """Those of them that used handles which weren't open."""
        return [process for process in self.shown() if process["bad"]]

    def asked(self):
        """The processes that are asked for the stacks of their open handles."""
        return [process for process in self.processes if process["outstanding"]][:MOST_PROCESSES]

    def is_told_by_handles(self, process):
        """Whether the open handles of a process are looked at one by one, and are not too many: they tell the stacks too."""
        return process["outstanding"] <= MOST_HANDLES and process["process"] in self.numbers_shown

    def is_after(self, process, moment):
        """Whether a moment comes after the one from which on handles of a process count."""
        return is_before(self.questions.since_of(process), moment)

    def leaks(self, process):
        """The stacks of a process with open handles, and how many handles each has."""
        return self.told(self.questions.leaks(process)) if self.is_after(process, self.until) else []

    def sites_of(self, process):
        """The stacks of a process with open handles."""
        number = process["process"]
        if number not in self.own:
            self.own[number] = sites = Sites()
            if self.is_told_by_handles(process):
                leaks = self.handles(process).stacks.items()
            else:
                leaks = self.leaks(process) if process["outstanding"] else []
            for stack, count in leaks:
                sites.add(stack, count)
        return self.own[number]

    def sites(self):
        """Every stack that leaves handles open in the processes that the page is about."""
        sites, each = Sites(), [self.sites_of(process) for process in self.asked()]
        if self.is_over_all:
            stacks = self.told(self.questions.sites())
        else:
            stacks = [it for its in each for site in its.sites.values() for it in site.stacks.items()]
        for stack, count in stacks:
            sites.add(stack, count)
        return sites

    def add_processes(self, sites):
        """Adds to sites how many of their handles those processes have that were asked."""
        for process in self.asked():
            own = self.sites_of(process).sites
            for site in sites:
                if site.names in own:
                    site.keys[process["process"]] = own[site.names].count

    def is_by_sites(self):
        """Whether one question tells how many handles stacks had as of a moment: not of some processes, and not since snapshots of the
        end."""
        return self.is_over_all and self.since != "snapshot"

    def moments(self):
        """Moments between the first sequence and the last one: 7, or as few as make the middle alone where many processes are asked."""
        questions = 1 if self.is_by_sites() else max(len(self.asked()), 1)
        between = next((count for count in (MOST_MOMENTS, 5, 3) if count * questions <= MOST_QUESTIONS), 1)
        moments = {self.first + at * (self.last - self.first) // (between + 1) for at in range(1, between + 1)}
        return sorted(moments - {self.last})

    def counts_at(self, moment):
        """How many handles the stacks that are counted had as of a moment, by the names of their calls."""
        return sum(map(self.told, self.questions_at(moment)), collections.Counter())

    def growth(self, process):
        return self.told(self.questions.growth(process))

    def handles(self, process):
        return self.told(self.questions.handles(process)) if process["outstanding"] else NO_HANDLES

    def bad(self, process):
        return self.told(self.questions.bad(process))

    # ---- what is told of objects

    def tags(self, number):
        return self.told(self.questions.tags(number))

    def examples(self):
        """By object the tags whose stacks are shown there: the first that don't balance, each on few objects, as most look alike; and in all
        some as many as the lists have rows. On the only object they would be those of all objects."""
        shown, times = {}, collections.Counter()
        most = 0 if self.head["objects"] == 1 else MOST_EXAMPLES
        for row in self.objects:
            tags = [tag for tag in self.tags(row["object"]) if is_unbalanced(tag) and times[tag["bytes"]] < most]
            shown[row["object"]] = first = tags[: max(1, self.top // len(self.objects))]
            times.update(tag["bytes"] for tag in first)
        return shown

    def uses(self, number, tag):
        return self.told(self.questions.uses(number, tag))

    def uses_of_all(self, tag):
        return self.told(self.questions.uses_of_all(tag))
