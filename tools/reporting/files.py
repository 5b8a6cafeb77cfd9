"""What stands in the files of a report's options."""
from hleaklib import names_of


class Files:
    """Known stacks, an older answer, and what opens or objects are."""

    def __init__(self, given):
        self.known, self.before = set(), None
        if given.known or given.before:
            from stacklists import known_of, leaks_of  # (few reports have such files)

            self.known = known_of(given.known, False) if given.known else set()
            self.before = leaks_of(given.before, False) if given.before else None
        self.names = names_of(given.names) if given.names else {}
