"""The tools that read logs of the debugger, tried on logs: what the scripts about them share."""

import itertools
import os
import subprocess
import sys
import tempfile

from program import TOP, Asking

BLOCK = 1 << 20  # letters that a tool reads at once, and then the rest of their line


class Converting:
    """Runs a tool on logs, and counts them. The first one that isn't read as wanted ends the script."""

    def __init__(self, tool):
        self.tool = tool
        self.folder = tempfile.TemporaryDirectory()
        self.read = 0

    def path(self, name):
        return os.path.join(self.folder.name, name)

    def written(self, name):
        """The text of a file that the tool has written, which is taken away; or None."""
        try:
            with open(self.path(name), "rb") as file:
                text = file.read().decode()
            os.remove(self.path(name))
        except FileNotFoundError:
            return None
        return text

    def run(self, words, logs):
        """The status and what is written to standard output and standard error. The logs are log0, log1 and so on."""
        for place, log in enumerate(logs):
            with open(self.path(f"log{place}"), "wb") as file:
                file.write(log if isinstance(log, bytes) else log.encode())
        names = [f"log{place}" for place in range(len(logs))]
        command = [os.path.join(TOP, "tools", self.tool), *words, *names]
        ended = subprocess.run(command, cwd=self.folder.name, capture_output=True, timeout=60)
        return ended.returncode, ended.stdout.decode(), ended.stderr.decode()

    def demand(self, name, wanted, got):
        self.read += 1
        if got != wanted:
            sys.exit(f"{self.tool}: {name}: wanted {wanted}, and got {got}")

    def expect(self, name, logs, text, notes=(), table=None, words=()):
        """Compares the text, the notes and the table, where there is to be one, of logs: on standard output, and in a file."""
        words = [*words, *(["--symbols", "names.csv"] if table is not None else [])]
        lines = "".join(f"{self.tool}: note: {note}\n" for note in notes)
        plain = *self.run(words, logs), self.written("names.csv")
        to_file = *self.run([*words, "-o", "written"], logs), self.written("names.csv"), self.written("written")
        self.demand(name, ((0, text, lines, table), (0, "", lines, table, text)), (plain, to_file))

    def expect_in_blocks(self, log):
        """The text is that of the log where blanks before it make the first block that is read end behind each of its lines."""
        wanted = self.run([], [log])
        for size in itertools.accumulate(map(len, log.splitlines(keepends=True))):
            self.demand(f"a block that ends behind {size} letters", wanted, self.run([], [" " * (BLOCK + 1 - size) + log]))

    def refuse(self, logs, why, words=()):
        """Nothing is written for logs with this fault."""
        got = *self.run([*words, "-o", "written"], logs), self.written("names.csv"), self.written("written")
        self.demand(why, (3, "", f"{self.tool}: {why}\n", None, None), got)

    def sample(self, name):
        """The text of a file of samples/."""
        with open(os.path.join(TOP, "samples", name), encoding="utf-8") as file:
            return file.read()

    def ask_about_sample(self, commands, answers):
        """Runs the commands, which write into a folder {0}, and asks the program about what they made there. Each answer has to be
        a text in samples/."""
        asking = Asking(self.tool)
        folder = asking.folder.name
        subprocess.run(["bash", "-e", "-o", "pipefail", "-c", commands.format(folder)], cwd=TOP, check=True)
        for name, words, bundle in answers:
            asking.expect(name, f"{words} --symbols {folder}/names.csv", [f"{folder}/{bundle}"], 0, self.sample(name))
        return asking.asked
