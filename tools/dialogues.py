"""Dialogues with the program, for tools that ask it many questions."""
import collections
import contextlib
import fcntl
import os
import queue
import re
import stat
import subprocess
import sys
import threading
import time

from hleaklib import Ended, workers

MOST_PIPE_BYTES = 1 << 20  # that a pipe may be made to hold
MOST_BLOCKS = 32  # of at most as many bytes, which are kept of answers that nobody has taken yet
MOST_DIALOGUES = 3
SECONDS_AT_REST = 5  # since a file was written to: a trace that goes on has an event each second
MOST_AHEAD = 256  # questions that wait for their answers; their lines have to fit into a pipe


class Dialogue:
    """`hleak ask` over files, which it reads once."""

    def __init__(self, program, words, is_first):
        pipes = {"stdin": subprocess.PIPE, "stdout": subprocess.PIPE, "stderr": None if is_first else subprocess.PIPE}
        self.hleak = subprocess.Popen([program, "ask", *words], bufsize=0, **pipes)
        with contextlib.suppress(AttributeError, OSError):  # (before Python 3.10, and where the system has no room)
            fcntl.fcntl(self.hleak.stdout, fcntl.F_SETPIPE_SZ, MOST_PIPE_BYTES)
        self.blocks, self.printed = queue.Queue(MOST_BLOCKS), self.all_lines()
        threading.Thread(target=self.read, daemon=True).start()

    def read(self):
        """Keeps what the program prints, so that it goes on to the next question before its answer is taken."""
        while block := self.hleak.stdout.read(MOST_PIPE_BYTES):
            self.blocks.put(block)
        self.blocks.put(b"")

    def all_lines(self):
        """The lines of all answers, without their ends."""
        begun = b""
        while block := self.blocks.get():
            *lines, begun = (begun + block).split(b"\n")
            yield from lines

    def ask(self, question):
        with contextlib.suppress(BrokenPipeError):
            self.hleak.stdin.write(f"{question} --json\n".encode())

    def lines(self):
        """The lines of the next answer in JSON, one by one, as bytes. All have to be taken before those of another one."""
        for line in self.printed:
            if not line:  # ends the answer
                return
            yield line
        if self.hleak.stderr:  # what the first one says too, but for this
            sys.stderr.write(self.hleak.stderr.read().decode(errors="replace"))
        raise Ended(self.hleak.wait())


def is_at_rest(path):
    """Whether a file can be read again, and is the same then: nobody seems to be writing to it."""
    told = os.stat(path)
    return stat.S_ISREG(told.st_mode) and time.time() - told.st_mtime > SECONDS_AT_REST


def number_of(files):
    """How many dialogues may read the files: several where a processor is there for each, and twice the memory that they take by what was
    measured."""
    try:
        if not all(map(is_at_rest, files)):
            return 1
    except OSError:  # (the program will say what is wrong with the file)
        return 1
    with open("/proc/meminfo", encoding="ascii") as file:
        there = 1024 * int(re.search(r"MemAvailable: *(\d+)", file.read())[1])
    return max(1, min(MOST_DIALOGUES, os.cpu_count() or 1, there // max(1, 2 * sum(map(os.path.getsize, files)))))


class Dialogues:
    """Dialogues over the same files, which share the questions."""

    def __init__(self, program, options, files):
        words = [workers(), *options, "--", *files]
        self.dialogues = [Dialogue(program, words, is_first=at == 0) for at in range(number_of(files))]
        self.questions, self.waiting = collections.deque(), collections.deque()  # (those that are asked: their dialogues)

    def __enter__(self):
        return self

    def __exit__(self, fault, *_):
        while self.waiting and not fault:
            collections.deque(self.answer(), maxlen=0)  # (else the program would say that it can't write answers that nobody needed)
        for dialogue in self.dialogues:
            if fault:
                dialogue.hleak.kill()  # (for the same reason)
            dialogue.hleak.stdin.close()
        for dialogue in self.dialogues:
            dialogue.hleak.wait()

    def ask(self, questions):
        """Asks questions ahead, so that answers are made while those before them are read and told of."""
        self.questions.extend(questions)
        while self.questions and len(self.waiting) < MOST_AHEAD:
            self.dialogues[0].ask(self.questions.popleft())
            self.waiting.append(self.dialogues[0])
            self.dialogues.append(self.dialogues.pop(0))  # the next question is another one's

    def answer(self):
        """The lines of the next answer, in the order of the questions."""
        dialogue = self.waiting.popleft()
        self.ask([])
        return dialogue.lines()
