"""The tools that read logs of Linux's calls, tried on logs: what the scripts about them share."""

import collections
import contextlib
import importlib.machinery
import io
import os
import re
import shutil
import subprocess
import sys

from converting import Converting
from program import TOP


def event(kind, descriptor, sequence, process=7, thread=None, frames=()):
    """The lines of an event."""
    handle = "" if descriptor is None else f" handle=0x{4 * (descriptor + 1) & 0xFFFFFFFF:x}"
    line = f"{kind}{handle} seq={sequence} process={process} thread={process if thread is None else thread}\n"
    return line + "".join(f"  0x{frame:016x}\n" for frame in frames)


def opened(*descriptors, **fields):
    return event("OPEN", *descriptors, **fields)


def closed(*descriptors, **fields):
    return event("CLOSE", *descriptors, **fields)


class Here(Converting):
    """The tool in this process, which takes less time than one for each of many logs. All that it writes is in files."""

    def __init__(self, tool):
        super().__init__(tool)
        sys.path.insert(0, os.path.join(TOP, "tools"))
        loaded = importlib.machinery.SourceFileLoader(tool.replace("-", "_"), os.path.join(TOP, "tools", tool))
        self.main = loaded.load_module().main

    def convert(self, text, *words):
        """The status, the text or None, and the lines on standard error."""
        with open(self.path("log0"), "wb") as file:
            file.write(text if isinstance(text, bytes) else text.encode())
        said, before = io.StringIO(), os.getcwd()
        os.chdir(self.folder.name)
        with contextlib.redirect_stderr(said):
            status = self.main([*words, "-o", "written", "log0"])
        os.chdir(before)
        return status, self.written("written"), said.getvalue()

    def conclude(self, answers, listed, tracer):
        """Says what was tried: how many answers, and how many descriptors of traced programs, or None where nothing could be traced."""
        traced = f"{listed} open descriptors of traced programs were those that the kernel lists"
        if listed is None:
            traced = f"nothing was traced, since {tracer} isn't here or isn't allowed to"
        print(f"{self.tool}: each of {self.read} logs was read as wanted, {traced}, and each of {answers} answers about the sample was as written")

    def compare(self, name, text, wanted, notes, *words):
        lines = "".join(f"{self.tool}: note: {note}\n" for note in notes)
        self.demand(name, (0, wanted, lines), self.convert(text, *words))


def rows_of(text):
    """The events of a text: their kind, descriptor and process."""
    found = re.findall(r"(?m)^(OPEN|CLOSE) handle=0x([0-9a-f]+) seq=\d+ process=(\d+)", text)
    return [(kind, int(handle, 16) // 4 - 1, int(process)) for kind, handle, process in found]


def open_at_end(text):
    """The descriptors of each process that are open after all events of a text."""
    left = collections.defaultdict(set)
    for kind, descriptor, process in rows_of(text):
        (left[process].add if kind == "OPEN" else left[process].discard)(descriptor)
    return left


def program_of_kernel(converting):
    """The program that prints what the kernel lists as open in it, or None where there is no compiler."""
    compiler = shutil.which("cc")
    if compiler:
        program = converting.path("descriptors")
        subprocess.run([compiler, "-w", "-pthread", "-o", program, os.path.join(TOP, ".ci/descriptors.c")], check=True)
        return program


def try_kernel(converting, turns, tracer, *words, finish=None):
    """A random program under a tracer, whose command for a turn is given and which writes the file `traced`: what is open in each of its
    processes at the end is what the kernel lists there, unless the tracer lost events. Gives how many these are."""
    program, listed = program_of_kernel(converting), 0
    if not program:
        return None
    for turn in range(turns):
        ended = subprocess.run([*tracer(turn), program, str(turn), *words], capture_output=True, text=True, timeout=300)
        if finish:
            finish()
        truth = {}
        for line in ended.stdout.splitlines():
            process, *numbers = map(int, line.split())
            truth[process] = {it for it in numbers if it > 2}
        with open(converting.path("traced"), encoding="utf-8") as file:
            status, text, said = converting.convert(file.read())
        if "lost events" in said:
            continue
        left = open_at_end(text or "")
        converting.demand(f"traced {turn}, {said}{ended.stderr}", (0, 0, truth), (status, ended.returncode, {it: left[it] for it in truth}))
        listed += sum(map(len, truth.values()))
    return listed
