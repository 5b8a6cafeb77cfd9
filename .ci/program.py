"""Bundles of segments from lines, and the built program asked about them, once or in a dialogue: what the scripts beside this file
share."""

import contextlib
import os
import pty
import select
import shutil
import struct
import subprocess
import sys
import tempfile

TOP = os.path.join(os.path.dirname(os.path.abspath(__file__)), "..")
PROGRAM = os.path.join(TOP, "crates/hleak/out/hleak")
KINDS = {"O": 1, "C": 2, "B": 3, "S": 4, "R": 5, "D": 6, "exit": 7}


def record(sequence, kind, process=4, handle=0, object=0, tag=b"\0\0\0\0", frames=()):
    """The bytes of an event of thread 12, as docs/FORMAT.md has them."""
    fields = struct.pack("<QBBHIIIQ4s", sequence, kind, len(frames), 0, process, 12, handle, object, tag)
    return fields + struct.pack(f"<{len(frames)}Q", *frames)


def segment(processor, number, records=(), version=1, trace=7, processors=1):
    """The bytes of a segment with these records."""
    body = b"".join(records)
    fields = version, processors, processor, 0, number, trace, len(records), 32 + len(body)
    return struct.pack("<4sHHHHIQII", b"HLS1", *fields) + body


def sealed(body):
    """The bytes of a saved state: this body, and the end that fits it."""
    data = body + struct.pack("<Q", len(body) + 16)
    total = 0
    for byte in data:
        total = (total * 0x9E3779B97F4A7C15 + byte) % 2**64
    return data + struct.pack("<Q", total)


def event_of(line):
    """The bytes of an event such as `O 1 0x44 process=5 [0x50 0x20]`, `S 2` or `R 3 0x1000 Lky8`."""
    line, _, frames = line.partition("[")
    kind, sequence, *words = line.split()
    fields = {"frames": [int(frame, 0) for frame in frames.strip(" ]").split()]}
    if words and words[-1].startswith("process="):
        fields["process"] = int(words.pop()[len("process="):])
    if kind in ("R", "D"):
        fields["object"], fields["tag"] = int(words[0], 0), words[1].encode()
    elif words:
        fields["handle"] = int(words[0], 0)
    return record(int(sequence), KINDS[kind], **fields)


def bundle(*lines, **trace):
    """The bytes of segments such as `0/1: O 1 0x44, C 2 0x44`: of version 2 where they have an exit, else of 1."""
    segments = []
    for line in lines:
        key, _, events = line.partition(":")
        processor, number = (int(number, 0) for number in key.split("/"))
        records = [event_of(event) for event in events.split(",") if event.strip()]
        fields = {"version": 2 if "exit" in events else 1, **trace}
        segments.append(segment(processor, number, records, **fields))
    return b"".join(segments)


def changed(data, place, digits):
    """The bytes with those of the digits written over them at a place."""
    over = bytes.fromhex(digits)
    return data[:place] + over + data[place + len(over):]


def has(script, command, what):
    """Whether a command is on the path. Where it isn't, says what this script leaves out; .ci/run says it once more at its end."""
    there = shutil.which(command) is not None
    if not there:
        print(f"{script}: left out: {what}, since {command} is not on the path")
    return there


class Asking:
    """Asks the program, and counts its answers. The first one that isn't as wanted ends the script."""

    def __init__(self, script):
        self.script = script
        self.folder = tempfile.TemporaryDirectory()
        self.asked = 0
        if subprocess.run([os.path.join(TOP, "hleak"), "--version"], stdout=subprocess.DEVNULL).returncode:
            sys.exit(f"{script}: the program was not built")

    def file(self, name, data):
        """A file with these bytes, in the place of one of this name."""
        path = os.path.join(self.folder.name, name)
        with open(path, "wb") as file:
            file.write(data)
        return path

    def answer(self, words, files, most=None, limit="true", lines=None):
        """The status, the text and the lines on standard error, in at most so many bytes of addresses or under another limit. These lines
        are the standard input. Bytes that are no text stand in it as surrogates."""
        limit = f"ulimit -v {most // 1024}" if most else limit
        ended = subprocess.run(
            ["sh", "-c", limit + ' && exec "$0" "$@"', PROGRAM, *words.split(), *files],
            capture_output=True,
            input=lines,
            timeout=60,
            env={**os.environ, "MALLOC_ARENA_MAX": "1"},
        )
        return ended.returncode, ended.stdout.decode(errors="surrogateescape"), ended.stderr.decode()

    def at_terminal(self, words, files, most=None):
        """The same with a terminal as the standard error, with the line ends that the program wrote."""
        limit = f"ulimit -v {most // 1024} && " if most else ""
        master, terminal = pty.openpty()
        command = ["sh", "-c", limit + 'exec "$0" "$@"', PROGRAM, *words.split(), *files]
        program = subprocess.Popen(command, stdin=subprocess.DEVNULL, stdout=subprocess.PIPE, stderr=terminal)
        os.close(terminal)
        lines = b""
        while True:
            try:
                lines += os.read(master, 4096)
            except OSError:  # the terminal has no user any more
                break
        os.close(master)
        text = program.communicate(timeout=60)[0]
        return program.returncode, text.decode(), lines.decode().replace("\r\n", "\n")

    def least(self, words, files):
        """The least bytes of addresses, to 4 KB, in which the answer is what it is with room."""
        wanted = self.answer(words, files)
        refused, enough = 0, 1 << 30
        while enough - refused > 4096:
            most = (refused + enough) // 2
            if self.answer(words, files, most) == wanted:
                enough = most
            else:
                refused = most
        return enough

    def expect(self, name, words, files, status, text, most=None):
        """Compares the answer with a status, and with the text or, where it is a fault, its line."""
        got = self.answer(words, files, most)
        wanted = (0, text, "") if status == 0 else (status, "", f"{text}\n")
        self.demand(got == wanted, f"{name}, wanted {status} and {text[:200]!r}", got)

    def demand(self, holds, name, got):
        """Counts an answer, and ends the script where it isn't as wanted."""
        status, text, lines = got
        self.asked += 1
        if not holds:
            sys.exit(f"{self.script}: {name}: got {status} and {text[:200]!r}, {lines[:200]!r}")


class Talk:
    """The program, with which a script converses through pipes."""

    def __init__(self, words, limit="true", **streams):
        pipes = {"stdin": subprocess.PIPE, "stdout": subprocess.PIPE, "stderr": subprocess.PIPE, **streams}
        command = ["sh", "-c", limit + ' && exec "$0" "$@"', PROGRAM, "ask", *words]
        self.program = subprocess.Popen(command, bufsize=0, **pipes)

    def reply(self, line):
        """The reply to a line, up to its empty line. A program that gives none is killed, and then it's what there was."""
        with contextlib.suppress(BrokenPipeError):
            self.program.stdin.write(f"{line}\n".encode())
        reply = b""
        while reply != b"\n" and not reply.endswith(b"\n\n"):
            if not select.select([self.program.stdout], [], [], 60)[0]:
                self.program.kill()
            part = self.program.stdout.read(65536)
            if not part:
                break
            reply += part
        return reply

    def end(self, text=b""):
        """What was printed of this text after what was read so far, with the status and the lines of standard error."""
        printed, lines = self.program.communicate(text, timeout=60)
        return self.program.returncode, printed or b"", lines.decode()
