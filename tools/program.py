"""Runs a program of the repository on a file or on standard input: what tools/list, tools/crc, tools/replay and tools/scribe share.

The program is proved and built first, so that what runs is what the sources say. A program tells that it failed by what it says on
standard error and by the end of what it prints (docs/DECISIONS.md, 47).
"""
import os
import re
import subprocess
import sys
import threading

from common import TOP, Failed, Misused, held_back, is_noted, need_rt, open_input, program_of, prove, put, say, shown, status_of, tool

KEPT = 256  # bytes of the end of what is printed, more than a last line has
NAMED = 10  # bad lines that are named; of the others the number is told


class Complaints:
    """What a program says on standard error: the bad lines of a script or a text, with why the first is bad, and the rest."""

    def __init__(self, name):
        self.name, self.bad, self.numbers, self.why, self.others = name, 0, [], "", []

    def read(self, stream):
        rest = b""
        while piece := os.read(stream.fileno(), 65536):
            *lines, rest = (rest + piece).split(b"\n")
            self.take(lines)
        self.take([rest] if rest else [])

    def take(self, lines):
        for line in lines:
            words = line.decode("utf-8", "backslashreplace").strip()
            bad = re.fullmatch(r"(?:bad line|scribe: line) (\d+)(?:: (.+))?", words)
            if bad:
                self.bad += 1
                self.numbers += [bad[1]] if self.bad <= NAMED else []
                self.why = self.why or bad[2] or ""
            elif len(self.others) < NAMED:
                self.others.append(words)

    def bad_lines(self):
        more = " and %d more" % (self.bad - NAMED) if self.bad > NAMED else ""
        one = self.bad == 1
        lines = "line%s %s%s" % ("" if one else "s", ", ".join(self.numbers), more)
        if self.why:
            words = ("makes no block: " if one else "make no block, the first: ") + self.why
        else:
            words = "is no call" if one else "are no calls"
        return "%s %s; docs/REPLAY.md has the form of a line" % (lines, words)

    def told(self):
        """The complaints in our words, each with what to do."""
        ours = {
            self.name + ": cannot read standard input": "cannot be read to its end; what is printed is of the bytes before, so copy it or read it again",
            self.name + ": cannot write to standard output": "what was found cannot be written; write to another place",
            "lister: the run is full at 4294967295 bytes": "the run is full at 4294967295 bytes, and the rest is not listed; cut the file in parts",
        }
        return [ours.get(words, words) for words in self.others] + ([self.bad_lines()] if self.bad else [])


def copied(stream, to):
    """Writes what a program prints, by `to`, as it comes, and gives the end of it."""
    end = b""
    while piece := os.read(stream.fileno(), 65536):
        to(piece)
        end = (end + piece)[-KEPT:]
    return end


def built(name):
    """Has the program proved and built. `rt run` runs it then too, on an empty input. What tools/noted tells of needs nothing."""
    need_rt()
    if is_noted(name, program_of(name)):
        return
    if not os.path.exists(program_of(name)):
        say("proving and building %s; the first time takes some minutes" % name)
    prove("run", name)


def played(name, given, words=(), to=put):
    """Runs the program with these words. Gives what it complains of, its status and the end of what it prints."""
    command = [os.path.join(TOP, "tools", "x86run"), program_of(name), *words]
    ran = None
    try:
        with held_back():
            ran = subprocess.Popen(command, stdin=given, stdout=subprocess.PIPE, stderr=subprocess.PIPE, bufsize=0)
        complaints = Complaints(name)
        listener = threading.Thread(target=complaints.read, args=(ran.stderr,), daemon=True)
        listener.start()
        end = copied(ran.stdout, to)
        listener.join()
        ran.wait()
        return complaints, status_of(ran), end
    finally:
        if ran and ran.returncode is None:
            ran.kill()


def run(doc, name, last, unwhole):
    """The tool of the program `name`. What is printed whole ends with what the pattern `last` fits; `unwhole` is told where it
    does not."""

    def main(words):
        if len(words) > 1 or words and words[0].startswith("-") and words[0] != "-":
            raise Misused
        path = words[0] if words else "-"
        given = open_input(path)
        built(name)
        try:
            said, status, end = played(name, given)
        except Failed as why:
            raise Failed("%s: what was found cannot be written: %s" % (shown(path), why))
        complaints = said.told()
        if status and not complaints:
            complaints = ["the program %s ended with status %d; try again" % (name, status)]
        if not complaints and not re.search(last, end):
            complaints = [unwhole]
        if complaints:
            raise Failed("%s: %s" % (shown(path), ", and ".join(complaints)))

    sys.exit(tool(doc, main))
