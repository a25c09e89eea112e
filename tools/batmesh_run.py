"""What the tools share: the program, scenarios, and the lines that the program prints.

Nothing here is proved. The tools stand beside the program and only use what it reads and prints.
"""

import argparse
import functools
import os
import re
import subprocess
import sys
from dataclasses import dataclass
from pathlib import Path

FRAME_CHOICES = ("none", "all", "client", "ogm")
NODES_LIMIT = 64
LINKS_LIMIT = 512
LINE_LIMIT = 4096
TICK = 500  # ms


class Trouble(Exception):
    """What a tool can't go on after. It is told on standard error, and the status is 2."""


def main_of(work):
    """Runs a tool's work, and ends the process: with 0, or with 2 after telling what is wrong."""
    tool = "tools/" + Path(sys.argv[0]).name
    try:
        work()
        sys.stdout.flush()
    except Trouble as trouble:
        print(f"{tool}: {trouble}", file=sys.stderr)
        sys.exit(2)
    except KeyboardInterrupt:
        sys.exit(130)
    except BrokenPipeError:
        # Whoever reads the output has had enough of it.
        os.dup2(os.open(os.devnull, os.O_WRONLY), sys.stdout.fileno())
        sys.exit(0)


def words_parser(about):
    """A parser for a tool's words, whose help is the tool's own head."""
    return argparse.ArgumentParser(
        description=about,
        epilog="tools/README.md has an example.",
        formatter_class=argparse.RawDescriptionHelpFormatter,
    )


# Scenarios


@dataclass(frozen=True)
class Line:
    """A line of a scenario: its number from 1, its text, and its words (none of a comment)."""

    number: int
    text: str
    words: tuple

    @property
    def command(self):
        return self.words[0] if self.words else ""


@dataclass(frozen=True)
class Link:
    """A link line: from a node to a node, with its options as the line has them."""

    number: int
    sender: str
    receiver: str
    delay: int
    pattern: str
    throughput: int

    @property
    def ends(self):
        return (self.sender, self.receiver)

    @property
    def loss(self):
        """The share of the frames that the pattern's marks don't let through, 0 to 1."""
        lost = sum(self.pattern.count(mark) for mark in "xh")
        return lost / len(self.pattern)

    def text(self, pattern=None):
        """The line, with this pattern in place of its own."""
        words = ["link", self.sender, self.receiver]
        if self.delay != 1:
            words.append(f"delay={self.delay}")
        if (pattern or self.pattern) != ".":
            words.append(f"pattern={pattern or self.pattern}")
        if self.throughput != 10:
            words.append(f"tp={self.throughput}")
        return " ".join(words)


def read_bytes(name):
    """The bytes of a file, or of standard input where the name is -."""
    try:
        return sys.stdin.buffer.read() if name == "-" else Path(name).read_bytes()
    except OSError as error:
        raise Trouble(f"can't read {name}: {error.strerror}") from error


def read_text(name):
    try:
        return read_bytes(name).decode()
    except UnicodeDecodeError as error:
        raise Trouble(f"{name} isn't UTF-8, at byte {error.start}") from error


def scenario_lines(text):
    """The lines of a scenario, as the program cuts them."""
    texts = text.split("\n")
    if texts[-1] == "":
        texts.pop()
    return [_line(number, line) for number, line in enumerate(texts, start=1)]


def _line(number, text):
    text = text.removesuffix("\r")
    words = tuple(word for word in re.split("[ \t]+", text) if word)
    if words and words[0].startswith("#"):
        words = ()
    return Line(number, text, words)


def nodes_of(lines):
    """The address of each node by its name, in the order of the lines."""
    return {
        line.words[1]: line.words[2].lower()
        for line in lines
        if line.command == "node" and len(line.words) == 3
    }


def links_of(lines):
    """The links of a scenario, in the order of the lines."""
    return [link_of(line) for line in lines if line.command == "link"]


def link_of(line):
    options = {"delay": "1", "pattern": ".", "tp": "10"}
    for word in line.words[3:]:
        name, equals, value = word.partition("=")
        if not equals or name not in options:
            raise Trouble(f"line {line.number}: {word} is no option of a link")
        options[name] = value
    if len(line.words) < 3 or not options["delay"].isdigit() or not options["tp"].isdigit():
        raise Trouble(f"line {line.number}: this is no whole link line: {line.text}")
    if not re.fullmatch("[.x2h]{1,64}", options["pattern"]):
        raise Trouble(f"line {line.number}: a pattern has 1 to 64 of the marks . x 2 h")
    return Link(
        line.number,
        line.words[1],
        line.words[2],
        int(options["delay"]),
        options["pattern"],
        int(options["tp"]),
    )


def run_length(line):
    """The milliseconds that pass in a line; 0 of a run that the program refuses."""
    if line.command != "run" or not re.fullmatch("[0-9]+", " ".join(line.words[1:])):
        return 0
    return int(line.words[1])


def moments_of(lines):
    """The moment at which each line is begun, in milliseconds, by the line's number."""
    now = 0
    moments = {}
    for line in lines:
        moments[line.number] = now
        now += run_length(line)
    return moments


# What the program prints


@dataclass(frozen=True)
class Frame:
    """A link frame (sender and receiver are nodes) or a LAN frame (both are the LAN)."""

    number: int
    moment: int
    sender: str
    receiver: str
    head: str  # the words before the bytes
    data: bytes
    of_lan: bool


LINK_FRAME = re.compile(r"(f(\d+) (\d+) (\w+)>(\w+) \w+(?: by=\w+)?) ([0-9a-f]+)")
LAN_FRAME = re.compile(r"(l(\d+) (\d+) (\w+) (?:client|claim|unclaim|announce)) ([0-9a-f]+)")


def frame_of(line):
    """The frame that a printed line tells of, or None where it tells of something else."""
    if found := LINK_FRAME.fullmatch(line):
        head, number, moment, sender, receiver, data = found.groups()
        return Frame(
            int(number), int(moment), sender, receiver, head, bytes.fromhex(data), False
        )
    if found := LAN_FRAME.fullmatch(line):
        head, number, moment, lan, data = found.groups()
        return Frame(int(number), int(moment), lan, lan, head, bytes.fromhex(data), True)
    return None


def frames_of(printed):
    """The frames among printed lines, in their order."""
    return [frame for line in printed if (frame := frame_of(line)) is not None]


# The program


@dataclass(frozen=True)
class Run:
    """What a run of the program left: its printed lines, its status, its error text."""

    printed: list
    status: int
    error: str


@functools.cache
def program():
    """The program's file: BATMESH in the environment, else bin/batmesh beside the tools."""
    chosen = os.environ.get("BATMESH")
    found = Path(chosen) if chosen else Path(__file__).resolve().parent.parent / "bin" / "batmesh"
    if not os.access(found, os.X_OK):
        raise Trouble(f"there is no program {found}; BATMESH in the environment names another")
    if not chosen:
        # Where it has to be built first, this tells so, and takes its time.
        subprocess.run([found], stdin=subprocess.DEVNULL, check=False)
    return str(found)


def run(text, frames="none"):
    """Runs the program on a scenario to its end."""
    try:
        done = subprocess.run(
            [program(), "--frames", frames], input=text.encode(), capture_output=True, check=False
        )
    except OSError as error:
        raise Trouble(f"can't run {program()}: {error.strerror}") from error
    printed = done.stdout.decode().split("\n")[:-1]
    return Run(printed, done.returncode, done.stderr.decode().strip())


def run_whole(text, frames="none"):
    """Runs the program on a scenario that it has to carry out to its end."""
    done = run(text, frames)
    if done.status != 0:
        raise Trouble(done.error or f"the program ended with status {done.status}")
    return done.printed


# Marks: a line of the language that prints just its own number, so that the output of one line can
# be told from that of the next. It is the decoding of a link probe with that number.


def mark_line(number):
    """A line that prints the mark with this number."""
    return f"decode 030f02ba7a6d6573{number:08x}00000000"


def mark_printed(number):
    """What a mark's line prints."""
    return f"packet elp orig=02:ba:7a:6d:65:73 seq={number} interval=0"


def run_by_line(lines, frames="none"):
    """Runs scenario lines, and answers what each line printed, and how the run ended.

    The first is a list of the printed lines by line, as far as the run came. The error text of the
    second has the number of the line as it is given here.
    """
    marked = []
    for place, line in enumerate(lines, start=1):
        marked += [line.text, mark_line(place)]
    done = run("".join(text + "\n" for text in marked), frames)
    printed = [[]]
    for text in done.printed:
        if text == mark_printed(len(printed)):
            printed.append([])
        else:
            printed[-1].append(text)
    if done.status == 0:
        printed.pop()
    error = re.sub(
        r"line (\d+)", lambda found: f"line {lines[(int(found[1]) - 1) // 2].number}", done.error
    )
    return printed, Run(done.printed, done.status, error)


class Talk:
    """The program under way: lines go in, and what they print comes out line by line."""

    def __init__(self, frames="all"):
        try:
            self._process = subprocess.Popen(
                [program(), "--frames", frames],
                stdin=subprocess.PIPE,
                stdout=subprocess.PIPE,
                stderr=subprocess.PIPE,
                encoding="utf-8",
            )
        except OSError as error:
            raise Trouble(f"can't run {program()}: {error.strerror}") from error
        self._marks = 0

    def __enter__(self):
        return self

    def __exit__(self, *_):
        self._process.kill()
        self._process.communicate()

    def say(self, text):
        """Gives the program a line, and answers the lines that it printed of it."""
        self._marks += 1
        try:
            self._process.stdin.write(f"{text}\n{mark_line(self._marks)}\n")
            self._process.stdin.flush()
        except BrokenPipeError:
            pass  # the output ends, and the error text tells why
        return list(self._printed_to(mark_printed(self._marks)))

    def _printed_to(self, mark):
        for line in self._process.stdout:
            line = line.removesuffix("\n")
            if line == mark:
                return
            yield line
        self._refused()

    def _refused(self):
        said = self._process.stderr.read().strip()
        raise Trouble(re.sub(r"^batmesh: (line \d+: )?", "", said) or "the program ended early")
