"""What the tests of the program share: lines of scenarios by rule, and running them."""

import subprocess

from common import PROGRAM

ALL = "ff:ff:ff:ff:ff:ff"
DUO = ["node A 02:00:00:00:00:0a", "node B 02:00:00:00:00:0b", "link A B", "link B A"]
A, B = "02:00:00:00:00:0a", "02:00:00:00:00:0b"


def node_mac(number):
    return f"02:00:00:00:00:{number:02x}"


def client(number):
    """The address of a client: 02:00:00:00:01:01 for number 1."""
    return f"02:00:00:00:{1 + number // 256:02x}:{number % 256:02x}"


def frame(node, number, text="x", dst=ALL, vid="-"):
    """The line of a frame of this client."""
    return f"frame {node} {client(number)} {dst} {vid} {text}"


def received(moment, node, number, text="x", dst=ALL):
    return f"recv {moment} {node} - {client(number)} {dst} {text}"


def run_bytes(data, *words, seconds=60):
    """The status, the output and the error output of the program over these bytes."""
    done = subprocess.run(
        [PROGRAM, *words], input=data, capture_output=True, check=False, timeout=seconds
    )
    return done.returncode, done.stdout.decode(), done.stderr.decode()


def run_lines(lines, *words, seconds=60):
    return run_bytes(text_of(lines).encode(), *words, seconds=seconds)


def text_of(lines):
    return "".join(line + "\n" for line in lines)


def finished(lines):
    """How a run ends that prints these lines."""
    return 0, text_of(lines), ""


def limited(number, name, printed=()):
    """How a run ends at line number of which a limit would be passed."""
    return 6, text_of(printed), f"batmesh: line {number}: limit {name}\n"
