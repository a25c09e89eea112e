"""What the tests share: running a tool, loading one as a module, and what isn't there."""

import contextlib
import importlib.machinery
import importlib.util
import io
import os
import shutil
import sys
import tempfile
import unittest
from pathlib import Path
from unittest import mock

import batmesh_run

TOOLS = Path(__file__).resolve().parent.parent
TOP = TOOLS.parent
EXAMPLES = TOP / "examples"
DATA = Path(__file__).resolve().parent / "data"
BUILT = TOP / "crates" / "batmesh" / "out" / "batmesh"
PROGRAM = os.environ.get("BATMESH") or (str(BUILT) if BUILT.is_file() else None)

needs_program = unittest.skipUnless(
    PROGRAM, "the program isn't built; BATMESH in the environment may name one"
)
needs_dpkt = unittest.skipUnless(
    importlib.util.find_spec("dpkt"), "dpkt isn't installed (python3-dpkt)"
)


def needs_command(name, package):
    return unittest.skipUnless(shutil.which(name), f"{name} isn't installed ({package})")


def load_tool(name):
    """A tool as a module."""
    loader = importlib.machinery.SourceFileLoader(f"tool_{name}", str(TOOLS / name))
    module = importlib.util.module_from_spec(importlib.util.spec_from_loader(loader.name, loader))
    sys.modules[loader.name] = module
    loader.exec_module(module)
    return module


@contextlib.contextmanager
def running(program):
    """Has the tools run this program."""
    batmesh_run.program.cache_clear()
    with mock.patch.dict(os.environ, BATMESH=str(program or "/no/program")):
        yield


def run_tool(name, *words, program=PROGRAM, text=""):
    """Runs a tool in this process, and answers its status, its output as bytes, its error text."""
    tool = load_tool(name)
    out, said = io.TextIOWrapper(io.BytesIO()), io.StringIO()
    given = io.TextIOWrapper(io.BytesIO(text.encode()))
    status = 0
    with (
        running(program),
        mock.patch.object(sys, "argv", [str(TOOLS / name), *map(str, words)]),
        mock.patch.object(sys, "stdin", given),
        contextlib.redirect_stdout(out),
        contextlib.redirect_stderr(said),
    ):
        try:
            batmesh_run.main_of(tool.work)
        except SystemExit as end:
            status = end.code or 0
        out.flush()
    return status, out.buffer.getvalue(), said.getvalue()


def printed_of(text, frames="none"):
    """What the program prints of a scenario that it carries out to its end."""
    with running(PROGRAM):
        return batmesh_run.run_whole(text, frames)


STAND_IN = """#!{0}
import sys
printed, refused = {1!r}, {2!r}
own = 0
for number, line in enumerate(sys.stdin, start=1):
    if line.startswith("decode 030f02ba7a6d6573"):
        mark = int(line[23:31], 16)
        print("packet elp orig=02:ba:7a:6d:65:73 seq=%d interval=0" % mark, flush=True)
        continue
    own += 1
    if own == refused:
        print("batmesh: line %d: unknown name" % number, file=sys.stderr)
        sys.exit(1)
    for text in printed.get(own, ()):
        print(text)
"""


class Folder(unittest.TestCase):
    """A test with a folder of its own."""

    def setUp(self):
        held = tempfile.TemporaryDirectory()
        self.addCleanup(held.cleanup)
        self.folder = Path(held.name)

    def stand_in(self, printed, refused=None):
        """A program that prints, of each line of its input by number, what is written down here.

        Lines with a tool's mark aren't counted, and print the mark. At the refused line, if there
        is one, it ends as the program does.
        """
        path = self.write("stand_in", STAND_IN.format(sys.executable, printed, refused))
        path.chmod(0o755)
        return path

    def write(self, name, content):
        path = self.folder / name
        path.write_bytes(content if isinstance(content, bytes) else content.encode())
        return path
