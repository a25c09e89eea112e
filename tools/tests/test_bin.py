"""What bin/batmesh says before and after the program, over a stand-in for the program."""

import os
import pty
import shutil
import subprocess

from common import TOP, Folder

# It refuses line 2 of its input, or gives the texts and statuses that its first word asks for.
STAND_IN = """#!/bin/sh
case $1 in
    --usage) echo 'batmesh: usage' >&2; exit 2 ;;
    --fault) echo 'batmesh: read fault' >&2; exit 3 ;;
esac
echo printed
echo 'batmesh: line 2: bad mac' >&2
exit 1
"""


class Script(Folder):
    def setUp(self):
        super().setUp()
        self.script = self.folder / "bin" / "batmesh"
        self.program = self.folder / "crates" / "batmesh" / "out" / "batmesh"
        for path in (self.script, self.program):
            path.parent.mkdir(parents=True)
        shutil.copy(TOP / "bin" / "batmesh", self.script)
        shutil.copy(TOP / "README.md", self.folder)
        self.write("crates.txt", "batmesh:\n")
        self.program.write_text(STAND_IN)
        self.program.chmod(0o755)
        self.scenario = self.write("s.scn", "node A 02:00:00:00:00:0a\nnode B nonsense\\t\n")

    def call(self, *words, at_terminal=False, given=subprocess.DEVNULL, path=None):
        """The status, the output, and what came on standard error."""
        mine, theirs = pty.openpty() if at_terminal else os.pipe()
        done = subprocess.run(
            [self.script, *words], stdin=given, stdout=subprocess.PIPE, stderr=theirs,
            env={**os.environ, "PATH": path or os.environ["PATH"]}, check=False,
        )
        os.close(theirs)
        said = b""
        try:
            while piece := os.read(mine, 4096):
                said += piece
        except OSError:
            pass  # a terminal ends so
        os.close(mine)
        return done.returncode, done.stdout.decode(), said.decode().replace("\r\n", "\n")

    def test_help_and_version_come_without_a_program(self):
        self.program.unlink()
        for words in (["-h"], ["--help"], ["--frames", "all", "--help"]):
            status, out, said = self.call(*words)
            self.assertEqual((status, said), (0, ""))
            self.assertTrue(out.startswith("usage: bin/batmesh"))
        status, out, said = self.call("--version")
        self.assertEqual((status, said), (0, ""))
        self.assertTrue(out.startswith("batmesh "))
        self.assertIn("proved with rattle-kit", out)

    def test_a_file_that_isnt_there_is_a_read_fault_without_a_program(self):
        self.program.unlink()
        for words in (["none"], ["--frames", "all", "none"], ["--frames=ogm", "--", "--help"]):
            self.assertEqual(self.call(*words), (3, "", "batmesh: read fault\n"))
        status, _, said = self.call("none", at_terminal=True)
        self.assertEqual(status, 3)
        self.assertEqual(
            said, "batmesh: read fault\nbin/batmesh: can't read 'none': there is no such file\n"
        )
        _, _, said = self.call(self.folder, at_terminal=True)
        self.assertIn("it is a folder", said)
        _, _, said = self.call("-", at_terminal=True)
        self.assertIn("without a FILE, standard input is read", said)

    def test_words_that_arent_in_order_are_the_programs(self):
        for words in (["--usage", "none"], ["--usage", "--frames", "x", "none"]):
            self.assertEqual(self.call(*words), (2, "", "batmesh: usage\n"))

    def test_away_from_a_terminal_nothing_is_added(self):
        self.assertEqual(
            self.call(self.scenario), (1, "printed\n", "batmesh: line 2: bad mac\n")
        )

    def test_the_refused_line_is_shown(self):
        shown = (
            "batmesh: line 2: bad mac\nbin/batmesh: line 2 is: node B nonsense\\t\n"
            "bin/batmesh: docs/SCENARIO.md, under 'Refusals', tells how `bad mac` comes about\n"
        )
        self.assertEqual(self.call(self.scenario, at_terminal=True), (1, "printed\n", shown))
        with open(self.scenario, "rb") as given:
            self.assertEqual(self.call(at_terminal=True, given=given), (1, "printed\n", shown))

    def test_a_scenario_that_cant_be_read_again_isnt_shown(self):
        status, out, said = self.call(at_terminal=True)
        self.assertEqual((status, out), (1, "printed\n"))
        self.assertNotIn("line 2 is", said)

    def test_the_usage_follows_words_that_arent_taken(self):
        status, _, said = self.call("--usage", at_terminal=True)
        self.assertEqual(status, 2)
        self.assertTrue(said.startswith("batmesh: usage\nusage: bin/batmesh"))

    def test_a_fault_of_standard_input_is_told(self):
        status, _, said = self.call("--fault", at_terminal=True)
        self.assertEqual(status, 3)
        self.assertIn("standard input failed", said)

    def test_without_rt_the_build_gives_up(self):
        self.program.unlink()
        tools = self.folder / "tools"
        tools.mkdir()
        for name in ("sh", "dirname", "readlink", "sed", "awk", "find", "cat", "mkdir"):
            (tools / name).symlink_to(shutil.which(name))
        status, _, said = self.call(self.scenario, path=str(tools))
        self.assertEqual(status, 70)
        self.assertIn("the command rt must be on the path", said)
