"""What the program says of broken input, where it is built: each ends, with its status and text."""

import os
import pty
import select
import socket
import subprocess
import threading

from common import EXAMPLES, PROGRAM, Folder, needs_program

NODE = b"node A 02:00:00:00:00:0a\n"
LINES = NODE + b"show A o\n"
TABLE = b"o A algo=iv count=0\n"
SECONDS = 60  # more than any of these takes


@needs_program
class Broken(Folder):
    def ending(self, *words, given=subprocess.DEVNULL):
        """The status, the output and the error output of a run, which has to end."""
        done = subprocess.run(
            [PROGRAM, *words], stdin=given, capture_output=True, check=False, timeout=SECONDS
        )
        return done.returncode, done.stdout, done.stderr.decode()

    def unreadable(self):
        """A folder in the place of an input."""
        given = os.open(self.folder, os.O_RDONLY)
        self.addCleanup(os.close, given)
        return given

    def of_bytes(self, data):
        return self.ending(self.write("given", data))

    def test_a_line_of_blanks_alone_does_nothing(self):
        self.assertEqual(self.of_bytes(b" " * 4096 + b"\n" + LINES), (0, TABLE, ""))

    def test_a_blank_more_than_a_line_may_have_is_the_limit(self):
        ended = self.of_bytes(b" " * 4097 + b"\n" + LINES)
        self.assertEqual(ended, (6, b"", "batmesh: line 1: limit line\n"))

    def test_one_long_word_and_nul_bytes_are_no_command(self):
        for line in (b"x" * 4096, b"\0" * 4096, b"\0"):
            ended = self.of_bytes(LINES + line + b"\n" + LINES)
            self.assertEqual(ended, (1, TABLE, "batmesh: line 3: unknown command\n"))

    def test_a_character_that_is_cut_is_bad_utf_8(self):
        for length in (1, 2, 3):
            for end in (b"", b"\n"):
                ended = self.of_bytes(LINES + b"# " + "\U0001f310".encode()[:length] + end)
                self.assertEqual(ended, (1, TABLE, "batmesh: line 3: bad utf-8\n"))
        self.assertEqual(self.of_bytes(LINES + "# \U0001f310".encode()), (0, TABLE, ""))

    def test_without_a_newline_little_is_read(self):
        with open(self.write("given", b"x" * (64 << 20)), "rb", buffering=0) as given:
            ended = self.ending(given=given)
            # The program reads by this very place in the file.
            self.assertLessEqual(os.lseek(given.fileno(), 0, os.SEEK_CUR), 8192)
        self.assertEqual(ended, (6, b"", "batmesh: line 1: limit line\n"))

    def test_a_pipe_that_closes_within_a_line_ends_the_input_there(self):
        path = self.folder / "pipe"
        os.mkfifo(path)

        def give():
            with open(path, "wb", buffering=0) as pipe:
                pipe.write(NODE + b"show")
                pipe.write(b" A o")

        giver = threading.Thread(target=give)
        giver.start()
        self.assertEqual(self.ending(path), (0, TABLE, ""))
        giver.join()

    def test_a_folder_is_a_read_fault(self):
        self.assertEqual(self.ending(self.folder), (3, b"", "batmesh: read fault\n"))
        self.assertEqual(self.ending(given=self.unreadable()), (3, b"", "batmesh: read fault\n"))

    def test_for_a_generated_mesh_nothing_is_read(self):
        counts = b"generated nodes=3 frames=1384 recv=117 commits=53 ok=6 of=6\n"
        ended = self.ending("--generate", "3", given=self.unreadable())
        self.assertEqual(ended, (0, counts, ""))

    def test_a_blank_at_the_end_of_a_name_belongs_to_it(self):
        self.write("given", NODE)
        for name in (b"given ", b" given", b" "):
            self.write(name.decode(), LINES)
            ended = self.ending(self.folder / name.decode())
            self.assertEqual(ended, (0, TABLE, ""))
        ended = self.ending(self.folder / "given  ")
        self.assertEqual(ended, (3, b"", "batmesh: read fault\n"))

    def test_an_output_that_is_full_or_closed_is_a_write_fault(self):
        scenario = EXAMPLES / "two_nodes.scn"
        read, write = os.pipe()
        os.close(read)
        for out in (os.open("/dev/full", os.O_WRONLY), write):
            done = subprocess.run(
                [PROGRAM, scenario], stdout=out, stderr=subprocess.PIPE, check=False,
                timeout=SECONDS,
            )
            os.close(out)
            self.assertEqual((done.returncode, done.stderr), (4, b"batmesh: write fault\n"))

    def test_every_byte_alone_ends(self):
        for byte in range(256):
            status, out, said = self.of_bytes(bytes([byte]))
            self.assertEqual(out, b"")
            if chr(byte) in "\t\n #":
                self.assertEqual((status, said), (0, ""))
            elif byte < 128:
                self.assertEqual((status, said), (1, "batmesh: line 1: unknown command\n"))
            else:
                self.assertEqual((status, said), (1, "batmesh: line 1: bad utf-8\n"))


@needs_program
class Order(Folder):
    """When the program reads and writes."""

    def test_each_line_is_written_before_the_next_is_begun(self):
        """Of lines that come in one piece each has a write of its own."""
        ours, its = socket.socketpair(socket.AF_UNIX, socket.SOCK_SEQPACKET)
        with ours, its:
            done = subprocess.run(
                [PROGRAM], input=LINES + b"show A n\ndecode 00\n\nx\nshow A o\n", stdout=its,
                stderr=subprocess.PIPE, check=False, timeout=SECONDS,
            )
            its.shutdown(socket.SHUT_WR)
            texts = list(iter(lambda: ours.recv(4096), b""))
        printed = [TABLE, b"n A algo=iv count=0\n", b"bad short have=1 need=2\n"]
        self.assertEqual((done.returncode, texts), (1, printed))
        self.assertEqual(done.stderr, b"batmesh: line 6: unknown command\n")

    def test_each_line_is_answered_before_the_next_comes(self):
        with subprocess.Popen(
            [PROGRAM], stdin=subprocess.PIPE, stdout=subprocess.PIPE, bufsize=0
        ) as running:
            for line, answer in ((LINES, TABLE), (b"decode 00\n", b"bad short have=1 need=2\n")):
                running.stdin.write(line)
                self.assertEqual(running.stdout.read(4096), answer)
            running.stdin.close()
            self.assertEqual(running.wait(timeout=SECONDS), 0)

    def test_nothing_is_read_past_the_end(self):
        """At a terminal a read of no bytes is the end, and what comes later can be read too."""
        ours, its = pty.openpty()
        self.addCleanup(os.close, ours)
        self.addCleanup(os.close, its)
        end = b"\x04"
        os.write(ours, LINES + end + NODE)
        done = subprocess.run(
            [PROGRAM], stdin=its, stdout=subprocess.PIPE, check=False, timeout=SECONDS
        )
        self.assertEqual((done.returncode, done.stdout), (0, TABLE))
        self.assertTrue(select.select([its], [], [], 0)[0], "what came later was read")
        self.assertEqual(os.read(its, 4096), NODE)
