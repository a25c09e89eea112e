"""Routes that are told as they change, and loops that are found in lines of routes."""

import subprocess
import unittest

from common import EXAMPLES, PROGRAM, needs_program
from scenarios import A, B, DUO, finished, limited, node_mac, run_lines, text_of

C, D = node_mac(12), node_mac(13)


def route(moment, node, orig, next_node):
    return f"route {moment} {node} {orig} {next_node}"


def refused(number, reason):
    return 1, "", f"batmesh: line {number}: {reason}\n"


class Watched(unittest.TestCase):
    """The routes of each node as they change, by --frames route."""

    @needs_program
    def test_a_route_is_told_when_it_comes(self):
        ended = run_lines([*DUO, "run 2001"], "--frames", "route")
        self.assertEqual(ended, finished([route(2001, B, A, A), route(2001, A, B, B)]))

    @needs_program
    def test_none_is_told_without_the_word(self):
        self.assertEqual(run_lines([*DUO, "run 2001"]), finished([]))

    @needs_program
    def test_what_a_reboot_forgot_is_told_at_the_next_happening(self):
        """None comes back: to B the numbers 1 to 3 of A are repeats."""
        ended = run_lines([*DUO, "run 3000", "reboot A", "run 4000"], "--frames", "route")
        self.assertEqual(ended, finished([
            route(2001, B, A, A), route(2001, A, B, B), route(3001, A, B, "-"),
        ]))


class Loops(unittest.TestCase):
    """Loops by moment, of the lines of routes alone."""

    # A sends what is for D to B, and B to A.
    LOOPED = [route(1, A, D, B), route(1, B, D, A)]

    def bisect(self, lines):
        return run_lines(lines, "--bisect")

    @needs_program
    def test_one_comes_and_goes(self):
        self.assertEqual(self.bisect([*self.LOOPED, route(2, B, D, D)]), finished([
            f"loop 1 {D} {A} {B}", f"clear 2 {D} {A}",
        ]))

    @needs_program
    def test_of_a_link_that_breaks(self):
        """A and D send to each other what is for B, twice for about 500 ms."""
        told = (EXAMPLES / "broken_link.out").read_text().splitlines()
        self.assertEqual(self.bisect(told), finished([
            f"loop 9002 {B} {A} {D}", f"clear 9500 {B} {A}",
            f"loop 10002 {B} {A} {D}", f"clear 10500 {B} {A}",
        ]))

    @needs_program
    def test_a_loop_of_one_in_a_last_line_without_a_newline(self):
        given = text_of([route(1, A, D, A), route(2, A, D, "-")]).rstrip("\n")
        done = subprocess.run(
            [PROGRAM, "--bisect"], input=given.encode(), capture_output=True, check=False
        )
        wanted = text_of([f"loop 1 {D} {A}", f"clear 2 {D} {A}"]).encode()
        self.assertEqual((done.returncode, done.stdout, done.stderr), (0, wanted, b""))

    @needs_program
    def test_one_within_a_moment_is_none(self):
        self.assertEqual(self.bisect([*self.LOOPED, route(1, B, D, D)]), finished([]))

    @needs_program
    def test_one_that_changes_its_nodes_goes_and_another_comes(self):
        lines = [*self.LOOPED, route(2, B, D, C), route(2, C, D, A)]
        self.assertEqual(self.bisect(lines), finished([
            f"loop 1 {D} {A} {B}", f"clear 2 {D} {A}", f"loop 2 {D} {A} {B} {C}",
        ]))

    @needs_program
    def test_other_lines_are_passed_over(self):
        lines = ["recv 1 A - x y z", "", "# route", *self.LOOPED]
        self.assertEqual(self.bisect(lines), finished([f"loop 1 {D} {A} {B}"]))
        self.assertEqual(self.bisect([]), finished([]))

    @needs_program
    def test_lines_are_refused(self):
        for line in (
            f"route 1 {A} {D}", f"route 1099511627777 {A} {D} -", f"route 1 {A} {D} - -",
            f"route x {A} {D} -", f"route 1 A {D} -",
        ):
            with self.subTest(line):
                self.assertEqual(self.bisect(["# a head", line]), refused(2, "bad route"))
        lines = [route(5, A, D, B), route(4, A, D, "-")]
        self.assertEqual(self.bisect(lines), refused(2, "time back"))

    @needs_program
    def test_a_long_line_is_the_limit(self):
        self.assertEqual(self.bisect(["x" * 4097]), limited(1, "line"))

    @needs_program
    def test_loops_are_asked_for_alone(self):
        for words in (
            ["--bisect", "--frames", "none"], ["--bisect", "--generate", "3"], ["--bisect=1"],
            ["--bisect", "--bisect"],
        ):
            with self.subTest(words):
                self.assertEqual(run_lines([], *words), (2, "", "batmesh: usage\n"))

    @needs_program
    def test_a_fault_leaves_the_moment_under_way_untold(self):
        given = text_of(self.LOOPED).encode()
        with open("/dev/full", "wb") as full:
            done = subprocess.run(
                [PROGRAM, "--bisect"], input=given, stdout=full, stderr=subprocess.PIPE, check=False
            )
        self.assertEqual((done.returncode, done.stderr), (4, b"batmesh: write fault\n"))
