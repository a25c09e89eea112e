"""Facts that are put, asked for and passed on, by whole runs."""

import unittest

from common import needs_program
from scenarios import A, B, DUO, finished, node_mac, run_lines

C = node_mac(12)

ALONE = f"node A {A}"

# Three nodes in a row, with links both ways.
CHAIN = [*DUO[:2], f"node C {C}", *DUO[2:], "link B C", "link C B"]


class OfOneNode(unittest.TestCase):
    def shown(self, *lines):
        return run_lines([ALONE, *lines])

    @needs_program
    def test_a_question_is_answered_by_the_part_in_the_store(self):
        ended = self.shown(
            "alfred A get 64", "alfred A mode primary", "alfred A get 64", "alfred A put 64 1 hi",
            "alfred A get 64", "show A alf",
        )
        self.assertEqual(ended, finished([
            "alfred A get 64 off",
            "alfred A get 64 empty",
            f"alfred A get 64 {A} 1 hi",
            "alfred A mode=primary facts=1",
            f"a {A} 64 1 local age=0 hi",
        ]))

    @needs_program
    def test_a_fact_is_kept_for_ten_minutes(self):
        ended = self.shown(
            "alfred A put 65 255 x", "alfred A mode secondary", "alfred A get 65", "run 599999",
            "show A alf", "run 1", "show A alf",
        )
        self.assertEqual(ended, finished([
            "alfred A get 65 noprimary",
            "alfred A mode=secondary facts=1",
            f"a {A} 65 255 local age=599999 x",
            "alfred A mode=secondary facts=0",
        ]))

    @needs_program
    def test_a_later_fact_of_a_type_stands(self):
        ended = self.shown("alfred A put 64 1 old", "run 5", "alfred A put 64 2 new", "show A alf")
        self.assertEqual(ended, finished([
            "alfred A mode=off facts=1", f"a {A} 64 2 local age=0 new",
        ]))


class OverHops(unittest.TestCase):
    @needs_program
    def test_facts_go_over_two_hops(self):
        lines = [
            *CHAIN, "alfred C mode primary", "alfred A mode secondary", "alfred A put 64 1 from-A",
            "alfred C put 64 2 from-C", "run 21000", "show C alf", "alfred A get 64", "run 100",
            "alfred A get 66", "run 100", "show B alf",
        ]
        self.assertEqual(run_lines(lines), finished([
            "alfred C mode=primary facts=2",
            f"a {A} 64 1 first age=998 from-A",
            f"a {C} 64 2 local age=21000 from-C",
            f"alfred A get 64 {A} 1 from-A",
            f"alfred A get 64 {C} 2 from-C",
            "alfred A get 66 empty",
            "alfred B mode=off facts=0",
        ]))

    @needs_program
    def test_a_primary_tells_another_what_a_secondary_told_it(self):
        lines = [
            *CHAIN, "alfred A mode primary", "alfred B mode secondary", "alfred C mode primary",
            "alfred A put 64 1 from-A", "alfred B put 64 1 from-B", "run 31000", "show C alf",
            "alfred A put 64 2 again", "run 11000", "show C alf",
        ]
        self.assertEqual(run_lines(lines), finished([
            "alfred C mode=primary facts=2",
            f"a {A} 64 1 first age=998 from-A",
            f"a {B} 64 1 synced age=998 from-B",
            "alfred C mode=primary facts=2",
            f"a {A} 64 2 first age=1998 again",
            f"a {B} 64 1 synced age=1998 from-B",
        ]))
