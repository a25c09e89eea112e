"""A scenario with a line of each form of the language, and what each prints."""

import re
import unittest

from common import TOP, needs_program
from scenarios import finished, run_lines

# What the lines print, by hand, stands behind `> ` below the line in which it comes. B has a link
# of throughput 10 to A, and A one of 50 to B. B asks for A's table at 1001, and has it at 1003. The
# put of B's address is on its way when A asks for it at 1004. Behind commit 1 of A all leave, and
# commit 2 is empty. B announces itself at 10000, and A pushes to it at 20000.
EACH_FORM = """
# A comment; an empty line stands before it.
algo iv
algo v
node A 02:00:00:00:00:0a
node B 02:00:00:00:00:0b
link A B pattern=. tp=50 delay=1
link B A
set A wifi on
frame A 02:00:00:00:01:01 ff:ff:ff:ff:ff:ff - hi
deliver 1
> recv 0 B - 02:00:00:00:01:01 ff:ff:ff:ff:ff:ff hi
set A wifi off
join A 01:00:5e:00:00:fb 7
show A tl
> tl A version=0 clients=2
> c 01:00:5e:00:00:fb 7 -- age=-
> c 02:00:00:00:01:01 - w- age=0
set B mcast 7
set B gw off
set B gw server 100 20
set A gw client best
set A gw client stable
set A gw client late 255
set A dat off
arp A 02:00:00:00:01:05 10.0.0.5 10.0.0.6 -
> arp A 10.0.0.6 off
set A dat on
set A frag 300
alfred B mode off
alfred B get 255
> alfred B get 255 off
alfred B mode primary
alfred A mode secondary
alfred A get 64
> alfred A get 64 noprimary
alfred A put 64 0 of A
alfred B put 64 255 of B
run 1003
show A o
> o A algo=v count=1
> o 02:00:00:00:00:0b seq=1 seen=2 next=02:00:00:00:00:0b metric=50
show A n
> n A algo=v count=1
> n 02:00:00:00:00:0b tp=50 seen=2
show B tg
> tg B count=1
> t 02:00:00:00:00:0a held=1 told=1 state=ok entries=3
> e 01:00:5e:00:00:fb 7 --
> e 02:00:00:00:01:01 - w-
> e 02:00:00:00:01:05 - --
arp A 02:00:00:00:01:05 10.0.0.5 10.0.0.6 -
run 1
arp B 02:00:00:00:01:06 10.0.0.6 10.0.0.5 -
> arp B 10.0.0.5 is 02:00:00:00:01:05 cache
arp A 02:00:00:00:01:05 10.0.0.5 10.0.0.6 -
show B dat
> dat B count=2
> d 10.0.0.5 - 02:00:00:00:01:05 age=0
> d 10.0.0.6 - 02:00:00:00:01:06 age=0
run 999
> arp A 10.0.0.6 is 02:00:00:00:01:06 dht
show A gw
> gw A mode=client chosen=02:00:00:00:00:0b
> g 02:00:00:00:00:0b down=100 up=20 metric=50
show A mc
> mc A count=2
> j 01:00:5e:00:00:fb 7
> m 02:00:00:00:00:0b flags=07
dhcp A 02:00:00:00:01:01 - discover
frame A 02:00:00:00:01:01 01:00:5e:00:00:fb 7 to the group
> recv 2003 A 7 02:00:00:00:01:01 01:00:5e:00:00:fb to the group
ping A B
traceroute A B
gone A 02:00:00:00:01:01 -
gone A 02:00:00:00:01:01 7
gone A 02:00:00:00:01:05 -
leave A 01:00:5e:00:00:fb 7
run 2
> recv 2004 B - 02:00:00:00:01:01 ff:ff:ff:ff:ff:ff discover
> recv 2004 B 7 02:00:00:00:01:01 01:00:5e:00:00:fb to the group
> ping A B seq=1 reply ttl=50 rtt=2
> trace A B hop=1 B rtt=2 end
run 7996
show A tl
> tl A version=2 clients=0
alfred B get 64
> alfred B get 64 02:00:00:00:00:0b 255 of B
alfred A get 64
run 10000
> alfred A get 64 02:00:00:00:00:0b 255 of B
show B alf
> alfred B mode=primary facts=2
> a 02:00:00:00:00:0a 64 0 first age=0 of A
> a 02:00:00:00:00:0b 64 255 local age=20001 of B
node C 02:00:00:00:00:0c
lan L C
frame L 02:00:00:00:01:03 ff:ff:ff:ff:ff:ff - claimed alone
run 2
show C cl
> cl C lan=L count=1
> k 02:00:00:00:01:03 - holder=02:00:00:00:00:0c age=0
gone L 02:00:00:00:01:03 -
decode 030f02000000000a00000001000001f4
> packet elp orig=02:00:00:00:00:0a seq=1 interval=500
reboot B
show B tl
> tl B version=0 clients=0
show B alf
> alfred B mode=primary facts=0
set B vis on
set B vis off
show B vis
> vis B []
"""
MARK = "> "
LINES = [line for line in EACH_FORM.splitlines() if not line.startswith(MARK)]
PRINTED = [line.removeprefix(MARK) for line in EACH_FORM.splitlines() if line.startswith(MARK)]


def forms_of_page():
    """The forms of lines in docs/SCENARIO.md: words, of which those in capitals stand for others.

    A row has a form, and behind it what its last words may be besides.
    """
    page = (TOP / "docs" / "SCENARIO.md").read_text()
    table = page.split("\n## The lines\n")[1].split("\nWhat the words may be")[0]
    for row in re.findall(r"^\| (`.*?) \|", table, re.M):
        first, *others = (form.split() for form in re.findall(r"`(.*?)`", row))
        yield first
        for other in others:
            yield first[: len(first) - len(other)] + other
    tables = re.search(r"^- `show`: T is (.*)\.$", page, re.M)[1]
    for name in re.findall(r"`(\w+)`", tables):
        yield ["show", "NODE", name]


def is_of_form(line, form):
    words = line.split()
    return len(words) >= len(form) - (form[-1] == "..") and all(
        part == word or part.isupper() for word, part in zip(words, form)
    )


class EachForm(unittest.TestCase):
    def test_the_page_and_the_scenario_have_the_same_forms(self):
        forms = list(forms_of_page())
        for form in forms:
            with self.subTest(form=" ".join(form)):
                self.assertTrue(any(is_of_form(line, form) for line in LINES))
        for line in LINES:
            with self.subTest(line=line):
                told = not line or line.startswith("#")
                self.assertTrue(told or any(is_of_form(line, form) for form in forms))

    @needs_program
    def test_each_line_prints_what_the_rules_say(self):
        self.assertEqual(run_lines(LINES), finished(PRINTED))
