"""The examples of the tools, vectors and pictures pages print what stands below them."""

import json
import os
import re
import subprocess

from common import EXAMPLES, PROGRAM, TOOLS, TOP, Folder, needs_command, needs_dpkt, needs_program

TELLS = re.compile(r"(prints|begins|ends)\b")


def blocks_of(page):
    """The indented blocks of a page, each with the text behind it up to the next one."""
    found = re.findall(r"((?:^    .*\n)+)\n?((?:^(?!    ).*\n|^\n)*)", page, re.M)
    return [(re.sub("^    ", "", block, flags=re.M), behind) for block, behind in found]


def examples_of(page):
    """Each block of commands below which stands what it prints, with how that is told."""
    blocks = blocks_of(page)
    for (command, behind), (printed, _) in zip(blocks, blocks[1:]):
        if told := TELLS.match(behind):
            yield command, told[1], [line.split() for line in printed.splitlines()]


class Pages(Folder):
    def compare(self, page, folder):
        examples = list(examples_of(page.read_text()))
        for command, told, wanted in examples:
            done = subprocess.run(
                ["sh", "-e", "-c", command], cwd=folder, stdout=subprocess.PIPE,
                stderr=subprocess.DEVNULL, check=False, text=True,
                env={**os.environ, "BATMESH": PROGRAM or ""},
            )
            printed = [line.split() for line in done.stdout.splitlines()]
            if told == "begins":
                printed = printed[: len(wanted)]
            elif told == "ends":
                printed = printed[-len(wanted) :]
            self.assertEqual(printed, wanted, command)
        return len(examples)

    @needs_command("jq", "jq")
    def test_the_vectors_page(self):
        vectors = EXAMPLES / "vectors"
        self.assertEqual(self.compare(vectors / "README.md", vectors), 1)

    @needs_command("jq", "jq")
    def test_the_page_of_pictures(self):
        printed = (EXAMPLES / "network.out").read_text()
        network = re.search(r"^vis C (.*)$", printed, re.M)[1]
        self.assertEqual([len(node["neighbors"]) for node in json.loads(network)], [1, 2, 1])
        (self.folder / "network.json").write_text(network)
        (self.folder / "tools").symlink_to(TOOLS)
        self.assertEqual(self.compare(TOP / "docs" / "PICTURES.md", self.folder), 3)

    @needs_command("tshark", "tshark")
    @needs_dpkt
    @needs_program
    def test_the_tools_page(self):
        for name, path in (("tools", TOOLS), ("examples", EXAMPLES)):
            (self.folder / name).symlink_to(path)
        self.assertEqual(self.compare(TOOLS / "README.md", self.folder), 5)
