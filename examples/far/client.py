#!/usr/bin/env python3
"""Asks a server for the whole documents of its sources, piece by piece, and prints each as bracket text, a line each.

    client.py SEED COMMAND WORD ..     as client.py 1 mixq serve catalog

COMMAND is started, and spoken to over its standard input and output as docs/FORMATS.md says ("Requests and replies", "Serving"). A source is
asked for by its number, and gives the hole that stands for its whole document; a hole is asked for by its words, and gives the list of trees that
stand in its place, with further holes in it. Which of the open holes is asked for next is drawn by chance, from SEED: the documents are the same
whichever it is. The status is 1 where the server failed, or broke a rule."""
import os
import random
import subprocess
import sys

sys.path.append(os.path.join(os.path.dirname(os.path.abspath(__file__)), ".."))
from in_python import text  # noqa: E402 (it stands one folder above)

# The first bytes of requests and of the replies that are wanted; any other reply is a failure.
COUNT, ROOT, FILL = 0x00, 0x01, 0x02
HAS_COUNT, HAS_HOLE, HAS_LIST = 0x80, 0x81, 0x82
FAILURES = {0x83: "the source failed", 0x84: "the source doesn't know the hole", 0x85: "memory ran out", 0x86: "there is no such source"}


class Broken(Exception):
    """The server failed, or broke a rule."""


class Hole:
    """A hole: its source, its words, the most nodes that stand in its place, and the list in which it stands."""

    def __init__(self, source, words, weight, beside):
        self.source, self.words, self.weight, self.beside = source, words, weight, beside


class Server:
    """A server that was started by a command."""

    def __init__(self, command):
        self.process = subprocess.Popen(command, stdin=subprocess.PIPE, stdout=subprocess.PIPE)

    def take(self, count):
        """So many bytes of a reply."""
        taken = self.process.stdout.read(count)
        if len(taken) < count:
            raise Broken("the replies end too early")
        return taken

    def number(self, bits):
        """A number of so many bits, the highest byte first."""
        return int.from_bytes(self.take(bits // 8), "big")

    def ask(self, request, wanted):
        """Sends a request, and takes the first byte of the reply, which is to be the one that is wanted."""
        self.process.stdin.write(request)
        self.process.stdin.flush()
        tag = self.number(8)
        if tag != wanted:
            raise Broken(FAILURES.get(tag, f"a reply begins with {tag:02x}"))

    def hole(self, source, beside):
        """A hole of a reply, which stands in a list."""
        hole = Hole(source, self.take(24), self.number(128), beside)
        beside.append(hole)
        return hole

    def list(self, source, holes):
        """A list of a reply: trees, each a label and a list, and holes, which are added to those that are open."""
        trees = []
        for _ in range(self.number(32)):
            if self.number(8) == 1:
                holes.append(self.hole(source, trees))
            else:
                label = self.take(self.number(32)).decode()
                trees.append((label, self.list(source, holes)))
        return trees

    def count(self):
        """How many sources there are."""
        self.ask(bytes([COUNT]), HAS_COUNT)
        return self.number(32)

    def root(self, source):
        """The document of a source, which is a hole alone at first."""
        self.ask(bytes([ROOT]) + source.to_bytes(4, "big"), HAS_HOLE)
        document = []
        self.hole(source, document)
        return document

    def fill(self, hole, holes):
        """The list of a hole."""
        self.ask(bytes([FILL]) + hole.source.to_bytes(4, "big") + hole.words, HAS_LIST)
        return self.list(hole.source, holes)

    def close(self):
        """Ends the requests, after which the server is to end with status 0 and nothing more written."""
        self.process.stdin.close()
        if self.process.stdout.read() or self.process.wait():
            raise Broken("the server doesn't end as it should")


def weight(trees):
    """The most nodes that stand in the place of a list."""
    return sum(tree.weight if isinstance(tree, Hole) else 1 + weight(tree[1]) for tree in trees)


def put(hole, trees):
    """Puts a list in the place of a hole."""
    if weight(trees) > hole.weight:
        raise Broken("a list has more nodes than its hole stands for")
    for tree in trees:
        if isinstance(tree, Hole):
            tree.beside = hole.beside
    at = next(number for number, tree in enumerate(hole.beside) if tree is hole)
    hole.beside[at : at + 1] = trees


def main(seed, command):
    choice, server = random.Random(seed), Server(command)
    documents = [server.root(source) for source in range(server.count())]
    holes = [document[0] for document in documents]
    while holes:
        hole = holes.pop(choice.randrange(len(holes)))
        put(hole, server.fill(hole, holes))
    server.close()
    for document in documents:
        print(",".join(map(text, document)))


if __name__ == "__main__":
    try:
        main(sys.argv[1], sys.argv[2:])
    except (Broken, BrokenPipeError) as why:
        sys.exit(f"client: {why}")
