"""The cases of bench/compare that are lists of draws: good ones, spelled in every way, and ones with a fault.

A case is (words, files, stdin), as in game_cases.
"""

import random

from database import Database, action

BLANKS = (b" ", b" ", b" ", b"\n", b"\t", b"\r\n", b"\x0b", b"\x0c", b"  ", b" \n ")
FAULTS = (b"0", b"00", b"101", b"100x", b"1000", b"x", b"-1", b"+1", b"1.", b"5,", b"1a", b"9 9a", b"12\x08", b"\xff",
          b"099a", b"0000", b"256", b"65537", b"4294967297", b"18446744073709551617")


class Draws:
    """A game of three chances in each round, played with a list."""

    name = "draws"
    TYPED = b"wait\n" * 30

    def __init__(self, seed, count):
        self.seed = seed
        self.count = count
        self.game = self.made()

    def __len__(self):
        return self.count

    @staticmethod
    def made():
        d = Database()
        d.words = [(b"AUT", b"ANY"), (b"GO", b"NORTH"), (b"WAIT", b"SOUTH"), (b"A", b"EAST"), (b"B", b"WEST"),
                   (b"C", b"UP"), (b"D", b"DOWN")]
        d.rooms = [((0,) * 6, b""), ((0,) * 6, b"hall")]
        d.messages = [b"", b"one in a hundred", b"one in two", b"all but one", b"time passes"]
        d.items = [(b"Rug", 1)]
        d.actions = [action(0, 1, (), (1,)), action(0, 50, (), (2,)), action(0, 99, (), (3,)), action(2, 0, (), (4,))]
        return d.text()

    def case(self, i):
        r = random.Random("draws %d %d" % (self.seed, i))
        runs = [self.run(r) for _ in range(r.choice((0, 1, 2, 3, 10, 60, 200)))]
        if r.random() < 0.3:
            runs.insert(r.randint(0, len(runs)), r.choice(FAULTS))
        text = r.choice((b"", r.choice(BLANKS)))
        for run in runs:
            text += run + r.choice(BLANKS)
        if r.random() < 0.5:
            text = text.rstrip()
        return ["play", "t.dat", "draws=d.txt"], {"t.dat": self.game, "d.txt": text}, self.TYPED

    @staticmethod
    def run(r):
        zeros = b"0" * r.choice((0, 0, 0, 0, 1, 2, 7))
        return zeros + b"%d" % r.choice((1, 9, 10, 50, 51, 99, 100, r.randint(1, 100), r.randint(1, 100)))
