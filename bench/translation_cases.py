"""The games of bench/translations: random ones, with lines of every kind, to be played and translated.

A game is of one of five kinds, in turn: lines at random; gets that are refused, sums at the edge of
the counter and nouns that are said, in heads and tails; chances of every number; every condition and
opcode, in a game that tells its state; and lines of zeros alone.
"""

import random

from database import action
from game_cases import HIGH_OPCODE, STYLES, Games, Lines, Maker, some_bytes

WIDEST = 32767
HIGHEST = 2 ** 31 - 1
ODD = b"'\"~^@\\{}%&*/#$0123456789.,;:!?-_()[]<>|`a"
# what follows a get that is refused, sums that would wrap, nouns that are said, items that go about
OPCODES = ((52, 53, 52, 74), (52, 52, 52, 53), (52, 86, 53, 73), (86, 52, 62, 52), (52, 73, 0, 0), (74, 52, 55, 72),
           (79, 82, 78, 86), (79, 82, 82, 78), (82, 78, 82, 86), (79, 83, 78, 83), (83, 77, 78, 81), (81, 82, 78, 87),
           (84, 86, 85, 73), (85, 84, 86, 66), (62, 72, 75, 53), (54, 87, 80, 61), (58, 60, 67, 68), (56, 69, 57, 65),
           (73, 1, 2, 76), (63, 73, 0, 0), (150, 160, 149, 0), (100, 51, 102, 73))


def narrowed(line):
    """The line with numbers that words of 16 bits hold."""
    conditions = [20 * min(n // 20, WIDEST) + n % 20 for n in line[1:6]]
    pairs = [150 * min(n // 150, WIDEST) + n % 150 for n in line[6:]]
    return [150 * min(line[0] // 150, WIDEST) + line[0] % 150] + conditions + pairs


def without_chance(line):
    """The line with a chance that every draw gives, where it is of verb 0 and a noun."""
    return [100 + line[0] % 50] + line[1:] if 0 < line[0] < 150 else line


class Zeros(Games):
    """All lines are zeros."""

    def line(self, m, d):
        return [0] * 8


class Edges(Games):
    """Heads and tails of lines that are near a rule."""

    def played(self, r, m, d, i):
        d.carry = r.choice((d.carry, 0, 1, 1, 2))
        words, files, stdin = super().played(r, m, d, i)
        odd = [self.odd(r, d) for _ in range(r.randint(2, 8))]
        return words, files, b"".join(odd) + stdin

    def odd(self, r, d):
        """A command whose noun is any text."""
        noun = some_bytes(r, r.choice((1, 2, 5, 20, 100)), ODD)
        return r.choice(d.words)[0].lstrip(b"*") + b" " + noun + b"\n"

    def line(self, m, d):
        r = m.r
        k = r.random()
        if k < 0.08:
            return [0] * 8
        if k < 0.4:
            verb, noun = 0, 0
        else:
            verb = r.choice((0, 10, 18, r.randrange(len(d.words) + 1), r.randrange(len(d.words) + 1)))
            noun = r.choice((0, 0, r.randrange(min(len(d.words), 150)), r.randrange(150)))
        if verb and r.random() < 0.03:
            verb = r.choice((WIDEST, WIDEST + 1, HIGH_OPCODE - 1))
        return action(verb, noun, self.conditions(m), self.opcodes(m))

    @staticmethod
    def conditions(m):
        r = m.r
        edge = (0, 1, 2, m.items - 1, m.items, WIDEST - 1, WIDEST)
        few = [(0, r.choice(edge) if r.random() < 0.6 else m.argument()) for _ in range(r.randint(0, 5))]
        if few and r.random() < 0.4:
            few[r.randrange(len(few))] = m.condition()
        return few

    @staticmethod
    def opcodes(m):
        if m.r.random() < 0.7:
            return m.r.choice(OPCODES)
        return tuple(m.opcode(second) for second in (False, True, False, True))


class Chances(Edges):
    """An automatic group for each of 15 numbers from 0 on, its tail, and a message each."""

    def played(self, r, m, d, i):
        words, files, stdin = super().played(r, m, d, i)
        first = 15 * (i // 40) % 150
        d.actions = []
        for noun in range(first, first + 15):
            d.actions.append(action(0, noun, (), (noun % (m.messages + 1), 73, 78, 86)))
            d.actions += [self.line(m, d) for _ in range(r.choice((0, 0, 1, 3)))]
        return words, dict(files, **{"t.dat": d.text()}), stdin


KINDS = (Games, Edges, Chances, Games, Edges, Lines, Games, Edges, Chances, Zeros)


class Translations:
    """Games in the eight styles, at both widths, and of every kind in turn."""

    def __init__(self, seed, count, real=False):
        self.seed, self.count, self.real = seed, count, real
        self.kinds = [kind(seed, count) for kind in KINDS]

    def case(self, i):
        """The style, the width, the settings of the draws, the files and the typed lines of a game."""
        r = random.Random("translations %d %d" % (self.seed, i))
        m = Maker(r)
        d = m.database()
        words, files, stdin = self.kinds[i // len(STYLES) % len(KINDS)].played(r, m, d, i)
        width = 16 if self.real or r.random() < 0.6 else 32
        if width == 16 and (self.real or r.random() < 0.93):
            d.actions = [narrowed(line) for line in d.actions]
            d.light, d.treasures = min(d.light, WIDEST), min(d.treasures, WIDEST)
        if self.real:
            d.actions = [without_chance(line) for line in d.actions]
            words, files = words[:2], {}
        d.actions = [[min(n, HIGHEST) for n in line] for line in d.actions]
        files["t.dat"] = d.text()
        return STYLES[i % len(STYLES)], width, words[2:], files, stdin
