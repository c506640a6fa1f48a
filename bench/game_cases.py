"""The cases of bench/compare that are played: random games, and random lines in random states.

A case is (words, files, stdin): the words of the command line, a dict from file names to
bytes, and the bytes of standard input. Each family is a class with a length and a `case(i)`;
the same seed and number always give the same case.
"""

import random

from database import Database, action

DIRECTIONS = (b"NORTH", b"SOUTH", b"EAST", b"WEST", b"UP", b"DOWN")
HIGH_ARGUMENT = 107374182        # the most that fits a packed condition
HIGH_OPCODE = 14316557           # the most that fits a packed pair
# how many parameters an opcode takes, where it takes any
PARAMETERS = {52: 1, 53: 1, 54: 1, 55: 1, 58: 1, 59: 1, 60: 1, 62: 2, 72: 2, 74: 1, 75: 2,
              79: 1, 81: 1, 82: 1, 83: 1, 87: 1, 89: 1}
ENDING = (63,)
EXITING = (61, 63, 65)
STYLES = ("", "y", "c", "v", "yc", "yv", "cv", "ycv")


def some_bytes(r, length, pool):
    return bytes(r.choice(pool) for _ in range(length))


class Maker:
    """Random parts of small games, in and out of range."""

    def __init__(self, r):
        self.r = r
        self.rooms = r.randint(1, 7)
        self.items = r.choice((1, 2, 5, 9, 10, 11, 14))
        self.messages = r.choice((r.randint(1, 9), r.randint(1, 9), 62))
        self.word_count = r.choice((1, 6, 8, 12, 20, 24))

    def ends(self):
        """Numbers at and past the limits of items, rooms, flags, backups and places."""
        return (0, 15, 16, 31, 32, 254, 255, 256, self.items - 1, self.items, self.rooms - 1, self.rooms)

    def argument(self):
        r = self.r
        k = r.random()
        if k < 0.55:
            return r.randint(0, max(self.rooms, self.items))
        if k < 0.65:
            return r.randint(0, 33)
        if k < 0.85:
            return r.choice(self.ends())
        if k < 0.97:
            return r.choice((1, 9, 257, 511, 512, 32766, 32767, 32768, 65535, 65536, 70000))
        return r.randint(0, HIGH_ARGUMENT)

    def condition(self, code=None):
        return (self.r.randrange(20) if code is None else code, self.argument())

    def conditions(self, few):
        """`few` real conditions at most, and parameters; code 0 may stand anywhere."""
        r = self.r
        out = [self.condition() for _ in range(r.randint(0, few))]
        out += [(0, self.argument()) for _ in range(r.randint(0, 5 - len(out)))]
        if r.random() < 0.3:
            r.shuffle(out)
        return out

    def opcode(self, second):
        r = self.r
        k = r.random()
        if k < 0.12:
            m = r.randint(1, self.messages + 1)
            return m if m <= 51 else m + 50
        if k < 0.85:
            return r.choice((0, 52, 52, 53, 53, 54, 55, 56, 57, 58, 59, 60, 62, 62, 64, 66, 67, 68,
                             69, 70, 71, 72, 73, 73, 73, 74, 75, 76, 77, 78, 78, 79, 80, 81, 82,
                             82, 83, 84, 85, 86, 87, 88, 89))
        if k < 0.97 or second:
            return r.randrange(150)
        return r.choice((149, 150, 151, 152, 160, 1049, 1050, HIGH_OPCODE))

    def word(self, noun):
        r = self.r
        k = r.random()
        stem = some_bytes(r, r.randint(1, 6), b"ABab")
        if k < 0.08:
            return b""
        if k < 0.25:
            return b"*" + stem
        if k < 0.28:
            return b"*"
        if k < 0.31:
            return stem + r.choice((b" ", b"'", b'"', b"\xe9", b"/"))
        return stem

    def words(self):
        r = self.r
        verbs = [self.word(False) for _ in range(self.word_count)]
        nouns = [self.word(True) for _ in range(self.word_count)]
        for n, d in enumerate(DIRECTIONS):
            if n + 1 < self.word_count and r.random() < 0.8:
                nouns[n + 1] = d
        for at, verb in ((1, b"GO"), (10, b"GET"), (18, b"DROP"), (3, b"INVENTORY")):
            if at < self.word_count and r.random() < 0.9:
                verbs[at] = verb
        return list(zip(verbs, nouns))

    def item(self, words):
        r = self.r
        text = r.choice((b"", b"*")) + some_bytes(r, r.randint(0, 6), b"abc *")
        if r.random() < 0.8:
            noun = r.choice(words)[1]
            text += b"/" + r.choice((noun, noun[:2], noun.lower(), b"", b"*" + noun))
            text += r.choice((b"/", b"", b"/x", b"/x/y"))
        return text, r.choice((0, 1, 1, 1, 255, 255, r.randint(0, self.rooms), r.randint(-2, 300)))

    def database(self):
        r = self.r
        d = Database()
        d.words = self.words()
        d.items = [self.item(d.words) for _ in range(self.items)]
        d.messages = [r.choice((b"", b"Message %d." % k, b"`m'%d\"\n" % k))
                      for k in range(self.messages)]
        d.rooms = [(tuple(r.choice((0, 0, r.randrange(self.rooms), r.randint(-1, self.rooms + 1)))
                          for _ in range(6)),
                    r.choice((b"", b"*")) + r.choice((b"", b"room %d" % k, b"place \" %d" % k)))
                   for k in range(self.rooms)]
        d.carry = r.choice((-1, 0, 1, 2, 3, 4, 6, 255, 256))
        d.start = r.randrange(self.rooms)
        d.treasures = r.choice((0, 0, 1, 2, 3, -1, -3, 7))
        d.length = r.choice((1, 2, 3, 4, 5, 6, 20))
        d.light = r.choice((-1, 0, 1, 2, 6, 12, 21, 26, 100, 2147483647))
        d.home = r.choice((0, 1, 2, 255, 256, -1, r.randrange(self.rooms)))
        return d


class Made:
    """So many cases of a family, each made from the seed and its own number alone."""

    name = None

    def __init__(self, seed, count):
        self.seed, self.count = seed, count

    def __len__(self):
        return self.count

    def case(self, i):
        """The words, files and standard input of a case."""
        r = random.Random("%s %d %d" % (self.name, self.seed, i))
        m = Maker(r)
        return self.played(r, m, m.database(), i)


class Games(Made):
    """Random small games with random lines and draws, played."""

    name = "games"

    def played(self, r, m, d, i):
        d.actions = [self.line(m, d) for _ in range(r.choice((1, 3, 8, 20, 40)))]
        stdin = b"".join(self.typed(m, d) for _ in range(r.randint(0, 25)))
        if r.random() < 0.1:
            stdin = stdin[:-1]
        files = {"t.dat": d.text()}
        words = ["play", "t.dat"]
        k = r.random()
        if k < 0.6:
            files["d.txt"] = self.draws(r)
            words.append("draws=d.txt")
        elif k < 0.8:
            words.append("seed=%d" % r.choice((0, 1, 2, 33, 2 ** 63, 2 ** 64 - 1, r.getrandbits(64))))
        return words, files, stdin

    def line(self, m, d):
        r = m.r
        k = r.random()
        top = min(len(d.words) - 1, 149)
        if k < 0.2:
            verb, noun = 0, r.choice((1, 50, 99, 100, 100, 100, 149, r.randrange(1, 150)))
        elif k < 0.45:
            verb, noun = 0, 0
        else:
            verb = r.choice((1, 10, 10, 18, 18, r.randint(0, len(d.words) + 1)))
            noun = r.choice((0, 0, r.randint(0, top), r.randint(0, 149)))
        return action(verb, noun, m.conditions(r.choice((0, 0, 1, 1, 2, 5))),
                      [m.opcode(False), m.opcode(True), m.opcode(False), m.opcode(True)])

    def typed(self, m, d):
        r = m.r
        k = r.random()
        verb, noun = r.choice(d.words)[0].lstrip(b"*"), r.choice(d.words)[1].lstrip(b"*")
        if k < 0.2:
            line = r.choice(DIRECTIONS + (b"n", b"s", b"e", b"w", b"u", b"d", b"i", b"go n"))
        elif k < 0.4:
            line = r.choice((b"get ", b"drop ", b"GET ", b"Drop ")) + r.choice((b"all", b"ALL", b"allow", b"al", noun, noun, noun))
        elif k < 0.75:
            line = verb + b" " + noun
        elif k < 0.85:
            line = r.choice((verb, noun, b"go", b"get", b"drop", verb + b" " + noun + b" " + verb))
        elif k < 0.9:
            line = r.choice((b"", b"   ", b"\t", b"\r"))
        elif k < 0.95:
            line = some_bytes(r, r.choice((1, 5, 119, 120, 121, 200)), bytes(b for b in range(256) if b != 10))
        else:
            line = b"xyzzy " + noun
        line = r.choice((line, line, line.lower(), b"  " + line, line.replace(b" ", b"\t \x80")))
        return line.replace(b"\n", b" ") + b"\n"

    def draws(self, r):
        count = r.choice((0, 1, 3, 20, 200, 600))
        drawn = [r.choice((1, 50, 100, r.randint(1, 100))) for _ in range(count)]
        texts = [r.choice((b"%d", b"%03d", b"000000%d")) % n for n in drawn]
        if r.random() < 0.05:
            texts.insert(r.randint(0, len(texts)), r.choice((b"0", b"101", b"+5", b"-1", b"5x", b"\xff", b"1e2",
                                                             b"4294967297", b"18446744073709551617")))
        return b"".join(t + r.choice((b" ", b"\n", b"\t", b"\r\n", b"\x0b\x0c ")) for t in texts)


class Styles(Games):
    """Random small games, played in the eight styles in turn."""

    name = "styles"

    def played(self, r, m, d, i):
        style = STYLES[i % len(STYLES)]
        words, files, stdin = super().played(r, m, d, i)
        if style:
            words.insert(r.randint(2, len(words)), "style=" + style)
        return words, files, stdin


class Lines(Made):
    """Games of many lines, one command each: conditions and opcodes in every state.

    Behind each command an automatic group tells the counter, the flags, the backup counters
    and what it can about each item, so a state that differs is seen at once.
    """

    name = "lines"
    TRIED = 60
    COMMANDS = 110

    def played(self, r, m, d, i):
        n = self.TRIED + 20
        d.words = [(self.spelled(b"V", k), DIRECTIONS[k - 1] if 1 <= k <= 6 else self.spelled(b"X", k))
                   for k in range(n)]
        d.length = 4
        d.treasures = r.choice((0, 7, 7, 7, -1))
        tried = [k for k in range(19, n)]
        d.actions = self.telling(m)
        last = []
        for j, verb in enumerate(tried):
            line = self.tried(m, verb, i * self.TRIED + j)
            d.actions.append(line)
            opcodes = (line[6] // 150, line[6] % 150, line[7] // 150, line[7] % 150)
            if r.random() < 0.2:
                d.actions.append(action(0, 0, m.conditions(1), [m.opcode(False), m.opcode(True), 53, 0]))
                if d.actions[-1][6] // 150 in ENDING or d.actions[-1][6] % 150 in ENDING:
                    last.append(verb)
            if any(n in ENDING for n in opcodes):
                last.append(verb)
        typed = [r.choice([v for v in tried if v not in last]) for _ in range(self.COMMANDS)]
        typed = [v for v in tried if v not in last] + typed + last[:1]
        stdin = b""
        for v in typed:
            if r.random() < 0.15:
                stdin += r.choice((b"n", b"s", b"e", b"w", b"u", b"d")) + b"\n"
            stdin += self.spelled(b"V", v) + r.choice((b"", b" xa", b" Something")) + b"\n"
        return ["play", "t.dat"], {"t.dat": d.text()}, stdin

    @staticmethod
    def spelled(letter, k):
        return letter + bytes((65 + k // 26, 65 + k % 26))

    def telling(self, m):
        """One automatic group that tells the state and leaves it as it was."""
        out = [action(0, 100, (), (78, 86, 66, 73))]
        for f in range(32):
            out += [action(0, 0, ((8, f),), (1, 78)), action(0, 0, ((9, f),), (86,))]
        out += [action(0, 0, ((0, c), (0, c)), (81, 78, 86, 81)) for c in range(16)]
        for i in range(m.items):
            out += [action(0, 0, ((13, i),), (2, 78)), action(0, 0, ((14, i),), (86,)),
                    action(0, 0, ((17, i),), (1, 78)), action(0, 0, ((18, i),), (86,))]
        return out

    def tried(self, m, verb, number):
        """A line whose first opcode and first condition go through all that there are."""
        r = m.r
        first = number % 175
        if first > 160:
            first = r.choice((0, 52, 62, 72, 75, 81, 87, HIGH_OPCODE, 1000, 5000))
        if first in ENDING and r.random() < 0.7:
            first = 52
        conditions = []
        if r.random() < 0.7:
            conditions.append(m.condition((number // 3) % 20))
        if r.random() < 0.2:
            conditions.append(m.condition())
        while len(conditions) < 5 and r.random() < 0.8:
            conditions.append((0, m.argument()))
        second, fourth = m.opcode(True), m.opcode(True)
        third = m.opcode(False)
        if r.random() < 0.9:
            second, third, fourth = (0 if n in EXITING else n for n in (second, third, fourth))
        return action(verb, 0, conditions, (first, second, third, fourth))
