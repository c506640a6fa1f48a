"""The cases of bench/compare that are files and words: bad ones, odd ones, and good ones spelled oddly.

A case is (words, files, stdin), as in game_cases.
"""

import gzip
import random

from database import Database, action
from game_cases import DIRECTIONS, PARAMETERS, Maker


class Files:
    """Files for the reader and the report: cut, changed, at and past each limit."""

    name = "files"
    TYPED = b"n\nlook\nget all\ni\nscore\nxyzzy\n"

    def __init__(self, seed, count, games):
        """`games` are the bytes of good databases, the smallest first."""
        self.seed = seed
        self.games = games
        self.whole = list(self.special())
        self.cut = [(g, n) for g, data in enumerate(games[:2]) for n in range(len(data) + 1)]
        self.changed = [(g, n) for g, data in enumerate(games[:2]) for n in range(len(data))]
        self.changed += [(0, n) for n in range(len(games[0])) for _ in range(9)]
        self.random = count

    def __len__(self):
        return len(self.whole) + len(self.cut) + len(self.changed) + self.random

    def case(self, i):
        r = random.Random("files %d %d" % (self.seed, i))
        if i < len(self.whole):
            return self.whole[i]
        i -= len(self.whole)
        if i < len(self.cut):
            g, n = self.cut[i]
            return self.asked(r, self.games[g][:n])
        i -= len(self.cut)
        if i < len(self.changed):
            g, n = self.changed[i]
            data = bytearray(self.games[g])
            old = data[n]
            while data[n] == old:
                data[n] = r.choice((r.randrange(256), r.choice(b'"`0123456789+- \t\n\x0b\x0c\r*/')))
            return self.asked(r, bytes(data))
        return self.asked(r, self.mixed(r))

    def asked(self, r, data):
        if r.random() < 0.7:
            return ["check", "t.dat"], {"t.dat": data}, b""
        return ["play", "t.dat"], {"t.dat": data}, self.TYPED

    def mixed(self, r):
        """A random game, spelled oddly, and perhaps with one piece of it lost or doubled."""
        m = Maker(r)
        d = m.database()
        d.actions = [self.limit_line(m) if r.random() < 0.6 else
                     action(r.randrange(20), r.randrange(150), m.conditions(5),
                            [m.opcode(False), m.opcode(True), m.opcode(False), m.opcode(True)])
                     for _ in range(r.randint(1, 12))]
        pieces = []
        for piece in d.text().split():
            if piece.lstrip(b"-").isdigit() and r.random() < 0.2:
                sign = b"-" if piece.startswith(b"-") else r.choice((b"", b"+"))
                piece = sign + b"0" * r.randint(0, 12) + piece.lstrip(b"-")
            pieces.append(piece)
        k, at = r.random(), r.randrange(len(pieces))
        if k < 0.25:
            del pieces[at]
        elif k < 0.4:
            pieces.insert(at, r.choice((b'""', b"7", b"-1", b"2147483648", b"-2147483649", b'"', b"x")))
        elif k < 0.5:
            pieces[at] = r.choice((b"300", b"-2", b"70000", b"1e3", b"+", b"--1", b'"a', b"21474836470"))
        return b"".join(p + r.choice((b" ", b"\n", b"\t", b"\r\n", b"\x0b", b"\x0c")) for p in pieces)

    @staticmethod
    def limit_line(m):
        """Conditions and parameters at and past the limits of their kinds."""
        r, ends = m.r, m.ends()
        opcodes = [r.choice(sorted(PARAMETERS) + [90, 101]), r.choice((0, 1, m.messages, 73))]
        conditions = [(0, r.choice(ends)) for _ in range(r.choice((1, 2, 2, 3)))]
        conditions += [(r.randrange(20), r.choice(ends)) for _ in range(r.randint(0, 2))]
        return action(r.randrange(3), r.randrange(150), conditions, opcodes)

    def special(self):
        """Single cases, each by hand."""
        for data in self.special_files():
            yield ["check", "t.dat"], {"t.dat": data}, b""
            yield ["play", "t.dat"], {"t.dat": data}, self.TYPED
        good = {"t.dat": self.games[0], "d.txt": b"1 2 3 100", "bad.txt": b"5 101", "none.txt": b"",
                "zero.txt": b"0", "long.txt": b" " * 1048577, "full.txt": b" " * 1048576,
                "bad.dat": b"1 2 x"}
        for words in self.special_words():
            yield words, good, self.TYPED
        for stdin in (b"", b"\n", b"n", b"\n\n\nn\n", b"N\r\nGO\tSOUTH\r\n", b"n" * 119 + b"\n",
                      b"look " + b"x" * 300 + b"\n", b"\x00\xff\x80\n", b"go \xe9north\n", b"n\x00\n",
                      b"go " + b" " * 110 + b"north\n", b"x" * 65536 + b"\n"):
            yield ["play", "t.dat"], good, stdin

    def special_words(self):
        seeds = ("0", "1", "00001", "18446744073709551615", "18446744073709551616", "-1", "+1", "", "x", "1x",
                 " 1", "0x1", "000000000000000000000000000000000000001", "99999999999999999999999")
        yield from (["play", "t.dat", "seed=" + s] for s in seeds)
        draws = ("d.txt", "bad.txt", "none.txt", "zero.txt", "long.txt", "full.txt", "absent.txt", "", "t.dat")
        yield from (["play", "t.dat", "draws=" + s] for s in draws)
        yield from ([], [""], ["play"], ["play", ""], ["check"], ["check", ""], ["check", "t.dat", "t.dat"],
                    ["check", "t.dat", "seed=1"], ["play", "t.dat", "t.dat"], ["play", "t.dat", "seed=1", "seed=2"],
                    ["play", "t.dat", "seed=1", "draws=d.txt"], ["play", "t.dat", "draws=d.txt", "seed=1"],
                    ["play", "t.dat", "draws=d.txt", "draws=d.txt"], ["PLAY", "t.dat"], ["play", "absent.dat"],
                    ["check", "absent.dat"], ["play", "absent.dat", "draws=absent.txt"], ["play", "bad.dat"],
                    ["play", "bad.dat", "draws=bad.txt"], ["play", "bad.dat", "draws=absent.txt"],
                    ["play", "bad.dat", "draws=long.txt"], ["check", "long.txt"], ["check", "full.txt"],
                    ["play", "long.txt", "draws=absent.txt"], ["play", "seed=1"], ["check", "seed=1"],
                    ["play", "t.dat", "Seed=1"], ["play", "t.dat", "seed"], ["play", "t.dat", "="],
                    ["play", "t.dat", ""], ["nothing"], ["check", "t.dat"], ["play", "t.dat"], ["help"],
                    ["--help"], ["play", "sub/t.dat"], ["play", "."])

    def special_files(self):
        good = self.games[0]
        yield from (b"", b" ", b"\n\n", b"x", b'"', b"-", b"+", b"0", b"\xff\xfe0\x00", b"\x00")
        yield from (gzip.compress(good, mtime=0), b"PK\x03\x04" + good,
                    b'! A game.\nConstant Story "x";\n[ Main; print "Hello^"; ];\n')
        yield good + b"\x00" * 10
        yield good + b" " * (1048576 - len(good))
        yield good + b" " * (1048577 - len(good))
        yield from (good.replace(b"\n", end) for end in (b"\r\n", b"\r", b"\t", b"\x0b", b"\x0c", b" ", b"  \t\r\n"))
        yield good.replace(b" ", b"").replace(b"\n", b"")
        yield from (good.replace(b"416 1 0\n", end)
                    for end in (b"416 1", b"416 1 ", b"416 1 x", b"416", b"", b"416 1 99999999999", b"416 1 -",
                                b"416 1 2147483648", b"416 1 -2147483648", b"416 1 0x", b"416\x001 0"))
        yield from self.numbers(good)
        yield from self.strings(good)
        yield from self.headers(good)

    def numbers(self, good):
        """The first number of the header, and a place, an exit and an action's number."""
        values = ("2147483647", "2147483648", "-2147483648", "-2147483649", "+2147483647", "+2147483648",
                  "0002147483647", "0002147483648", "-0", "+0", "--1", "+-1", "- 1", "99999999999999999999",
                  "-99999999999999999999", "18446744073709551616", "4294967296", "0" * 5000, "0" * 5000 + "7",
                  "1" * 5000, "1.5", "1e3", "0x10")
        for v in map(str.encode, values):
            yield v + good[1:]
            yield good.replace(b'"Rug" 1', b'"Rug" ' + v)
            yield good.replace(b"2 0 0 0 0 0 \"hall\"", b"2 0 0 " + v + b" 0 0 \"hall\"")
            yield good.replace(b"\n0 0 0 0 0 0 0 0\n", b"\n0 0 0 0 0 0 " + v + b" 0\n")

    def strings(self, good):
        texts = [b"a" * n for n in (4095, 4096, 4097, 8192)]
        texts += [b"a" * 4095 + end for end in (b'""', b"`", b"\r", b"\rb", b'b""', b"b\r", b"bc\r", b"\r\r\r")]
        texts += [b'""' * 4096, b'""' * 4097, b"`" * 4096, b"`" * 4097, b"\r" * 9000, b"a\r\nb", b'""', b'a""b`c\r\nd',
                  b"`", b"\x00\xff", b"a\nb", b"*", b"**", b"/", b"//", b"/*x/", b"a/b", b"*a*/b/c/"]
        for t in texts:
            for old in (b'"Rug"', b'"hall"', b'"LOOK"', b'""\n416'):
                yield good.replace(old, b'"' + t + b'"' + old[len(old.rstrip(b"\n416")):], 1)
            yield good.replace(b'"hall"', b'"' + t, 1)
        yield from (good.replace(b'"hall"', t) for t in (b"hall", b"'hall'", b'""hall""', b'"ha"ll"', b'"hall'))
        yield good.rstrip(b'0123456789 \n"') + b'"' + b"a" * 4096
        yield good.rstrip(b'0123456789 \n"') + b'"' + b"a" * 4097

    def headers(self, good):
        """Each number of the header at and past its limit, in a file that has such lists."""
        first, rest = good.split(b"\n", 1)
        fields = first.split(b" ")
        for at in range(12):
            for v in (-2147483648, -2, -1, 0, 1, 2, 19, 20, 21, 253, 254, 255, 256, 998, 999, 1000, 4998, 4999, 5000,
                      65536, 2147483647):
                changed = list(fields)
                changed[at] = b"%d" % v
                yield b" ".join(changed) + b"\n" + rest
        for field, entry in (("items", 255), ("items", 256), ("rooms", 255), ("rooms", 256), ("words", 1000),
                             ("words", 1001), ("messages", 1000), ("messages", 1001), ("actions", 5000),
                             ("actions", 5001)):
            d = Database()
            d.actions, d.words, d.items = [action(0, 0)], [(b"AUT", b"ANY")] + [(b"", d) for d in DIRECTIONS], [(b"Rug", 1)]
            d.rooms = [((0,) * 6, b""), ((1,) * 6, b"hall")]
            grown = getattr(d, field)
            grown += [grown[-1]] * (entry - len(grown))
            yield d.text()
