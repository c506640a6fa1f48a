"""The cases of bench/compare that are sources: random games spelled in messy layout, most of them broken
in one way, and databases to be written as sources.

A case is (words, files, stdin), as in game_cases.
"""

import random

from database import action
from game_cases import PARAMETERS, Made, Maker

CONDITIONS = (b"param carried here near at not_here not_carried not_at flag_set flag_clear some_carried "
              b"none_carried not_near in_game out_of_game counter_most counter_over at_start not_at_start "
              b"counter_is").split()
OPCODES = (b"get drop go remove darken lighten set remove2 clear die put finish look score inventory set0 "
           b"clear0 refill screen save swap more take join look2 counter_down counter_show counter_set "
           b"swap_saved counter_swap counter_add counter_sub noun noun_line newline swap_room pause "
           b"picture").split()
OTHERS = (b"header unused carry start treasures length light home words rooms room messages message items "
          b"item lines line auto also trailer carried nowhere say op").split()
NAMES = (b"a", b"B2", b"hall_", b"x" * 32, b"Lamp", b"lamp", b"get_", b"r1", b"m0", b"i0", b"Header")
GAPS = (b" ", b" ", b" ", b"\n", b"\t", b"\r\n", b"\x0b", b"\x0c", b"  ", b" # a comment; }\n", b"#\r", b"#\"\n")
NUMBERS = (0, 1, 2, 19, 20, 21, 149, 150, 254, 255, 256, 999, 1000, -1, -2, 107374182, 107374183, 14316557,
           14316558, 2147483647, 2147483648, -2147483648, -2147483649, 99999999999999999999)


def random_game(m):
    """A random game with random lines, each with a comment."""
    r, d = m.r, m.database()
    d.actions = [action(r.choice((0, 0, 1, 3, 10, r.randrange(200))), r.choice((0, 1, r.randrange(150))),
                        m.conditions(3), [m.opcode(False), m.opcode(True), m.opcode(False), m.opcode(True)])
                 for _ in range(r.randint(1, 9))]
    return d


class Source:
    """The tokens of a source, made of a random game; numbers and names are mixed."""

    def __init__(self, r):
        self.r, self.out = r, []
        self.m = Maker(r)
        self.game = random_game(self.m)
        self.names = {kind: self.some_names(length) for kind, length in
                      (("room", len(self.game.rooms)), ("message", len(self.game.messages)),
                       ("item", len(self.game.items)))}
        self.source()

    def some_names(self, length):
        """For each entry a name or none; now and then one twice, or one of the language's own words."""
        r, names = self.r, []
        for k in range(length):
            p = r.random()
            name = None
            if p < 0.6:
                name = r.choice(NAMES) + b"%d" % k if p < 0.5 else r.choice((b"r", b"m", b"i")) + b"%d" % k
                name = name[:32 if r.random() < 0.98 else 33]
            elif p < 0.61:
                name = r.choice(NAMES + (b"x" * 33,) + tuple(OTHERS[:3]))
            names.append(name)
        return names

    def put(self, *tokens):
        self.out += tokens

    def number(self, n):
        r = self.r
        if r.random() < 0.004:
            n = r.choice(NUMBERS)
        sign = b"-" if n < 0 else r.choice((b"", b"", b"", b"+"))
        return sign + b"0" * r.choice((0, 0, 0, 2)) + b"%d" % abs(n)

    def string(self, text):
        if self.r.random() < 0.1:
            text = text.replace(b'"', b"`")
        return b'"' + text.replace(b'"', b'""') + b'"'

    def ref(self, kinds, n):
        """The name of entry n of one of the kinds, or its number."""
        r = self.r
        if r.random() < 0.004:
            return r.choice((b"nosuch",) + NAMES + (b"carried", b"at"))
        for kind in kinds:
            names = self.names[kind]
            if 0 <= n < len(names) and names[n] and r.random() < 0.7:
                return names[n]
        return self.number(n)

    def named(self, kind, k):
        name = self.names[kind][k]
        self.put(kind.encode(), *([name] if name else []))

    def header(self):
        d = self.game
        self.put(b"header", b"{")
        for word, token in ((b"unused", self.number(self.r.choice((0, 7, -1)))), (b"carry", self.number(d.carry)),
                            (b"start", self.ref(["room"], d.start)), (b"treasures", self.number(d.treasures)),
                            (b"length", self.number(d.length)), (b"light", self.number(d.light)),
                            (b"home", self.ref(["room"], d.home))):
            self.put(word, token, b";")
        self.put(b"}")

    def conditions(self, pairs):
        for code, n in pairs:
            self.put(CONDITIONS[code], self.ref(["item", "room"], n), b";")

    def opcode(self, n, arguments):
        if 1 <= n <= 51 or n >= 102 and self.r.random() < 0.9:
            self.put(b"say", self.ref(["message"], n if n <= 51 else n - 50))
        elif 52 <= n <= 89 and self.r.random() < 0.95:
            self.put(OPCODES[n - 52])
            if arguments is not None:
                self.put(b"(")
                for k, a in enumerate(arguments):
                    self.put(*([b","] if k else []), self.ref(["item", "room"], a))
                self.put(b")")
        else:
            self.put(b"op", self.number(n))
        self.put(b";")

    def line(self, numbers):
        r = self.r
        verb, noun = divmod(numbers[0], 150)
        words = self.game.words
        if verb == 0 and r.random() < 0.8:
            self.put(*([b"also"] if noun == 0 else [b"auto", self.number(noun)]))
        else:
            self.put(b"line", *(self.string(words[k][side]) if 0 < k < len(words) and r.random() < 0.4 else
                                self.number(k) for side, k in ((0, verb), (1, noun))))
        pairs = [(c % 20, c // 20) for c in numbers[1:6]]
        while pairs and pairs[-1] == (0, 0) and r.random() < 0.9:
            pairs.pop()
        opcodes = [n for packed in numbers[6:] for n in divmod(packed, 150)]
        while opcodes and opcodes[-1] == 0 and r.random() < 0.9:
            opcodes.pop()
        rest = [n for code, n in pairs if code == 0]
        bracketed = r.random() < 0.5
        self.put(b"{")
        self.conditions([p for p in pairs if p[0] or not bracketed])
        self.put(b"}", b"{")
        for n in opcodes:
            wanted = PARAMETERS.get(n, 0)
            arguments = None
            if bracketed and wanted:
                arguments = [rest.pop(0) if rest else r.randrange(9) for _ in range(wanted)]
                if r.random() < 0.01:
                    arguments.append(0)
            self.opcode(n, arguments)
        self.put(b"}", *([self.string(r.choice((b"", b"a comment", b'"')))] if r.random() < 0.7 else []), b";")

    def source(self):
        d = self.game
        self.header()
        self.put(b"words", b"{")
        for verb, noun in d.words:
            self.put(self.string(verb), self.string(noun), b";")
        self.put(b"}", b"rooms", b"{")
        for k, (exits, text) in enumerate(d.rooms):
            self.named("room", k)
            self.put(self.string(text), b":")
            for e, n in enumerate(exits):
                self.put(*([b","] if e else []), self.ref(["room"], n))
            self.put(b";")
        self.put(b"}", b"messages", b"{")
        for k, text in enumerate(d.messages):
            self.named("message", k)
            self.put(self.string(text), b";")
        self.put(b"}", b"items", b"{")
        for k, (text, place) in enumerate(d.items):
            self.named("item", k)
            spot = {255: b"carried", 0: b"nowhere"}.get(place) if self.r.random() < 0.7 else None
            self.put(self.string(text), b":", spot or self.ref(["room"], place), b";")
        self.put(b"}", b"lines", b"{")
        for numbers in d.actions:
            self.line(numbers)
        self.put(b"}", b"trailer", b"{", *(self.number(n) for n in d.trailer), b"}")


def is_mark(token):
    return not (token[:1].isalnum() or token[:1] in b'+-"_')


class Sources(Made):
    """Sources to compile: good ones, and ones with a token lost, doubled, changed or moved, or bytes of them."""

    name = "sources"

    def case(self, i):
        r = random.Random("sources %d %d" % (self.seed, i))
        tokens = Source(r).out
        p, at = r.random(), r.randrange(len(tokens))
        if p < 0.08:
            del tokens[at]
        elif p < 0.14:
            tokens.insert(at, tokens[r.randrange(len(tokens))])
        elif p < 0.22:
            tokens[at] = r.choice(OPCODES + OTHERS + CONDITIONS + [b"{", b"}", b"(", b",", b'"', b"'", b"-", b"7", b"+"])
        elif p < 0.26:
            other = r.randrange(len(tokens))
            tokens[at], tokens[other] = tokens[other], tokens[at]
        text = self.spelled(r, tokens)
        if 0.26 <= p < 0.32:
            text = text[:r.randrange(len(text) + 1)]
        elif 0.32 <= p < 0.4:
            k = r.randrange(len(text))
            text = text[:k] + bytes([r.choice((r.randrange(256), r.choice(b'"{};:,()#0-+ \n')))]) + text[k + 1:]
        elif 0.4 <= p < 0.42:
            text += r.choice((b"x", b"{", b"#", b'"', b"\x00", b" 1"))
        return ["compile", "s.adv", "t.dat"], {"s.adv": text}, b""

    @staticmethod
    def spelled(r, tokens):
        """The tokens with gaps between them, where two of them need one and elsewhere now and then."""
        often, out = r.choice((0.05, 0.5, 1)), [b""]
        for token in tokens:
            last = out[-1]
            apart = last and not is_mark(last) and not is_mark(token)
            if apart or r.random() < often:
                out.append(r.choice(GAPS))
            out.append(token)
        return b"".join(out) + r.choice((b"", b"\n", b"# end"))


class Plains(Made):
    """Databases to be written as sources."""

    name = "plains"

    def case(self, i):
        r = random.Random("plains %d %d" % (self.seed, i))
        return ["decompile", "t.dat", "s.adv"], {"t.dat": random_game(Maker(r)).text()}, b""
