"""The cases of bench/compare that are Inform programs to be run: random small programs of all kinds of
statements, some of them broken in one place, with names of all lengths, lines, draws, a number of steps and both widths.

A case is (words, files, stdin), as in game_cases.
"""

import random
import re

GLOBALS = ("g", "h", "count")
WORDS, BYTES = ("w", "list"), ("b", "line", "parsed")
SUMS, PRODUCTS = ("+", "-"), ("*", "/", "%")
RELATIONS = ("==", "~=", "<", ">", "<=", ">=")
NUMBERS = ("0", "1", "2", "3", "7", "40", "100", "255", "256", "32767", "32768", "65535", "$ff", "$$101", "'a'", "' '",
           "four", "minus")
TEXTS = ('"a"', '"b^"', '"~c~ "', '"@@64@@53 "', '", "', '""')
BREAKS = ("65536", "nosuch", "else", ";", "&& g", "(", ")", "}", "[ ", "'", '"', "@", "continue;", "break;", "->", "g()",
          "w", "f", "to", "random")


class Maker:
    """A random program. A call goes to a routine that comes later, or now and then to any."""

    def __init__(self, r):
        self.r = r
        self.routines = [("f%d" % k, ["a", "n", "g", "x"][:r.randrange(5)]) for k in range(r.randrange(4))]

    def name(self, local):
        return self.r.choice(list(GLOBALS) + local * 2)

    def primary(self, depth, local):
        r, p = self.r, self.r.random()
        if depth == 0 or p < 0.35:
            return r.choice(NUMBERS) if r.random() < 0.5 else self.name(local)
        if p < 0.55 and self.routines:
            return self.call(depth - 1, local)
        if p < 0.63:
            return "random(%s)" % self.value(depth - 1, local)
        return "(%s)" % self.value(depth - 1, local)

    def call(self, depth, local):
        name, takes = self.r.choice(self.routines)
        return "%s(%s)" % (name, ", ".join(self.value(depth, local) for _ in range(self.r.randint(0, len(takes)))))

    def index(self, depth, local):
        return self.r.choice(("0", "1", "2", "5", "(9 - 8)", self.primary(depth, local)))

    def entry(self, depth, local):
        words = self.r.random() < 0.5
        return "%s%s%s" % (self.r.choice(WORDS if words else BYTES), "-->" if words else "->", self.index(depth, local))

    def unary(self, depth, local):
        p = self.r.random()
        if p < 0.12:
            return "- " + self.primary(depth, local)
        if p < 0.3:
            return self.entry(depth, local)
        return self.primary(depth, local)

    def value(self, depth, local):
        r = self.r
        out = self.unary(depth, local)
        while r.random() < 0.3:
            out += " %s %s" % (r.choice(SUMS if r.random() < 0.6 else PRODUCTS), self.unary(depth, local))
        return out

    def test(self, depth, local):
        r, p = self.r, self.r.random()
        if depth and p < 0.12:
            return "~~(%s)" % self.condition(depth - 1, local)
        if depth and p < 0.25:
            return "(%s)" % self.condition(depth - 1, local)
        if p < 0.4:
            return self.value(depth, local)
        return "%s %s %s" % (self.value(depth, local), r.choice(RELATIONS), self.value(depth, local))

    def condition(self, depth, local):
        join = self.r.choice((" && ", " || "))
        return join.join(self.test(depth, local) for _ in range(1 if self.r.random() < 0.7 else self.r.randint(2, 3)))

    def change(self, depth, local):
        p = self.r.random()
        if p < 0.4:
            return "%s = %s" % (self.name(local), self.value(depth, local))
        if p < 0.65:
            return "%s = %s" % (self.entry(depth, local), self.value(depth, local))
        return self.name(local) + self.r.choice(("++", "--"))

    def item(self, local):
        p = self.r.random()
        if p < 0.4:
            return self.r.choice(TEXTS)
        return "(char) " + self.value(1, local) if p < 0.55 else self.value(2, local)

    def case(self, depth, local, loop):
        choices = ", ".join(self.r.choice(("0", "1", "2 to 5", "- 3", "'a'", "four", "-9 to 0"))
                            for _ in range(self.r.randint(1, 2)))
        return "%s: %s" % (choices, self.statements(depth, local, loop))

    def body(self, depth, local, loop):
        return self.statement(depth, local, loop) if self.r.random() < 0.4 else "{ %s }" % self.statements(depth, local, loop)

    def statements(self, depth, local, loop):
        return " ".join(self.statement(depth, local, loop) for _ in range(self.r.randint(0, 3)))

    def statement(self, depth, local, loop):
        r, p = self.r, self.r.random()
        if depth == 0 or p < 0.3:
            return self.change(2, local) + ";"
        if p < 0.45:
            return "print %s;" % ", ".join(self.item(local) for _ in range(r.randint(1, 3)))
        if p < 0.52 and self.routines:
            return self.call(2, local) + ";"
        if p < 0.62:
            other = " else " + self.body(depth - 1, local, loop) if r.random() < 0.4 else ""
            return "if (%s) %s%s" % (self.condition(2, local), self.body(depth - 1, local, loop), other)
        if p < 0.67:
            return "while (%s) %s" % (self.condition(1, local), self.body(depth - 1, local, "loop"))
        if p < 0.71:
            return "do %s until (%s);" % (self.body(depth - 1, local, "loop"), self.condition(1, local))
        if p < 0.79:
            head = [self.change(1, local), self.condition(1, local), self.change(1, local)]
            return "for (%s) %s" % (" : ".join(h if r.random() < 0.8 else "" for h in head), self.body(depth - 1, local, "loop"))
        if p < 0.84:
            inside = "switch" if loop != "loop" else loop
            cases = " ".join(self.case(depth - 1, local, inside) for _ in range(r.randint(1, 3)))
            rest = " default: " + self.statements(depth - 1, local, inside) if r.random() < 0.5 else ""
            return "switch (%s) { %s%s }" % (self.value(2, local), cases, rest)
        if p < 0.88:
            return "{ %s }" % self.statements(depth - 1, local, loop)
        if p < 0.92:
            return r.choice(("continue;", "break;") if loop == "loop" else ("rtrue;", "new_line;"))
        if p < 0.95:
            return "read %s parsed;" % r.choice(BYTES)
        return r.choice((";", "quit;", "rtrue;", "rfalse;", "return;", "return %s;" % self.value(2, local), "new_line;"))

    def program(self):
        r = self.r
        out = ["Constant four = 4;", "Constant minus = -3;"]
        out += ["Global %s%s;" % (g, " = %s" % r.choice(("5", "'z'", "four", "-1")) if r.random() < 0.4 else "") for g in GLOBALS]
        out += ["Array %s --> %s;" % (w, r.choice(("4", "1 2 3 4", "four", "(-5) 'a' 70 minus"))) for w in WORDS]
        out += ["Array %s -> %s;" % (b, r.choice(("12", "9 0 0 0 0 0 0 0 0 0 0", "2 'a' 3"))) for b in BYTES]
        routines = ["[ %s; %s ];" % (" ".join([name] + takes), self.statements(3, takes, "")) for name, takes in self.routines]
        routines.append("[ Main; %s ];" % " ".join(self.statement(3, [], "") for _ in range(r.randint(1, 6))))
        r.shuffle(routines)
        return "\n".join(out + routines) + "\n"


NAMES = GLOBALS + WORDS + BYTES + ("f0", "f1", "f2", "f3", "a", "n", "x", "four", "minus")


def renamed(r, text):
    """The same program with names of all lengths, which begin alike."""
    begin = "q" + "".join(r.choice("abcxyz_09") for _ in range(31))
    others = {name: begin[:max(0, r.choice((1, 7, 8, 9, 10, 14, 15, 16, 31, 32)) - len(name))] + name for name in NAMES}
    return re.sub(r"\"[^\"]*\"|'[^']*'|\w+", lambda found: others.get(found.group(), found.group()), text)


class Runs:
    """Random programs, one of eight of them broken. A third has names of all lengths, and some have very many."""

    def __init__(self, seed, count):
        self.seed, self.count = seed, count

    def __len__(self):
        return self.count

    def case(self, number):
        r = random.Random("%d runs %d" % (self.seed, number))
        text = Maker(r).program()
        if r.random() < 0.33:
            text = renamed(r, text)
        if r.random() < 0.02:
            text = "".join("Global z%d = %d;\n" % (k, k) for k in range(1500)) + text
        if r.random() < 0.125:
            at = r.randrange(len(text))
            text = text[:at] + r.choice(BREAKS) + text[at + r.choice((0, 0, 1, 3)):]
        words = ["run", "g.inf", "steps=%d" % r.choice((1, 5, 20, 60, 200, 1000, 3000))]
        if r.random() < 0.5:
            words.append("words=%d" % r.choice((16, 32)))
        files = {"g.inf": text.encode("latin-1")}
        if r.random() < 0.7:
            words.append("draws=d.txt")
            files["d.txt"] = b" ".join(b"%d" % r.randint(1, 100) for _ in range(r.randrange(12)))
        lines = [r.choice((b"", b"n", b"Go North", b"a b c d e f g h", b"x" * 130, b"\xff\t")) for _ in range(r.randrange(4))]
        return words, files, b"".join(line + b"\n" for line in lines)
