"""Writes the text of a database from plain lists, for the scripts beside this file.

Numbers are ints, texts are bytes. Nothing is checked: a made file may be a bad one.
"""


def quoted(text):
    return b'"' + text.replace(b'"', b'""') + b'"'


def numbers(*values):
    return b" ".join(b"%d" % v for v in values)


def action(verb, noun, conditions=(), opcodes=()):
    """One action line from (code, argument) pairs and up to four opcodes."""
    conds = [20 * a + code for code, a in conditions]
    conds += [0] * (5 - len(conds))
    ops = list(opcodes) + [0] * (4 - len(opcodes))
    return [150 * verb + noun] + conds + [150 * ops[0] + ops[1], 150 * ops[2] + ops[3]]


class Database:
    """The lists of a database, with small defaults."""

    def __init__(self):
        self.carry, self.start, self.treasures, self.length, self.light, self.home = 5, 1, 0, 4, -1, 0
        self.actions = []       # lists of eight numbers, see action()
        self.words = []         # (verb, noun)
        self.rooms = []         # (six exits, text)
        self.messages = [b""]
        self.items = []         # (text, place)
        self.trailer = (416, 1, 0)

    def header(self):
        return [0, len(self.items) - 1, len(self.actions) - 1, len(self.words) - 1,
                len(self.rooms) - 1, self.carry, self.start, self.treasures, self.length,
                self.light, len(self.messages) - 1, self.home]

    def text(self):
        lines = [numbers(*self.header())]
        lines += [numbers(*a) for a in self.actions]
        lines += [quoted(v) + b" " + quoted(n) for v, n in self.words]
        lines += [numbers(*e) + b" " + quoted(t) for e, t in self.rooms]
        lines += [quoted(m) for m in self.messages]
        lines += [quoted(t) + b" %d" % p for t, p in self.items]
        lines += [b'""' for _ in self.actions]
        lines.append(numbers(*self.trailer))
        return b"\n".join(lines) + b"\n"
