"""Makes Inform sources of the kind that a translated game is: globals, arrays of numbers and of
letters, a routine for each message, line and group, and some loops over the arrays."""

import random

GLOBALS = "here light redraw saved cur over vnum nnum wa na wb nb".split()
CONDITIONS = "carried here with room flag item moved counter".split()
SENTENCE = "The bees said ~no~ to the bear, who went home and thought about it.^"



def routine(name, local, body):
    return "[ %s;\n%s];\n" % (" ".join([name] + local), "".join(" %s\n" % line for line in body))


def fixed():
    """The routines that every game has."""
    out = []
    for name in CONDITIONS:
        out.append(routine("cond_" + name, ["a", "b"], [
            "if (a > 255) rfalse;", "b = item-->a;", "if (b == 255 || b == here) rtrue;",
            "if (b ~= 0 && flag-->2 == 1) return 2;", "rfalse;"]))
    for number in (52, 53, 54, 55, 58, 60, 62, 72, 74, 78):
        out.append(routine("op_%d" % number, ["p", "q"], [
            "if (p < 0 || p > 255) rfalse;", "item-->p = q;", "if (q == here) redraw = 1;",
            "cur = cur + p * 2 - q % 7;", "rtrue;"]))
    out.append(routine("same", ["p", "a", "n", "i"], [
        "for (i = 0 : i < n : i++) { if (vword->(p + i) ~= buf->(2 + a + i)) rfalse; }", "rtrue;"]))
    out.append(routine("find", ["a", "k", "p"], [
        "p = 0;", "while (k < 99) { if (vroot-->k ~= 0 && same(p, a, 4)) return vroot-->k; p = p + 4; k++; }",
        "return 0 - 1;"]))
    out.append(routine("look", ["i"], [
        "switch (here) { 1: print \"I'm in a hall^\"; 2, 3 to 5: print \"I'm on a hill^\"; default: new_line; }",
        "for (i = 0 : i <= 60 : i++) if (item-->i == here) { print (char) 32, i, \". \"; }",
        "do { light--; } until (light <= 0);"]))
    return "".join(out)


def line(r, number, messages):
    body = ["if (~~(cond_%s(%d))) rfalse;" % (r.choice(CONDITIONS), r.randrange(60)) for _ in range(2)]
    for _ in range(3):
        kind = r.randrange(4)
        if kind == 0:
            body.append("msg_%d();" % r.randrange(messages))
        elif kind == 1:
            body.append("op_%d(%d);" % (r.choice((53, 55, 58, 60, 78)), r.randrange(60)))
        elif kind == 2:
            body.append("op_%d(%d, %d);" % (r.choice((62, 72, 74)), r.randrange(60), r.randrange(60)))
        else:
            body.append("if (op_52(%d)) { op_53(%d); } else { msg_%d(); }" % (r.randrange(60), r.randrange(60), r.randrange(messages)))
    return routine("line_%d" % number, [], body + ["return %d;" % r.randrange(1, 3)])


def made(size):
    """A source of exactly `size` bytes."""
    r = random.Random(1)
    out = ["Global %s%s;\n" % (name, " = 1" if k < 3 else "") for k, name in enumerate(GLOBALS)]
    entries = max(61, size // 200)

    def array(name, arrow, values):
        out.append("Array %s %s%s;\n" % (name, arrow, "".join(" %d" % v for v in values)))

    array("item", "-->", [r.choice((0, 1, 2, 3, 255)) for _ in range(62)])
    array("flag", "-->", [0] * 32)
    array("exits", "-->", [r.randrange(9) for _ in range(min(entries, 1500))])
    array("vroot", "-->", [r.randrange(99) for _ in range(100)])
    array("vword", "->", [r.randrange(97, 123) for _ in range(400)])
    out.append("Array buf -> 123;\nArray pbuf -> 2;\n")
    out.append(fixed())
    messages = max(4, size // 1000)
    for k in range(messages):
        out.append(routine("msg_%d" % k, [], ["print \"%s\";" % (SENTENCE * (k % 3 + 1))]))
    tail = routine("Main", ["i"][:0], ["look();", "while (over == 0) { read buf pbuf; find(0); }", "quit;"])
    length = sum(map(len, out)) + len(tail)
    k = 0
    while True:
        more = line(r, k, messages) + routine("group_%d" % k, ["r"], [
            "r = line_%d();" % k, "if (r == 2) { line_%d(); }" % k, "return r;"])
        if length + len(more) + 3 > size:
            break
        out.append(more)
        length += len(more)
        k += 1
    data = "".join(out) + tail
    return (data + "!" + "." * (size - len(data) - 2) + "\n").encode()
