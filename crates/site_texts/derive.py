#!/usr/bin/env python3
# Writes the texts that the program is run on (stdin) and what it must write of them (stdout). Everything here follows the
# papers alone: the site form as one pattern, the rules by sets of triples, classes by joining pairs until nothing changes.
import itertools
import pathlib
import re

ABSENT = 4294967295
# the codes of type, subclass, subproperty, domain and range where a text loads no others
RDFS = (0, 1, 2, 3, 4)
NUMBER = rb"(?:0|[1-9][0-9]*)"
END = rb"\((?:v|c) " + NUMBER + rb"\)"
PATTERN = rb"\(" + END + rb" " + NUMBER + rb" " + END + rb"\)"
SITE = rb"\(site " + NUMBER + rb"\)\n"
WORDS = rb"\(words" + (rb" " + NUMBER) * 5 + rb"\)\n"
TRIPLE = rb"\(t " + NUMBER + rb" " + NUMBER + rb" " + NUMBER + rb"\)\n"
ASK = rb"\(ask(?: " + PATTERN + rb"){1,8}\)\n"
FORM = re.compile(SITE + rb"(?:" + WORDS + rb")?(?:" + TRIPLE + rb"){0,1000}(?:" + ASK + rb"){0,16}")


def numbers(line):
    return [int(x) for x in re.findall(rb"[0-9]+", line)]


def read(text):
    """N, the five reserved codes, triples and queries of a text of the site form, else None."""
    if FORM.fullmatch(text) is None or any(x > ABSENT for x in numbers(text)):
        return None
    lines = text.split(b"\n")
    triples = [tuple(numbers(x)) for x in lines if x.startswith(b"(t")]
    queries = []
    for line in lines:
        if line.startswith(b"(ask"):
            parts = re.findall(rb"\(\((v|c) ([0-9]+)\) ([0-9]+) \((v|c) ([0-9]+)\)\)", line)
            queries.append([(a.decode(), int(x), int(p), b.decode(), int(y)) for a, x, p, b, y in parts])
    words = tuple(numbers(lines[1])) if lines[1].startswith(b"(words") else RDFS
    return numbers(lines[0])[0], words, triples, queries


def digest(numbers):
    total = 0
    for x in numbers:
        total = (31 * total + x) % 1000003
    return total


def shown_query(query):
    patterns = query + [("v", 0, 0, "v", 0)] * (8 - len(query))
    shown = "".join(" ((%s %d) %d (%s %d))" % p for p in patterns)
    return "(query %d%s)" % (len(query), shown)


def shown_read(form, length):
    """What reading into a list of this length gives: 8, then 5. The reserved codes have a line if they are not 0 to 4."""
    if form is None:
        return ["(read 8 0 0 0 0)"]
    n, words, triples, queries = form
    if len(triples) > length // 3:
        return ["(read 5 0 0 0 0)"]
    flat = [x for t in triples for x in t]
    flat += [0] * (length - len(flat))
    lines = ["(read 0 %d %d %d %d)" % (n, len(triples), len(queries), digest(flat))]
    if words != RDFS:
        lines.append("(words %d %d %d %d %d)" % words)
    lines += ["(t %d %d %d)" % t for t in triples[:4]]
    return lines + [shown_query(q) for q in queries]


def marks(words, triples):
    type_, subclass, subproperty, domain, range_ = words
    classes, properties = set(), set()
    for s, p, o in triples:
        classes |= {type_: {o}, subclass: {s, o}, domain: {o}, range_: {o}}.get(p, set())
        properties |= {subproperty: {s, o}, domain: {s}, range_: {s}}.get(p, set() if p in words else {p})
    return classes | properties


def conclusions(words, x, y):
    """What the ten rules give with x as first premise and y as second."""
    type_, subclass, subproperty, domain, range_ = words
    (a, p, c), (s, q, o) = x, y
    if p == domain and q == a:
        yield (s, type_, c)
    if p == range_ and q == a:
        yield (o, type_, c)
    if p == subproperty and q == subproperty and c == s:
        yield (a, subproperty, o)
    if p == subproperty and q == a:
        yield (s, c, o)
    if p == subclass and q == type_ and o == a:
        yield (s, type_, c)
    if p == subclass and q == subclass and c == s:
        yield (a, subclass, o)
    if p == subproperty and q in (domain, range_) and c == s:
        yield (a, q, o)
    if p in (domain, range_) and q == subclass and c == s:
        yield (a, p, o)


def saturated(words, triples):
    """The closure under the rules: every new triple meets every schema triple."""
    known, fresh = set(), set(triples)
    while fresh:
        known |= fresh
        schema = [x for x in known if x[1] in words[1:]]
        fresh_schema = [x for x in fresh if x[1] in words[1:]]
        pairs = itertools.chain(itertools.product(schema, fresh), itertools.product(fresh_schema, known))
        fresh = {z for x, y in pairs for z in conclusions(words, x, y)} - known
    return known


def joined(groups):
    """The groups that overlap, joined until none do."""
    classes = []
    for group in groups:
        group = set(group)
        rest = []
        for c in classes:
            if c & group:
                group |= c
            else:
                rest.append(c)
        classes = rest + [group]
    return classes


def representatives(words, triples):
    marked = marks(words, triples)
    nodes = {x for s, p, o in triples for x in (s, o)}
    data = [t for t in triples if t[1] not in words]
    free = nodes - marked
    groups = [{n} for n in free]
    have = set()
    for place in (0, 2):
        of = {n: {t[1] for t in data if t[place] == n} for n in free}
        cliques = joined([ps for ps in of.values() if ps])
        for clique in cliques:
            groups.append({n for n in free if of[n] & clique})
        have |= {n for n in free if of[n]}
    groups.append(free - have)
    map_of = {n: n for n in nodes}
    for c in joined([g for g in groups if g]):
        for n in c:
            map_of[n] = min(c)
    return map_of


def maybe(table, map_of, query):
    nodes = sorted({x for s, p, o in table for x in (s, o)})
    used = sorted({x for a, x, p, b, y in query if a == "v"} | {y for a, x, p, b, y in query if b == "v"})
    for choice in itertools.product(nodes, repeat=len(used)):
        at = dict(zip(used, choice))
        value = lambda kind, x: at[x] if kind == "v" else map_of.get(x, ABSENT)
        if nodes and all((value(a, x), p, value(b, y)) in table for a, x, p, b, y in query):
            return True
    return False


def wrong_query(query, n):
    for a, x, p, b, y in query:
        if p >= n or any(k == "v" and z > 7 or k == "c" and z >= n for k, z in ((a, x), (b, y))):
            return True
    return False


def retired_query(query, words):
    return any(p in words[1:] for a, x, p, b, y in query)


def refusal(text, form):
    """The printer's checks in the order 8, 1, 10, 3, 5, 6."""
    if len(text) > 32768 or form is None:
        return 8
    n, words, triples, queries = form
    if not 5 <= n <= 512:
        return 1
    if len(set(words)) < 5 or max(words) >= n:
        return 10
    if any(max(t) >= n or t[0] in words or t[2] in words for t in triples):
        return 3
    if len(saturated(words, triples)) > 2048:
        return 5
    if any(wrong_query(q, n) for q in queries):
        return 6
    return 0


def answer(words, table, map_of, query):
    """The word in a query's line. A retired query refuses nothing: those before and after it are answered all the same."""
    if retired_query(query, words):
        return "retired"
    return "maybe" if maybe(table, map_of, query) else "none"


def printed(text, form):
    r = refusal(text, form)
    if r:
        return ["(refused %d)" % r]
    n, words, triples, queries = form
    table = saturated(words, triples)
    map_of = representatives(words, table)
    summary = sorted({(map_of[s], p, map_of[o]) for s, p, o in table})
    lines = ["(summary %d)" % len(summary)] + ["(t %d %d %d)" % t for t in summary]
    lines += ["(rep %d %d)" % (x, map_of[x]) for x in sorted(map_of)]
    held = set(summary)
    return lines + ["(ask %s)" % answer(words, held, map_of, q) for q in queries]


def damaged(text):
    """The text with each byte left out, exchanged or doubled, and with a byte put before each."""
    for i in range(len(text)):
        yield text[:i] + text[i + 1 :]
        yield text[:i] + text[i : i + 1] + text[i:]
        for byte in (b" ", b"0", b"9", b"(", b")", b"\n", b"\x00"):
            yield text[:i] + byte + text[i + 1 :]
            yield text[:i] + byte + text[i:]
    for byte in (b" ", b"0", b")", b"\n", b"\x00"):
        yield text + byte


PAPER = b"""(site 14)
(t 5 2 7)
(t 6 2 7)
(t 7 3 8)
(t 8 1 9)
(t 10 5 12)
(t 11 6 13)
(ask ((v 0) 5 (v 1)) ((v 0) 6 (v 2)))
(ask ((v 0) 7 (v 1)) ((v 1) 7 (v 2)))
"""


def site(n, *lines):
    return ("(site %s)\n" % n + "".join("(%s)\n" % x for x in lines)).encode()


def forms():
    """Texts that are not in the form, or only just."""
    asks = "ask ((v 0) 5 (v 1))"
    most = ABSENT
    yield from (b"", b"\n", b"(site 9)", b"(site 9)\r\n", b"(site 9)\n\n", b" (site 9)\n", b"(site 9) \n", b"(site  9)\n", b"(site\t9)\n")
    yield from (b"(Site 9)\n", b"(site -9)\n", b"(site +9)\n", b"(site 9.)\n", b"(site )\n", b"(site 9 9)\n", b"site 9\n", b"(sites 9)\n")
    yield from (site("0"), site("00"), site("09"), site(most), site(most + 1), site("42949672950"), site("18446744073709551621"))
    yield from (site(9, "site 9"), site(9, asks, "t 5 6 7"), site(9, "t 5 6 7", "site 9"), b"(t 5 6 7)\n(site 9)\n", b"(t 5 6 7)\n")
    yield from (site(9, "t 5 6"), site(9, "t 5 6 7 8"), site(9, "t 5 6 07"), site(9, "t 5 06 7"), site(9, "t 05 6 7"), site(9, "t 5 6 a"))
    yield from (site(9, "ask"), site(9, "ask "), site(9, "ask ((v 0) 5)"), site(9, "ask (v 0) 5 (v 1)"), site(9, "ask ((x 0) 5 (v 1))"))
    yield from (site(9, "ask ((v 00) 5 (v 1))"), site(9, "ask ((v 0) 5 (v 1)) "), site(9, "ask ((v 0) 5 (v 1))((v 0) 5 (v 1))"))
    yield from (site(9, "ask" + " ((v 0) 6 (v 1))" * k) for k in (1, 8, 9))
    yield from (site(9, *[asks] * k) for k in (16, 17))
    yield from (site(9, *["t 5 6 7"] * k) for k in (999, 1000, 1001))


def refusals():
    """Texts in the form: each refusal of the printer, and two at a time."""
    wrong = "ask ((v 8) 5 (v 1))"
    yield from (site(n) for n in (4, 5, 512, 513, 65536))
    yield from (site(n, "t 5 6 99", wrong) for n in (4, 9, 513))
    yield from (site(9, "t 5 6 9"), site(9, "t 5 9 6"), site(9, "t 9 5 6"), site(9, "t 5 6 8"))
    yield from (site(11, "t 10 5 0"), site(11, "t 4 5 10"), site(11, "t 5 0 6"), site(11, "t 10 5 10", "t 10 5 10", "t 0 0 0"))
    yield from (site(9, "t 5 6 7", wrong), site(9, "t 5 6 0", wrong), site(9, "ask ((v 7) 5 (c 8))"), site(9, "ask ((c 9) 5 (v 0))"))
    yield from (site(9, "ask ((v 0) 9 (v 0))"), site(9, "ask ((v 0) 5 (v 1)) ((v 0) 5 (c 4294967295))"), site(9, "ask ((c 0) 0 (c 4))"))
    chain = ["t %d 1 %d" % (i, i + 1) for i in range(5, 5 + 64)]
    below = ["t %d 1 %d" % (i, i + 1) for i in range(5, 5 + 63)]
    yield from (site(80, *chain), site(80, *below), site(80, *chain, wrong), site(80, *below, wrong), site(80, *chain, "t 99 5 0", wrong))
    line = "t 4294967295 4294967295 4294967295"
    long = site(9, *[line] * 885)
    for length in (32767, 32768, 32769):
        yield long + b"(t 1 1 " + b"1" * (length - len(long) - 9) + b")\n"


def repeats():
    """Repeats stay in what is read and go in what is printed; the course's mistakes."""
    yield site(12, "t 10 5 11", "t 10 5 11", "t 8 5 9", "t 10 5 11", "ask ((v 0) 5 (v 0))", "ask ((c 10) 5 (c 9))")
    yield site(11, "t 10 5 10", "ask ((v 3) 5 (v 3))", "ask ((c 9) 5 (v 0))")
    yield site(13, "t 10 5 11", "t 11 5 12", "ask ((v 0) 5 (v 1)) ((v 1) 5 (v 2))")
    yield site(13, "t 10 0 8", "t 11 0 9", "ask ((c 10) 0 (c 9))")
    yield site(13, "t 10 0 8", "t 11 0 9", "t 11 5 12", "ask ((c 10) 0 (c 9))", "ask ((c 11) 0 (v 1)) ((c 11) 5 (v 2))")
    yield site(24, "t 10 5 20", "t 10 6 21", "t 11 6 22", "t 11 7 23")
    yield site(14, "t 10 0 8", "t 8 5 12", "t 8 6 13")
    yield site(10, "t 8 1 9", "t 9 1 8", "ask ((v 0) 1 (v 0))")
    yield site(40, "t 30 1 31", "t 31 1 32", "t 32 1 33", "t 20 2 21", "t 21 2 22", "t 22 4 30", "t 35 20 36", "ask ((v 0) 0 (c 33))")
    yield site(14, "t 13 5 12", "t 9 6 12", "t 13 6 11", "t 10 5 8")


def retired():
    """Queries for schema triples, alone, among others and beside wrong ones."""
    *lines, last = PAPER.splitlines(True)
    three = b"".join([*lines, b"(ask ((v 0) 1 (v 1)))\n", last])
    yield from (three, three + b"(ask ((v 9) 5 (v 1)))\n", three + b"(ask ((v 9) 1 (v 1)))\n", three + b"(ask ((v 0) 1 (c 14)))\n")
    triples = ("t 5 2 7", "t 7 3 8", "t 8 1 9", "t 7 4 9", "t 10 5 12", "t 11 0 8")
    yield site(14, *triples, *["ask ((v 0) %d (v 1))" % p for p in range(8)])
    yield site(14, *triples, *["ask ((c 7) %d (c 8))" % p for p in range(8)])
    yield site(14, *["ask ((v 0) %d (v 1))" % p for p in range(8)])
    data, schema, both = "ask ((v 0) 5 (v 1))", "ask ((v 0) 4 (v 1))", "ask ((v 8) 4 (v 1))"
    second, eighth = "ask ((v 0) 5 (v 1)) ((v 1) 3 (v 2))", "ask" + " ((v 0) 5 (v 1))" * 7 + " ((c 5) 2 (c 7))"
    yield from (site(14, *triples, second, data, eighth, data), site(14, *triples, schema, *[data] * 14, schema), site(14, *[schema] * 16))
    yield from (site(9, both), site(9, both, schema), site(9, schema, both), site(9, "ask ((v 0) 1 (v 1)) ((v 0) 9 (v 1))"))
    yield from (site(4, schema), site(9, "t 5 6 0", schema), site(9, "words 0 1 2 3 3", schema), site(9, schema, "t 5 6 7"))
    yield site(80, *["t %d 1 %d" % (i, i + 1) for i in range(5, 5 + 64)], schema)
    for words in ((10, 11, 12, 13, 14), (310, 5, 6, 7, 8), (4, 3, 2, 1, 0), (1, 0, 2, 3, 4)):
        asks = ["ask ((v 0) %d (v 1))" % p for p in range(16)]
        yield from (renamed(words, three), site(320, "words %d %d %d %d %d" % words, *asks), renamed(words, site(14, *triples, schema, data, both)))


def renamed(words, text):
    """The text with the reserved codes at `words`, and code c from 5 on at the (c - 5)-th code that is none of them."""
    free = [c for c in range(512) if c not in words]
    at = lambda c: words[c] if c < 5 else free[c - 5]
    triple = lambda m: b"(t %d %d %d)" % tuple(at(int(x)) for x in m.groups())
    text = re.sub(rb"\(t (\d+) (\d+) (\d+)\)", triple, text)
    text = re.sub(rb"\(c (\d+)\)", lambda m: b"(c %d)" % at(int(m[1])), text)
    text = re.sub(rb"\) (\d+) \(", lambda m: b") %d (" % at(int(m[1])), text)
    return re.sub(rb"\(site \d+\)\n", b"(site 320)\n(words %d %d %d %d %d)\n" % words, text)


def loaded_forms():
    """The second line in its form, or only just."""
    line = "words 5 6 7 8 9"
    yield from (site(20, line), site(20, line, line), site(20, "t 10 11 12", line), site(20, "ask ((v 0) 5 (v 1))", line))
    yield from (b"(words 5 6 7 8 9)\n(site 20)\n", b"(words 5 6 7 8 9)\n", b"(site 20)\n(words 5 6 7 8 9)", b"(site 20)\n\n(words 5 6 7 8 9)\n")
    yield from (site(20, x) for x in ("words", "words ", "words 5", "words 5 6 7 8", "words 5 6 7 8 9 10", "words 5 6 7 8 9 ", "words  5 6 7 8 9"))
    yield from (site(20, x) for x in ("words 5  6 7 8 9", "words 05 6 7 8 9", "words 5 6 7 8 09", "words 5 6 7 8 a", "word 5 6 7 8 9", "Words 5 6 7 8 9"))
    yield from (site(20, "words 4294967295 6 7 8 9"), site(20, "words 4294967296 6 7 8 9"), site(20, "words 5 6 7 8 4294967295"), site(20, "words 5 6 7 8 4294967296"))
    yield from (site(20, "words 0 1 2 3 4", "t 5 6 7"), site(20, "words 0 1 2 4 3", "t 5 6 7"), site(20, line, "t 0 1 2"), site(20, line, "ask ((v 0) 0 (v 1))"))
    yield from (site(20, line, *["t 0 1 2"] * k) for k in (2, 1000, 1001))
    yield site(20, line, *["ask ((v 0) 5 (v 1))"] * 17)


def loaded_refusals():
    """10, alone and with each other refusal of the printer."""
    wrong = "ask ((v 8) 10 (v 1))"
    yield from (site(9, "words 0 1 2 3 3"), site(9, "words 3 1 2 0 3"), site(9, "words 0 1 2 3 9"), site(10, "words 0 1 2 3 9"), site(9, "words 9 1 2 3 4"))
    yield from (site(9, "words %d %d %d %d %d" % tuple(2 if k in pair else k + 4 for k in range(5))) for pair in itertools.combinations(range(5), 2))
    yield from (site(9, "words %d %d %d %d %d" % tuple(9 if k == j else k for k in range(5))) for j in range(5))
    yield from (site(n, "words 310 5 6 7 8", "t 0 1 2", "t 4 310 3", "ask ((c 0) 1 (v 0))") for n in (310, 311))
    yield from (site(n, "words 0 1 2 3 3") for n in (4, 512, 513))
    yield from (site(n, "words 0 1 2 3 4") for n in (4, 5))
    yield from (site(9, "words 0 1 2 3 3", "t 5 6 99"), site(9, "words 0 1 2 3 3", wrong), site(9, "words 0 1 2 3 3", "t 5 6 99", wrong))
    chain = ["t %d 310 %d" % (i, i + 1) for i in range(0, 64)]
    yield from (site(320, "words 309 310 311 312 313", *chain), site(320, "words 309 310 311 312 312", *chain))
    yield from (site(320, "words 310 5 6 7 8", x) for x in ("t 310 9 11", "t 11 9 310", "t 11 310 12", "t 5 9 11", "t 11 5 12", "t 0 1 2", "t 0 310 4", "t 3 0 3"))
    yield from (site(320, "words 310 5 6 7 8", "t 0 1 2", x) for x in ("ask ((c 310) 1 (v 0))", "ask ((c 0) 1 (c 2))", "ask ((v 0) 310 (v 1))", wrong))


def loaded_sites():
    """Sites with reserved codes of their own. Codes 0 to 4 that are none of them are ordinary there."""
    for words in ((10, 11, 12, 13, 14), (310, 5, 6, 7, 8), (9, 8, 7, 6, 5), (4, 3, 2, 1, 0), (1, 0, 2, 3, 4), (0, 1, 2, 4, 3), (319, 0, 318, 1, 317)):
        yield from (renamed(words, text) for text in (PAPER, *repeats()))


def main():
    small = site(12, "t 10 5 11", "ask ((v 0) 5 (c 11))")
    texts = [PAPER, *forms(), *refusals(), *repeats(), *damaged(small)]
    texts += [*loaded_forms(), *loaded_refusals(), *loaded_sites(), *damaged(site(9, "words 8 7 6 5 0")), *retired()]
    here = pathlib.Path(__file__).parent
    here.joinpath("stdin").write_bytes(b"".join(t + b"%\n" for t in texts))
    lines = []
    for k, text in enumerate(texts):
        form = read(text)
        lines += ["(text %d)" % (k + 1), *shown_read(form, 3000), *shown_read(form, 5), *printed(text, form)]
    here.joinpath("stdout").write_text("".join(x + "\n" for x in lines))


main()
