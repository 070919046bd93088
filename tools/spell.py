#!/usr/bin/env python3
"""Brings the names of definitions and lemmas to today's spelling, once, behind port.py: words in snake case, types in camel case.

usage: python3 tools/spell.py            at the top of the repository; prints each name that it turned, old and new

A name is turned if a file of specs/ or proofs/ declares it and no file imports it from outside the repository. In a lemma's name a dash stays
where it joins two names, as in length-tabulate; every other dash, and each in a field or a constructor, becomes an underscore. Names of src/ keep their spelling.
"""
import os
import re
import sys

BEFORE = r"(?<![^\s(){}\[\].,;`\"])"
AFTER = r"(?![^\s(){}\[\].,;`:\"])"
TOKEN = re.compile(BEFORE + r"([A-Za-z][\w'₀-₉-]*)" + AFTER)
DECLARED = re.compile(r"\s*(?:pub |abbrev |unfoldable |record |data )*([A-Za-z][^\s(){}\[\].,;:]*)(?: [({].*?[)}])* :(?: |$)(.*)")
USED = re.compile(r"^(?:ghost )?(?:pub )?use ([\w.+'-]+)\.\{(.*?)\}", re.M | re.S)
JOINED = set("length take drop get_or set append map filter sum mem reverse concat zero suc nil cons eq ne le lt true false add sub mul div mod min max cond any all".split())


def files(ends):
    for folder, dirs, names in sorted(os.walk("crates")):
        dirs[:] = sorted(d for d in dirs if d != "out")
        for f in sorted(names):
            if f.endswith(ends):
                yield os.path.join(folder, f)


def snake(part):
    return re.sub(r"(?<=[a-z0-9'])[A-Z]", lambda m: "_" + m.group(0).lower(), part) if part[0].islower() else part


def camel(name):
    return "".join(p[:1].upper() + p[1:] for p in re.split(r"[-_]", name))


def main():
    crates = set(os.listdir("crates"))
    declared, types, outside, lemmas, parts = set(), set(), set(), set(), set()
    for p in files(".antt"):
        text = open(p).read()
        within = None
        for line in text.split("\n"):
            # the fields of a record and the constructors of a data type stand deeper than its head
            deep = len(line) - len(line.lstrip())
            if line.strip() and within is not None and deep <= within:
                within = None
            if re.match(r"\s*(pub )?(record|data) ", line):
                within = deep
            m = DECLARED.match(line)
            if m and not m.group(2).startswith("tie."):
                declared.add(m.group(1))
                if within is not None and deep > within:
                    parts.add(m.group(1))
                if "/proofs/" in p:
                    lemmas.add(m.group(1))
                if m.group(1)[0].islower() and re.search(r"(^|→ )Type \d$", m.group(2)) and re.match(r"\s*(pub )?(abbrev|unfoldable)|\S", line):
                    types.add(m.group(1))
    for p in files((".antt", ".rt")):
        for m in USED.finditer(open(p).read()):
            head = m.group(1).split(".")
            if not (head[0] == "Rattle" and len(head) > 1 and head[1] in crates):
                for n in m.group(2).split(","):
                    outside.add(n.split(" as ")[-1].strip())
    known = {n for n in declared if "-" not in n} | JOINED
    known |= {snake(n) for n in known}

    def turned(n):
        if n in types:
            return camel(n)
        words = [snake(w) if w else w for w in n.split("-")]
        joined = n in lemmas and n not in parts and all(w in known for w in words)
        return ("-" if joined else "_").join(words)

    names = {n: turned(n) for n in declared - outside if turned(n) != n}
    # a lemma that would have its function's name gets _lem
    functions = {n for n in declared if n not in names} | {new for old, new in names.items() if "-" not in old}
    names = {old: new + "_lem" if "-" in old and new in functions else new for old, new in names.items()}
    names.update({n: n + "_lem" for n in declared - set(names) if n in lemmas and n in names.values()})
    if "--list" in sys.argv:
        for n in sorted(names):
            print(n, names[n])
        print("types:", sorted(types), file=sys.stderr)
        print("outside:", sorted(n for n in declared & outside if turned(n) != n), file=sys.stderr)
    bad = 0
    for p in files((".antt", ".rt", ".edit")):
        text = open(p).read()
        lines = []
        clause = False
        for line in text.split("\n"):
            if p.endswith(".rt"):
                # names of clauses and ghost imports alone, where a dash is part of a name
                if re.match(r"\s*(ghost use|requires|ensures|ghost )", line):
                    clause = True
                dashes = clause
                if clause and (line.rstrip().endswith(("}", ";")) or re.match(r"\s*\{?$", line)):
                    clause = False
            else:
                dashes = True
            code, cut, comment = line, "", ""
            m = re.search(r"(^|\s)(--|//)(\s|$)", line)
            if m:
                code, comment = line[: m.start()], line[m.start():]
            if dashes:
                code = TOKEN.sub(lambda m: names.get(m.group(1), m.group(1)), code)
            comment = TOKEN.sub(lambda m: names.get(m.group(1), m.group(1)) if re.search(r"[a-z][A-Z]", m.group(1)) else m.group(1), comment)
            comment = re.sub(r"`([^`\s]+)`", lambda m: "`" + names.get(m.group(1), m.group(1)) + "`", comment)
            lines.append(code + comment)
        new = "\n".join(lines)
        # two names that fall together in one file
        had = set(TOKEN.findall(text))
        back = {}
        for n in had:
            back.setdefault(names.get(n, n), set()).add(n)
        for n, olds in back.items():
            if len(olds) > 1:
                bad += 1
                print(f"fall together in {p}: {sorted(olds)} -> {n}", file=sys.stderr)
        if new != text and "--list" not in sys.argv:
            open(p, "w").write(new)
    print(f"{len(names)} names turned, {bad} fall together", file=sys.stderr)


if __name__ == "__main__":
    main()
