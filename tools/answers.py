#!/usr/bin/env python3
"""Turns a crate's proofs/F/Proof.antt, which go by tie., into Invariants.antt and Answers.antt.

usage: python3 tools/answers.py CRATE [--dry]    at the top of the repository, where the crates below CRATE are proved

It asks the check for the old and new names of each goal and step (rt check --generated --old-names), so the steps that an old answer
counts from its end (c.before.before.put.ensures) are found by name. An answer that is `search rules` alone is left out: the check
tries that. What it could not turn is printed. The old file goes to /tmp/old-proofs/CRATE.
"""
import json
import os
import re
import shutil
import subprocess
import sys

NAME = r"[A-Za-z_Δκ][\w'₀-₉∙-]*"


def norm(s):
    return s.replace("_", "-").lower()


def names_of(crate):
    out = f"/tmp/gen/{crate}"
    shutil.rmtree(out, ignore_errors=True)
    r = subprocess.run(["rt", "check", "--generated", out, "--old-names"], cwd=f"crates/{crate}", capture_output=True, text=True)
    try:
        return json.load(open(out + "/names.json"))
    except OSError:
        sys.exit(f"{crate}: no names: " + "\n".join(l[:200] for l in (r.stdout + r.stderr).split("\n") if "note:" not in l)[-1500:])


class Function:
    def __init__(self, data):
        self.needs = {}
        for (old, new), at in zip(data["needs"], data["asked_at"]):
            self.needs[norm(old)] = (new, at[0])
        self.at = {p[0]: i for i, p in enumerate(data["places"])}
        self.places = data["places"]
        self.arms = data["arms"]
        self.params = {k: v for k, v in data["params"].items()}
        self.loops = {norm(l[0][0]): (l[0][1], l[1], ch) for l, ch in zip(data["loops"], data["changed"])}
        self.typed = data["typed"]
        pairs = [(old.split(" ."), new.split(" .")) for old, new in data["args"]]
        self.renamed = {o[-1]: n[-1] for o, n in pairs if o[0] == ".args" and n[0] == ".args" and len(o) == 2 == len(n)}

    def chain(self, place):
        out = []
        while place is not None:
            i = self.at[place]
            out.append(i)
            place = self.places[i][1]
        return out

    def find(self, place, step, path):
        """The new path of the fields path of the old step, seen from place; None if there is none."""
        if step in ("args", "requires"):
            if step == "args" and path:
                path = [self.renamed.get(path[0], path[0])] + path[1:]
            return ".".join(["c", step] + path)
        want = norm(step[:-4] if step.endswith("_lem") else step)
        for i in self.chain(place):
            arm = self.arms[i]
            if arm:
                for new, old, fields in arm[2]:
                    if norm(old) == want and path[: len(fields)] == fields:
                        return ".".join(["c", arm[0], new] + path[len(fields):])
        for i in self.chain(place):
            p = self.places[i]
            for new, old in [(p[2][1], p[2][0])]:
                if norm(old) == want:
                    rest = list(path)
                    if len(rest) > 1 and rest[0] == "new" and rest[1].isdigit() and p[3] in self.params:
                        rest[1] = self.params[p[3]][int(rest[1])]
                    if rest[:1] == ["told"]:
                        return None
                    return ".".join(["c", new] + rest)
        for i in self.chain(place):
            for var, old in self.typed[i]:
                if norm(old) == want:
                    return ".".join(["c", "type_inv", var] + (path[1:] if path[:1] == ["given"] else path))
        return None


def definitions(text):
    """(lines of imports, [(name, type, clauses text)])"""
    lines = text.split("\n")
    head, defs, cur = [], [], None
    comment = []
    for l in lines:
        if cur is None and (l.startswith("use ") or l.startswith("--") or not l.strip()):
            (head if l.startswith("use ") else comment).append(l)
            continue
        if l and not l[0].isspace() and not l.startswith("--"):
            m = re.match(rf"((?:pub |abbrev |unfoldable )*)({NAME})((?: \{{[^}}]*\}})*) :(?: (.*)|$)", l)
            if m:
                cur = {"mods": m.group(1), "name": m.group(2), "type": [m.group(4) or ""], "body": [], "comment": comment, "raw": [l], "in_type": True}
                comment = []
                defs.append(cur)
                continue
            if cur is not None:
                cur["in_type"] = False
                cur["body"].append(l)
                cur["raw"].append(l)
                continue
            comment.append(l)
            continue
        if l.startswith("--"):
            comment.append(l)
            continue
        if cur is not None:
            if not l.strip():
                cur["raw"].append(l)
                if cur["body"]:
                    cur["body"].append(l)
                continue
            cur["raw"].append(l)
            (cur["type"] if cur["in_type"] else cur["body"]).append(l)
    return head, defs, comment


def strip_blank(ls):
    while ls and not ls[-1].strip():
        ls = ls[:-1]
    return ls


PATH = re.compile(rf"(?<![\w'₀.-])({NAME})((?:\.(?:{NAME}|\d+))+)")


def turn_body(fn, place, var, text, report):
    """Paths from the record var in text to today's names."""
    # lets that only go back
    back = {var: True}
    changed = True
    lets = {}
    while changed:
        changed = False
        m = re.search(rf"let ({NAME}) = ({NAME})((?:\.before)+) in\s*", text)
        if m and m.group(2) in back:
            back[m.group(1)] = True
            text = text[: m.start()] + text[m.end():]
            changed = True
        elif m:
            report.append(f"let of unknown {m.group(0)}")
            break

    def sub(m):
        head, fields = m.group(1), m.group(2)[1:].split(".")
        if head not in back:
            return m.group(0)
        while fields and fields[0] == "before":
            fields = fields[1:]
        if not fields:
            report.append(f"bare place {m.group(0)}")
            return m.group(0)
        new = fn.find(place, fields[0], fields[1:]) or fn.find(place, fields[0].rstrip("0123456789"), fields[1:])
        if new is None:
            report.append(f"no step {m.group(0)} at {place}")
            return m.group(0)
        return new

    return PATH.sub(sub, text)


def bound(text, names):
    """Where a name of names is bound in text itself: (name, from, to)."""
    out = []
    for m in re.finditer(r"λ([^.]*)\.(?=\s)|\(([^():]*) : ", text):
        mine = [n for n in re.findall(NAME, m.group(1) or m.group(2) or "") if n in names]
        if not mine:
            continue
        deep, end = 0, len(text)
        start = m.end() if m.group(1) is not None else text.index(":", m.start())
        out_of = 0 if m.group(1) is not None else -1
        for i in range(start, len(text)):
            deep += text[i] == "("
            deep -= text[i] == ")"
            if deep < out_of:
                end = i
                break
        out += [(n, m.start(), end) for n in mine]
    return out


def turn_invariant(fn, name, kind, args, body, report):
    loop = name[len(kind) + 1:]
    if norm(loop) not in fn.loops:
        report.append(f"no loop {loop}: {list(fn.loops)}")
        return None
    new, variables, changed = fn.loops[norm(loop)]
    names = {}
    late = [v for v, ch in zip(variables, changed) if ch]
    if len(args) == len(variables) + len(late):
        for a, v, ch in zip(args, variables, changed):
            names[a] = f"l.initial.{v}" if ch else f"l.{v}"
        for a, v in zip(args[len(variables):], late):
            names[a] = f"l.{v}"
    else:
        report.append(f"{name}: {len(args)} arguments {args}, now {variables} {changed}; turned by name")
        for a in args:
            names[a] = f"l.initial.{a[:-1]}" if a.endswith("₀") else f"l.{a}"
    tok = re.compile(rf"(?<![\w'₀.-])({NAME})(?![\w'₀-])")
    hidden = bound(body, names)
    return new, tok.sub(lambda m: m.group(1) if any(a <= m.start() < b and m.group(1) == n for n, a, b in hidden) else names.get(m.group(1), m.group(1)), body)


def closing(text, i):
    """The index behind the parenthesis that closes the one at i."""
    deep = 0
    for k in range(i, len(text)):
        deep += text[k] == "("
        deep -= text[k] == ")"
        if deep == 0:
            return k + 1
    return len(text)


def joined(text, fn):
    """A ⊎_elim over where two branches join becomes an elim with a case for each; the names of the cases."""
    names = set()
    m = re.search(r"⊎_elim\s*(?=\(λ w\.)", text)
    if not m:
        return text, names
    a = m.end()
    b = closing(text, a)
    c = b + len(text[b:]) - len(text[b:].lstrip())
    d = closing(text, c)
    t = re.match(r"\s*c\.if-([\w-]+)\.branch", text[d:])
    if not t:
        return text, names
    step = t.group(1)
    var = next((l[1][i] for l in fn.loops.values() for i, ch in enumerate(l[2]) if ch), "x")

    def case(body, kind, fact):
        names.add(f"{kind}-{step}")
        body = body[1:-1].split(".", 1)[1].strip()
        body = re.sub(r"w\.0\.(taken|left)", f"w.if-{step}.{fact}", body)
        body = re.sub(r"(?<![\w'])w\.[1-9]\b", f"w.{var}-is", body)
        return f"    | {kind}-{step} w ↦ {body}"

    cases = [case(text[a:b], "then", "true"), case(text[c:d], "else", "false")]
    return text[: m.start()] + f"elim c.if-{step}.branch [\n" + "\n".join(cases) + "\n    ]" + text[d + t.end():], names


def bounded(crate, path_name):
    """Whether a function has a bound: its lines take g in first place."""
    name = path_name.split(".")[-1]
    for folder, _, files in os.walk(f"crates/{crate}/src"):
        for f in files:
            m = re.search(rf"fn {name}\b([^{{]*)", open(os.path.join(folder, f)).read())
            if m and ("impl " in m.group(1) or m.group(1).startswith("<") and ":" in m.group(1).split(">")[0]):
                return "g "
    return ""


def turn(crate, folder, fn, path_name, dry):
    g = bounded(crate, path_name)
    text = open(os.path.join(folder, "Proof.antt")).read()
    head, defs, tail = definitions(text)
    report, inv, ans, helpers = [], [], [], []
    opened_names = set()
    for d in defs:
        ty = " ".join(t.strip() for t in d["type"]).strip()
        body = "\n".join(strip_blank(d["body"]))
        if d["name"].endswith(("_spec", "-spec")) and "statement" in ty:
            continue
        m = re.match(r"tie\.(invariant|decreases)-(\S+)$", ty)
        if m:
            b = re.match(rf"{re.escape(d['name'])}((?: [^\s=]+)*) =\s*(.*)$", body, re.S)
            if not b:
                report.append(f"{d['name']}: not read")
                continue
            r = turn_invariant(fn, ty[4:], m.group(1), b.group(1).split(), b.group(2), report)
            if r and not (m.group(1) == "invariant" and re.sub(r"\s", "", r[1]) == "Unit{0}"):
                inv.append((f"{m.group(1)}-{r[0]}", r[1], d["comment"]))
            continue
        m = re.match(r"tie\.Need-(\S+)((?: \S+)*)$", ty)
        if m:
            key = norm(m.group(1))
            key = re.sub(r"^overflow-", "", key)
            cands = [key, norm(m.group(1)), re.sub(r"^slice-bounds-", "part-", norm(m.group(1)))]
            hit = next((k for k in cands if k in fn.needs), None)
            opened = ""
            u = re.match(r"((?:unfolding [^\n]*\n)+)", body)
            if u:
                opened, body = u.group(1), body[u.end():]
            b = re.match(rf"{re.escape(d['name'])}((?: [^\s=]+)*) =\s*(.*)$", body, re.S)
            if not b:
                report.append(f"{d['name']}: not read: {body[:80]}")
                continue
            expr = b.group(2)
            if re.sub(r"\s", "", expr) == "searchrules" and not opened:
                continue
            if hit is None:
                report.append(f"no goal for {m.group(1)}: {expr[:60]!r}")
                continue
            new, place = fn.needs[hit]
            var = b.group(1).split()[0]
            mine = []
            expr = turn_body(fn, place, var, expr, mine)
            if var != "c" and re.search(rf"(?<![\w'])({var})(?![\w'])", expr):
                expr = re.sub(rf"(?<![\w'.]){var}(?![\w'-])", "c", expr)
            # a test of !x says of x itself what it says
            expr = re.sub(r"not-(?:false|true) (?:\([^()]*\)|\S+) (c\.(?:if-not-|loop-[\w-]*test\.)[\w.-]+)", r"\1", expr)
            # no parameter is called result today
            for a in re.findall(r"let (\S+) = c\.args in", expr):
                expr = expr.replace(a + ".result.", a + ".res.")
            expr, joins = joined(expr, fn)
            opened_names |= joins
            report += [f"{new}: {x}" for x in mine]
            ans.append((new, expr, opened))
            continue
        if "tie." in ty or "tie." in body:
            report.append(f"helper by tie: {d['name']}")
        helpers.append("\n".join([c for c in d["comment"] if c.strip()] + strip_blank(d["raw"])))
    uses = [h for h in head if ".Statement." not in h and ".Tie as" not in h]

    def imports(t):
        out = []
        for u in uses:
            m = re.match(r"use (\S+)\.\{(.*)\}$", u)
            if not m:
                out.append(u)
                continue
            keep = []
            for n in m.group(2).split(","):
                n = n.strip()
                short = n.split(" as ")[-1]
                parts = [p for p in short.split("◌") if p]
                if "◌" in short:
                    ok = short in t or all(re.search(rf"(?<![^\s()\[\]{{}},;.]){re.escape(p)}(?![^\s()\[\]{{}},;.])", t) for p in parts)
                else:
                    ok = re.search(rf"(?<![\w'₀-]){re.escape(short)}(?![\w'₀-])", t)
                if ok:
                    keep.append(n)
            if keep:
                out.append(f"use {m.group(1)}.{{{', '.join(keep)}}}")
        return out

    mod = f"Rattle.{crate}.proofs.{path_name}"
    result = {}
    if inv:
        t = "\n\n".join(f"abbrev pub {n} : goal.{n}\n{n} {g}l = {b}" for n, b, c in inv)
        result["Invariants.antt"] = "\n".join(imports(t) + [f"use {mod}.Given as goal", ""]) + "\n" + t + "\n"
    if ans or helpers:
        t = "\n\n".join(helpers + ["\n".join([f"pub {n} : goal.{n}", c + f"{n} {g}c =" + (" " if not b.startswith("\n") else "") + b]) for n, b, c in ans])
        result["Answers.antt"] = "\n".join(imports(t) + [f"use {mod}.Goals as goal"] + ([f"use {mod}.Goals.{{{', '.join(sorted(opened_names))}}}"] if opened_names else []) + [""]) + "\n" + t + "\n"
    if not dry:
        old = f"/tmp/old-proofs/{crate}/{path_name}"
        os.makedirs(old, exist_ok=True)
        shutil.move(os.path.join(folder, "Proof.antt"), os.path.join(old, "Proof.antt"))
        for n, t in result.items():
            open(os.path.join(folder, n), "w").write(t)
        if not result:
            try:
                os.rmdir(folder)
            except OSError:
                pass
    return report


def main():
    crate = sys.argv[1]
    dry = "--dry" in sys.argv
    data = names_of(crate)
    base = f"crates/{crate}/proofs"
    for folder, dirs, files in sorted(os.walk(base)):
        if "Proof.antt" not in files:
            continue
        rel = os.path.relpath(folder, base).replace("/", ".")
        key = f"Rattle-{crate}-proofs.{rel}.Lts"
        text = open(os.path.join(folder, "Proof.antt")).read()
        if key not in data or "tie." not in text:
            print(f"{crate}: {rel}: by hand: " + ("no names" if key not in data else "a walk"))
            continue
        try:
            for r in turn(crate, folder, Function(data[key]), rel, dry):
                print(f"{crate}: {rel}: {r}")
        except Exception as e:
            print(f"{crate}: {rel}: {type(e).__name__}: {e}")
            if os.environ.get("DEBUG"):
                raise


if __name__ == "__main__":
    main()
