#!/usr/bin/env python3
"""Turns a Proof.antt that walks the code by hand into Invariants.antt and Answers.antt.

usage: python3 tools/turn_proofs.py NAMES CRATE      at the top of the repository

NAMES is the names.json that `rattle check --generated DIR --old-names` writes of the crate. It goes by text; what it could not place it says.
An answer that only calls the search, or arithmetic with no fact, is left out: the check finds it by itself.
"""
import glob
import json
import os
import re
import sys

ID = r"[^\s(){}\[\],;.:λ→×≡@\\\"|]+"
PATH = re.compile(r"(?<![\w.'-])(" + ID + r")((?:\.[^\s(){}\[\],;.]+)+)")
TOP = {"args", "ranges", "requires", "well-formed", "well_formed", "auto", "utf8", "type_inv"}
SIG = re.compile(r"^(?:abbrev )?(" + ID + r")((?: \{[^}]*\})*) :")
NEED = re.compile(r"(?:tie|\S*-lts|\S*lts)\.(Need|invariant|decreases)-(\S+)")
norm = lambda s: s.replace("-", "_").lower()
said = []


def blocks(text):
    """The file's head, its use lines, and each declaration with its comment."""
    head, uses, decls, comment, cur = [], [], [], [], None
    for line in text.split("\n"):
        if line.startswith("use "):
            uses.append(line)
            comment = []
            cur = None
        elif line.startswith("--"):
            cur = None
            (head if not uses and not decls else comment).append(line)
        elif not line.strip():
            if cur is not None:
                cur["lines"].append("")
        elif SIG.match(line) or line.startswith("pub "):
            m = SIG.match(line.replace("pub ", "", 1) if line.startswith("pub ") else line)
            cur = {"name": m.group(1) if m else "?", "lines": [line], "comment": comment}
            comment = []
            decls.append(cur)
        elif cur is not None:
            cur["lines"].append(line)
        else:
            said.append("loose: " + line)
    return head, uses, decls


class Fun:
    def __init__(self, d, where):
        self.d, self.where, self.begin = d, where, None
        self.place = {p[0]: i for i, p in enumerate(d["places"])}
        self.needs = {}
        for (o, n), (po, pn) in zip(d["needs"], d["asked_at"]):
            self.needs[norm(o)] = (n, po)

    def up(self, i):
        p = self.d["places"][i][1]
        return None if p is None else self.place[p]

    def chain(self, i):
        while i is not None:
            yield i
            i = self.up(i)

    def resolve(self, at, rest):
        """The new path of the old fields `rest` of the context at a place."""
        i = self.place[at] if isinstance(at, str) else at
        begin = self.begin if self.begin is not None else i
        rest = list(rest)
        while rest and rest[0] == "before":
            up = self.up(i)
            i, rest = (i if up is None else up), rest[1:]
        if not rest:
            return ("place", i)
        s = rest[0]
        if s in TOP:
            rest[0] = norm(s)
            if s == "requires" and self.d["pre"] and len(self.d["pre"]["fields"]) > 1:
                rest = ["requires"] + named(rest[1:], self.d["pre"]["fields"])
            for old, new in self.d["args"]:
                o, n = old.split(" ."), new.split(" .")
                if len(o) == 2 and rest[0] == o[0].strip(".") and len(rest) > 1 and rest[1] == o[1]:
                    rest[1] = n[1]
            return ("path", rest)
        less = [rest[0][:-4]] + rest[1:] if rest[0].endswith("_lem") else rest
        return self.step(i, rest) or self.step(begin, rest) or self.step(begin, less)

    def step(self, i, rest):
        s = rest[0]
        best = None
        for j in self.chain(i):
            arm = self.d["arms"][j]
            for step in [arm] if arm else []:
                for f, o, path in step[2]:
                    if norm(o) == norm(s) and path and rest[1 : 1 + len(path)] == path and not f.endswith("-own"):
                        if best is None or len(path) > best[0]:
                            best = (len(path), [step[0], f] + rest[1 + len(path) :], j, o)
        if best and rest[1] == "given":
            return ("path", best[1])
        for var, o in self.d["typed"][i] if i < len(self.d["typed"]) else []:
            if norm(o) == norm(s) and rest[1:2] == ["given"]:
                return ("path", ["type_inv", var] + rest[2:])
        for j in self.chain(i):
            p = self.d["places"][j]
            if norm(p[2][0]) == norm(s):
                out = [p[2][1]] + rest[1:]
                for new, raw in p[4]:
                    if rest[1:2] == [new]:
                        out[1] = raw
                c = self.d["clauses"][j]
                if c and rest[1:2] == ["ensures"] and len(c["fields"]) > 1:
                    out = out[:2] + named(rest[2:], c["fields"])
                return ("path", out)
        return None


def named(rest, fields):
    """Old clauses stand in nested pairs: .1.0 is the second of three."""
    k = 0
    while k < len(fields) - 1 and rest[:1] == ["1"]:
        k, rest = k + 1, rest[1:]
    if k < len(fields) - 1:
        if rest[:1] != ["0"]:
            return ["?" + ",".join(fields[k:])] + rest
        rest = rest[1:]
    return [fields[k]] + rest


def turn_body(fun, at, body, ctx):
    """Rewrites the paths of ctx, and of the names that are let to be one, in body."""
    alias = {ctx: ("place", fun.place[at])}
    fun.begin = fun.place[at]

    def see(root, fields):
        kind, it = alias[root]
        if kind == "place":
            return fun.resolve(it, fields)
        if kind == "old":
            i, old = it
            return fun.resolve(i, old + fields)
        return ("path", it + fields)

    let = re.compile(r"let (" + ID + r") = (" + ID + r")((?:\.[^\s(){}\[\],;.]+)*) in\s*")
    while True:
        m = next((m for m in let.finditer(body) if m.group(2) in alias), None)
        if not m:
            break
        fields = m.group(3).split(".")[1:]
        got = see(m.group(2), fields)
        if got is None:
            said.append(f"{fun.where}: let {m.group(0).strip()}")
            break
        if got[0] == "place":
            alias[m.group(1)] = ("place", got[1])
        else:
            kind, it = alias[m.group(2)]
            alias[m.group(1)] = ("old", (it, fields)) if kind == "place" else ("old", (it[0], it[1] + fields)) if kind == "old" else ("path", it + fields)
        body = body[: m.start()] + body[m.end() :]
        if m.group(1) == ctx:
            ctx = None

    def sub(m):
        if m.group(1) not in alias:
            return m.group(0)
        got = see(m.group(1), m.group(2).split(".")[1:])
        if got is None:
            said.append(f"{fun.where}: {m.group(0)}")
            return m.group(0)
        if got[0] == "place":
            said.append(f"{fun.where}: context {m.group(0)}")
            return "c"
        return "c." + ".".join(got[1])

    body = PATH.sub(sub, body)
    for a, (kind, it) in alias.items():
        if kind == "place" and a != "c":
            body = re.sub(r"(?<![\w.'-])" + re.escape(a) + r"(?![\w'.-])", "c", body)
        if kind == "old":
            got = fun.resolve(it[0], it[1])
            if got and got[0] == "path":
                body = re.sub(r"(?<![\w.'-])" + re.escape(a) + r"(?![\w'.-])", "c." + ".".join(got[1]), body)
    return body


def tupled(body, fields):
    """(a, (b, c)) as a record of the fields; None where it is no such tuple."""
    body = body.strip()
    lets = ""
    while body.startswith("let "):
        i = find_in(body)
        if i is None:
            return None
        lets, body = lets + body[:i], body[i:].strip()
    parts = []
    for _ in fields[:-1]:
        s = split_pair(body)
        if s is None:
            return None
        parts.append(s[0])
        body = s[1].strip()
    parts.append(body)
    return lets + "record { " + "; ".join(f"{f} = {p.strip()}" for f, p in zip(fields, parts)) + " }"


def find_in(body):
    depth = 0
    for m in re.finditer(r"\blet\b|\bin\b(?!-)|[()\[\]{}]", body):
        w = m.group(0)
        if w == "let":
            depth += 1
        elif w == "in":
            depth -= 1
            if depth == 0:
                return m.end() + 1
    return None


def split_pair(body):
    if not (body.startswith("(") and body.endswith(")")):
        return None
    depth, comma = 0, None
    for i, ch in enumerate(body):
        if ch in "([{":
            depth += 1
        elif ch in ")]}":
            depth -= 1
            if depth == 0 and i != len(body) - 1:
                return None
        elif ch == "," and depth == 1:
            if comma is not None:
                return None
            comma = i
    return None if comma is None else (body[1:comma], body[comma + 1 : -1])


def equations(decl):
    """(unfolding, params, body) of a declaration with one equation."""
    lines = [l for l in decl["lines"]]
    j = next((k for k, l in enumerate(lines) if re.match(re.escape(decl["name"]) + r"[ =]", l) and not SIG.match(l)), None)
    if j is None:
        return None
    unf = [l for l in lines[:j] if l.startswith("unfolding ")]
    text = "\n".join(lines[j:]).rstrip()
    m = re.match(re.escape(decl["name"]) + r"((?: [^\s=]+)*) =\s?", text)
    if not m:
        return None
    return unf, m.group(1).split(), text[m.end() :]


def signature(decl):
    out = []
    for l in decl["lines"]:
        if l.startswith("unfolding ") or (out and re.match(re.escape(decl["name"]) + r"[ =]", l)):
            break
        out.append(l)
    return " ".join(out)


def turn_function(folder, entries, crate):
    with open(folder + "/Proof.antt", encoding="utf-8") as it:
        text = it.read()
    rel = folder.split("/proofs/", 1)[1]
    mod = f"Rattle.{crate}.proofs." + rel.replace("/", ".")
    head, uses, decls = blocks(text)
    uses = [u for u in uses if not re.search(r"\.Statement\.\{|\.Tie( as|\.\{)|\.Lts-|as put-digits|\.Reads as|\.Kinds as|borrow\.Fn\.|\.\{statement\}", u)]
    inv, ans, dropped = [], [], []
    cycle = "+" in rel
    for d in decls:
        sig = signature(d)
        m = NEED.search(sig)
        if "tie.close" in "\n".join(d["lines"]) or re.search(r"statement M", sig):
            continue
        if re.search(r": Measures|: In \d", sig) or d["name"].endswith(("-at", "-below")) and "κs" not in sig and "In 1" in sig:
            dropped.append(d)
            continue
        eq = equations(d)
        if not m or eq is None:
            if m:
                said.append(f"{rel}: {d['name']}: no single equation")
            ans.append("\n".join(d["comment"] + d["lines"]).rstrip())
            if "After-" in sig:
                said.append(f"{rel}: {d['name']}: takes a context")
            continue
        unf, params, body = eq
        if cycle:
            f = re.search(r"(\S+)-lts\.", sig).group(1)
            entry = next(v for k, v in entries.items() if norm(k).endswith("lts_" + norm(f)))
        else:
            entry = next(iter(entries.values()))
        fun = Fun(entry, f"{rel}: {d['name']}")
        if m.group(1) in ("invariant", "decreases"):
            loop = m.group(2)
            loops = entry["loops"]
            k = next((k for k, l in enumerate(loops) if norm(l[0][0]) == norm(loop)), 0)
            (old, new), names = loops[k]
            changed = entry["changed"][k]
            params = [p for p in params if not (cycle and p == "t" and p not in names)]
            to = {}
            if len(params) != len(names) + sum(changed):
                said.append(f"{rel}: {d['name']}: {len(params)} parameters for {len(names)}+{sum(changed)}")
            for p, n, ch in zip(params, names, changed):
                to[p] = ("l.initial." if ch else "l.") + n
            for p, n in zip(params[len(names) :], [n for n, ch in zip(names, changed) if ch]):
                to[p] = "l." + n
            body = re.sub(r"(?<![\w.'₀-])(" + "|".join(re.escape(p) for p in sorted(to, key=len, reverse=True)) + r")(?![\w'₀-])", lambda q: to[q.group(1)], body) if to else body
            name = m.group(1) + "-" + new
            if cycle:
                name = m.group(1) + "-" + f + "-" + new
            inv.append("\n".join(d["comment"] + [f"abbrev pub {name} : goal.{name}"] + unf + [f"{name} l = {body}"]))
            continue
        key = norm(d["name"])
        if cycle and key.startswith(norm(f) + "_"):
            key = key[len(norm(f)) + 1 :]
        if m.group(2) in ("loop-init", "loop-smaller", "loop-preserved") or re.fullmatch(r"loop\d*-(init|smaller|preserved)(-\d+)?", m.group(2)):
            key = norm(m.group(2))
        if key not in fun.needs and norm(m.group(2)) in fun.needs:
            key = norm(m.group(2))
        if key not in fun.needs:
            if not re.fullmatch(r"\s*(search rules|omega arith)\s*", body):
                said.append(f"{rel}: {d['name']}: no goal of that name; its answer was: {' '.join(body.split())[:300]}")
            continue
        name, at = fun.needs[key]
        if re.fullmatch(r"\s*(search rules|omega arith)\s*", body):
            continue
        params = [p for p in params if p != "κs" and not (cycle and p == "t")]
        ctx = params[-1] if params else "c"
        body = turn_body(fun, at, body, ctx)
        fields = entry["asked"].get(d["name"]) or next((v for k, v in entry["asked"].items() if norm(k) == key), None)
        if fields and len(fields) > 1:
            rec = tupled(body, fields)
            if rec is None:
                said.append(f"{rel}: {d['name']}: clauses {fields}")
            else:
                body = rec
        if cycle:
            name = f + "-" + name
        sep = "\n    " if body.startswith("\n") or "\n" in body and not body.startswith(" ") else ""
        body = body.strip("\n") if not sep else body.strip()
        ans.append("\n".join(d["comment"] + [f"pub {name} : goal.{name}"] + unf + [f"{name} c = {sep}{body}"]))
    if inv:
        with open(folder + "/Invariants.antt", "w", encoding="utf-8") as it:
            it.write("\n".join(head + uses + [f"use {mod}.Given as goal", ""]) + "\n\n".join(inv) + "\n")
    if ans:
        with open(folder + "/Answers.antt", "w", encoding="utf-8") as it:
            it.write("\n".join(head + uses + [f"use {mod}.Goals as goal", ""]) + "\n" + "\n\n".join(ans) + "\n")
    os.remove(folder + "/Proof.antt")


def main():
    with open(sys.argv[1]) as it:
        names = json.load(it)
    crate = sys.argv[2]
    for path in sorted(glob.glob(f"crates/{crate}/proofs/**/Proof.antt", recursive=True)):
        folder = os.path.dirname(path)
        rel = folder.split("/proofs/", 1)[1]
        key = f"Rattle-{crate}-proofs." + rel.replace("/", ".")
        entries = {k: v for k, v in names.items() if k.startswith(key + ".Lts")}
        if not entries:
            said.append(f"{rel}: no names")
            continue
        turn_function(folder, entries, crate)
    for s in said:
        print(s)


if __name__ == "__main__":
    main()
