#!/usr/bin/env python3
"""Brings the repository's own definitions and lemmas to today's spelling: words in snake case, types in camel case.

usage: python3 tools/respell.py      at the top of the repository, once, after port.py

It goes by text. A name is the repository's own where a file of specs/ or of proofs/ declares it. Rust's names, strings and files' names
stay. A lemma that would take the name of a definition gets the ending _lem.
"""
import collections
import glob
import re

ID = r"[^\s(){}\[\],;.:λ→×≡@\\\"|]+"
DECL = re.compile(r"^\s*(?:let |in let )?(?:(?:pub|abbrev|unfoldable)\s+)*(" + ID + r")(?:\s+\{[^}]*\})*\s*:(?!=)")
HEAD = re.compile(r"^\s*(?:pub\s+)?(?:record|data)\s+(?:pub\s+)?(" + ID + ")")
TOKEN = re.compile(r"(?P<comment>--[^\n]*)|(?P<text>\"(?:[^\"\\]|\\.)*\")|(?P<name>" + ID + ")")
RT_TOKEN = re.compile(r"(?P<comment>//[^\n]*)|(?P<text>b?\"(?:[^\"\\]|\\.)*\"|b'(?:[^'\\]|\\.)')|(?P<name>" + ID + ")")
GOAL = re.compile(r"^\s*(?:abbrev )?(" + ID + r") :(?: \(t : ℕ\) →)? [^\s]*(?:tie|lts|-lts\S*)\.(?:Need|invariant|decreases)-", re.M)
# A lemma that falls together with a definition of its file: the module that declares it, and its name after port.py.
FALLS = {
    ("grammar", "SetSpelled"): ["set-run", "set_run"],
    ("pattern", "Steps"): ["set-read", "set_read"],
    ("report", "Choosing"): ["built-lines", "made-lines", "built_lines", "made_lines"],
    ("image", "Sorting"): ["is-block", "is-that", "same-cmd", "is_block", "is_that", "same_cmd"],
    ("ride", "Mounted"): ["entry-at", "entry_at"],
}
TYPES = {"All-tags": "AllTags", "All-inside": "AllInside", "By-values": "ByValues", "Marked-by": "MarkedBy", "Put-at": "PutAt", "Came-by": "CameBy"}
KEPT = {"Bool-cases", "M-first", "M-closed"}


def turned(name):
    if name in KEPT:
        return name
    if name in TYPES or re.fullmatch(r"(Over|Too-many)-\w+", name):
        return TYPES.get(name) or "".join(p[0].upper() + p[1:] for p in name.split("-"))
    if name[0].isupper() and not name.upper() == name and "-" not in name:
        return name
    if name.upper() == name:
        return name.replace("-", "_")
    return re.sub(r"([a-z0-9])([A-Z])", lambda m: m.group(1) + "_" + m.group(2).lower(), name.strip("-").replace("-", "_"))


def declared():
    names = set()
    for path in glob.glob("crates/*/specs/*.antt") + glob.glob("crates/*/proofs/*.antt"):
        with open(path, encoding="utf-8") as it:
            for line in it:
                if line.lstrip().startswith("--"):
                    continue
                m = HEAD.match(line) or DECL.match(line)
                if m and re.search(r"-|[a-z][A-Z]", m.group(1)):
                    names.add(m.group(1))
    return {n: turned(n) for n in names if turned(n) != n}


def fallen(path, text):
    """The lemmas of FALLS that this file declares or takes from their module."""
    out = {}
    crate, module = path.split("/")[1], path.split("/")[-1][:-5]
    for (c, m), names in FALLS.items():
        here = (crate, module) == (c, m) and path.split("/")[2] == "proofs"
        for n in names:
            taken = re.search(r"Rattle\." + c + r"\.proofs\." + m + r"\.\{([^}]*)\}", text)
            if here or (taken and n in re.split(r",\s*", taken.group(1))):
                out[n] = n.replace("-", "_") + "_lem"
    return out


def turn(path, names):
    with open(path, encoding="utf-8") as it:
        text = it.read()
    own = dict(names)
    goals = set(GOAL.findall(text)) if path.endswith("Proof.antt") else set()
    if path.endswith("Proof.antt"):
        for line in text.split("\n"):
            m = DECL.match(line)
            if m and m.group(1) not in goals and re.search(r"-|[a-z][A-Z]", m.group(1)) and not m.group(1).endswith("-spec"):
                own[m.group(1)] = turned(m.group(1))
    own.update(fallen(path, text))

    def sub(m):
        if m.group("name") is None:
            return m.group(0)
        n = m.group(0)
        if n in goals or (m.start() and text[m.start() - 1] == "." and n not in names):
            return n
        if n.endswith("_lem") or (m.start() and text[m.start() - 1] == "." and own.get(n, "").endswith("_lem")):
            return n
        return own.get(n, n)

    new = (RT_TOKEN if path.endswith(".rt") else TOKEN).sub(sub, text)
    if new != text:
        with open(path, "w", encoding="utf-8") as it:
            it.write(new)
    return new != text


def main():
    names = declared()
    by = collections.defaultdict(set)
    for old, new in names.items():
        by[new].add(old)
    for new, olds in sorted(by.items()):
        if len(olds) > 1:
            print(f"two names become {new}: {', '.join(sorted(olds))}")
    n = 0
    for path in sorted(glob.glob("crates/**/*.antt", recursive=True) + glob.glob("crates/**/*.rt", recursive=True)):
        if "/out/" not in path:
            n += turn(path, names)
    print(f"{len(names)} names, {n} files")


if __name__ == "__main__":
    main()
