#!/usr/bin/env python3
"""Gives the repository's own definitions and lemmas today's spelling: words in snake case, types and modules in camel case.

usage: tools/snake-names.py [--list] [ROOT]     --list: prints old and new names and those that fall together, and changes nothing

A name is the repository's own where a file of specs/ or proofs/ declares it. It is turned in each file that declares it or imports it
from a crate of the repository, in clauses too; a name of the library of the same spelling is left alone.
"""
import os
import re
import sys

args = [a for a in sys.argv[1:] if not a.startswith("--")]
LIST = "--list" in sys.argv
ROOT = os.path.abspath(args[0] if args else ".")
CRATES = os.path.join(ROOT, "crates")
TOKEN = re.compile(r"[^\s(){}.,;λ«»]+")
DECL = re.compile(r"^(?:(?:abbrev|unfoldable|opaque|pub|tactic) )*([^\s:(){}]+) (?::|\{|\()")
FIELD = re.compile(r"^  (?:pub )?([^\s:(){}]+) :(?: |$)")
INNER = re.compile(r"^\s+(?:pub )?([a-z][^\s:(){}]*) :(?: |$)")
USE = re.compile(r"^\s*(?:pub )?(?:ghost )?use ([^;{]*?)(?:\.?\{(.*?)\})?(?: as (\S+))?;?\s*$")


# Where a lemma or a field would get its definition's name, it gets another.
APART = {
    n: n.replace("-", "_") + "_lem"
    for n in "after-page has-time next-track not-ready synchronized-by title-count track-blocks tracks-of was-ready made_by turn_by is-packs refused-by reply-bytes to-come text_in".split()
}
APART.update({"cd-rw": "cd_rw_profile", "stop-names": "the_stop_names", "in-range": "in_range_lem", "mixed-or-kept": "mixed_or_kept_case"})


def snake(name):
    """A word in snake case; a type keeps its capitals, and what a prime stands on stays."""
    if name in APART:
        return APART[name]
    if re.match(r"[A-Z]", name) and "-" not in name:
        return name
    if "◌" in name:
        return name
    parts = name.split("-")
    out = []
    for p in parts:
        if re.match(r"[a-z]", p):
            p = re.sub(r"(?<=[a-z0-9])([A-Z])", lambda m: "_" + m.group(1).lower(), p)
        out.append(p)
    return "_".join(out)


def files():
    for folder, dirs, names in os.walk(CRATES):
        dirs[:] = sorted(d for d in dirs if d != "out")
        for n in sorted(names):
            if n.endswith((".antt", ".rt")):
                yield os.path.join(folder, n)


def declared(path):
    found = set()
    in_record = False
    for line in open(path, encoding="utf-8"):
        if re.match(r"(pub )?(record|data) ", line):
            in_record = True
            continue
        m = FIELD.match(line)
        if in_record and m:
            found.add(m.group(1))
            continue
        if line.strip() and not line.startswith((" ", "--")):
            in_record = False
        m = DECL.match(line) or INNER.match(line)
        if m and not line.startswith(("use ", "pub use ", "ghost ", "open ")):
            found.add(m.group(1))
    return found


OWN_CRATES = {d for d in os.listdir(CRATES)}
everything = {}          # path -> declared names
fields = set()
for p in files():
    if p.endswith(".antt"):
        everything[p] = declared(p)


def record_fields(path):
    out, on = set(), False
    for line in open(path, encoding="utf-8"):
        if re.match(r"(pub )?record ", line):
            on = True
            continue
        m = FIELD.match(line)
        if on and m:
            out.add(m.group(1))
        elif line.strip() and not line.startswith((" ", "--")):
            on = False
    return out


def top(path):
    """The names declared at the margin."""
    out = set()
    for line in open(path, encoding="utf-8"):
        m = DECL.match(line)
        if m and not line.startswith(("use ", "pub use ", "ghost ", "open ")):
            out.add(m.group(1))
    return out


for p in everything:
    fields |= record_fields(p)

own = set().union(*everything.values())
turned = {n: snake(n) for n in own if snake(n) != n and not (n in APART and APART[n] in own) and not n.startswith(("invariant-loop", "decreases-loop", "--"))}
field_turned = {n: turned[n] for n in fields if n in turned}

if LIST:
    back = {}
    for a, b in turned.items():
        back.setdefault(b, set()).add(a)
    for n in own:
        if n in back:
            back[n].add(n)
    for a in sorted(turned):
        print(a, turned[a])
    for b in sorted(back):
        if len(back[b]) > 1:
            print("TOGETHER", b, sorted(back[b]))
    for p in files():
        text = open(p, encoding="utf-8").read()
        seen = {}
        names = set(top(p)) if p.endswith(".antt") else set()
        for line in text.splitlines():
            m = USE.match(line)
            if m and m.group(2):
                names |= {x.strip().split(" as ")[-1].strip() for x in m.group(2).split(",") if x.strip()}
        for x in names:
            seen.setdefault(turned.get(x, x), set()).add(x)
        for b, xs in seen.items():
            if len(xs) > 1:
                print("IN", p[len(ROOT) + 1 :], b, sorted(xs))
    sys.exit()


def foreign_names(text):
    """The names that a file takes from elsewhere than this repository's crates, and its aliases of the repository's modules."""
    foreign, aliases = set(), set()
    for line in text.splitlines():
        m = USE.match(line)
        if not m:
            continue
        path, names, alias = m.group(1).strip(), m.group(2), m.group(3)
        first = path.split(".")
        ours = len(first) > 1 and first[0] == "Rattle" and first[1] in OWN_CRATES and "declared" not in first
        if names and not ours:
            for n in names.split(","):
                n = n.strip()
                foreign.add(n.split(" as ")[-1].strip())
        if ours and not names:
            aliases.add(alias or first[-1])
    return foreign, aliases


def turn(path):
    text = open(path, encoding="utf-8").read()
    foreign, aliases = foreign_names(text)
    local = everything.get(path, set())
    rust = path.endswith(".rt")

    def word(m, line, at):
        t = m.group(0)
        if t not in turned:
            return t
        if rust and "-" in t and not clause:
            return t
        before = line[: m.start()]
        if before.endswith("."):
            q = re.search(r"([^\s(){}.,;]+)\.$", before)
            if t in field_turned:
                return turned[t]
            if q and q.group(1) in aliases:
                return turned[t]
            return t
        if t in foreign and t not in local:
            return t
        return turned[t]

    out, depth = [], 0
    for line in text.split("\n"):
        code = line
        clause = line.lstrip().startswith(("ghost ", "requires", "ensures", "//"))
        if line.lstrip().startswith(("//", "--")):
            # a comment: the names that it cites
            out.append(re.sub(TOKEN, lambda m: turned[m.group(0)] if m.group(0) in turned and (re.search(r"[a-z][A-Z]", m.group(0))) else m.group(0), line))
            continue
        if re.match(r"\s*(pub )?use Rattle\.", line) or re.match(r"\s*ghost use Rattle\.", line):
            ours = re.search(r"Rattle\.(\w+)\.", line)
            if not ours or ours.group(1) not in OWN_CRATES or ".declared." in line:
                out.append(line)
                continue
            head, brace, rest = line.partition("{")
            out.append(head + brace + re.sub(TOKEN, lambda m: turned.get(m.group(0), m.group(0)), rest))
            continue
        if re.match(r"\s*(pub |ghost )*use ", line):
            out.append(line)
            continue
        out.append(TOKEN.sub(lambda m: word(m, line, m.start()), line))
    new = "\n".join(out)
    if new != text:
        open(path, "w", encoding="utf-8").write(new)
        return True
    return False


changed = sum(turn(p) for p in files())
print(f"{len(turned)} names, {changed} files changed")
