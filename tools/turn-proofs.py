#!/usr/bin/env python3
"""Turns the Proof.antt files of a crate, which close a function by goals named one by one, into Invariants.antt and Answers.antt.

usage: tools/turn-proofs.py CRATE_FOLDER NAMES.json [FUNCTION..]

NAMES.json is what `rt check --generated FOLDER --old-names` writes in the crate's folder: each goal, step and place by its old and its
new name. Paths through `.before` become flat ones; a lemma over a place becomes a `let`; answers that are one search are left out, since
the check finds them. What it can't turn stands between ⟦ and ⟧, for a hand to mend. `rt check --fix-imports` then mends the imports.
"""
import json, os, re, sys

crate_dir, names_file, only = sys.argv[1], sys.argv[2], sys.argv[3:]
crate = os.path.basename(os.path.abspath(crate_dir))
NAMES = json.load(open(names_file))
norm = lambda s: s.replace("_", "-")
IDENT = re.compile(r"[A-Za-z_κμ][A-Za-z0-9_'₀-₉-]*")
PROJ = re.compile(r"(?:\.[A-Za-z0-9_'₀-₉-]+)*")


class Fn:
    def __init__(self, key, d):
        self.d = d
        self.places = {p[0]: i for i, p in enumerate(d["places"])}
        self.parent = [self.places.get(p[1]) if p[1] else None for p in d["places"]]
        self.newname = d["places_by_name"]
        self.oldn = {norm(p[0]): i for i, p in enumerate(d["places"])}
        self.needs = {norm(b): (b, at) for (a, b), at in zip(d["needs"], d["asked_at"])}
        self.needs.update({norm(a): (b, at) for (a, b), at in zip(d["needs"], d["asked_at"])})

    def step(self, i, field, rest):
        """The new path of step field at place i with the rest of the path, or None."""
        p = self.d["places"][i]
        old, new = p[2]
        f = norm(field)
        if f != norm(old):
            return None
        arm = self.d["arms"][i]
        if arm:
            best = None
            for nf, ostep, opath in arm[2]:
                if norm(ostep) == f and rest[: len(opath)] == opath and (best is None or len(opath) > len(best[1])):
                    best = (nf, opath)
            if best and best[1]:
                return (arm[0] + "." + best[0], rest[len(best[1]):])
            if best:
                return (arm[0] + "." + best[0], rest)
            if any(norm(o) == f and q[: len(rest)] == rest for _, o, q in arm[2]):
                return "partial"
        if rest:
            for a, b in p[4]:
                if rest[0] == a:
                    rest = [b] + rest[1:]
                    break
        return (new, rest)

    def chain(self, i):
        while i is not None:
            yield i
            i = self.parent[i]

    def resolve(self, at, fields):
        """A path from a root: (root, None) when it ends at a place or within an arm's fact, else (None, new path). A root is (place, fields)."""
        i, pre = at
        fields = list(pre) + list(fields)
        k = 0
        while k < len(fields) and fields[k] == "before":
            i = self.parent[i] if self.parent[i] is not None else i
            k += 1
        fields = fields[k:]
        if not fields:
            return (i, ()), None
        if fields[0] in ("args", "requires", "pre", "ranges"):
            if fields[0] == "pre":
                fields[0] = "requires"
            if fields[0] == "args" and len(fields) > 1:
                for a, b in self.d["args"]:
                    if a == ".args ." + fields[1]:
                        fields[1] = b[len(".args ."):]
                        break
            return None, "c." + ".".join(fields)
        got = None
        for j in [i, *self.chain(self.goal)]:
            got = self.step(j, fields[0], fields[1:])
            if got:
                break
        if got == "partial":
            return (j, tuple(fields)), None
        if got is None:
            return None, "⟦" + ".".join(fields) + "⟧"
        f, rest = got
        return None, "c." + ".".join([f] + rest)


def split_decls(text):
    out, cur = [], []
    for line in text.split("\n"):
        if line.startswith("use "):
            if cur:
                out.append("\n".join(cur)); cur = []
            out.append(line)
        elif line == "":
            if cur:
                out.append("\n".join(cur)); cur = []
        else:
            cur.append(line)
    if cur:
        out.append("\n".join(cur))
    return out


class Lemma:
    pass


def parse_decl(block):
    lines = block.split("\n")
    comments = []
    while lines and lines[0].startswith("--"):
        comments.append(lines.pop(0))
    if not lines:
        return comments, None
    m = re.match(r"((?:abbrev |pub |unfoldable )*)([^\s:]+) : ", lines[0])
    if not m:
        return comments, None
    L = Lemma()
    L.mods, L.name = m.group(1), m.group(2)
    sig = [lines[0][m.end():]]
    k = 1
    while k < len(lines) and not lines[k].startswith("unfolding") and not re.match(re.escape(L.name) + r"(\s|$)", lines[k]):
        sig.append(lines[k]); k += 1
    L.sig = "\n".join(sig)
    L.unfolding = ""
    if k < len(lines) and lines[k].startswith("unfolding"):
        L.unfolding = lines[k]; k += 1
    L.body_lines = lines[k:]
    L.raw = block
    return comments, L


def param_name(v):
    return v


def convert(path, fn, base):
    text = open(path, encoding="utf-8").read()
    blocks = split_decls(text)
    uses, decls = [], []
    pend = []
    for b in blocks:
        if b.startswith("use "):
            uses.append(b)
            continue
        comments, L = parse_decl(b)
        if L is None:
            pend += comments
            continue
        L.comments = pend + comments
        pend = []
        decls.append(L)
    # kinds
    lemmas, aliases = {}, {}
    answers, inv, plain = [], [], []
    for L in decls:
        if "tie.close" in L.raw or re.search(r"→ statement M", L.sig):
            continue
        m = re.match(r"tie\.(invariant|decreases)-(loop\S*)$", L.sig.strip())
        if m:
            inv.append((L, m.group(1), m.group(2)))
            continue
        m = re.match(r"tie\.Need-(\S+)", L.sig.strip())
        if m:
            answers.append((L, m.group(1)))
            continue
        m = re.match(r"tie\.(\S+) → tie\.(\S+)$", L.sig.strip())
        if m:
            aliases[L.name] = L
            continue
        m = re.match(r"\((\w+) : tie\.([^\s()]+)((?: [^()]*)?)\)\s*(.*)$", L.sig.strip(), re.S)
        if m:
            L.pname, L.place, L.rest = m.group(1), m.group(2), m.group(4)
            lemmas[L.name] = L
            continue
        m = re.match(r"tie\.(\S+)((?: [\w-]+)*) → (.*)$", L.sig.strip(), re.S)
        if m:
            L.pname, L.place, L.rest = "c", m.group(1), m.group(3)
            lemmas[L.name] = L
            continue
        plain.append(L)

    by_name = {L.name: L for L, _ in answers}

    def place_of(name):
        return fn.oldn.get(norm(name))

    def resolve_arg(s, env):
        """Parses at the start of s an argument that is a path or a parenthesised path: (place, newpath, length)."""
        m = IDENT.match(s)
        if m and m.group(0) in env:
            p = PROJ.match(s, m.end())
            fields = [x for x in p.group(0).split(".") if x]
            # trailing '.' safety
            pl, new = fn.resolve(env[m.group(0)], fields)
            return pl, new, p.end()
        if s.startswith("("):
            # (alias arg) or (path)
            depth, j = 0, 0
            for j, ch in enumerate(s):
                depth += (ch == "(") - (ch == ")")
                if depth == 0:
                    break
            inner = s[1:j]
            m = IDENT.match(inner)
            if m and m.group(0) in aliases:
                r = resolve_arg(inner[m.end():].lstrip(), env)
                if r and r[0] is not None and inner[m.end():].lstrip()[r[2]:].strip() == "":
                    A = aliases[m.group(0)]
                    pl = alias_place(A, r[0])
                    p = PROJ.match(s, j + 1)
                    fields = [x for x in p.group(0).split(".") if x]
                    pl2, new = fn.resolve(pl, fields)
                    return pl2, new, p.end()
            r = resolve_arg(inner, env)
            if r and inner[r[2]:].strip() == "" and r[0] is not None:
                p = PROJ.match(s, j + 1)
                fields = [x for x in p.group(0).split(".") if x]
                pl2, new = fn.resolve(r[0], fields)
                return pl2, new, p.end()
        return None

    def alias_place(A, at):
        body = " ".join(x.strip() for x in A.body_lines)
        m = re.match(re.escape(A.name) + r" (\S+) = (.*)$", body)
        f = [x for x in m.group(2)[len(m.group(1)):].split(".") if x]
        pl, new = fn.resolve(at, f)
        return pl or (0, ())

    unf = set()
    hoisted = {}

    def conv(s, env, used):
        env = dict(env)
        out, i = [], 0
        while i < len(s):
            m = re.compile(r"let (\S+) = ").match(s, i)
            if m and (i == 0 or not re.match(r"[\w'.-]", s[i - 1])):
                r = resolve_arg(s[m.end():], env)
                if r:
                    tail = s[m.end() + r[2]:]
                    mm = re.match(r"\s+in\s+", tail)
                    if mm and r[0] is not None:
                        env[m.group(1)] = r[0]
                        # keep the layout: what stands before 'let' stays
                        ws = mm.group(0)
                        nl = ws[ws.rfind("\n"):] if "\n" in ws else ""
                        if out and nl and out[-1].endswith(nl):
                            pass
                        i = m.end() + r[2] + mm.end()
                        continue
                    if mm and r[1] is not None:
                        out.append(f"let {m.group(1)} = {r[1]}{mm.group(0)}")
                        env.pop(m.group(1), None)
                        i = m.end() + r[2] + mm.end()
                        continue
                out.append(m.group(0))
                # a name bound to something else is no place any more
                later = m.group(1)
                env.pop(later, None)
                i = m.end()
                continue
            m = IDENT.match(s, i)
            if m and (i == 0 or not re.match(r"[\w'.⟧-]", s[i - 1])):
                w = m.group(0)
                if w in env:
                    r = resolve_arg(s[i:], env)
                    if r[0] is not None:
                        out.append("c" if r[0][0] == fn.goal and not r[0][1] else "⟦c⟧")
                    else:
                        out.append(r[1])
                    i += r[2]
                    continue
                if w in lemmas or w in aliases:
                    rest = s[m.end():]
                    sp = re.match(r"\s+", rest)
                    r = resolve_arg(rest[sp.end():], env) if sp else None
                    if r and r[0] is not None and w in lemmas:
                        L = lemmas[w]
                        used.add(w)
                        out.append(inline(L, r[0], used))
                        i = m.end() + sp.end() + r[2]
                        continue
                if w in by_name and w not in env:
                    A = by_name[w]
                    rest = s[m.end():]
                    sp = re.match(r"\s+", rest)
                    r = resolve_arg(rest[sp.end():], env) if sp else None
                    if r and r[0] is not None:
                        ab = "\n".join(A.body_lines)
                        mm = re.match(re.escape(A.name) + r"((?:\s+\S+)*?)\s+=\s", ab)
                        aps = mm.group(1).split()
                        end = m.end() + sp.end() + r[2]
                        for _ in aps[1:]:
                            e2 = re.match(r"\s+(κs|_|[\w.]+)", s[end:])
                            if e2:
                                end += e2.end()
                        for u in A.unfolding.split()[1:]:
                            unf.add(u)
                        bb = " ".join(x.strip() for x in conv(ab[mm.end():].strip(), {aps[0]: r[0]}, used).split("\n"))
                        out.append("(" + bb + ")")
                        i = end
                        continue
                if w in lemmas:
                    out.append("⟦" + w + "⟧"); i = m.end(); continue
                out.append(w); i = m.end(); continue
            if s[i] == "(":
                r = resolve_arg(s[i:], env)
                if r and r[1] is not None:
                    out.append(r[1]); i += r[2]; continue
            out.append(s[i]); i += 1
        return "".join(out)

    def inline(L, at, used):
        for u in L.unfolding.split()[1:]:
            unf.add(u)
        body = "\n".join(L.body_lines)
        m = re.match(re.escape(L.name) + r"((?:\s+\S+)*?)\s+=\s", body)
        params = m.group(1).split()
        b = body[m.end():].strip()
        env = {params[0]: at}
        bb = " ".join(x.strip() for x in conv(b, env, used).split("\n"))
        typ = L.rest.strip()
        typ = re.sub(r"^→\s*", "", typ)
        tt = " ".join(x.strip() for x in conv(typ, {L.pname: at}, used).split("\n"))
        if len(params) > 1:
            bb = "λ " + " ".join(params[1:]) + ". " + bb
        if L.name not in hoisted:
            hoisted[L.name] = f"let {L.name} : {tt} = {bb} in"
        return L.name

    Q = f"Rattle.{crate}.proofs.{base}"
    kept_uses = [u for u in uses if not u.endswith(".Tie as tie") and ".Statement.{statement}" not in u]
    files = {}
    loops = {norm(l[0][0]): (l[0][1], l[1], ch) for l, ch in zip(fn.d["loops"], fn.d["changed"])}
    if inv:
        o = []
        for L, kind, loop in inv:
            new, vs, ch = loops[norm(loop)]
            body = "\n".join(L.body_lines)
            m = re.match(re.escape(L.name) + r"((?:\s+\S+)*?)\s+=\s", body)
            ps = m.group(1).split()
            b = body[m.end():]
            sub = {}
            first, second = ps[: len(vs)], ps[len(vs):]
            for p, v, c in zip(first, vs, ch):
                sub[p] = f"l.initial.{v}" if c else f"l.{v}"
            for p, v in zip(second, [v for v, c in zip(vs, ch) if c]):
                sub[p] = f"l.{v}"

            def rep(mm):
                w = mm.group(0)
                st = mm.start()
                if st > 0 and b[st - 1] in ".-":
                    return w
                return sub.get(w, w)

            b2 = re.sub(r"[A-Za-z_][A-Za-z0-9_'₀-₉-]*", rep, b)
            o.append("\n".join(L.comments + [f"abbrev pub {kind}-{new} : goal.{kind}-{new}"] + ([L.unfolding] if L.unfolding else []) + [f"{kind}-{new} l = {b2.strip()}"]))
        pl = []
        bodies = "\n".join(o)
        files["Invariants.antt"] = "\n".join(kept_uses + [f"use {Q}.Given as goal"]) + "\n\n" + "\n\n".join(o) + "\n"
    o = []
    for L in plain:
        if L.mods.startswith("abbrev") and inv and re.search(r"\b" + re.escape(L.name) + r"\b", bodies):
            files["Invariants.antt"] = files["Invariants.antt"].replace(f"use {Q}.Given as goal\n", f"use {Q}.Given as goal\n\n" + L.raw + "\n", 1)
            o.append("\n".join(L.comments) + ("\n" if L.comments else "") + L.raw.split("\n", len(L.comments))[-1])
            continue
        o.append(L.raw)
    # goals named after a temporary are found by their place among the others
    order = []
    for L in decls:
        if "tie.close" in L.raw:
            mm = re.search(r"\(?tie\.spec(.*)", L.raw, re.S)
            t = mm.group(1) if mm else ""
            k = 0
            while k < len(t):
                if t[k] == "(":
                    depth, j = 0, k
                    for j in range(k, len(t)):
                        depth += (t[j] == "(") - (t[j] == ")")
                        if depth == 0:
                            break
                    order.append(None); k = j + 1
                    continue
                mm = re.compile(r"[^\s()]+").match(t, k)
                if mm:
                    order.append(mm.group(0)); k = mm.end(); continue
                k += 1
    n_inv = len(inv)
    order = order[n_inv:]
    need_of = {L.name: norm(n) for L, n in answers}
    olds = [need_of.get(x) if x else None for x in order]
    news = [(norm(a), norm(b), b, at) for (a, b), at in zip(fn.d["needs"], fn.d["asked_at"])]
    pos = {}
    for j, n in enumerate(news):
        pos.setdefault(n[1], j)
    for j, n in enumerate(news):
        pos.setdefault(n[0], j)
    anchors = [(-1, -1)]
    for i, od in enumerate(olds):
        if od in pos and pos[od] > anchors[-1][1]:
            anchors.append((i, pos[od]))
    anchors.append((len(olds), len(news)))
    found = {}
    for (i0, j0), (i1, j1) in zip(anchors, anchors[1:]):
        gap_old = [i for i in range(i0 + 1, i1)]
        gap_new = [j for j in range(j0 + 1, j1)]
        for i in gap_old:
            od = olds[i]
            if od is None or od in pos:
                continue
            if len(gap_old) == len(gap_new):
                found[od] = gap_new[i - i0 - 1]
                continue
            kind = re.match(r"[a-z]+-[a-z]+-|[a-z]+-|", od).group(0)
            c = [j for j in gap_new if news[j][1].startswith(kind) and j not in found.values()]
            if c:
                found[od] = c[0]
    for od, j in found.items():
        fn.needs.setdefault(od, (news[j][2], news[j][3]))
    todo = []
    n_answers = 0
    dropped = []
    for L, need in answers:
        got = fn.needs.get(norm(need))
        body = "\n".join(L.body_lines)
        m = re.match(re.escape(L.name) + r"((?:\s+\S+)*?)\s+=\s", body)
        ps = m.group(1).split()
        b = body[m.end():].strip("\n")
        if b.strip() in ("search rules", "omega arith") and not L.unfolding:
            dropped.append(need)
            continue
        if got is None:
            todo.append(f"-- no goal today: {need}\n" + "\n".join("-- " + x for x in L.raw.split("\n")))
            continue
        new, at = got
        unf.clear()
        used = set()
        fn.goal = fn.places[at[0]]
        hoisted.clear()
        b2 = conv(b, {ps[0]: (fn.goal, ())}, used)
        b2 = re.sub(r"\n\s*\n", "\n", b2)
        names = L.unfolding.split()[1:] + sorted(unf - set(L.unfolding.split()[1:]))
        lines = list(L.comments) + [f"pub {new} : goal.{new}"]
        if names:
            lines.append("unfolding " + " ".join(names))
        for h in hoisted:
            hoisted[h] = re.sub(r"\((" + "|".join(map(re.escape, hoisted)) + r")\)", r"\1", hoisted[h])
        if hoisted:
            b2 = re.sub(r"\((" + "|".join(map(re.escape, hoisted)) + r")\)", r"\1", b2)
            b2 = "\n    ".join([*hoisted.values(), b2.strip()])
        if "\n" in b2 or b.startswith("\n") or re.match(re.escape(L.name) + r"[^\n]*=\s*\n", body):
            lines.append(f"{new} c =\n    " + b2.strip())
        else:
            lines.append(f"{new} c = {b2.strip()}")
        o.append("\n".join(lines))
        n_answers += 1
    if n_answers:
        files["Answers.antt"] = "\n".join(kept_uses + [f"use {Q}.Goals as goal"]) + "\n\n" + "\n\n".join(o + todo) + "\n"
    elif todo:
        print(f"{base}: only goals that are gone: {todo}")
    return files, dropped


def main():
    for key, d in NAMES.items():
        if not key.endswith(".Lts") or f"Rattle-{crate}-proofs." not in key:
            continue
        base = key[len(f"Rattle-{crate}-proofs."): -len(".Lts")]
        if only and base not in only:
            continue
        folder = os.path.join(crate_dir, "proofs", *base.split("."))
        path = os.path.join(folder, "Proof.antt")
        if not os.path.exists(path):
            continue
        try:
            files, dropped = convert(path, Fn(key, d), base)
        except (AttributeError, IndexError, KeyError, TypeError) as e:
            print(f"{base}: not turned: {e!r}")
            continue
        os.remove(path)
        for n, t in files.items():
            open(os.path.join(folder, n), "w", encoding="utf-8").write(t)
            if "⟦" in t:
                print(f"{base}/{n}: to mend: {[x for x in re.findall(r'⟦[^⟧]*⟧', t)][:6]}")
        if not files:
            try:
                os.rmdir(folder)
            except OSError:
                pass
    left = []
    for f, _, fs in os.walk(os.path.join(crate_dir, "proofs")):
        if "Proof.antt" in fs:
            left.append(f)
    print("left:", left)


main()
