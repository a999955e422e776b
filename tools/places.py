#!/usr/bin/env python3
"""Lists places of src/ that have an older form, by point of docs/DESIGN-PASS.md: tools/places.py [--list] [COMMIT].

It reads text alone, of the working tree or of a commit. A row is a place to look at, and no verdict: the page says of each what became of it.
"""
import collections
import re
import subprocess
import sys

NUMBERS = ("op", "operation", "number", "refusal", "status", "sort", "function", "profile", "kind", "method", "recipe")


def sources(commit):
    """Path and text of each source file."""
    git = ["git", "ls-tree", "-r", "--name-only", commit] if commit else ["git", "ls-files", "-co", "--exclude-standard"]
    for path in subprocess.run(git, capture_output=True, text=True, check=True).stdout.split():
        if re.fullmatch(r"crates/\w+/src/.*\.rt", path):
            if commit:
                yield path, subprocess.run(["git", "show", f"{commit}:{path}"], capture_output=True, text=True, check=True).stdout
            else:
                try:
                    yield path, open(path, encoding="utf-8").read()
                except FileNotFoundError:
                    pass


def line_of(text, at):
    return text.count("\n", 0, at) + 1


def items(text, word):
    """Name, body and place of each item with braces."""
    for m in re.finditer(rf"^[ ]*(?:pub(?:\(crate\))? )?{word} (\w+)[^;{{]*\{{(.*?)^[ ]*\}}", text, re.M | re.S):
        yield m.group(1), m.group(2), line_of(text, m.start())


def functions(text):
    """Name, parameters, result, requires and body of each function, and its place."""
    for m in re.finditer(r"^( *)(?:#\[.*\]\n *)?(?:pub(?:\(crate\))? )?(?:extern \"C\" )?fn (\w+)(?:<[^>]*>)?\(", text, re.M):
        depth, i = 1, m.end()
        while depth:
            depth += {"(": 1, ")": -1}.get(text[i], 0)
            i += 1
        indent = m.group(1)
        inline = re.match(r"([^\n]*) \{\n(.*?)^" + indent + r"\}", text[i:], re.M | re.S)
        rest = inline or re.match(r"(.*?)^" + indent + r"\{(.*?)(?:^" + indent + r"|(?<=\{))\}", text[i:], re.M | re.S)
        head, body = (rest.group(1), rest.group(2)) if rest else (text[i : text.find("\n", i)], "")
        requires = re.findall(r"requires(?: \w+)? \{ (.*) \}", head)
        yield m.group(2), " ".join(text[m.end() : i - 1].split()), head.split("\n")[0], requires, body, line_of(text, m.start())


def conjuncts(clause):
    """The facts of a clause, without the names of what they speak of."""
    depth, part = 0, ""
    for c in clause:
        depth += {"(": 1, ")": -1}.get(c, 0)
        if c == "×" and not depth:
            yield part
            part = ""
        else:
            part += c
    yield part


def places(commit):
    found = collections.defaultdict(list)
    facts, pairs = collections.defaultdict(list), collections.defaultdict(list)
    for path, text in sources(commit):
        crate = path.split("/")[1]
        for name, body, line in items(text, "enum"):
            cases = re.findall(r"^\s+(\w+)\b(.*),?$", body, re.M)
            bears = [c for c in cases if "(" in c[1]]
            if re.search(r"\(Refusal\)", body) or (len(cases) == 2 and len(bears) == 1):
                found["1 enum with a refusal, or of one value or none"].append(f"{path}:{line} {name}")
        for name, body, line in items(text, "struct"):
            fields = re.findall(r"^\s+(?:pub(?:\(crate\))? )?(\w+): (.*),$", body, re.M)
            kinds = dict(fields)
            if len(fields) > 1 and ("check" in kinds or "addressed" in kinds or "waiting" in kinds or "out" in kinds):
                found["1 struct with a flag beside a value"].append(f"{path}:{line} {name}")
            for field, kind in fields:
                if field in NUMBERS and re.fullmatch(r"u(8|16|32)", kind):
                    found["1 number for a kind or refusal, in a field"].append(f"{path}:{line} {name}.{field}")
            if any(k.startswith("[") or k.startswith("&mut [") for k in kinds.values()) and {"length", "count", "end", "used"} & set(kinds):
                found["6 struct with an array and a length"].append(f"{path}:{line} {name}")
        for m in re.finditer(r"^\s+\w+\(u8\),$", text, re.M):
            found["1 number for a kind or refusal, in a case"].append(f"{path}:{line_of(text, m.start() + 1)} {m.group().strip()}")
        for name, params, result, requires, body, line in functions(text):
            at = f"{path}:{line} {name}"
            if re.search(r"good: bool, bytes: &\[u8\]", params):
                found["1 function of a flag and a value"].append(at)
            for number in re.findall(r"(\w+): u(?:8|16|32)\b", params):
                if number in NUMBERS:
                    found["1 number for a kind or refusal, as a parameter"].append(f"{at}({number})")
            for loop in re.finditer(r"^\s+while (.*) \{$", body, re.M):
                found["3 while loop"].append(f"{at}: while {loop.group(1)}")
            if re.search(r"(?:-> u(?:8|16|32|64)|-> (?:Kind|Method|Recipe))$", result) and re.search(r"^\s*(?:match|if \w+ == \d)", body) and re.search(r"=> (?:0x)?[0-9A-F]+,|\{ \w+::\w+ \} else|^\s+\w+::\w+\n\s+\} else", body, re.M):
                found["4 conversion by hand"].append(at)
            if re.search(r"match \w+ \{\n\s+\w+::\w+ => match", body) and "-> bool" in result:
                found["4 equality by hand"].append(at)
            if re.search(r"/ 16777216|/ 256\)? as u8|% 256\)? as u8", body):
                found["4 bytes of a number by hand"].append(at)
            if len(re.findall(r"^\s+\w+::\w+(?:\(_\)| \{)?.*=> (?:true|false|0|at),$", body, re.M)) >= 4:
                found["4 case by case test"].append(at)
            for clause in requires:
                for fact in conjuncts(clause):
                    facts[crate, re.sub(r"\s+", " ", re.sub(r"\b\w+\.(now|old)\b", "_", fact)).strip(" ()")].append(at)
            named = re.findall(r"(\w+): ([^,]+)", params)
            for a, b in zip(named, named[1:]):
                pairs[crate, f"{a[0]}: {a[1]}, {b[0]}: {b[1]}"].append(at)
            if re.search(r"got: usize", params):
                found["6 buffer with a length, as parameters"].append(at)
            if re.search(r"match (?:op|operation|r\.operation) \{\n\s+\d", body):
                found["7 switch on a number of a step"].append(at)
    for (crate, fact), where in sorted(facts.items()):
        if len(where) >= 3:
            found["5 fact in three contracts or more"].append(f"{crate}: {fact} ({len(where)})")
    for (crate, pair), where in sorted(pairs.items()):
        if len(where) >= 3:
            found["5 parameters together in three functions or more"].append(f"{crate}: {pair} ({len(where)})")
    return found


if __name__ == "__main__":
    words = [w for w in sys.argv[1:] if w != "--list"]
    found = places(words[0] if words else None)
    for point in sorted(found):
        print(f"{len(found[point]):4} {point}")
        if "--list" in sys.argv:
            for place in found[point]:
                print(f"       {place}")
