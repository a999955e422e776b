#!/usr/bin/env python3
"""Tells which must-fail edits fit the crates as they stand: tools/fits-edits.py [CRATE..]. It proves nothing, and takes a second.

An edit fits where each `old:` text stands once in its file, where something is changed, and where no line `use ..{..}` names a word
twice in what it makes. `# law:` goes with `# fails:`, whose files are those of the crate's proofs/.
"""
import collections
import glob
import os
import re
import sys

TOP = os.path.dirname(os.path.dirname(os.path.realpath(__file__)))
KINDS = ("file: ", "old: ", "new:", "#")


def twice(text):
    """The words that an import of the text names twice."""
    for words in re.findall(r"^(?:pub |ghost )*use [^{};]*\{(.*?)\}", text, re.M | re.S):
        counts = collections.Counter(w.strip() for w in words.split(",") if w.strip())
        yield from (w for w, n in counts.items() if n > 1)


def faults(edit, folder):
    """What is wrong with an edit of the crate in a folder, a line each."""
    path, old, texts, was, seen = None, None, {}, {}, set()
    for line in open(edit, encoding="utf-8").read().split("\n"):
        if line and not line.startswith(KINDS):
            yield f"no line of an edit: {line}"
        seen.add(line.split(":")[0])
        if line.startswith("file: "):
            path = line[6:].strip()
            if not re.match(r"(src|specs)/", path) or not os.path.isfile(f"{folder}/{path}"):
                yield f"no file of src/ or specs/: {path}"
                return
            if path not in texts:
                texts[path] = was[path] = open(f"{folder}/{path}", encoding="utf-8").read()
        elif line.startswith("old: "):
            old = line[5:]
        elif line.startswith("new:"):
            if path is None or old is None:
                yield "a 'new:' line behind no 'file:' and 'old:' line"
                return
            count = texts[path].count(old)
            if count != 1:
                yield f"{path} has it {count} times: {old}"
            texts[path] = texts[path].replace(old, line[4:].removeprefix(" "))
            old = None
        elif line.startswith("# fails: "):
            place = line[9:].split()[0]
            if not place.startswith("proofs/") or not place.endswith(".antt"):
                yield f"no file of proofs/: {place}"
            elif not place.endswith("/Answers.antt") and not os.path.isfile(f"{folder}/{place}"):
                yield f"a '# fails:' line names {place}, which is not there"
    if texts == was:
        yield "it changes nothing"
    if ("# law" in seen) != ("# fails" in seen):
        yield "'# law:' goes with '# fails:'"
    for path, text in texts.items():
        yield from (f"{path} would import {w} twice" for w in sorted(set(twice(text)) - set(twice(was[path]))))


def main(names):
    edits = sorted(glob.glob(f"{TOP}/crates/*/must-fail/*.edit"))
    edits = [e for e in edits if not names or e.split("/")[-3] in names]
    bad = 0
    for edit in edits:
        found = list(faults(edit, os.path.dirname(os.path.dirname(edit))))
        bad += bool(found)
        for fault in found:
            print(f"{edit[len(TOP) + 1:]}: {fault}")
    print(f"{len(edits) - bad} edits fit, {bad} do not")
    return 1 if bad else 0


if __name__ == "__main__":
    sys.exit(main(sys.argv[1:]))
