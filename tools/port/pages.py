#!/usr/bin/env python3
"""Brings the names of definitions and lemmas in the pages to today's spelling, behind tools/port/respell.py: tools/port/pages.py COMMIT [--check]

A name that the specs/ and proofs/ of COMMIT (the last landed one) declare and today's don't becomes the one of today's that differs from it in its capitals, dashes
and underscores alone. Only what stands in backquotes is touched, and what is written by hand: docs/LANDINGS.md tells of its days in their words, docs/PORT.md
names both, and quotes of programs are printed. --check changes nothing. Names that fit several of today's, or none, are said.
"""

import collections
import glob
import os
import re
import subprocess
import sys

ROOT = subprocess.run(["git", "rev-parse", "--show-toplevel"], capture_output=True, text=True, check=True).stdout.strip()
NAME = re.compile(r"[A-Za-z][\w']*(?:-[\w']+)*")
DECLARED = re.compile(r"^ *(?:(?:abbrev|unfoldable|pub) )*(?:(?:record|data) )?([^\s:(){}.;,]+)(?: \{[^}]*\}| \([^)]*\))* :(?: |$)")
LEFT = ("docs/LANDINGS.md", "docs/PORT.md", "docs/FIGURES.md", "docs/SOURCE.md", "docs/TOOLS.md")


def names_of(texts):
    return {m[1] for text in texts for line in text.split("\n") if (m := DECLARED.match(line))}


def of_commit(commit):
    listed = subprocess.run(["git", "ls-tree", "-r", "--name-only", commit, "crates"], cwd=ROOT, capture_output=True, text=True, check=True).stdout.split("\n")
    paths = [it for it in listed if it.endswith(".antt")]
    asked = "".join(f"{commit}:{it}\n" for it in paths)
    out = subprocess.run(["git", "cat-file", "--batch"], cwd=ROOT, input=asked.encode(), capture_output=True, check=True).stdout
    at = 0
    for _ in paths:
        end = out.index(b"\n", at)
        size = int(out[at:end].split()[2])
        yield out[end + 1 : end + 1 + size].decode()
        at = end + size + 2


def of_today():
    for folder, dirs, names in os.walk(f"{ROOT}/crates"):
        dirs[:] = [it for it in dirs if it != "out"]
        for name in names:
            if name.endswith(".antt"):
                with open(f"{folder}/{name}", encoding="utf-8") as f:
                    yield f.read()


def plain(name):
    return re.sub(r"[-_']", "", name).lower()


def main():
    commit, check = sys.argv[1], "--check" in sys.argv[2:]
    was, now = names_of(of_commit(commit)), names_of(of_today())
    by_plain = collections.defaultdict(set)
    for it in now:
        by_plain[plain(it)].add(it)
    said = set()

    def turned(name):
        # (a type, or a fact, keeps its capitals)
        if name not in was or name in now:
            return name
        fits = {it for it in by_plain[plain(name)] if it[0].isupper() == name[0].isupper()}
        # (a lemma's dash and a definition's underscore)
        fits = {it for it in fits if ("-" in it) == ("-" in name)} or fits
        if len(fits) == 1:
            return fits.pop()
        said.add(f"{name}: {'none of today fits' if not fits else 'fits ' + ', '.join(sorted(fits))}")
        return name

    changed = 0
    for path in ["README.md", "CONTRIBUTING.md", "peer/README.md", "examples/README.md", *sorted(glob.glob("docs/*.md", root_dir=ROOT))]:
        if path in LEFT:
            continue
        with open(f"{ROOT}/{path}", encoding="utf-8") as f:
            text = f.read()
        parts = re.split(r"(<!-- prints:.*?<!-- end -->|```.*?```)", text, flags=re.S)
        new = "".join(it if at % 2 else re.sub(r"`[^`\n]*`", lambda m: NAME.sub(lambda n: turned(n[0]), m[0]), it) for at, it in enumerate(parts))
        new = new.replace("specs/Contracts", "specs/Promises")
        if new != text:
            changed += 1
            if not check:
                with open(f"{ROOT}/{path}", "w", encoding="utf-8") as f:
                    f.write(new)
    print("\n".join(sorted(said)))
    print(f"{changed} pages {'would change' if check else 'changed'}, {len(said)} names are left")


main()
