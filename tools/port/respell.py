#!/usr/bin/env python3
"""Brings the definitions and lemmas of crates/ to today's spelling, once, right after /opt/rattle/port/port.py: tools/port/respell.py [--check]

A word of a name is in snake case (`mostNames` is `most_names`, `firstNames-length` is `first_names-length`), a type, a fact and a module keep their capitals,
a dash goes on joining the parts of a lemma's name; in a record's field and a constructor it is `_`. A file specs/Contracts.antt is specs/Promises.antt,
as Rattle makes a module `specs.contracts`. Functions of src/, exported names, strings, inputs and outputs keep theirs. --check only says what would fall together.
"""

import collections
import os
import re
import subprocess
import sys

ROOT = subprocess.run(["git", "rev-parse", "--show-toplevel"], capture_output=True, text=True, check=True).stdout.strip()
WORD = re.compile(r'[^\s(){}.;,@"«»`]+')
DECLARED = re.compile(r"^(?:(?:abbrev|unfoldable|pub) )*([^\s:(){}.;,]+) :(?: |$)(.*)$")
HEAD = re.compile(r"^(?:pub )?(record|data) (\S+)")
MEMBER = re.compile(r"^  (?:pub )?([^\s:(){}.;,]+) :(?: |$)")
CAMEL = re.compile(r"(?<=[a-z0-9])(?=[A-Z])")
REGION = re.compile(r"(?:requires|ensures)\b[^{;]*\{|ghost use [^;]*;")


def files(endings):
    for folder, dirs, names in os.walk(os.path.join(ROOT, "crates")):
        dirs[:] = sorted(d for d in dirs if d != "out")
        for name in sorted(names):
            if name.endswith(endings):
                yield os.path.join(folder, name)


def read(path):
    with open(path, encoding="utf-8") as f:
        return f.read()


def snake(part):
    """A part of a name between dashes: one that begins with a capital is a fact or a type and stays."""
    if not part or not part[0].islower():
        return part
    return "_".join(w.lower() for w in CAMEL.split(part))


def declared():
    """Each name that a file declares: as 'member' of a record or a data type, as 'type', or as 'word'; and where."""
    found = collections.defaultdict(lambda: collections.defaultdict(set))
    for path in files((".antt",)):
        inside = False
        for line in read(path).split("\n"):
            if m := HEAD.match(line):
                found[m[2]]["type"].add(path)
                inside = True
                continue
            if line and not line.startswith(" "):
                inside = False
            if inside and (m := MEMBER.match(line)):
                found[m[1]]["member"].add(path)
            elif m := DECLARED.match(line):
                kind = "type" if m[1][0].isupper() or re.search(r"Type [01]$", m[2]) else "word"
                found[m[1]][kind].add(path)
    return found


def camel_words():
    """Words in camel case that no line at a file's left declares: of a section, bound, or brought in by `as`."""
    out = set()
    for path in files((".antt",)):
        for word in WORD.findall(re.sub(r'"(?:[^"\\\n]|\\.)*"', " ", read(path))):
            if any(re.fullmatch(r"[a-z][a-z0-9]*(?:[A-Z][a-z0-9]*)+[·']*", p) for p in word.split("-")):
                out.add(word)
    return out


def table(found):
    out = {w: "-".join(snake(p) for p in w.split("-")) for w in camel_words()}
    for name, kinds in found.items():
        if name[0].isupper() or not name[0].islower():
            continue
        new = "-".join(snake(p) for p in name.split("-"))
        if set(kinds) == {"member"}:
            new = new.replace("-", "_")
        if new != name:
            out[name] = new
    # Where two fall together, a definition gets the plain name and the lemma beside it `_lem`.
    for new in sorted(set(out.values())):
        olds = [a for a, b in out.items() if b == new] + [new] * (new in found)
        if len(olds) > 1:
            first = min(olds, key=lambda a: ("-" in a or "_" in a, a))
            out.update({a: new + "_lem" for a in olds if a != first})
    return out


def local(text, names):
    """The names, and for this text those of lemmas of its sections that a definition's new name would hide."""
    here = set(re.findall(r"(?m)^ +(?:pub )?([^\s:(){}.;,]+) :(?: |$)", text))
    words = set(WORD.findall(text))
    return names | {b: b + "_lem" for a, b in names.items() if a in words and b in here and b not in names}


def turn(text, names):
    """Every word of the text but those in strings."""
    parts = re.split(r'("(?:[^"\\\n]|\\.)*")', text)
    return "".join(p if i % 2 else WORD.sub(lambda m: names.get(m[0], m[0]), p) for i, p in enumerate(parts))


def regions(text):
    """Where clauses and `ghost use` items stand in a source."""
    for m in REGION.finditer(text):
        end = m.end()
        if m[0].endswith("{"):
            deep = 1
            while deep and end < len(text):
                deep += (text[end] == "{") - (text[end] == "}")
                end += 1
        yield m.start(), end


def turn_source(text, names):
    out, at = [], 0
    for start, end in regions(text):
        if start < at:
            continue
        out += [turn_spans(text[at:start], names), turn(text[start:end], names)]
        at = end
    return "".join(out) + turn_spans(text[at:], names)


def turn_spans(text, names):
    """Outside clauses only words in backquotes, and camel case, which is no Rust name."""
    camel = {a: b for a, b in names.items() if "-" not in a}
    return re.sub(r"`[^`\n]*`", lambda m: turn(m[0], names), turn(text, camel))


def main():
    check = "--check" in sys.argv[1:]
    found = declared()
    names = table(found)
    back = collections.defaultdict(list)
    for a, b in names.items():
        back[b].append(a)
    for b, olds in sorted(back.items()):
        if len(olds) > 1 or b in found:
            print("together:", b, olds, "declared already" if b in found else "")
    for path in files((".antt", ".rt")):
        text = read(path)
        words = set(WORD.findall(text))
        for a in words & set(names):
            if names[a] in words:
                print("look:", os.path.relpath(path, ROOT), a, "->", names[a], "which the file has")
    print(len(names), "names")
    if check:
        return
    for path in files((".antt", ".rt", ".edit")):
        text = read(path)
        new = turn(text, local(text, names)) if path.endswith(".antt") else turn_source(text, names) if path.endswith(".rt") else turn(text, names)
        new = new.replace(".specs.Contracts", ".specs.Promises")
        if path.endswith("/specs/Lib.antt"):
            new = re.sub(r"(?m)^pub mod Contracts$", "pub mod Promises", new)
        if new != text:
            with open(path, "w", encoding="utf-8") as f:
                f.write(new)
    for path in list(files((".antt",))):
        if path.endswith("/specs/Contracts.antt"):
            os.rename(path, path.replace("/specs/Contracts.antt", "/specs/Promises.antt"))


main()
