#!/usr/bin/env python3
"""Respells this repository's own definitions and lemmas as today's Rattle does: run once, at the top, after the kit's port/port.py.

usage: python3 tools/respell.py           rewrites crates/*/{specs,proofs}/**/*.antt, crates/*/src/*.rt (contracts) and README.md, docs/GUARANTEES.md, docs/DECISIONS.md, docs/changes/
       python3 tools/respell.py --list    prints each old name and its new one

Words are in snake case (alarmLine: alarm_line). A definition, a field and a constructor have no dash. The proof of a function f is
f_spec. A lemma keeps a dash that joins two names (length-drop), and has _ for any other. Functions of src/, types, modules, strings,
inputs and outputs keep their names.
"""

import os
import re
import sys

WORD = re.compile(r"[A-Za-z_\u0370-\u03ff\u2080-\u2089◌][\w'\u2080-\u2089◌-]*")
SIGNATURE = re.compile(r"^\s*(?:(?:abbrev|unfoldable|pub) )*([a-z\u03bc][\w'-]*)((?: [a-z][\w'-]*)*) : ")
ALIAS = re.compile(r" as ([a-z][\w'-]*)")
CAMEL = re.compile(r"^[a-z\u03bc][a-z0-9]*[A-Z]|^[a-z][\w'-]*[a-z0-9][A-Z]")

# what would fall together with another name of its file, or whose fields would: a lemma with its function's name gets _lem
CHOSEN = {
    "crates/guarantees/specs/Guarantees.antt": {"power-on": "at_power_on", "reset-pin": "at_reset_pin", "reset-frame": "at_reset_frame"},
    "crates/guarantees/proofs/ZeroCopy.antt": {"power-on": "at_power_on", "reset-pin": "at_reset_pin", "reset-frame": "at_reset_frame"},
    "crates/guarantees/proofs/EveryAnswer.antt": {"word_below": "word_below_lem"},
    "crates/guarantees/proofs/Memory.antt": {"one_more": "one_more_lem"},
    "crates/playback/proofs/Blocks.antt": {"in_blocks": "in_blocks_lem"},
}
ALWAYS = {"power-on": "power_on", "reset-pin": "reset_pin", "reset-frame": "reset_frame"}


def texts(root, ending):
    for folder, dirs, files in os.walk(os.path.join(root, "crates")):
        dirs[:] = sorted(d for d in dirs if d not in ("out", ".git"))
        for f in sorted(files):
            if f.endswith(ending):
                yield os.path.join(folder, f)


def read(path):
    with open(path, encoding="utf-8") as f:
        return f.read()


def snake(name):
    parts = []
    for part in name.split("-"):
        if part[:1].islower():
            part = re.sub(r"(?<=[a-z0-9'])([A-Z])", lambda m: "_" + m.group(1).lower(), part)
        parts.append(part)
    return "-".join(parts)


def declared(root):
    """Each declared name: the files that declare it."""
    names = {}
    for p in texts(root, ".antt"):
        for line in read(p).split("\n"):
            if line.lstrip().startswith("--"):
                continue
            m = SIGNATURE.match(line)
            if m:
                for n in [m.group(1), *m.group(2).split()]:
                    names.setdefault(n, set()).add(p)
            if line.startswith("use "):
                for n in ALIAS.findall(line):
                    names.setdefault(n, set()).add(p)
    return names


def mapping(root):
    names = declared(root)
    functions = set()
    for p in texts(root, ".rt"):
        functions |= set(re.findall(r"\bfn ([a-z_0-9]+)", read(p)))
    words = {snake(n) for n in names if any("/specs/" in p for p in names[n]) and "-" not in n}
    words |= {"append", "length", "set", "bit", "or", "and", "map", "take", "drop"}
    taken = set(names)
    new = {}
    for n in sorted(names):
        want = snake(n)
        if want.endswith("-spec") and want[:-5].replace("-", "_") in functions:
            want = want.replace("-", "_")
        elif "-" in want:
            if any("/specs/" in p for p in names[n]):
                want = want.replace("-", "_")
            else:
                parts = want.split("-")
                joined = parts[0]
                for part in parts[1:]:
                    joined += ("-" if joined in words and part in words else "_") + part
                want = joined
        if want != n:
            new[n] = want
    # names that would fall together keep what tells them apart
    for n in sorted(new):
        if "-" not in n:
            continue
        others = [m for m in taken if m != n and new.get(m, m) == new[n]]
        if others:
            new[n] = snake(n)
    new.update(ALWAYS)
    return {n: w for n, w in new.items() if n != w and not n.startswith(("invariant-loop", "decreases-"))}


def comment_at(line):
    """Where a line's comment begins."""
    m = re.search(r"(?:^|\s)--(?:\s|$)", line)
    return m.start() if m else len(line)


def antt(text, new):
    out = []
    for line in text.split("\n"):
        at = comment_at(line)
        code = WORD.sub(lambda m: new.get(m.group(0), m.group(0)), line[:at])
        said = re.sub(r"[A-Za-z][\w']*", lambda m: new.get(m.group(0), m.group(0)), line[at:])
        out.append(code + said)
    return "\n".join(out)


def source(text, new):
    """Contracts, imports and comments: the code has no such names; strings stay."""
    parts = re.split(r'("(?:[^"\\]|\\.)*")', text)
    for i in range(0, len(parts), 2):
        parts[i] = re.sub(r"[A-Za-z][\w']*", lambda m: new.get(m.group(0), m.group(0)), parts[i])
    return "".join(parts)


def page(text, new):
    """Names between backticks."""
    done = set(new.values())

    def turned(m):
        name = m.group(0)
        if name in new:
            return new[name]
        for other in (snake(name), name.replace("-", "_")):
            if other != name and other in done | PORTED and name not in PORTED:
                return other
        return name

    parts = re.split(r"(`[^`\n]*`)", text)
    for i in range(1, len(parts), 2):
        parts[i] = WORD.sub(turned, parts[i])
    return "".join(parts)


# what port.py had respelled already
PORTED = set()


def main():
    root = os.getcwd()
    new = mapping(root)
    PORTED.update(declared(root))
    if "--list" in sys.argv:
        for n in sorted(new):
            print(n, new[n])
        return 0
    for ending, turn in ((".antt", antt), (".rt", source)):
        for p in texts(root, ending):
            old = read(p)
            words = set(WORD.findall("\n".join(l[: comment_at(l)] for l in old.split("\n"))))
            for n in sorted(words & set(new)):
                if new[n] in words and ending == ".antt":
                    print(f"look: {os.path.relpath(p, root)}: {n} becomes {new[n]}, a name that stands there")
            with open(p, "w", encoding="utf-8") as f:
                f.write(turn(old, new | CHOSEN.get(os.path.relpath(p, root), {})))
    for p in ("README.md", "docs/GUARANTEES.md", "docs/DECISIONS.md", "docs/changes/P01.md", "docs/changes/P02.md", "docs/changes/P03.md"):
        old = read(p)
        with open(p, "w", encoding="utf-8") as f:
            f.write(page(old, new))
    return 0


if __name__ == "__main__":
    raise SystemExit(main())
