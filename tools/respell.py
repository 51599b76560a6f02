#!/usr/bin/env python3
"""Spells the names of definitions and lemmas as Rattle's library does: words in snake case.

usage: tools/respell.py [--list] [--check]        at the top of the repository

A definition such as freshRun becomes fresh_run, and a lemma or a field such as fresh-sound becomes fresh_sound.
Names of goals, which Rattle makes (returns-2, loop-again-3), keep their dashes, and so do the names of std.
It rewrites .antt files below specs/ and proofs/, clauses and comments of .rt files, must-fail edits, and the names
between backquotes in README.md and docs/. Functions of src/, exported names, strings, inputs and outputs stay.
It stops where two names of a file would fall together. A second run changes nothing.
"""

import collections
import glob
import re
import sys

TOKEN = re.compile(r"\"(?:[^\"\\\n]|\\.)*\"|--(?:[^\n]*)|[^\s(){}.,;\"«»\[\]|@`]+")
DECLARED = re.compile(r"^\s*(?:(?:abbrev|unfoldable|pub|opaque)\s+)*([^\s(){}.,;:\"`]+)\s*:\s")
RECORD_FIELD = re.compile(r"([^\s(){}.,;:\"`]+)\s*:\s")
CAMEL = re.compile(r"[a-z][a-z0-9]*(?:[A-Z][A-Za-z0-9]*)+[′']*$")
KEBAB = re.compile(r"[a-z][A-Za-z0-9_]*(?:-[A-Za-z0-9_]+)+[′'₂]*$")
GOAL = re.compile(r"\btie\.(?:Need|Goal)-|\bgoal\.|\btie\.spec\b")
# A law that would fall together with the definition that it is about takes another word.
OWN = {
    "is-running": "says_running",
    "at-row": "at_row_when_due",
    "held-operation": "held_operation_within",
    "held-counter": "held_counter_within",
    "none-heard": "none_heard_is",
    "one-by": "one_by_rest",
    "two-by": "two_by_rest",
    "record-at": "record_here",
    "wrong-length": "wrong_length_says",
    "call-events": "call_events_are",
    "lent-call-events": "lent_call_events_are",
    "lent-numbers": "lent_numbers_are",
    "no-header": "no_header_said",
    "digits-by": "digits_by_are",
}
# The same where the law was in snake case before: a name, the definition that takes it, and where.
MOVES = [
    ("made_by", "madeBy", "crates/desk_lists/proofs/**/*.antt", r"(?<![\w.-])made_by(?![\w-])", "made_by_list"),
    ("none_lent", "noneLent", "crates/desk*/proofs/**/*.antt", r"(?<= as )none_lent(?![\w-])|(?<![\w.-])none_lent(?=\.)", "none_lent_call"),
]


def snake(name):
    if CAMEL.match(name):
        return re.sub(r"([A-Z])", lambda m: "_" + m.group(1).lower(), name)
    return name.replace("-", "_")


def antt_files():
    return sorted(
        p
        for part in ("specs", "proofs")
        for p in glob.glob(f"crates/*/{part}/**/*.antt", recursive=True)
    )


def read(path):
    with open(path, encoding="utf-8") as f:
        return f.read()


def own_modules():
    return {p.split("/")[1] for p in glob.glob("crates/*/src")}


def names():
    """The names to respell, each with its new spelling."""
    crates = own_modules()
    declared, goals, foreign = collections.Counter(), set(), collections.defaultdict(set)
    for path in antt_files():
        for line in read(path).splitlines():
            if line.lstrip().startswith("--"):
                continue
            use = re.match(r"\s*(?:pub )?use ([^{]*?)\.?\{(.*)\}", line)
            if use:
                for it in re.findall(r" as (\S+?)(?=[,}\s])", use[2] + "}"):
                    declared[it] += 1
                top = use[1].split(".")
                if not (top[0] == "Rattle" and len(top) > 1 and top[1] in crates):
                    for it in use[2].split(","):
                        foreign[it.split(" as ")[0].strip()].add(path)
                continue
            if re.match(r"\s*(?:pub )?use ", line):
                continue
            m = DECLARED.match(line)
            if m:
                if GOAL.search(line):
                    goals.add(m[1])
                else:
                    declared[m[1]] += 1
    for path in glob.glob("crates/*/src/**/*.rt", recursive=True):
        for it in re.findall(r"(?m)^ghost use .*$", read(path)):
            declared.update(re.findall(r" as (\S+?)(?=[,};])", it))
    to = {}
    for it in declared:
        if it in goals or it in foreign:
            continue
        if CAMEL.match(it) or KEBAB.match(it):
            to[it] = OWN.get(it, snake(it))
    return to, declared, goals, foreign


def turned(text, to):
    def one(m):
        word = m.group(0)
        if word.startswith('"'):
            return word
        if word.startswith("--"):
            return spans(word, to)
        return to.get(word, word)

    return TOKEN.sub(one, text)


def spans(text, to):
    """Names between backquotes, and names in camel case anywhere."""

    def inside(m):
        return "`" + re.sub(r"[^\s(){}.,;\"«»\[\]|@`:/]+", lambda w: to.get(w.group(0), w.group(0)), m.group(1)) + "`"

    text = re.sub(r"`([^`\n]*)`", inside, text)
    return re.sub(r"(?<![\w-])[a-z][a-z0-9]*(?:[A-Z]\w*)+(?![\w-])", lambda w: to.get(w.group(0), w.group(0)), text)


def turned_rust(text, to):
    camel = {k: v for k, v in to.items() if CAMEL.match(k)}
    out = []
    for line in text.split("\n"):
        code, mark, said = line.partition("//")
        code = re.sub(r"\"(?:[^\"\\]|\\.)*\"|(?<![\w-])[a-z][a-z0-9]*(?:[A-Z]\w*)+'*(?![\w-])", lambda w: camel.get(w.group(0), w.group(0)), code)
        out.append(code + mark + (spans(said, to) if mark else ""))
    return "\n".join(out)


def collisions(path, text, to):
    seen = collections.defaultdict(set)
    text = re.sub(r"(?m)--.*$", "", text)
    # The modules of a path are names of files and of functions of src/.
    text = re.sub(r"(?m)^(\s*(?:pub )?use )[^{\s]*", r"\1", text)
    text = re.sub(r"[\w-]+(?:\.[\w-]+)*\.(?=Tie|Lts|Goals|Reads|Met|Statement)", "", text)
    for m in TOKEN.finditer(text):
        word = m.group(0)
        # A field that Rattle makes of a call, as c.number_at, is no name of the file's.
        if m.start() and text[m.start() - 1] == ".":
            continue
        seen[to.get(word, word)].add(word)
    return [(path, new, sorted(olds)) for new, olds in seen.items() if len(olds) > 1]


def main():
    to, declared, goals, foreign = names()
    if "--list" in sys.argv:
        for k in sorted(to):
            print(k, to[k])
        return 0
    bad = []
    new = {}
    moved = [
        (set(glob.glob(where, recursive=True)), pattern, word)
        for _, taken, where, pattern, word in MOVES
        if taken in declared
    ]
    for path in antt_files():
        text = read(path)
        for where, pattern, word in moved:
            text = re.sub(pattern, word, text) if path in where else text
        bad += collisions(path, text, to)
        new[path] = turned(text, to)
    # One spelling, two declared names in different files: said, since a reader may take one for the other.
    by = collections.defaultdict(set)
    for it in declared:
        by[to.get(it, it)].add(it)
    for it, olds in sorted(by.items()):
        if len(olds) > 1:
            print("look:", it, "stands for", ", ".join(sorted(olds)))
    for it in sorted(set(to) & goals):
        print("look: a goal has the name too:", it)
    for it in sorted(set(declared) & set(foreign)):
        if CAMEL.match(it) or KEBAB.match(it):
            print("look: std has the name too, it stays:", it, sorted(foreign[it])[:2])
    for it in bad:
        print("bad:", *it)
    if bad:
        return 1
    for path in sorted(glob.glob("crates/*/src/**/*.rt", recursive=True)):
        new[path] = turned_rust(read(path), to)
    # Pages and edits may speak of a name that an earlier script has already turned.
    pages = dict(to)
    for it in declared:
        for old in (re.sub(r"_(\w)", lambda m: m.group(1).upper(), it), it.replace("_", "-")):
            if old != it and old not in declared and old not in foreign:
                pages.setdefault(old, to.get(it, it))
    for path in sorted(glob.glob("crates/*/must-fail/*")):
        new[path] = "\n".join(
            (spans(l, pages) if l.startswith("#") else turned(l, pages)) for l in read(path).split("\n")
        )
    for path in ["README.md"] + sorted(glob.glob("docs/**/*.md", recursive=True)):
        if path != "docs/PORT.md":
            new[path] = "\n".join(spans_only(l, pages) for l in read(path).split("\n"))
    for path, text in new.items():
        if text != read(path) and "--check" not in sys.argv:
            with open(path, "w", encoding="utf-8") as f:
                f.write(text)
            print(path)
    return 0


def spans_only(line, to):
    def inside(m):
        span = m.group(1)
        if "/" in span and " " not in span:
            return m.group(0)
        return "`" + re.sub(r"[^\s(){}.,;\"«»\[\]|@`:/]+", lambda w: to.get(w.group(0), w.group(0)), span) + "`"

    return re.sub(r"`([^`\n]*)`", inside, line)


if __name__ == "__main__":
    sys.exit(main())
