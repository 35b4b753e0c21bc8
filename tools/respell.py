#!/usr/bin/env python3
"""Brings the repository's own definitions and lemmas to one spelling: words in snake case, types in camel case.

    tools/respell.py             changes specs/, proofs/, src/ and must-fail edits, word by word, and docs between backquotes
    tools/respell.py --list      only prints the names, old and new, and those that would fall together

Only names that specs/, proofs/ or a ghost member of src/ declare are respelled. Names that Rattle makes (goals,
invariants, branches) and names of the library stay as they are.
"""
import collections
import glob
import os
import re
import subprocess
import sys

NAME = r"[A-Za-z][A-Za-z0-9_'\-]*"
LEFT, RIGHT = r"(?<![A-Za-z0-9_'\-])", r"(?![A-Za-z0-9_'\-])"
DECLARED = re.compile(r"^\s*((?:(?:abbrev|unfoldable|pub|data|record)\s+)*)(" + NAME + r")(?:\s+[({][^)}]*[)}]|\s+" + NAME + r")*\s*:\s(.*)")
MADE = re.compile(r"\b(goal|given|need)\.")

# Names that would fall together with another, a definition and a lemma about it mostly.
CHOSEN = {
    "by-class": "by_class_lettered", "closeOf": "closing_of", "guarded-at": "all_guarded_at", "is-at": "is_at_some",
    "is-do": "form_is_do", "isKnown": "is_known_motion", "is-rec": "form_is_rec", "letters-at": "letters_there", "stray-at": "stray_anywhere",
    "motion-of": "motion_of_word", "moves-at": "moves_there", "pastBy": "past_with", "past-in": "past_in_flat",
    "first_of": "begun_with", "plan-of": "plan_of_text", "some-row": "any_row", "targetAt": "go_target_at", "work-moves": "moves_work",
}

# Names that the pattern below does not see: declared over several lines, brought in under another name, or local.
MORE = """strayAt anAdmit aStart aRest aRelease aFailed aDone termSize shownWith rowsMeaning offersOf offersFrom idleProc
    formsMeaning allowedRecord moves-answered""".split()


def texts(*patterns):
    for pattern in patterns:
        for path in sorted(glob.glob(pattern, recursive=True)):
            with open(path) as f:
                yield path, f.read()


def antt_files():
    return texts("crates/*/specs/**/*.antt", "crates/*/proofs/**/*.antt")


def declared():
    names = set(MORE)
    for path, text in antt_files():
        for line in text.split("\n"):
            m = DECLARED.match(line)
            if m and not MADE.search(m.group(3)) and m.group(2) not in ("let", "use", "where", "module", "elim", "in"):
                names.add(m.group(2))
    for path, text in texts("crates/*/src/**/*.rt"):
        names.update(re.findall(r"^\s*ghost (?:invariant )?(" + NAME + r"):", text, re.M))
    return names


def made():
    """Names that Rattle makes: goals that are answered, and branches that are brought in from Goals."""
    names = set()
    for path, text in antt_files():
        names.update(re.findall(r"\b(?:goal|given|need)\.(" + NAME + ")", text))
        for group in re.findall(r"use Rattle\.\S+\.(?:Goals|Given|Needs)\.\{([^}]*)\}", text):
            names.update(x.strip() for x in group.split(","))
    return names


def library():
    names = set()
    start = subprocess.run(["rt", "doc"], capture_output=True, text=True, check=True).stdout.strip()
    for top in ("std", "core", "std_alloc", "std_heap", "std_io", "std_collections", "io", "borrow", "logic", "antt"):
        for path, text in texts(os.path.join(os.path.dirname(start), "rattle", top, "**", "*.antt")):
            names.update(re.findall(r"^\s*(?:(?:abbrev|unfoldable|pub|data|record)\s+)*(" + NAME + r")(?:\s+[({][^)}]*[)}])*\s*:\s", text, re.M))
    return names


def respelt(name):
    if name in CHOSEN:
        return CHOSEN[name]
    if name[0].isupper():
        parts = re.split("[-_]", name)
        return "".join(p[0].upper() + p[1:] for p in parts if p) if len(parts) > 1 else name
    return re.sub(r"([a-z0-9])([A-Z])", lambda m: m.group(1) + "_" + m.group(2).lower(), name).replace("-", "_")


def mapping():
    names, kept = declared(), made()
    return {n: respelt(n) for n in names if n not in kept and respelt(n) != n}


def main():
    change = mapping()
    own = declared()
    falls = collections.defaultdict(set)
    for n in own:
        falls[change.get(n, n)].add(n)
    for new, olds in sorted(falls.items()):
        if len(olds) > 1:
            print("fall together:", " ".join(sorted(olds)), "->", new)
    lib = library()
    for n in sorted(set(change) & lib):
        print("the library has it too:", n)
    word = re.compile(LEFT + "(" + "|".join(sorted(map(re.escape, change), key=len, reverse=True)) + ")" + RIGHT)
    for path, text in antt_files():
        there = set(re.findall(LEFT + "(" + NAME + ")" + RIGHT, text))
        for old in sorted(there & set(change)):
            if change[old] in there:
                print("stands there already:", path, old, change[old])
    if "--list" in sys.argv:
        for old in sorted(change):
            print(old, change[old])
        return
    for path, text in list(antt_files()) + list(texts("crates/*/src/**/*.rt", "crates/*/must-fail/*.edit")):
        new = word.sub(lambda m: change[m.group(1)], text)
        if new != text:
            with open(path, "w") as f:
                f.write(new)
    for path, text in texts("README.md", "docs/*.md"):
        new = re.sub(r"`[^`\n]*`", lambda m: word.sub(lambda w: change[w.group(1)], m.group(0)), text)
        if new != text:
            with open(path, "w") as f:
                f.write(new)


main()
