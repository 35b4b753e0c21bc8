#!/usr/bin/env python3
"""An unrelated reader of plan texts: writes cases and their answers for the program texts.

    tools/texts.py            writes crates/texts/stdin and crates/texts/stdout
    tools/texts.py --check    only says whether that is what stands there

It shares nothing with the library: all tokens are made first, by a regular expression, and the plan is then read with
a stack of open forms, not by recursion.

A line of the input: the length of the record list, a space, the text; a bar stands for a line feed. A line of the
output: the name, the count and every record of the list, or refused, the number, the place and every record.
"""
import re
import sys

sys.dont_write_bytecode = True

from stored import Chance, settle

NAMES = ("fwd rev slowfwd slowrev halt lift lower grip drop scan count enter leave dock undock park wake charge "
         "uncharge horn lampon lampoff zero report").split()
FORMS = {"end": 0, "do": 1, "tau": 2, "or": 3, "rec": 4, "go": 5}
INNER = {"end": 0, "do": 1, "tau": 1, "or": 2, "rec": 1, "go": 0}


class Fault(Exception):
    pass


def tokens(text):
    """The tokens with their places; a byte that is not allowed, or a word that is too long, is one called bad."""
    for m in re.finditer(r"[()]|[a-z0-9]+|[^ \n]", text):
        word = m.group()
        if word in "()":
            yield word, None, m.start()
        elif re.fullmatch(r"[a-z0-9]{1,8}", word):
            yield "word", word, m.start()
        else:
            yield "bad", word, m.start()
    yield "end", None, len(text)


def read(text, room):
    if len(text) > 16384:
        raise Fault(11, 0)
    stream = tokens(text)

    def take(kind):
        found, word, place = next(stream)
        if found == "bad":
            raise Fault(12, place)
        if found != kind:
            raise Fault(13, place)
        return word, place

    take("(")
    word, place = take("word")
    if word != "plan":
        raise Fault(13, place)
    name, _ = take("word")
    records = []
    frames = [{"form": "plan", "left": 1}]
    while frames:
        top = frames[-1]
        if top["left"] == 0:
            take(")")
            frames.pop()
            if frames:
                frames[-1]["left"] -= 1
                if frames[-1]["form"] == "or" and frames[-1]["left"] == 1:
                    records[frames[-1]["at"]][1] = len(records)
            continue
        take("(")
        form, place = take("word")
        if form not in FORMS:
            raise Fault(13, place)
        if len(records) >= 64:
            raise Fault(17, place)
        if len(records) >= room:
            raise Fault(51, place)
        frame = {"form": form, "left": INNER[form], "at": len(records)}
        records.append([FORMS[form], 0])
        if form in ("do", "rec", "go"):
            word, place = take("word")
            if form == "do":
                if word not in NAMES:
                    raise Fault(14, place)
                records[-1][1] = NAMES.index(word) + 1
            elif form == "rec":
                frame["name"] = word
            else:
                bound = [k for k, f in enumerate(frames) if f["form"] == "rec" and f["name"] == word]
                if not bound:
                    raise Fault(15, place)
                if not any(f["form"] == "do" for f in frames[bound[-1] + 1:]):
                    raise Fault(16, place)
                records[-1][1] = frames[bound[-1]]["at"]
        frames.append(frame)
    take("end")
    return name, records


def answer(text, room):
    try:
        name, records = read(text, room)
        line = "%s %d" % (name, len(records))
    except Fault as fault:
        records = []
        line = "refused %d %d" % fault.args
    return line + "".join(" %d %d" % tuple(r) for r in records) + " 0 0" * (room - len(records))


def fixed():
    """Cases that say something each."""
    a1 = "(plan a1 (rec x (do enter (do fwd (do leave (go x))))))"
    yield a1, 8
    yield "(plan plan (rec do (do enter (go do))))", 8
    yield "(plan fwd (rec fwd (do fwd (go fwd))))", 8
    yield "(plan g (rec x (do fwd (rec x (do rev (go x))))))", 8
    yield "(plan g (rec x (do fwd (rec x (go x)))))", 8
    yield "(plan g (rec x (do fwd (rec y (go x)))))", 8
    yield "(plan o (or (do fwd (end)) (or (tau (end)) (do rev (end)))))", 16
    yield "(plan a(end))", 4
    yield "|||( plan | a |(end ) ) | ", 4
    for room in (0, 1, 4, 5, 6):
        yield a1, room
    yield "(plan longname (end))", 2
    yield "(plan longnames (end))", 2
    yield "(plan a (rec longnames (end)))", 4
    yield "(plan a (do uncharge (end)))", 4
    yield "(plan a (do uncharged (end)))", 4
    for forms in (63, 64, 65):
        yield "(plan n " + "(tau " * (forms - 1) + "(end)" + ")" * forms, 70
        yield "(plan n " + "(or (end) " * ((forms - 1) // 2) + "(end)" + ")" * ((forms - 1) // 2) + ")", 70
    yield "(plan n " + "(tau " * 64 + "(end)" + ")" * 65, 64
    yield "(plan n " + "(tau " * 63 + "(end)" + ")" * 64, 63
    yield "(plan a (end))" + " " * (16384 - 14), 2
    yield "(plan a (end))" + " " * (16385 - 14), 2
    yield " " * 16384, 1
    yield " " * 16385, 1
    yield "!" * 16385, 1
    yield " " * 16370 + "(plan a (end))", 2
    for text in ("", " ", ")", "(", "plan", "(plan", "(plan a", "(plan a (", "(plan a (end", "(plan a (end)", "(plan a (end)))",
                 "(plan a (end)) x", "(plan a (end)) (", "(plan (end))", "(end)", "(plan a end)", "(plan a b (end))", "(plan a ())",
                 "(plan a (stop))", "(plan a (plan))", "(plan a (end (end)))", "(plan a (do))", "(plan a (do fwd))",
                 "(plan a (do fwd (end) (end)))", "(plan a (or (end)))", "(plan a (or (end) (end) (end)))", "(plan a (go))",
                 "(plan a (go (end)))", "(plan a (rec (end)))", "(plan a (rec x))", "(plan a (tau))", "(plan a (do (fwd) (end)))",
                 "!", "(!", "(plan a! (end))", "(plan a (end))!", "(plan a (end)", "(Plan a (end))", "(plan a (do Fwd (end)))",
                 "(plan a (end))\t", "(plan a_b (end))", "(plan a (do jump (end)))", "(plan a (tau (do jum (end))))",
                 "(plan a (do fwd (do x (end))))", "(plan a (go x))", "(plan a (do fwd (go a)))", "(plan a (rec x (do fwd (go y))))",
                 "(plan a (or (rec x (end)) (do fwd (go x))))", "(plan a (rec x (go x)))", "(plan a (rec x (tau (go x))))",
                 "(plan a (do fwd (rec x (or (end) (go x)))))", "(plan a (rec x (or (do fwd (end)) (go x))))"):
        yield text, 8


def random_text(chance):
    """A plan, or something near one: tokens are dropped, doubled or changed."""
    pool = ["(", ")", "end", "do", "tau", "or", "rec", "go", "fwd", "rev", "x", "y", "plan", "jump"]

    def term(depth):
        form = chance.pick(["end", "do", "do", "tau", "or", "rec", "go", "go"] if depth < 5 else ["end", "go"])
        if form == "do":
            return ["(", "do", chance.pick(["fwd", "rev", "lift", "report"])] + term(depth + 1) + [")"]
        if form == "tau":
            return ["(", "tau"] + term(depth + 1) + [")"]
        if form == "or":
            return ["(", "or"] + term(depth + 1) + term(depth + 1) + [")"]
        if form == "rec":
            return ["(", "rec", chance.pick("xy")] + term(depth + 1) + [")"]
        if form == "go":
            return ["(", "go", chance.pick("xy"), ")"]
        return ["(", "end", ")"]

    words = ["(", "plan", "p"] + term(0) + [")"]
    if chance.happens(0.4):
        at = chance.below(len(words))
        change = chance.below(3)
        if change == 0:
            words.pop(at)
        elif change == 1:
            words.insert(at, chance.pick(pool))
        else:
            words[at] = chance.pick(pool + ["?", "ninechars9"])
    text = ""
    for w in words:
        text += w + chance.pick(["", " ", " ", "  ", "|"] if w in "()" else [" ", " ", "|"])
    return text


def main():
    chance = Chance(20261118)
    cases = list(fixed()) + [(random_text(chance), chance.pick([0, 2, 5, 16, 16, 16])) for _ in range(400)]
    settle("texts", ["%d %s" % (room, text) for text, room in cases],
           [answer(text.replace("|", "\n"), room) for text, room in cases])


if __name__ == "__main__":
    main()
