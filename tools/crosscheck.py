#!/usr/bin/env python3
"""An unrelated checker: writes random small cases and their answers for the program crosscheck.

    tools/crosscheck.py        writes crates/crosscheck/stdin and crates/crosscheck/stdout

It shares nothing with the library. Form tables are parsed into trees, and names are resolved by walking the tree.
Inclusion is decided word by word over pairs of sets (the plan's and the permit's states after the word), and the rows
of a certificate are counted as a least fixed point, not listed. A case beyond the permit is kept only if its
shortest trace that the permit lacks is the only one, so that the answer does not depend on any order of work.

A line of the input: the lengths of the lists for rows and motions, the plan, the permit; a table is
0 STATES ROWS (FROM MOTION TO).. or 1 RECORDS (KIND ARGUMENT)..
"""
import os
import random

MOTIONS = 24


class Refused(Exception):
    pass


def row_process(states, rows):
    if states == 0 or states > 64:
        raise Refused(31)
    if len(rows) > 255:
        raise Refused(32)
    if any(f >= states or t >= states or a > MOTIONS for f, a, t in rows):
        raise Refused(33)
    return [[(a, t) for f, a, t in rows if f == s] for s in range(states)]


def parse(records, at):
    """The tree of the form at a place, and the rest; a missing record or a wrong right-hand place is 23."""
    if at >= len(records):
        raise Refused(23)
    kind, argument = records[at]
    inner = []
    after = at + 1
    if kind in (1, 2, 4):
        tree, after = parse(records, after)
        inner = [tree]
    elif kind == 3:
        left, after = parse(records, after)
        if after != argument:
            raise Refused(23)
        right, after = parse(records, after)
        inner = [left, right]
    return {"place": at, "kind": kind, "argument": argument, "inner": inner}, after


def walk(tree, around):
    yield tree, around
    for t in tree["inner"]:
        yield from walk(t, around + [tree])


def form_process(records):
    if not 1 <= len(records) <= 64:
        raise Refused(21)
    for kind, argument in records:
        if kind > 5 or (kind in (0, 2, 4) and argument != 0) or (kind == 1 and not 1 <= argument <= MOTIONS):
            raise Refused(22)
    tree, after = parse(records, 0)
    if after != len(records):
        raise Refused(23)
    nodes = list(walk(tree, []))
    named = {}
    for node, around in nodes:
        if node["kind"] == 5:
            recs = [t for t in around if t["kind"] == 4 and t["place"] == node["argument"]]
            if not recs:
                raise Refused(24)
            named[node["place"]] = recs[0]
    for node, around in nodes:
        if node["kind"] == 5:
            below = around[around.index(named[node["place"]]) + 1:]
            if not any(t["kind"] == 1 for t in below):
                raise Refused(25)

    def moves(node):
        kind = node["kind"]
        if kind == 0:
            return []
        if kind == 5:
            return [(0, named[node["place"]]["inner"][0]["place"])]
        if kind == 3:
            return moves(node["inner"][0]) + moves(node["inner"][1])
        return [(node["argument"] if kind == 1 else 0, node["inner"][0]["place"])]

    process = [None] * len(records)
    for node, _ in nodes:
        process[node["place"]] = moves(node)
    return process


def process_of(table):
    return row_process(table[1], table[2]) if table[0] == 0 else form_process(table[1])


def closure(process, states):
    seen = set(states)
    while True:
        more = {t for s in seen for a, t in process[s] if a == 0} - seen
        if not more:
            return frozenset(seen)
        seen |= more


def after(process, states, motion):
    return frozenset(t for s in closure(process, states) for a, t in process[s] if a == motion)


def shortest_missing(plan, permit):
    """The shortest words that the plan can do and the permit cannot; None where there is none."""
    level = {(frozenset([0]), frozenset([0])): [[]]}
    seen = set(level)
    while level:
        missing = []
        following = {}
        for (p, q), words in level.items():
            for motion in range(1, MOTIONS + 1):
                p2 = after(plan, p, motion)
                if not p2:
                    continue
                q2 = after(permit, q, motion)
                longer = [w + [motion] for w in words]
                if not q2:
                    missing += longer
                elif (p2, q2) not in seen:
                    following.setdefault((p2, q2), []).extend(longer[:2])
        if missing:
            return missing
        seen |= set(following)
        level = following
    return None


def certificate_size(plan, permit):
    """How many pairs of a state of the plan and an After set of the permit there are: a least fixed point."""
    pairs = {(0, frozenset([0]))}
    while True:
        more = set()
        for s, states in pairs:
            for v in closure(plan, {s}):
                for a, u in plan[v]:
                    if a:
                        more.add((u, after(permit, states, a)))
        if more <= pairs:
            return len(pairs)
        pairs |= more


def answer(rows, motions, plan_table, permit_table):
    try:
        plan = process_of(plan_table)
    except Refused as fault:
        return "plan %d" % fault.args[0]
    try:
        permit = process_of(permit_table)
    except Refused as fault:
        return "permit %d" % fault.args[0]
    missing = shortest_missing(plan, permit)
    if missing is None:
        size = certificate_size(plan, permit)
        return "refused 41" if size > min(rows, 1024) else "within %d" % size
    if len(missing) != 1 or rows < 64:
        return None
    if len(missing[0]) > motions:
        return "refused 42"
    return "beyond " + " ".join(map(str, missing[0]))


def random_rows(rng):
    states = rng.randint(1, 5)
    top = rng.choice([1, 2, 2, 3])
    rows = [(rng.randrange(states), rng.randint(0, top), rng.randrange(states)) for _ in range(rng.randint(0, 11))]
    if rng.random() < 0.08:
        states = rng.choice([0, 65, max(states - 1, 0)])
    if rows and rng.random() < 0.05:
        rows[0] = (rows[0][0], 25, rows[0][2])
    return (0, states, rows)


def near_rows(rng, table):
    """A row table like another: some rows are dropped, sent elsewhere or doubled."""
    if table[0] == 1:
        try:
            process = form_process(table[1])
        except Refused:
            return random_rows(rng)
        table = (0, len(process), [(s, a, t) for s, moves in enumerate(process) for a, t in moves])
    states, rows = max(table[1], 1), list(table[2])
    for _ in range(rng.randint(0, 2)):
        if rows:
            at = rng.randrange(len(rows))
            change = rng.randrange(3)
            if change == 0:
                rows.pop(at)
            elif change == 1:
                rows[at] = (rows[at][0], rows[at][1], rng.randrange(states))
            else:
                rows.append((rng.randrange(states), rows[at][1], rows[at][2]))
    return (0, states, rows)


def random_form(rng, records, depth, recs):
    at = len(records)
    choices = [1, 1, 1, 2, 3, 4]
    if depth > 4:
        choices = [0]
    if recs:
        choices += [5, 5, 5]
    if depth:
        choices += [0]
    kind = rng.choice(choices)
    records.append([kind, 0])
    if kind == 1:
        records[at][1] = rng.randint(1, 3)
        random_form(rng, records, depth + 1, recs)
    elif kind == 2:
        random_form(rng, records, depth + 1, recs)
    elif kind == 3:
        random_form(rng, records, depth + 1, recs)
        records[at][1] = len(records)
        random_form(rng, records, depth + 1, recs)
    elif kind == 4:
        random_form(rng, records, depth + 1, recs + [at])
    elif kind == 5:
        records[at][1] = rng.choice(recs)


def random_forms(rng):
    records = []
    random_form(rng, records, 0, [])
    if rng.random() < 0.15:
        spoiled = rng.choice(records)
        spoiled[rng.randrange(2)] = rng.randint(0, 7)
    if rng.random() < 0.04:
        records.pop()
    return (1, [tuple(r) for r in records])


def written(table):
    if table[0] == 0:
        numbers = [0, table[1], len(table[2])] + [x for row in table[2] for x in row]
    else:
        numbers = [1, len(table[1])] + [x for record in table[1] for x in record]
    return " ".join(map(str, numbers))


def dull(told):
    """Answers that random tables give by the score."""
    return told in ("within 1", "within 2", "plan 25", "permit 25") or (told.startswith("beyond") and len(told.split()) < 4)


def main():
    rng = random.Random(20261117)
    wanted = {"within": 150, "beyond": 150, "refused": 40, "plan": 60, "permit": 30}
    lines, answers = [], []
    while any(wanted.values()):
        plan = random_forms(rng) if rng.random() < 0.5 else random_rows(rng)
        if rng.random() < 0.6:
            permit = near_rows(rng, plan)
        else:
            permit = random_forms(rng) if rng.random() < 0.5 else random_rows(rng)
        rows = rng.choice([64, 256, 1024, 1, 2, 3, 0])
        motions = rng.choice([64, 64, 2, 1, 0])
        told = answer(rows, motions, plan, permit)
        if told is None or not wanted[told.split()[0]]:
            continue
        if dull(told) and rng.random() < 0.95:
            continue
        wanted[told.split()[0]] -= 1
        lines.append("%d %d %s %s" % (rows, motions, written(plan), written(permit)))
        answers.append(told)
    top = os.path.join(os.path.dirname(os.path.abspath(__file__)), "..", "crates", "crosscheck")
    with open(os.path.join(top, "stdin"), "w") as out:
        out.write("\n".join(lines) + "\n")
    with open(os.path.join(top, "stdout"), "w") as out:
        out.write("\n".join(answers) + "\n")


if __name__ == "__main__":
    main()
