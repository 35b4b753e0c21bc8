"""Random cases for the unrelated checker: tables, certificates and histories, good and spoiled."""
from collections import namedtuple

from unrelated import (DO, END, GO, MOTIONS, OR, REC, STATES, TABLE_ROWS, TAU, FormTable, History, RowTable,
                       missing_words)

# A plan and a permit, as tables, with the rows of a certificate.
Admission = namedtuple("Admission", "plan permit rows")

# The row that every certificate must have.
START = (0, frozenset([0]))


# Tables.

def random_rows(chance):
    """Rows between any states, or a path through all of them with some rows more."""
    states, top, most = chance.between(1, 7), chance.pick([1, 2, 2, 3]), 12
    rows = []
    if chance.one_in(2):
        rows, most = [(s, chance.between(0, top), s + 1) for s in range(states - 1)], 5
    rows += [(chance.below(states), chance.between(0, top), chance.below(states)) for _ in range(chance.below(most))]
    if rows and chance.one_in(6):
        rows += [chance.pick(rows)]
    if rows and chance.one_in(12):
        rows = [(f, MOTIONS if a == top else a, t) for f, a, t in rows]
    return RowTable(states, rows)


def spoiled_rows(chance, table):
    states, rows = table.states, list(table.rows)
    for _ in range(chance.between(1, 2)):
        damage = chance.below(4)
        if damage == 0:
            states = chance.pick([0, STATES, STATES + 1, 255, max(states - 1, 0)])
        elif damage == 1:
            count = chance.pick([TABLE_ROWS, TABLE_ROWS + 1])
            rows += [chance.pick(rows or [(0, 1, 0)]) for _ in range(count - len(rows))] if chance.one_in(8) else []
        elif rows:
            at, part = chance.below(len(rows)), chance.below(3)
            row = list(rows[at])
            row[part] = chance.pick([MOTIONS + 1, 255]) if part == 1 else chance.pick([states, 255])
            rows[at] = tuple(row)
    return RowTable(states, rows)


def spread(chance, table):
    """The same rows over 64 states: the states are renumbered, the first stays."""
    names = [0] + chance.mixed(range(1, STATES))
    if chance.one_in(2):
        last = names.index(STATES - 1)
        names[1], names[last] = names[last], names[1]
    return RowTable(STATES, [(names[f], a, names[t]) for f, a, t in table.rows])


def tree(chance, depth, deepest, recs):
    """A random term: recs has the names of the recs around it, each with whether a do stands between."""
    kinds = [DO, DO, DO, DO, TAU, OR, OR, REC] if depth < deepest else []
    kinds += [END] if depth > 2 or not kinds else []
    kinds += [GO, GO] if recs and (depth > 2 or not kinds) else []
    kind = chance.pick(kinds)
    if kind == DO:
        inner = tree(chance, depth + 1, deepest, [(name, True) for name, _ in recs])
        return DO, chance.pick([1, 1, 2, 2, 3, MOTIONS] if chance.one_in(4) else [1, 2, 3]), inner
    if kind == TAU:
        return TAU, tree(chance, depth + 1, deepest, recs)
    if kind == OR:
        return OR, tree(chance, depth + 1, deepest, recs), tree(chance, depth + 1, deepest, recs)
    if kind == REC:
        name = len(recs)
        return REC, name, tree(chance, depth + 1, deepest, recs + [(name, False)])
    if kind == GO:
        guarded = [name for name, between in recs if between]
        return GO, chance.pick(guarded if guarded and not chance.one_in(20) else [name for name, _ in recs])
    return (END,)


def flat(term, records, recs):
    """Writes the term's records at the end of the list."""
    kind, place = term[0], len(records)
    records.append((kind, 0))
    if kind == DO:
        records[place] = (DO, term[1])
    elif kind == GO:
        records[place] = (GO, recs[term[1]])
    elif kind == OR:
        flat(term[1], records, recs)
        records[place] = (OR, len(records))
    if kind == REC:
        recs = recs + [place]
    if kind in (DO, TAU, OR, REC):
        flat(term[-1], records, recs)
    return records


def random_forms(chance, deepest=5):
    return FormTable(flat(tree(chance, 0, deepest, []), [], []))


def spoiled_forms(chance, table):
    records = [list(record) for record in table.records]
    for _ in range(chance.pick([1, 1, 2])):
        damage, at = chance.below(8), chance.below(len(records))
        if damage == 0:
            records[at][0] = chance.between(0, 7)
        elif damage < 3:
            records[at][1] = chance.between(0, len(records))
        elif damage == 3:
            records[at][1] = chance.pick([MOTIONS + 1, records[at][1] + 256, 65535])
        elif damage == 4 and len(records) > 1:
            records.pop(at)
        elif damage == 5:
            records.insert(at, [chance.pick([END, DO, TAU, REC]), chance.below(2)])
        elif damage == 6:
            records = [] if chance.one_in(2) else [[TAU, 0]] * chance.pick([62, 63, 64, 65]) + [[END, 0]]
            break
        else:
            records[at] = [GO, chance.below(len(records))]
    return FormTable(records)


def good_table(chance):
    while True:
        table = random_forms(chance, chance.pick([5, 7, 9])) if chance.one_in(2) else random_rows(chance)
        if chance.one_in(12) and isinstance(table, RowTable):
            table = spread(chance, table)
        if table.process:
            return table


def near(chance, table):
    """A row table like a good one: rows are dropped, sent elsewhere, added, or led through a silent step."""
    states = len(table.process.moves)
    rows = [(s, a, t) for s, moves in enumerate(table.process.moves) for a, t in moves]
    for _ in range(chance.below(4)):
        change = chance.below(5)
        at = chance.below(len(rows)) if rows else None
        if rows and change == 0:
            rows.pop(at)
        elif rows and change == 1:
            rows[at] = (rows[at][0], rows[at][1], chance.below(states))
        elif rows and change == 2:
            rows.append((rows[at][0], rows[at][1], chance.below(states)))
        elif change == 3:
            rows.append((chance.below(states), chance.below(4), chance.below(states)))
        elif rows and states < STATES:
            f, a, t = rows[at]
            rows[at] = (f, a, states)
            rows.append((states, 0, t))
            states += 1
    return RowTable(states, rows[:TABLE_ROWS])


def permit_for(chance, plan):
    if chance.one_in(3):
        return good_table(chance)
    return spread(chance, near(chance, plan)) if chance.one_in(8) else near(chance, plan)


def ring(states, tail=0):
    """State follows state by motion 1, for ever; the first so many are passed only once."""
    last = states - 1
    return RowTable(states, [(s, 1, s + 1) for s in range(last)] + [(last, 1, tail)])


def chain(states):
    """State follows state silently, and only the last has a motion."""
    last = states - 1
    return RowTable(states, [(s, 0, s + 1) for s in range(last)] + [(last, 1, 0)])


def form_chain():
    return FormTable([(TAU, 0)] * 62 + [(DO, 1), (END, 0)])


def crowded(chance, moves):
    """A form table with so many moves in all, and one with a step in front and so one move more: choices within
    choices, with some steps in front."""
    def choices(count):
        if count == 1:
            return chance.pick([(GO, 0), (GO, 0), (GO, 0), (DO, chance.between(1, 3), (GO, 0)), (END,)])
        left = chance.between(1, min(count - 1, 2))
        parts = choices(left), choices(count - left)
        return (OR,) + (parts if chance.one_in(2) else parts[::-1])

    def longer(term):
        return (DO, chance.between(1, 3), term) if chance.one_in(2) else (TAU, term)

    while True:
        term = (REC, 0, (DO, 1, choices(chance.between(18, 24))))
        missing = moves - FormTable(flat(term, [], [])).process.moves_in_all()
        for _ in range(missing):
            term = longer(term)
        tables = FormTable(flat(term, [], [])), FormTable(flat(longer(term), [], []))
        if missing >= 0 and tables[1].process:
            return tables


def edge_tables():
    """Tables at the edge of a test, or at fault in two ways, and what vetting says of them: None or the number."""
    step, tau, end = (0, 1, 0), (TAU, 0), (END, 0)
    for states, rows, told in ((STATES, [(63, MOTIONS, 63)], None), (STATES + 1, [], 31), (0, [], 31), (255, [], 31),
                               (1, [step] * TABLE_ROWS, None), (1, [step] * (TABLE_ROWS + 1), 32),
                               (0, [step] * (TABLE_ROWS + 1), 31), (1, [(0, 1, 1)] * (TABLE_ROWS + 1), 32),
                               (2, [step, (2, 1, 0)], 33), (2, [(0, 1, 2), step], 33), (2, [(0, MOTIONS + 1, 0)], 33),
                               (1, [], None), (1, [(0, 0, 0)], None)):
        yield RowTable(states, rows), told
    for records, told in (([], 21), ([tau] * 63 + [end], None), ([tau] * 64 + [end], 21), ([end], None),
                          ([(END, 1)], 22), ([(DO, 0), end], 22), ([(DO, MOTIONS), end], None),
                          ([(DO, MOTIONS + 1), end], 22), ([(DO, 257), end], 22), ([(TAU, 1), end], 22),
                          ([(REC, 1), end], 22), ([(6, 0)], 22), ([(255, 0)], 22), ([tau, (6, 0), end], 22),
                          ([tau], 23), ([end, end], 23), ([(OR, 2), end, end], None), ([(OR, 258), end, end], 23),
                          ([(OR, 1), end, end], 23), ([(OR, 3), end, end], 23), ([(OR, 2), end], 23),
                          ([(GO, 0)], 24), ([(REC, 0), (DO, 1), (GO, 0)], None), ([(REC, 0), (DO, 1), (GO, 256)], 24),
                          ([(REC, 0), (DO, 1), (GO, 1)], 24), ([(REC, 0), (DO, 1), (GO, 2)], 24),
                          ([(OR, 2), (REC, 0), end, (DO, 1), (GO, 1)], 23),
                          ([(OR, 3), (REC, 0), end, (DO, 1), (GO, 1)], 24), ([(REC, 0), (GO, 0)], 25),
                          ([(REC, 0), tau, (GO, 0)], 25), ([(DO, 1), (REC, 0), (GO, 1)], 25),
                          ([(REC, 0), (OR, 4), (DO, 1), (GO, 0), (GO, 0)], 25),
                          ([(REC, 0), (OR, 3), (GO, 0), (GO, 9)], 24), ([(REC, 0), (DO, 1), (REC, 0), (GO, 0)], None),
                          ([(REC, 0), (DO, 1), (REC, 0), (GO, 2)], 25)):
        yield FormTable(records), told


def features(process):
    """What a process has of the things that must occur."""
    reached, silent = {0}, [(s, t) for s, moves in enumerate(process.moves) for a, t in moves if a == 0]
    for _ in process.moves:
        reached |= {t for s in reached for _, t in process.moves[s]}
    if any(s in process.silently(t) for s, t in silent):
        yield "silent loop"
    if any(len(set(moves)) < len(moves) for moves in process.moves):
        yield "repeat"
    if len(reached) < len(process.moves):
        yield "unreachable state"


# Certificates.

def worked(plan, permit, offers, chosen):
    """The rows found from (0, {0}) by working rows: chosen picks the set of the row that answers a move."""
    rows = [START]
    for state, states in rows:
        for motion, target in offers(state):
            after = permit.after(states, motion)
            row = (target, chosen(target, after))
            if after and row not in rows:
                rows.append(row)
    return rows


def whole(_, after):
    return after


def closed(permit):
    """Picks all that After reaches silently, which is more than After."""
    return lambda _, after: frozenset(t for s in after for t in permit.silently(s))


def some_of(chance, plan, permit):
    """Picks a part of After that still allows all that the plan does from the target."""
    picked = {}

    def chosen(target, after):
        if (target, after) not in picked:
            part = frozenset(s for s in sorted(after) if chance.one_in(2))
            fine = part and not missing_words(plan, permit, target, part)
            picked[target, after] = part if fine else after
        return picked[target, after]
    return chosen


def spoiled(chance, admission):
    """With one or two rows dropped, changed or added."""
    plan, permit, rows = admission
    rows = list(rows)
    for _ in range(chance.pick([1, 1, 1, 2])):
        if rows:
            spoil(chance, len(plan.process.moves), len(permit.process.moves), rows)
    return Admission(plan, permit, rows)


def spoil(chance, plan_states, permit_states, rows):
    """Changes the rows once."""
    damage, at = chance.below(9), chance.below(len(rows))
    state, states = rows[at]
    if damage == 0:
        rows.pop(at)
    elif damage == 1:
        rows[at] = (chance.pick([plan_states, 255]), states)
    elif damage == 2:
        rows[at] = (state, frozenset())
    elif damage == 3:
        rows[at] = (state, states | {min(permit_states, STATES - 1), STATES - 1 - chance.below(2)})
    elif damage == 4:
        rows[at] = (state, states | {chance.below(permit_states)})
    elif damage == 5 and states:
        rows[at] = (state, frozenset([chance.pick(sorted(states))]))
    elif damage == 6:
        rows[at] = (chance.below(plan_states), states)
    elif damage == 7:
        rows.insert(at, (chance.below(plan_states), frozenset([chance.below(permit_states)])))
    else:
        rows[:] = [row for row in rows if row != START]


def good_admission(chance):
    """A certificate that is accepted: with whole sets or parts of them, in any order."""
    while True:
        plan = good_table(chance)
        permit = permit_for(chance, plan)
        if permit.refusal or missing_words(plan.process, permit.process):
            continue
        chosen = some_of(chance, plan.process, permit.process) if chance.one_in(2) else whole
        rows = worked(plan.process, permit.process, plan.process.offers_of, chosen)
        if len(rows) > 40 or (len(rows) < 3 and not chance.one_in(10)):
            continue
        return Admission(plan, permit, chance.mixed(rows) if chance.one_in(2) else rows)


# Histories.

class Play:
    """Calls on some controllers with their answers, and the slips that are out, oldest first."""

    def __init__(self, admissions, controllers):
        self.admissions = admissions
        self.histories = [History() for _ in range(controllers)]
        self.out = []
        self.calls, self.answers = [], []
        self.seen = []

    def call(self, call, who, argument=0):
        history, given = self.histories[who], argument
        if call == "admit":
            plan, permit, rows = self.admissions[argument]
            given = (plan.process, permit.process, rows)
        elif call in ("done", "failed"):
            giver, given = self.out.pop(argument)
            self.note(who, giver, given)
        answer = history.call(call, given)
        if call == "release" and isinstance(answer, int):
            self.out.append((who, answer))
        self.calls.append((call, who, argument))
        self.answers.append((call, answer))

    def note(self, who, giver, number):
        """Which kind of slip is handed in here."""
        history = self.histories[who]
        fits = history.waiting() and number == history.count()
        if giver != who:
            self.seen.append("foreign slip taken" if fits else "foreign slip refused")
        elif not fits and number == history.count():
            self.seen.append("slip after rest")
        elif not fits and history.waiting():
            self.seen.append("old slip in a later run")

    def hand_back(self, chance):
        while self.out:
            self.call(chance.pick(["done", "failed"]), chance.below(len(self.histories)), chance.below(len(self.out)))


def next_motion(chance, history):
    """A motion that mostly goes on with the plan."""
    if history.admitted() and chance.happens(0.75):
        plan = history.admitted()[-1][0]
        fine = [m for m in range(1, MOTIONS + 1) if plan.has_trace(history.released() + [m])]
        if fine:
            return chance.pick(fine)
    return chance.pick([0, 1, 2, 3, 4, MOTIONS, MOTIONS + 1, 255])


def likely(chance, history):
    """A call that is mostly granted."""
    if history.waiting():
        return chance.pick(["done", "done", "done", "failed", "rest"])
    if history.running():
        return chance.pick(["release", "release", "release", "release", "release", "rest"])
    return chance.pick(["start", "start", "admit"]) if history.admitted() else "admit"


def random_play(chance, admissions, controllers, length):
    play = Play(admissions, controllers)
    for _ in range(length):
        who = chance.below(controllers)
        history = play.histories[who]
        call = chance.pick(["admit", "start", "release", "done", "failed", "rest", "release"])
        if chance.happens(0.7):
            call = likely(chance, history)
        if call == "admit":
            play.call(call, who, chance.below(len(admissions)))
        elif call == "release":
            play.call(call, who, next_motion(chance, history))
        elif call in ("start", "rest"):
            play.call(call, who)
        elif play.out:
            play.call(call, who, len(play.out) - 1 if chance.happens(0.6) else chance.below(len(play.out)))
    play.hand_back(chance)
    return play


def crowd_play(chance, admissions):
    """The second admission is tried before the first and after it; then comes the third."""
    play = Play(admissions, 1)
    for which in (1, 0, 1, 2):
        play.call("admit", 0, which)
        play.call("start", 0)
        for _ in range(6):
            play.call("release", 0, next_motion(chance, play.histories[0]))
            if play.out:
                play.call("done", 0, 0)
        play.call("rest", 0)
    return play
