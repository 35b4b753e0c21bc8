#!/usr/bin/env python3
"""Cases for the program comparison, with the answers of an unrelated checker.

    tools/comparison.py            writes crates/comparison/stdin and crates/comparison/stdout
    tools/comparison.py --check    only says whether that is what stands there

The checker is unrelated.py, the cases are made by cases.py. A line of the input is one of

    vet TABLE
    search ROWS MOTIONS PLAN PERMIT          the lengths of the two lists, then two tables
    count ROWS MOTIONS PLAN PERMIT           the same, where there are several shortest traces that the permit lacks
    gate PLAN PERMIT CERTIFICATE
    history ADMISSIONS (PLAN PERMIT CERTIFICATE).. CALLS (CALL CONTROLLER ARGUMENT)..

in numbers: a table is 0 STATES ROWS (FROM MOTION TO).. or 1 RECORDS (KIND ARGUMENT).., a certificate ROWS (STATE SET
BACK BY).., and the calls are 0 admit, 1 start, 2 release, 3 done, 4 failed, 5 rest. The argument is the admission, the
motion, or which of the slips that are out, oldest first; slips of all controllers of a line are out together.

Every refusal that these calls can give is asked for by name below, and the script fails if one is not met. The one
left out is 67, which takes 4,294,967,295 releases.
"""
import sys

sys.dont_write_bytecode = True

import cases
from cases import Admission, Play, good_admission, good_table, permit_for, random_play, ring, worked
from stored import Chance, settle
from unrelated import MOVES, ROWS, TABLE_ROWS, RowTable, gate, missing_words, searched

CALLS = ("admit", "start", "release", "done", "failed", "rest")


class Book:
    """The lines and their answers, and how often each thing that must occur did."""

    def __init__(self):
        self.lines, self.answers, self.met = [], [], {}

    def add(self, line, answer):
        self.lines.append(line)
        self.answers.append(answer)

    def meet(self, thing):
        self.met[thing] = self.met.get(thing, 0) + 1

    def meet_features(self, kind, table):
        for feature in cases.features(table.process) if table.process else ():
            self.meet(kind + " " + feature)

    def wants(self, wanted, kind, thing):
        return self.met.get(kind + " " + thing, 0) < wanted[thing]

    def short_of(self, wanted, kind):
        return any(self.wants(wanted, kind, thing) for thing in wanted)

    def demand(self, least):
        lacking = ["%s: %d of %d" % (thing, self.met.get(thing, 0), n)
                   for thing, n in least.items() if self.met.get(thing, 0) < n]
        if lacking:
            sys.exit("comparison.py: too few cases of\n  " + "\n  ".join(lacking))


# How things are written.

def joined(numbers):
    return " ".join(map(str, numbers))


def table_line(table):
    if isinstance(table, RowTable):
        return joined([0, table.states, len(table.rows)] + [x for row in table.rows for x in row])
    return joined([1, len(table.records)] + [x for record in table.records for x in record])


def admission_line(chance, admission):
    plan, permit, rows = admission
    return "%s %s %s" % (table_line(plan), table_line(permit), certificate_line(chance, rows))


def certificate_line(chance, rows):
    """Back and by are not looked at, so they are anything."""
    marked = len(rows) < 100
    parts = [len(rows)]
    for state, states in rows:
        back, by = (chance.below(65536), chance.below(256)) if marked and chance.one_in(4) else (0, 0)
        parts += [state, sum(1 << s for s in states), back, by]
    return joined(parts)


def answer_word(call, answer):
    if isinstance(answer, tuple):
        return "no %d %d" % answer
    return "slip %d" % answer if call == "release" else "ok"


# Vetting.

VET = {"rows": 120, "forms": 160, "21": 12, "22": 60, "23": 60, "24": 60, "25": 60, "31": 24, "32": 6, "33": 50}


def vetting_thing(table):
    if table.refusal:
        return str(table.refusal)
    return "rows" if isinstance(table, RowTable) else "forms"


def vetting_answer(table):
    """What the vetted table then means; after a refusal it has one state and no moves."""
    if table.refusal:
        return "refused %d, vetted 1 |" % table.refusal
    states = [" |" + "".join(" %d>%d" % move for move in moves) for moves in table.process.moves]
    return "vetted %d%s" % (len(states), "".join(states))


def edges(book):
    for table, told in cases.edge_tables():
        if table.refusal != told:
            sys.exit("comparison.py: an edge is answered by %s in the place of %s" % (table.refusal, told))
        book.add("vet " + table_line(table), vetting_answer(table))


def vetting(chance, book):
    while book.short_of(VET, "vet"):
        if chance.one_in(2):
            table = cases.random_forms(chance, chance.pick([3, 5, 7]))
            table = cases.spoiled_forms(chance, table) if chance.one_in(2) else table
        else:
            table = cases.random_rows(chance)
            table = cases.spoiled_rows(chance, table) if chance.one_in(2) else table
        if book.wants(VET, "vet", vetting_thing(table)):
            book.meet("vet " + vetting_thing(table))
            book.meet_features("vet", table)
            book.add("vet " + table_line(table), vetting_answer(table))


# The search.

SEARCH = {"within": 250, "beyond": 250, "beyond by": 100, "41": 90, "41 beyond": 60, "42": 90, "plan": 30,
          "permit": 30}


def random_table(chance):
    return cases.random_forms(chance) if chance.one_in(2) else cases.random_rows(chance)


def search_case(chance):
    plan = good_table(chance) if chance.happens(0.95) else random_table(chance)
    permit = permit_for(chance, plan) if plan.process and chance.happens(0.95) else random_table(chance)
    if chance.one_in(2):
        return 64, 64, plan, permit
    return chance.pick([0, 1, 2, 3, 4, 6, 8, 12, 24, 1024, 1025]), chance.pick([0, 1, 2, 3, 4, 64]), plan, permit


def search_answer(rows, motions, plan, permit, count_only):
    if plan.refusal:
        return "plan %d" % plan.refusal
    if permit.refusal:
        return "permit %d" % permit.refusal
    return searched(plan.process, permit.process, rows, motions, count_only)


def search_told(answer):
    """The answer, what the gate says of the certificate, and what the lists hold: of 41 and 42, nothing."""
    words = answer.split()
    if words[0] == "within":
        return "%s accepted, %s rows 0 motions" % (answer, words[1])
    if words[0] == "beyond":
        return "%s, 0 rows %d motions" % (answer, int(words[2]) if words[1] == "by" else len(words) - 1)
    return answer + ", 0 rows 0 motions" if words[0] == "refused" else answer


def search_thing(answer, plan, permit):
    """What a case shows."""
    words = answer.split()
    if answer == "refused 41":
        return "41 beyond" if missing_words(plan.process, permit.process) else "41"
    if words[0] == "refused":
        return words[1]
    return "beyond by" if words[1] == "by" else words[0]


def dull(answer):
    """Answers that random tables give by the score."""
    words = answer.split()
    if words[0] == "beyond":
        return answer == "beyond by 1" if words[1] == "by" else len(words) < 4
    return answer in ("within 1", "within 2")


def add_search(book, rows, motions, plan, permit, answer, kind="search"):
    book.add("%s %d %d %s %s" % (kind, rows, motions, table_line(plan), table_line(permit)), search_told(answer))


def searches(chance, book):
    while book.short_of(SEARCH, "search"):
        case = search_case(chance)
        exact = search_answer(*case, False)
        answer = exact or search_answer(*case, True)
        if answer is None or dull(answer) and not chance.one_in(20):
            continue
        thing = search_thing(answer, *case[2:])
        if book.wants(SEARCH, "search", thing):
            book.meet("search " + thing)
            book.meet_features("search", case[3])
            add_search(book, *case, answer, "search" if exact else "count")


def long_searches(book):
    """Rings whose rows are as many as a list holds, or one more."""
    permit = ring(33)
    for tail, rows, told in ((0, 1023, "within 1023"), (0, 1022, "refused 41"), (1, 1024, "within 1024"),
                             (1, 2000, "within 1024"), (2, 1025, "refused 41"), (2, 2000, "refused 41")):
        case = rows, 8, ring(31 + tail, tail), permit
        if search_answer(*case, False) != told:
            sys.exit("comparison.py: a ring is not answered by " + told)
        add_search(book, *case, told)


# The gate.

GATE = {"accepted": 150, "accepted, a set within After": 60, "accepted, the first row later": 60, "44": 120,
        "44 later": 60, "45": 80, "46": 120, "46 later": 80, "46, contains After": 50, "46, own state worked": 50,
        "43": 12}


def judged(admission, **wrong):
    return gate(admission.plan.process, admission.permit.process, admission.rows, **wrong)


def gate_thing(admission):
    """What a case shows: what the gate says, and which wrong gate would say otherwise."""
    fault = judged(admission)
    if fault is None:
        if judged(admission, answers=lambda states, after: states == after):
            return "accepted, a set within After"
        return "accepted" if admission.rows[0] == cases.START else "accepted, the first row later"
    if fault[0] == 46 and not judged(admission, answers=lambda states, after: states >= after):
        return "46, contains After"
    if fault[0] == 46 and not judged(admission, offers=admission.plan.process.own_moves):
        return "46, own state worked"
    return str(fault[0]) + (" later" if fault[1] else "")


def wrongly_worked(chance):
    """Rows found with a mistake or two: only a row's own state is worked, sets are closed under silent steps, or the
    plan is not within the permit at all."""
    plan = good_table(chance)
    permit = permit_for(chance, plan)
    if permit.refusal:
        return wrongly_worked(chance)
    offers = plan.process.own_moves if chance.one_in(2) else plan.process.offers_of
    chosen = cases.closed(permit.process) if chance.one_in(2) else cases.whole
    rows = worked(plan.process, permit.process, offers, chosen)
    return Admission(plan, permit, chance.mixed(rows) if chance.one_in(2) else rows)


def add_gate(chance, book, admission):
    fault = judged(admission)
    book.add("gate " + admission_line(chance, admission), "refused %d %d" % fault if fault else "accepted")


def gates(chance, book):
    while book.short_of(GATE, "gate"):
        admission = good_admission(chance) if chance.one_in(2) else wrongly_worked(chance)
        if chance.happens(0.6):
            admission = cases.spoiled(chance, admission)
        if chance.one_in(60):
            admission = admission._replace(rows=[])
        thing = gate_thing(admission)
        if book.wants(GATE, "gate", thing) and (3 <= len(admission.rows) <= 60 or chance.one_in(6)):
            book.meet("gate " + thing)
            add_gate(chance, book, admission)
            if thing.startswith("accepted") and any(63 in states for _, states in admission.rows):
                book.meet("gate accepted, with state 63")


def long_gates(chance, book):
    """Certificates of 1,024 rows and about that."""
    plan, permit = ring(32, 1), ring(33)
    rows = worked(plan.process, permit.process, plan.process.offers_of, cases.whole)
    most = rows[:-1]
    for made, told in ((rows, None), (rows + rows[:1], (43, 0)), (rows[1:] + rows[:1], None), (most, (46, ROWS - 2)),
                       (rows[1:], (45, 0)), (most + [(32, frozenset([0]))], (44, ROWS - 1)),
                       (most + [(31, frozenset([32]))], (46, ROWS - 2)),
                       (rows[:1] * (ROWS - 1) + rows[1:2], (46, ROWS - 1)), (rows[:1] * (ROWS + 1), (43, 0))):
        admission = Admission(plan, permit, made)
        if judged(admission) != told:
            sys.exit("comparison.py: a long certificate is not answered by %s" % (told,))
        add_gate(chance, book, admission)


# Histories.

HISTORIES = 500

# What must occur at least so often, besides what is counted above.
LEAST = {"vet silent loop": 20, "vet repeat": 20, "vet unreachable state": 50, "search silent loop": 100,
         "search repeat": 50, "search unreachable state": 100, "gate accepted, with state 63": 5,
         "history 43": 20, "history 44": 30, "history 44 later": 50, "history 45": 50, "history 46": 30,
         "history 46 later": 50, "history 61": 200, "history 62": 16, "history 63": 200, "history 64": 200,
         "history 65": 150, "history 66": 200, "history 68": 200, "history slip": 1000, "foreign slip taken": 50,
         "foreign slip refused": 100, "slip after rest": 80, "old slip in a later run": 50}


def add_play(chance, book, play):
    parts = [str(len(play.admissions))] + [admission_line(chance, admission) for admission in play.admissions]
    parts.append(joined([len(play.calls)] + [x for call, who, argument in play.calls
                                             for x in (CALLS.index(call), who, argument)]))
    book.add("history " + " ".join(parts), ", ".join(answer_word(call, answer) for call, answer in play.answers))
    for call, answer in play.answers:
        if isinstance(answer, tuple):
            book.meet("history %d" % answer[0] + (" later" if answer[1] else ""))
        elif call == "release":
            book.meet("history slip")
    for thing in play.seen:
        book.meet(thing)


def some_admission(chance):
    admission = good_admission(chance)
    if chance.one_in(30):
        return admission._replace(rows=[])
    return cases.spoiled(chance, admission) if chance.one_in(2) else admission


def histories(chance, book):
    for _ in range(HISTORIES):
        admissions = [good_admission(chance)] + [some_admission(chance) for _ in range(chance.below(4))]
        add_play(chance, book, random_play(chance, admissions, chance.pick([1, 1, 2, 3]), chance.between(12, 40)))


def certified(plan, permit):
    return Admission(plan, permit, worked(plan.process, permit.process, plan.process.offers_of, cases.whole))


def crowds(chance, book):
    """Plans with 256 moves in all, and with one more: only the first are admitted. They are certified within
    themselves, or within a permit that allows everything."""
    anything = RowTable(1, [(0, motion, 0) for motion in (1, 2, 3)])
    full = certified(RowTable(64, [(s % 64, 1 + s % 3, (s + 1) % 64) for s in range(TABLE_ROWS)]), anything)
    for turn in range(8):
        plans = cases.crowded(chance, MOVES)
        play = cases.crowd_play(chance, [certified(plan, anything if turn % 2 else plan) for plan in plans] + [full])
        admitted = [answer for call, answer in play.answers if call == "admit"]
        if admitted != [(62, 0), None, (62, 0), None]:
            sys.exit("comparison.py: plans with 257, 256, 257 and 255 moves are answered by %s" % admitted)
        add_play(chance, book, play)


def chains(chance, book):
    """Silent steps in a row, as many as there can be, before the one motion."""
    once, never = RowTable(2, [(0, 1, 1)]), RowTable(1, [])
    for table in (cases.chain(2), cases.chain(3), cases.chain(64), cases.form_chain()):
        for plan, permit, told in ((table, never, "beyond 1"), (once, table, "within 2")):
            case = 64, 64, plan, permit
            if search_answer(*case, False) != told:
                sys.exit("comparison.py: a chain is not answered by " + told)
            add_search(book, *case, told)
        for admission in (certified(once, table), certified(table, table), Admission(table, never, [cases.START])):
            add_gate(chance, book, admission)
        play = Play([certified(table, table)], 1)
        for call, argument in (("admit", 0), ("start", 0), ("release", 1), ("done", 0), ("release", 2), ("rest", 0)):
            play.call(call, 0, argument)
        add_play(chance, book, play)


def main():
    chance, book = Chance(20261118), Book()
    edges(book)
    vetting(chance, book)
    searches(chance, book)
    long_searches(book)
    gates(chance, book)
    long_gates(chance, book)
    histories(chance, book)
    crowds(chance, book)
    chains(chance, book)
    book.demand(LEAST)
    settle("comparison", book.lines, book.answers)


if __name__ == "__main__":
    main()
