"""An unrelated checker: what vetting, search, gate and controller must answer, written from the rules.

It shares nothing with the library. Form tables are parsed into trees, and names are resolved by walking the tree.
Silent steps are worked off once for each state, by a search in depth, and a set's After is put together from its
states. Inclusion is decided word by word, over pairs of the sets that plan and permit are in after the word. A
controller's answers are read off the calls and answers before, with no record kept; whether a list of motions is a
trace is decided by looking for a run over it.

A certificate is a list of (STATE, SET), and a set is a frozenset.
"""
MOTIONS = 24
STATES = 64
TABLE_ROWS = 255
ROWS = 1024
MOVES = 256

END, DO, TAU, OR, REC, GO = range(6)


class Refused(Exception):
    """By the number in its argument."""


class Process:
    """The moves of each state, and the visible moves that it offers, at once or after silent steps."""

    def __init__(self, moves):
        self.moves = moves
        self.offers = [sorted(self.offered(s)) for s in range(len(moves))]

    def silently(self, state):
        found, open_ends = {state}, [state]
        while open_ends:
            for motion, target in self.moves[open_ends.pop()]:
                if motion == 0 and target not in found:
                    found.add(target)
                    open_ends.append(target)
        return found

    def offered(self, state):
        return {move for s in self.silently(state) for move in self.moves[s] if move[0] > 0}

    def offers_of(self, state):
        return self.offers[state]

    def own_moves(self, state):
        """What a state offers at once, without its silent steps."""
        return sorted({move for move in self.moves[state] if move[0] > 0})

    def after(self, states, motion):
        return frozenset(target for s in states for a, target in self.offers[s] if a == motion)

    def has_trace(self, motions):
        """Is there a run over the motions? Looked for over places (state, motions done)."""
        seen, open_ends = {(0, 0)}, [(0, 0)]
        while open_ends:
            state, done = open_ends.pop()
            if done == len(motions):
                return True
            for motion, target in self.moves[state]:
                place = (target, done) if motion == 0 else (target, done + 1)
                if motion in (0, motions[done]) and place not in seen:
                    seen.add(place)
                    open_ends.append(place)
        return False

    def moves_in_all(self):
        return sum(len(moves) for moves in self.moves)


# Vetting.

class Table:
    """A table as its maker hands it in: the process that it means, or the number of the refusal."""

    def __init__(self):
        try:
            self.process, self.refusal = Process(self.vetted()), None
        except Refused as fault:
            self.process, self.refusal = None, fault.args[0]


class RowTable(Table):
    def __init__(self, states, rows):
        self.states, self.rows = states, list(rows)
        super().__init__()

    def vetted(self):
        if not 1 <= self.states <= STATES:
            raise Refused(31)
        if len(self.rows) > TABLE_ROWS:
            raise Refused(32)
        if any(f >= self.states or t >= self.states or a > MOTIONS for f, a, t in self.rows):
            raise Refused(33)
        return [[(a, t) for f, a, t in self.rows if f == s] for s in range(self.states)]


class FormTable(Table):
    def __init__(self, records):
        self.records = [tuple(record) for record in records]
        super().__init__()

    def vetted(self):
        if not 1 <= len(self.records) <= 64:
            raise Refused(21)
        if any(kind > GO or not argument_fits(kind, argument) for kind, argument in self.records):
            raise Refused(22)
        whole = Form(self.records, 0, [])
        if whole.past != len(self.records):
            raise Refused(23)
        between = [form.bound_by()[1] for form in whole.all() if form.kind == GO]
        if not all(any(form.kind == DO for form in forms) for forms in between):
            raise Refused(25)
        return [form.moves() for form in sorted(whole.all(), key=lambda form: form.place)]


def argument_fits(kind, argument):
    return {DO: 1 <= argument <= MOTIONS, OR: True, GO: True}.get(kind, argument == 0)


class Form:
    """A form as a tree; around has the forms that it stands in, outermost first."""

    def __init__(self, records, place, around):
        if place >= len(records):
            raise Refused(23)
        self.place, self.around = place, around
        self.kind, self.argument = records[place]
        self.inner, self.past = [], place + 1
        for _ in range({END: 0, GO: 0, OR: 2}.get(self.kind, 1)):
            if self.kind == OR and self.inner and self.past != self.argument:
                raise Refused(23)
            self.inner.append(Form(records, self.past, around + [self]))
            self.past = self.inner[-1].past

    def all(self):
        return [self] + [form for inner in self.inner for form in inner.all()]

    def bound_by(self):
        for depth, form in enumerate(self.around):
            if form.kind == REC and form.place == self.argument:
                return form, self.around[depth + 1:]
        raise Refused(24)

    def moves(self):
        if self.kind == OR:
            return self.inner[0].moves() + self.inner[1].moves()
        if self.kind == GO:
            return [(0, self.bound_by()[0].inner[0].place)]
        return [(self.argument if self.kind == DO else 0, form.place) for form in self.inner]


# The search.

def missing_words(plan, permit, state=0, allowed=frozenset([0])):
    """The shortest words that the plan can do from the state and the permit not from the set: two of them if there
    are more, none if there is none."""
    level = {(frozenset([state]), allowed): [()]}
    seen = set(level)
    while level:
        missing, following = [], {}
        for (here, there), words in level.items():
            for motion in range(1, MOTIONS + 1):
                pair = (plan.after(here, motion), permit.after(there, motion))
                longer = [word + (motion,) for word in words]
                if pair[0] and not pair[1]:
                    missing += longer
                elif pair[0] and pair not in seen:
                    following[pair] = (following.get(pair, []) + longer)[:2]
        if missing:
            return missing[:2]
        seen.update(following)
        level = following
    return []


def pairs_by_length(plan, permit):
    """How many pairs of a state of the plan and a set of the permit's states are new with each length of word."""
    level = {(0, frozenset([0]))}
    seen, counts = set(level), []
    while level:
        counts.append(len(level))
        found = {(u, permit.after(states, a)) for s, states in level for a, u in plan.offers[s]}
        level = {pair for pair in found if pair[1]} - seen
        seen |= level
    return counts


def searched(plan, permit, rows, motions, count_only):
    """The answer, or None where it would depend on the order of work."""
    room = min(rows, ROWS)
    missing = missing_words(plan, permit)
    counts = pairs_by_length(plan, permit)
    if not missing:
        return "refused 41" if sum(counts) > room else "within %d" % sum(counts)
    length = len(missing[0])
    if sum(counts[:length]) > room:
        return "refused 41"
    if sum(counts[:length + 1]) > room:
        return None
    if length > motions:
        return "refused 42"
    if count_only:
        return "beyond by %d" % length
    return "beyond " + " ".join(map(str, missing[0])) if len(missing) == 1 else None


# The gate.

def fits(plan, permit, row):
    state, states = row
    return state < len(plan.moves) and len(states) > 0 and max(states) < len(permit.moves)


def lies_within(states, after):
    return states <= after


def covered(plan, permit, rows, row, offers, answers):
    state, states = row
    return all(any(s == u and answers(t, permit.after(states, a)) for s, t in rows) for a, u in offers(state))


def gate(plan, permit, rows, offers=None, answers=lies_within):
    """None, or the number and the place. With other offers, or another test of a set, it is a wrong gate."""
    offers = offers or plan.offers_of
    if not 1 <= len(rows) <= ROWS:
        return 43, 0
    for place, row in enumerate(rows):
        if not fits(plan, permit, row):
            return 44, place
    if (0, frozenset([0])) not in rows:
        return 45, 0
    distinct = list(dict.fromkeys(rows))
    uncovered = [row for row in distinct if not covered(plan, permit, distinct, row, offers, answers)]
    return (46, min(map(rows.index, uncovered))) if uncovered else None


# Histories.

class History:
    """The calls of one controller with their answers, from the factory on. A grant is None or the slip's number, a
    denial the pair of its number and its place."""

    def __init__(self):
        self.events = []

    def granted(self):
        return [event for event in self.events if not isinstance(event[2], tuple)]

    def latest(self):
        return self.granted()[-1][0] if self.granted() else None

    def running(self):
        return self.latest() in ("start", "done")

    def waiting(self):
        return self.latest() == "release"

    def admitted(self):
        return [argument for call, argument, _ in self.granted() if call == "admit"]

    def count(self):
        return len([call for call, _, _ in self.granted() if call == "release"])

    def released(self):
        motions = []
        for call, argument, _ in self.granted():
            if call == "start":
                motions = []
            elif call == "release":
                motions.append(argument)
        return motions

    def call(self, call, argument=None):
        answer = getattr(self, "answer_" + call)(argument)
        self.events.append((call, argument, answer))
        return answer

    def answer_admit(self, admission):
        plan, permit, rows = admission
        if self.running() or self.waiting():
            return 61, 0
        fault = gate(plan, permit, rows)
        if fault:
            return fault
        return (62, 0) if plan.moves_in_all() > MOVES else None

    def answer_start(self, _):
        if not self.admitted():
            return 63, 0
        return (61, 0) if self.running() or self.waiting() else None

    def answer_release(self, motion):
        if self.waiting():
            return 65, 0
        if not self.running():
            return 63, 0
        if not 1 <= motion <= MOTIONS:
            return 64, 0
        plan = self.admitted()[-1][0]
        if not plan.has_trace(self.released() + [motion]):
            return 68, 0
        return self.count() + 1

    def answer_done(self, number):
        return None if self.waiting() and number == self.count() else (66, 0)

    def answer_failed(self, number):
        return self.answer_done(number)

    def answer_rest(self, _):
        return None if self.running() or self.waiting() else (63, 0)
