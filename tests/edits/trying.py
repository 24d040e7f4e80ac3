"""Tries a crate's edits, many in a check.

A function's proof rests on the contracts of what it calls, and not on their bodies. So edits of bodies
go into one check, a round, in copies of their functions. What can't be copied, or isn't refused so,
goes into a round with edits of other functions, each in its place. Each edited function has to have a
goal of its own that isn't proved. What a round leaves in doubt, as a function that calls another one
of the round, is tried again without that one, then alone, and then by a check of the whole crate. Each
check begins with what one without an edit kept, the seed, in which the edited functions have to be
proved, or nothing counts; where rt ci proves the crate, too, what they call."""
import os
import shutil
import tempfile
import time

from edit import applied
from planting import Planting
from room import (
    CALLED, Room, goals_in, is_misread, judged, judged_error, judged_whole, linked, listing
)

VERDICTS = ("refused", "names", "unread", "doubt", "proved")
OPEN = ("doubt", "proved")  # of these an edit is tried again


class Rounds:
    """Which edits may stand in one check."""

    def __init__(self, reach):
        self.reach, self.learned = reach, {}

    def learn(self, edit):
        """Keeps what a check said that an edited function calls."""
        if edit.verdict == "doubt":
            for symbol in edit.symbols:
                self.learned.setdefault(symbol, set()).update(CALLED.findall(edit.said))

    def clash(self, one, other):
        """Whether a function of one is that of the other, or reaches it."""
        reaches = lambda it, of: of in self.reach.get(it, ()) or of in self.learned.get(it, ())
        return any(a == b or reaches(a, b) or reaches(b, a) for a in one.symbols for b in other.symbols)

    def of(self, edits, texts):
        """The edits in rounds, each with the texts that it makes: first those of the functions that
        have the most edits, since each of them needs a round."""
        count = {}
        for it in edits:
            count[it.symbols[0]] = count.get(it.symbols[0], 0) + 1
        left, rounds = list(edits), []
        while left:
            left.sort(key=lambda it: -count[it.symbols[0]])
            now, rest, made = [], [], dict(texts)
            for it in left:
                clash = any(self.clash(it, other) for other in now)
                tried = None if clash else applied(it.pairs, made)
                if tried is None:
                    rest.append(it)
                else:
                    made, now = tried, [*now, it]
                    count[it.symbols[0]] -= 1
            rounds.append((now, {path: text for path, text in made.items() if text != texts[path]}))
            left = rest
        return rounds


class Trying:
    """A crate's edits that are being tried, in a room of their own."""

    def __init__(self, crate, edits, reach, room, say, log):
        self.crate, self.edits, self.room, self.say, self.log = crate, edits, room, say, log
        self.texts = {path: text for it in edits for path, text in it.texts.items()}
        self.planting, self.rounds, self.wholes, self.tried = Planting(crate), Rounds(reach), [], set()

    def run(self):
        began = time.monotonic()
        many = [it for it in self.edits if it.symbols and not it.verdict]
        self.wholes = [it for it in self.edits if not it.symbols and not it.verdict]
        self.in_copies(many)
        many = [it for it in many if not it.verdict]
        self.in_rounds(many)
        self.in_rounds([it for it in many if it.verdict in OPEN])
        for it in many:
            if it.verdict in OPEN:
                self.alone(it)
        for it in self.wholes:
            status, said, took = self.room.check(it.made(), log=self.log)
            it.verdict, it.said = (
                judged_error(status, said, it.errors) if it.errors else judged_whole(status, said, it.texts)
            )
            it.goals = goals_in(said)
            self.say(f"{it.key}: by a check of the whole crate: {it.verdict}, {took:.0f} s")
        for it in self.edits:
            if it.verdict == "names":
                it.verdict = "BAD EDIT"
                it.said = f"only a proof file names what it took away: {it.said}"
        took = time.monotonic() - began
        self.say(f"{self.crate.name}: {len(self.edits)} edits in {self.room.checks} checks, {took:.0f} s")

    def in_copies(self, edits):
        """Tries edits in copies of their functions, by halves where none of them is refused: one may be
        no code. What isn't refused has no verdict then."""
        now, made = [], {}
        for number, it in enumerate(edits):
            copy = self.planting.plant(it, number, made)
            now += [(it, copy)] if copy else []
        if now and not self.judge_copies(now, made) and len(now) > 1:
            self.in_copies([it for it, _ in now[: len(now) // 2]])
            self.in_copies([it for it, _ in now[len(now) // 2 :]])

    def judge_copies(self, now, made):
        """One check of copies; how many were refused."""
        copies = [copy for _, copy in now]
        _, said, took = self.room.check(made, copies, self.log)
        found = judged(said, copies, [path for path in made if not path.startswith("proofs/")])
        for it, copy in now:
            goals = goals_in(said, [copy])
            if found[copy][0] == "refused" and goals and not is_misread(said, copy):
                it.verdict, it.said = found[copy]
                it.goals = {(it.symbols[0], goal) for _, goal in goals}
        refused = sum(it.verdict == "refused" for it, _ in now)
        self.say(f"{self.crate.name}: a round of {len(now)} copies, {refused} refused, {took:.0f} s")
        return refused

    def in_rounds(self, edits):
        """Tries edits in rounds, but for a round that was tried before."""
        for now, made in self.rounds.of(edits, self.texts):
            keys = frozenset(it.key for it in now)
            if keys in self.tried or (len(now) == 1 and now[0].verdict):
                continue
            self.tried.add(keys)
            self.judge(now, made)

    def judge(self, now, made):
        """One check of some edits at once."""
        symbols = [symbol for it in now for symbol in it.symbols]
        _, said, took = self.room.check(made, symbols, self.log)
        found = judged(said, symbols, made)
        for it in now:
            # Of an edit of several functions one has to be refused.
            of = [found[symbol] for symbol in it.symbols]
            first = {v: (v, why) for v, why in reversed(of)}
            it.verdict, it.said = next(first[v] for v in VERDICTS if v in first)
            if it.verdict == "unread":
                it.verdict = "doubt" if len(now) > 1 else "BAD EDIT"
            it.goals = goals_in(said, it.symbols)
            self.rounds.learn(it)
        refused = sum(it.verdict == "refused" for it in now)
        self.say(f"{self.crate.name}: a round of {len(now)}, {refused} refused, {took:.0f} s")

    def alone(self, edit):
        """Tries one edit alone: what is in doubt then is left to a check of the whole crate."""
        if frozenset([edit.key]) not in self.tried:
            self.judge([edit], edit.made())
        if edit.verdict == "proved":
            edit.verdict, edit.said = "NOT REFUSED", "its function is proved with it"
        elif edit.verdict == "doubt":
            self.wholes.append(edit)


def in_room(crate, rlibs, seed, work):
    """What this does with a room for a crate, in which nothing stays."""
    temp = tempfile.mkdtemp(prefix=f"try-edits-{crate.name}-")
    try:
        os.mkdir(f"{temp}/crate")
        return work(Room(crate, temp, rlibs, seed))
    finally:
        shutil.rmtree(temp, ignore_errors=True)


def make_seed(crate, edits, reach, rlibs, seed, begun, say, log):
    """Proves without an edit what these of a crate change: the functions, or all where one changes
    more; over what another check kept, if there is a folder of one. Where rt ci proves the crate, too,
    it is known what each function reaches, and that is enough if it is less. Gives what tells whether
    the seed is touched, or nothing where it isn't proved; and what was said."""
    wholes = [it for it in edits if not it.symbols and not it.errors and not it.verdict]
    edited = {symbol for it in edits for symbol in it.symbols}
    reached = {symbol for it in edited for symbol in reach.get(it, ())}
    only = [] if wholes else sorted(min(edited, reached or edited, key=len))
    if begun and os.path.isdir(begun):
        linked(begun, seed)
    status, said, took = in_room(crate, rlibs, seed, lambda room: room.check({}, only, log, makes_seed=True))
    why = (said.strip().splitlines() or [""])[-1]
    say(f"{crate.name}: without an edit, status {status}, {took:.0f} s: {why}")
    return None if status else listing(seed), why


def try_edits(crate, edits, reach, rlibs, seed, say, log):
    """Tries a crate's edits, of whose functions it is known which reach which, and leaves each one's
    verdict with it: 'refused' is well. The crate may be one that rt ci proves beside it."""
    in_room(crate, rlibs, seed, lambda room: Trying(crate, edits, reach, room, say, log).run())
