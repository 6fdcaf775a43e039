"""Decides by the output of a check whether a mutant is rejected.

A mutant counts as rejected only where the check reports, of the very function that its line `fn:`
names, an unproved goal that the function promises. That is what it ensures, at a return; or of one
of its loops the invariant, before the first iteration or after one, or the measure. Of an impl, one
of its laws must have no proof. These goals do not count: what a call requires (`CALLEE-requires`,
also `unreachable!` and the measure of a recursion), an index in range (`bounds-`), a number that
does not wrap (`overflow_`), a divisor that is not 0 (`nonzero_`).
"""
import itertools
import re

from .steps import answers_path

PROMISED = re.compile(r"returns(-|$)|loop-([\w-]+-)?(init|preserved|smaller)(-|$)")
# Errors of a proof file that names a step or a field which the edit took away, or of what rests on
# such an error. They say nothing of the contract.
LOST = re.compile(r"has no field|is not in scope(?! here, so what is shown)|has no `"
                  r"|cannot be named from here")
AFTER_LOST = re.compile(r"was not admitted|was not checked")
# An error of a declaration that rests on another one, which has an error of its own.
RESTS = re.compile(r" error: \d+ declarations? that depends? on `([\w-]+)`, which was not "
                   r"admitted, (?:was|were) not checked: (.*)")
# An error in a file of lemmas.
LEMMA = re.compile(r"(\./)?proofs/\w+\.antt:\S+ error: ")
# The goal of a stub (`rooms`), which no function has.
UNASKED = "unasked"
# The last line of a check, of a whole crate or of some functions.
PROVED = re.compile(r"^logic=proved|^only=(\d+) proved=\1$", re.M)
NOT_PROVED = re.compile(r"^logic=not-proved|^only=\d+ proved=", re.M)
SEARCHED = re.compile(r"; `search` did not prove ((?:`[\w+-]+`(?:, )?)+)")
NOTE = re.compile(r"note: src/\S+: it is not proved that ")
NOTE_OF_GOAL = re.compile(r"note: src/\S+: it is not proved that .*? \(`([\w+-]+)`\)")
IMPL_LAWS = re.compile(
    r"impl \S+: not proved; antt refuses ((?:`[\w-]+`(?:, )?)+) in `[\w.]+\.TheImpl\.Laws`")


def is_promised(function, goal):
    """Whether a goal is one that the function promises. The goals of mutually recursive functions
    begin with the name of the function."""
    return bool(PROMISED.match(goal.removeprefix(function.split("::")[-1] + "-")))


def goal_of_error(error):
    """The goal, lemma or invariant of an explicit proof in which an error is, or nothing."""
    named = re.search(r": error: `([\w+-]+)`: ", error)
    return named[1] if named else ""


def rests_in(lines):
    """The declarations that have errors, by these lines, and for each those that rest on it."""
    found = filter(None, map(RESTS.search, lines))
    return [(it[1], {name.strip() for name in it[2].split(",")}) for it in found]


class Report:
    """What a check printed. The functions in `stubbed` had a stub, whose error says nothing of
    them."""

    def __init__(self, text, status, seconds=0.0, stubbed=()):
        self.lines, self.seconds, self.stubbed = text.split("\n"), seconds, {*stubbed}
        # (a check of a crate that does not compile, or one that was stopped, has no such last line)
        self.is_proved = status == 0 and bool(PROVED.search(text))
        self.is_judged = self.is_proved or status == 1 and bool(NOT_PROVED.search(text))

    def line_of(self, function):
        """The check's line of a function or an impl, or nothing."""
        starts = (f"fn {function}: ", f"impl {function}: ")
        return next((it for it in self.lines if it.startswith(starts)), "")

    def is_proved_line(self, function):
        return bool(re.match(r"\w+ \S+: proved\b", self.line_of(function)))

    def has_no_open_goal(self, function):
        """Whether the function is proved, or would be but for the error of its stub."""
        line = self.line_of(function)
        if function not in self.stubbed:
            return self.is_proved_line(function)
        is_searched = line == f"fn {function}: not proved" and self.has_stub_error(function)
        is_open = self.errors_of(function) or line and any(map(NOTE.match, self.before(line)))
        return is_searched and not is_open

    def has_stub_error(self, function):
        """Whether the check has read the stub of the function."""
        own = answers_path(function)
        return any(f"{own}:" in it and goal_of_error(it) == UNASKED for it in self.lines)

    def rejects(self, edit):
        """The line which shows that a goal that the edit's function promises is not proved, or
        nothing."""
        line = self.line_of(edit.function)
        if line.startswith("impl "):
            return self.law_rejected(edit.function, line)
        if not re.search(r": (not proved|no proof)", line):
            return ""
        goals = SEARCHED.search(line)
        names = re.findall(r"`([\w+-]+)`", goals[1]) if goals else []
        searched = [line] if any(is_promised(edit.function, it) for it in names) else []
        errors = self.errors_of(edit.function)
        noted = [note for it, note in self.goals_noted(line).items()
                 if is_promised(edit.function, it)]
        explicit = [it for it in errors if not AFTER_LOST.search(it)
                    and is_promised(edit.function, goal_of_error(it))]
        # (an edit outside of the function changes what lemmas say; one of its body does not)
        explicit += self.lemmas_refused(edit.function, errors) if edit.is_outside else []
        # Where explicit proofs fail, and name steps that are gone or are others now, a correct body
        # has open goals too. A goal that is false has no proof at all.
        if errors and edit.moves_steps or any(map(LOST.search, errors)):
            explicit, searched = [], []
            noted = [it for it in noted if "at which this goal is false" in it]
        return next(iter(explicit + searched + noted), "")

    def lemmas_refused(self, function, errors):
        """The errors of the lemmas, in files of their own, on which by these errors an explicit
        proof of a goal that the function promises rests."""
        names = {lemma for lemma, goals in rests_in(errors)
                 if any(is_promised(function, it) for it in goals)}
        above = {*()}
        while names != above:
            above = names
            names = above | {lemma for lemma, others in rests_in(self.lines) if above & others}
        told = [" ".join([it, *self.after(at)]) for at, it in enumerate(self.lines)
                if LEMMA.match(it) and goal_of_error(it) in names]
        return [it for it in told if not LOST.search(it)]

    def law_rejected(self, path, line):
        """The error that says that a law of the impl, in its own file, has no proof, or nothing."""
        *inside, name = path.split("::")[1:]
        laws = IMPL_LAWS.match(line)
        if not laws or f".{name}.TheImpl." not in line:
            return ""
        file = re.escape("/".join(inside) or "lib")
        refused = "|".join(re.findall(r"[\w-]+", laws[1]))
        mine = re.compile(rf"src/{file}\.rt:\S+ error: `(?:{refused})`: ")
        told = [" ".join([it, *self.after(at)]) for at, it in enumerate(self.lines)
                if mine.match(it)]
        lost = [it for it in told if LOST.search(it) or AFTER_LOST.search(it)]
        return "" if lost or not told else told[0]

    def kinds_of(self, edit):
        """The kinds of a correct body: its function is still proved, or what is changed in or about
        one that is not."""
        if self.is_proved_line(edit.function):
            return {"outside"} if edit.is_outside else {"still proved"}
        errors = self.errors_of(edit.function)
        are_lost = any(map(LOST.search, errors))
        is_moved = bool(errors) and edit.moves_steps and not are_lost
        told = {"names lost": are_lost, "steps moved": is_moved}
        about = {"recursion": edit.is_recursive, "loop": edit.has_loop,
                 "constant": edit.is_constant}
        return {it for it, is_told in {**told, **about}.items() if is_told}

    def errors_of(self, function):
        """The errors in the function's explicit proof, or, where mutually recursive functions have
        one proof, at the goals and invariants of this one."""
        *inside, name = function.split("::")[1:]
        own = re.escape("/".join([*inside, name])) + r"/\S+: error"
        shared = "/".join([*inside, rf"\+\w+/\S+: error: `(invariant-|decreases-)?{name}[-`]"])
        mine = re.compile(rf"(\./)?proofs/({own}|{shared})")
        return [" ".join([it, *self.after(at)]) for at, it in enumerate(self.lines)
                if mine.match(it) and goal_of_error(it) != UNASKED]

    def after(self, at):
        """The lines that continue the message of a line: those below it that are indented."""
        below = self.lines[at + 1 :]
        return [it.strip() for it in itertools.takewhile(lambda it: it.startswith("  "), below)]

    def goals_noted(self, line):
        """The notes before a function's line on goals that are open, by these goals, which they
        name in parentheses."""
        noted = [NOTE_OF_GOAL.match(it) for it in self.before(line)]
        return {it[1]: it.string for it in noted if it}

    def before(self, line):
        """The lines about a function or an impl that are before its line, the nearest first."""
        above = reversed(self.lines[: self.lines.index(line)])
        item = re.compile(r"(fn|impl|struct|enum|trait) ")
        return list(itertools.takewhile(lambda it: not item.match(it), above))
