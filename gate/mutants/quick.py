"""Quick checks: of a mutant, one goal by one tactic.

A check tries a goal by `search rules`, and where that does not prove it twice by `grind`, each to
its limit. On a mutant it spends most of its time so. But the search alone proves nine in ten of the
goals of correct bodies. So an edit may name, in its line `goal:`, a goal of its function that is
not proved, and in a line `by:` another tactic. A lane first checks the correct bodies of its
functions with these goals answered by these tactics and no other goal tried, and then each mutant
in the same way. A mutant whose function has the promised goals of the correct body is rejected
where the tactic, or the explicit proof that the goal has, proves the goal for the correct body and
not for the mutant. All else is left to checks in full.
"""
import copy
import re

from .copies import origin_of
from .full import Full
from .judging import AFTER_LOST, LOST, goal_of_error, is_promised
from .rooms import STUB, begun_answers
from .sources import place_of
from .steps import answers_path

TACTIC = re.compile(r"#\[tactic\(([^\]]*)\)\]\s*")
ANSWERED = re.compile(r"^pub ([\w+-]+) : goal\.", re.M)
# What a check tries, in this order; `grind` also cites the lemmas that the function's tactic uses.
TACTICS = {
    "search": "search Rattle.std.proofs.Common.rules",
    "grind": "grind (Rattle.std.proofs.Common.arith, "
             "Rattle.std.proofs.lemmas.Grind.common_steps{using})",
}


class Search:
    """What tactics are asked of a function, whose body is in the file of this path."""

    is_outside = is_recursive = False

    def __init__(self, function, path, attributes, explicit):
        self.function, self.path, self.explicit = function, path, explicit
        self.unfolded, self.used = [named_in(it, attributes, function.partition("::")[0])
                                    for it in ("unfolding", "using")]
        # The goals, each with the tactic that answers it; those that it proves, and those that the
        # function promises and no explicit proof answers, of the correct body.
        self.goals, self.proved, self.promised = {}, set(), set()

    def of(self, function):
        """This search, of a copy of its function."""
        made = copy.copy(self)
        made.function = function
        return made

    def answers(self, begun, goals):
        """The function's proof file, begun so, in which tactics answer these goals, with a stub."""
        opened = f"unfolding {' '.join(self.unfolded)}\n" if self.unfolded else ""
        using = "".join(f", {it}" for it in self.used)
        made = [f"\npub {it} : goal.{it}\n{opened}{it} c = "
                f"{TACTICS[self.goals[it]].format(using=using)}\n"
                for it in goals if it not in self.explicit]
        return "".join([begun, *made, STUB])

    def open(self, said):
        """The promised goals without an answer."""
        goals = said.goals_noted(said.line_of(self.function))
        return {it for it in goals if is_promised(self.function, it)}

    def errors(self, said):
        """The errors in the proof file, or None where the check has not read it."""
        is_read = said.line_of(self.function) != "" and said.has_stub_error(self.function)
        return said.errors_of(self.function) if is_read else None

    def note(self, said):
        """Notes what a check of the correct body, with these goals answered, has proved."""
        errors = self.errors(said)
        failed = {*self.goals} if errors is None else {goal_of_error(it) for it in errors}
        self.proved = {*self.goals} - failed
        self.promised = self.open(said) | ({*self.goals} - self.explicit)

    def rejects(self, said, edit):
        """The error at the edit's goal which shows that the mutant is rejected, or nothing."""
        errors = self.errors(said) or []
        others = [it for it in errors if goal_of_error(it) != edit.goal]
        has_same_goals = self.open(said) | ({edit.goal} - self.explicit) == self.promised
        is_lost = any(map(LOST.search, errors)) or edit.moves_steps and others
        is_explicit = edit.moves_steps and edit.goal in self.explicit
        if not has_same_goals or is_lost or is_explicit:
            return ""
        return next((it for it in errors if goal_of_error(it) == edit.goal
                     and not AFTER_LOST.search(it)), "")


class Quick(Full):
    """The checks of a lane that are quick for the functions of those edits that name a goal, and in
    full for others."""

    def __init__(self, lane, edits):
        super().__init__()
        named = [it for it in edits if it.goal and not it.is_recursive and not it.is_outside]
        made = [search_of(lane.folder, it) for it in sorted({it.function for it in named})]
        self.searches = {it.function: it for it in made if it}
        for it in self.searches.values():
            it.goals = {edit.goal: edit.by for edit in named if edit.function == it.function
                        and is_promised(it.function, edit.goal)}
        if self.searches:
            correct = lane.check({}, [*self.searches.values()], self)
            for it in self.searches.values():
                it.note(correct)

    def can_try(self, tried):
        """Whether a check is quick for this edit, or for the correct body of a function."""
        search = self.searches.get(origin_of(tried).function)
        if not search or tried.is_outside:
            return False
        return tried is search or tried.goal in search.proved

    def texts(self, folder, texts, tried):
        """These texts and the proof files of the functions that are tried, in which tactics answer
        their goals, with no tactic at these functions."""
        made = dict(texts)
        for it in filter(self.can_try, tried):
            search = self.searches[origin_of(it).function]
            goals = it.goals if it is search else [it.goal]
            text = made.get(search.path) or folder.read(search.path)
            made[search.path] = untried(text, *place_of(search.path, text, it.function))
            begun = begun_answers(folder, it.function, made)
            made[answers_path(it.function)] = search.answers(begun, goals)
        return made

    def rejects(self, said, edit):
        if not self.can_try(edit):
            return super().rejects(said, edit)
        search = self.searches[origin_of(edit).function]
        return search.of(edit.function).rejects(said, edit)


def search_of(folder, function):
    """The search of a function, or None where no file has its body."""
    for path in folder.files("src"):
        text = folder.read(path)
        top, start = place_of(path, text, function)
        if start:
            explicit = {*ANSWERED.findall(begun_answers(folder, function))}
            return Search(function, path, text[top:start], explicit)
    return None


def named_in(word, attributes, crate):
    """The definitions that a tactic attribute unfolds, or the lemmas that it uses, by their full
    names."""
    named = re.search(rf"{word}\(([^)]*)\)", "".join(TACTIC.findall(attributes)))
    paths = re.findall(r"[\w:]+", named[1]) if named else []
    return [f"Rattle.{re.sub('^crate', crate, it).replace('::', '.')}" for it in paths]


def untried(text, top, start):
    """The text with no tactic at the function whose first line starts there."""
    indent = re.match(r" *", text[start:])[0]
    return f"{text[:top]}{TACTIC.sub('', text[top:start])}{indent}#[tactic(none)]\n{text[start:]}"
