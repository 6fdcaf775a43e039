"""Many mutants in one check, and single mutants where such a check does not decide."""
import shutil

from .copies import copied, origin_of
from .full import Full
from .quick import Quick
from .rooms import check, room_for
from .tally import Tally
from .together import batch_of, is_unchanged

# Functions of a lane that are proved unchanged, over the same kept work as its mutants.
SAMPLE = 5


class Lane:
    """A copy of a crate in which its mutants are checked, one check after the other."""

    def __init__(self, crates, crate, top, stamps):
        self.folder, self.top = room_for(crates, crate, top, stamps), top
        # Right after `rt ci` the copy has no kept work: only the edits' functions are checked.
        self.by_function, self.tally, self.unproved = bool(stamps), Tally(crate), []

    def check(self, texts, edits, way, beside=()):
        """Checks with these texts: the crate, or only the functions that must reject these edits,
        and in full those that must reject others. A check cannot be limited to an impl."""
        names = [it.function for it in [*edits, *beside]]
        is_limited = self.by_function and not any(names_impl(it) for it in edits)
        stubbed = {it.function for it in [*edits, *beside] if way.is_stubbed and takes_stub(it)}
        said = check(self.folder, way.texts(self.folder, texts, edits),
                     names if is_limited else (), stubbed)
        self.tally.checks += 1
        self.tally.seconds += said.seconds
        return said

    def try_together(self, edits, way, sample=()):
        """Tries many edits in one check, and returns those that no check decided. The last check is
        also of the first functions of the sample on which it has no effect, which are to be proved,
        and leaves the others to another check."""
        left = []
        while edits:
            batch, texts, edits = batch_of(edits, self.folder)
            drawn = [it for it in sample if not edits and is_unchanged(it, batch, self.folder)]
            drawn = drawn[:SAMPLE]
            asked, texts = copied(drawn, batch, texts, self.folder, False)
            said = self.check(texts, batch, way, asked)
            if not said.is_judged:
                # (one of them does not compile: each half is tried)
                both, half = [origin_of(it) for it in batch], len(batch) // 2
                for part in [both[:half], both[half:]] if half else []:
                    left += self.try_together(part, way)
                left += [] if half else both
                continue
            if drawn:
                proved = [it for it, made in zip(drawn, asked)
                          if said.has_no_open_goal(made.function)]
                drawn += [it for it in sample if it not in drawn]
                self.unproved = [it for it in drawn[:SAMPLE] if it not in proved]
            for it in batch:
                what = way.rejects(said, it)
                if what:
                    self.tally.rejected(origin_of(it), what)
                else:
                    left.append(origin_of(it))
        return left

    def try_alone(self, edit):
        """Tries one edit in a separate check, which decides whether it is rejected."""
        way, tally = Full(False), self.tally
        said = self.check(edit.applied(self.folder.read), [edit], way)
        if not said.is_judged:
            told = " ".join(said.lines[:3])[:300]
            tally.failed(edit, f"it does not compile, or the check did not end: {told}")
            return
        what, line = way.rejects(said, edit), said.line_of(edit.function)
        if what:
            tally.rejected(edit, what)
        elif not line:
            tally.failed(edit, f"the check has no line of {edit.function}")
        elif edit.is_control:
            tally.accepted(edit, said.kinds_of(edit))
        elif edit.moves_steps:
            tally.failed(edit, "NOT JUDGED: explicit proofs may name steps that it moves, and a "
                               f"correct body would be rejected so too: {line}")
        else:
            proved = "; the crate is still proved" if said.is_proved else ""
            tally.failed(edit, f"NOT REJECTED by its function: {line}{proved}")

    def try_all(self, edits, draw):
        """Tries all edits: first those whose check is of the whole crate, which keeps what others
        begin with; then those that name a goal by quick checks, in one check with others, and of
        these first those that few go together with; then what is left alone. Proves drawn functions
        unchanged over the same kept work, those as copies that can have copies: in the last check
        of many mutants, those on which it has no effect, and in a check after all those that it
        does not show proved."""
        left = self.try_together([it for it in edits if names_impl(it)], Full())
        edits = [it for it in edits if not names_impl(it)]
        edits.sort(key=lambda it: not it.is_constant and not it.is_outside)
        way = Quick(self, edits)
        by_function = {it.function: it for it in edits}
        sample = draw.sample([*by_function.values()], len(by_function))
        self.unproved = sample[:SAMPLE]
        left += self.try_together(edits, way, sample)
        in_full = [it for it in left if way.can_try(it)]
        alone = [it for it in left if not way.can_try(it)]
        for edit in alone + self.try_together(in_full, Full()):
            self.try_alone(edit)
        if self.unproved or not sample:
            self.prove_unchanged()
        shutil.rmtree(self.top)
        return self.tally

    def prove_unchanged(self):
        """Proves these functions, or the crate, over the kept work of the mutants. Where one is not
        proved, no mutant counts as seen rejected."""
        asked, texts = copied(self.unproved, [], {}, self.folder, False)
        # (a stub in one function of the sample shows in the line of another that calls it)
        said = self.check(texts, asked, Full(False))
        names = sorted({it.function for it in asked if not said.has_no_open_goal(it.function)})
        if names or not self.unproved and not said.is_proved:
            told = f"not proved unchanged after the mutants: {', '.join(names) or 'the crate'}"
            self.tally.say(self.tally.crate, told, False)
            self.tally.seen = []


def names_impl(edit):
    """Whether the edit's line `fn:` names an impl: it ends with the names of a type and a trait."""
    return edit.is_outside and edit.function.split("::")[-1][:1].isupper()


def takes_stub(edit):
    """Whether the edit's line `fn:` names a function, and that shares its proof with no other."""
    return not edit.is_recursive and not edit.function.split("::")[-1][:1].isupper()
