"""Which mutants one check can try together."""
from .copies import copy_of, paths_of
from .crates import BadEdit
from .reach import reach_of

# The most mutants that are tried as copies beside others, and not in a check after it. A copy has a
# contract to check too, so that ten or so cost what one check costs before its first goal.
MOST_COPIES = 12


def are_apart(a, b, folder):
    """Whether two edits have no effect on the verdict of one another. A contract hides the body of
    its function from all others, also that of a const function: a clause reads the constant that
    calls it by what is stated of it. No contract hides a constant, or what is outside of bodies:
    such a change has an effect on those functions alone that reach its file."""
    return not ({a.function, a.mutated} & {b.function, b.mutated}
                or concerns(a, b, folder) or concerns(b, a, folder))


def concerns(edit, other, folder):
    """Whether the verdict of the other edit may rest on what this one changes, its body aside."""
    if not edit.is_constant and not edit.is_outside:
        return False
    reach, added = reach_of(edit.crate, folder), " ".join(new for _, _, new in other.pairs)
    return bool(paths_of(edit) & reach.rests_on(other.function, paths_of(other), added))


def is_unchanged(drawn, edits, folder):
    """Whether none of these edits has an effect on the function of one that is not applied."""
    return not any(drawn.function in (it.function, it.mutated) or concerns(it, drawn, folder)
                   for it in edits)


class Batch:
    """Edits that one check tries together, and the edited texts."""

    def __init__(self, folder):
        self.folder, self.edits, self.texts = folder, [], {}

    def read(self, path):
        return self.texts.get(path) or self.folder.read(path)

    def takes(self, edit):
        """Takes the edit as it is, where it can be tried with those that are there."""
        return all(are_apart(it, edit, self.folder) for it in self.edits) and self.adds(edit)

    def takes_copy(self, edit):
        """Takes the edit as a copy of its function, where that can have a copy, and where of those
        edits that are there the others of this function alone keep the edit from being taken."""
        near = [it for it in self.edits if not are_apart(it, edit, self.folder)]
        is_alike = all(it.function == it.mutated == edit.function
                       and not concerns(it, edit, self.folder) for it in near)
        copy = copy_of(edit, self.edits, self.folder) if is_alike else None
        return copy is not None and self.adds(copy)

    def adds(self, tried):
        try:
            self.texts.update(tried.applied(self.read))
        except BadEdit:
            # (its old text is once in the function, and not once after the other edits)
            return False
        self.edits.append(tried)
        return True


def batch_of(edits, folder):
    """Edits that one check can try together, the edited texts, and the edits that are left."""
    batch = Batch(folder)
    left = [it for it in edits if not batch.takes(it)]
    if len(left) <= MOST_COPIES:
        left = [it for it in left if not batch.takes_copy(it)]
    return batch.edits, batch.texts, left
