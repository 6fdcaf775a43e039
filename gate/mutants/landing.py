"""What is tried of the mutants at a landing, and in which order.

A mutant is void where something that its verdict depends on has changed since it was last seen
rejected. First the void ones are tried whose own text or function has changed, and with them a draw
of those that are not void; then the other void ones. Each crate that has a mutant to try costs a
first check, so mutants are tried in groups of one crate. The draw and the order of the groups are
by the present commit's name: so where a landing has not the time for all (`budget`), the next one
tries others, also in a checkout that keeps nothing.
"""
from . import seen

# How many mutants are drawn among those that need not be tried, and the most in a group.
DRAWN = 48
OF_A_CRATE = 24
# CPU minutes that a landing has for mutants.
MINUTES = 10
# CPU seconds of a check before its first goal, and those of a mutant, over all crates.
FIRST_CHECK = 25
A_MUTANT = 6


class Plan:
    """The edits to try at a landing, in `groups`, where the edits of which the labels are in
    `known` were seen rejected unchanged in this checkout."""

    def __init__(self, edits, known=()):
        compared, lots = seen.Compared(edits), seen.draw()
        same, mutants = compared.same.union(known), [it for it in edits if not it.is_control]
        self.void = [it for it in edits if it.label not in same]
        self.changed = {it.label for it in self.void} - compared.same_text
        # (of what wrong.seen claims: what this checkout has seen itself is no claim)
        self.drawn = drawn_among([it for it in mutants if it.label in compared.same], lots)
        void = [it for it in mutants if it.label not in same]
        self.left = len(mutants) - len(void) - len(self.drawn)
        own, others = [[it for it in void if (it.label in self.changed) == is_own]
                       for is_own in (True, False)]
        groups = [group for part in (own, self.drawn, others) for group in in_groups(part, lots)]
        self.groups = with_controls(groups, [it for it in edits if it.is_control], same)
        self.said = compared.said
        if self.left and not seen.is_committed():
            self.said += " (some changes are not committed; the draw is by the last commit)"

    def lines(self, seconds):
        """What a landing would try with a budget of so many CPU seconds, in lines: each group with
        an estimate of the seconds that are used after it, and the sums."""
        used, lines, counts = 0, [], {True: 0, False: 0}
        drawn = {it.label for it in self.drawn}
        for group in self.groups:
            is_tried = used < seconds
            used += FIRST_CHECK + A_MUTANT * len(group)
            counts[is_tried] += len(group)
            own = sum(it.label in self.changed for it in group)
            lots = sum(it.label in drawn for it in group)
            lines.append(f"wrong: {'tries' if is_tried else 'waits'}: {group[0].crate} "
                         f"{len(group)} ({own} changed, {lots} drawn), {used} s")
        return [*lines, f"wrong: estimate: {counts[True]} are tried, {counts[False]} wait, where a "
                        f"group takes {FIRST_CHECK} s and a mutant {A_MUTANT}"]


def in_groups(edits, lots):
    """The edits in groups of one crate each, `OF_A_CRATE` at most: each crate is drawn with a
    probability proportional to the number of its edits that are left, and then edits of it."""
    left, groups = list(edits), []
    while left:
        crate = lots.choice(left).crate
        own = [it for it in left if it.crate == crate]
        groups.append(lots.sample(own, min(OF_A_CRATE, len(own))))
        left = [it for it in left if it not in groups[-1]]
    return groups


def drawn_among(same, lots):
    """The mutants that are drawn of these, of few crates."""
    return [it for group in in_groups(same, lots) for it in group][:DRAWN]


def with_controls(groups, controls, same):
    """The groups, and correct bodies: each is tried where it has changed, and where mutants of its
    crate are tried, with the first of them."""
    groups = [list(it) for it in groups]
    for control in controls:
        first = next((it for it in groups if it[0].crate == control.crate), None)
        if first is None and control.label not in same:
            groups.insert(0, [])
            first = groups[0]
        if first is not None:
            first.append(control)
    return groups


def waiting_lines(plan, decided):
    """What waits for a later landing, where these were decided: each whose own text or function has
    changed, and then a line with the numbers of each crate, or no line where none waits."""
    waits = [it for it in plan.void if it.label not in decided]
    if not waits:
        return []
    lines = [f"wrong: waits: {it.label}: its own text or function has changed" for it in waits
             if it.label in plan.changed]
    crates = {it.crate: sum(other.crate == it.crate for other in waits) for it in waits}
    told = ", ".join(f"{it} {number}" for it, number in crates.items())
    return [*lines, f"wrong: waits: {len(waits)} mutants out of date, neither passed nor failed: "
                    f"{told}"]
