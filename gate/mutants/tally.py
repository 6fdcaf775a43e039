"""The results for the mutants of a crate."""


class Tally:
    """Lines to print and counts, of the mutants of one crate."""

    def __init__(self, crate):
        self.crate, self.lines, self.seen, self.controls = crate, [], [], set()
        self.passes = self.failures = self.checks = 0
        self.seconds = 0.0
        # Whether wrong.seen could name the present commit for the crate, where that was tried.
        self.is_noted = None

    def add(self, other):
        """Adds the results for further mutants of the crate."""
        self.lines, self.seen = self.lines + other.lines, self.seen + other.seen
        self.controls = self.controls | other.controls
        self.passes, self.failures = self.passes + other.passes, self.failures + other.failures
        self.checks, self.seconds = self.checks + other.checks, self.seconds + other.seconds

    def say(self, label, text, passes):
        self.passes, self.failures = self.passes + passes, self.failures + (not passes)
        self.lines.append(f"wrong: {label}: {'' if passes else 'FAILED: '}{text[:300]}")

    def failed(self, edit, text):
        self.say(edit.label, text, False)

    def rejected(self, edit, what):
        if edit.is_control:
            self.failed(edit, f"a correct body counts as rejected: {what}")
        else:
            self.seen.append(edit)
            self.say(edit.label, f"rejected: {what}", True)

    def accepted(self, edit, kinds):
        self.controls |= kinds
        told = ", ".join(sorted(kinds)) or "of no kind that is required"
        self.say(edit.label, f"a correct body, not rejected ({told})", True)

    def summary(self):
        return (f"wrong: {self.crate}: {self.passes} passed, {self.failures} failed, in "
                f"{self.checks} checks, {self.seconds:.0f} s of CPU")
