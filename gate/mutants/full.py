"""Checks in full: every goal of a function, by all that a check tries."""


class Full:
    """The checks in full of a lane. With stubs the functions that take one have a stub each."""

    def __init__(self, is_stubbed=True):
        self.is_stubbed = is_stubbed

    def texts(self, _folder, texts, _tried):
        return texts

    def rejects(self, said, edit):
        what = said.rejects(edit)
        return f"its line `goal:` does not decide; {what}" if what and edit.goal else what
