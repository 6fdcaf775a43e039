"""wrong.seen: the commits at which all mutants of a crate were last seen rejected.

It has a line for each crate and each toolchain: `CRATE COMMIT TOOLCHAIN`. `./wrong --all` alone
writes it, a line as soon as each mutant of the crate is rejected, so that a run that is stopped
keeps what it has seen. At a landing, a mutant is not tried again where nothing that its verdict
depends on has changed since that commit, but for a draw (`landing`).
"""
import io
import random
import re
import subprocess
import tarfile
import tempfile
import threading

from .crates import ROOT, toolchain, write
from .marks import Marks

SEEN = f"{ROOT}/wrong.seen"
LINE = re.compile(r"(\w+) ([0-9a-f]{40}) (.+)")
WRITING = threading.Lock()


def git(*words):
    """The output of git, or None where it fails or is missing."""
    try:
        ran = subprocess.run(["git", "-c", "safe.directory=*", *words], cwd=ROOT,
                             stdout=subprocess.PIPE, stderr=subprocess.DEVNULL, check=False)
    except OSError:
        return None
    return ran.stdout if ran.returncode == 0 else None


def commit_name():
    """The name of the present commit, or nothing where there is no history."""
    return (git("rev-parse", "HEAD") or b"").decode().strip()


def draw():
    """The generator of the draw, seeded by the present commit's name: nobody knows it before the
    commit is made, and everybody can repeat the draw."""
    return random.Random(commit_name())


def seen_lines():
    """What wrong.seen has: the commit of each crate and toolchain, or nothing where one of its
    lines is no such line, or two are of the same crate and toolchain."""
    try:
        with open(SEEN, encoding="utf-8") as it:
            lines = [LINE.fullmatch(line) for line in it.read().splitlines()]
    except OSError:
        return {}
    commits = {(it[1], it[3]): it[2] for it in lines if it}
    return commits if len(commits) == len(lines) else {}


def is_before(commit):
    """Whether a commit is before the present one in the history here."""
    return git("merge-base", "--is-ancestor", commit, "HEAD") is not None


def seen_commits(crates):
    """The commits of these crates in wrong.seen for this toolchain that can be used, and those that
    are not before the present commit in the history here."""
    lines = seen_lines()
    commits = {it: lines[it, toolchain()] for it in crates if (it, toolchain()) in lines}
    lost = {it for it in {*commits.values()} if not is_before(it)}
    return {crate: it for crate, it in commits.items() if it not in lost}, lost


def earlier_commits(crates):
    """For each of these crates the commits by which it is decided whether a mutant's own text has
    changed: those of all its lines in wrong.seen, for any toolchain, or else the commit before the
    present one."""
    lines, parent = seen_lines(), (git("rev-parse", "HEAD^1") or b"").decode().split()
    usable = {it for it in {*lines.values()} if is_before(it)}
    named = {it: {lines[at] for at in lines if at[0] == it and lines[at] in usable}
             for it in crates}
    return {it: named[it] or {*parent} for it in crates}


def marks_at(commit, folder):
    """The sums of the repository at a commit, whose files go to this folder, or None where the
    commit lacks the code that judges."""
    archive = git("archive", commit, "crates", "crates.txt", "gate", "wrong")
    if archive is None:
        return None
    with tarfile.open(fileobj=io.BytesIO(archive)) as it:
        it.extractall(folder, filter="data")
    return Marks(folder)


class Compared:
    """Edits, beside what they were at the commits that wrong.seen names."""

    def __init__(self, edits):
        crates = {it.crate for it in edits}
        self.commits, lost = seen_commits(crates)
        self.earlier, self.now = earlier_commits(crates), Marks(ROOT)
        # The labels of those for which nothing that the verdict depends on has changed since the
        # commit of their crate, and of others whose own text and function have not.
        self.same, self.same_text = set(), set()
        current, based = {*self.commits.values()}, set()
        for commit in [*sorted(current), *sorted(set().union(*self.earlier.values()) - current)]:
            with tempfile.TemporaryDirectory(prefix="wrong-seen-") as folder:
                before = marks_at(commit, folder)
                for it in edits if before else ():
                    self.compare(it, commit, before)
                    based |= {it.crate} if commit in self.earlier[it.crate] else set()
        # (of a crate without such a commit here nothing says that a text has changed)
        self.same_text |= {it.label for it in edits if it.crate not in based}
        others = f"; the history here has no commit {', '.join(sorted(lost))}" if lost else ""
        self.said = (f"wrong.seen has a commit of {len(self.commits)} of {len(crates)} crates for "
                     f"this toolchain, at which each of their mutants was rejected{others}")

    def compare(self, edit, commit, before):
        """Compares an edit with what it was at a commit."""
        now, label = self.now, edit.label
        if self.commits.get(edit.crate) == commit:
            if before.of(label, edit.crate, before.mark) == now.mark(edit):
                self.same.add(label)
        if commit in self.earlier[edit.crate] and label not in self.same | self.same_text:
            if before.of(label, edit.crate, before.own) == now.own(edit):
                self.same_text.add(label)


def is_committed():
    """Whether the files that verdicts depend on are those of the present commit."""
    told = git("status", "--porcelain", "--", "crates", "crates.txt", "gate", "wrong")
    return told is not None and not told.strip() and bool(commit_name())


def write_seen(crate):
    """Names the present commit in wrong.seen for the crate and this toolchain, and returns whether
    it could: only where the files that verdicts depend on are those of the commit. Other lines
    stay: each names a commit at which that toolchain rejected every mutant of that crate."""
    with WRITING:
        if not is_committed():
            return False
        lines = {**seen_lines(), (crate, toolchain()): commit_name()}
        write(SEEN, "".join(f"{it} {lines[it, by]} {by}\n" for it, by in sorted(lines)))
        return True
