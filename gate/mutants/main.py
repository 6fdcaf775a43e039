"""The command `./wrong`."""
import os
import re
import sys
import tempfile
from concurrent.futures import ThreadPoolExecutor
from dataclasses import dataclass, field

from . import seen
from .batches import Lane
from .budget import Budget, try_groups
from .crates import PARTS, BadEdit, below, crates_of, folder_of, jobs
from .edits import edits_in
from .kept import keep, known_of, new_of
from .landing import MINUTES, Plan, waiting_lines
from .proving import prove
from .rooms import leave_stamps, stamps_of
from .tally import Tally

USAGE = f"""./wrong: tries mutants whose verdict can have changed, and a sample of the others, for
    {MINUTES} minutes of CPU; with --minutes=N for N minutes.
./wrong --minutes=N CRATE..: tries such mutants of the named crates alone.
./wrong --plan [--minutes=N] [CRATE..]: prints in which order that would try them; tries nothing.
./wrong --all: tries every mutant, and writes wrong.seen, a line as each crate is done.
./wrong --all CRATE..: tries every mutant of the named crates, and writes their lines.
./wrong CRATE..: tries those of the named crates that were not seen rejected unchanged.
./wrong --after-gate [--all]: the same without proving anything first, right after `rt ci`.
./wrong --stamps: right after `rt ci`, marks the libraries that it built as up to date."""
# The kinds of correct bodies of which a run of all mutants needs one each.
CONTROLS = {"still proved", "names lost", "steps moved", "recursion", "loop", "constant", "outside"}
FOLDERS = {*PARTS, "wrong", "must-fail", "out", "data"}


@dataclass
class Run:
    """What a run tried: the number of mutants, those that were drawn, how many were left out since
    nothing changed, lines about what waits, and whether it was of all crates and all mutants."""

    tried: int
    drawn: list = field(default_factory=list)
    left: int = 0
    waits: list = field(default_factory=list)
    is_of_all_crates: bool = True
    is_all: bool = False


def edits_of(crate, tally, folders=("wrong",)):
    """The edits of a crate that can be applied. Anything else in their folders counts as failed. Of
    must-fail/, which the toolchain's gate tries, those are read that name a function."""
    folder = folder_of(crate)
    for name in folder.names("."):
        if name not in FOLDERS and os.path.isdir(f"{folder.top}/{name}"):
            tally.say(f"{crate}/{name}", "no folder of that name is read", False)
    found, others = edits_in(crate, folder, folders)
    for path in others:
        tally.say(f"{crate}/{path}", "it is no file of mutants", False)
    edits = []
    for edit in found:
        if edit.form.place == "must-fail" and not edit.function:
            continue
        try:
            edit.look(folder)
            edits.append(edit)
        except BadEdit as why:
            tally.failed(edit, str(why))
    if has_contracts(folder) and all(it.is_control for it in edits):
        tally.say(f"{crate}/wrong", "there is no mutant of this crate", False)
    return edits


def has_contracts(folder):
    """Whether a function of the crate, other than its tests, ensures something."""
    files = [it for it in folder.files("src") if not re.match(r"src/tests[./]", it)]
    return any(re.search(r"^ *ensures ", folder.read(it), re.M) for it in files)


def try_crate(crates, edits, tally, top, stamps, lanes, notes):
    """Tries these edits of a crate, in this many lanes in parallel. Where they are all of its edits
    and each passes, has wrong.seen name the present commit if it notes that."""
    lanes = min(lanes, len(edits))
    with ThreadPoolExecutor(lanes or 1) as pool:
        shares = [edits[at::lanes] for at in range(lanes)]
        tried = pool.map(lambda at: Lane(crates, tally.crate, f"{top}/{tally.crate}-{at}", stamps)
                         .try_all(shares[at], seen.draw()), range(lanes))
        for it in tried:
            tally.add(it)
    if notes and edits and not tally.failures:
        tally.is_noted = seen.write_seen(tally.crate)
    print("\n".join([*tally.lines, tally.summary()]), flush=True)
    return tally


def try_crates(crates, edits, tallies, stamps, noting=()):
    """Tries the edits of all crates, those of the slowest first. For the crates in `noting`,
    wrong.seen names the present commit once each of their edits has passed."""
    by_crate = {name: [it for it in edits if it.crate == name] for name in tallies}
    names = sorted(tallies, key=lambda it: -len(by_crate[it]) * (1 + len(below(crates, it))))
    busy = sum(bool(it) for it in by_crate.values()) or 1
    with tempfile.TemporaryDirectory(prefix="wrong-") as top:
        with ThreadPoolExecutor(jobs()) as pool:
            # (where few crates have edits, those of each are in several lanes)
            lanes = max(1, jobs() // busy)
            list(pool.map(lambda it: try_crate(crates, by_crate[it], tallies[it], top, stamps,
                                               lanes, it in noting), names))


def run_landing(crates, edits, tallies, stamps, minutes, unproved):
    """Tries what is to be tried at a landing, for so many minutes of CPU, and keeps in this
    checkout which mutants of crates that are proved were rejected, so that the next run here goes
    on with those that wait."""
    known = known_of(edits)
    plan = Plan(edits, {it.label for it in known})
    print("\n".join([*lines_of(tallies), f"wrong: {plan.said}"]), flush=True)
    decided = try_groups(crates, plan.groups, tallies, stamps, Budget(60 * minutes))
    rejected = [it for tally in tallies.values() for it in tally.seen]
    keep({*tallies}.difference(unproved),
         [*rejected, *(it for it in known if it.label not in decided)])
    tried = sum(not it.is_control and it.label in decided for it in edits)
    drawn = [it for it in plan.drawn if it.label in decided]
    # (a drawn one that there was no time for is one more that nothing has changed for)
    left = plan.left + len(plan.drawn) - len(drawn)
    return Run(tried, drawn, left, waiting_lines(plan, decided))


def run_whole(crates, edits, tallies, stamps, noting):
    """Tries all of these edits. For the crates in `noting`, wrong.seen names the present commit
    once each of their edits has passed."""
    try_crates(crates, edits, tallies, stamps, noting)
    return Run(sum(not it.is_control for it in edits))


def lines_of(tallies):
    return [line for it in tallies.values() for line in it.lines]


def show_plan(edits, tallies, minutes):
    """Prints what a landing would try, and tries nothing. The status is 1 where a mutant cannot be
    applied."""
    plan = Plan(edits, {it.label for it in known_of(edits)})
    print("\n".join([*lines_of(tallies), f"wrong: {plan.said}", *plan.lines(60 * minutes)]))
    return 1 if any(it.failures for it in tallies.values()) else 0


def proved(crates, named, flags):
    """The stamps of the libraries, right after `rt ci`, and the crates that are not proved, or None
    where no edit can be tried."""
    if named:
        return None, prove(named)
    stamps = stamps_of(crates) if "--after-gate" in flags else None
    if "--after-gate" in flags and not stamps:
        print("wrong: the libraries are not all of one run of `rt ci`, so the crates are proved "
              "first", flush=True)
    return stamps, [] if stamps else prove([])


def asked(words, crates):
    """The named crates, the flags, and the minutes or None, or an error."""
    named = [it for it in words if not it.startswith("--")]
    minutes = [it[len("--minutes=") :] for it in words if it.startswith("--minutes=")]
    flags = {it for it in words if it.startswith("--") and not it.startswith("--minutes=")}
    unknown = [it for it in named if it not in crates]
    if unknown:
        raise ValueError(f"wrong: crates.txt names no crate {unknown[0]}")
    is_number = len(minutes) < 2 and all(re.fullmatch(r"\d+(\.\d+)?", it) for it in minutes)
    known = {"--all", "--plan"} if named else {"--all", "--plan", "--after-gate", "--stamps"}
    if flags - known or not is_number or "--all" in flags and (minutes or "--plan" in flags):
        raise ValueError(USAGE)
    is_landing = minutes or "--plan" in flags or not named and "--all" not in flags
    return named, flags, float((minutes or [MINUTES])[0]) if is_landing else None


def main(words):
    crates = crates_of()
    try:
        named, flags, minutes = asked(words, crates)
    except ValueError as why:
        print(why, file=sys.stderr)
        return 2
    if "--stamps" in flags:
        return leave_stamps(crates)
    tallies = {it: Tally(it) for it in crates if not named or it in named}
    # (in a landing, `rt ci` has tried those of must-fail/)
    folders = ["wrong"] + ["must-fail"] * (bool(named) and minutes is None)
    edits = [edit for it, tally in tallies.items() for edit in edits_of(it, tally, folders)]
    if "--plan" in flags:
        return show_plan(edits, tallies, minutes)
    stamps, unproved = proved(crates, named, flags)
    if unproved is None:
        print("0 passed, 1 failed")
        return 1
    if minutes is not None:
        run = run_landing(crates, edits, tallies, stamps, minutes, unproved)
    else:
        is_all, known = "--all" in flags, [] if "--all" in flags else known_of(edits)
        run = run_whole(crates, edits if is_all else new_of(edits, known), tallies, stamps,
                        {*tallies}.difference(unproved) if is_all else ())
        run.is_all, run.left = is_all, len(known)
        if named:
            keep({*tallies}.difference(unproved),
                 [*known, *(it for tally in tallies.values() for it in tally.seen)])
    run.is_of_all_crates = not named
    return conclude(tallies, unproved, run)


def conclude(tallies, unproved, run):
    """Prints the counts, and what waits, and returns the status."""
    passed = sum(it.passes for it in tallies.values())
    failed = sum(it.failures for it in tallies.values()) + len(unproved)
    for name in unproved:
        print(f"wrong: {name}: the unchanged crate is not proved")
    missing = CONTROLS.difference(*[it.controls for it in tallies.values()])
    # (a run that leaves mutants out tries the correct bodies of some crates alone)
    if missing and run.is_of_all_crates and not run.left and not run.waits:
        print(f"wrong: no correct body of these kinds was tried: {', '.join(sorted(missing))}")
        failed += 1
    rejected = {edit.label for it in tallies.values() for edit in it.seen}
    void = [it.label for it in run.drawn if it.label not in rejected]
    if void:
        print(f"wrong: FAILED: wrong.seen is void: drawn and not rejected: {', '.join(void)}")
    if run.is_all:
        noted = [it.crate for it in tallies.values() if it.is_noted]
        lost = [it.crate for it in tallies.values() if it.is_noted is False]
        failed += len(lost)
        print(f"wrong: wrong.seen names the present commit for {', '.join(noted) or 'no crate'}")
        if lost:
            print(f"wrong: FAILED: wrong.seen keeps its lines of {', '.join(lost)}, since what was "
                  "tried is not the present commit")
    print(f"wrong: {run.tried} mutants tried, {len(run.drawn)} of them drawn; {run.left} not "
          "tried, since nothing that their verdict rests on has changed")
    print("\n".join([*run.waits, f"{passed} passed, {failed} failed"]))
    return 1 if failed else 0
