"""Copies of crates in which mutants are checked, and the libraries that `rt ci` has built."""
import contextlib
import importlib.machinery
import importlib.util
import os
import re
import shutil
import subprocess
import sys

from .crates import PARTS, ROOT, below, folder_of, write
from .judging import UNASKED, Report
from .steps import answers_path


# A stub: the answer to a goal that no function has, in the proof file of a function. A check
# searches the goals of the function, and reads its other answers, as it does without one. But where
# a goal stays open it does not go on to print a file to begin the proof with, which takes a tenth
# of its time, and half of it for some.
STUB = f"""
pub {UNASKED} : goal.{UNASKED}
{UNASKED} c = c
"""


def check(folder, texts, only=(), stubbed=()):
    """Checks the crate in that folder with these texts instead of its files: all of it, or only
    these functions and those that they call. The functions in `stubbed` have a stub each, at the
    end of the proof file that these texts or else the folder has for them."""
    begun = {answers_path(it): begun_answers(folder, it, texts) for it in stubbed}
    stubs = {it: text.removesuffix(STUB) + STUB for it, text in begun.items()}
    changed = {**texts, **stubs}
    own = {path: folder.read(path) for path in changed if folder.has(path)}
    for path, text in changed.items():
        os.makedirs(os.path.dirname(f"{folder.top}/{path}"), exist_ok=True)
        write(f"{folder.top}/{path}", text)
    try:
        words = [word for it in sorted({*only}) for word in ("--only", it.partition("::")[2])]
        return run(folder.top, words, stubbed)
    finally:
        for path in changed:
            if path in own:
                write(f"{folder.top}/{path}", own[path])
            elif folder.has(path):
                os.remove(f"{folder.top}/{path}")
                with contextlib.suppress(OSError):
                    os.removedirs(os.path.dirname(f"{folder.top}/{path}"))


def begun_answers(folder, function, texts=()):
    """The proof file of the function, among these texts or in the folder, or the beginning of
    one."""
    path = answers_path(function)
    if path in texts:
        return texts[path]
    if folder.has(path):
        return folder.read(path)
    crate, *inside = function.split("::")
    return f"use Rattle.{'.'.join([crate, 'proofs', *inside])}.Goals as goal\n"


def run(folder, words, stubbed=()):
    """Runs `rt check` with these words in the folder."""
    words = ["rt", "check", "--jobs", "1", *words]
    pipes = {"stdin": subprocess.DEVNULL, "stdout": subprocess.PIPE, "stderr": subprocess.STDOUT}
    with subprocess.Popen(words, cwd=folder, text=True, errors="replace", **pipes) as started:
        said = started.stdout.read()
        _, status, used = os.wait4(started.pid, 0)
        started.returncode = os.waitstatus_to_exitcode(status)
    return Report(said, started.returncode, used.ru_utime + used.ru_stime, stubbed)


def room_for(crates, name, top, stamps):
    """A copy of the crate, with the work that its check kept, and of the libraries below it with
    what was built. With stamps the crate has no kept work, and each library has its stamp."""
    room = f"{top}/{name}"
    os.makedirs(f"{room}/.git")
    wanted = [*below(crates, name), name]
    with open(f"{ROOT}/crates.txt", encoding="utf-8") as lines:
        listed = [it for it in lines if re.match(r"\w*", it)[0] in wanted]
    write(f"{room}/crates.txt", "".join(listed))
    for it in wanted:
        kept = ["out/rlib"] if it != name else [] if stamps else ["out"]
        for name_in in (*PARTS, *kept):
            if os.path.isdir(f"{ROOT}/crates/{it}/{name_in}"):
                shutil.copytree(f"{ROOT}/crates/{it}/{name_in}", f"{room}/crates/{it}/{name_in}")
        if stamps and it != name:
            write(f"{room}/crates/{it}/out/rlib/stamp", stamps[it])
    return folder_of(name, room)


def stamps_of(crates):
    """Right after `rt ci`: the stamp of each library, by which `rt check` takes it as built from
    its files, or None where the files of one have changed. `rt ci` leaves no stamps: the libraries
    of its run fit one another and no others, and a copy has those of one run alone."""
    command = os.path.dirname(os.path.realpath(shutil.which("rt") or ""))
    try:
        sys.dont_write_bytecode = True
        loader = importlib.machinery.SourceFileLoader("rtlib", f"{command}/rtlib.py")
        spec = importlib.util.spec_from_loader("rtlib", loader)
        rtlib = importlib.util.module_from_spec(spec)
        loader.exec_module(rtlib)
        names = {it for deps in crates.values() for it in deps}
        made = {it: rtlib.Crate(f"{ROOT}/crates/{it}", ROOT, {}).stamp() for it in names}
    except (AttributeError, OSError, SystemExit, TypeError):
        return None
    # (libraries that have a stamp are not of `rt ci`'s run)
    stamped = {os.path.isfile(f"{ROOT}/crates/{it}/out/rlib/stamp") for it in made}
    is_one_run = len(stamped) == 1
    return made if is_one_run and all(is_built(it, stamp) for it, stamp in made.items()) else None


def is_built(name, stamp):
    """Whether the library is built, no file of it is newer, and its stamp, if any, is this."""
    folder = folder_of(name)
    files = [f"{folder.top}/{it}" for name_in in PARTS for it in folder.files(name_in)]
    own = folder.read("out/rlib/stamp") if folder.has("out/rlib/stamp") else stamp
    built = f"{folder.top}/out/rlib/{name}.rlib"
    if own != stamp or not os.path.isdir(built):
        return False
    return all(os.path.getmtime(it) < os.path.getmtime(built) for it in files)


def leave_stamps(crates):
    """Right after `rt ci`: gives each library that it built its stamp, so that `rt lib` takes the
    library unchanged. The status is 1 where the files of one have changed since."""
    stamps = stamps_of(crates)
    for name, stamp in (stamps or {}).items():
        write(f"{ROOT}/crates/{name}/out/rlib/stamp", stamp)
    return 0 if stamps else 1
