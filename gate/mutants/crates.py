"""The crates of the repository, and the toolchain."""
import functools
import os
import re
import subprocess

# The repository: the folder that the script `wrong` is in.
ROOT = os.path.dirname(os.path.dirname(os.path.dirname(os.path.realpath(__file__))))
# What a check reads of a crate.
PARTS = ("src", "specs", "proofs")


class BadEdit(Exception):
    """The reason why an edit cannot be tried."""


class Folder:
    """The folder of a crate, from which files are read by their paths in it."""

    def __init__(self, top):
        self.top = top

    def has(self, path):
        return os.path.isfile(f"{self.top}/{path}")

    def read(self, path):
        try:
            with open(f"{self.top}/{path}", encoding="utf-8") as it:
                return it.read()
        except OSError:
            raise BadEdit(f"there is no file {path}") from None

    def names(self, path):
        """The names in a folder of the crate, sorted, or none where there is no such folder."""
        folder = f"{self.top}/{path}"
        return sorted(os.listdir(folder)) if os.path.isdir(folder) else []

    def files(self, path):
        """The paths of all files below a folder of the crate, sorted."""
        walked = os.walk(f"{self.top}/{path}")
        return sorted(os.path.relpath(f"{at}/{it}", self.top) for at, _, ns in walked for it in ns)


def folder_of(crate, root=ROOT):
    return Folder(f"{root}/crates/{crate}")


def write(path, text):
    with open(path, "w", encoding="utf-8") as it:
        it.write(text)


def crates_of(root=ROOT):
    """The crates of crates.txt with the repository's libraries that each one uses, in the order of
    the file."""
    listed = {}
    with open(f"{root}/crates.txt", encoding="utf-8") as lines:
        for line in lines:
            named = re.match(r"(\w+)[^:#]*:([^#]*)", line)
            if named:
                listed[named[1]] = named[2].split()
    return {name: [it for it in deps if it in listed] for name, deps in listed.items()}


def below(crates, name):
    """The libraries that a crate uses, and those that they use."""
    libraries = []
    for dep in crates[name]:
        libraries += [it for it in [*below(crates, dep), dep] if it not in libraries]
    return libraries


@functools.cache
def toolchain():
    """The toolchain, as it prints its version."""
    ran = subprocess.run(["rt", "version"], stdout=subprocess.PIPE, text=True, check=True)
    return ran.stdout.strip()


def jobs():
    """How many checks run in parallel."""
    return int(os.environ.get("WRONG_JOBS", "0")) or len(os.sched_getaffinity(0))
