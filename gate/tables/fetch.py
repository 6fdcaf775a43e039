"""Fetches the kernel's headers, and files of its source, from Debian (gate/suite_packages)."""
import concurrent.futures
import gzip
import os
import pathlib
import re
import signal
import subprocess
import tarfile

ROOT = pathlib.Path(__file__).resolve().parents[2]
PACKAGES = ROOT / "gate/suite_packages"
# Of these the newest kernel is taken.
SUITES = ("experimental", "unstable")
SECONDS = 120
SECONDS_OF_SOURCE = 1800


def package(folder, suites, name, seconds=SECONDS):
    """Unpacks a package of some suites in a folder: whether it came in time."""
    words = [PACKAGES, folder, suites, f"^{name}$", name]
    nothing = subprocess.DEVNULL
    with subprocess.Popen(words, stdout=nothing, stderr=nothing, start_new_session=True) as ran:
        try:
            return ran.wait(seconds) == 0
        except subprocess.TimeoutExpired:
            # (with what it started)
            os.killpg(ran.pid, signal.SIGKILL)
            return False


def version(folder, name):
    """The version of an unpacked package: that of the newest entry of its changelog."""
    for path in (folder / "usr/share/doc" / name).glob("changelog*.gz"):
        with gzip.open(path, "rt", encoding="utf-8") as it:
            found = re.match(r"\S+ \(([^)]+)\)", it.readline())
        if found:
            return found[1]
    return None


def is_newer(one, other):
    """Whether a version is newer than another, by Debian's rules."""
    ran = subprocess.run(["dpkg", "--compare-versions", one, "gt", other], check=False)
    return ran.returncode == 0


def headers(folder):
    """The newest headers that can be fetched: version and path, or None."""
    name = "linux-libc-dev"
    with concurrent.futures.ThreadPoolExecutor() as pool:
        came = list(pool.map(lambda suite: package(folder / suite, suite, name), SUITES))
    newest = None
    for suite in (suite for suite, here in zip(SUITES, came) if here):
        given = version(folder / suite, name)
        if given and (newest is None or is_newer(given, newest[0])):
            newest = given, folder / suite / "usr/include/linux"
    return newest


def source(folder, given):
    """The files of the kernel's source that describe attributes of links, by their paths. The
    package is that of the version `given`; None where it does not come."""
    series = re.match(r"\d+\.\d+", given)[0]
    name = f"linux-source-{series}"
    if not package(folder, " ".join(SUITES), name, SECONDS_OF_SOURCE):
        return None
    found = {}
    archive = next((folder / "usr/src").glob("*.tar.xz"))
    with tarfile.open(archive, "r|xz") as every:
        for member in every:
            path = member.name.partition("/")[2]
            if path.endswith("netlink/specs/rt-link.yaml") or re.fullmatch(
                    r"(drivers/(net|infiniband/ulp/ipoib)|net)/.*\.c", path):
                text = every.extractfile(member).read().decode("utf-8", "replace")
                if path.endswith(".yaml") or re.search("rtnl_link_ops|BRIDGE_QUERIER_", text):
                    found[path] = text
    return found
