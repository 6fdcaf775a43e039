"""Which crate becomes which folder of the Rust package, and what is put around its text."""

import pathlib

from . import docs, macros
from .paths import Place
from .rules import Crate, Translation
from .source import Unknown

LIBRARY = (
    "nla_frame",
    "linkinfo_numbers",
    "linkinfo_shapes",
    "linkinfo_names",
    "linkinfo_messages",
    "linkinfo_table",
    "linkinfo_payloads",
    "linkinfo_lower",
    "linkinfo_devices",
    "linkinfo_tunnels",
    "linkinfo_peers",
    "linkinfo_typed",
    "linkinfo_data",
    "linkinfo",
)
LINES = "linkinfo_lines"
TOOL = "linkinfo_tool"
# The second program is a package of its own, with these libraries as its modules.
SHOWN = ("linkinfo_view", "linkinfo_print")
SHOW = "linkinfo_show"
TESTS = {
    "linkinfo_layers_tests": "layers",
    "linkinfo_families_tests": "families",
    "linkinfo_tests": "lists",
}
# How the first line of a generated file begins.
MARK = "// @generated"
PARTLY_USED = "dead_code, unused_imports, unused_macros"
# Some imports were used in contracts alone, and clippy's forms of these would be other text.
TEST_ROOT = """#![allow(
    unused_imports,
    clippy::err_expect,
    clippy::manual_next_back,
    clippy::manual_range_contains,
    clippy::needless_lifetimes,
    clippy::type_complexity,
    reason = "the text is that of the sources' tests"
)]"""
SHOW_ROOT = """#![forbid(unsafe_code)]
#![allow(
    dead_code,
    unused_imports,
    reason = "the text is that of proved libraries, of which this program does not use every item"
)]
#![allow(
    clippy::manual_map,
    clippy::manual_range_contains,
    clippy::needless_range_loop,
    clippy::while_let_on_iterator,
    reason = "the text is that of the proved source, where these forms are the ones with proofs"
)]"""


def module_of(crate):
    """The module of a library crate: `table` of `linkinfo_table`; that of the list is `link`."""
    return "link" if crate == "linkinfo" else crate.removeprefix("linkinfo_")


def library_paths(root):
    """What is written for the name of each library crate, below a root."""
    return {crate: f"{root}::layers::{module_of(crate)}" for crate in LIBRARY}


# Names that Rust's libraries do not have, or that abort or panic there in place of an error.
SHOW_PATHS = {
    "serde_json": "crate::compat::serde_json",
    "hex::encode": "crate::compat::hex",
    "env::args": "crate::compat::env",
}


def show_place(crate):
    """How the paths of a crate of the second program are written."""
    paths = library_paths("linkinfo") | {name: f"crate::{name}" for name in SHOWN} | SHOW_PATHS
    own = "crate" if crate == SHOW else paths[crate]
    glob = "crate::compat::calls::*"
    return Place(own, paths, "crate::compat", hosted=True, checked=True, glob=glob)


def place_of(crate):
    """How the paths of a crate are written."""
    if crate in LIBRARY:
        paths = library_paths("crate")
        return Place(paths[crate], paths, "crate::compat", checked=True)
    if crate in (*SHOWN, SHOW):
        return show_place(crate)
    paths = library_paths("linkinfo") | {name: f"crate::{name}" for name in (LINES, *SHOWN)}
    if crate == LINES:
        return Place(paths[LINES], paths, "linkinfo::compat", hosted=True)
    if crate not in TESTS:
        return Place("crate", paths, "linkinfo::compat", hosted=True)
    support, glob = "crate::support", "crate::support::*"
    return Place("crate", paths, "linkinfo::compat", hosted=True, support=support, glob=glob)


def read_crate(repository, name):
    """The crate with the texts of its files."""
    folder = repository / "crates" / name / "src"
    files = sorted(folder.rglob("*.rt"))
    texts = {str(f.relative_to(folder)): f.read_text(encoding="utf-8") for f in files}
    return Crate(name, texts, place_of(name))


def rust_name(file, root):
    """The name of a file in the crate: `lib.rt` is `mod.rs` below a folder, else the given root."""
    path = pathlib.PurePath(file)
    return root if file in ("lib.rt", "main.rt") else str(path.with_suffix(".rs"))


def marked(path, text, command="rust/translate/run"):
    """The text after a line, two where it is long, that says from what and by which command."""
    line = f"{MARK} from {path} by {command}."
    if len(line) > docs.WIDTH:
        line = line.replace(" by ", "\n// by ")
    return f"{line}\n\n{text}"


def written(crate, root, **command):
    """The texts of a crate, by their names in Rust."""
    return {
        rust_name(file, root): marked(f"crates/{crate.name}/src/{file}", source.text(), **command)
        for file, source in crate.sources.items()
    }


def layers_text(libraries):
    """The module that has one module for each library crate."""
    head = (pathlib.Path(__file__).parent / "layers.rs").read_text(encoding="utf-8")
    modules = "".join(f"pub mod {module_of(crate.name)};\n" for crate in libraries)
    return marked("rust/translate/translator/layers.rs", head + modules)


def library_files(libraries):
    """The generated files of `src`."""
    files = {"src/layers.rs": layers_text(libraries)}
    for crate in libraries:
        folder = f"src/layers/{module_of(crate.name)}"
        texts = written(crate, "mod.rs")
        if names := macros.exported(crate.sources.values()):
            texts["mod.rs"] += f"\n#[doc(inline)]\npub use crate::{{{', '.join(names)}}};\n"
        files |= {f"{folder}/{name}": text for name, text in texts.items()}
    return files


def with_modules(text, modules):
    """The root of a package with these `mod` items put in before its first item."""
    lines = text.split("\n")
    before = ("//!", "#!", MARK, "// by ")
    at = next(k for k, line in enumerate(lines) if line and not line.startswith(before))
    return "\n".join(lines[:at] + modules + [""] + lines[at:])


def mounted(name, path):
    """A module of another folder, of which not every item is used."""
    return [f"#[allow({PARTLY_USED})]", f'#[path = "{path}"]', f"mod {name};"]


def program_files(lines, tool):
    """The program, as an example of the package."""
    folder = f"examples/linkinfo/{LINES}"
    files = {f"{folder}/{name}": text for name, text in written(lines, "mod.rs").items()}
    module = [f"#[allow({PARTLY_USED})]", f"mod {LINES};"]
    main = with_modules(written(tool, "main.rs")["main.rs"], module)
    return files | {"examples/linkinfo/main.rs": main}


def show_files(libraries, program):
    """The package of the second program, but for `compat` and its tests."""
    files = {}
    for crate in libraries:
        texts = written(crate, "mod.rs")
        files |= {f"show/src/{crate.name}/{name}": text for name, text in texts.items()}
    modules = [SHOW_ROOT, "", "#[macro_use]", "mod compat;", *(f"mod {name};" for name in SHOWN)]
    modules += ["#[cfg(test)]", "mod tests;"]
    main = with_modules(written(program, "main.rs")["main.rs"], modules)
    return files | {"show/src/main.rs": main}


def test_files(crate, target):
    """The tests of a crate, as one target of cargo."""
    texts = written(crate, "main.rs")
    support = ["#[macro_use]", *mounted("support", "../support/mod.rs")]
    if any(f"crate::{LINES}" in text for text in texts.values()):
        support += mounted(LINES, f"../../examples/linkinfo/{LINES}/mod.rs")
    shown = [name for name in SHOWN if any(f"crate::{name}" in text for text in texts.values())]
    # Macros of `compat` have the names of those of `support`, which are the tests' own: the later.
    before = ["#[macro_use]", *mounted("compat", "../../show/src/compat.rs")] if shown else []
    for name in shown:
        before += mounted(name, f"../../show/src/{name}/mod.rs")
    modules = [TEST_ROOT, "", *before, *support]
    texts["main.rs"] = with_modules(texts["main.rs"], modules)
    return {f"tests/{target}/{name}": text for name, text in texts.items()}


def package_files(repository):
    """Every generated file of the package, by its path below `rust`."""
    libraries = [read_crate(repository, name) for name in LIBRARY]
    library = Translation(libraries)
    others = [read_crate(repository, name) for name in (LINES, TOOL, *TESTS, *SHOWN, SHOW)]
    rest = Translation(others, library)
    if dead := library.fit.entries() - library.fit.used - rest.fit.used:
        raise Unknown(f"sentences.txt or examples.txt: no doc comment has {min(dead)!r}")
    by_name = {crate.name: crate for crate in others}
    files = library_files(libraries) | program_files(by_name[LINES], by_name[TOOL])
    files |= show_files([by_name[name] for name in SHOWN], by_name[SHOW])
    for name, target in TESTS.items():
        files |= test_files(by_name[name], target)
    return files
