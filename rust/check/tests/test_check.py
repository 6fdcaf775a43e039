"""Each edit of a translation that changes a meaning is found, with its line."""
import collections
import importlib.machinery
import importlib.util
import pathlib
import sys
import tempfile
import unittest

FOLDER = pathlib.Path(__file__).resolve().parent.parent
sys.dont_write_bytecode = True


def program(path):
    """A program without a suffix, as a module."""
    loader = importlib.machinery.SourceFileLoader(path.name, str(path))
    module = importlib.util.module_from_spec(importlib.util.spec_from_loader(path.name, loader))
    loader.exec_module(module)
    return module


check_run = program(FOLDER / "run")

PLACES = """
crate frame crate::frame rust/src/frame.rs
path std::fmt core::fmt
path std::alloc crate::memory
path std::alloc::Global -
hand rust/src/lib.rs
macro cloned
"""

SOURCE = """//! Attributes in bytes.
#![tactic(auto, unfolding(crate::specs::at))]

ghost use Rattle.std.specs.Prelude.{length, Some};

use crate::kinds::{Kind, Name};
use std::alloc::{AllocError, Global};
use std::fmt;

/// A header.
#[derive(Clone, Drop, Debug)]
pub struct Header<T: Drop> {
    pub len: u16,
    /// Its view.
    ghost view : { Self → Header };
}

/// What a contract sees.
impl<T> Model for Header<T> {
    ghost Value = { Header };
}

impl fmt::Display for Header {
    fn fmt<W: fmt::Write>(&self, f: &mut fmt::Formatter<W>) -> fmt::Result {
        f.write_str("Drop, alloc, requires { }")
    }
}

/// The offset after the header.
pub fn after(alloc: Global, text: &[u8], kind: Kind) -> Result<usize, AllocError>
    requires { length text.now ≤ 4 }
    ensures *answer { IfOk result (λ n. n ≡ x') }
{
    let place = start(alloc, text)? + 4;
    match kind {
        // The first one.
        Kind::Drop => Ok(place),
        Kind::Long => {
            Err(AllocError)
        }
    }
}
"""

CRATE = """// @generated from crates/frame/src/lib.rt by rust/translate/run.

//! Attributes in bytes.
use crate::frame::kinds::Kind;
use crate::frame::kinds::Name;
use crate::memory::AllocError;
use core::fmt;

/// A header.
#[derive(Clone, Debug)]
pub struct Header<T> {
    pub len: u16,
}

impl fmt::Display for Header {
    fn fmt(&self, f: &mut fmt::Formatter<'_>) -> fmt::Result {
        f.write_str("Drop, alloc, requires { }")
    }
}

/// The offset after the header.
pub fn after(
    text: &[u8],
    kind: Kind,
) -> Result<usize, AllocError> {
    let place = start(text)? + 4;
    match kind {
        // The first one.
        Kind::Drop => {
            Ok(place)
        }
        Kind::Long => Err(AllocError),
    }
}
"""

LISTED = {("rust/src/frame.rs", "W", "'_"): 1}


def wrong_in(crate_text, source=SOURCE, listed=None, more=()):
    with tempfile.TemporaryDirectory() as name:
        root = pathlib.Path(name)
        (root / "places.txt").write_text(PLACES)
        files = {"crates/frame/src/lib.rt": source, "rust/src/lib.rs": "mod frame;\n"}
        files["rust/src/frame.rs"] = crate_text
        files.update(more)
        for path, text in files.items():
            (root / path).parent.mkdir(parents=True, exist_ok=True)
            (root / path).write_text(text)
        places = check_run.Places(root / "places.txt")
        counted = collections.Counter(LISTED if listed is None else listed)
        return check_run.Check(root, places, (counted, collections.Counter())).wrong


def line_of(text, part):
    return text[: text.index(part)].count("\n") + 1


class Check(unittest.TestCase):
    def edited(self, old, new, source=None):
        """One difference, on the line of the edit; where words are gone, on `source`'s line."""
        self.assertEqual(CRATE.count(old), 1)
        wrong = wrong_in(CRATE.replace(old, new))
        if source:
            where = f"crates/frame/src/lib.rt:{line_of(SOURCE, source)}: "
        else:
            where = f"rust/src/frame.rs:{line_of(CRATE, old)}: "
        self.assertEqual(len(wrong), 1, wrong)
        self.assertTrue(wrong[0].startswith(where), (wrong, where))

    def test_the_same_words_pass(self):
        self.assertEqual(wrong_in(CRATE), [])

    def test_a_dropped_arm(self):
        self.edited("        Kind::Long => Err(AllocError),\n", "", "Kind::Long")

    def test_a_dropped_question_mark(self):
        self.edited("start(text)?", "start(text)", "start(alloc")

    def test_a_dropped_operand(self):
        self.edited("? + 4;", "?;", "start(alloc")

    def test_another_number(self):
        self.edited("? + 4;", "? + 8;")

    def test_an_inserted_word(self):
        self.edited("start(text)", "!start(text)")

    def test_swapped_words(self):
        wrong = wrong_in(CRATE.replace("start(text)? + 4", "4 + start(text)?"))
        self.assertEqual(len(wrong), 2, wrong)

    def test_a_dropped_argument(self):
        self.edited("start(text)", "start()", "start(alloc")

    def test_a_dropped_item(self):
        wrong = wrong_in(CRATE[: CRATE.index("/// The offset")])
        self.assertEqual(len(wrong), 2, wrong)

    def test_laws_and_their_calls(self):
        laws = """
/// What follows.
pub fn framed(bytes: &[u8]) ensures { true } { inner(); laws::inner(); }
pub(crate) fn inner() {}
fn uses(bytes: &[u8]) -> usize { framed(bytes); count(bytes) }
"""
        self.assertEqual(
            wrong_in(CRATE + "fn uses(bytes: &[u8]) -> usize { count(bytes) }\n", SOURCE + laws), []
        )

    def test_calls_for_c(self):
        source = """
/// Counts.
#[unsafe(no_mangle)]
pub extern "C" fn counted(bytes: &[u8]) -> u8 { count(bytes) }
"""
        crate = "\n/// Counts.\npub fn counted(bytes: &[u8]) -> u8 { count(bytes) }\n"
        self.assertEqual(wrong_in(CRATE + crate, SOURCE + source), [])

    def test_macros_that_are_listed(self):
        macro = """
/// Clones.
#[macro_export]
macro_rules! cloned { ($x:ident) => { $x.clone()? }; }
"""
        self.assertEqual(wrong_in(CRATE, SOURCE + macro), [])
        self.assertNotEqual(wrong_in(CRATE, SOURCE + macro.replace("cloned", "copied")), [])

    def test_a_clone_by_hand(self):
        source = """
/// A clone is equal.
impl Clone for Kind { fn clone(&self) -> Result<Kind, AllocError> { copy(self) } }
#[derive(Debug, Drop)]
struct Kind;
"""
        derived = {**LISTED, ("rust/src/frame.rs", "", ", Clone"): 1}
        crate = "#[derive(Debug, Clone)]\nstruct Kind;\n"
        self.assertEqual(wrong_in(CRATE + crate, SOURCE + source, derived), [])

    def test_the_runtime_of_tests(self):
        source = """
#[derive(Drop)]
struct Case;
#[test]
fn tried(rt: HostRuntime, case: Case) {
    let alloc = rt.alloc();
    assert!(rt; parsed(&rt, rt.alloc(), &case));
    with(case, alloc);
}
fn parsed(rt: &impl Abort, alloc: Global, case: &Case) -> bool { case.is(rt) }
struct Held { alloc: Global, len: u8 }
struct Shared { pub(crate) alloc: Global, pub(crate) len: u8 }
fn held(rt: &HostRuntime) -> Held { Held { alloc, len: of(self.alloc, x) } }
"""
        crate = """
struct Case;
#[test]
fn tried(case: Case) {
    assert!(parsed(&case));
    with(case);
}
fn parsed(case: &Case) -> bool { case.is() }
struct Held { len: u8 }
struct Shared { pub(crate) len: u8 }
fn held() -> Held { Held { len: of(x) } }
"""
        self.assertEqual(wrong_in(CRATE + crate, SOURCE + source), [])
        dropped = crate.replace("    assert!(parsed(&case));\n", "")
        self.assertNotEqual(wrong_in(CRATE + dropped, SOURCE + source), [])

    def test_what_is_no_law(self):
        for source in (
            "fn set(place: &mut u8) {}",
            "fn counted() -> u8 {}",
            "fn noted() { note(); }",
            "fn left() { return; }",
            "fn with_arguments() { with_arguments(note()); }",
        ):
            self.assertEqual(len(wrong_in(CRATE, SOURCE + source)), 1, source)
            call = source[3 : source.index("(")] + "();"
            uses = f"{source}\nfn uses() -> u8 {{ {call} 1 }}"
            without = f"{source}\nfn uses() -> u8 {{ 1 }}"
            self.assertEqual(wrong_in(CRATE + uses, SOURCE + uses), [])
            self.assertEqual(len(wrong_in(CRATE + without, SOURCE + uses)), 1, source)

    def test_a_call_that_shares_its_name_with_a_law(self):
        uses = "fn uses() -> u8 { again(); 1 }\n"
        left = "fn again() { note(); }\n"
        source = SOURCE + "fn again() {}\n" + left + uses
        self.assertEqual(wrong_in(CRATE + left + uses, source), [])
        wrong = wrong_in(CRATE + left + uses.replace("again(); ", ""), source)
        self.assertEqual(len(wrong), 1, wrong)

    def test_a_path_that_ends_in_a_deleted_word(self):
        self.edited("Kind::Drop =>", "Kind =>")

    def test_a_word_in_a_string(self):
        self.edited('"Drop, alloc, requires { }"', '"alloc, requires { }"')

    def test_a_clause_that_was_left(self):
        self.edited("    let place", "    requires { true } let place")

    def test_a_bound_that_was_left(self):
        self.edited("Header<T> {\n    pub", "Header<T: Drop> {\n    pub")

    def test_an_import_from_elsewhere(self):
        self.edited("use crate::frame::kinds::Name;", "use crate::frame::names::Name;")

    def test_an_alias(self):
        self.edited("use core::fmt;", "use core::fmt as format;")

    def test_an_import_that_is_public(self):
        self.edited("use core::fmt;", "pub use core::fmt;")

    def test_an_import_that_is_gone(self):
        self.assertEqual(wrong_in(CRATE.replace("use crate::frame::kinds::Name;\n", "")), [])

    def test_a_first_line_that_is_wrong_or_missing(self):
        for new in ("crates/other.rt", "crates/frame/src/lib.rt by me, not"):
            self.assertEqual(len(wrong_in(CRATE.replace("crates/frame/src/lib.rt", new))), 1)
        self.assertEqual(len(wrong_in(CRATE[CRATE.index("//!") :])), 1)
        long = CRATE.replace("lib.rt by", "lib.rt\n// by")
        self.assertEqual(wrong_in(long), [])

    def test_links(self):
        source = SOURCE.replace("after the header.", "after the `Header::len`, as `start`.")
        crate = CRATE.replace("after the header.", """after the [`Header::len`], as [`start`].
///
/// [`Header::len`]: crate::frame::Header::len
/// [`start`]: crate::frame::start""")
        self.assertEqual(wrong_in(crate, source), [])
        other = crate.replace("crate::frame::start", "crate::frame::stop")
        self.assertEqual(len(wrong_in(other, source)), 1)

    def test_a_doc_comment(self):
        self.edited("/// The offset after the header.", "/// The offset of the header.")

    def test_a_comment(self):
        self.edited("        // The first one.\n", "", "// The first one.")

    def test_words_that_are_listed_once_and_seen_twice(self):
        body = "fn fmt<W: fmt::Write>(&self, f: &mut fmt::Formatter<W>) {}\n"
        other = "fn fmt(&self, f: &mut fmt::Formatter<'_>) {}\n"
        self.assertEqual(len(wrong_in(CRATE + other, SOURCE + body)), 1)

    def test_words_that_are_listed_and_not_seen(self):
        self.assertEqual(len(wrong_in(CRATE, listed={**LISTED, ("a.rs", "x", "y"): 1})), 1)

    def test_a_module_of_laws_alone(self):
        laws = {"crates/frame/src/rules.rt": "//! Laws.\nuse crate::x;\npub fn framed() {}\n"}
        source = SOURCE.replace("/// A header.", "pub mod rules;\n\n/// A header.")
        self.assertEqual(wrong_in(CRATE, source, more=laws), [])
        more = {**laws, "rust/src/frame/rules.rs": ""}
        self.assertEqual(len(wrong_in(CRATE, source, more=more)), 1)

    def test_a_file_without_a_source(self):
        self.assertEqual(len(wrong_in(CRATE, more={"rust/src/more.rs": "\n"})), 1)

    def test_a_source_without_a_file(self):
        self.assertEqual(len(wrong_in(CRATE, more={"crates/frame/src/more.rt": "mod x;"})), 1)


class Planted(unittest.TestCase):
    def test_each_text_that_is_planted_is_there_once(self):
        """gate/rust_planted takes minutes; that its texts are there is seen at once."""
        for name, old, _ in program(FOLDER.parent.parent / "gate/rust_planted").PLANTED:
            text = (FOLDER.parent / name).read_text(encoding="utf-8")
            self.assertEqual(text.count(old), 1, (name, old))


if __name__ == "__main__":
    unittest.main()
