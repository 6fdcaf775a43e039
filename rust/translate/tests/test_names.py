import pathlib
import tempfile

from tests.helping import RuleTest, words
from translator import docs, imports, known, macros
from translator.layout import LIBRARY, library_paths, place_of
from translator.paths import name_paths
from translator.source import Source, Unknown


class Paths(RuleTest):
    def written_in(self, crate, text):
        source = Source(text, "case")
        name_paths(source, place_of(crate))
        return words(source.text())

    def test_modules_of_the_library(self):
        text = (
            "use crate::a::B; use nla_frame::{C}; linkinfo::d(); pub(crate) fn e() {} "
            "x::crate_::y"
        )
        wanted = (
            "use crate::layers::table::a::B; use crate::layers::nla_frame::{C}; "
            "crate::layers::link::d();"
            " pub(crate) fn e() {} x::crate_::y"
        )
        self.assertEqual(self.written_in("linkinfo_table", text), words(wanted))

    def test_macros(self):
        text = "$crate::Decoded::Typed; $crate::store_row!(a)"
        wanted = "$crate::layers::table::Decoded::Typed; $crate::store_row!(a)"
        self.assertEqual(self.written_in("linkinfo_table", text), words(wanted))

    def test_std(self):
        text = (
            "use std::fmt; use std::{slice, vec}; use std::alloc::AllocError; use "
            "std::net::IpAddr;"
        )
        wanted = (
            "use core::fmt; use core::slice; use alloc::vec; use crate::compat::AllocError; "
            "use core::net::IpAddr;"
        )
        self.assertEqual(self.written_in("nla_frame", text), words(wanted))
        with self.assertRaises(Unknown):
            self.written_in("nla_frame", "use std::thread;")

    def test_tests(self):
        text = (
            "use crate::a; use std::test::Fail; use std::io; use linkinfo::B; use "
            "linkinfo_lines::run; use std::alloc::AllocError;"
        )
        wanted = (
            "use crate::a; use crate::support::Fail; use std::io; use linkinfo::layers::link::B;"
            " use crate::linkinfo_lines::run; use linkinfo::compat::AllocError;"
        )
        self.assertEqual(self.written_in("linkinfo_tests", text), words(wanted))

    def test_the_second_program(self):
        text = (
            "use crate::a; use serde_json::{Map, put}; use std::{env, io}; use hex::C; "
            "use linkinfo::D; use linkinfo_view::E; use std::alloc::AllocError; hex::encode(f); "
            "env::args()"
        )
        wanted = (
            "use crate::linkinfo_print::a; use crate::compat::serde_json::{Map, put}; "
            "use std::{env, io}; use hex::C; use linkinfo::layers::link::D; "
            "use crate::linkinfo_view::E; use crate::compat::AllocError; "
            "crate::compat::hex::encode(f); crate::compat::env::args()"
        )
        self.assertEqual(self.written_in("linkinfo_print", text), words(wanted))
        self.assertEqual(self.written_in("linkinfo_show", "use crate::a;"), words("use crate::a;"))

    def test_each_crate_has_a_module_of_its_own(self):
        self.assertEqual(len(set(library_paths("crate").values())), len(LIBRARY))


class Imports(RuleTest):
    def delete(self, traits):
        return lambda source: imports.delete_unused(source, traits)

    def test_names_whose_uses_were_deleted(self):
        source = Source("use a::{B, C};\nuse d::E as F;\npub use g::H;\nfn f(x: B) { C F }", "case")
        source.delete(len(source.kept) - 3, len(source.kept) - 1, "body")
        source.refresh()
        imports.delete_unused(source, {})
        self.assertEqual(words(source.text()), words("use a::{B}; pub use g::H; fn f(x: B) { }"))

    def test_names_that_were_never_written_stay(self):
        self.assert_kept(self.delete({}), "use a::FromStr; fn f() { b.parse() }")

    def test_traits_whose_methods_are_called_stay(self):
        def rule(source):
            source.delete(len(source.kept) - 1, len(source.kept), "clause")
            source.refresh()
            imports.delete_unused(source, {"B": {"c"}, "D": {"e"}})

        self.assert_written(
            rule,
            "use a::{B, D}; fn f() { x.c() } fn g(y: D) {} B",
            "use a::{B, D}; fn f() { x.c() } fn g(y: D) {}",
        )

    def test_prelude_and_traits_of_calls(self):
        source = Source("//! A.\n#![b]\n/// C.\nfn f(v: &mut Vec<u8>) { v.try_push(1) }", "case")
        imports.put_imports(source, place_of("nla_frame"))
        wanted = (
            "//! A.\n#![b] use alloc::vec::Vec; use crate::compat::TryVec; /// C.\nfn f(v: "
            "&mut Vec<u8>) { v.try_push(1) }"
        )
        self.assertEqual(words(source.text()), words(wanted))

    def test_traits_of_calls_in_the_second_program(self):
        for body, wanted in (("a.try_to_text()", "use crate::compat::calls::*; "), ("b()", "")):
            source = Source(f"fn f() {{ {body} }}", "case")
            imports.put_imports(source, place_of("linkinfo_print"))
            self.assertEqual(words(source.text()), words(f"{wanted}fn f() {{ {body} }}"))


class Macros(RuleTest):
    def test_what_nothing_expands_is_deleted(self):
        one = Source(
            "/// A.\n#[macro_export]\nmacro_rules! a { () => { b!() } }\nmacro_rules! b { () "
            "=> { b!() } }",
            "one",
        )
        two = Source("#[macro_export] macro_rules! c { () => {} }\npub use c;", "two")
        macros.delete_unexpanded([one, two])
        self.assertEqual(one.text().strip(), "")
        self.assertEqual(macros.exported([one, two]), ["c"])


class Known(RuleTest):
    def check(self, text, *names):
        known.check_known(Source(text, "case"), set(names))

    def test_names_that_are_defined_or_in_the_vocabulary(self):
        self.check("fn f() { a.b(); C::d(); e!(); $g!(); !(h); x != y }", "b", "d", "e")
        self.check("0..b::c", "c")
        for text in ("a.b()", "C::d", "e!()", "a.b::<u8>()", "0..a.b()"):
            with self.assertRaises(Unknown):
                self.check(text)

    def test_what_is_defined(self):
        source = Source(
            "enum A { /// B.\n B, C(u8), D { e: u8 } } fn f() {} macro_rules! g { () => {} }",
            "case",
        )
        self.assertEqual(known.defined(source), {"A", "B", "C", "D", "f", "g"})

    def test_words_of_rattle(self):
        for text in (
            "ghost a;",
            "fn f(a: Global) {}",
            "f(alloc)",
            "rt.a()",
            "prove!(b)",
            "a ≡ b",
            "#[tactic(auto)]",
            "#[derive(Drop)]",
        ):
            with self.assertRaises(Unknown):
                self.check(text, "a", "prove")


class Docs(RuleTest):
    def fitted(self, text, pairs=()):
        source = Source(text, "case")
        fit = docs.Fit()
        fit.sentences = pairs
        fit.source(source, place_of("nla_frame"))
        return source.text(), fit.used

    def test_examples(self):
        text = (
            "/// A.\n///\n/// ```text\n/// let a = f(alloc, vec![in alloc; b]?)?;\n/// "
            "println!(rt; c)?;\n/// ```\nfn f() {}\n"
        )
        wanted = (
            "/// A.\n///\n/// ```text\n/// let a = f(vec![b])?;\n/// println!(c);\n/// ```\nfn "
            "f() {}\n"
        )
        self.assertEqual(self.fitted(text)[0], wanted)

    def test_sentences(self):
        text = "    /// One that is\n    /// proved. Two.\n    fn f() {}\n"
        wanted = "    /// Two.\n    fn f() {}\n"
        self.assertEqual(self.fitted(
            text,
            [("One that is proved. ", "")]), (wanted,
            {"One that is proved. "}),
        )

    def test_long_lines_are_wrapped_and_lists_are_kept(self):
        rest = "\n///\n/// - a\n/// - `linkinfo_table`\nfn f() {}\n"
        text, _ = self.fitted("/// " + "word " * 30 + rest)
        lines = text.splitlines()
        self.assertLessEqual(max(map(len, lines)), 100)
        self.assertEqual(lines[-4:], ["///", "/// - a", "/// - `layers::table`", "fn f() {}"])

    def test_words_of_proofs(self):
        with self.assertRaises(Unknown):
            self.fitted("/// It is proved.\nfn f() {}\n")

    def test_the_table(self):
        with tempfile.TemporaryDirectory() as folder:
            path = pathlib.Path(folder) / "table"
            path.write_text("# c\n- a\n+ b\n- d\n+\n", encoding="utf-8")
            self.assertEqual(docs.read_table(path), [("a", "b"), ("d", "")])
            path.write_text("- a\n- b\n", encoding="utf-8")
            with self.assertRaises(ValueError):
                docs.read_table(path)
