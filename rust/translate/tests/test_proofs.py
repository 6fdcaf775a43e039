from tests.helping import RuleTest
from translator import clones, panics, proofs, without_laws
from translator.laws import Laws
from translator.rules import Crate
from translator.source import Source, Unknown


class Proofs(RuleTest):
    def test_ghost_items(self):
        self.assert_written(
            proofs.delete_ghosts,
            "ghost use A.{b, c};\nuse d;\nimpl E { /// f\n ghost g = { λ x. x, y };\n fn h() {} }",
            "use d; impl E { fn h() {} }",
        )

    def test_ghost_fields(self):
        self.assert_written(
            proofs.delete_ghosts,
            "struct A { b: u8, ghost c: { b ≤ 1 }, d: u8 }",
            "struct A { b: u8, d: u8 }",
        )

    def test_a_name_that_is_no_ghost(self):
        self.assert_kept(proofs.delete_ghosts, "fn f(a: u8) -> u8 { a.ghost + ghost }")

    def test_clauses(self):
        self.assert_written(
            proofs.delete_clauses,
            "fn f(a: u8) -> u8\n requires { a < 3 }\n ensures * b { { a } }\n ensures c { a' ≡ "
            "x }\n{ a }",
            "fn f(a: u8) -> u8 { a }",
        )

    def test_names_like_clauses(self):
        self.assert_kept(proofs.delete_clauses, "fn ensures() { requires(a); let ensures = 1; }")

    def test_attributes(self):
        self.assert_written(
            proofs.delete_proof_attributes,
            "#![tactic(auto)]\n#[tactic(auto, using(a::b))]\n#[cycle(c)]\n#[inline(always)] fn "
            "d() {}",
            "#[inline(always)] fn d() {}",
        )

    def test_models(self):
        self.assert_written(
            proofs.delete_models,
            "/// A.\nimpl<'a> Model for B<'a> {}\nimpl C for D {}",
            "impl C for D {}",
        )
        with self.assertRaises(Unknown):
            proofs.delete_models(Source("impl Model for B { fn c() {} }", "case"))

    def test_drop_bounds(self):
        self.assert_written(
            proofs.delete_drop_bounds,
            "fn f<A: Drop, B: C + Drop, D: Drop + E>() {} trait F: Drop {}",
            "fn f<A, B: C, D: E>() {} trait F {}",
        )
        self.assert_kept(proofs.delete_drop_bounds, "enum A { Drop, B } fn f() -> A { A::Drop }")

    def test_drop_bound_of_a_where(self):
        self.assert_written(
            proofs.delete_drop_bounds,
            "fn f() -> A where B: Drop, { g() } fn h() -> A where B: Drop, ;",
            "fn f() -> A { g() } fn h() -> A ;",
        )

    def test_final(self):
        self.assert_written(proofs.delete_final, "final fn f(final_: u8) {}", "fn f(final_: u8) {}")


class Clones(RuleTest):
    def test_an_impl_gives_way_to_the_derive(self):
        self.assert_written(
            clones.rewrite_clones,
            "#[derive(Debug, Drop)] struct A<T>(T);\n/// B.\nimpl<T: Clone + Drop> Clone for "
            "A<T> { fn clone() {} }",
            "#[derive(Debug, Clone)] struct A<T>(T);",
        )

    def test_derives_of_drop(self):
        self.assert_written(
            clones.rewrite_clones,
            "#[derive(Drop)] struct A; #[derive(Drop, Eq)] enum B {} #[derive(Eq, Drop)] struct C;",
            "struct A; #[derive(Eq)] enum B {} #[derive(Eq)] struct C;",
        )

    def test_a_type_elsewhere_is_unknown(self):
        with self.assertRaises(Unknown):
            clones.rewrite_clones(Source("impl Clone for A { fn clone() {} }", "case"))


class Panics(RuleTest):
    HEADING = "".join(f"/// {line}".rstrip() + "\n" for line in panics.TEXT)

    def test_public_functions(self):
        self.assert_written(
            panics.document_panics,
            "/// A.\n#[b]\npub fn c(d: u8)\n requires { d }\n requires { d }\n{}",
            f"/// A.\n///\n{self.HEADING}#[b]\npub fn c(d: u8)\n requires {{ d }}\n requires {{ "
            f"d }}\n{{}}",
        )

    def test_methods_of_traits_without_docs(self):
        self.assert_written(
            panics.document_panics,
            "trait A { fn b(c: u8) requires { c } ; }",
            f"trait A {{ {self.HEADING} fn b(c: u8) requires {{ c }} ; }}",
        )

    def test_others(self):
        self.assert_kept(
            panics.document_panics,
            "pub(crate) fn a() requires { b } {} fn c() requires { d } {}",
        )
        self.assert_kept(panics.document_panics, "pub fn a() ensures { b } {}")


class LawsTest(RuleTest):
    def written(self, **texts):
        crate = Crate("low", {f"{name}.rt": text for name, text in texts.items()}, None)
        found = Laws([crate])
        without_laws.delete_all([crate], found)
        return {file: " ".join(source.text().split()) for file, source in crate.sources.items()}

    def test_laws_and_their_calls(self):
        files = self.written(
            lib="pub mod laws;\npub mod code;\npub use laws as low_laws;\npub use code::f;",
            laws="use a::B;\n/// A law.\npub fn one<P: B<u8>>(c: &[u8]) {}\n"
            "pub fn two() { one::<B>(d); }",
            code="use crate::laws::two as second;\nuse crate::laws;\n"
            "pub fn f() -> u8 { laws::one::<B>(x); second(); 1 }",
        )
        self.assertEqual(
            files,
            {"lib.rt": "pub mod code; pub use code::f;", "code.rt": "pub fn f() -> u8 { 1 }"},
        )

    def test_law_of_a_trait(self):
        text = ("pub trait T { fn f(); fn g(&self) -> u8; } "
                "impl T for u8 { fn f() { h(); } fn g(&self) -> u8 { 1 } } "
                "fn h() {} fn i<A: T>(a: &A) -> u8 { A::f(); a.g() }")
        kept = ("pub trait T { fn g(&self) -> u8; } impl T for u8 { fn g(&self) -> u8 { 1 } } "
                "fn i<A: T>(a: &A) -> u8 { a.g() }")
        self.assertEqual(self.written(code=text)["code.rt"].split(), kept.split())

    def test_what_is_no_law(self):
        text = (
            "fn f(a: &mut u8) {} fn g() { h(); } fn h() -> u8 { 1 } impl A { fn i() {} } fn "
            "j() { if k {} }"
        )
        self.assertEqual(self.written(code=text), {"code.rt": text})

    def test_a_call_of_another_function_of_the_name_stays(self):
        text = "pub fn named() -> u8 { 1 } fn g() -> u8 { named(); other::named(); 1 }"
        self.assertEqual(self.written(
            laws="pub fn named() {}\npub fn b() -> u8 { 1 }",
            code=text)["code.rt"], text,
        )

    def test_a_call_that_computes_an_argument(self):
        for argument in ("a?", "a.next()", "&mut a", "a!()", "a = 1"):
            with self.assertRaises(Unknown):
                code = f"fn f() -> u8 {{ laws::b({argument}); 1 }}"
                self.written(laws="pub fn b() {}", code=code)

    def test_tests_of_laws_alone(self):
        source = Source("#[test] fn a() {} #[test] fn b() { c(); }", "case")
        self.assertEqual(without_laws.delete_empty_tests(source), ["a"])
