from tests.helping import RuleTest
from translator import allocator, casts, fallible, flags, formatting, inlining
from translator.rules import Own
from translator.source import Source, Unknown


class Allocator(RuleTest):
    def test_arguments(self):
        self.assert_written(
            allocator.delete_arguments,
            "f(alloc); f(alloc, a); f(a, alloc); f(self.alloc, b); f(&rt, rt.alloc(), c); "
            "g!($alloc, d)",
            "f(); f(a); f(a); f(b); f(c); g!(d)",
        )

    def test_parameters_and_fields(self):
        self.assert_written(
            allocator.delete_arguments,
            "fn f(rt: &impl Abort, alloc: Global, a: u8) {} fn g(_alloc: Global) {} struct A { "
            "/// B.\n alloc: Global, c: u8 } "
            "struct D { pub(crate) alloc: Global, pub(crate) e: u8 }"
            " macro_rules! h { ($alloc:ident, $d:ident) => {} } fn main(rt: HostRuntime) {}",
            "fn f(a: u8) {} fn g() {} struct A { c: u8 } struct D { pub(crate) e: u8 } "
            "macro_rules! h { ($d:ident) => {} } fn main() {}",
        )
        self.assert_written(
            allocator.delete_arguments,
            "fn f(rt: &HostRuntime, a: u8) { A { alloc, a }; b(self.alloc) }",
            "fn f(a: u8) { A { a }; b() }",
        )

    def test_others_stay(self):
        self.assert_kept(
            allocator.delete_arguments,
            "use std::alloc::{AllocError}; f(alloc.a, rtt, alloc + 1); fn g(alloc: u8) {}",
        )

    def test_statements(self):
        self.assert_written(
            allocator.delete_allocator_statements,
            "let alloc = rt.alloc(); let a = 1;",
            "let a = 1;",
        )

    def test_macros(self):
        self.assert_written(
            allocator.delete_macro_runtime,
            'assert!(rt; a); assert_eq!(&rt; b, c); panic!(rt; "d"); '
            "macro_rules! e { ($rt:expr; $f:ty) => {} }",
            'assert!(a); assert_eq!(b, c); panic!("d"); macro_rules! e { ($f:ty) => {} }',
        )

    def test_streams(self):
        self.assert_written(
            allocator.name_streams,
            "f(&mut rt.stdin())",
            "f(&mut std::io::stdin())",
        )


class Fallible(RuleTest):
    def rule(self, here=(), anywhere=()):
        own = Own(set(here), set(anywhere))

        def apply(source):
            fallible.name_allocating_macros(source)
            fallible.name_allocating_calls(source, own)
            fallible.name_growing_calls(source, own)

        return apply

    def test_calls_with_the_allocator(self):
        self.assert_written(
            self.rule(anywhere=["copy_of"]),
            "Vec::new(alloc); Vec::<u8>::with_capacity(alloc, 1)?; "
            "String::from_str(rt.alloc(), a)?;"
            " b.to_vec(alloc)?; Text::copy_of(alloc, c)?; d.to_string(self.alloc)",
            "Vec::new(alloc); Vec::<u8>::try_with_room(alloc, 1)?; "
            "String::try_from_text(rt.alloc(), a)?;"
            " b.try_to_vec(alloc)?; Text::copy_of(alloc, c)?; d.try_to_text(self.alloc)",
        )

    def test_growing_calls(self):
        self.assert_written(
            self.rule(),
            "a.push(b)?; a.resize(1, 0)?; a.reserve(1)?; a.push_reserved(c); "
            "a.extend_from_slice(d)?",
            "a.try_push(b)?; a.try_resize(1, 0)?; a.try_reserve_room(1)?; a.push(c); "
            "a.try_extend_from_slice(d)?",
        )

    def test_methods_of_the_crate_itself(self):
        self.assert_kept(self.rule(
            here=["push", "to_vec"],
            anywhere=["to_vec"]), "a.push(b)?; c.to_vec(alloc)?",
        )
        self.assert_written(
            self.rule(here=["push"]),
            "fn f(a: &mut Vec<u8>, b: &mut Own) { a.push(1)?; b.push(2)?; self.a.push(3)?; } "
            "fn g(a: &mut Own) { a.push(4)?; }",
            "fn f(a: &mut Vec<u8>, b: &mut Own) { a.try_push(1)?; b.push(2)?; self.a.push(3)?; } "
            "fn g(a: &mut Own) { a.push(4)?; }",
        )

    def test_texts_that_grow(self):
        self.assert_written(
            self.rule(), "a.push_str(b)?; c.push_str(d);", "a.try_push_str(b)?; c.push_str(d);"
        )

    def test_calls_of_json_and_hex(self):
        self.assert_kept(
            self.rule(),
            "Map::new(alloc); Value::try_from_str(alloc, a)?; hex::encode(alloc, b)?",
        )

    def test_printing(self):
        self.assert_written(
            fallible.name_printing_macros,
            'print!(rt; "a")?; println!(rt; "b")?; eprintln!(rt; "c")?; write!(f, "d")?',
            'try_print!(rt; "a")?; try_println!(rt; "b")?; try_eprintln!(rt; "c")?; '
            'write!(f, "d")?',
        )

    def test_macros(self):
        self.assert_written(
            self.rule(),
            "vec![in alloc; 0; 3]?; format!(in rt.alloc(); b)?",
            "try_vec![0; 3]?; try_format!(b)?",
        )
        with self.assertRaises(Unknown):
            self.rule()(Source("other![in alloc; 0]", "case"))

    def test_an_unknown_call(self):
        with self.assertRaises(Unknown):
            self.rule()(Source("a.sort(alloc)?", "case"))


class Casts(RuleTest):
    def test_narrow_casts_are_checked(self):
        self.assert_written(
            casts.check_casts,
            "f(a as u16, (b + 4) as u8)",
            "f(crate::compat::narrow_u16(a), crate::compat::narrow_u8(b + 4))",
        )

    def test_narrow_casts_of_another_package(self):
        self.assert_written(
            lambda source: casts.check_casts(source, "a::b"), "c as u8", "a::b::narrow_u8(c)"
        )

    def test_wide_casts_and_numbers_of_enums(self):
        self.assert_kept(casts.check_casts, "a as usize; b[0] as u64; self as u8; <A as B>::C")

    def test_bytes_of_literals_in_macros(self):
        self.assert_kept(casts.check_casts, "macro_rules! m { ($a:literal) => { $a[0] as u32 }; }")

    def test_unknown_casts(self):
        for text in ("a as i32", "a.b as u8", "b[0] as u8"):
            with self.assertRaises(Unknown):
                casts.check_casts(Source(text, "case"))


class Names(RuleTest):
    def test_formatters(self):
        self.assert_written(
            formatting.name_formatters,
            "fn fmt<W: fmt::Write>(&self, f: &mut fmt::Formatter<W>) -> fmt::Result { g }",
            "fn fmt(&self, f: &mut fmt::Formatter<'_>) -> fmt::Result { g }",
        )

    def test_newer_calls(self):
        self.assert_written(formatting.name_octets, "Ipv4Addr::from_octets(a)", "Ipv4Addr::from(a)")
        self.assert_written(
            formatting.name_signs,
            "a.cast_unsigned(); b.cast_signed()",
            "a.to_unsigned(); b.to_signed()",
        )

    def test_attributes_of_the_formatter(self):
        self.assert_written(
            formatting.name_formatter_attributes,
            "#[rattlefmt::skip] const A: u8 = 1; rattlefmt(b)",
            "#[rustfmt::skip] const A: u8 = 1; rattlefmt(b)",
        )

    def test_zeros(self):
        self.assert_written(
            formatting.name_zeros,
            "a[b..].fill(0); c.fill(1)",
            "a[b..].fill_zeros(); c.fill(1)",
        )

    def test_multiples(self):
        self.assert_written(
            formatting.name_multiples,
            "a.next_multiple_of(4); b.next_multiple_of(8)",
            "a.next_multiple_of_four(); b.next_multiple_of(8)",
        )

    def test_flag_tables(self):
        self.assert_written(
            flags.name_flag_tables,
            "impl Flags for A { fn flags<'a>() -> &'a [Flag<A>] { A::TABLE } fn bits(&self) -> "
            "u32 { self.0 } }",
            "impl Flags for A { const FLAGS: &'static [Flag<A>] = A::TABLE; fn bits(&self) -> "
            "u32 { self.0 } }",
        )
        self.assert_written(
            flags.make_flags,
            'Flag { name: "a", value: A(1), }',
            'Flag::new("a", A(1),)',
        )
        self.assert_written(flags.read_flag_tables, "F::flags().len()", "F::FLAGS.len()")


class Inlining(RuleTest):
    def test_methods_of_one_attribute(self):
        self.assert_written(
            inlining.inline_small,
            "impl<P: LinkPeer> Nla for Peer<P> { /// A.\n fn kind(&self) -> u16 { 1 } "
            "#[inline(always)] fn fit_len(&self) -> usize { f() } } "
            "impl<'a> a::Parseable<B<'a>> for C { fn parse(b: &B<'a>) -> C { C } } "
            "impl Bytes { pub fn copy_of(a: &[u8]) -> Bytes { B } }",
            "impl<P: LinkPeer> Nla for Peer<P> { /// A.\n #[inline] fn kind(&self) -> u16 { 1 } "
            "#[inline(always)] fn fit_len(&self) -> usize { f() } } "
            "impl<'a> a::Parseable<B<'a>> for C { #[inline] fn parse(b: &B<'a>) -> C { C } } "
            "impl Bytes { #[inline] pub fn copy_of(a: &[u8]) -> Bytes { B } }",
        )

    def test_others_stay(self):
        self.assert_kept(
            inlining.inline_small,
            "trait Nla { fn kind(&self) -> u16; } impl Nla { fn len(&self) -> usize { 1 } } "
            "impl Debug for A { fn fmt(&self) {} } fn f<T>(a: impl Nla) { g() } "
            "trait Copied { fn copy_of(a: &[u8]) -> Self; }",
        )
