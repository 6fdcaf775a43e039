"""The rules in order, and the translation of the files of a crate."""

from . import allocator, casts, clones, derives, docs, fallible, flags, formatting, hidden, imports
from . import inlining, known, links, macros, must_use, panics, paths, proofs, without_laws
from .items import functions, methods, methods_of_traits
from .laws import Laws
from .source import Source


class Own:
    """The names of functions that the crate defines, and those that any translated crate does."""

    def __init__(self, here, anywhere):
        self.here = here
        self.anywhere = anywhere


def delete_proofs(source):
    panics.document_panics(source)
    proofs.delete_ghosts(source)
    proofs.delete_clauses(source)
    proofs.delete_proof_attributes(source)
    proofs.delete_models(source)
    clones.rewrite_clones(source)
    proofs.delete_drop_bounds(source)
    proofs.delete_final(source)


def rewrite_calls(source, own, place):
    allocator.delete_allocator_statements(source)
    fallible.name_allocating_macros(source)
    fallible.name_allocating_calls(source, own)
    fallible.name_growing_calls(source, own)
    fallible.name_printing_macros(source)
    allocator.delete_macro_runtime(source)
    allocator.name_streams(source)
    allocator.delete_arguments(source)
    if place.checked:
        casts.check_casts(source, place.compat)
    formatting.name_formatters(source)
    formatting.name_octets(source)
    formatting.name_signs(source)
    formatting.name_formatter_attributes(source)
    if not place.hosted:
        formatting.name_zeros(source)
        formatting.name_multiples(source)
        derives.derive_orders(source)
        must_use.must_use(source)
        inlining.inline_small(source)
        hidden.hide_specified(source)
    flags.name_flag_tables(source)
    flags.make_flags(source)
    flags.read_flag_tables(source)


class Crate:
    """The files of a crate while they are translated; `place` says how its paths are written."""

    def __init__(self, name, texts, place):
        self.name = name
        self.place = place
        self.sources = {file: Source(text, f"{name}/{file}") for file, text in texts.items()}

    def functions(self):
        return functions(self.sources.values())


class Translation:
    """Crates that were translated together, over an earlier translation that they use."""

    def __init__(self, crates, earlier=None):
        self.crates = crates
        self.all = [*crates, *(earlier.all if earlier else [])]
        self.sources = [s for crate in crates for s in crate.sources.values()]
        for source in self.sources:
            delete_proofs(source)
        self.laws = Laws(crates, earlier.laws if earlier else None)
        without_laws.delete_all(crates, self.laws)
        self.sources = [s for crate in crates for s in crate.sources.values()]
        self.rewrite()
        self.delete_imports()
        macros.delete_unexpanded(self.sources)
        macros.hide_exported(self.sources)
        # The names of the library alone are linked, and its examples alone are tests.
        self.fit = docs.Fit(None if earlier else links.Names(crates))
        self.finish()

    def rewrite(self):
        anywhere = set().union(*(crate.functions() for crate in self.all))
        self.tests_of_laws = []
        for crate in self.crates:
            own = Own(methods(crate.sources.values()), anywhere)
            for source in crate.sources.values():
                rewrite_calls(source, own, crate.place)
                self.tests_of_laws += without_laws.delete_empty_tests(source)

    def names(self):
        """What may be left: the vocabulary, and what the crates define."""
        names = known.read_vocabulary() | {crate.name for crate in self.all}
        for crate in self.all:
            for source in crate.sources.values():
                names |= known.defined(source)
        return names

    def delete_imports(self):
        traits = methods_of_traits([s for c in self.all for s in c.sources.values()])
        for source in self.sources:
            imports.delete_unused(source, traits)

    def finish(self):
        names = self.names()
        for crate in self.crates:
            for source in crate.sources.values():
                known.check_known(source, names)
                paths.name_paths(source, crate.place)
                imports.put_imports(source, crate.place)
                self.fit.source(source, crate.place)
