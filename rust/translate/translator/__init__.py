"""Translates the proved Rattle sources of this repository to an ordinary Rust crate.

`tokens` cuts a text into tokens without loss, `source` edits them, and `items` finds functions and
impls. The other modules are the rules: `proofs`, `laws` with `without_laws`, `allocator` and
`macros` delete; `clones`, `fallible`, `casts`, `formatting`, `flags` and `panics` insert; `paths`
and `imports` rename; `docs` adapts the doc comments; `known` rejects each form that no rule knows.
`rules` has them in order, and `layout` says which crate becomes which folder.

The translated text has the proved meaning if

- both languages give the same meaning to the tokens that are left: `known` has the list of names
  that were compared, and the guide of the toolchain lists the forms that differ silently;
- the calls of Rust's library do what the statements of Rattle's library say, and so do those of the
  module `compat`, which is not generated;
- callers keep the conditions that were deleted: where a cast could lose bits then, it is checked.

None of this is proved. The tests of the repository run over the translated text, and a second
program, rust/check/run, which shares no code with this one, compares it with the source word by
word.
"""
