"""Deletes what is there for proofs alone: ghost items, clauses, tactics, models and bounds."""

from .items import begins_item, impl_head

CLAUSES = ("requires", "ensures")
PROOF_ATTRIBUTES = ("tactic", "cycle")


def delete_ghosts(source):
    """Ghost items end in `;`, ghost fields of a struct in `,`. No code reads them."""
    index = 0
    while index < len(source.kept):
        if source.is_word(index, "ghost") and begins_item(source, index):
            stops = (";",) if source.at(index + 1) == "use" else (";", ",")
            end = source.end_of(index, stops) + 1
            source.delete(source.front(index), end, "ghost item")
            index = end
        else:
            index += 1
    source.refresh()


def clause_end(source, index):
    """The end of the clause at the index, with its star and its name, or None."""
    if not source.is_word(index, *CLAUSES):
        return None
    at = index + 1
    if source.at(at) == "*":
        at += 1
    if source.kind(at) == "word":
        at += 1
    return source.close(at) + 1 if source.at(at) == "{" else None


def delete_clauses(source):
    """`requires` and `ensures`: what a caller owes, and what the function promises."""
    index = 0
    while index < len(source.kept):
        if end := clause_end(source, index):
            source.delete(index, end, source.at(index))
            index = end
        else:
            index += 1
    source.refresh()


def delete_proof_attributes(source):
    """`#[tactic(..)]` and `#[cycle(..)]` tell the prover how."""
    for index in range(len(source.kept)):
        at = index + 1 + (source.at(index + 1) == "!")
        if source.at(index) == "#" and source.at(at) == "[":
            if source.is_word(at + 1, *PROOF_ATTRIBUTES):
                source.delete(index, source.close(at) + 1, f"#[{source.at(at + 1)}]")
    source.refresh()


def delete_models(source):
    """`impl Model for T`: how clauses see a value. It has ghost items alone."""
    for index in range(len(source.kept)):
        if source.is_word(index, "impl") and begins_item(source, index):
            trait, _, body = impl_head(source, index)
            if trait == "Model":
                if source.close(body) != body + 1:
                    raise source.unknown(body, "a Model with more than ghost items")
                source.delete(source.front(index), body + 2, "impl Model")
    source.refresh()


def delete_drop_bounds(source):
    """`Drop` as a bound says that a value may be let go of. Each type of Rust may be."""
    for index in source.words():
        if source.at(index) != "Drop" or source.is_path(index - 2):
            continue
        if source.at(index - 1) == "+":
            source.delete(index - 1, index + 1, "Drop bound")
        elif source.is_word(index - 3, "where") and source.at(index + 1) == ",":
            source.delete(index - 3, index + 2, "Drop bound")
        elif source.at(index - 1) == ":":
            more = source.at(index + 1) == "+"
            source.delete(index - (not more), index + 1 + more, "Drop bound")
    source.refresh()


def delete_final(source):
    """`final fn`: a method of a trait that no impl may replace."""
    for index in source.words():
        if source.reads(index, "final", "fn"):
            source.delete(index, index + 1, "final")
    source.refresh()
