"""Steps of a body that explicit proofs name.

An explicit proof names a step by the function that is called and its number. So where an edit moves
a call, it fails for a correct body too, and such a failure says nothing about the contract.
"""
import re

# A call, by its function, a constant of a type parameter, and a `?`.
STEP = re.compile(r"\b([a-z_]\w*)!?(?:::<[^()]*>)?\(|\b[A-Z]::([A-Z_]{2,})\b|(\?)")
PROOFS = ("Answers.antt", "Invariants.antt")


def are_moved(old, new):
    """Whether the steps of a body are not all there in number and order (steps of other names may
    be in between), or the body has the same words in another order."""
    words, other = [re.findall(r"\w+", body) for body in (old, new)]
    before, after = [[next(filter(None, it)) for it in STEP.findall(body)] for body in (old, new)]
    is_reordered = words != other and sorted(words) == sorted(other)
    return is_reordered or [it for it in after if it in before] != before


def place_of(function):
    """The folder of the explicit proof of a function."""
    return "/".join(["proofs", *function.split("::")[1:]])


def answers_path(function):
    """The path of the proof file of a function."""
    return f"{place_of(function)}/Answers.antt"


def proofs_in(path, folder):
    """The texts of the explicit proof in a folder of the crate, by their names."""
    return {it: folder.read(f"{path}/{it}") for it in PROOFS if folder.has(f"{path}/{it}")}


def shared_proof(function, folder):
    """The folder, and the texts by their names, of the explicit proof of mutually recursive
    functions of which this is one, or twice nothing."""
    *inside, name = function.split("::")[1:]
    top = "/".join(["proofs", *inside])
    goal = re.compile(rf"goal\.(invariant-|decreases-)?{name}(-|$)", re.M)
    for it in folder.names(top):
        texts = proofs_in(f"{top}/{it}", folder) if it.startswith("+") else {}
        if any(map(goal.search, texts.values())):
            return it, texts
    return "", {}


def names_steps(function, folder):
    """Whether an explicit proof, which names steps, is read for goals of the function."""
    own = proofs_in(place_of(function), folder)
    shared = shared_proof(function, folder)[1].get("Answers.antt", "")
    return "Answers.antt" in own or f"goal.{function.split('::')[-1]}-" in shared
