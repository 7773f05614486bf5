"""The names in the store of what was proved: a sum of all that a proof rests on, and of the scripts that judge it.

So a slip in a script leaves nothing that the mended script takes. verdicts.py has the names of all other verdicts.
"""

import ast
import functools
import hashlib
import os
import sys

from crates import TOP, sum_of_file, toolchain_sum

# The scripts that say whether a crate is proved from nothing, and those that say so of an everyday run.
OF_PROOFS = tuple(f"gate/{it}.py" for it in ("crates", "keys", "lanes", "prove", "prover", "store", "together", "toolchain"))
OF_KEPT = (*OF_PROOFS, "gate/kept.py")
# The same of what is linked.
OF_LINKED = (*OF_KEPT, "gate/linked.py")


def summed(said):
    return hashlib.sha256(repr(said).encode()).hexdigest()


@functools.lru_cache(maxsize=None)
def scripts_sum(scripts):
    """The sum of scripts, without their comments, and of the kind of interpreter that runs them."""
    return summed((sys.implementation.name, sys.version_info[:2], [(it, code_of(os.path.join(TOP, it))) for it in scripts]))


def code_of(script):
    """What a script of Python says without its comments; of another file the sum."""
    if not script.endswith(".py"):
        return sum_of_file(script)
    with open(script, encoding="utf-8") as file:
        return ast.dump(ast.parse(file.read()))


def of_proof(crates, name):
    """The sum of all that the verdict on a crate's proof from nothing rests on."""
    return summed((crates.sum(name), scripts_sum(OF_PROOFS)))


def of_everyday_proof(crates, name):
    """The same of what is linked, for which the store's kept work was looked at, whether there was any or not."""
    return summed((crates.sum(name), scripts_sum(OF_LINKED), "everyday"))
