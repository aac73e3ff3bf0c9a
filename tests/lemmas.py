"""Which lemmas of a crate's proofs other crates cite: the modules that docs/ARCHITECTURE.md names, and no others."""

import os
import re

TOP = os.path.dirname(os.path.dirname(os.path.abspath(__file__)))
PAGE = os.path.join(TOP, "docs", "ARCHITECTURE.md")
HEAD = "| crate | lemma modules |"
CITED = re.compile(r"Rattle\.(aq_[a-z_]+)\.proofs\.([A-Za-z]+)")


def named():
    """The modules of each crate that the page names."""
    with open(PAGE, encoding="utf-8") as file:
        rows = file.read().partition(HEAD)[2].partition("\n\n")[0].split("\n")[2:]
    cells = [[cell.strip() for cell in row.strip("|").split("|")] for row in rows]
    return {(crate, module.strip()) for crate, modules in cells for module in modules.split(",")}


def cited():
    """The modules that a crate cites of another."""
    found = set()
    crates = os.path.join(TOP, "crates")
    for folder, _, names in os.walk(crates):
        own = os.path.relpath(folder, crates).split(os.sep)[0]
        for name in names:
            if name.endswith((".rt", ".antt")):
                with open(os.path.join(folder, name), encoding="utf-8") as file:
                    found |= {pair for pair in CITED.findall(file.read()) if pair[0] != own}
    return found


def found():
    """What is wrong with the page."""
    there, wanted = named(), cited()
    wrong = ["docs/ARCHITECTURE.md doesn't name %s of %s" % (module, crate) for crate, module in sorted(wanted - there)]
    return wrong + ["docs/ARCHITECTURE.md names %s of %s, which no other crate cites" % (module, crate) for crate, module in sorted(there - wanted)]
