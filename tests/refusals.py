"""The names of all that is refused: what explain/refusals.txt says of them, which names the crates have, and the table of
docs/REFUSALS.md.

usage: python3 tests/refusals.py --write     writes the table
"""

import os
import re
import sys

TOP = os.path.dirname(os.path.dirname(os.path.abspath(__file__)))
EXPLAINED = os.path.join(TOP, "explain", "refusals.txt")
PAGE = os.path.join(TOP, "docs", "REFUSALS.md")

# Which kind of line the names of a source file stand in.
KINDS = {
    "aq_lex/src/fault.rt": "program",
    "aq_parse/src/fault.rt": "program",
    "aq_elab/src/fault.rt": "program",
    "aq_set_read/src/set_fault.rt": "sets",
    "aq_owing/src/asked.rt": "claim",
    "aq_top/src/state.rt": "set",
    "aq_top/src/outcomes.rt": "replay",
    "aq_top/src/replay.rt": "replay",
}
# Names that are never printed: want of memory has a line of its own, and no program has an assumption that may fail.
NEVER = {"Memory", "Blocked"}
LINES = {
    "program": "refused: program L:C: %s",
    "sets": "refused: sets L:C: %s",
    "claim": "refused: claim CLAIM: %s",
    "set": "refused: set NAME: %s",
    "replay": "refused: replay: %s",
    "run": "refused: %s",
    "read": "read fault: FILE",
    "out": "out of memory",
    "gave": "gave %s",
    "refuted": "N %s ..: refuted",
}
KNOWN = {
    "names": "the declared names",
    "bits": "the declared bits",
    "qubits": "how many qubits",
    "sets": "the names of sets",
    "claims": "the names of claims",
    "sets_file": "SETS",
    "word": "the word there",
    "before": "the word before",
    "name": "NAME",
    "outcomes": "the outcomes",
    "more": "try `check` again with ten times the steps",
    "again": "the command that plays it by hand",
}
# The limits that the help says.
LIMITS = [
    ("program TooLong", "MOST_PROGRAM_BYTES"),
    ("program TooDeep", "MOST_NESTED"),
    ("program TooManyQubits", "MOST_QUBITS"),
    ("program TooManyBits", "MOST_BITS"),
    ("program TooManyStatements", "MOST_STATEMENTS"),
    ("sets TooLong", "MOST_SETS_BYTES"),
    ("sets TooDeep", "MOST_NESTED"),
    ("sets TooManyNames", "MOST_NAMES"),
    ("sets QubitCount", "MOST_QUBITS"),
    ("sets TooManyNodes", "MOST_NODES"),
    ("run TooManyObligations", "MOST_OBLIGATIONS", "MOST_FRAGMENT_STATEMENTS"),
]
HEAD = """# What each refusal says

On a terminal, the launcher `./autoq` explains what the program refused, gave up or refuted ([OUTPUT.md](OUTPUT.md#explanations)). This is what it says, made of `explain/refusals.txt` by `python3 tests/refusals.py --write`. In parentheses stands what it fills in.
"""
WORDS = """
## By the words there

Where one of these words stands at the place, or before it, the help is another. `(end)` is the end of the text and `(start)` its start; `(number)`, `(text)`, `(ket)` and `(word)` are a number, a quoted text, a ket and a word that have no line of their own.
"""


def explained():
    """The sentence of each key, as `program BadByte`, and its help, by the words at the place; `help` is that of any other."""
    sentences, helps = {}, {}
    with open(EXPLAINED, encoding="utf-8") as file:
        for line in file:
            line = line.rstrip("\n")
            if line.startswith("#") or not line:
                continue
            if not line.startswith(" "):
                key, said = line.split(": ", 1)
                if key in sentences:
                    raise ValueError("twice: " + key)
                sentences[key], helps[key] = said, {}
            elif line.startswith("  help: "):
                helps[key]["help"] = line[len("  help: "):]
            else:
                word, said = re.fullmatch(r"  ((?:at|after) \S+): (.*)", line).groups()
                helps[key][word] = said
    return sentences, helps


def names_of_crates():
    """The keys of all names that the crates' sources have, and what is wrong with those that aren't known here."""
    keys, wrong = set(), []
    crates = os.path.join(TOP, "crates")
    for crate in sorted(os.listdir(crates)):
        source = os.path.join(crates, crate, "src")
        for file in sorted(os.listdir(source)) if os.path.isdir(source) else ():
            inside = "%s/src/%s" % (crate, file)
            with open(os.path.join(source, file), encoding="utf-8") as text:
                found = re.findall(r'=> (?:Some\()?"([A-Z][A-Za-z0-9]*)"', text.read())
            if found and inside not in KINDS:
                wrong.append("%s has names of faults, and tests/refusals.py doesn't know of which kind" % inside)
                continue
            keys.update("%s %s" % (KINDS[inside], name) for name in found if name not in NEVER)
    # Names that have a line of their own.
    with open(os.path.join(crates, "aq_report", "src", "refusal.rt"), encoding="utf-8") as text:
        lines = re.findall(r'b"(refused: [A-Za-z: ]+|read fault|out of memory)(?:: |\\n)', text.read())
    for line in lines:
        if re.fullmatch(r"refused: (program|sets): [A-Za-z]+", line):
            keys.add(line[len("refused: "):].replace(":", ""))
        elif re.fullmatch(r"refused: [A-Z][A-Za-z]+", line):
            name = line[len("refused: "):]
            keys.discard("claim " + name)
            keys.add("run " + name)
        elif not line.startswith("refused"):
            keys.add(line)
    return keys, wrong


def verdicts():
    """The keys of what a report may say but `verified`, and of its kinds of lines."""
    with open(os.path.join(TOP, "crates", "aq_report", "src", "print.rt"), encoding="utf-8") as file:
        text = file.read()
    keys = {said for said in re.findall(r'b"(gave up [a-z]+)\\n"', text)}
    return keys | {"refuted " + kind for kind in re.findall(r'b" ([a-z]+)(?: line |: )"', text)}


def numbers():
    """What is wrong with the limits that the table and the launcher say, and with the gates."""
    with open(os.path.join(TOP, "crates", "aq_base", "src", "limits.rt"), encoding="utf-8") as file:
        limits = {name: int(n.replace("_", "")) for name, n in re.findall(r"const (MOST_\w+): \w+ = ([0-9_]+);", file.read())}
    sentences, helps = explained()
    wrong = []
    for key, *names in LIMITS:
        wrong += ["the limit of %s isn't %s" % (key, name) for name in names if "{:,}".format(limits[name]) not in helps[key]["help"]]
    with open(os.path.join(os.path.dirname(EXPLAINED), "explain.awk"), encoding="utf-8") as file:
        program = file.read()
    for name in ("MOST_STEPS", "MOST_STEPS_ASKED", "MOST_PROGRAM_BYTES", "MOST_SETS_BYTES"):
        wrong += [] if re.search(r"\b%d\b" % limits[name], program) else ["explain.awk lacks %s" % name]
    gates = {"swap", "cswap"}
    with open(os.path.join(TOP, "crates", "aq_prog", "src", "table.rt"), encoding="utf-8") as file:
        gates.update(re.findall(r'name: b"(\w+)"', file.read()))
    told = helps["program UnknownGate"]["help"].partition("are ")[2].replace("(a)", "").split()
    return wrong + (["the gates aren't %s" % " ".join(sorted(gates))] if set(told) != gates else [])


def shown(text):
    """A text in a cell of the table: what is between backquotes stays, but for the sign that divides cells."""
    text = re.sub(r"\{(\w+)\}", lambda m: "(%s)" % KNOWN[m.group(1)] if m.group(1) in KNOWN else m.group(0), text)
    parts = text.replace("|", "\\|").split("`")
    parts[::2] = [part.replace("*", "\\*").replace("<", "&lt;") for part in parts[::2]]
    return "`".join(parts)


def line_of(key):
    kind, _, name = key.partition(" ")
    if name == "TooLong":
        return "`refused: %s: TooLong`" % kind
    return "`%s`" % (LINES[kind] % name if "%s" in LINES[kind] else LINES[kind])


def page():
    sentences, helps = explained()
    lines = [HEAD, "| line | what it says | help |", "|---|---|---|"]
    lines += ["| %s | %s | %s |" % (line_of(key), shown(said), shown(helps[key]["help"])) for key, said in sentences.items()]
    lines += [WORDS, "| line | word | help |", "|---|---|---|"]
    for key in sentences:
        words = [word for word in helps[key] if word != "help"]
        for word in words:
            where, _, sign = word.partition(" ")
            lines.append("| %s | %s `%s` | %s |" % (line_of(key), where, sign.replace("|", "\\|"), shown(helps[key][word])))
    return "\n".join(lines) + "\n"


def found():
    """What is wrong with the table of names, and with the page."""
    sentences, helps = explained()
    keys, wrong = names_of_crates()
    keys |= verdicts()
    wrong += ["explain/refusals.txt lacks %s" % key for key in sorted(keys - set(sentences))]
    wrong += ["explain/refusals.txt has %s, which nothing prints" % key for key in sorted(set(sentences) - keys)]
    wrong += ["explain/refusals.txt has no help for %s" % key for key in sentences if "help" not in helps[key]]
    wrong += numbers()
    with open(PAGE, encoding="utf-8") as file:
        if file.read() != page():
            wrong.append("docs/REFUSALS.md isn't that of explain/refusals.txt")
    return wrong


if __name__ == "__main__":
    if sys.argv[1:] != ["--write"]:
        sys.exit(__doc__)
    with open(PAGE, "w", encoding="utf-8") as written:
        written.write(page())
