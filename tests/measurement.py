"""End-to-end cases of programs that measure, reset and branch, and of replays.

Each expected text was worked out by hand from docs/, never taken from what the program printed.
"""

from cases import GAVE_UP_WIDTH, MOST_PROGRAM, MOST_SETS, PROGRAM_TOO_LONG, SETS_TOO_LONG, USAGE, VERIFIED
from programs import I, MINUS, ONE, ROOT
from sets import BIG, DOUBLED, MOST, W, claims

CASES = []
HALF = "(1,0,0,0)/2"
W_HALF = "(0,1,0,0)/2"


def checked(name, program, before, after, stdout, status, more=""):
    files = {"P": program, "S": claims(before, after, more)}
    CASES.append(("measurement: " + name, ["check", "P", "S"], files, stdout, status))


def verified(name, program, before, after, more=""):
    checked(name, program, before, after, VERIFIED, 0, more)


def gives_up(name, program, before, after, line):
    checked("gives up: " + name, program, before, after, line, 2)


def lines(label, entries):
    return "".join("%s |%s> %s\n" % ((label,) + entry) for entry in entries)


def refutation(bits, state, outcomes, end_bits, end):
    """The report of a refuted program. An entry is a ket's digits and its amplitude's text."""
    shown = "  bits %s\n%s  outcomes %s\n  end bits %s\n%s"
    shown %= (bits, lines("  state", state), outcomes, end_bits, lines("  end", end))
    return "1 post: refuted\n%sverified 0, refuted 1, gave up 0\n" % shown


def refuted(name, program, before, after, bits, state, outcomes, end_bits, end):
    checked(name, program, before, after, refutation(bits, state, outcomes, end_bits, end), 1)


# ---- measurements

MEASURED = "qubit[1] q; bit c; c = measure q[0];"
verified("an outcome that never happens", MEASURED, "[|0>]", "[|0>] when c == 0")
refuted("an outcome that does", MEASURED, "[|0> + |1>]", "[|0>] when c == 0", "0", [("0", ONE), ("1", ONE)], "1", "1", [("1", ONE)])
verified("a start that asks for a 1", MEASURED, "[|1>] when c == 1", "[|0>] when c == 0")
verified("a start that asks for both values", MEASURED, "[|1>] when c == 0 and c == 1", "[|0>]")
verified("a start that asks for a bit that is stored later", MEASURED, "[|1>] when c == 0", "[|1>] when c == 1")
verified("each outcome with its state", MEASURED, "[|0> + i|1>]", "[|0>] when c == 0, [|1>] when c == 1")
# a zero end is no state: neither a claim that has no case for it nor one that has it says anything
refuted("what never happens doesn't help", MEASURED, "[|0>]", "[|1>] when c == 1", "0", [("0", ONE)], "0", "0", [("0", ONE)])
verified("the zero vector starts nothing", MEASURED, "[0|0>]", "[|1>] when c == 1")
refuted("nothing ends in the zero vector", MEASURED, "[|1>]", "[0|0>]", "0", [("1", ONE)], "1", "1", [("1", ONE)])
verified("a bit at the start and at the end", "qubit q; bit c = measure q;", "[|0> + |1>] when c == 0", "[|0>] when c == 0, [|1>] when c == 1")
refuted("nothing is divided by a length", "qubit q; h q; measure q;", "[|0>]", "[|0>]", "-", [("0", ONE)], "1", "-", [("1", ROOT)])
refuted("0 comes before 1", "qubit q; h q; measure q;", "[|0>]", "[|0> + |1>]", "-", [("0", ONE)], "0", "-", [("0", ROOT)])
refuted("an outcome without a bit", "qubit q; bit c; measure q;", "[|1>]", "[|1>] when c == 1", "0", [("1", ONE)], "1", "0", [("1", ONE)])
verified("an outcome by an arrow", "qubit q; bit[2] c; measure q -> c[1];", "all 1", "[|0>] when c[1] == 0 and c[0] == 0, [|1>] when c[1] == 1 and c[0] == 0")
refuted(
    "a register goes index by index",
    "qubit[2] q; bit[3] d; bit[2] c; c = measure q;",
    "[|01>]",
    "[|01>] when c[0] == 1",
    "00000",
    [("01", ONE)],
    "01",
    "00001",
    [("01", ONE)],
)
refuted(
    "a bit that is stored twice",
    "qubit[2] q; bit c; c = measure q[0]; c = measure q[1];",
    "[|10>]",
    "[|10>] when c == 1",
    "0",
    [("10", ONE)],
    "10",
    "0",
    [("10", ONE)],
)
# |0> is (|0> + |1>)/sqrt(2) behind h, and b/sqrt(2) behind the outcome b
verified("a qubit that is measured twice", "qubit q; bit c; bit d; h q; c = measure q; d = measure q;", "[|0>]", "[|0>] when c == 0 and d == 0, [|1>] when c == 1 and d == 1")
refuted(
    "a qubit that is measured again behind a gate",
    "qubit q; bit[2] c; h q; c[0] = measure q; h q; c[1] = measure q;",
    "[|0>]",
    "all 1 when c[0] == 0, [|0>] when c[0] == 1",
    "00",
    [("0", ONE)],
    "11",
    "11",
    [("1", "(-1,0,0,0)/2")],
)
refuted(
    "an outcome says something of another qubit",
    "qubit[2] q; bit c; h q[0]; cx q[0], q[1]; c = measure q[1];",
    "[|00>]",
    "[|00>] when c == 0, [|01> + |10>] when c == 1",
    "0",
    [("00", ONE)],
    "1",
    "1",
    [("11", ROOT)],
)
# world by world, case by case; and in a world place by place
refuted("a world before a place", "qubit q; measure q;", "[|1>] union [|0>]", "[|0> + |1>]", "-", [("0", ONE)], "0", "-", [("0", ONE)])
refuted("a case before a world", "qubit q; measure q;", "[|1>], [|0>]", "[|0> + |1>]", "-", [("1", ONE)], "1", "-", [("1", ONE)])
refuted("a place in a later world", "qubit q; measure q;", "[|0>] union [2|1>] union [|1>]", "[|0>]", "-", [("1", "(2,0,0,0)/0")], "1", "-", [("1", "(2,0,0,0)/0")])

# ---- resets

verified("a reset", "qubit q; reset q;", "all 1 union [|0> - w|1>]", "[|0>]")
refuted("a reset flips", "qubit q; reset q;", "[w|1>]", "[|1>]", "-", [("1", W)], "1", "-", [("0", W)])
refuted("a reset stores nothing", "qubit q; bit c; reset q;", "[|1>]", "[|0>] when c == 1", "0", [("1", ONE)], "1", "0", [("0", ONE)])
refuted(
    "a reset has two outcomes",
    "qubit[2] q; reset q[0];",
    "[|00> + |11>]",
    "[|00>]",
    "-",
    [("00", ONE), ("11", ONE)],
    "1",
    "-",
    [("01", ONE)],
)
refuted("0 comes before 1 in a reset", "qubit[2] q; reset q[0];", "[|00> + |11>]", "[|10>]", "-", [("00", ONE), ("11", ONE)], "0", "-", [("00", ONE)])
refuted(
    "a reset among measurements",
    "qubit[3] q; bit[2] c; c[0] = measure q[0]; reset q[1]; c[1] = measure q[2];",
    "[|110>]",
    "[|111>]",
    "00",
    [("110", ONE)],
    "110",
    "10",
    [("100", ONE)],
)
verified("a reset of a register", "qubit[3] q; reset q;", "all 3", "[|000>]")
verified("the old form", "qreg q[1]; creg c[1]; reset q[0]; measure q[0] -> c[0]; // done", "[|1>]", "[|0>] when c[0] == 0")
verified("a reset by hand", "qubit q; bit c; c = measure q; if (c) x q;", "all 1 union [|0> + |1>]", "[|0>]")

# ---- branches; bits are 0 until something is stored

for test in ["!c", "!c[0]", "c == 0", "c[0] == false", "c == 00"]:
    verified("a test that holds: " + test, "qubit q; bit[1] c; if (%s) x q;" % test, "[|0>]", "[|1>]")
    verified("an else that isn't taken: " + test, "qubit q; bit[1] c; if (%s) { } else x q;" % test, "[|0>]", "[|0>]")
for test in ["c", "c[0]", "c == 1", "c == true", "c[0] == 01"]:
    verified("a test that doesn't hold: " + test, "qubit q; bit[1] c; if (%s) x q;" % test, "[|0>]", "[|0>]")
    verified("an else that is taken: " + test, "qubit q; bit[1] c; if (%s) { } else x q;" % test, "[|0>]", "[|1>]")
verified("the else of the nearest if", "qubit[2] q; bit a; bit b; if (!a) if (b) x q[0]; else x q[1];", "[|00>]", "[|01>]")
verified("an if inside an else", "qubit q; bit c; if (c) { } else if (c == 00) { x q; } else y q;", "[|0>]", "[|1>]")
verified("an if without statements", "qubit q; bit[3] c; if (c[2] == true) { }", "all 1", "all 1")
verified("ifs at their deepest", "qubit q; bit c; " + "if(!c)" * 64 + "x q;", "[|0>]", "[|1>]")
verified("the new value of a bit", "qubit q; bit c; x q; c = measure q; if (c) x q; else h q;", "[|0>]", "[|0>]")
verified("a bit that a branch changes", "qubit[2] q; bit c; if (!c) { c = measure q[0]; x q[1]; } if (!c) x q[1];", "all 2", "all 2")
refuted(
    "a bit that a branch changes, for the next one",
    "qubit[2] q; bit c; if (!c) { c = measure q[0]; x q[1]; } if (!c) x q[1];",
    "[|10>]",
    "[|10>]",
    "0",
    [("10", ONE)],
    "1",
    "1",
    [("11", ONE)],
)
INSIDE = "qubit[2] q; bit[2] c; c[0] = measure q[0]; if (c[0]) c[1] = measure q[1]; else z q[1];"
PLUSES = [("00", ONE), ("01", ONE), ("10", ONE), ("11", ONE)]
refuted(
    "as many outcomes as a branch has",
    INSIDE,
    "[|00> + |01> + |10> + |11>]",
    "[|00> - |01>] when c[0] == 0, [|10>] when c[0] == 1 and c[1] == 0",
    "00",
    PLUSES,
    "11",
    "11",
    [("11", ONE)],
)
refuted("outcomes in order", INSIDE, "[|00> + |01> + |10> + |11>]", "[|00> - |01>] when c[0] == 0", "00", PLUSES, "10", "10", [("10", ONE)])
refuted("a shorter list of outcomes", INSIDE, "[|00> + |01> + |10> + |11>]", "all 2 when c[0] == 1", "00", PLUSES, "0", "00", [("00", ONE), ("01", MINUS)])
verified("a branch that never happens", "qubit q; bit c; c = measure q; if (c) { measure q; h q; }", "[|0>]", "[|0>]")

SPLIT = "qubit[2] q; bit c; h q[0]; c = measure q[0]; if (c) { x q[0]; } else { x q[1]; }"
verified("a branch and its else", SPLIT, "[|00>]", "[|01>] when c == 0, [|00>] when c == 1")
refuted("a branch and its else, exchanged", SPLIT, "[|00>]", "[|01>] when c == 1, [|00>] when c == 0", "0", [("00", ONE)], "0", "0", [("01", ROOT)])

TELEPORTATION = """OPENQASM 3.0;
include "stdgates.inc";
bit[2] c;
qubit[3] q;
h q[1];
cx q[1], q[2];
cx q[0], q[1];
h q[0];
c[0] = measure q[0];
c[1] = measure q[1];
if (c[1]) {
  x q[2];
}
if (c[0]) {
  z q[2];
}
"""
PSI = "set psi = [|0> + w|1>];\n"
ENDS = ", ".join("[|%d%d>] * psi when c[0] == %d and c[1] == %d" % (a, b, a, b) for a in (0, 1) for b in (0, 1))
verified("teleportation", TELEPORTATION, "psi * [|00>]", ENDS, PSI)

# ---- steps: 8 * (2^(M+U) * W * 2^(n+1) * (L + V) + 2^(n+1) * X) are enough, and 20,000,000 are allowed; what is taken is mostly
# far less. For one qubit and [|0>] on both sides 32 * 2^(M+U) * (L + 1) + 128 are enough, where L is 1 more than the statements.

# 32 * 2^15 * 17 + 128 = 17,825,920
verified("fifteen measurements", "qubit q;" + "measure q;" * 15, "[|0>]", "[|0>]")
# 32 * 2^16 * 18 + 128 = 37,748,864, and one world
verified("sixteen measurements", "qubit q;" + "measure q;" * 16, "[|0>]", "[|0>]")
verified("resets and measurements", "qubit q;" + "reset q;" * 8 + "measure q;" * 7, "[|0>]", "[|0>]")
verified("more resets and measurements", "qubit q;" + "reset q;" * 8 + "measure q;" * 8, "[|0>]", "[|0>]")
BRANCHED = "qubit q; bit[2] c;" + "measure q;" * 14 + "if (c[0]) { x q; %s }"
verified("a bit that a branch reads", BRANCHED % "z q;", "[|0>]", "[|0>]")
verified("a bit that a branch and a condition name counts once", BRANCHED % "z q;", "[|0>] when c[0] == 0", "[|0>] when c[0] == 0")
verified("a statement more in the branch", BRANCHED % "z q; z q;", "[|0>]", "[|0>]")
verified("another bit in a branch", BRANCHED % "if (c[1]) { }", "[|0>]", "[|0>]")
verified("another bit in a condition", BRANCHED % "", "[|0>]", "[|0>] when c[1] == 0")
verified("measurements in a branch that isn't taken", "qubit q; bit c;" + "if (c) { " + "measure q;" * 16 + " }", "[|0>]", "[|0>]")
gives_up("width before many measurements", "qubit q; h q;" + "measure q;" * 16, BIG, "[|0>]", GAVE_UP_WIDTH)

# ---- width: of gates that are played, on states that there are

WIDE_BRANCH = "qubit[2] q; bit c; c = measure q[0]; if (%s) h q[1];"
gives_up("a gate in a branch", WIDE_BRANCH % "!c", "[|0>] * " + BIG, "[|00> + |01>]", GAVE_UP_WIDTH)
gives_up("a gate in the other branch", WIDE_BRANCH % "c", "[|1>] * " + BIG, "[|10>]", GAVE_UP_WIDTH)
verified("a gate that isn't played", WIDE_BRANCH % "c", "[|0>] * " + BIG, "[|00> + |01>]")
gives_up("a gate before an outcome", "qubit q; h q; measure q;", BIG, "all 1", GAVE_UP_WIDTH)
verified("an outcome before a gate", "qubit q; measure q; h q;", "[%d|0> + %d|1>]" % (MOST, MOST), "[|0> + |1>] union [|0> - |1>]")
gives_up("a comparison for the bits at the end", MEASURED, "[%d|0>]" % MOST, "[2|0>] when c == 0", GAVE_UP_WIDTH)
verified("a comparison for other bits", MEASURED, "[%d|0>]" % MOST, "[2|0>] when c == 1, [|0>] when c == 0")

# ---- replays


def replay(name, program, sets, words, stdout, status):
    """The words are those behind the two files."""
    CASES.append(("replay: " + name, ["replay", "P", "S"] + words, {"P": program, "S": sets}, stdout, status))


def played(name, program, expr, outcomes, bits, end, more=""):
    words = ["--state", "start"] + (["--outcomes", outcomes] if outcomes is not None else [])
    replay(name, program, "%sset start = %s;" % (more, expr), words, "bits %s\n%s" % (bits, lines("end", end)), 0)


def stops(fault, why, program, expr, outcomes=None):
    words = ["--state", "start"] + (["--outcomes", outcomes] if outcomes is not None else [])
    replay("%s: %s" % (fault, why), program, "set start = %s;" % expr, words, "refused: replay: %s\n" % fault, 3)


def no_state(fault, why, program, sets, name, outcomes=None):
    words = ["--state", name] + (["--outcomes", outcomes] if outcomes is not None else [])
    replay("%s: %s" % (fault, why), program, sets, words, "refused: set %s: %s\n" % (name, fault), 3)


STEERED = "qubit[2] q; bit c; h q[0]; c = measure q[0]; cx q[0], q[1];"
BELL = "qubit[2] q; bit[2] c; h q[0]; cx q[0], q[1]; c = measure q;"
LOOP = "qubit q; bit c;\n@invariant none\nwhile (c) { x q; }\n"
played("an outcome", STEERED, "[|00>]", "1", "1", [("11", ROOT)])
played("the other outcome", STEERED, "[|00>]", "0", "0", [("00", ROOT)])
played("nothing to do", "qubit q;", "[-2w|1> + |0>]", None, "-", [("0", ONE), ("1", "(0,-2,0,0)/0")])
played("no outcomes, in words", "qubit q; x q;", "[|0>]", "", "-", [("1", ONE)])
played("outcomes in order", BELL, "[|00>]", "11", "11", [("11", ROOT)])
played("a bit that is stored twice", "qubit[2] q; bit c; c = measure q[0]; c = measure q[1];", "[|10>]", "10", "0", [("10", ONE)])
played("a reset", "qubit q; bit c; reset q;", "[|0> + i|1>]", "1", "0", [("0", I)])
played("a reset that doesn't flip", "qubit q; reset q; x q;", "[|0> + i|1>]", "0", "-", [("1", ONE)])
played("an outcome without a bit", "qubit q; bit c; measure q; h q;", "[|1>]", "1", "0", [("0", ROOT), ("1", "(-1,0,0,0)/1")])
played("a branch", "qubit[2] q; bit c; c = measure q[0]; if (c) x q[1]; else { reset q[0]; }", "[|00> + |10>]", "1", "1", [("11", ONE)])
played("the other branch", "qubit[2] q; bit c; c = measure q[0]; if (c) x q[1]; else { reset q[0]; }", "[|00> + |10>]", "00", "0", [("00", ONE)])
# (|0> + w|1>)|00> comes to the half of each of the four outcomes, and the third qubit is turned to |0> + w|1>
played("teleportation, 01", TELEPORTATION, "psi * [|00>]", "01", "01", [("010", HALF), ("011", W_HALF)], PSI)
played("teleportation, 11", TELEPORTATION, "psi * [|0>]^2", "11", "11", [("110", HALF), ("111", W_HALF)], PSI)
played("an assertion is passed", "qubit q;\n@assert none\nx q;\n@assert start\n@other\nx q;", "[|1>]", None, "-", [("1", ONE)])
played("an assertion in a branch", "qubit q; bit c; if (!c) {\n@assert none\nmeasure q; }", "[|1>]", "1", "0", [("1", ONE)])
played("claims aren't asked", "qubit q;", "[|1>]", None, "-", [("1", ONE)], "claim pre = all 2 when none == 1; claim post = all 3;\n")
played("a power and a product", "qubit[3] q;", "[2|1>]^2 * [w|0>]", None, "-", [("110", "(0,4,0,0)/0")])
# a zero vector is played like any other, up to an outcome
played("a zero vector", "qubit q;", "[0|1>]", None, "-", [])
played("a zero vector and gates", "qubit q; bit[2] c; h q; t q; if (!c[0]) x q;", "[0|0> + 0|1>]", "", "00", [])
stops("Impossible", "a zero vector", "qubit q; bit c; c = measure q;", "[0|1>]", "0")
stops("Impossible", "a reset of a zero vector", "qubit q; reset q;", "[0|1>]", "1")
stops("ShortOutcomes", "a zero vector", "qubit q; measure q;", "[0|1>]")
stops("LongOutcomes", "a zero vector", "qubit q; x q;", "[0|1>]", "0")

# the set comes first: whether there is one, its qubits, its vectors, its numbers
no_state("UnknownSet", "none", "qubit q;", "set b = [|0>];", "a")
no_state("UnknownSet", "an empty file", "qubit q;", "", "a")
no_state("UnknownSet", "a claim", "qubit q;", "claim pre = [|0>];", "pre")
no_state("UnknownSet", "a capital letter", "qubit q;", "set a = [|0>];", "A")
no_state("UnknownSet", "no name", "qubit q;", "set a = [|0>];", "")
no_state("UnknownSet", "a name of two words", "qubit q;", "set a = [|0>];", "a b")
no_state("UnknownSet", "before bad outcomes and a loop", LOOP, "set a = all 2;", "b", "2")
no_state("QubitsDiffer", "too few", "qubit[2] q;", "set a = [|0>];", "a")
no_state("QubitsDiffer", "too many", "qubit q;", "set a = [|00>];", "a")
no_state("QubitsDiffer", "before too many vectors", "qubit q;", "set a = all 2;", "a")
no_state("QubitsDiffer", "before bad outcomes", "qubit q;", "set a = [|00>];", "a", "x")
no_state("NotOne", "two", "qubit q;", "set a = all 1;", "a")
no_state("NotOne", "one twice", "qubit q;", "set a = [|0>] union [|0>];", "a")
no_state("NotOne", "a power of two", "qubit[3] q;", "set b = [|0>] union [|1>]; set a = b^3;", "a")
no_state("NotOne", "very many", "qubit q;", DOUBLED, "s997")
no_state("NotOne", "before a product that doesn't fit", "qubit[3] q;", "set a = [%d|0>] * [2|0>] * all 1;" % MOST, "a")
no_state("NotOne", "before bad outcomes", "qubit q;", "set a = all 1;", "a", "2")
no_state("Wide", "a product", "qubit[2] q;", "set a = [%d|0>] * [2|0>];" % MOST, "a")
no_state("Wide", "a power", "qubit[2] q;", "set a = [18446744073709551616|1>]^2;", "a")
no_state("Wide", "before bad outcomes and a loop", LOOP.replace("qubit q", "qubit[2] q"), "set a = [%d|0>] * [2|0>];" % MOST, "a", "2")

# then the outcomes' text, and loops
stops("BadOutcomes", "another digit", "qubit q; measure q;", "[|0>]", "2")
stops("BadOutcomes", "a blank", "qubit[2] q; measure q;", "[|00>]", "0 0")
stops("BadOutcomes", "a letter that isn't ASCII", "qubit q; measure q;", "[|0>]", "0\u00e9")
stops("BadOutcomes", "what is printed for none", "qubit q;", "[|0>]", "-")
stops("BadOutcomes", "behind as many as there are", "qubit q; measure q;", "[|0>]", "0x")
stops("BadOutcomes", "before a loop", LOOP, "[|0>]", "2")
stops("BadOutcomes", "before an outcome that can't happen", "qubit[2] q; measure q;", "[|00>]", "1a")
stops("NotLoopFree", "a loop", LOOP, "[|0>]")
stops("NotLoopFree", "a loop in a branch that isn't taken", "qubit q; bit c; if (c) {\n@invariant a\nwhile (c) x q; }", "[|0>]")
stops("NotLoopFree", "before an outcome that is missing", "qubit q; bit c; c = measure q;\n@invariant a\nwhile (c) x q;", "[|0>]")
stops("NotLoopFree", "before outcomes that can't happen", "qubit q; bit c; c = measure q;\n@invariant a\nwhile (c) x q;", "[|0>]", "11")
stops("NotLoopFree", "before a gate that doesn't fit", LOOP.replace("\n", "h q;\n", 1), BIG)

# then what the run meets first
stops("ShortOutcomes", "none", STEERED, "[|00>]")
stops("ShortOutcomes", "one of two", BELL, "[|00>]", "0")
stops("ShortOutcomes", "a reset", "qubit q; reset q;", "[|0>]", "")
stops("ShortOutcomes", "in a branch", "qubit q; bit c; c = measure q; if (c) reset q;", "[|1>]", "1")
stops("ShortOutcomes", "before a gate that doesn't fit", "qubit q; bit c; measure q; x q; h q;", BIG)
stops("Impossible", "the first", "qubit q; measure q;", "[|0>]", "1")
stops("Impossible", "the second", BELL, "[|00>]", "10")
stops("Impossible", "a reset", "qubit q; reset q;", "[i|1>]", "0")
stops("Impossible", "before an outcome that is missing", "qubit[2] q; measure q;", "[|00>]", "1")
stops("Impossible", "before outcomes that are left", "qubit[2] q; measure q[1];", "[|00>]", "100")
stops("Impossible", "before a gate that doesn't fit", "qubit[2] q; measure q[0]; h q[1];", "[|0>] * " + BIG, "1")
stops("Wide", "a sum", "qubit q; h q;", BIG)
stops("Wide", "a quotient", "qubit q; h q;", "[1/sqrt2^4294967295|0>]")
stops("Wide", "in a branch", "qubit[2] q; bit c; c = measure q[0]; if (c) h q[1];", "[|1>] * " + BIG, "1")
stops("Wide", "before an outcome that is missing", "qubit q; h q; measure q;", BIG)
stops("Wide", "before an outcome that can't happen", "qubit[2] q; h q[1]; measure q[0];", "[|0>] * " + BIG, "1")
stops("Wide", "before outcomes that are left", "qubit q; h q;", BIG, "0")
played("a gate that isn't played", "qubit[2] q; bit c; c = measure q[0]; if (c) h q[1];", "[|0>] * " + BIG, "0", "0", [("00", "(%d,0,0,0)/0" % MOST), ("01", "(%d,0,0,0)/0" % MOST)])
stops("LongOutcomes", "one", STEERED, "[|00>]", "11")
stops("LongOutcomes", "nothing is measured", "qubit q;", "[|0>]", "0")
stops("LongOutcomes", "a branch that isn't taken", "qubit q; bit c; c = measure q; if (c) reset q;", "[|0> + |1>]", "00")

# the texts come before the set; claims are never asked for
replay("the program before the sets", "x q;", "no sets", ["--state", "a"], "refused: program 1:3: UnknownName\n", 3)
replay("a program too long", " " * (MOST_PROGRAM + 1), "", ["--state", "a"], PROGRAM_TOO_LONG, 3)
replay("the sets before the set", "qubit q;", "set a = all 0;", ["--state", "b"], "refused: sets 1:9: QubitCount\n", 3)
replay("the sets before the outcomes", LOOP, "set a = all 0;", ["--state", "a", "--outcomes", "2"], "refused: sets 1:9: QubitCount\n", 3)
replay("sets too long", "qubit q;", " " * (MOST_SETS + 1), ["--state", "a"], SETS_TOO_LONG, 3)
CASES.append(("replay: no program", ["replay", "P", "S", "--state", "a"], {"S": "set a = all 1;"}, "read fault: P\n", 5))
CASES.append(("replay: no sets", ["replay", "P", "S", "--state", "a"], {"P": LOOP}, "read fault: S\n", 5))
CASES.append(("replay: a refused program before no sets", ["replay", "P", "S", "--state", "a"], {"P": "x q;"}, "refused: program 1:3: UnknownName\n", 3))
CASES.append(("replay: one file twice", ["replay", "P", "P", "--state", "a"], {"P": "qubit q;"}, "refused: sets 1:1: Unexpected\n", 3))

# ---- words

for words in [
    ["replay"],
    ["replay", "P", "S"],
    ["replay", "P", "S", "--state"],
    ["replay", "P", "S", "a"],
    ["replay", "P", "S", "--outcomes", "0"],
    ["replay", "P", "S", "--state", "a", "--outcomes"],
    ["replay", "P", "S", "--state", "a", "0"],
    ["replay", "P", "S", "--state", "a", "--outcome", "0"],
    ["replay", "P", "S", "--state", "a", "--outcomes", "0", "0"],
    ["replay", "P", "S", "--state", "a", "--post", "b"],
    ["replay", "P", "--state", "a"],
    ["Replay", "P", "S", "--state", "a"],
    ["check", "P", "S", "--state", "a"],
]:
    CASES.append(("words: " + " ".join(words), words, {"P": "qubit q;", "S": "set a = [|0>];"}, USAGE, 4))

# ---- examples/: the files as they lie there

# the pair of kept and message, and the sign that isn't corrected; each outcome halves the two amplitudes
PAIR = [("0000", ONE), ("1100", ONE)]
UNTURNED = [("0100", HALF), ("1101", "(-1,0,0,0)/2")]
# the third qubit was flipped, and then the first too
THIRD = [("000100", ONE), ("111000", ONE)]
FIRST_TOO = [("010101", ONE), ("101001", ONE)]
# the second qubit was flipped: 1 for the first parity, and 0 for the second, which is 1 and began with 1; then the reset
SECOND = [("0100", ONE), ("1010", W)]

EXAMPLES = [
    ("teleportation", VERIFIED, 0),
    ("teleportation_unturned", refutation("00", PAIR, "10", "10", UNTURNED), 1),
    ("superdense", VERIFIED, 0),
    ("entanglement_swapping", VERIFIED, 0),
    ("bit_flip_code", VERIFIED, 0),
    ("code_of_four", VERIFIED, 0),
    ("bit_flip_code_exchanged", refutation("00", THIRD, "01", "01", FIRST_TOO), 1),
    ("reused_work", VERIFIED, 0),
    ("reused_work_stale", refutation("00", SECOND, "100", "10", SECOND), 1),
]

# an example, the set from which it is played, the outcomes, and what is printed
EXAMPLE_REPLAYS = [
    ("teleportation", "start", "10", "bits 10\n" + lines("end", [("0100", HALF), ("1101", HALF)])),
    ("teleportation_unturned", "start", "10", "bits 10\n" + lines("end", UNTURNED)),
]
