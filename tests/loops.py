"""End-to-end cases of programs with assertions and loops: what they owe, in which order, and what is said of it.

Each expected text was worked out by hand from docs/, never taken from what the program printed.
"""

from measurement import lines
from programs import ONE, ROOT
from sets import BIG

CASES = []
VERIFIED = "verified\n"
WIDE = "gave up width\n"


def refutation(bits, state, outcomes, end_bits, end):
    """A verdict. An entry is a ket's digits and its amplitude's text."""
    shown = "refuted\n  bits %s\n%s  outcomes %s\n  end bits %s\n%s"
    return shown % (bits, lines("  state", state), outcomes, end_bits, lines("  end", end))


def report(*said):
    """The text and the status of a report. What is said is an obligation's head without its number, and the verdict."""
    text = "".join("%d %s: %s" % (number, head, verdict) for number, (head, verdict) in enumerate(said, 1))
    counts = [sum(verdict.startswith(word) for _, verdict in said) for word in ("verified", "refuted", "gave up")]
    return text + "verified %d, refuted %d, gave up %d\n" % tuple(counts), 1 if counts[1] else 2 if counts[2] else 0


def claims(**cases):
    return "".join("claim %s = %s;\n" % pair for pair in cases.items())


def judged(name, program, sets, *said):
    CASES.append(("loops: " + name, ["check", "P", "S"], {"P": program, "S": sets}, *report(*said)))


def refused(name, program, sets, line):
    CASES.append(("loops: " + name, ["check", "P", "S"], {"P": program, "S": sets}, "refused: %s\n" % line, 3))


# ---- a loop

REPEAT = """OPENQASM 3.0;
qubit[1] q;
bit c;
h q[0];
c = measure q[0];
@invariant inv
while (c) { x q[0]; h q[0]; c = measure q[0]; }
"""
TIED = "[|0>] when c == 0, [|1>] when c == 1"
ENTRY, KEEP = ("entry line 7", VERIFIED), ("keep line 7", VERIFIED)

judged("measured until it is 0", REPEAT, claims(pre="[|0>]", inv=TIED, post="[|0>]"), ENTRY, KEEP, ("post", VERIFIED))
judged(
    "an invariant that forgets the bit",
    REPEAT,
    claims(pre="[|0>]", inv="[|0>], [|1>]", post="[|0>]"),
    ENTRY,
    KEEP,
    ("post", refutation("0", [("1", ONE)], "-", "0", [("1", ONE)])),
)
judged(
    "an invariant of the last turn alone",
    REPEAT,
    claims(pre="[|0>]", inv="[|0>] when c == 0", post="[|0>]"),
    ("entry line 7", refutation("0", [("0", ONE)], "1", "1", [("1", ROOT)])),
    KEEP,
    ("post", VERIFIED),
)
# behind h, x and the outcome 0 the state is |1> with c = 0
judged(
    "an invariant that isn't kept",
    REPEAT.replace("x q[0]; h q[0]; c = measure q[0];", "h q[0]; c = measure q[0]; x q[0];"),
    claims(pre="[|0>]", inv=TIED, post="[|0>]"),
    ENTRY,
    ("keep line 7", refutation("1", [("1", ONE)], "0", "0", [("1", ROOT)])),
    ("post", VERIFIED),
)
judged(
    "a loop that runs while the bit is 0",
    REPEAT.replace("while (c)", "while (!c)").replace("x q[0]; ", ""),
    claims(pre="[|0>]", inv=TIED, post="[|1>]"),
    ENTRY,
    KEEP,
    ("post", VERIFIED),
)
# nothing ends, and nothing is claimed to end
judged(
    "a loop without an end",
    "qubit q; bit c; x q; c = measure q;\n@invariant inv\nwhile (c) { z q; }",
    claims(pre="[|0>]", inv="[|1>] when c == 1", post="[0|0>]"),
    ("entry line 3", VERIFIED),
    ("keep line 3", VERIFIED),
    ("post", VERIFIED),
)
judged(
    "a loop that is never entered",
    "qubit q; bit c;\n@invariant inv\nwhile (c) { x q; }\n",
    claims(pre="[|0>]", inv="[|0>] when c == 0", post="[|0>]"),
    ("entry line 3", VERIFIED),
    ("keep line 3", VERIFIED),
    ("post", VERIFIED),
)
# what is kept is asked of every state of the invariant, also of those that no run brings there
judged(
    "a loop that is never entered, with an invariant that allows it",
    "qubit q; bit c;\n@invariant inv\nwhile (c) { x q; }\n",
    claims(pre="[|0>]", inv="[|0>]", post="[|0>]"),
    ("entry line 3", VERIFIED),
    ("keep line 3", refutation("1", [("0", ONE)], "-", "1", [("1", ONE)])),
    ("post", VERIFIED),
)
judged(
    "a loop with an empty body",
    "qubit q; bit c;\n@invariant inv\nwhile (c == 1) { }",
    claims(pre="all 1", inv="all 1", post="all 1 when c == 0"),
    ("entry line 3", VERIFIED),
    ("keep line 3", VERIFIED),
    ("post", VERIFIED),
)
judged(
    "two loops in a row",
    "qubit[2] q; bit[2] c;\nh q; c = measure q;\n@invariant both\nwhile (c[0]) { h q[0]; c[0] = measure q[0]; }\n"
    "@invariant second\nwhile (c[1]) {\nh q[1]; c[1] = measure q[1]; }\n",
    claims(
        pre="[|00>]",
        both=", ".join("[|%d%d>] when c[0] == %d and c[1] == %d" % (a, b, a, b) for a in (0, 1) for b in (0, 1)),
        second="[|00>] when c[1] == 0, [|01>] when c[1] == 1",
        post="[|00>] when c[1] == 0",
    ),
    ("entry line 4", VERIFIED),
    ("keep line 4", VERIFIED),
    ("entry line 6", VERIFIED),
    ("keep line 6", VERIFIED),
    ("post", VERIFIED),
)

NESTED = """qubit[2] q;
bit[2] c;
h q;
c = measure q;

@invariant known
while (c[0]) {
  h q[0]; c[0] = measure q[0];
  @other note
  @invariant known
  while (c[1]) {
    h q[1]; c[1] = measure q[1];
  }
}
"""
KNOWN = ", ".join("[|%d%d>] when c[0] == %d and c[1] == %d" % (a, b, a, b) for a in (0, 1) for b in (0, 1))
judged(
    "a loop in a loop",
    NESTED,
    claims(pre="[|00>]", known=KNOWN, post="[|00>] when c[1] == 0, [|01>] when c[1] == 1"),
    ("entry line 7", VERIFIED),
    ("entry line 11", VERIFIED),
    ("keep line 11", VERIFIED),
    ("keep line 7", VERIFIED),
    ("post", VERIFIED),
)
# the inner loop ends with c[1] = 0, but it isn't run where the outer one isn't
judged(
    "a loop in a loop, and a post of the inner one",
    NESTED,
    claims(pre="[|00>]", known=KNOWN, post="[|00>]"),
    ("entry line 7", VERIFIED),
    ("entry line 11", VERIFIED),
    ("keep line 11", VERIFIED),
    ("keep line 7", VERIFIED),
    ("post", refutation("01", [("01", ONE)], "-", "01", [("01", ONE)])),
)
IN_BRANCH = "qubit q; bit c;\nh q; c = measure q;\nif (c) {\n@invariant tied\nwhile (c) { h q; c = measure q; }\n} else { x q; }\nz q;"
judged(
    "a loop in a branch",
    IN_BRANCH,
    claims(pre="[|0>]", tied=TIED, post="all 1 when c == 0"),
    ("entry line 5", VERIFIED),
    ("keep line 5", VERIFIED),
    ("post", VERIFIED),
    ("post", VERIFIED),
)
judged(
    "a loop in a branch, and the other branch escapes",
    IN_BRANCH,
    claims(pre="[|0>]", tied=TIED, post="[|0>]"),
    ("entry line 5", VERIFIED),
    ("keep line 5", VERIFIED),
    ("post", VERIFIED),
    ("post", refutation("0", [("0", ONE)], "0", "0", [("1", "(-1,0,0,0)/1")])),
)

# ---- invariants that are too weak, and what their refutations tell

TRY = "h work; t work; cx work, data; h work; cx work, data; t work; h work;\nfailed = measure work;\n"
TRIES = "qubit work; qubit kept; qubit data; bit failed;\n" + TRY + "@invariant tried\nwhile (failed) {\nx work;\n" + TRY + "}\n"
PAIR = "set pair = [|00> + |11>];\nset turned = [|00> + 2i/sqrt2|01> + 2i/sqrt2|10> + |11>];\n"
# a failed try has the factor (1 + i)/(2 sqrt(2)), which is w/2
FAILED = refutation("0", [("000", ONE), ("011", ONE)], "1", "1", [("100", "(0,1,0,0)/2"), ("111", "(0,1,0,0)/2")])
for name, tried, entry in [
    ("tries", "[|0>] * turned when failed == 0, [|1>] * pair when failed == 1", VERIFIED),
    ("tries of which one may not fail", "[|0>] * turned when failed == 0", FAILED),
]:
    sets = PAIR + claims(pre="[|0>] * pair", tried=tried, post="[|0>] * turned")
    judged(name, TRIES, sets, ("entry line 5", entry), ("keep line 5", VERIFIED), ("post", VERIFIED))
judged(
    "an inner loop that forgets a bit of the outer one",
    "qubit[2] coin; bit[2] c;\nh coin[0]; c[0] = measure coin[0];\n@invariant first\nwhile (c[0]) {\n"
    "h coin; c = measure coin;\n@invariant both\nwhile (c[1]) { h coin[1]; c[1] = measure coin[1]; }\n}\n",
    claims(
        pre="[|00>]",
        first="[|00>] when c[0] == 0, [|10>] when c[0] == 1",
        both="all 1 * [|0>] when c[1] == 0, all 1 * [|1>] when c[1] == 1",
        post="[|00>]",
    ),
    ("entry line 4", VERIFIED),
    ("entry line 7", VERIFIED),
    ("keep line 7", VERIFIED),
    ("keep line 4", refutation("00", [("10", ONE)], "-", "00", [("10", ONE)])),
    ("post", VERIFIED),
)

# ---- assertions

judged(
    "an assertion",
    "qubit q;\nh q;\n@assert plus\nh q;\n",
    claims(pre="[|0>]", plus="[|0> + |1>]", post="[|0>]"),
    ("assert line 3", VERIFIED),
    ("post", VERIFIED),
)
judged(
    "an assertion that is wrong",
    "qubit q;\nh q;\n  @assert minus // here\nh q;\n",
    claims(pre="[|0>]", minus="[|0> - |1>]", post="[|1>]"),
    ("assert line 3", refutation("-", [("0", ONE)], "-", "-", [("0", ROOT), ("1", ROOT)])),
    ("post", VERIFIED),
)
judged(
    "a bit behind an assertion has either value",
    "qubit q;\nbit c;\n@assert zero\nx q;",
    claims(pre="[|0>]", zero="[|0>]", post="[|1>] when c == 0"),
    ("assert line 3", VERIFIED),
    ("post", refutation("1", [("0", ONE)], "-", "1", [("1", ONE)])),
)
judged(
    "a claim that keeps the bit",
    "qubit q;\nbit c;\n@assert zero\nx q;",
    claims(pre="[|0>]", zero="[|0>] when c == 0", post="[|1>] when c == 0"),
    ("assert line 3", VERIFIED),
    ("post", VERIFIED),
)
judged(
    "two assertions at one statement",
    "qubit q;\n@assert any\n@assert zero\nx q;",
    claims(pre="[|0>]", any="all 1", zero="[|0>]", post="[|1>]"),
    ("assert line 2", VERIFIED),
    ("assert line 3", refutation("-", [("1", ONE)], "-", "-", [("1", ONE)])),
    ("post", VERIFIED),
)
judged(
    "assertions at the start and at the end",
    "@assert zero\nqubit q;\nx q;\n@assert one\nbarrier q;",
    claims(pre="[2|0>]", zero="[|0>]", one="[|1>]", post="[|1>]"),
    ("assert line 1", VERIFIED),
    ("assert line 4", VERIFIED),
    ("post", VERIFIED),
)
judged(
    "the claims of the start and the end, asserted",
    "qubit q;\n@assert pre\nx q;\n@assert post\nbarrier;",
    claims(pre="[|0>]", post="[|1>]"),
    ("assert line 2", VERIFIED),
    ("assert line 4", VERIFIED),
    ("post", VERIFIED),
)
judged(
    "a claim of a word of programs",
    "qubit q;\n@assert if\nx q;",
    "claim pre = [|0>]; claim if = [|0>]; claim post = [|1>];",
    ("assert line 2", VERIFIED),
    ("post", VERIFIED),
)
judged(
    "an assertion before a loop",
    "qubit q; bit c;\n@invariant inv\n@assert zero\nwhile (c) { x q; }",
    claims(pre="[|0>]", inv="[|0>] when c == 0", zero="[|0>] when c == 0", post="[|0>]"),
    ("assert line 3", VERIFIED),
    ("entry line 4", VERIFIED),
    ("keep line 4", VERIFIED),
    ("post", VERIFIED),
)
BOTH = "qubit q; bit c;\nh q;\nc = measure q;\nif (c) {\n@assert %s\nx q; } else {\n@assert %s\nx q; }\nx q;"
judged(
    "an assertion in both branches",
    BOTH % ("one", "zero"),
    claims(pre="[|0>]", one="[|1>] when c == 1", zero="[|0>] when c == 0", post=TIED),
    ("assert line 5", VERIFIED),
    ("post", VERIFIED),
    ("assert line 7", VERIFIED),
    ("post", VERIFIED),
)
judged(
    "an assertion in both branches, exchanged",
    BOTH % ("zero", "one"),
    claims(pre="[|0>]", one="[|1>] when c == 1", zero="[|0>] when c == 0", post=TIED),
    ("assert line 5", refutation("0", [("0", ONE)], "1", "1", [("1", ROOT)])),
    ("post", VERIFIED),
    ("assert line 7", refutation("0", [("0", ONE)], "0", "0", [("0", ROOT)])),
    ("post", VERIFIED),
)
# behind the branch with an assertion the rest is judged from the claim, behind the other one from the start
judged(
    "an assertion in one branch",
    "qubit q; bit c;\nif (c) {\n@assert one\nx q; }\nx q;",
    claims(pre="[|0>]", one="[|0>] when c == 1", post="[|1>] when c == 0"),
    ("assert line 3", VERIFIED),
    ("post", refutation("1", [("0", ONE)], "-", "1", [("0", ONE)])),
    ("post", VERIFIED),
)
judged(
    "an assertion that no run reaches",
    "qubit q; bit c;\nif (c) {\n@assert never\nx q; }",
    claims(pre="[|0>]", never="[0|0>]", post="[|0>]"),
    ("assert line 3", VERIFIED),
    ("post", VERIFIED),
    ("post", VERIFIED),
)

# the side of a branch fixes the bit, and the refutation shows it
judged(
    "an assertion in a branch on a bit that isn't known",
    "qubit q; bit c;\n@assert zero\nif (c) {\n@assert one\nx q; }",
    claims(pre="[|0>]", zero="[|0>]", one="[|1>]", post="all 1"),
    ("assert line 2", VERIFIED),
    ("assert line 4", refutation("1", [("0", ONE)], "-", "1", [("0", ONE)])),
    ("post", VERIFIED),
    ("post", VERIFIED),
)
# cases in order, and the first of them is begun by nothing where the test is true
judged(
    "an invariant of several cases that isn't kept",
    "qubit q; bit c;\n@invariant inv\nwhile (c) { z q; }",
    claims(pre="[|0>]", inv="[|0>] when c == 0, [|1>], [|0> + |1>] when c == 1, [|0> + i|1>]", post="all 1 when c == 0, [|0> + i|1>]"),
    ("entry line 3", VERIFIED),
    ("keep line 3", refutation("1", [("0", ONE), ("1", ONE)], "-", "1", [("0", ONE), ("1", "(-1,0,0,0)/0")])),
    ("post", VERIFIED),
)

# ---- bits that aren't known

FORGOTTEN = "qubit q; bit c; bit d;\n@assert zero\n%s"


def forgotten(name, rest, post, verdict, zero="[|0>]"):
    sets = claims(pre="[|0>]", zero=zero, post=post)
    judged(name, FORGOTTEN % rest, sets, ("assert line 2", VERIFIED), ("post", verdict))


forgotten("a branch on a bit that isn't known", "if (c) x q;", "[|0>]", refutation("10", [("0", ONE)], "-", "10", [("1", ONE)]))
forgotten("a branch that tells the bit", "if (c) x q;", TIED, VERIFIED)
forgotten("a bit that is stored anew", "h q; c = measure q;", TIED, VERIFIED)
forgotten("a bit that is stored anew counts as 0 at the start", "h q; c = measure q;", "[|0>]", refutation("00", [("0", ONE)], "1", "10", [("1", ROOT)]))
forgotten("a bit that is read and then stored", "if (c) x q; c = measure q;", TIED, VERIFIED)
forgotten(
    "what a bit was when it was read",
    "if (c) x q; c = measure q; x q;",
    "[|1>] when c == 0",
    refutation("10", [("0", ONE)], "1", "10", [("0", ONE)]),
)
forgotten("bits are decided in order of number", "x q;", "[|1>] when d == 0 and c == 0, [|1>] when c == 1", refutation("01", [("0", ONE)], "-", "01", [("1", ONE)]))
forgotten("a bit that nothing names counts as 0", "x q;", "[|1>] when d == 0", refutation("01", [("0", ONE)], "-", "01", [("1", ONE)]))
forgotten("a bit that a case fixes", "if (c) x q; else { }", "[|1>]", refutation("00", [("0", ONE)], "-", "00", [("0", ONE)]), "[|0>] when c == 0, [|0>] when c == 1")
# an outcome is decided before a branch behind it, whatever the bit's number
forgotten(
    "decisions in the order in which they are made",
    "h q; d = measure q; if (c) { } else x q;",
    "[|1>] when d == 0",
    refutation("10", [("0", ONE)], "0", "10", [("0", ROOT)]),
)
forgotten("an outcome comes before what is known last", "h q; measure q;", "[|0>], [|1>] when c == 0", refutation("10", [("0", ONE)], "1", "10", [("1", ROOT)]))

# ---- claims: all names first, in the order pre, post, and then that of the program's text

TWO = "qubit q; bit c;\n@invariant k\n@assert a\nwhile (c) {\n@assert b\nx q; }"
GOOD = dict(pre="[|0>]", post="[|0>]", k="[|0>] when c == 0", a="[|0>] when c == 0", b="[|0>]")
for missing, also in [("pre", ("post", "k")), ("post", ("a", "k")), ("k", ("a", "b")), ("a", ("b",)), ("b", ())]:
    kept = {name: case for name, case in GOOD.items() if name != missing and name not in also}
    refused("no claim " + missing, TWO, claims(**kept), "claim %s: UnknownClaim" % missing)
refused("a set for a claim", TWO, "set b = [|0>];\n" + claims(**{name: case for name, case in GOOD.items() if name != "b"}), "claim b: UnknownClaim")
refused("a missing claim before other qubits", "qubit q;\n@assert a\nx q;", claims(pre="all 3", post="all 1"), "claim a: UnknownClaim")
refused("a bit of no register", REPEAT, claims(pre="[|0>]", inv="[|0>] when d == 0", post="[|0>]"), "claim inv: BitUnknown")
refused("other qubits", REPEAT, claims(pre="[|0>]", inv="[|00>]", post="[|0>]"), "claim inv: QubitsDiffer")
refused("claim by claim, pre first", TWO, claims(**dict(GOOD, pre="all 1 when d == 0", post="all 2", k="all 2")), "claim pre: BitUnknown")
refused("claim by claim, post second", TWO, claims(**dict(GOOD, post="all 1 when d == 0", k="all 2")), "claim post: BitUnknown")
refused("claim by claim, as the text names them", TWO, claims(**dict(GOOD, k="all 1 when d == 0", a="all 2")), "claim k: BitUnknown")
refused("claim by claim, inner ones last", TWO, claims(**dict(GOOD, b="all 1, all 1 when c[0] == 0")), "claim b: BitUnknown")
refused("a claim in a branch that isn't taken", "qubit q; bit c; if (c) {\n@assert a\nx q; }", claims(pre="[|0>]", post="[|0>]"), "claim a: UnknownClaim")
# `i` is a word of set files, so no claim has that name
refused("a claim that can't be written", "qubit q;\n@assert i\nx q;", claims(pre="[|0>]", post="[|1>]"), "claim i: UnknownClaim")
judged("claims that nothing names", "qubit q;", claims(pre="[|0>]", post="[|0>]", a="all 5 when none == 1"), ("post", VERIFIED))

# ---- 1,000 obligations, and fragments of 2,000,000 statements together

ASSERTED = claims(pre="[|0>]", a="[|0>]", post="[|1>]")
MANY = "qubit q;\n" + "@assert a\n" * 999 + "%sx q;"
judged("as many obligations as there may be", MANY % "", ASSERTED, *(("assert line %d" % line, VERIFIED) for line in range(2, 1001)), ("post", VERIFIED))
refused("one obligation too many", MANY % "@assert a\n", ASSERTED, "TooManyObligations")
# k branches with an assertion come to 2^(k+1) - 1 obligations: 1,023 for nine
BRANCHES = "qubit q; bit c;\n" + "if (c) {\n@assert a\nx q; }\n" * 9
refused("nine branches in a row", BRANCHES, ASSERTED, "TooManyObligations")
refused("thousands of branches in a row", "qubit q; bit c;\n" + "if (c) {\n@assert a\nx q; }\n" * 9000, ASSERTED, "TooManyObligations")
refused("branches in branches", "qubit q; bit c;\n" + "if (c) {\n@assert a\nx q;" * 60 + "}" * 60 + "if (c) { } else {\n@assert a\nx q; }\n" * 60, ASSERTED, "TooManyObligations")
refused("claims come before too many", BRANCHES, claims(pre="[|0>]", post="[|1>]"), "claim a: UnknownClaim")
refused("qubits of claims come before too many", BRANCHES, claims(pre="[|0>]", a="all 2", post="[|1>]"), "claim a: QubitsDiffer")


def branched(depth):
    return "if (c) {%s} else {%s}" % (branched(depth - 1), branched(depth - 1)) if depth else "\n@assert a\nbarrier;"


# 32 assertions, each behind all calls and 5 assumptions: 32 * (62,495 + 5) = 2,000,000 statements
LONG = "qubit q; bit c;" + "x q;" * 62495 + "%s" + branched(5)
ONES = claims(pre="[|0>]", a="[|1>]", post="[|1>]")
judged("as many statements as there may be", LONG % "", ONES, *(said for leaf in range(32) for said in (("assert line %d" % (2 + 2 * leaf), VERIFIED), ("post", VERIFIED))))
refused("statements too many", LONG % "x q;", ONES, "TooManyObligations")

# ---- steps and width: of each obligation by itself. For one qubit, [|0>] on both sides and L - 1 statements 32 * 2^(M+U) * (L + 1)
# + 128 steps are enough, and 20,000,000 are allowed; what is taken is mostly far less.

MEASURES = "qubit q; bit c;\n@invariant a\nwhile (c) { %s }\n"
AGAIN = claims(pre="[|0>]", a="[|0>]", post="[|0>]")
# 32 * 2^(14 + 1) * 16 + 128 = 16,777,344, since the guard that is given counts
judged("fourteen measurements in a loop", MEASURES % ("measure q;" * 14), AGAIN, ("entry line 3", VERIFIED), ("keep line 3", VERIFIED), ("post", VERIFIED))
# 32 * 2^(15 + 1) * 17 + 128 = 35,651,712, and one world
judged("fifteen measurements in a loop", MEASURES % ("measure q;" * 15), AGAIN, ("entry line 3", VERIFIED), ("keep line 3", VERIFIED), ("post", VERIFIED))
judged(
    "a refuted obligation behind one that is given up",
    MEASURES % "h q;",
    claims(pre="[|0>]", a="[|0>] union " + BIG, post="[|1>]"),
    ("entry line 3", VERIFIED),
    ("keep line 3", WIDE),
    ("post", refutation("0", [("0", ONE)], "-", "0", [("0", ONE)])),
)
# 14 measurements, two gates and an assumption: 32 * 2^(14 + 1) * 19 + 128 = 19,923,072; with a gate more 20,971,648
ASSUMED = "qubit q; bit[2] c;\nmeasure q;%s if (c[0]) {\n@assert a\nz q; }"
judged("an assumption counts", ASSUMED % ("measure q;" * 13 + "z q;" * 2), AGAIN, ("assert line 3", VERIFIED), ("post", VERIFIED), ("post", VERIFIED))
judged("an assumption counts, and a gate more", ASSUMED % ("measure q;" * 13 + "z q;" * 3), AGAIN, ("assert line 3", VERIFIED), ("post", VERIFIED), ("post", VERIFIED))
# 32 * 2^(15 + 1) * 18 + 128 = 37,748,864
judged("an assumption's bit counts", ASSUMED % ("measure q;" * 14), AGAIN, ("assert line 3", VERIFIED), ("post", VERIFIED), ("post", VERIFIED))
judged(
    "a gate that doesn't fit, before an assertion",
    "qubit q;\nh q;\n@assert a\nx q;",
    claims(pre=BIG, a="[|0>]", post="[|1>]"),
    ("assert line 3", WIDE),
    ("post", VERIFIED),
)
judged(
    "verified, refuted and given up",
    "qubit q;\nh q;\n@assert a\nx q;\n@assert b\nz q;",
    claims(pre=BIG, a="[|0>]", b="[|0>]", post="[|0>]"),
    ("assert line 3", WIDE),
    ("assert line 5", refutation("-", [("0", ONE)], "-", "-", [("1", ONE)])),
    ("post", VERIFIED),
)

# ---- examples/: the files as they lie there


def example(name, *said):
    return (name, *report(*said))


def looped(line, keep, post):
    return ("entry line %d" % line, VERIFIED), ("keep line %d" % line, keep), ("post", post)


# The second try begins with the work qubit in 1, which is the first one with -w for w: now the outcome 0 leaves the data as it
# was, by the factor (1 + i)/(2 sqrt(2)) = w/2.
DIRTY = refutation("1", [("100", ONE), ("111", ONE)], "0", "0", [("000", "(0,1,0,0)/2"), ("011", "(0,1,0,0)/2")])
# 3/8 of a turn less 1/8 is a quarter: the probe is (|0> + i|1>)/sqrt(2) before its h, and then (1 - i)/2 of 1, which is w^7/sqrt(2)
UNCORRECTED = refutation("011", [("01", ONE)], "1", "111", [("11", "(0,0,0,-1)/1")])
FORGETS = refutation("0", [("1", ONE)], "-", "0", [("1", ONE)])

EXAMPLES = [
    example("until_zero", *looped(10, VERIFIED, VERIFIED)),
    example("until_zero_forgets", *looped(10, VERIFIED, FORGETS)),
    example("repeat_until_success", *looped(13, VERIFIED, VERIFIED)),
    example("repeat_until_success_dirty", *looped(12, DIRTY, VERIFIED)),
    example("weak_grover", *looped(15, VERIFIED, VERIFIED)),
    example("phase_estimation", ("assert line 15", VERIFIED), ("assert line 22", VERIFIED), ("post", VERIFIED)),
    example("phase_estimation_uncorrected", ("assert line 14", VERIFIED), ("assert line 21", VERIFIED), ("post", UNCORRECTED)),
    example(
        "nested_coins",
        ("entry line 10", VERIFIED),
        ("entry line 16", VERIFIED),
        ("keep line 16", VERIFIED),
        ("keep line 10", VERIFIED),
        ("post", VERIFIED),
    ),
    example("ghz_asserted", ("assert line 7", VERIFIED), ("post", VERIFIED)),
]

# an example, and the claim that some run breaks. None breaks one of until_zero_forgets: only its invariant is too weak
RUNS = [
    ("until_zero", None),
    ("until_zero_forgets", None),
    ("repeat_until_success", None),
    ("repeat_until_success_dirty", "tried"),
    ("weak_grover", None),
    ("phase_estimation_uncorrected", "post"),
    ("nested_coins", None),
]
