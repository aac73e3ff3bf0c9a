"""End-to-end cases of words: the options of each command, in any order and form, what is refused, and trials.

A case is a name, the words, the files, what is printed and the status. Expected texts are worked out by hand.
"""

from cases import GAVE_UP_STEPS, USAGE, VERIFIED, claim_fault, refuted

PROGRAM = "qubit[2] q; x q[0];"
SETS = "claim pre = [|00>]; claim post = [|10>]; claim other = [|00> + |01>]; set a = [|00>]; set b = [|01>];"
FILES = {"P": PROGRAM, "S": SETS}
NOT_OTHER = refuted([("00", "(1,0,0,0)/0")], [("10", "(1,0,0,0)/0")])
NOT_POST = refuted([("00", "(1,0,0,0)/0"), ("01", "(1,0,0,0)/0")], [("10", "(1,0,0,0)/0"), ("11", "(1,0,0,0)/0")])
END_A = "bits -\nend |10> (1,0,0,0)/0\n"
END_B = "bits -\nend |11> (1,0,0,0)/0\n"
LONG = "refused: replay: LongOutcomes\n"

# one vector of size 2 in each claim, and one gate: so many steps are enough
ENOUGH = 8 * (1 * 1 * 2**3 * (1 + 1 + 1) + 2**3 * (2 + 2))

CASES = []


def case(words, stdout, status, files=None):
    name = "words: " + " ".join(repr(word) if word.strip() != word or not word else word for word in words)
    CASES.append((name, words, FILES if files is None else files, stdout, status))


def taken(words):
    """A check by the claims `pre` and `post`, and enough steps."""
    case(words, VERIFIED, 0)


def usage(words):
    case(words, USAGE, 4)


# ---- check

taken(["check", "P", "S"])
for words in [
    ["--pre", "pre"],
    ["--post", "post"],
    ["--pre=pre", "--post=post"],
    ["--pre", "post", "--post", "pre"],
    ["--steps", "20000000"],
    ["--steps=1000000000"],
    ["--steps", "+5000"],
    ["--steps=005000"],
    ["--steps", str(ENOUGH)],
]:
    taken(["check", "P", "S"] + words)
    taken(["check"] + words + ["P", "S"])
    taken(["check", "P"] + words + ["S"])
taken(["check", "--", "P", "S"])
taken(["check", "P", "S", "--"])
taken(["check", "P", "--steps", "5000", "--", "S"])
case(["check", "P", "S", "--post", "other"], NOT_OTHER, 1)
case(["check", "--post=other", "P", "S"], NOT_OTHER, 1)
case(["check", "P", "S", "--pre", "other"], NOT_POST, 1)
case(["check", "P", "S", "--pre="], claim_fault("", "UnknownClaim"), 3)
case(["check", "P", "S", "--pre", ""], claim_fault("", "UnknownClaim"), 3)
case(["check", "P", "S", "--post", "-"], claim_fault("-", "UnknownClaim"), 3)
case(["check", "P", "S", "--post", "none", "--pre", "last"], claim_fault("last", "UnknownClaim"), 3)
case(["check", "P", "S", "--post", "a"], claim_fault("a", "UnknownClaim"), 3)
# the leaves 0 and 1 and the nodes of |00> are five entries, and |10> has one more
for words in [
    ["--steps", "1"],
    ["--steps=1"],
    ["--steps", "+5"],
    ["--steps", "005"],
]:
    case(["check", "P", "S"] + words, GAVE_UP_STEPS, 2)
case(["check", "--", "--pre", "S"], "read fault: --pre\n", 5)
case(["check", "", "S"], "read fault: \n", 5)
for words in [
    ["--steps", "0"],
    ["--steps", "-1"],
    ["--steps=-1"],
    ["--steps", "1000000001"],
    ["--steps", "18446744073709551617"],
    ["--steps", "5.0"],
    ["--steps", "1e3"],
    ["--steps", "0x10"],
    ["--steps", " 5"],
    ["--steps", "5_000"],
    ["--steps", ""],
    ["--steps="],
    ["--steps", "five"],
    ["--steps"],
    ["--pre"],
    ["--pre", "--post"],
    ["--pre", "-x"],
    ["--steps", "5000", "--steps", "5000"],
    ["--pre=pre", "--pre=pre"],
    ["--step", "5000"],
    ["--Steps", "5000"],
    ["-steps", "5000"],
    ["--limit", "5000"],
    ["--state", "a"],
    ["--cert", "C"],
    ["more"],
    ["--", "more"],
    ["-h"],
    ["--help"],
    ["--version"],
    ["-V"],
    [""],
]:
    usage(["check", "P", "S"] + words)
for words in [["check"], ["check", "P"], ["check", "--pre", "P", "S"], ["check", "--help"], ["check", "-h"]]:
    usage(words)

# ---- replay

REPLAY = ["replay", "P", "S"]
for words in [
    REPLAY + ["--state", "b"],
    REPLAY + ["--state=b"],
    ["replay", "--state", "b", "P", "S"],
    ["replay", "P", "--state=b", "S"],
    REPLAY + ["--state", "b", "--outcomes", ""],
    REPLAY + ["--state", "b", "--outcomes="],
    REPLAY + ["--outcomes", "", "--state", "b"],
    ["replay", "--outcomes=", "--state=b", "P", "S"],
    REPLAY + ["--state=b", "--"],
]:
    case(words, END_B, 0)
case(REPLAY + ["--state", "a"], END_A, 0)
case(REPLAY + ["--outcomes", "0", "--state", "a"], LONG, 3)
case(["replay", "--outcomes=0", "P", "--state", "a", "S"], LONG, 3)
case(REPLAY + ["--state="], "refused: set : UnknownSet\n", 3)
case(REPLAY + ["--state", "-"], "refused: set -: UnknownSet\n", 3)
case(REPLAY + ["--state", "a", "--outcomes", "-"], "refused: replay: BadOutcomes\n", 3)
for words in [
    ["--state", "a", "--state", "a"],
    ["--state", "a", "--outcomes", "0", "--outcomes", "0"],
    ["--state", "--outcomes", "0"],
    ["--state", "a", "--steps", "5000"],
    ["--state", "a", "more"],
    ["--state", "a", "-h"],
    ["--help"],
]:
    usage(REPLAY + words)

# ---- the command

for words in [[], [""], ["chec", "P", "S"], ["checks", "P", "S"], ["Check", "P", "S"], [" check", "P", "S"], ["c", "P", "S"]]:
    usage(words)
for words in [["rep", "P", "S", "--state", "a"], ["tri", "1"], ["t", "1"], ["help"], ["--help"], ["-h"], ["--version"]]:
    usage(words)
for words in [["--", "check", "P", "S"], ["P", "S", "check"], ["--steps", "5", "check", "P", "S"], ["recheck", "P", "S", "C"]]:
    usage(words)


# ---- trials


def draws(number):
    """The numbers that trials are made from: each call draws one below a bound."""
    x = number

    def draw(bound):
        nonlocal x
        x = (1103515245 * x + 12345) % 2**31
        return x // 65536 % bound

    return draw


def trial_gate(draw, qubits):
    """The next gate: its name and its qubits."""
    kind, first = draw(5), draw(qubits)
    chosen = [first]
    for bound in range(qubits - 1, qubits - 1 - max(kind - 2, 0), -1):
        others = [qubit for qubit in range(qubits) if qubit not in chosen]
        chosen.append(others[draw(bound)])
    return ["h", "t", "x", "cx", "ccx"][kind], chosen


def trial_texts(number):
    """The program and the sets of a trial."""
    qubits = number + 3
    draw = draws(number)
    gates = [trial_gate(draw, qubits) for _ in range(20 * qubits)]
    undone = [("tdg" if name == "t" else name, chosen) for name, chosen in reversed(gates[1:])]
    lines = ["OPENQASM 3.0;", "qubit[%d] q;" % qubits]
    lines += ["%s %s;" % (name, ", ".join("q[%d]" % qubit for qubit in chosen)) for name, chosen in gates + undone]
    zeros = "0" * (qubits - 2)
    sets = ["claim %s = all 2 * [|%s>];" % (claim, zeros) for claim in ("pre", "post")]
    return ["".join(line + "\n" for line in text).encode() for text in (lines, sets)]


def trial_line(number, verified, refused, gave_up):
    qubits = number + 3
    counts = (number, qubits, 40 * qubits - 1, verified, refused, gave_up)
    return "trial %d: %d qubits, %d gates, verified %d, refuted %d, gave up %d\n" % counts


def trial(word, number, verified, refused, gave_up):
    status = 1 if refused else 2 if gave_up else 0
    case(["trial", word], trial_line(number, verified, refused, gave_up), status, {})


# larger ones are too much for the plain program
trial("1", 1, 1, 0, 0)
trial("+1", 1, 1, 0, 0)
trial("001", 1, 1, 0, 0)
trial("4", 4, 0, 1, 0)
case(["trial", "--", "4"], trial_line(4, 0, 1, 0), 1, {})
for words in [
    ["trial"],
    ["trial", "0"],
    ["trial", "14"],
    ["trial", "-1"],
    ["trial", "one"],
    ["trial", ""],
    ["trial", "1", "2"],
    ["trial", "1", "--steps", "5"],
    ["trial", "--number", "1"],
    ["trial", "1", "-h"],
    ["trial", "--help"],
]:
    usage(words)
