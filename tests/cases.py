"""The end-to-end cases: words, files, what is printed, and the exit status.

Each expected text was worked out by hand from docs/, never taken from what the program printed.
"""

USAGE = (
    "usage: autoq check PROG SETS [--pre NAME] [--post NAME] [--steps N] [--cert FILE]\n"
    "       autoq recheck PROG SETS CERT [--pre NAME] [--post NAME] [--steps N]\n"
    "       autoq replay PROG SETS --state NAME [--outcomes TEXT]\n"
    "       autoq trial N\n"
)
VERIFIED = "1 post: verified\nverified 1, refuted 0, gave up 0\n"
GAVE_UP_WIDTH = "1 post: gave up width\nverified 0, refuted 0, gave up 1\n"
PROGRAM_TOO_LONG = "refused: program: TooLong\n"
SETS_TOO_LONG = "refused: sets: TooLong\n"
GAVE_UP_STEPS = "1 post: gave up steps\nverified 0, refuted 0, gave up 1\n"

MOST_PROGRAM = 1048576
MOST_SETS = 4194304
MOST_CALLS = 100000

BELL = 'OPENQASM 3.0;\ninclude "stdgates.inc";\nqubit[2] q;\nh q[0];\ncx q[0], q[1];\n'
BELL_SETS = "claim pre = [|00>];\nclaim post = [|00> + |11>];\n"
NOTHING = "qubit[2] q;"
NOTHING_SETS = "claim pre = [|00>]; claim post = [|00>];"


def refuted(state, end, bits="-"):
    """The report of a refuted program of gates. An entry is a ket's digits and its amplitude's text."""
    lines = ["1 post: refuted", "  bits " + bits]
    lines += ["  state |%s> %s" % entry for entry in state]
    lines += ["  outcomes -", "  end bits " + bits]
    lines += ["  end |%s> %s" % entry for entry in end]
    lines += ["verified 0, refuted 1, gave up 0"]
    return "".join(line + "\n" for line in lines)


def fault(line, column, said):
    """The line of a program's first fault."""
    return "refused: program %d:%d: %s\n" % (line, column, said)


def sets_fault(line, column, said):
    """The line of a set file's first fault."""
    return "refused: sets %d:%d: %s\n" % (line, column, said)


def claim_fault(claim, said):
    """The line of a claim that doesn't fit the program, or isn't there."""
    return "refused: claim %s: %s\n" % (claim, said)


def claims(before, after):
    return "claim pre = [%s];\nclaim post = [%s];\n" % (before, after)


def calls(qubits, *texts):
    return "qubit[%d] q;\n" % qubits + "".join(text + "\n" for text in texts)


def padded(text, size):
    return text + " " * (size - len(text))


CASES = []


def case(name, words, files, stdout, status):
    CASES.append((name, words, files, stdout, status))


def checked(name, program, sets, stdout, status):
    case(name, ["check", "P", "S"], {"P": program, "S": sets}, stdout, status)


def verified(name, program, sets):
    checked(name, program, sets, VERIFIED, 0)


# ---- verdicts

verified("bell", BELL, BELL_SETS)
checked(
    "bell against the other sign",
    BELL,
    claims("|00>", "|00> - |11>"),
    refuted([("00", "(1,0,0,0)/0")], [("00", "(1,0,0,0)/1"), ("11", "(1,0,0,0)/1")]),
    1,
)
verified("the end is w times the goal", calls(2, "t q[0];"), claims("|10>", "|10>"))
checked(
    "t turns one amplitude of two",
    calls(1, "t q[0];"),
    claims("|0> + |1>", "|0> + |1>"),
    refuted(
        [("0", "(1,0,0,0)/0"), ("1", "(1,0,0,0)/0")],
        [("0", "(1,0,0,0)/0"), ("1", "(0,1,0,0)/0")],
    ),
    1,
)
checked(
    "s turns one amplitude of two",
    calls(1, "s q[0];"),
    claims("|0> + |1>", "|0> + |1>"),
    refuted(
        [("0", "(1,0,0,0)/0"), ("1", "(1,0,0,0)/0")],
        [("0", "(1,0,0,0)/0"), ("1", "(0,0,1,0)/0")],
    ),
    1,
)
verified("eight times t", calls(1, *["t q[0];"] * 8), claims("|0> + |1>", "|0> + |1>"))
verified("four times t is z", calls(1, *["t q[0];"] * 4, "z q[0];"), claims("|0> + |1>", "|0> + |1>"))
verified("twice s is z", calls(1, "s q[0];", "s q[0];"), claims("|0> + |1>", "|0> - |1>"))
verified("y takes 0 to i times 1", calls(1, "y q[0];"), claims("|0>", "|1>"))
verified("y takes the sum to the difference", calls(1, "y q[0];"), claims("|0> + |1>", "|0> - |1>"))
checked(
    "y has the factors i and -i",
    calls(1, "y q[0];"),
    claims("|0> + |1>", "|0> + |1>"),
    refuted(
        [("0", "(1,0,0,0)/0"), ("1", "(1,0,0,0)/0")],
        [("0", "(0,0,-1,0)/0"), ("1", "(0,0,1,0)/0")],
    ),
    1,
)
verified("h z h is x", calls(1, "h q[0];", "z q[0];", "h q[0];", "x q[0];"), claims("|0>", "|0>"))
verified("three qubits together", calls(3, "h q[0];", "cx q[0], q[1];", "cx q[1], q[2];"), claims("|000>", "|000> + |111>"))
verified("the first qubit is the leftmost digit", calls(2, "x q[0];"), claims("|00>", "|10>"))
checked(
    "the first qubit is not the rightmost digit",
    calls(2, "x q[0];"),
    claims("|00>", "|01>"),
    refuted([("00", "(1,0,0,0)/0")], [("10", "(1,0,0,0)/0")]),
    1,
)
verified("cx has its control in front", calls(2, "cx q[1], q[0];"), claims("|01>", "|11>"))
verified("cx does nothing where its control is 0", calls(2, "cx q[1], q[0];"), claims("|10>", "|10>"))
verified("the sign of the whole doesn't count", NOTHING, claims("|00> - |11>", "-|00> + |11>"))
checked(
    "the sign of a part counts",
    NOTHING,
    claims("-|00> + |11>", "|00> + |11>"),
    refuted(
        [("00", "(-1,0,0,0)/0"), ("11", "(1,0,0,0)/0")],
        [("00", "(-1,0,0,0)/0"), ("11", "(1,0,0,0)/0")],
    ),
    1,
)
checked(
    "a ket too few",
    NOTHING,
    claims("|00>", "|00> + |01>"),
    refuted([("00", "(1,0,0,0)/0")], [("00", "(1,0,0,0)/0")]),
    1,
)
checked(
    "a ket too many",
    NOTHING,
    claims("|00> + |01>", "|00>"),
    refuted(
        [("00", "(1,0,0,0)/0"), ("01", "(1,0,0,0)/0")],
        [("00", "(1,0,0,0)/0"), ("01", "(1,0,0,0)/0")],
    ),
    1,
)
checked(
    "an amplitude in lowest form",
    calls(1, "h q[0];"),
    claims("|0> + |1>", "|1>"),
    refuted([("0", "(1,0,0,0)/0"), ("1", "(1,0,0,0)/0")], [("0", "(0,1,0,-1)/0")]),
    1,
)
checked(
    "a half has the power 2",
    calls(2, "h q[0];", "h q[1];"),
    claims("|00>", "|00>"),
    refuted([("00", "(1,0,0,0)/0")], [(ket, "(1,0,0,0)/2") for ket in ["00", "01", "10", "11"]]),
    1,
)
verified("sixteen qubits", calls(16, "x q[15];", "x q[00];"), claims("|" + "0" * 16 + ">", "|1" + "0" * 14 + "1>"))
checked(
    "all kets of twelve qubits",
    calls(12, *["h q[%d];" % i for i in range(12)]),
    claims("|" + "0" * 12 + ">", "|" + "0" * 12 + ">"),
    refuted(
        [("0" * 12, "(1,0,0,0)/0")],
        [(format(index, "012b"), "(1,0,0,0)/12") for index in range(4096)],
    ),
    1,
)
for gates in (13, 14):
    checked(
        "so many kets of sixteen qubits: 2^%d" % gates,
        calls(16, *["h q[%d];" % i for i in range(gates)]),
        claims("|" + "0" * 16 + ">", "|" + "0" * 16 + ">"),
        refuted(
            [("0" * 16, "(1,0,0,0)/0")],
            [(format(index << (16 - gates), "016b"), "(1,0,0,0)/%d" % gates) for index in range(2**gates)],
        ),
        1,
    )
checked(
    "bits that no statement uses",
    "bit c; qubit q; creg d[2]; x q;",
    claims("|0>", "|0>"),
    refuted([("0", "(1,0,0,0)/0")], [("1", "(1,0,0,0)/0")], "000"),
    1,
)
# Each `h` and `t` brings new digits, and the amplitudes of 1,000 pairs would have coefficients of far more than 127 bits.
checked("numbers too wide", calls(1, *["h q[0];", "t q[0];"] * 2000), claims("|0>", "|0>"), GAVE_UP_WIDTH, 2)

# ---- words

case("another command", ["chek"], {}, USAGE, 4)
case("no words", [], {}, USAGE, 4)
case("an empty word", [""], {}, USAGE, 4)
case("too few words", ["check", "P"], {"P": BELL}, USAGE, 4)
case("too many words", ["check", "P", "S", "more"], {"P": BELL, "S": BELL_SETS}, USAGE, 4)
case("another command with two files", ["recheck", "P", "S"], {"P": BELL, "S": BELL_SETS}, USAGE, 4)
case("a capital letter", ["Check", "P", "S"], {"P": BELL, "S": BELL_SETS}, USAGE, 4)
case("help", ["--help"], {}, USAGE, 4)
case("the launcher's own word", ["--build"], {}, USAGE, 4)

# ---- files; a name that ends with `/` is a folder

case("no program", ["check", "P", "S"], {"S": BELL_SETS}, "read fault: P\n", 5)
case("no sets", ["check", "P", "S"], {"P": BELL}, "read fault: S\n", 5)
case("neither", ["check", "P", "S"], {}, "read fault: P\n", 5)
case("a folder for the program", ["check", "D", "S"], {"D/": "", "S": BELL_SETS}, "read fault: D\n", 5)
case("a folder for the sets", ["check", "P", "D"], {"P": BELL, "D/": ""}, "read fault: D\n", 5)
case("a file in no folder", ["check", "no/such", "S"], {"S": BELL_SETS}, "read fault: no/such\n", 5)
case("a name that isn't ASCII", ["check", "größe", "S"], {"S": BELL_SETS}, "read fault: größe\n", 5)
case("a file with such a name", ["check", "größe", "S"], {"größe": BELL, "S": BELL_SETS}, VERIFIED, 0)
case("an empty name", ["check", "", "S"], {"S": BELL_SETS}, "read fault: \n", 5)
case("a name with a blank", ["check", "my file", "S"], {"my file": BELL, "S": BELL_SETS}, VERIFIED, 0)
case("one file twice", ["check", "P", "P"], {"P": BELL}, sets_fault(1, 11, "BadByte"), 3)
case("the program's faults come before the sets are read", ["check", "P", "S"], {"P": ""}, fault(1, 1, "NoQubits"), 3)
case("the program is refused before the sets are read", ["check", "P", "S"], {"P": "qubit[0] q;"}, "refused: program 1:10: EmptyRegister\n", 3)
case("a long program is refused before the sets are read", ["check", "P", "S"], {"P": " " * (MOST_PROGRAM + 1)}, PROGRAM_TOO_LONG, 3)

# ---- sizes

verified("a program at its longest", padded(BELL, MOST_PROGRAM), BELL_SETS)
checked("a program too long", padded(BELL, MOST_PROGRAM + 1), BELL_SETS, PROGRAM_TOO_LONG, 3)
checked("too long comes before what the text says", padded("no program", MOST_PROGRAM + 1), BELL_SETS, PROGRAM_TOO_LONG, 3)
verified("sets at their longest", BELL, padded(BELL_SETS, MOST_SETS))
checked("sets too long", BELL, padded(BELL_SETS, MOST_SETS + 1), SETS_TOO_LONG, 3)
checked("long sets come behind the program", "qubit[0] q;", padded(BELL_SETS, MOST_SETS + 1), fault(1, 10, "EmptyRegister"), 3)
verified("as many calls as there may be", "qubit[1] q;" + "x q[0];" * MOST_CALLS, claims("|0>", "|0>"))
checked("one call too many", "qubit[1] q;" + "x q[0];" * (MOST_CALLS + 1), claims("|0>", "|1>"), fault(1, 700012, "TooManyStatements"), 3)

# ---- program texts that are taken; programs.py has more, and those that are refused

verified("no version and no include", calls(2, "h q[0];", "cx q[0], q[1];"), BELL_SETS)
verified("no include", "OPENQASM 3.0; qubit[2] q; h q[0]; cx q[0], q[1];", BELL_SETS)
verified("no version", 'include "stdgates.inc"; qubit[2] q; h q[0]; cx q[0], q[1];', BELL_SETS)
verified("no calls", NOTHING, NOTHING_SETS)
verified("few blanks", 'OPENQASM 3.0;include"stdgates.inc";qubit[2]q;h q[0];cx q[0],q[1];', BELL_SETS)
verified("many blanks", BELL.replace(";", " ; ").replace("[", " [\t").replace("]", "\n]").replace(",", "\r\n , "), BELL_SETS)
verified("lines that end with 13 and 10", BELL.replace("\n", "\r\n"), BELL_SETS.replace("\n", "\r\n"))
verified("lines that end with 13", BELL.replace("\n", "\r"), BELL_SETS.replace("\n", "\r"))
verified("numerals with a zero in front", "qubit[02] q; h q[00]; cx q[0], q[01];", BELL_SETS)

verified("a comment", BELL + "// done\n", BELL_SETS)
verified("a comment of lines", "/* Bell\n */" + BELL, BELL_SETS)
verified("a count of three digits", "qubit[002] q;", NOTHING_SETS)
verified("no count", "qubit q;", claims("|0>", "|0>"))
verified("another name", "qubit[2] r; h r[0];", claims("|00>", "|00> + |10>"))
verified("a register of bits", "qubit[2] q; bit[2] c;", NOTHING_SETS)
verified("an index of three digits", "qubit[2] q; h q[001];", claims("|00>", "|00> + |01>"))
verified("no index", "qubit[2] q; h q;", claims("|00>", "|00> + |01> + |10> + |11>"))
verified("a gate with an angle", "qubit[2] q; p(pi) q[0];", claims("|00> + |10>", "|00> - |10>"))
verified("t backwards", "qubit[2] q; h q[0]; t q[0]; tdg q[0]; h q[0];", NOTHING_SETS)
for version in ["3", "3.1", "3.00"]:
    verified("version " + version, "OPENQASM %s; qubit[2] q;" % version, NOTHING_SETS)
verified("the include in single quotes", "include 'stdgates.inc'; qubit[2] q;", NOTHING_SETS)
verified("the include twice", 'include "stdgates.inc"; include "stdgates.inc"; qubit[2] q;', NOTHING_SETS)

# ---- program texts that are refused

for name, program, line in [
    ("an empty program", "", fault(1, 1, "NoQubits")),
    ("blanks alone", " \t\r\n", fault(2, 1, "NoQubits")),
    ("a byte order mark", b"\xef\xbb\xbf" + BELL.encode(), fault(1, 1, "BadByte")),
    ("bytes that aren't UTF-8", BELL.encode() + b"\xff", fault(6, 1, "NotUtf8")),
    ("a character cut off", BELL.encode() + b"\xcf", fault(6, 1, "NotUtf8")),
    ("a byte 0", BELL + "\0", fault(6, 1, "BadByte")),
    ("a form feed", BELL + "\f", fault(6, 1, "BadByte")),
    ("a letter that isn't ASCII", BELL + "é", fault(6, 1, "BadByte")),
    ("a version that runs together", "OPENQASM3.0; qubit[2] q;", fault(1, 10, "BadByte")),
    ("an index with a sign", "qubit[2] q; h q[-1];", fault(1, 17, "Unexpected")),
    ("a word that runs into the next", "qubit[2] q; hq[0];", fault(1, 18, "Unexpected")),
    ("an index that runs on", "qubit[2] q; h q[0x];", fault(1, 18, "Unexpected")),
    ("no semicolon", "qubit[2] q; h q[0]", fault(1, 19, "Unexpected")),
    ("a semicolon too many", "qubit[2] q; h q[0];;", fault(1, 20, "Unexpected")),
    ("the version twice", "OPENQASM 3.0; OPENQASM 3.0; qubit[2] q;", fault(1, 15, "Unexpected")),
    ("the version behind the include", 'include "stdgates.inc"; OPENQASM 3.0; qubit[2] q;', fault(1, 25, "Unexpected")),
    ("version 2", "OPENQASM 2.0; qubit[2] q;", fault(1, 10, "NotTaken 2.0")),
    ("another include", 'include "other.inc"; qubit[2] q;', fault(1, 9, 'NotTaken "other.inc"')),
    ("a blank in the include's name", 'include "stdgates.inc "; qubit[2] q;', fault(1, 9, 'NotTaken "stdgates.inc "')),
    ("a word that isn't taken", "qubit q; gphase q;", fault(1, 10, "NotTaken gphase")),
    ("no qubit", "qubit[0] q;", fault(1, 10, "EmptyRegister")),
    ("seventeen qubits", "qubit[17] q;", fault(1, 11, "TooManyQubits")),
    ("two registers of one name", "qubit[2] q; qubit[2] q;", fault(1, 22, "TwiceDeclared")),
    ("no register", "h q[0];", fault(1, 3, "UnknownName")),
    ("the declaration behind a call", "h q[0]; qubit[2] q;", fault(1, 3, "UnknownName")),
    ("an index that is the count", "qubit[2] q; h q[2];", fault(1, 15, "IndexOut")),
    ("a control that is the count", "qubit[2] q; cx q[2], q[0];", fault(1, 16, "IndexOut")),
    ("a target that is the count", "qubit[2] q; cx q[0], q[2];", fault(1, 22, "IndexOut")),
    ("one qubit twice", "qubit[2] q; cx q[0], q[0];", fault(1, 22, "RepeatedQubit")),
    ("one qubit twice in two spellings", "qubit[2] q; cx q[1], q[01];", fault(1, 22, "RepeatedQubit")),
    ("one operand of two", "qubit[2] q; cx q[0];", fault(1, 13, "OperandCount")),
    ("two operands of one", "qubit[2] q; h q[0], q[1];", fault(1, 13, "OperandCount")),
    ("three operands of two", "qubit[3] q; cx q[0], q[1], q[2];", fault(1, 13, "OperandCount")),
    ("a gate in a capital letter", "qubit[2] q; X q[0];", fault(1, 13, "UnknownGate")),
    ("an unknown gate", "qubit[2] q; hh q[0];", fault(1, 13, "UnknownGate")),
    ("an angle that isn't taken", "qubit q; rx(pi/4) q;", fault(1, 13, "AngleForm")),
    ("an assertion of no claim", "qubit[2] q;\n@assert bell\nh q[0];", claim_fault("bell", "UnknownClaim")),
    ("a loop of no claim", "qubit[2] q; bit c;\n@invariant one\nwhile (c) { x q; }", claim_fault("one", "UnknownClaim")),
]:
    checked("program: " + name, program, NOTHING_SETS, line, 3)

# ---- set texts that are taken; sets.py has more, and those that are refused

verified("sets on one line", NOTHING, "claim pre=[|00>];claim post=[|00>];")
verified("blanks in sets", NOTHING, " claim\tpre\n= [ -  |00> ]\r\n;  claim post = [ - |00> ] ; ")
verified("kets in another order", NOTHING, claims("|00> + |01> - |11>", "-|11> + |01> + |00>"))
verified("one ket in both claims", NOTHING, claims("|01>", "|01>"))

for name, sets in [
    ("a comment", NOTHING_SETS + " // done"),
    ("a number before a ket", claims("2|00>", "|00>")),
    ("a root of unity before a ket", claims("w|00>", "|00>")),
    ("the claims in the other order", "claim post = [|00>]; claim pre = [|00>];"),
    ("a third claim", NOTHING_SETS + " claim more = [|00>];"),
    ("a set", "set zero = [|00>]; " + NOTHING_SETS),
    ("all basis states", "claim pre = all 2; claim post = all 2;"),
]:
    verified("sets: " + name, NOTHING, sets)
for name, sets in [
    ("two cases", "claim pre = [|00>], [|11>]; claim post = [|00>];"),
    ("a union", "claim pre = [|00>] union [|11>]; claim post = [|00>];"),
]:
    checked("sets: " + name, NOTHING, sets, refuted([("11", "(1,0,0,0)/0")], [("11", "(1,0,0,0)/0")]), 1)

# ---- set texts that are refused; in claim pre the bracket is at column 13

for name, sets, line in [
    ("an empty text", "", claim_fault("pre", "UnknownClaim")),
    ("a byte order mark", b"\xef\xbb\xbf" + NOTHING_SETS.encode(), sets_fault(1, 1, "BadByte")),
    ("bytes that aren't UTF-8", NOTHING_SETS.encode() + b"\xff", sets_fault(1, 41, "NotUtf8")),
    ("a repeated ket", claims("|00> + |00>", "|00>"), sets_fault(1, 21, "RepeatedKet")),
    ("a repeated ket with another sign", claims("|00>", "|01> + |00> - |01>"), sets_fault(2, 29, "RepeatedKet")),
    ("a ket too short", claims("|0>", "|00>"), claim_fault("pre", "QubitsDiffer")),
    ("a ket too long", claims("|00>", "|000>"), claim_fault("post", "QubitsDiffer")),
    ("kets of two lengths", claims("|00> + |1>", "|00>"), sets_fault(1, 21, "KetLength")),
    ("a ket with a 2", claims("|02>", "|00>"), sets_fault(1, 14, "BadKet")),
    ("a ket without digits", claims("|>", "|00>"), sets_fault(1, 14, "BadKet")),
    ("a blank in a ket", claims("|0 0>", "|00>"), sets_fault(1, 14, "BadKet")),
    ("a ket that isn't closed", claims("|00", "|00>"), sets_fault(1, 14, "BadKet")),
    ("an empty bracket", claims("", "|00>"), sets_fault(1, 14, "Unexpected")),
    ("a plus in front", claims("+|00>", "|00>"), sets_fault(1, 14, "Unexpected")),
    ("two signs", claims("--|00>", "|00>"), sets_fault(1, 15, "Unexpected")),
    ("a sign at the end", claims("|00> +", "|00>"), sets_fault(1, 20, "Unexpected")),
    ("no sign between kets", claims("|00> |11>", "|00>"), sets_fault(1, 19, "Unexpected")),
    ("no postcondition", "claim pre = [|00>];", claim_fault("post", "UnknownClaim")),
    ("no precondition", "claim post = [|00>];", claim_fault("pre", "UnknownClaim")),
    ("a claim of another name", "claim before = [|00>]; claim post = [|00>];", claim_fault("pre", "UnknownClaim")),
    ("text behind the end", NOTHING_SETS + " ;", sets_fault(1, 42, "Unexpected")),
    ("no semicolon", "claim pre = [|00>]; claim post = [|00>]", sets_fault(1, 40, "Unexpected")),
    ("a condition", "claim pre = [|00>]; claim post = [|00>] when c == 0;", claim_fault("post", "BitUnknown")),
]:
    checked("sets: " + name, NOTHING, sets, line, 3)

# ---- examples/: the files as they lie there; programs.py has more

EXAMPLES = [
    ("bell", VERIFIED, 0),
    ("ghz", VERIFIED, 0),
    ("phase", VERIFIED, 0),
    (
        "bell_wrong_sign",
        refuted([("00", "(1,0,0,0)/0")], [("00", "(1,0,0,0)/1"), ("11", "(1,0,0,0)/1")]),
        1,
    ),
    (
        "half_turn",
        refuted(
            [("0", "(1,0,0,0)/0"), ("1", "(1,0,0,0)/0")],
            [("0", "(1,0,0,0)/0"), ("1", "(0,0,1,0)/0")],
        ),
        1,
    ),
]
