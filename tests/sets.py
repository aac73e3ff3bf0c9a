"""End-to-end cases of set files and claims: what is read, what it lists, each fault with its place, and when a check gives up.

Each expected text was worked out by hand from docs/, never taken from what the program printed.
"""

from cases import GAVE_UP_STEPS, GAVE_UP_WIDTH, MOST_SETS, NOTHING_SETS, SETS_TOO_LONG, VERIFIED, calls, claim_fault, refuted
from programs import I, MINUS, MINUS_I, ONE, ROOT, with_bits

CASES = []
EITHER = []
MOST = 2**127 - 1
W = "(0,1,0,0)/0"
DOUBLE = "(2,0,0,0)/0"


def checked(name, program, sets, stdout, status):
    CASES.append(("sets: " + name, ["check", "P", "S"], {"P": program, "S": sets}, stdout, status))


def claims(before, after, more=""):
    return "%sclaim pre = %s;\nclaim post = %s;\n" % (more, before, after)


def nothing(qubits):
    return "qubit[%d] q;" % qubits


def verified(name, program, before, after, more=""):
    checked(name, program, claims(before, after, more), VERIFIED, 0)


def wrong(name, program, before, after, state, end, more="", bits="-"):
    checked(name, program, claims(before, after, more), with_bits(bits, refuted(state, end)), 1)


def stays(name, qubits, before, after, state, more=""):
    """The program does nothing, and the state is the first that is in no goal."""
    wrong(name, nothing(qubits), before, after, state, state, more)


def gives_up(name, program, before, after, line, more=""):
    checked("gives up: " + name, program, claims(before, after, more), line, 2)


def either(name, program, before, after, stdout, status):
    """A number doesn't fit, and the verdict can be told without it. It hangs on the order of work which of the two is printed."""
    answers = [(GAVE_UP_WIDTH, 2), (stdout, status)]
    EITHER.append(("sets: " + name, program, claims(before, after), answers))


def refused(fault, at, sets, program="qubit q;"):
    checked("%s at %s of %r" % (fault, at, sets[:60]), program, sets, "refused: sets %s: %s\n" % (at, fault), 3)


def claim_refused(claim, fault, program, sets):
    checked("%s of %s in %r" % (fault, claim, sets[:60]), program, sets, claim_fault(claim, fault), 3)


# ---- texts that are taken

for name, sets in [
    ("comments", "// first\nclaim /* the\nstart */ pre = [|00>]; // é π\nclaim post = /**/[|00>];//"),
    ("a comment that looks open", NOTHING_SETS + "// /*"),
    ("no blanks", "set a=[|0>];claim pre=a*a;claim post=[|0>]^2;"),
    ("many blanks", " set \t a\r\n= [ |0> ] ; claim pre = a * a ; claim\npost = [ |0> ] ^ 2 ; "),
    ("names that begin like words", "set all2 = [|0>]; set w1 = [|0>]; set union_ = all2; claim pre = w1 * union_; claim post = [|00>];"),
    ("capital letters", "set A = [|0>]; set a = [|1>]; set All = A; claim pre = A * All; claim post = [|00>];"),
    ("names of gates and of qubits", "set q = [|0>]; set h = [|0>]; claim pre = q * h; claim post = [|00>];"),
    ("words of programs", "set qubit = [|0>]; set while = qubit; claim pre = qubit * while; claim post = [|00>];"),
    ("numbers with zeros in front", "claim pre = [001|00>]; claim post = [|0>]^" + "0" * 50 + "2;"),
    ("sets between and behind the claims", "claim post = [|00>]; set a = [|00>]; claim pre = a; set b = a;"),
    ("claims that nothing asks for", NOTHING_SETS + "claim other = all 5 when none[7] == 1; claim PRE = [|1>];"),
    ("a file at its longest", NOTHING_SETS + "//" + "x" * (MOST_SETS - len(NOTHING_SETS) - 2)),
    ("blanks up to the most", " " * (MOST_SETS - len(NOTHING_SETS)) + NOTHING_SETS),
]:
    checked(name, nothing(2), sets, VERIFIED, 0)
checked("a file too long", nothing(2), NOTHING_SETS + "//" + "x" * (MOST_SETS - len(NOTHING_SETS) - 1), SETS_TOO_LONG, 3)
checked("too long comes before what the file says", nothing(2), b"\xff" + b"#" * MOST_SETS, SETS_TOO_LONG, 3)

# ---- coefficients

for coefficient, amplitude in [
    ("2", DOUBLE),
    ("007", "(7,0,0,0)/0"),
    ("0", None),
    ("w", W),
    ("w^0", ONE),
    ("w^1", W),
    ("w^2", I),
    ("w^3", "(0,0,0,1)/0"),
    ("w^4", MINUS),
    ("w^5", "(0,-1,0,0)/0"),
    ("w^6", MINUS_I),
    ("w ^ 7", "(0,0,0,-1)/0"),
    ("w^8", ONE),
    ("w^%d" % MOST, "(0,0,0,-1)/0"),
    ("i", I),
    ("3w", "(0,3,0,0)/0"),
    ("3 w^5", "(0,-3,0,0)/0"),
    ("2i", "(0,0,2,0)/0"),
    ("0w^3", None),
    ("(1,2,3,4)", "(1,2,3,4)/0"),
    ("( 1 , -2 , 0 , - 0 )", "(1,-2,0,0)/0"),
    ("(0,0,0,0)", None),
    ("1/sqrt2", ROOT),
    ("1/sqrt2^3", "(1,0,0,0)/3"),
    ("1 / sqrt2 ^ 0", ONE),
    ("2/sqrt2^2", ONE),
    ("2/sqrt2", "(0,1,0,-1)/0"),
    ("w/sqrt2", "(0,1,0,0)/1"),
    ("5i/sqrt2^2", "(0,0,5,0)/2"),
    ("(1,0,1,0)/sqrt2", W),
    ("(0,1,0,-1)/sqrt2^2", ROOT),
    ("0/sqrt2^5", None),
    ("5/sqrt2^4294967295", "(5,0,0,0)/4294967295"),
    ("%d" % MOST, "(%d,0,0,0)/0" % MOST),
    ("-%d" % MOST, "(%d,0,0,0)/0" % -MOST),
    ("(%d,0,-%d,0)" % (MOST, MOST), "(%d,0,%d,0)/0" % (MOST, -MOST)),
    ("-2", "(-2,0,0,0)/0"),
    ("- w^3", "(0,0,0,-1)/0"),
    ("-i/sqrt2", "(0,0,-1,0)/1"),
    ("-(1,-2,3,-4)", "(-1,2,-3,4)/0"),
    ("-0", None),
]:
    state = [("0", amplitude)] if amplitude else []
    stays("the coefficient " + coefficient[:30], 1, "[%s|0> + |1>]" % coefficient, "[|0>]", state + [("1", ONE)])
stays("the coefficient of a later term", 1, "[|0> - 2w|1>]", "[|0>]", [("0", ONE), ("1", "(0,-2,0,0)/0")])
stays("a minus before a negative quadruple", 1, "[|0> - (-1,0,0,0)|1>]", "[|0>]", [("0", ONE), ("1", ONE)])
verified("a factor of the whole doesn't count", nothing(1), "[2|0> + 2i|1>]", "[w/sqrt2|0> + w^3/sqrt2|1>]")
verified("quadruples that are one factor apart", nothing(1), "[(1,1,0,0)|0> + (0,1,1,0)|1>]", "[|0> + w|1>]")
verified("a root of 2 apart", nothing(1), "[(0,1,0,-1)|0> + 2|1>]", "[|0> + (0,1,0,-1)|1>]")
stays("a phase of a part counts", 1, "[|0> + w|1>]", "[|0> + i|1>]", [("0", ONE), ("1", W)])
verified("a term that is 0 is no term", nothing(2), "[|00> + 0|01>]", "[0w|10> + |00>]")
verified("the largest power of the root", nothing(1), "[1/sqrt2^4294967295|0>]", "[|0>]")
verified("s makes i of 1", "qubit q; s q;", "[|0> + |1>]", "[|0> + i|1>]")
verified("t makes w of 1", "qubit q; t q;", "[|0> + |1>]", "[|0> + w|1>]")
verified("h of w", "qubit q; h q;", "[|0> + w|1>]", "[(1,1,0,0)|0> + (1,-1,0,0)|1>]")

# ---- all, unions, products, powers and names: what they list, in order

verified("all of one qubit", nothing(1), "all 1", "[|0>] union [|1>]")
stays("the second of all", 2, "all 2", "[|00>]", [("01", ONE)])
stays("the third of all", 2, "all 2", "[|01>] union [|00>]", [("10", ONE)])
stays("the fourth of all", 2, "all 2", "[|10>] union [|01>] union [|00>]", [("11", ONE)])
verified("all of them", nothing(2), "all 2", "[|11>] union [|10>] union [|01>] union [|00>]")
stays("all has no sums", 1, "[|0> + |1>]", "all 1", [("0", ONE), ("1", ONE)])
stays("a union has the left ones first", 1, "[|1>] union [|0>]", "[|0> + |1>]", [("1", ONE)])
stays("and then the right ones", 1, "[|1>] union [|0>]", "[|1>]", [("0", ONE)])
stays("a union of three", 1, "[|0>] union all 1 union [|0> - |1>]", "all 1", [("0", ONE), ("1", MINUS)])
verified("one vector twice", nothing(1), "[|0>] union [2|0>]", "[|0>] union [|0>]")
stays("a union is no sum", 1, "[|0> + |1>]", "[|0>] union [|1>]", [("0", ONE), ("1", ONE)])
stays("a product, entry by entry", 2, "[2|0> + w|1>] * [3|0> - i|1>]", "[|00>]", [("00", "(6,0,0,0)/0"), ("01", "(0,0,-2,0)/0"), ("10", "(0,3,0,0)/0"), ("11", "(0,0,0,-1)/0")])
PRODUCT = "([|0>] union [|1>]) * ([|0>] union [|0> + |1>])"
stays("the first of a product", 2, PRODUCT, "[|11>]", [("00", ONE)])
stays("the second of a product, where the right one changes", 2, PRODUCT, "[|00>]", [("00", ONE), ("01", ONE)])
stays("the third of a product", 2, PRODUCT, "[|00>] union [|00> + |01>]", [("10", ONE)])
stays("the fourth of a product", 2, PRODUCT, "[|10>] union [|00>] union [|00> + |01>]", [("10", ONE), ("11", ONE)])
verified("all four", nothing(2), PRODUCT, "all 1 * [|0>] union all 1 * [|0> + |1>]")
verified("the left factor has the leftmost digits", nothing(3), "[|1>] * [|01>]", "[|101>]")
verified("products of three", nothing(3), "[|1>] * [|0>] * [|1>]", "[|1>] * ([|0>] * [|1>])")
stays("a power of one vector", 2, "[|0> + w|1>]^2", "[|00>]", [("00", ONE), ("01", W), ("10", W), ("11", I)])
stays("a power of two vectors", 2, "([|1>] union [|0>])^2", "[|11>]", [("10", ONE)])
stays("a power of two vectors, the third", 2, "([|1>] union [|0>])^2", "[|11>] union [|10>]", [("01", ONE)])
verified("the power 1", nothing(1), "[|0> + |1>]^1", "[|0> + |1>]")
verified("a power of sixteen qubits", nothing(16), "[|0010>]^4", "[|" + "0010" * 4 + ">]")
verified("all is a power of all 1", nothing(3), "all 3", "(all 1)^3")
stays("a power of a number in all", 4, "all 2^2", "[|0000>]", [("0001", ONE)])
verified("a power binds more than a product", nothing(3), "[|0>] * [|1>]^2", "[|011>]")
verified("a product in a power", nothing(4), "([|0>] * [|1>])^2", "[|0101>]")
verified("a product binds more than a union", nothing(2), "[|0>] * [|0>] union [|1>] * [|1>]", "[|11>] union [|00>]")
stays("a union in a product", 2, "[|0>] * ([|0>] union [|1>])", "[|00>]", [("01", ONE)])
verified("parentheses that mean nothing", nothing(1), "(((all 1)))", "(all 1) union ([|0>])")
verified("names", nothing(3), "a * b", "[|010>]", "set a = [|0>];\nset b = [|1>] * a;\n")
stays("a name stands for its whole list", 2, "a * a", "[|00>]", [("01", ONE)], "set a = [|0>] union [|1>];\n")
verified("a name in a power", nothing(4), "a^2", "[|0101>]", "set a = [|0>] * [|1>];\n")
verified("bell pairs", "qubit[2] q; h q[0]; cx q[0], q[1];", "[|0>]^2", "bell", "set bell = [1/sqrt2|00> + 1/sqrt2|11>];\n")
checked("two forms of a set", "qubit[2] q; cx q[0], q[1];", claims("[|00>] union [|10>]", "[|0>]^2 union [|11>]"), VERIFIED, 0)

# ---- the zero vector is no state

verified("nothing begins from the zero vector", "qubit q; x q;", "[0|0>]", "[|0>]")
verified("the zero vector among others", "qubit q; x q;", "[0|0>] union [|0>]", "[|1>]")
stays("nothing is the zero vector", 1, "[|0>]", "[0|0> + 0|1>]", [("0", ONE)])

# ---- the first state that escapes

wrong("the first of all that ends elsewhere", "qubit[2] q; x q[0];", "all 2", "[|10>] union [|11>] union [|01>]", [("10", ONE)], [("00", ONE)])
wrong("the first of a union", "qubit q; h q;", "[|1>] union [|0>]", "[|0> + |1>]", [("1", ONE)], [("0", ROOT), ("1", "(-1,0,0,0)/1")])
wrong("the second of a union", "qubit q; h q;", "[|0>] union [|1>]", "[|0> + |1>]", [("1", ONE)], [("0", ROOT), ("1", "(-1,0,0,0)/1")])
wrong("cases go in order", "qubit q; x q;", "[|1>], [|0>]", "[|0> + |1>]", [("1", ONE)], [("0", ONE)])
wrong("cases go in order, and in each its list", "qubit q; x q;", "[|0>], [|0> - |1>] union [|1>]", "[|1>], [|0> - |1>]", [("1", ONE)], [("0", ONE)])
wrong("what is shown isn't divided", "qubit q; z q;", "[2|0> + 2|1>]", "[|0> + |1>]", [("0", DOUBLE), ("1", DOUBLE)], [("0", DOUBLE), ("1", "(-2,0,0,0)/0")])
verified("each end may be in another case", "qubit[2] q; cx q[0], q[1];", "all 2", "[|11>], [|00>] union [|01>], [|10>]")
verified("a set that gates keep", "qubit[5] q; x q; cx q[0], q[4];", "all 5", "all 5")
wrong("a set that gates leave", "qubit[3] q; h q[2];", "all 3", "all 3", [("000", ONE)], [("000", ROOT), ("001", ROOT)])

# ---- conditions on bits, of which each is 0

verified("a condition that is met", "qubit q; bit c;", "[|0>] when c == 0", "[|0>] when c == 0")
verified("a start that never is", "qubit q; bit c; x q;", "[|0>] when c == 1", "[|0>]")
wrong("a goal that never is", "qubit q; bit c;", "[|0>]", "[|0>] when c == 1", [("0", ONE)], [("0", ONE)], bits="0")
verified("the case that is met counts", "qubit q; bit c; x q;", "[|0>]", "[|0>] when c == 1, [|1>] when c == 0")
wrong("the case that isn't met doesn't", "qubit q; bit c; x q;", "[|0>]", "[|0>] when c == 0, [|1>] when c == 1", [("0", ONE)], [("1", ONE)], bits="0")
wrong("the first case that is met", "qubit q; bit[2] c;", "[|0>] when c[1] == 1, [|1>]", "[|0>]", [("1", ONE)], [("1", ONE)], bits="00")
verified("all conditions are to hold", "qubit q; bit[2] c; x q;", "[|0>] when c[0] == 0 and c[1] == 1", "[|0>]")
wrong("all conditions hold", "qubit q; bit[2] c; x q;", "[|0>] when c[0] == 0 and c[1] == 0", "[|0>]", [("0", ONE)], [("1", ONE)], bits="00")
verified("conditions that contradict each other", "qubit q; bit c; x q;", "[|0>] when c == 0 and c == 1", "[|0>]")
verified("one condition twice", "qubit q; bit c;", "[|0>] when c == 0 and c == 0", "[|0>]")
verified("numbers in conditions", "qubit q; bit[2] c;", "[|0>] when c[001] == 000", "[|0>] when c[0] == 01, [|0>]")
verified("a register of one bit by its name", "qubit q; bit[1] c;", "[|0>] when c == 0", "[|0>] when c[0] == 0")
verified("an old register of bits", "qubit q; creg c[2]; creg d;", "[|0>] when c[1] == 0 and d == 0", "[|0>]")
verified("a name of bits that is also one of a set", "qubit q; bit zero;", "zero when zero == 0", "zero", "set zero = [|0>];\n")

# ---- faults of the tokens

refused("NotUtf8", "1:1", b"\xff")
refused("NotUtf8", "2:9", b"claim pre = [|0>];\n// claim\xc3")
refused("NotUtf8", "2:1", b"$ is bad\n\xe2\x82 comes first")
refused("BadByte", "1:1", b"\xef\xbb\xbfclaim pre = [|0>];")
refused("BadByte", "1:14", "claim pre = [$")
refused("BadByte", "1:15", "claim pre = [1.5|0>];")
refused("BadByte", "1:26", "claim pre = [|0>] when c != 0;")
refused("BadByte", "1:5", "set é = all 1;")
refused("BadByte", "2:3", "set a = all 1;\n  {")
refused("BadByte", "1:9", "set a = >")
refused("BadByte", "1:15", "set a = all 1;\0")
refused("BadByte", "1:15", "set a = all 1;\f")
refused("BadByte", "1:9", 'set a = "a";')
refused("OpenComment", "1:1", "/*/")
refused("OpenComment", "2:3", "set a = all 1;\n  /* no end")
refused("OpenComment", "1:27", "claim pre = all 1 /* a */ /* b * /")
refused("LongNumber", "1:14", "claim pre = [%d|0>];" % (MOST + 1))
refused("LongNumber", "2:9", "set a =\n    all " + "9" * 100)
refused("LongNumber", "1:18", "claim pre = [w^ (%d" % (MOST + 1))
refused("BadKet", "1:14", "claim pre = [|2>];")
refused("BadKet", "1:18", "claim pre = [|0> |")
refused("BadKet", "2:1", "\n||0>")
refused("BadKet", "1:9", "set a = |01")
refused("BadKet", "1:10", "set a = [|0 >];")
refused("BadKet", "1:10", "set a = [|>];")

# ---- faults of the grammar; in `claim pre = [|0>] when c == 0` the bracket is at 13, `when` at 19, the bit at 24, `==` at 26

for at, sets in [
    ("1:1", ";"),
    ("1:1", "|0>"),
    ("1:1", "qubit q;"),
    ("1:4", "set"),
    ("1:5", "set all = all 1;"),
    ("1:5", "set w = all 1;"),
    ("1:5", "set sqrt2 = all 1;"),
    ("1:7", "claim i = all 1;"),
    ("1:7", "claim claim = all 1;"),
    ("1:5", "set 1 = all 1;"),
    ("1:11", "claim pre [|0>];"),
    ("1:11", "claim pre == all 1;"),
    ("1:13", "claim pre = ;"),
    ("1:13", "claim pre = |0>;"),
    ("1:13", "claim pre = 2;"),
    ("1:13", "claim pre = -[|0>];"),
    ("1:16", "claim pre = all;"),
    ("1:17", "claim pre = all w;"),
    ("1:17", "claim pre = all (1);"),
    ("1:14", "set a = [|0>], [|1>];"),
    ("1:15", "set a = [|0>] when c == 0;"),
    ("1:19", "claim pre = [|0>] and c == 0;"),
    ("1:24", "claim pre = [|0>] when w == 0;"),
    ("1:24", "claim pre = [|0>] when 0 == c;"),
    ("1:26", "claim pre = [|0>] when c = 0;"),
    ("1:29", "claim pre = [|0>] when c == 2;"),
    ("1:29", "claim pre = [|0>] when c == true;"),
    ("1:28", "claim pre = [|0>] when c[0 == 0;"),
    ("1:26", "claim pre = [|0>] when c[-1] == 0;"),
    ("1:34", "claim pre = [|0>] when c == 0, d == 0;"),
    ("1:31", "claim pre = [|0>] when c == 0 when d == 0;"),
    ("1:34", "claim pre = [|0>] when c == 0 and;"),
    ("1:19", "claim pre = [|0>],;"),
    ("1:14", "claim pre = [];"),
    ("1:14", "claim pre = [+|0>];"),
    ("1:15", "claim pre = [2];"),
    ("1:16", "claim pre = [w w|0>];"),
    ("1:16", "claim pre = [w^|0>];"),
    ("1:16", "claim pre = [w^-1|0>];"),
    ("1:15", "claim pre = [i^2|0>];"),
    ("1:14", "claim pre = [i2|0>];"),
    ("1:14", "claim pre = [wi|0>];"),
    ("1:16", "claim pre = [2 3|0>];"),
    ("1:15", "claim pre = [2*|0>];"),
    ("1:16", "claim pre = [1/2|0>];"),
    ("1:14", "claim pre = [/sqrt2|0>];"),
    ("1:14", "claim pre = [sqrt2|0>];"),
    ("1:21", "claim pre = [1/sqrt2/sqrt2|0>];"),
    ("1:20", "claim pre = [(1,0,0)|0>];"),
    ("1:22", "claim pre = [(1,0,0,0,0)|0>];"),
    ("1:17", "claim pre = [(1,+1,0,0)|0>];"),
    ("1:18", "claim pre = [(1,--1,0,0)|0>];"),
    ("1:15", "claim pre = [(w,0,0,0)|0>];"),
    ("1:15", "claim pre = [w(1,0,0,0)|0>];"),
    ("1:20", "claim pre = [|0> - + |1>];"),
    ("1:20", "claim pre = [|0> + -|1>];"),
    ("1:17", "claim pre = [|0>, |1>];"),
    ("1:14", "claim pre = (|0>);"),
    ("1:14", "claim pre = ();"),
    ("1:19", "claim pre = ([|0>];"),
    ("1:18", "claim pre = [|0>]);"),
    ("1:19", "claim pre = [|0>]^;"),
    ("1:20", "claim pre = [|0>]^2^2;"),
    ("1:19", "claim pre = [|0>]^(2);"),
    ("1:24", "claim pre = all 1 union;"),
    ("1:13", "claim pre = * all 1;"),
    ("1:19", "claim pre = all 1 all 1;"),
    ("1:19", "claim pre = all 1 + all 1;"),
    ("1:14", "set a = all 1"),
    ("1:15", "set a = all 1;;"),
    ("3:1", "set a = all 1; // and\n/* no more */ set b = a\n"),
]:
    refused("Unexpected", at, sets)
refused("Unexpected", "1:%d" % MOST_SETS, NOTHING_SETS + " " * (MOST_SETS - len(NOTHING_SETS) - 1) + ";")
refused("TooDeep", "1:73", "set a = " + "(" * 65)
refused("TooDeep", "2:65", "claim pre = [|0>] *\n" + "(" * 65 + "all 1")
refused("TooDeep", "1:77", "claim pre = " + "(" * 70 + ";")
refused("Unexpected", "1:79", "set a = " + "(" * 64 + "all 1 (")
refused("Unexpected", "1:1", "; set a = " + "(" * 65)
verified("parentheses at their deepest", nothing(1), "(" * 64 + "[(1,0,0,0)|0>]" + ")" * 64, "[|0>]")
verified("parentheses beside each other", nothing(1), " union ".join(["(all 1)"] * 65), "(" * 64 + "all 1" + ")" * 64)

# ---- faults of names

MANY = "".join("set s%d = all 1;\n" % place for place in range(1000))
refused("TooManyNames", "1001:5", MANY + "set t = all 1;")
refused("TooManyNames", "1001:7", MANY + "claim pre = none;")
refused("TooManyNames", "1001:5", MANY + "set s0 = all 0;")
checked("as many names as there may be", nothing(1), "".join(MANY.splitlines(True)[:998]) + claims("s0", "s997"), VERIFIED, 0)
refused("TwiceNamed", "2:5", "set a = all 1;\nset a = all 1;")
refused("TwiceNamed", "1:24", "set pre = all 1; claim pre = all 1;")
refused("TwiceNamed", "1:26", "claim pre = all 1; claim pre = none;")
refused("UnknownSet", "1:13", "claim pre = none;")
refused("UnknownSet", "1:13", "claim pre = all2;")
refused("UnknownSet", "1:9", "set a = a;")
refused("UnknownSet", "1:13", "claim pre = b; set b = all 1;")
refused("UnknownSet", "1:30", "claim a = all 1; claim pre = a;")
refused("UnknownSet", "2:21", "set a = all 1;\nclaim pre = a union A;")

# ---- faults of qubits

refused("QubitCount", "1:13", "claim pre = all 0;")
refused("QubitCount", "1:13", "claim pre = all 17;")
refused("QubitCount", "1:13", "claim pre = all %d;" % MOST)
refused("QubitCount", "1:14", "claim pre = [|%s>];" % ("0" * 17))
refused("QubitCount", "2:3", "set a = [\n w|%s> + |0>];" % ("01" * 9))
refused("QubitCount", "1:18", "claim pre = [|0>]^0;")
refused("QubitCount", "1:18", "claim pre = [|0>]^17;")
refused("QubitCount", "1:20", "claim pre = (all 4)^5;")
refused("QubitCount", "1:18", "claim pre = all 2^%d;" % MOST)
refused("QubitCount", "1:19", "claim pre = all 9 * all 8;")
refused("QubitCount", "1:27", "claim pre = all 8 * all 8 * all 1;")
refused("QubitCount", "1:19", "claim pre = all 1 union all 2;")
refused("QubitCount", "1:31", "claim pre = [|0>] union [|1>] union [|00>];")
refused("QubitCount", "1:20", "claim pre = [|0>], [|00>];")
refused("QubitCount", "2:2", "claim pre = all 1,\n (all 2) when c == 0;")
refused("QubitCount", "3:1", "claim pre = all 2,\nall 1 * all 1,\nall 1, all 3;")
refused("QubitCount", "2:12", "set a = all 9;\nset b = a  * a;")

# ---- faults of brackets

refused("AmpTooWide", "1:14", "claim pre = [1/sqrt2^4294967296|0>];")
refused("AmpTooWide", "1:20", "claim pre = [|0> - 2w/sqrt2^4294967296|1>];")
refused("AmpTooWide", "1:15", "claim pre = [-0/sqrt2^%d|0>];" % MOST)
refused("KetLength", "1:20", "claim pre = [|0> + |00>];")
refused("KetLength", "1:21", "claim pre = [|00> - |0> + |000>];")
refused("KetLength", "1:22", "claim pre = [|0> + 3w|%s>];" % ("0" * 17))
refused("RepeatedKet", "1:20", "claim pre = [|0> + |0>];")
refused("RepeatedKet", "2:5", "claim pre = [|01> + |10>\n - 0|01>];")
refused("RepeatedKet", "1:28", "set a = [0|00> + |01> - 2i |00>];")

# ---- faults of sizes: node 100,001

refused("TooManyNodes", "50001:1", "set a = all 1\n" + "union all 1\n" * 50000 + ";")
refused("TooManyNodes", "50001:7", "set a = [|0>]\n" + "union all 1\n" * 50000 + ";")
refused("TooManyNodes", "33334:7", "set a = all 1 union all 1\n" + "union [|0>]\n" * 33333 + ";")
refused("TooManyNodes", "33335:8", "set a = all 1\n" + "union [|0>]\n" * 33334 + ";")
refused("TooManyNodes", "33334:12", "set a = all 1 union all 1\n" + "union all 1^1\n" * 33333 + ";")
refused("TooManyNodes", "25001:12", "set a = [|00>]\n" + "union all 1*all 1\n" * 25000 + ";")
ALL_KETS = ["|%s>" % format(place, "016b") for place in range(65536)]
# the first bracket is 65,536 terms and itself, so the ket number 34,464 of the second is too much
refused("TooManyNodes", "34466:2", "set a = [%s];\nset b = [\n%s];" % ("+".join(ALL_KETS), "\n+".join(ALL_KETS)))
# 99,996 nodes, and four for the claims
LARGE = "set a = [|0>]\n" + "union all 1\n" * 49997 + ";\n"
checked("as many nodes as there may be", nothing(1), LARGE + claims("[|0>]", "[|0>]"), VERIFIED, 0)
refused("TooManyNodes", "50001:15", LARGE.replace(";", "union all 1;") + "claim pre=([|0>]);\nclaim post = [|0>];")
checked("names are no nodes", nothing(1), LARGE.replace("set a", "set z = [|0>];\nset a") + claims("z", "z") + "claim c = z, z, z;", VERIFIED, 0)

# ---- the order of faults: tokens, then the grammar, then what is meant; and inside these the order of the text

refused("BadByte", "1:3", "; #")
refused("BadKet", "1:18", "set a = b; set a |")
refused("Unexpected", "1:12", "set a = b; ;")
refused("UnknownSet", "1:9", "set a = b; set a = all 0;")
refused("TwiceNamed", "1:20", "set a = all 1; set a = b; claim c = all 0;")
refused("QubitCount", "1:13", "claim pre = all 0 * none;")
refused("UnknownSet", "1:13", "claim pre = none * all 0;")
refused("UnknownSet", "1:13", "claim pre = none^0;")
refused("UnknownSet", "1:28", "claim pre = [|0>], [|00>], none;")
refused("QubitCount", "1:33", "claim pre = all 1 union (all 2  union [|0>]) * none;")
refused("QubitCount", "1:19", "claim pre = all 1 union all 2 union none;")
refused("AmpTooWide", "1:20", "claim pre = [|0> + 1/sqrt2^4294967296|00>];")
refused("AmpTooWide", "1:14", "claim pre = [1/sqrt2^4294967296|%s>];" % ("0" * 17))
refused("KetLength", "1:20", "claim pre = [|0> + |00> + 1/sqrt2^4294967296|1>];")
refused("RepeatedKet", "1:21", "claim pre = [|01> + |01> + |1>];")
refused("RepeatedKet", "1:20", "claim pre = [|0> + |0>]^0;")
refused("QubitCount", "1:14", "set a = all 1^0 * none;")
# the claims are looked up behind all faults of the file
refused("QubitCount", "1:41", "claim pre = all 2 when c == 0; set a =  all 0;")

# ---- claims that aren't there or don't fit

claim_refused("pre", "UnknownClaim", nothing(1), "")
claim_refused("pre", "UnknownClaim", nothing(1), "set pre = all 1; claim post = all 1;")
claim_refused("pre", "UnknownClaim", nothing(1), "claim Pre = all 1; claim post = all 1;")
claim_refused("post", "UnknownClaim", nothing(1), "claim pre = all 1;")
claim_refused("post", "UnknownClaim", nothing(1), "claim pre = all 2 when none == 0; set post = all 1;")
claim_refused("pre", "QubitsDiffer", nothing(2), claims("all 1", "all 3"))
claim_refused("pre", "QubitsDiffer", "qubit[2] q; bit c;", claims("all 1 when none == 0", "all 2"))
claim_refused("post", "QubitsDiffer", nothing(2), claims("all 2", "all 1 * all 2"))
claim_refused("post", "QubitsDiffer", "qubit[2] q; bit c;", claims("all 2 when c == 0", "all 1 when d == 0"))
claim_refused("pre", "BitUnknown", nothing(1), claims("all 1 when c == 0", "all 2"))
claim_refused("pre", "BitUnknown", "qubit q; bit c;", claims("all 1 when q == 0", "all 1"))
claim_refused("pre", "BitUnknown", "qubit q; bit[2] c;", claims("all 1 when c[2] == 0", "all 1"))
claim_refused("pre", "BitUnknown", "qubit q; bit[2] c;", claims("all 1 when c[%d] == 0" % MOST, "all 1"))
claim_refused("pre", "BitUnknown", "qubit q; bit c;", claims("all 1 when c[0] == 0", "all 1"))
claim_refused("pre", "BitUnknown", "qubit q; bit[2] c;", claims("all 1 when c == 0", "all 1"))
claim_refused("pre", "BitUnknown", "qubit q; bit c;", claims("all 1 when c == 1 and C == 0", "all 1"))
claim_refused("post", "BitUnknown", "qubit q; bit c;", claims("all 1 when c == 0", "all 1, all 1 when c == 0, all 1 when d == 1"))
claim_refused("post", "BitUnknown", "qubit q; creg c[3];", claims("all 1", "all 1 when c[0] == 0 and c[3] == 0"))

# ---- steps: 8 * 2^(n+1) * (2^U * W * (L + V) + X) are enough, and 20,000,000 are allowed; what is taken is mostly far less

# 8 * 32 * (78,120 + 1 + 4) = 20,000,000
verified("as many steps as are allowed", nothing(4) + "x q[0];" * 78119, "[|0000>]", "[|1000>]")
verified("one gate more", nothing(4) + "x q[0];" * 78120, "[|0000>]", "[|0000>]")
# 8 * 32 * (100,001 + 1 + 4) = 25,601,536
verified("as many gates as there may be, on four qubits", nothing(4) + "x q;" * 25000, "[|0000>]", "[|0000>]")
# 8 * 128 * (64 * (1 + 6 + 64) + 64 + 64) = 4,784,128
verified("all of six qubits", "qubit[6] q; x q;", "all 6", "all 6")
# 8 * 256 * (128 * (1 + 128) + 128 + 128) = 34,340,864
verified("all of seven qubits", nothing(7), "all 7", "all 7")
# 8 * 256 * (1 * (1 + 128) + 2 + 128) = 530,432
verified("one of all of seven qubits", nothing(7), "[|0000000>]", "all 7")
# an automaton of seventeen nodes has all of the 65,536 vectors
verified("all of sixteen qubits", calls(16, "x q;"), "all 16", "all 16")
wrong("all of sixteen qubits, of which the first ends as 1", calls(16, "x q;"), "all 16", "all 15 * [|0>]", [("0" * 16, ONE)], [("1" * 16, ONE)])
wrong("all of sixteen qubits, of which the last alone escapes", nothing(16), "all 16", "all 15 * [|0>] union [|0>] * all 15", [("1" + "0" * 14 + "1", ONE)], [("1" + "0" * 14 + "1", ONE)])
KETS = ["|%s%s>" % (format(place, "04b"), "0" * 12) for place in range(15)]
stays("fifteen terms of sixteen qubits", 16, "[%s]" % KETS[1], "[%s]" % " + ".join(KETS), [("0001" + "0" * 12, ONE)])
stays("fourteen terms of sixteen qubits", 16, "[%s]" % KETS[1], "[%s]" % " + ".join(KETS[:14]), [("0001" + "0" * 12, ONE)])
# each bit that a condition names doubles what is enough: 8 * 4 * (2^18 * (1 + 1) + 4) = 16,777,344, and with 19 bits 33,554,560
BITS = ["c[%d] == 0" % place for place in range(19)]
verified("conditions on eighteen bits", "qubit q; bit[32] c;", "[|0>] when " + " and ".join(BITS[:9]), "[|0>] when " + " and ".join(BITS[9:18]))
verified("conditions on nineteen bits", "qubit q; bit[32] c;", "[|0>] when " + " and ".join(BITS[:9]), "[|0>] when " + " and ".join(BITS[9:]))
verified("bits that are named often count once", "qubit q; bit[32] c;", "[|0>] when " + " and ".join(BITS[:18]), "[|0>] when " + " and ".join(BITS[:18] * 2))
verified("a case that is never met", "qubit[7] q; bit c;", "all 7 when c == 1, [|0000000>]", "all 7")
# its first choice would be one of 2^998, and a node takes a step for each
DOUBLED = "set s0 = all 1;\n" + "".join("set s%d = s%d union s%d;\n" % (place, place - 1, place - 1) for place in range(1, 998))
gives_up("a set that is doubled 997 times", nothing(1), "[|0>]", "s997", GAVE_UP_STEPS, DOUBLED)
gives_up("a set that is doubled 997 times, at the start", nothing(1), "s997", "[|0>]", GAVE_UP_STEPS, DOUBLED)
verified("a set that is doubled and not asked for", nothing(1), "[|0>]", "s0", DOUBLED)
gives_up("a product of large numbers, in a set of many", nothing(7), "all 6 * [%d|0>]^1" % MOST, "all 6 * [2|0> + 2|1>] union [%d|0>] * [2|0>] * all 5" % MOST, GAVE_UP_WIDTH)

# ---- width

BIG = "[%d|0> + %d|1>]" % (MOST, MOST)
gives_up("a sum of a gate", "qubit q; h q;", BIG, "[|0>]", GAVE_UP_WIDTH)
gives_up("a product", nothing(2), "[%d|0>] * [2|0>]" % MOST, "[|00>]", GAVE_UP_WIDTH)
gives_up("a product in the goal", nothing(2), "[|00>]", "[|00>] union [2|0>] * [%d|0>]" % MOST, GAVE_UP_WIDTH)
gives_up("a power", nothing(2), "[18446744073709551616|1>]^2", "[|11>]", GAVE_UP_WIDTH)
verified("a power that fits", nothing(2), "[9223372036854775807|1>]^2", "[|11>]")
gives_up("a power of the root", nothing(2), "[1/sqrt2^4294967295|0>] * [1/sqrt2|0>]", "[|00>]", GAVE_UP_WIDTH)
verified("the largest power of the root, by a product", nothing(2), "[1/sqrt2^4294967294|0>] * [1/sqrt2|0>]", "[|00>]")
gives_up("a quotient by the root", "qubit q; h q;", "[1/sqrt2^4294967295|0>]", "[|0> + |1>]", GAVE_UP_WIDTH)
LEFT, RIGHT = "[(%d,%d,1,0)|0>]" % (2**126, 2**126), "[(1,0,1,-1)|0>]"
gives_up("the order of a product", nothing(2), LEFT + " * " + RIGHT, "[|00>]", GAVE_UP_WIDTH)
verified("the other order of the product", nothing(2), RIGHT + " * " + LEFT, "[|00>]")
gives_up("a comparison", nothing(1), BIG, "[2|0> + 2|1>]", GAVE_UP_WIDTH)
gives_up("a comparison of one entry", nothing(1), "[%d|0>]" % MOST, "[2|0>]", GAVE_UP_WIDTH)
gives_up("the order of a comparison", nothing(1), LEFT, RIGHT, GAVE_UP_WIDTH)
verified("the other order of the comparison", nothing(1), RIGHT, LEFT)
gives_up("a comparison of powers of the root", nothing(1), "[1/sqrt2^4294967295|0>]", "[1/sqrt2|0>]", GAVE_UP_WIDTH)
gives_up("a comparison that doesn't tell, and one that tells them apart", nothing(1), BIG, "[2|0> + 2|1>] union [|0>]", GAVE_UP_WIDTH)
either("a comparison that doesn't tell, and one that tells", nothing(1), BIG, "[2|0> + 2|1>] union [|0> + |1>]", VERIFIED, 0)
LARGE_PLUS = [("0", "(%d,0,0,0)/0" % MOST), ("1", "(%d,0,0,0)/0" % MOST)]
either("a zero tells before a product that doesn't fit", nothing(1), BIG, "[2|1>]", refuted(LARGE_PLUS, LARGE_PLUS), 1)
PLUS_END = refuted([("0", ONE)], [("0", ROOT), ("1", ROOT)])
either("a state that escapes before one that doesn't fit", "qubit q; h q;", "[|0>] union " + BIG, "[|1>]", PLUS_END, 1)
gives_up("a state that doesn't fit before one that escapes", "qubit q; h q;", BIG + " union [|0>]", "[|1>]", GAVE_UP_WIDTH)

# ---- examples/: the files as they lie there

MINUS_W_CUBED = "(0,0,0,-1)/0"
# of the state 1: the first qubit has |0> - |1>, the second |0> + i|1> and the third, which isn't turned, |0> + |1>
UNTURNED = ["(1,0,0,0)/3"] * 2 + ["(0,0,1,0)/3"] * 2 + ["(-1,0,0,0)/3"] * 2 + ["(0,0,-1,0)/3"] * 2
KETS = [format(place, "03b") for place in range(8)]


def toffoli(ket):
    return {"110": "111", "111": "110"}.get(ket, ket)


def phase(ket):
    """t is tdg and a quarter more: i wherever q[1] is 1 between the last two cx, so where the first two digits differ."""
    return I if ket[0] != ket[1] else ONE


EXAMPLES = [
    ("swap_all", VERIFIED, 0),
    ("diagonal", VERIFIED, 0),
    # the first sum: rz turns both kets by w^7, and t turns the second one by w
    ("diagonal_sums", refuted([("00000", ONE), ("00001", ONE)], [("00000", MINUS_W_CUBED), ("00001", ONE)]), 1),
    ("hadamards", VERIFIED, 0),
    ("fourier", VERIFIED, 0),
    ("fourier_unturned", refuted([("001", ONE)], [(format(place, "03b"), end) for place, end in enumerate(UNTURNED)]), 1),
    ("two_bells", VERIFIED, 0),
    ("two_bells_twins", refuted([("0001", ONE)], [(ket, "(1,0,0,0)/2") for ket in ["0001", "0010", "1101", "1110"]]), 1),
    ("half_adder", VERIFIED, 0),
    # 00 becomes 10, whose sum is 1 without a carry
    ("half_adder_stray", refuted([("00000", ONE)], [("00110", ONE)]), 1),
    ("toffoli_by_t", VERIFIED, 0),
    ("toffoli_by_t_wrong_phase", refuted([(ket + ket, ONE) for ket in KETS], [(ket + toffoli(ket), phase(ket)) for ket in KETS]), 1),
    ("flip_all", VERIFIED, 0),
    ("ghz_sixteen", VERIFIED, 0),
    ("bernstein_vazirani_all", VERIFIED, 0),
    ("adder", VERIFIED, 0),
    # 1 and 3, the first numbers whose carry goes through the place: 0 instead of 4
    ("adder_lost_carry", refuted([("0000000000010110", ONE)], [("0000000000010110", ONE)]), 1),
]
