"""End-to-end cases of the language of programs: what is read, what it means, and each fault with its place.

Each expected text was worked out by hand from docs/, never taken from what the program printed.
"""

from cases import BELL, BELL_SETS, GAVE_UP_WIDTH, MOST_CALLS, VERIFIED, claims, refuted
from language import FOREIGN

CASES = []
ONE = "(1,0,0,0)/0"
MINUS = "(-1,0,0,0)/0"
I = "(0,0,1,0)/0"
MINUS_I = "(0,0,-1,0)/0"
ROOT = "(1,0,0,0)/1"


def checked(name, program, sets, stdout, status):
    CASES.append(("programs: " + name, ["check", "P", "S"], {"P": program, "S": sets}, stdout, status))


def verified(name, program, before, after):
    checked(name, program, claims(before, after), VERIFIED, 0)


def with_bits(bits, report):
    """The report of a program that has bits, of which each is 0."""
    return report.replace("bits -\n", "bits %s\n" % bits)


def wrong(name, program, before, after, state, end, bits="-"):
    """The program is refuted: it ends elsewhere."""
    checked(name, program, claims(before, after), with_bits(bits, refuted(state, end)), 1)


def refused(fault, at, program, word=""):
    """The program is refused before the sets are read, so there are none."""
    line = "refused: program %s: %s%s\n" % (at, fault, " " + word if word else "")
    CASES.append(("programs: %s at %s of %r" % (fault, at, program[:60]), ["check", "P", "S"], {"P": program}, line, 3))


# ---- texts that are taken

for name, program in [
    ("a comment", BELL + "// done"),
    ("a comment in front", "/* Bell */" + BELL),
    ("a comment of lines inside a call", BELL.replace("q[0], q", "q[0], /* and\n * then */ q")),
    ("a comment without blanks", BELL.replace("cx q", "cx/**/q")),
    ("a comment with characters that aren't ASCII", BELL + "// é π \u2713"),
    ("a comment that looks open", BELL + "// /* \n"),
    ("a comment with stars", BELL + "/* * / ** /* **/"),
    ("version 3", BELL.replace("3.0", "3")),
    ("version 3.1", BELL.replace("3.0", "3.1")),
    ("version 3.1415", BELL.replace("3.0", "3.1415")),
    ("version 03", BELL.replace("3.0", "03")),
    ("a library in single quotes", BELL.replace('"', "'")),
    ("a library twice", BELL.replace("qubit", 'include "stdgates.inc"; qubit')),
    ("a library in the middle", "qubit[2] q; h q[0]; include 'stdgates.inc'; cx q[0], q[1];"),
    ("another name", BELL.replace("q[", "_a1[").replace(" q;", " _a1;")),
    ("an old declaration", BELL.replace("qubit[2] q;", "qreg q[2];")),
    ("two registers", "qubit[1] a; qubit[1] b; h a; cx a, b;"),
    ("two qubits", "qubit a; qreg b; h a; cx a, b;"),
    ("a declaration behind a call", "qubit a; h a; qubit b; cx a, b;"),
    ("a register of bits", "qubit[2] q; bit[2] c; h q[0]; cx q[0], q[1];"),
    ("an old register of bits", "qubit[2] q; creg c[2]; h q[0]; cx q[0], q[1];"),
    ("a count and an index of many digits", "qubit[000002] q; h q[0000]; cx q[00], q[000000000001];"),
    ("barriers", "qubit[2] q; barrier; h q[0]; barrier q; cx q[0], q[1]; barrier q[1], q[0], q;"),
    ("a barrier that names a qubit twice", "qubit[2] q; barrier q[0], q[0]; h q[0]; cx q[0], q[1];"),
    ("other notes", "@author me\nqubit[2] q;\n @ a lone at\n\t@invariant.of what\nh q[0];\n@\n@assert_ a b\ncx q[0], q[1];"),
    ("a note with characters that aren't ASCII", "qubit[2] q;\n@note é π\nh q[0]; cx q[0], q[1];"),
    ("names of gates for registers", "qubit x; qubit[1] h; h x; cx x, h;"),
    ("names that begin like words", "qubit qubits; qubit if_; h qubits; cx qubits, if_;"),
    ("the old controlled not", "qubit[2] q; h q[0]; CX q[0], q[1];"),
    ("lines that end with 13 and 10", BELL.replace("\n", "\r\n")),
    ("few blanks", 'OPENQASM 3;include"stdgates.inc";qubit[2]q;h q[0];cx q[0],q[1];'),
]:
    checked(name, program, BELL_SETS, VERIFIED, 0)

# ---- broadcasting, and the order of qubits

verified("a gate on a register", "qubit[2] q; h q;", "|00>", "|00> + |01> + |10> + |11>")
verified("a gate on a register of one", "qubit[1] q; x q;", "|0>", "|1>")
verified("qubits in the order of their declarations", "qubit a; qubit[2] b; qubit c; x b[0];", "|0000>", "|0100>")
verified("the last qubit is the rightmost digit", "qubit a; qubit[2] b; qubit c; x c;", "|0000>", "|0001>")
verified("two registers go index by index", "qubit[2] a; qubit[2] b; cx a, b;", "|1001>", "|1011>")
verified("a register controls a qubit", "qubit[2] a; qubit b; cx a, b;", "|110> + |100>", "|110> + |101>")
verified("a qubit controls a register", "qubit[2] a; qubit b; cx b, a;", "|001> + |100>", "|111> + |100>")
verified("an index of a register among registers", "qubit[2] a; qubit[2] b; qubit[3] c; ccx a, c[0], b;", "|1000100>", "|1010100>")
# first a[0] and b are exchanged, then a[1] and b
verified("calls go in order of the index", "qubit[2] a; qubit b; swap a, b;", "|100>", "|010>")
wrong("calls don't go backwards", "qubit[2] a; qubit b; swap a, b;", "|100>", "|001>", [("100", ONE)], [("010", ONE)])
# gate by gate over all indices, b would be 1 at the end, and all of a too
verified("each call is whole before the next", "qubit[2] a; qubit b; swap a, b;", "|001>", "|100>")
verified("registers are exchanged", "qubit[2] a; qubit[2] b; swap a, b;", "|1001>", "|0110>")
verified("sixteen qubits in parts", "qubit[7] a; qubit[8] b; qubit c; x a; x b[7]; x c;", "|" + "0" * 16 + ">", "|1111111000000011>")

# ---- gates without an angle

verified("id", "qubit q; id q;", "|0> - |1>", "|0> - |1>")
verified("sdg undoes s", "qubit q; s q; sdg q;", "|0> + |1>", "|0> + |1>")
verified("tdg undoes t", "qubit q; t q; tdg q;", "|0> + |1>", "|0> + |1>")
wrong("sdg has the factor -i", "qubit q; sdg q;", "|0> + |1>", "|0> - |1>", [("0", ONE), ("1", ONE)], [("0", ONE), ("1", MINUS_I)])
wrong("tdg has the factor w^7", "qubit q; tdg q;", "|0> + |1>", "|0> - |1>", [("0", ONE), ("1", ONE)], [("0", ONE), ("1", "(0,0,0,-1)/0")])
verified("sx twice is x", "qubit q; sx q; sx q;", "|0>", "|1>")
wrong("sx is a root", "qubit q; sx q;", "|0>", "|1>", [("0", ONE)], [("0", "(0,1,0,0)/1"), ("1", "(0,0,0,-1)/1")])
verified("cy has its control in front", "qubit[2] q; cy q[0], q[1];", "|10>", "|11>")
wrong("cy has the factor i", "qubit[2] q; cy q[0], q[1];", "|00> + |10>", "|00> + |11>", [("00", ONE), ("10", ONE)], [("00", ONE), ("11", I)])
verified("cz turns one of four", "qubit[2] q; cz q[1], q[0];", "|00> + |01> + |10> + |11>", "|00> + |01> + |10> - |11>")
verified("ch", "qubit[2] q; ch q[0], q[1];", "|10>", "|10> + |11>")
verified("ch does nothing where its control is 0", "qubit[2] q; ch q[0], q[1];", "|01>", "|01>")
verified("ccx where both controls are 1", "qubit[3] q; ccx q[2], q[0], q[1];", "|101> + |100> + |001>", "|111> + |100> + |001>")
verified("swap", "qubit[2] q; swap q[0], q[1];", "|10> - |11>", "|01> - |11>")
verified("cswap where its control is 1", "qubit[3] q; cswap q[0], q[1], q[2];", "|110> - |101>", "|101> - |110>")
verified("cswap where its control is 0", "qubit[3] q; cswap q[0], q[1], q[2];", "|010>", "|010>")
verified("cswap has its control in front", "qubit[3] q; cswap q[2], q[0], q[1];", "|101>", "|011>")

# ---- gates with an angle: p, cp

PLUS = "|0> + |1>"
DIFFERENCE = "|0> - |1>"
for angle in ["pi", "-pi", "π", "3*pi", "4*pi/4", "2*pi/2", "004*π/04", "999999*pi", "-999999*pi", "1004*pi /* or so */ / 4"]:
    verified("p is z, by the angle " + angle, "qubit q; p(%s) q;" % angle, PLUS, DIFFERENCE)
for angle in ["0", "-0", "000", "2*pi", "-2*pi", "1000000*pi", "-1000000*pi", "1000000*pi/2", "1000000*pi/4", "0*pi", "-0*pi/4"]:
    verified("p does nothing, by the angle " + angle, "qubit q; p(%s) q;" % angle, PLUS, PLUS)
for angle, end in [
    ("pi/2", I),
    ("-pi/2", MINUS_I),
    ("pi/4", "(0,1,0,0)/0"),
    ("-pi/4", "(0,0,0,-1)/0"),
    ("3*pi/4", "(0,0,0,1)/0"),
    ("-3*pi/4", "(0,-1,0,0)/0"),
    ("999999*pi/4", "(0,0,0,-1)/0"),
    ("-999999*pi/4", "(0,1,0,0)/0"),
]:
    wrong("p by " + angle, "qubit q; p(%s) q;" % angle, PLUS, PLUS, [("0", ONE), ("1", ONE)], [("0", ONE), ("1", end)])
ALL = "|00> + |01> + |10> + |11>"
verified("cp of pi is cz", "qubit[2] q; cp(pi) q[0], q[1];", ALL, "|00> + |01> + |10> - |11>")
verified("cp of two angles that add up to nothing", "qubit[2] q; cp(-pi/4) q[0], q[1]; cp(9*pi/4) q[1], q[0];", ALL, ALL)
wrong(
    "cp of -pi/2",
    "qubit[2] q; cp(-pi/2) q[0], q[1];",
    ALL,
    ALL,
    [("00", ONE), ("01", ONE), ("10", ONE), ("11", ONE)],
    [("00", ONE), ("01", ONE), ("10", ONE), ("11", MINUS_I)],
)

# ---- rx, ry, rz

verified("rx of pi takes 0 to 1", "qubit q; rx(pi) q;", "|0>", "|1>")
wrong("rx of pi has the factor -i", "qubit q; rx(pi) q;", "|0>", "|0>", [("0", ONE)], [("1", MINUS_I)])
wrong("rx of pi/2", "qubit q; rx(pi/2) q;", "|0>", "|0>", [("0", ONE)], [("0", ROOT), ("1", "(0,0,-1,0)/1")])
wrong("rx of -pi/2", "qubit q; rx(-pi/2) q;", "|0>", "|0>", [("0", ONE)], [("0", ROOT), ("1", "(0,0,1,0)/1")])
verified("rx of 2 pi is the same state", "qubit q; rx(2*pi) q;", "|0>", "|0>")
verified("rx of pi/2 four times", "qubit q; rx(2*pi/4) q; rx(pi/2) q; rx(π/2) q; rx(-3*pi/2) q;", PLUS, PLUS)
verified("ry of pi/2 takes 0 to the sum", "qubit q; ry(pi/2) q;", "|0>", PLUS)
verified("ry of pi/2 takes 1 to the difference", "qubit q; ry(pi/2) q;", "|1>", "-|0> + |1>")
verified("ry of -pi/2 takes 0 to the difference", "qubit q; ry(-pi/2) q;", "|0>", DIFFERENCE)
wrong("ry of 3 pi/2", "qubit q; ry(3*pi/2) q;", "|0>", "|0>", [("0", ONE)], [("0", "(-1,0,0,0)/1"), ("1", ROOT)])
wrong("ry of pi", "qubit q; ry(pi) q;", PLUS, PLUS, [("0", ONE), ("1", ONE)], [("0", MINUS), ("1", ONE)])
verified("rz of pi is z", "qubit q; rz(pi) q;", PLUS, DIFFERENCE)
verified("rz of 2 pi is the same state", "qubit q; rz(-2*pi) q;", PLUS, PLUS)
wrong(
    "rz of pi/2",
    "qubit q; rz(pi/2) q;",
    PLUS,
    PLUS,
    [("0", ONE), ("1", ONE)],
    [("0", "(0,0,0,-1)/0"), ("1", "(0,1,0,0)/0")],
)
wrong(
    "rz of -1000000 pi/2",
    "qubit q; rz(-1000000*pi/2) q; rz(-pi/2) q;",
    PLUS,
    DIFFERENCE,
    [("0", ONE), ("1", ONE)],
    [("0", "(0,1,0,0)/0"), ("1", "(0,0,0,-1)/0")],
)

# ---- bits

wrong("bits begin at 0 and stay", "qubit q; bit[3] c; bit d; x q;", "|0>", "|0>", [("0", ONE)], [("1", ONE)], "0000")
wrong("as many bits as there may be", "bit[31] c; qubit q; creg d[1]; x q;", "|0>", "|0>", [("0", ONE)], [("1", ONE)], "0" * 32)
wrong("one bit", "qubit q; bit c; barrier q; x q;", "|0>", "|0>", [("0", ONE)], [("1", ONE)], "0")

# ---- sizes

verified("as many statements as there may be", "qubit[2] q;" + "x q[0];" * MOST_CALLS, "|00>", "|00>")
WITHOUT_STATEMENTS = "barrier q; include 'stdgates.inc'; qubit r;"
verified("declarations and barriers aren't counted", "qubit q; bit c;" + "x q;" * MOST_CALLS + WITHOUT_STATEMENTS, "|00>", "|00>")
verified("swaps and registers up to the most statements", "qubit[2] q;" + "x q;" * 49998 + "swap q[0], q[1]; id q[0];", "|01>", "|10>")
checked("numbers too wide", "qubit[2] q;" + "h q; t q; cx q[0], q[1];" * 2000, claims("|00>", "|00>"), GAVE_UP_WIDTH, 2)

# ---- faults of the tokens

refused("NotUtf8", "2:1", b"qubit q;\n\xff")
refused("NotUtf8", "1:13", b"qubit q; // \xc3")
refused("NotUtf8", "2:7", b"$ is bad,\nqubit \xe2\x82; comes first")
refused("NotUtf8", "1:1", b"\xed\xa0\x80")
refused("NotUtf8", "6:1", BELL.encode() + b"\xcf")
refused("BadByte", "1:1", b"\xef\xbb\xbf" + BELL.encode())
refused("BadByte", "2:5", "qubit q;\nx q #;")
refused("BadByte", "1:14", "qubit q; x q;\0")
refused("BadByte", "6:1", BELL + "\f")
refused("BadByte", "1:7", "qubit é;")
refused("BadByte", "1:12", "qubit q; p(.5) q;")
refused("BadByte", "1:19", "qubit q; p(π) q; $")
refused("BadByte", "1:14", "qubit q; h q $;")
refused("BadByte", "1:15", "qubit q; p(pi + 1) q;")
refused("BadByte", "2:3", "qubit[3] q;\nx ~q;")
refused("OpenComment", "2:3", "qubit q;\n  /* no end")
refused("OpenComment", "1:1", "/*/")
refused("OpenComment", "1:18", "qubit q; /* a */ /* b * /")
refused("OpenComment", "2:1", "// /* \n/* // * /")
refused("OpenText", "1:9", 'include "stdgates.inc;\nqubit q;"')
refused("OpenText", "1:9", "include 'stdgates.inc\";")
refused("OpenText", "2:1", "qubit q;\n'")
refused("LongNumber", "1:7", "qubit[1000000001] q;")
refused("LongNumber", "2:5", "qubit q;\nx q[99999999999999999999];")
refused("LongNumber", "1:12", "qubit q; p(4294967297*pi) q;")
refused("IndexOut", "2:3", "qubit q;\nx q[1000000000];")

# ---- faults of the grammar

refused("Unexpected", "1:8", "qubit q")
refused("Unexpected", "1:1", ";")
refused("Unexpected", "1:14", "qubit q; h q;;")
refused("Unexpected", "1:2", "h;")
refused("Unexpected", "1:6", "x q, ;")
refused("Unexpected", "1:9", "qubit[2 q;")
refused("Unexpected", "1:7", "qubit[] q;")
refused("Unexpected", "1:9", "qubit[2][3] q;")
refused("Unexpected", "1:7", "qubit if;")
refused("Unexpected", "1:7", "qubit gate;")
refused("Unexpected", "1:3", "x pi;")
refused("Unexpected", "1:6", "qreg [2] q;")
refused("Unexpected", "1:10", "qubit q; @note")
refused("Unexpected", "1:9", "/* c */ @note\nqubit q;")
refused("Unexpected", "2:10", "@note\nqubit q; ]")
refused("Unexpected", "3:1", "qubit q;\n@note\n")
refused("Unexpected", "1:10", "qubit q; OPENQASM 3;")
refused("Unexpected", "2:1", "@note\nOPENQASM 3;")
refused("Unexpected", "1:10", "OPENQASM three;")
refused("Unexpected", "1:13", "OPENQASM 3.0")
refused("Unexpected", "1:9", "include stdgates;")
refused("Unexpected", "1:9", "bit c = q;")
refused("Unexpected", "1:9", "qubit q = measure q;")
refused("Unexpected", "1:6", "q[0] q;")
refused("Unexpected", "1:16", "measure q -> c -> d;")
refused("Unexpected", "1:4", "rx() q;")
refused("Unexpected", "1:5", "rx(--1) q;")
refused("Unexpected", "1:6", "rx(pi*2) q;")
refused("Unexpected", "1:5", "rx(1/2) q;")
refused("Unexpected", "1:4", "rx(1.5) q;")
refused("Unexpected", "1:4", "rx(a) q;")
refused("Unexpected", "1:7", "if (c = 0) x q;")
refused("Unexpected", "1:10", "if (c == 2) x q;")
refused("Unexpected", "1:5", "if (true) x q;")
refused("Unexpected", "1:8", "if (c) }")
refused("Unexpected", "1:14", "if (c) { x q;")
refused("Unexpected", "1:1", "{ x q; }")
refused("Unexpected", "1:1", "else x q;")
refused("Unexpected", "1:23", "if (c) x q; else y q; else z q;")
refused("Unexpected", "1:26", "if (c) { x q; } else { } else")
refused("Unexpected", "1:9", "h none; ;")
refused("Unexpected", "1:4", "x (q);")
refused("NotTaken", "1:10", "OPENQASM 2.0;", "2.0")
refused("NotTaken", "1:10", "OPENQASM 4;", "4")
refused("NotTaken", "1:10", "OPENQASM 03.0;", "03.0")
refused("NotTaken", "1:10", "OPENQASM 30.0;", "30.0")
refused("NotTaken", "1:9", 'include "qelib1.inc";', '"qelib1.inc"')
refused("NotTaken", "1:9", "include 'stdgates.inc ' here", "'stdgates.inc '")
refused("NotTaken", "2:9", "qubit q;\ninclude ''", "''")
refused("NotTaken", "2:1", "@other\nfor", "for")
refused("NotTaken", "1:15", "if (c) { x q; ctrl", "ctrl")
refused("NotTaken", "1:18", "if (c) x q; else end", "end")
for word in FOREIGN:
    refused("NotTaken", "2:3", "qubit q;\n  %s q;" % word, word)
refused("TooDeep", "1:326", "if(c)" * 65 + "x q;")
refused("TooDeep", "1:326", "if(c)" * 65)
refused("TooDeep", "2:1", "if(c){" * 64 + "if(c)\n}")
refused("TooDeep", "1:521", "while(c)" * 65 + ";")
refused("TooDeep", "2:1", "if(c)" * 64 + "if(c)\ngate")
refused("NotTaken", "1:321", "if(c)" * 64 + "gate", "gate")
refused("TooDeep", "1:334", "if(c)" * 64 + "{ x q; if(c) x q; }")

# ---- faults of what is meant

refused("UnknownName", "1:12", "qubit q; x r;")
refused("UnknownName", "1:19", "qubit q; bit c; x c;")
refused("UnknownName", "1:3", "x q; qubit q;")
refused("UnknownName", "1:21", "qubit q; barrier q, r;")
refused("UnknownName", "1:29", "qubit q; bit c; c = measure c;")
refused("UnknownName", "1:10", "qubit q; q = measure q;")
refused("UnknownName", "1:23", "qubit q; measure q -> c;")
refused("UnknownName", "1:15", "qubit q; if ( q) x q;")
refused("UnknownName", "1:16", "qubit q; reset r;")
refused("UnknownName", "1:12", "qubit q; x Q;")
refused("TwiceDeclared", "1:16", "qubit q; qubit q;")
refused("TwiceDeclared", "1:17", "qubit q; bit[3] q;")
refused("TwiceDeclared", "1:17", "qreg q[2]; creg q[2];")
refused("TwiceDeclared", "1:20", "qubit q; qubit[17] q;")
refused("EmptyRegister", "1:10", "qubit[0] q;")
refused("EmptyRegister", "1:15", "qubit q; creg c[00];")
refused("EmptyRegister", "1:17", "qubit q; bit[0] q;")
refused("IndexOut", "1:15", "qubit[2] q; h q[2];")
refused("IndexOut", "1:12", "qubit q; h q[0];")
refused("IndexOut", "1:20", "qubit q; bit[2] c; c[2] = measure q;")
refused("IndexOut", "1:28", "qubit[2] a; qubit[3] b; cx b[3], none;")
refused("SizeDiffers", "1:31", "qubit[2] q; qubit[3] r; cx q, r;")
refused("SizeDiffers", "1:35", "qubit[2] a; qubit[3] b; ccx a, a, b;")
refused("SizeDiffers", "1:37", "qubit[3] b; qubit[1] c; id b; cx b, c;")
refused("SizeDiffers", "1:33", "qubit[2] q; bit c; measure q -> c;")
refused("SizeDiffers", "1:32", "qubit[2] q; bit c; c = measure q;")
refused("SizeDiffers", "1:32", "qubit[2] q; bit[3] c = measure q;")
refused("SizeDiffers", "1:24", "qubit q; bit[2] c; if (c) x q;")
refused("UnknownName", "1:35", "qubit[2] a; qubit[3] b; ccx a, b, zz;")
refused("RepeatedQubit", "1:22", "qubit[2] q; cx q[0], q[0];")
refused("RepeatedQubit", "1:22", "qubit[2] q; cx q[1], q[01];")
refused("RepeatedQubit", "1:19", "qubit[2] q; cx q, q[1];")
refused("RepeatedQubit", "1:17", "qubit s; ccx s, s, s;")
refused("RepeatedQubit", "1:29", "qubit[3] q; ccx q[0], q[1], q[0];")
# the first call is good, the second repeats q[1] at its third spot, and the third q[2] at its second
refused("RepeatedQubit", "1:26", "qubit[3] q; ccx q, q[2], q[1];")
refused("UnknownGate", "1:10", "qubit q; hh q;")
refused("UnknownGate", "1:10", "qubit q; X q;")
refused("UnknownGate", "2:1", "qubit[2] q;\ncu(0) q[0], q[1];")
refused("UnknownGate", "1:1", "hq q;")
refused("UnknownGate", "2:1", "qubit q;\nnope(pi/3) r, r;")
for word in ["U", "u1", "u2", "u3", "crx", "cry", "crz", "phase", "cphase", "Cx", "cX", "CCX", "swap_"]:
    refused("UnknownGate", "1:16", "qubit q; /* */ %s q;" % word)
refused("OperandCount", "1:13", "qubit[2] q; cx q[0];")
refused("OperandCount", "1:13", "qubit[2] q; h q[0], q[1];")
refused("OperandCount", "1:10", "qubit q; h none, none;")
refused("OperandCount", "2:1", "qubit[3] q;\nswap q[0], q[1], q[2];")
refused("OperandCount", "2:1", "qubit[3] q;\ncswap q[0], q[1];")
refused("OperandCount", "2:1", "qubit[3] q;\nccx q;")
refused("AngleForm", "1:13", "qubit q; rx(pi/4) q;")
refused("AngleForm", "1:10", "qubit q; h(pi) q;")
refused("AngleForm", "1:10", "qubit q; rx q;")
refused("AngleForm", "1:10", "qubit q; rx none, none;")
refused("AngleForm", "1:13", "qubit q; rx(1) none, none;")
for angle in ["1", "-1", "pi/3", "pi/0", "pi/8", "-pi/8", "1000001*pi", "1000000000*pi/4", "2*pi/3", "0*pi/5"]:
    refused("AngleForm", "1:12", "qubit q; p(%s) q;" % angle)
for gate in ["rx", "ry", "rz"]:
    for angle in ["pi/4", "-pi/4", "3*pi/4", "999999*pi/4"]:
        refused("AngleForm", "2:6", "qubit q;\n%s ( %s) q;" % (gate, angle))
for gate in ["id", "x", "cx", "CX", "ccx", "swap", "cswap", "sx", "ch"]:
    refused("AngleForm", "1:10", "qubit q; %s(0) q;" % gate)
for gate in ["p", "cp", "rx", "ry", "rz"]:
    refused("AngleForm", "1:10", "qubit q; %s q;" % gate)
refused("NoQubits", "1:1", "")
refused("NoQubits", "2:1", "bit c;\n")
refused("NoQubits", "1:23", "OPENQASM 3; // nothing")
refused("NoQubits", "2:1", " \t\r\n")
refused("TooManyQubits", "1:11", "qubit[17] q;")
refused("TooManyQubits", "1:23", "qubit[10] q; qubit[7] r;")
refused("TooManyQubits", "1:7", "qreg  q[1000000000];")
refused("TooManyQubits", "2:7", "qubit[16] q;\nqubit r;")
refused("TooManyBits", "1:18", "qubit q; bit[33] c;")
refused("TooManyBits", "1:16", "bit[32] c; bit d;")
refused("TooManyStatements", "1:400009", "qubit q;" + "x q;" * (MOST_CALLS + 1))
refused("TooManyStatements", "6252:1", "qubit[16] q;\n" + "x q;\n" * 6251)
refused("TooManyStatements", "33335:1", "qubit[2] q;\n" + "swap q[0], q[1];\n" * 33334)
refused("TooManyStatements", "2:3", "qubit q; qubit r;" + "x q;" * (MOST_CALLS - 2) + "\n  swap q, r;")
refused("TooManyStatements", "2:8", "qubit q; bit c;" + "x q;" * (MOST_CALLS - 1) + "\nif (c) x q;")
refused("TooManyStatements", "3:1", "qubit q;" + "x q;" * (MOST_CALLS - 1) + "\n@assert a\nx q;")
refused("MissingInvariant", "1:17", "qubit q; bit c; while (c) x q;")
refused("MissingInvariant", "3:1", "qubit q;\n@invariants a\nwhile (none) x q;")
refused("MissingInvariant", "3:1", "qubit q; bit c;\n@assert a\nwhile (c) x q;")
refused("StrayAnnotation", "2:1", "qubit q;\n@invariant a\nx q;")
refused("StrayAnnotation", "2:3", "qubit q;\n  @assert\nx q;")
refused("StrayAnnotation", "2:1", "qubit q;\n@assert a b\nx q;")
refused("StrayAnnotation", "2:1", "qubit q;\n@assert 1\nx q;")
refused("StrayAnnotation", "2:1", "qubit q;\n@assert // a\nx q;")
refused("StrayAnnotation", "2:1", "qubit q; bit c;\n@invarianté a\nwhile (c) x q;")
refused("StrayAnnotation", "3:1", "qubit q; bit c;\n@invariant a\n@invariant b\nwhile (c) x q;")
refused("StrayAnnotation", "4:2", "qubit q; bit c;\n@other\n@assert a\n @invariant a\nqubit r;")
refused("DeclaredInBlock", "1:24", "qubit q; bit c; if (c) qubit r;")
refused("DeclaredInBlock", "3:6", "qubit q; bit c;\nif (c) { x q; }\nelse include 'stdgates.inc';")
refused("DeclaredInBlock", "4:1", "qubit q; bit c;\nif (c)\n@other\nbit[0] q;")
refused("DeclaredInBlock", "3:11", "qubit q; bit c;\n@invariant a\nwhile (c) creg d[1];")
refused("TwiceDeclared", "1:14", "qubit q; bit q;")
refused("TwiceDeclared", "1:18", "qubit q; bit[33] q;")
refused("TooManyQubits", "1:20", "qubit[16] q; qubit r;")
refused("TooManyBits", "1:25", "qubit q; bit[32] c; bit d;")
refused("SizeDiffers", "1:29", "qubit[2] q; bit c = measure q;")
refused("SizeDiffers", "1:36", "qubit[2] q; bit[3] c; measure q -> c;")
refused("SizeDiffers", "1:24", "qubit q; bit[2] c; if (c) { }")
refused("UnknownName", "1:26", "qubit q; bit c = measure c;")
refused("UnknownName", "1:7", "reset q; qubit q;")
refused("UnknownName", "1:23", "qubit q; bit c; reset c;")
refused("UnknownName", "1:23", "qubit q; measure q -> q;")
refused("UnknownName", "1:10", "qubit q; d = measure r;")
refused("UnknownName", "1:18", "qubit q; measure r -> d;")
refused("UnknownName", "1:14", "qubit q; if (z) { reset y; }")
refused("UnknownName", "1:41", "qubit q; bit c; if (c) { } else { reset x; }")
refused("IndexOut", "1:19", "qubit[2] q; reset q[2];")
refused("IndexOut", "1:16", "qubit q; reset q[0];")
refused("IndexOut", "1:41", "qubit[2] q; qubit[3] s; qubit t; ccx q, s[3], none;")
refused("MissingInvariant", "1:10", "qubit q; while (z) { }")
refused("DeclaredInBlock", "1:26", "qubit q; bit c; if (c) { qubit[0] q; }")
refused("StrayAnnotation", "1:1", "@assert\nqubit q;")
refused("StrayAnnotation", "1:1", "@assert a b\nqubit q;")
refused("OperandCount", "1:10", "qubit q; cx " + "q," * 99999 + "q;")
refused("OperandCount", "1:13", "qubit[2] q; rx(pi/2) q[0], q[1];")
refused("OperandCount", "1:13", "qubit[2] q; cp(pi/4) q[0];")
MEASURED = "qubit[16] q; bit c;\n" + "measure q;\n" * 6249
refused("TooManyStatements", "6252:1", MEASURED + "measure q;\nreset q[0];")
refused("TooManyStatements", "6253:1", MEASURED + "measure q;\n@assert a\nbarrier q;")
refused("TooManyStatements", "6251:24", MEASURED + "measure q[0]; if (c) { measure q; }")

# ---- the order of faults: tokens, then the grammar, then what is meant; and inside these the order of the text

refused("BadByte", "1:3", "; #")
refused("Unexpected", "1:6", "x r; ;")
refused("UnknownName", "1:3", "x r; qubit[0] q;")
refused("StrayAnnotation", "3:1", "qubit q; bit c;\nif (c) {\n@assert\nqubit[0] q;\n}")
refused("UnknownName", "2:5", "qubit q;\nif (none) qubit r;")
refused("UnknownName", "2:10", "qubit q; bit c;\nif (c) x r; else y s;")
refused("UnknownName", "2:20", "qubit q; bit c;\nif (c) x q; else y s;")
refused("NotTaken", "1:6", "x r; let a = b;", "let")

# ---- examples/: the files as they lie there

EXAMPLES = [
    ("ghz_all_at_once", VERIFIED, 0),
    ("bernstein_vazirani", VERIFIED, 0),
    (
        "bernstein_vazirani_forgets",
        refuted([("00000", ONE)], [("10100", ROOT), ("10101", "(-1,0,0,0)/1")]),
        1,
    ),
    ("toffoli_ladder", VERIFIED, 0),
    (
        "toffoli_ladder_dirty",
        refuted(
            [("0111001", MINUS), ("1110000", ONE), ("1111000", ONE)],
            [("0111001", MINUS), ("1110110", ONE), ("1111111", ONE)],
        ),
        1,
    ),
    ("phase_kickback", VERIFIED, 0),
    (
        "quarter_kickback",
        with_bits("00", refuted([("00", ONE)], [("01", "(0,1,0,0)/1"), ("11", "(0,0,0,-1)/1")])),
        1,
    ),
]
