"""A plain slow reader of programs, written from docs/LANGUAGE.md alone: tokens, grammar, and what the names mean.

`read` gives a program, or raises `Refused` with the first fault. It is a recursive descent over tokens that are found by one
regular expression each; places are counted anew for each token. A program's claims are names, in the order in which the text
first has them. Its body is a list of statements, of these forms:

    ("gate", name, eighths, controls, target)    the angle in eighths of a turn
    ("measure", qubit, bit)                      the bit is None where the outcome is kept nowhere
    ("reset", qubit)
    ("if", bit, value, yes, no)
    ("while", bit, value, claim, line, body)
    ("assert", claim, line)
"""

import re
from collections import namedtuple

from tokens import Token, TokenReader

MOST_NUMBER = 1000000000
MOST_DEPTH = 64
MOST_QUBITS = 16
MOST_BITS = 32
MOST_STATEMENTS = 100000
MOST_FACTOR = 1000000

OWN = "OPENQASM include qubit qreg bit creg measure reset barrier if else while pi true false".split()
FOREIGN = (
    "gate ctrl negctrl inv pow gphase for def extern delay box defcal cal defcalgrammar input output let const int uint "
    "float angle bool complex duration stretch array return break continue end switch pragma"
).split()

RESERVED = OWN + FOREIGN

# how many controls a gate has; the operands are these and a target
CONTROLS = dict.fromkeys("id x y z h s sdg t tdg sx p rx ry rz".split(), 0)
CONTROLS.update(dict.fromkeys("cx CX cy cz ch cp".split(), 1), ccx=2)
OPERANDS = {name: count + 1 for name, count in CONTROLS.items()}
OPERANDS.update(swap=2, cswap=3)
ANGLED = ("p", "cp", "rx", "ry", "rz")


# the number of qubits, the registers of bits with their sizes and bits, the names of claims, and the body
Program = namedtuple("Program", "qubits registers claims body")


class Refused(Exception):
    """The first fault: its place, its name, and the word that is printed with it."""

    def __init__(self, at, name, word=""):
        self.line = "%d:%d: %s" % (at + (name,)) + (" " + word if word else "")


# ---- tokens

# what a piece of the text is, the faults among them; of each kind the longest piece counts, and of all kinds too
KINDS = [
    ("blank", re.compile(rb"[ \t\r\n]")),
    ("comment", re.compile(rb"//[^\n]*")),
    ("comment", re.compile(rb"/\*.*?\*/", re.DOTALL)),
    ("OpenComment", re.compile(rb"/\*(?!.*\*/).*", re.DOTALL)),
    ("name", re.compile(rb"[A-Za-z_][A-Za-z0-9_]*")),
    ("number", re.compile(rb"[0-9]+")),
    ("decimal", re.compile(rb"[0-9]+\.[0-9]+")),
    ("quoted", re.compile(rb"\"[^\"\n]*\"|'[^'\n]*'")),
    ("OpenText", re.compile(rb"\"[^\"\n]*|'[^'\n]*")),
    ("pi", re.compile(b"\xcf\x80")),
    ("symbol", re.compile(rb"==|->|[;,()\[\]{}=!*/@-]")),
]
NOTE = re.compile(rb"@[^\n]*")


def place(text, at):
    return (text.count(b"\n", 0, at) + 1, at - text.rfind(b"\n", 0, at))


def piece(text, at):
    """The kind and the end of the longest piece that begins at the place, or nothing."""
    if text[at : at + 1] == b"@":
        line = text[text.rfind(b"\n", 0, at) + 1 : at]
        if not line.strip(b" \t\r"):
            return ("note", NOTE.match(text, at).end())
    found = [(pattern.match(text, at), kind) for kind, pattern in KINDS]
    ends = [(match.end(), -order, kind) for order, (match, kind) in enumerate(found) if match]
    return (max(ends)[2], max(ends)[0]) if ends else None


def is_long(digits):
    digits = digits.lstrip(b"0")
    return len(digits) > 10 or int(digits or b"0") > MOST_NUMBER


def tokens(text):
    try:
        text.decode("utf-8")
    except UnicodeDecodeError as error:
        raise Refused(place(text, error.start), "NotUtf8")
    found, at = [], 0
    while at < len(text):
        kind, end = piece(text, at) or ("BadByte", at + 1)
        if kind == "number" and is_long(text[at:end]):
            kind = "LongNumber"
        if kind[0].isupper():
            raise Refused(place(text, at), kind)
        if kind not in ("blank", "comment"):
            found.append(Token(kind, text[at:end], place(text, at), RESERVED))
        at = end
    return found + [Token("end", b"", place(text, at), RESERVED)]


# ---- the grammar: a statement is a dictionary


class Reader(TokenReader):
    def refuse(self, name="Unexpected", word=""):
        raise Refused(self.token().at, name, word)

    def take(self, kind=None, *texts):
        """The next token, which is to be of the kind, or one of the signs."""
        token = self.token()
        if token.kind != kind and not self.sees(*texts):
            self.refuse()
        self.next += 1
        return token

    def sign(self, text):
        return self.take(None, text)

    def number(self):
        return int(self.take("number").text)

    def maybe(self, text):
        if self.sees(text):
            return self.sign(text)
        return None

    def version(self):
        self.sign(b"OPENQASM")
        token = self.token()
        if token.kind == "number" and int(token.text) != 3 or token.kind == "decimal" and token.text.split(b".")[0] != b"3":
            self.refuse("NotTaken", token.text.decode())
        if token.kind not in ("number", "decimal"):
            self.refuse()
        self.next += 1
        self.sign(b";")

    def program(self):
        if self.sees(b"OPENQASM"):
            self.version()
        body = []
        while self.token().kind != "end":
            body.append(self.statement(0))
        return body, self.token().at

    def statement(self, depth):
        notes = []
        while self.token().kind == "note":
            notes.append(self.take("note"))
        token = self.token()
        if token.kind == "word" and token.text.decode() in FOREIGN:
            self.refuse("NotTaken", token.text.decode())
        made = self.bare(depth)
        made.update(notes=notes, at=token.at)
        return made

    def bare(self, depth):
        if self.token().kind == "name":
            return self.named()
        word = self.take(None, *(text.encode() for text in OWN if text not in ("OPENQASM", "else", "pi", "true", "false")))
        return getattr(self, "at_" + word.text.decode())(depth)

    def ended(self, made):
        self.sign(b";")
        return made

    def at_include(self, depth):
        token = self.take("quoted")
        if token.text[1:-1] != b"stdgates.inc":
            self.next -= 1
            self.refuse("NotTaken", token.text.decode())
        return self.ended({"kind": "include"})

    def size(self):
        if not self.maybe(b"["):
            return None
        number = self.number()
        self.sign(b"]")
        return number

    def at_qubit(self, depth):
        size = self.size()
        return self.ended({"kind": "declare", "quantum": True, "size": size, "name": self.take("name")})

    def at_qreg(self, depth, quantum=True):
        name = self.take("name")
        return self.ended({"kind": "declare", "quantum": quantum, "size": self.size(), "name": name})

    def at_creg(self, depth):
        return self.at_qreg(depth, False)

    def at_bit(self, depth):
        size = self.size()
        made = {"kind": "declare", "quantum": False, "size": size, "name": self.take("name")}
        if self.maybe(b"="):
            self.sign(b"measure")
            made["source"] = self.spot()
        return self.ended(made)

    def spot(self):
        name = self.take("name")
        return (name, self.size())

    def spots(self):
        found = [self.spot()]
        while self.maybe(b","):
            found.append(self.spot())
        return found

    def at_measure(self, depth):
        made = {"kind": "measure", "spots": [("qubit", self.spot())]}
        if self.maybe(b"->"):
            made["spots"].append(("bit", self.spot()))
        return self.ended(made)

    def at_reset(self, depth):
        return self.ended({"kind": "reset", "spots": [self.spot()]})

    def at_barrier(self, depth):
        return self.ended({"kind": "barrier", "spots": [] if self.sees(b";") else self.spots()})

    def named(self):
        name = self.take("name")
        if self.sees(b"[", b"="):
            into = (name, self.size())
            self.sign(b"=")
            self.sign(b"measure")
            return self.ended({"kind": "measure", "spots": [("bit", into), ("qubit", self.spot())]})
        angle = None
        if self.maybe(b"("):
            angle = self.angle()
            self.sign(b")")
        return self.ended({"kind": "call", "name": name, "angle": angle, "spots": self.spots()})

    def pi(self):
        return self.take("pi", b"pi")

    def angle(self):
        """The place, the sign, the factor and the divisor, of which the last is None where there is no pi."""
        at = self.token().at
        sign = -1 if self.maybe(b"-") else 1
        factor, turns = 1, True
        if self.token().kind == "number":
            factor = self.number()
            turns = self.maybe(b"*") is not None
        divisor = None
        if turns:
            self.pi()
            divisor = self.number() if self.maybe(b"/") else 1
        return (at, sign, factor, divisor)

    def test(self):
        """A spot, and the value that is asked for."""
        if self.maybe(b"!"):
            return self.spot(), False
        spot, value = self.spot(), True
        if self.maybe(b"=="):
            token = self.token()
            if token.kind == "number" and int(token.text) > 1:
                self.refuse()
            text = self.take("number", b"true", b"false").text
            value = int(text) == 1 if token.kind == "number" else text == b"true"
        return spot, value

    def head(self):
        self.sign(b"(")
        test = self.test()
        self.sign(b")")
        return test

    def body(self, depth):
        if depth > MOST_DEPTH:
            self.refuse("TooDeep")
        if not self.maybe(b"{"):
            return [self.statement(depth)]
        found = []
        while not self.sees(b"}"):
            found.append(self.statement(depth))
        self.sign(b"}")
        return found

    def at_if(self, depth):
        made = {"kind": "if", "test": self.head(), "bodies": [self.body(depth + 1)]}
        if self.maybe(b"else"):
            made["bodies"].append(self.body(depth + 1))
        return made

    def at_while(self, depth):
        return {"kind": "while", "test": self.head(), "bodies": [self.body(depth + 1)]}


# ---- what the names mean


class Meaning:
    def __init__(self):
        self.names = {}
        self.counts = {True: 0, False: 0}
        self.claims = []
        self.statements = 0

    def program(self, tree, end):
        body = self.body(tree, False)
        if self.counts[True] == 0:
            raise Refused(end, "NoQubits")
        bits = {name: (size, numbers) for name, (quantum, size, numbers) in self.names.items() if not quantum}
        return Program(self.counts[True], bits, self.claims, body)

    def body(self, tree, inside):
        found = []
        for made in tree:
            found += self.statement(made, inside)
        return found

    def statement(self, made, inside):
        """What a statement of the text comes to, with the assertions before it."""
        found = self.notes(made)
        kind = made["kind"]
        if inside and kind in ("include", "declare"):
            raise Refused(made["at"], "DeclaredInBlock")
        found += getattr(self, "of_" + kind)(made) or []
        self.statements += len(found)
        if self.statements > MOST_STATEMENTS:
            raise Refused(made["at"], "TooManyStatements")
        if "bodies" in made:
            bodies = [self.body(tree, True) for tree in made["bodies"]]
            found[-1] += tuple(bodies + [[]] if kind == "if" and len(bodies) == 1 else bodies)
        return found

    def notes(self, made):
        """The assertions before the statement. An invariant is kept with it."""
        made["invariant"] = None
        asserts = []
        for note in made["notes"]:
            text = note.text.split(b"//")[0].strip(b" \t\r\n")
            name = re.match(rb"@([A-Za-z0-9_.]*)", text).group(1)
            if name not in (b"invariant", b"assert"):
                continue
            rest = text[1 + len(name) :].strip(b" \t\r\n")
            stray = not re.fullmatch(rb"[A-Za-z_][A-Za-z0-9_]*", rest)
            if name == b"invariant":
                stray = stray or made["kind"] != "while" or made["invariant"] is not None
                made["invariant"] = rest
            else:
                asserts.append(("assert", rest, note.at[0]))
            if stray:
                raise Refused(note.at, "StrayAnnotation")
            if rest not in self.claims:
                self.claims.append(rest)
        return asserts

    def of_include(self, made):
        """It comes to no statement, and neither does a barrier."""

    def of_declare(self, made):
        name, size, quantum = made["name"], made["size"], made["quantum"]
        if size == 0:
            raise Refused(name.at, "EmptyRegister")
        if name.text in self.names:
            raise Refused(name.at, "TwiceDeclared")
        first = self.counts[quantum]
        self.counts[quantum] += size or 1
        if self.counts[quantum] > (MOST_QUBITS if quantum else MOST_BITS):
            raise Refused(name.at, "TooManyQubits" if quantum else "TooManyBits")
        self.names[name.text] = (quantum, size, list(range(first, self.counts[quantum])))
        if "source" in made:
            return self.of_measure({"spots": [("bit", (name, None)), ("qubit", made["source"])]})
        return []

    def look(self, spot, quantum):
        """The qubits or bits of a spot, and whether it is a register."""
        name, index = spot
        known = self.names.get(name.text)
        if known is None or known[0] != quantum:
            raise Refused(name.at, "UnknownName")
        if index is None:
            return (known[2], known[1] is not None)
        if known[1] is None or index >= known[1]:
            raise Refused(name.at, "IndexOut")
        return ([known[2][index]], False)

    def of_measure(self, made):
        found = {kind: self.look(spot, kind == "qubit")[0] for kind, spot in made["spots"]}
        bits = found.get("bit", [None] * len(found["qubit"]))
        if len(found["qubit"]) != len(bits):
            raise Refused(made["spots"][-1][1][0].at, "SizeDiffers")
        return [("measure", qubit, bit) for qubit, bit in zip(found["qubit"], bits)]

    def of_reset(self, made):
        return [("reset", qubit) for qubit in self.look(made["spots"][0], True)[0]]

    def of_barrier(self, made):
        for spot in made["spots"]:
            self.look(spot, True)

    def of_if(self, made):
        """The statement without its bodies."""
        spot, value = made["test"]
        bits = self.look(spot, False)[0]
        if len(bits) > 1:
            raise Refused(spot[0].at, "SizeDiffers")
        return [(made["kind"], bits[0], value)]

    def of_while(self, made):
        if made["invariant"] is None:
            raise Refused(made["at"], "MissingInvariant")
        return [self.of_if(made)[0] + (made["invariant"], made["at"][0])]

    def of_call(self, made):
        at, name = made["name"].at, made["name"].text.decode()
        if name not in OPERANDS:
            raise Refused(at, "UnknownGate")
        if (made["angle"] is not None) != (name in ANGLED):
            raise Refused(at, "AngleForm")
        eighths = self.eighths(name, made["angle"]) if made["angle"] else 0
        if len(made["spots"]) != OPERANDS[name]:
            raise Refused(at, "OperandCount")
        found = [self.look(spot, True) for spot in made["spots"]]
        sizes = [len(qubits) for qubits, is_register in found if is_register]
        for spot, (qubits, is_register) in zip(made["spots"], found):
            if is_register and len(qubits) != sizes[0]:
                raise Refused(spot[0].at, "SizeDiffers")
        gates = []
        for index in range(sizes[0] if sizes else 1):
            operands = [qubits[index] if is_register else qubits[0] for qubits, is_register in found]
            for place, spot in enumerate(made["spots"]):
                if operands[place] in operands[:place]:
                    raise Refused(spot[0].at, "RepeatedQubit")
            gates += instance(name, eighths, operands)
        return gates

    def eighths(self, name, angle):
        at, sign, factor, divisor = angle
        if divisor is None:
            taken, found = factor == 0, 0
        else:
            taken = factor <= MOST_FACTOR and divisor in (1, 2, 4)
            found = sign * 4 * factor // divisor if taken else 0
        if not taken or name in ("rx", "ry", "rz") and found % 2:
            raise Refused(at, "AngleForm")
        return found


def instance(name, eighths, operands):
    """The gates of one instance."""
    if name == "swap":
        a, b = operands
        return [("gate", "x", 0, [a], b), ("gate", "x", 0, [b], a), ("gate", "x", 0, [a], b)]
    if name == "cswap":
        c, a, b = operands
        return [("gate", "x", 0, [b], a), ("gate", "x", 0, [c, a], b), ("gate", "x", 0, [b], a)]
    return [("gate", name.lstrip("cC").lower() if CONTROLS[name] else name, eighths, operands[:-1], operands[-1])]


def read(text):
    """The program that a text says."""
    return Meaning().program(*Reader(tokens(text)).program())
