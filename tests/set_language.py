"""A plain slow reader of set files, written from docs/SETS.md alone: tokens, grammar, and what the items mean.

`read` gives the claims and the sets by name, or raises `Refused` with the first fault. A set is an expression, which is a
dictionary that holds its parts and its number of qubits; a claim is a list of cases, and a case an expression and its
conditions.
"""

import re

from tokens import Token, TokenReader

MOST_DEPTH = 64
MOST_QUBITS = 16
MOST_NAMES = 1000
MOST_NODES = 100000
MOST_ROOTS = 2**32 - 1
LIMIT = 2**127

RESERVED = "set claim when and union all w i sqrt2".split()

# of each kind the longest piece counts, and of all kinds too
KINDS = [
    ("blank", re.compile(rb"[ \t\r\n]+")),
    ("comment", re.compile(rb"//[^\n]*")),
    ("comment", re.compile(rb"/\*.*?\*/", re.DOTALL)),
    ("name", re.compile(rb"[A-Za-z_][A-Za-z0-9_]*")),
    ("number", re.compile(rb"[0-9]+")),
    ("ket", re.compile(rb"\|[01]+>")),
    ("BadKet", re.compile(rb"\|")),
    ("symbol", re.compile(rb"==|[=;,\[\]()*^+/-]")),
]


class Refused(Exception):
    """The first fault: where it stands in the text, and its name."""

    def __init__(self, at, name):
        self.at = at
        self.name = name

    def line(self, text):
        column = self.at - text.rfind(b"\n", 0, self.at)
        return "%d:%d: %s" % (text.count(b"\n", 0, self.at) + 1, column, self.name)


def piece(text, at):
    """The kind and the end of the longest piece that begins at the place."""
    found = [(pattern.match(text, at), kind) for kind, pattern in KINDS]
    ends = [(match.end(), kind) for match, kind in found if match]
    if not ends:
        return ("BadByte", at + 1)
    end, kind = max(ends)
    if text.startswith(b"/*", at) and kind != "comment":
        return ("OpenComment", len(text))
    if kind == "number" and is_long(text[at:end]):
        return ("LongNumber", end)
    return (kind, end)


def is_long(digits):
    digits = digits.lstrip(b"0")
    return len(digits) > 39 or int(digits or b"0") >= LIMIT


def tokens(text):
    try:
        text.decode("utf-8")
    except UnicodeDecodeError as error:
        raise Refused(error.start, "NotUtf8")
    found, at = [], 0
    while at < len(text):
        kind, end = piece(text, at)
        if kind[0].isupper():
            raise Refused(at, kind)
        if kind not in ("blank", "comment"):
            found.append(Token(kind, text[at:end], at, RESERVED))
        at = end
    return found + [Token("end", b"", at, RESERVED)]


# ---- the grammar


class Reader(TokenReader):
    def take(self, kind=None, *texts):
        """The next token, which is to be of the kind, or one of the signs."""
        token = self.token()
        if token.kind != kind and not self.sees(*texts):
            raise Refused(token.at, "Unexpected")
        self.next += 1
        return token

    def sign(self, text):
        return self.take(None, text)

    def number(self):
        return int(self.take("number").text)

    def maybe(self, text):
        return self.sign(text) if self.sees(text) else None

    def file(self):
        items = []
        while self.token().kind != "end":
            items.append(self.item())
        return items

    def item(self):
        word = self.take(None, b"set", b"claim")
        name = self.take("name")
        self.sign(b"=")
        cases = [self.case(word.text == b"claim")]
        while word.text == b"claim" and self.maybe(b","):
            cases.append(self.case(True))
        self.sign(b";")
        return (word.text == b"claim", name, cases)

    def case(self, may_ask):
        at = self.token().at
        expr, conditions = self.expr(0), []
        if may_ask and self.maybe(b"when"):
            conditions.append(self.condition())
            while self.maybe(b"and"):
                conditions.append(self.condition())
        return (at, expr, conditions)

    def condition(self):
        name, index = self.take("name"), None
        if self.maybe(b"["):
            index = self.number()
            self.sign(b"]")
        self.sign(b"==")
        value = self.take("number")
        if int(value.text) > 1:
            raise Refused(value.at, "Unexpected")
        return (name.text, index, int(value.text))

    def chain(self, sign, kind, part):
        left = part()
        while self.sees(sign):
            at = self.sign(sign).at
            left = {"kind": kind, "at": at, "parts": [left, part()]}
        return left

    def expr(self, depth):
        return self.chain(b"union", "union", lambda: self.tensor(depth))

    def tensor(self, depth):
        return self.chain(b"*", "tensor", lambda: self.power(depth))

    def power(self, depth):
        base = self.atom(depth)
        if self.sees(b"^"):
            at = self.sign(b"^").at
            return {"kind": "power", "at": at, "parts": [base], "number": self.number()}
        return base

    def atom(self, depth):
        token = self.token()
        if token.kind == "name":
            return {"kind": "name", "at": self.take("name").at, "parts": [], "name": token.text}
        if self.maybe(b"all"):
            return {"kind": "all", "at": token.at, "parts": [], "number": self.number()}
        if self.maybe(b"["):
            terms = [self.term(bool(self.maybe(b"-")))]
            while not self.sees(b"]"):
                terms.append(self.term(self.take(None, b"+", b"-", b"]").text == b"-"))
            self.sign(b"]")
            return {"kind": "bracket", "at": token.at, "parts": [], "terms": terms}
        if self.sees(b"(") and depth == MOST_DEPTH:
            raise Refused(token.at, "TooDeep")
        self.sign(b"(")
        inner = self.expr(depth + 1)
        self.sign(b")")
        return inner

    def exponent(self):
        return self.number() if self.maybe(b"^") else 1

    def integer(self):
        sign = -1 if self.maybe(b"-") else 1
        return sign * self.number()

    def scalar(self):
        """A coefficient's four numbers."""
        if self.maybe(b"("):
            quad = [self.integer()]
            for _ in range(3):
                self.sign(b",")
                quad.append(self.integer())
            self.sign(b")")
            return tuple(quad)
        factor = self.number() if self.token().kind == "number" else 1
        if self.maybe(b"i"):
            turns = 2
        else:
            turns = self.exponent() % 8 if self.maybe(b"w") else 0
        quad = [0, 0, 0, 0]
        quad[turns % 4] = -factor if turns >= 4 else factor
        return tuple(quad)

    def term(self, minus):
        at, quad, roots = self.token().at, (1, 0, 0, 0), 0
        if self.token().kind == "number" or self.sees(b"w", b"i", b"("):
            quad = self.scalar()
            if self.maybe(b"/"):
                self.sign(b"sqrt2")
                roots = self.exponent()
        if minus:
            quad = tuple(-number for number in quad)
        return (at, quad, roots, self.take("ket"))


# ---- what the items mean


def refuse_if(test, at, name):
    if test:
        raise Refused(at, name)


class Meaning:
    def __init__(self):
        self.names = {}
        self.nodes = 0

    def file(self, items):
        """The claims by name, and the sets by name."""
        for is_claim, name, cases in items:
            refuse_if(len(self.names) == MOST_NAMES, name.at, "TooManyNames")
            refuse_if(name.text in self.names, name.at, "TwiceNamed")
            for _, expr, _ in cases:
                self.measure(expr)
            for at, expr, _ in cases:
                refuse_if(expr["qubits"] != cases[0][1]["qubits"], at, "QubitCount")
            self.names[name.text] = (is_claim, [(expr, conditions) for _, expr, conditions in cases])
        claims = {name: cases for name, (is_claim, cases) in self.names.items() if is_claim}
        return claims, {name: cases[0][0] for name, (is_claim, cases) in self.names.items() if not is_claim}

    def count(self, at):
        refuse_if(self.nodes == MOST_NODES, at, "TooManyNodes")
        self.nodes += 1

    def measure(self, expr):
        """Finds the qubits of an expression, inner parts before outer ones and left ones before right ones."""
        # the parts on the left of a long chain are taken by a list and not by calls
        chain = [expr]
        while chain[-1]["parts"]:
            chain.append(chain[-1]["parts"][0])
        for part in reversed(chain):
            for right in part["parts"][1:]:
                self.measure(right)
            getattr(self, "of_" + part["kind"])(part)

    def counted(self, expr, qubits, refused):
        refuse_if(refused, expr["at"], "QubitCount")
        self.count(expr["at"])
        expr["qubits"] = qubits

    def of_name(self, expr):
        is_claim, cases = self.names.get(expr["name"], (True, None))
        refuse_if(is_claim, expr["at"], "UnknownSet")
        expr["qubits"] = cases[0][0]["qubits"]
        expr["of"] = cases[0][0]

    def of_all(self, expr):
        self.counted(expr, expr["number"], not 1 <= expr["number"] <= MOST_QUBITS)

    def of_power(self, expr):
        qubits = expr["parts"][0]["qubits"] * expr["number"]
        self.counted(expr, qubits, not 1 <= qubits <= MOST_QUBITS)

    def of_tensor(self, expr):
        qubits = sum(part["qubits"] for part in expr["parts"])
        self.counted(expr, qubits, qubits > MOST_QUBITS)

    def of_union(self, expr):
        left, right = (part["qubits"] for part in expr["parts"])
        self.counted(expr, left, left != right)

    def of_bracket(self, expr):
        length, kets = len(expr["terms"][0][3].text) - 2, set()
        for at, quad, roots, ket in expr["terms"]:
            refuse_if(roots > MOST_ROOTS, at, "AmpTooWide")
            refuse_if(length > MOST_QUBITS, ket.at, "QubitCount")
            refuse_if(len(ket.text) - 2 != length, ket.at, "KetLength")
            refuse_if(ket.text in kets, ket.at, "RepeatedKet")
            self.count(ket.at)
            kets.add(ket.text)
        self.counted(expr, length, False)


def read(text):
    """The claims by name, each with its cases, each case an expression and its conditions; and the sets by name."""
    return Meaning().file(Reader(tokens(text)).file())
