"""Small texts that are drawn at random, the same at each run, to compare the program with the plain one."""

import random

import language
import plain
import set_language
from language import ANGLED, OPERANDS

SIGNS = (" + ", " - ")
HALF_TURNS = ("0", "-0", "pi", "-pi", "pi/2", "-pi/2", "3*pi/2", "-3*\u03c0/2", "2*pi/4", "7*pi", "1000000*pi/2", "-999999*pi/2")
ANGLES = HALF_TURNS + ("pi/4", "-pi/4", "3*pi/4", "-5*\u03c0/4", "1000000*pi/4", "-999999*pi/4")
# angles that are refused, and one that is refused for some gates
BAD_ANGLES = ("1", "pi/3", "pi/0", "1000001*pi", "pi/4")
# names that may be declared; some are those of gates
NAMES = ("q", "r", "_1", "x", "Q2", "measured", "p")


def drawn_spot(draw, registers, whole):
    name, size = draw.choice(registers)
    if size is None or whole and draw.randrange(3) == 0:
        return name
    return "%s[%d]" % (name, draw.randrange(size))


def qubits_of(spot, registers):
    """The qubits that a spot names, as pairs of a register's name and an index."""
    name, _, index = spot.rstrip("]").partition("[")
    size = dict(registers)[name]
    return [(name, int(index))] if index else [(name, at) for at in range(size or 1)]


def fits_together(spots, registers):
    sizes = {dict(registers)[spot] for spot in spots if "[" not in spot and dict(registers)[spot] is not None}
    named = [qubits_of(spot, registers) for spot in spots]
    disjoint = len({qubit for found in named for qubit in found}) == sum(len(found) for found in named)
    return len(sizes) <= 1 and disjoint


def drawn_call(draw, registers):
    """A call that is taken, or nothing where none is found soon."""
    for _ in range(20):
        name = draw.choice(sorted(OPERANDS) + ["h", "h", "t", "x"])
        spots = [drawn_spot(draw, registers, True) for _ in range(OPERANDS[name])]
        if fits_together(spots, registers):
            angle = "(%s)" % draw.choice(HALF_TURNS if name in ("rx", "ry", "rz") else ANGLES) if name in ANGLED else ""
            return "%s%s %s;" % (name, angle, ", ".join(spots))
    return ""


def inverse(call):
    """Calls that undo a call, where its instances may be played in any order."""
    name, _, rest = call.partition(" ")
    name, _, angle = name.partition("(")
    if angle:
        return "%s(%s %s" % (name, angle[1:] if angle[0] == "-" else "-" + angle, rest)
    if name == "sx":
        return "\n".join([call] * 3)
    return {"s": "sdg", "sdg": "s", "t": "tdg", "tdg": "t"}.get(name, name) + " " + rest


def doubtful_spot(draw, registers):
    """A spot that may be none, or of another kind, or past the end."""
    name = draw.choice(registers)[0]
    good = [drawn_spot(draw, registers, True) for _ in range(2)]
    return draw.choice(good + [name, name + "[1]", name + "[2]", "b", "b[0]", "none"])


def drawn_fault(draw, registers):
    """A statement that is refused, or one of a kind that may not be built, or now and then a good one."""
    name = draw.choice(sorted(OPERANDS) * 2 + ["u3", "cu"])
    spots = [doubtful_spot(draw, registers) for _ in range(draw.choice((OPERANDS.get(name, 1), OPERANDS.get(name, 1), 1, 2, 3)))]
    angle = "(%s)" % draw.choice(ANGLES + BAD_ANGLES)
    if (name in ANGLED) == (draw.randrange(8) == 0):
        angle = ""
    call = "%s%s %s;" % (name, angle, ", ".join(spots))
    return draw.choice(
        (
            call,
            call,
            call,
            "%s[%d] %s;" % (draw.choice(("qubit", "bit")), draw.choice((0, 1, 2, 17, 33)), draw.choice(NAMES + ("b",))),
            "b[0] = measure %s;" % spots[0],
            "measure %s -> b;" % spots[0],
            "barrier %s;" % ", ".join(spots),
            "reset %s;" % spots[0],
            "if (b[0]) { %s } else bit e;" % call,
            "while (%s == 1) %s" % (draw.choice((spots[0], "b")), call),
            "@invariant a\nwhile (b == 1) %s" % call,
            "@%s %s\n%s" % (draw.choice(("invariant", "assert", "other")), draw.choice(("a", "", "a b", "1")), call),
        )
    )


def drawn_registers(draw):
    """Names and sizes of registers of at most four qubits; a size may be missing."""
    found, left = [], 4
    for name in draw.sample(NAMES, draw.randrange(1, 4)):
        size = draw.choice((None, 1, 2, 3))
        if (size or 1) <= left:
            found.append((name, size))
            left -= size or 1
    return found


def declared(draw, word, old, name, size):
    if draw.randrange(3) == 0:
        return "%s %s%s;" % (old, name, "" if size is None else "[%d]" % size)
    return "%s%s %s;" % (word, "" if size is None else "[%d]" % size, name)


def drawn_program(draw):
    """A program's text, how many qubits it has where it is a good one, and how its bits are declared."""
    registers = drawn_registers(draw)
    lines = [declared(draw, "qubit", "qreg", name, size) for name, size in registers]
    bits = draw.choice((0, 0, 0, None, 1, 3))
    lines += [] if bits == 0 else [declared(draw, "bit", "creg", "b", bits)]
    calls = [call for call in (drawn_call(draw, registers) for _ in range(draw.randrange(0, 10))) if call]
    lines += calls + ([inverse(call) for call in reversed(calls)] if draw.randrange(3) == 0 else [])
    if draw.randrange(4) == 0:
        lines.insert(draw.randrange(len(lines) + 1), drawn_fault(draw, registers))
    note = "@other a note\nbarrier %s;" % registers[0][0]
    for text in ("// a comment", "/* a comment\nof lines */", "barrier;", note, "include 'stdgates.inc';"):
        if draw.randrange(6) == 0:
            lines.insert(draw.randrange(1, len(lines) + 1), text)
    head = draw.choice(("", "", "OPENQASM 3;\n", 'OPENQASM 3.0;\ninclude "stdgates.inc";\n'))
    return head + "\n".join(lines) + "\n", sum(size or 1 for name, size in registers), bits


def drawn_coefficient(draw):
    """A coefficient, which now and then is 0, or so large that a product doesn't fit."""
    number = str(draw.choice((0, 1, 2, 3, 7, 2**64, 2**127 - 1)))
    quad = "(%s)" % ", ".join(str(draw.randrange(-3, 4)) for _ in range(4))
    turn = draw.choice(("i", "w", "w^%d" % draw.randrange(20)))
    scalar = draw.choice((number, quad, turn, turn, draw.choice(("2", "3 ", "007")) + turn))
    return scalar + draw.choice(("", "", "/sqrt2", " / sqrt2^%d" % draw.randrange(5), "/sqrt2^4294967295"))


def drawn_bracket(draw, qubits):
    count = draw.randrange(1, min(4, 2**qubits) + 1)
    kets = draw.sample(range(2**qubits), count)
    text = draw.choice(("", "", "-"))
    for place, ket in enumerate(kets):
        text += draw.choice(SIGNS) if place else ""
        text += (drawn_coefficient(draw) + " " if draw.randrange(4) == 0 else "") + "|" + format(ket, "0%db" % qubits) + ">"
    return "[" + text + "]"


def drawn_set(draw, qubits, named, depth=0):
    """An expression on so many qubits. `named` has names of earlier sets with their qubits."""
    ways = ["bracket"] * 4 + ["all", "name", "paren"] + ["union"] * (2 if depth < 3 else 0)
    ways += ["tensor"] * 2 if qubits > 1 else []
    way = draw.choice(ways)
    if way == "name" and qubits in named.values():
        return draw.choice(sorted(name for name, size in named.items() if size == qubits))
    if way == "all":
        return "all %d" % qubits
    if way == "paren":
        divisor = draw.choice([part for part in range(1, qubits + 1) if qubits % part == 0])
        return "(%s)^%d" % (drawn_set(draw, divisor, named, depth + 1), qubits // divisor)
    if way == "union":
        return "(%s union %s)" % tuple(drawn_set(draw, qubits, named, depth + 1) for _ in range(2))
    if way == "tensor":
        left = draw.randrange(1, qubits)
        return "%s * %s" % (drawn_set(draw, left, named, depth + 1), drawn_set(draw, qubits - left, named, depth + 1))
    return drawn_bracket(draw, qubits)


def drawn_case(draw, qubits, bits, named):
    """A case, now and then with conditions, of which some name no bit of the program."""
    text = drawn_set(draw, qubits if draw.randrange(60) else qubits + 1, named)
    names = ["b" if bits in (None, 1) else "b[%d]" % draw.randrange(bits or 1)] * 12 + ["b", "b[3]", "c"]
    if draw.randrange(3) == 0 and (bits != 0 or draw.randrange(10) == 0):
        text += " when " + " and ".join("%s == %s" % (draw.choice(names), draw.choice(("0", "0", "1", "00"))) for _ in range(draw.randrange(1, 3)))
    return text


def drawn_sets(draw, qubits, bits):
    """The text of a set file for a program."""
    named, lines = {}, []
    for name in draw.sample(("zero", "_p", "w1", "Union", "post2"), draw.randrange(3)):
        size = draw.randrange(1, qubits + 1)
        lines.append("set %s = %s;" % (name, drawn_set(draw, size, named)))
        named[name] = size
    before = ", ".join(drawn_case(draw, qubits, bits, named) for _ in range(draw.choice((1, 1, 2))))
    # the same cases twice give a program without gates, or with gates that undo each other, a chance to be verified
    after = draw.choice((before, ", ".join(drawn_case(draw, qubits, bits, named) for _ in range(draw.choice((1, 2))))))
    claims = ["claim pre = %s;" % before, "claim post = %s;" % after]
    lines += draw.choice((claims, claims, claims[::-1]))
    if draw.randrange(6) == 0:
        lines.insert(draw.randrange(len(lines) + 1), draw.choice(("// a comment", "/* a\ncomment */", "claim x = all 1;", "set pre = all 1;", "set y = none;")))
    return "\n".join(lines) + "\n"


def spoiled(draw, text):
    """The text with one byte left out, doubled or changed."""
    at = draw.randrange(len(text))
    byte = draw.choice("q[];|+-x0 2(*/\"@{")
    return text[:at] + draw.choice(("", text[at] * 2, byte)) + text[at + 1 :]


def drawn_pair(seed):
    """A program's text and a set file's."""
    draw = random.Random(seed)
    program, qubits, bits = drawn_program(draw)
    sets = drawn_sets(draw, qubits, bits)
    if draw.randrange(6) == 0:
        program = spoiled(draw, program)
    if draw.randrange(6) == 0:
        sets = spoiled(draw, sets)
    return program.encode(), sets.encode()


# ---- programs that measure, reset and branch

MOST_OUTCOMES = 5
TESTS = ("%s", "!%s", "%s == 0", "%s == 1", "%s == true", "%s == false", "%s == 00")


def drawn_bit(draw, bits):
    return "b" if bits is None else "b[%d]" % draw.randrange(bits)


def drawn_measurement(draw, registers, bits):
    spot = drawn_spot(draw, registers, True)
    bit = drawn_bit(draw, bits)
    if "[" not in spot and dict(registers)[spot] is not None:
        bit = "b"
        if dict(registers)[spot] != bits:
            return "measure %s;" % spot
    return draw.choice(("%s = measure %s;" % (bit, spot), "measure %s -> %s;" % (spot, bit), "measure %s;" % spot))


def drawn_branch(draw, registers, bits, depth):
    test = draw.choice(TESTS) % drawn_bit(draw, bits)
    bodies = [[drawn_step(draw, registers, bits, depth + 1) for _ in range(draw.randrange(3))] for _ in range(2)]
    text = "if (%s) { %s }" % (test, " ".join(bodies[0]))
    return text + (" else { %s }" % " ".join(bodies[1]) if draw.randrange(2) else "")


def drawn_step(draw, registers, bits, depth=0):
    """A gate call, a measurement, a reset or a branch."""
    way = draw.randrange(10)
    if way < 5:
        return drawn_call(draw, registers) if way else "h %s;" % draw.choice(registers)[0]
    if way < 7:
        return drawn_measurement(draw, registers, bits)
    if way == 7:
        return "reset %s;" % drawn_spot(draw, registers, draw.randrange(4) == 0)
    return drawn_branch(draw, registers, bits, depth) if depth < 3 else "barrier;"


def drawn_dynamic_program(draw):
    """A program's text, its number of qubits, and how its bits are declared."""
    while True:
        registers = [pair for pair in drawn_registers(draw) if pair[1] != 3] or [("q", 2)]
        bits = draw.choice((None, 1, 2, 3))
        lines = [declared(draw, "qubit", "qreg", name, size) for name, size in registers]
        lines.append(declared(draw, "bit", "creg", "b", bits))
        lines += [drawn_step(draw, registers, bits) for _ in range(draw.randrange(2, 10))]
        text = "\n".join(lines) + "\n"
        if 0 < outcomes_of(text) <= MOST_OUTCOMES:
            return text, sum(size or 1 for name, size in registers), bits


def outcomes_of(text):
    """How many measurements and resets a program comes to."""
    return sum(statement[0] in ("measure", "reset") for statement in plain.inside(language.read(text.encode()).body))


def bracket_of(vector, qubits):
    terms = ["(%d,%d,%d,%d)/sqrt2^%d|%s>" % (quad + (power, format(x, "0%db" % qubits))) for x, (quad, power) in enumerate(vector) if any(quad)]
    return "[%s]" % " + ".join(terms)


def worlds_from(program, sets, name):
    """The worlds of a program from the vectors of a set."""
    found = language.read(program.encode())
    start = plain.vectors(set_language.read(sets.encode())[1][name.encode()])[0]
    return plain.worlds_from_start(found, start)


def cases_of_ends(draw, worlds, qubits, bits):
    """Cases in which the ends of the worlds are, each under the bits that it has; now and then one is wrong or left out."""
    names = ["b"] if bits is None else ["b[%d]" % place for place in range(bits)]
    found = []
    for world in worlds:
        asked = " and ".join("%s == %d" % pair for pair in zip(names, world.bits) if draw.randrange(10))
        for end in world.ends:
            if end is not None and not plain.is_zero(end):
                found.append(bracket_of(end, qubits) + (" when " + asked if asked else ""))
    found = sorted(set(found))
    draw.shuffle(found)
    if found and draw.randrange(3) == 0:
        found.pop()
    if found and draw.randrange(6) == 0:
        found[0] = found[0].replace(" == 0", " == 1", 1)
    return found


def drawn_dynamic_case(draw, qubits, bits):
    text = drawn_set(draw, qubits, {})
    if draw.randrange(3) == 0:
        text += " when " + " and ".join("%s == %d" % (drawn_bit(draw, bits), draw.randrange(2)) for _ in range(draw.randrange(1, 3)))
    return text


def drawn_outcomes(draw, worlds):
    """Outcomes for a replay: mostly such as can happen, or other digits, seldom with something else."""
    alive = [world.outcomes for world in worlds if not all(end is not None and plain.is_zero(end) for end in world.ends)]
    digits = draw.choice(alive) if alive and draw.randrange(4) else [draw.randrange(2) for _ in range(draw.randrange(MOST_OUTCOMES))]
    return plain.digits(digits).strip("-") + draw.choice(("",) * 20 + ("2",))


def drawn_dynamic(seed):
    """A program's text, a set file's, whose claims have conditions, and the outcomes for a replay from the set `start`."""
    draw = random.Random(seed)
    program, qubits, bits = drawn_dynamic_program(draw)
    start = draw.choice((drawn_bracket(draw, qubits),) * 4 + (drawn_set(draw, qubits, {}),))
    sets = "set start = %s;\nset more = %s;\n" % (start, drawn_set(draw, qubits, {}))
    cases = [name + (" when %s == 0" % drawn_bit(draw, bits) if draw.randrange(2) else "") for name in draw.choice((("start",), ("start", "more")))]
    worlds = [worlds_from(program, sets, name) for name in ("start", "more")]
    after = cases_of_ends(draw, [world for found in worlds[: len(cases)] for world in found], qubits, bits)
    if not after or len(after) > 12 or draw.randrange(4) == 0:
        after = [drawn_dynamic_case(draw, qubits, bits) for _ in range(draw.randrange(1, 4))]
    sets += "claim pre = %s;\nclaim post = %s;\n" % (", ".join(cases), ",\n  ".join(after))
    return program.encode(), sets.encode(), drawn_outcomes(draw, worlds[0])


# ---- programs that loop and assert

# turns of loops by which states at claims are found, and how many states a claim may have
MOST_TURNS = 6
MOST_STATES = 8
LOOP_GATES = ("h", "h", "x", "z", "s", "y", "cx", "cx", "t", "swap")


def drawn_loop_gate(draw, qubits):
    name = draw.choice(LOOP_GATES)
    spots = draw.sample(range(qubits), min(OPERANDS[name], qubits))
    return "%s %s;" % (name if len(spots) == OPERANDS[name] else "x", ", ".join("q[%d]" % spot for spot in spots))


class Loops:
    """Draws the text of a program with loops and assertions, whose claims have names and no meaning yet."""

    def __init__(self, draw):
        self.draw = draw
        self.qubits = draw.choice((1, 1, 2, 2, 3))
        self.bits = draw.choice((None, 1, 2, 2, 3))
        self.claims = 0

    def claim(self):
        """A new claim, or now and then one that is named already."""
        if self.claims == 0 or self.draw.randrange(6):
            self.claims += 1
            return "c%d" % self.claims
        return "c%d" % self.draw.randrange(1, self.claims + 1)

    def measurement(self):
        spot = "q[%d]" % self.draw.randrange(self.qubits)
        return "%s = measure %s;" % (drawn_bit(self.draw, self.bits), spot) if self.draw.randrange(4) else "reset %s;" % spot

    def body(self, depth, most):
        return "\n".join(self.step(depth) for _ in range(self.draw.randrange(1, most + 1)))

    def test(self):
        return self.draw.choice(TESTS) % drawn_bit(self.draw, self.bits)

    def step(self, depth):
        way = self.draw.randrange(12)
        if way < 5 or depth == 3:
            return drawn_loop_gate(self.draw, self.qubits)
        if way < 7:
            return self.measurement()
        if way == 7:
            return "@assert %s\n%s" % (self.claim(), self.step(depth))
        if way < 10:
            claim, test = self.claim(), self.test()
            return "@invariant %s\nwhile (%s) {\n%s\n}" % (claim, test, self.body(depth + 1, 3))
        text = "if (%s) {\n%s\n}" % (self.test(), self.body(depth + 1, 2))
        return text + (" else {\n%s\n}" % self.body(depth + 1, 2) if self.draw.randrange(2) else "")

    def text(self):
        bits = "bit b;" if self.bits is None else "bit[%d] b;" % self.bits
        return "qubit[%d] q;\n%s\n%s\n" % (self.qubits, bits, self.body(0, 6))


def drawn_start(draw, qubits):
    """A ket, or a sum of some with small coefficients."""
    kets = draw.sample(range(2**qubits), draw.choice((1, 1, 1, min(2, 2**qubits), min(3, 2**qubits))))
    return "[%s]" % " + ".join(draw.choice(("", "", "i", "w^5", "2")) + "|%s>" % format(ket, "0%db" % qubits) for ket in kets)


class TooMany(Exception):
    """A claim would have too many states."""


def states_at_claims(text, start):
    """For each claim the bits and vectors that pass it."""
    program = language.read(text.encode())
    found = {name: set() for name in program.claims + [b"post"]}

    def visit(name, state):
        found[name].add((state.bits, state.vector))
        if len(found[name]) > MOST_STATES:
            raise TooMany

    plain.play_program(program, start, MOST_TURNS, visit)
    return found


def spoiled_cases(draw, cases):
    """The cases with one of them left out, or one of its conditions, or one changed."""
    cases = list(cases)
    at = draw.randrange(len(cases))
    way = draw.randrange(3)
    if way == 0 and len(cases) > 1:
        cases.pop(at)
    elif way == 1:
        cases[at] = cases[at].split(" when ")[0]
    else:
        cases[at] = cases[at].replace("== 0", "== 1", 1) if "== 0" in cases[at] else cases[at].replace("== 1", "== 0", 1)
    return cases


def cases_of_states(draw, states, qubits, bits):
    """A claim's cases for the states, with all of their bits, or with some left out where that makes no difference."""
    names = ["b"] if bits is None else ["b[%d]" % place for place in range(bits)]
    free = [place for place in range(len(names)) if draw.randrange(2) and is_free(states, place)]
    found = set()
    for known, vector in states:
        asked = " and ".join("%s == %d" % (names[place], known[place]) for place in range(len(names)) if place not in free[:1])
        found.add(bracket_of(vector, qubits) + (" when " + asked if asked else ""))
    return draw.sample(sorted(found), len(found))


def is_free(states, place):
    """With each state there is the one that differs in this bit alone."""
    flip = lambda bits: bits[:place] + (1 - bits[place],) + bits[place + 1 :]
    return all((flip(bits), vector) in states for bits, vector in states)


def drawn_looped(seed):
    """The texts of a program with a loop or an assertion, and of a set file whose claims have the states that pass them."""
    draw = random.Random(1000003 * seed + 1)
    while True:
        loops = Loops(draw)
        text = loops.text()
        if loops.claims == 0 or outcomes_of(text) > MOST_OUTCOMES:
            continue
        start = drawn_start(draw, loops.qubits)
        try:
            listed = plain.vectors(set_language.read(("set a = %s;" % start).encode())[1][b"a"])[0]
            found = states_at_claims(text, listed)
            break
        except (TooMany, plain.Wide):
            continue
    lines = ["claim pre = %s;" % start]
    for name, states in found.items():
        # what no run passes is claimed of no state, or of any
        never = ["[0|%s>]" % ("0" * loops.qubits)] if draw.randrange(4) else [drawn_start(draw, loops.qubits)]
        cases = cases_of_states(draw, states, loops.qubits, loops.bits) if states else never
        if draw.randrange(4 * len(found)) == 0:
            cases = spoiled_cases(draw, cases)
        if draw.randrange(60):
            lines.append("claim %s = %s;" % (name.decode(), ",\n  ".join(cases)))
    return text.encode(), "\n".join(lines + [""]).encode()
