"""A plain slow program that does what `autoq check` and `autoq replay` are to do, written from the definitions alone.

It shares nothing with the checker but the definitions: numbers are Python's, of any size; texts are cut by regular
expressions; a gate is computed entry by entry, and a world holds one vector for each state of its case. `answers` gives what
may be printed for two texts, each with its status, and `replayed` what is printed for a replay. `broken` plays all runs of a
program and knows nothing of obligations and worlds. Programs are read by language.py and set files by set_language.py, both
whole.
"""

import itertools
import math
import sys
from collections import namedtuple
from functools import reduce

import language
import set_language

LIMIT = 2**127
MOST_POWER = 2**32 - 1
MOST_STEPS = 20000000
# where more are enough, the lists are too long
MOST_WORK = 2**26
MOST_OBLIGATIONS = 1000
# statements of all fragments
MOST_FRAGMENTS = 2000000
MOST_PROGRAM = 1048576
MOST_SETS = 4194304
ZERO = ((0, 0, 0, 0), 0)
ONE = ((1, 0, 0, 0), 0)
# names that are used in names nest as deep as there are names
sys.setrecursionlimit(20000)

# an entry is None for zero, or (j, e) for w^j / sqrt(2)^e
FIXED = {
    "id": (((0, 0), None), (None, (0, 0))),
    "x": ((None, (0, 0)), ((0, 0), None)),
    "y": ((None, (6, 0)), ((2, 0), None)),
    "z": (((0, 0), None), (None, (4, 0))),
    "h": (((0, 1), (0, 1)), ((0, 1), (4, 1))),
    "s": (((0, 0), None), (None, (2, 0))),
    "sdg": (((0, 0), None), (None, (6, 0))),
    "t": (((0, 0), None), (None, (1, 0))),
    "tdg": (((0, 0), None), (None, (7, 0))),
    "sx": (((1, 1), (7, 1)), ((7, 1), (1, 1))),
}
# cosine and sine of f * pi/4, for f from 0 to 7
COSINE = ((0, 0), (0, 1), None, (4, 1), (4, 0), (4, 1), None, (0, 1))
SINE = (None, (0, 1), (0, 0), (0, 1), None, (4, 1), (4, 0), (4, 1))


def on(entry, turns):
    return None if entry is None else ((entry[0] + turns) % 8, entry[1])


def matrix(name, eighths):
    """A gate's rows. `eighths` counts the angle in pi/4."""
    if name == "p":
        return ((0, 0), None), (None, (eighths % 8, 0))
    if name in FIXED:
        return FIXED[name]
    half = eighths // 2 % 8
    if name == "rz":
        return (((8 - half) % 8, 0), None), (None, (half, 0))
    if name == "rx":
        return (COSINE[half], on(SINE[half], 6)), (on(SINE[half], 6), COSINE[half])
    return (COSINE[half], on(SINE[half], 4)), (SINE[half], COSINE[half])


class Wide(Exception):
    """A sum or a quotient doesn't fit."""


def in_range(coefficients):
    return all(abs(c) < LIMIT for c in coefficients)


def fitting(coefficients):
    if not in_range(coefficients):
        raise Wide
    return coefficients


def times_root(quad):
    a, b, c, d = quad
    return (b - d, a + c, b + d, c - a)


def lowest(quad, power):
    if not any(quad):
        return ZERO
    while power > 0 and (quad[0] - quad[2]) % 2 == 0 and (quad[1] - quad[3]) % 2 == 0:
        a, b, c, d = quad
        quad = ((b - d) // 2, (a + c) // 2, (b + d) // 2, (c - a) // 2)
        power -= 1
    return (quad, power)


def over_power(amplitude, power):
    quad = amplitude[0]
    for _ in range(power - amplitude[1]):
        quad = fitting(times_root(quad))
    return quad


def plus(left, right):
    if left == ZERO:
        return right
    if right == ZERO:
        return left
    power = max(left[1], right[1])
    pairs = zip(over_power(left, power), over_power(right, power))
    return lowest(fitting(tuple(x + y for x, y in pairs)), power)


def rows_of_product(left, right):
    """For each coefficient of a product the four numbers that it is the sum of, in order."""
    (a, b, c, d), (e, f, g, h) = left[0], right[0]
    return (
        (a * e, -b * h, -c * g, -d * f),
        (a * f, b * e, -c * h, -d * g),
        (a * g, b * f, c * e, -d * h),
        (a * h, b * g, c * f, d * e),
    )


def times(left, right):
    """The product, whether it fits or not."""
    if left == ZERO or right == ZERO:
        return ZERO
    return lowest(tuple(sum(row) for row in rows_of_product(left, right)), left[1] + right[1])


def product_fits(left, right):
    if left == ZERO or right == ZERO:
        return True
    rows = rows_of_product(left, right)
    numbers = [number for row in rows for number in row]
    sums = [sum(row[: count + 1]) for row in rows for count in range(4)]
    return in_range(numbers) and in_range(sums) and left[1] + right[1] <= MOST_POWER


def turned(amplitude, count):
    quad = amplitude[0]
    for _ in range(count):
        quad = (-quad[3], quad[0], quad[1], quad[2])
    return (quad, amplitude[1])


def term(entry, amplitude):
    if entry is None:
        return ZERO
    amplitude = turned(amplitude, entry[0])
    for _ in range(entry[1]):
        amplitude = lowest(amplitude[0], amplitude[1] + 1)
        if amplitude[1] > MOST_POWER:
            raise Wide
    return amplitude


def after(vector, qubits, name, eighths, controls, target):
    """The vector after a gate."""
    rows = matrix(name, eighths)
    weight = 1 << (qubits - 1 - target)
    new = list(vector)
    for x in range(1 << qubits):
        if all((x >> (qubits - 1 - control)) & 1 for control in controls):
            row = rows[1 if x & weight else 0]
            new[x] = plus(term(row[0], vector[x & ~weight]), term(row[1], vector[x | weight]))
    return new


def projected(vector, qubits, qubit, outcome):
    """The amplitudes at the kets in which the qubit is the outcome, and zero elsewhere."""
    shift = qubits - 1 - qubit
    return [amplitude if (x >> shift) & 1 == outcome else ZERO for x, amplitude in enumerate(vector)]


def flipped(vector, qubits, qubit):
    return after(vector, qubits, "x", 0, [], qubit)


def is_zero(vector):
    return all(amplitude == ZERO for amplitude in vector)


# ---- the vectors that an expression lists


def entries_of(qubits, amplitudes):
    """The vector with these amplitudes by their places, and zero elsewhere."""
    vector = [ZERO] * (1 << qubits)
    for place, amplitude in amplitudes:
        vector[place] = amplitude
    return vector


def tensor(left, right):
    """Two lists and whether all numbers in them fit, put together."""
    found = [[times(a, b) for a in first for b in second] for first in left[0] for second in right[0]]
    pairs = {(a, b) for first in left[0] for second in right[0] for a in set(first) for b in set(second)}
    return found, left[1] and right[1] and all(product_fits(a, b) for a, b in pairs)


def vectors(expr):
    """The vectors that an expression lists, and whether each product in it fits."""
    kind, parts = expr["kind"], expr["parts"]
    if kind == "name":
        return vectors(expr["of"])
    if kind == "bracket":
        terms = [(int(ket.text[1:-1], 2), lowest(quad, roots)) for _, quad, roots, ket in expr["terms"]]
        return [entries_of(expr["qubits"], terms)], True
    if kind == "all":
        return [entries_of(expr["qubits"], [(place, ONE)]) for place in range(1 << expr["qubits"])], True
    if kind == "power":
        base = vectors(parts[0])
        return reduce(tensor, [base] * expr["number"])
    if kind == "tensor":
        return tensor(vectors(parts[0]), vectors(parts[1]))
    found = [vectors(part) for part in united(expr)]
    return [vector for listed, _ in found for vector in listed], all(fits for _, fits in found)


def how_many(expr):
    """How many vectors an expression lists."""
    if "many" not in expr:
        kind, parts = expr["kind"], expr["parts"]
        if kind == "name":
            expr["many"] = how_many(expr["of"])
        elif kind == "power":
            expr["many"] = how_many(parts[0]) ** expr["number"]
        elif kind == "tensor":
            expr["many"] = how_many(parts[0]) * how_many(parts[1])
        elif kind == "union":
            expr["many"] = sum(how_many(part) for part in united(expr))
        else:
            expr["many"] = 1 if kind == "bracket" else 2 ** expr["qubits"]
    return expr["many"]


def united(expr):
    """The parts of a union and of the unions on its left, from the left to the right."""
    parts = []
    while expr["kind"] == "union":
        parts.append(expr["parts"][1])
        expr = expr["parts"][0]
    return [expr] + parts[::-1]


# ---- how many steps are enough


def size(expr):
    """The choices of an expression, one number for each qubit, and its nodes with names written out."""
    if "size" in expr:
        return expr["size"]
    kind, parts = expr["kind"], expr["parts"]
    if kind == "name":
        found = size(expr["of"])
    elif kind == "bracket":
        found = [1] * expr["qubits"], 1 + len(expr["terms"])
    elif kind == "all":
        found = [2] * expr["qubits"], 1
    elif kind == "power":
        shape, nodes = size(parts[0])
        found = shape * expr["number"], nodes + expr["number"]
    elif kind == "tensor":
        (left, first), (right, second) = size(parts[0]), size(parts[1])
        found = left + right, 1 + first + second
    else:
        found = size_of_union(united(expr))
    expr["size"] = found
    return found


def size_of_union(parts):
    shape, nodes = size(parts[0])
    for part in parts[1:]:
        other, more = size(part)
        shape = [shape[0] + other[0]] + [max(pair) for pair in zip(shape[1:], other[1:])]
        nodes += more + 1
    return shape, nodes


def product(numbers):
    found = 1
    for number in numbers:
        found *= number
    return found


def bodies(statement):
    """The bodies of a branch or a loop."""
    return {"if": statement[3:], "while": statement[5:]}.get(statement[0], ())


def inside(body):
    """All statements of a body, those in branches and loops too."""
    for statement in body:
        yield statement
        for part in bodies(statement):
            yield from inside(part)


def enough(qubits, owed):
    """The steps that are enough for an obligation."""
    statements = list(inside(owed.fragment))
    decisions = sum(statement[0] in ("measure", "reset") for statement in statements)
    bits = {statement[1] for statement in statements if statement[0] in ("if", "assume")}
    bits |= {bit for bit, _ in owed.given}
    bits |= {bit for _, conditions in owed.source + owed.goal for bit, _ in conditions}
    words = [sum(product(size(expr)[0]) for expr, _ in cases) for cases in (owed.source, owed.goal)]
    weights = sum(size(expr)[1] * product(size(expr)[0]) for expr, _ in owed.source + owed.goal)
    entries = 2 ** (qubits + 1)
    worlds = 2 ** (decisions + len(bits))
    return 8 * (worlds * words[0] * entries * (len(statements) + 1 + words[1]) + entries * weights)


# ---- claims


class TooMuch(Exception):
    """So many vectors and worlds aren't listed."""


class TextRefused(Exception):
    """A text is refused by this line."""


def refused_claim(claim, name):
    return TextRefused("refused: claim %s: %s\n" % (claim, name))


def bit_of(registers, name, index):
    """The number of a bit, or nothing where the program has no such bit."""
    if name not in registers:
        return None
    size, bits = registers[name]
    if index is None:
        return bits[0] if len(bits) == 1 else None
    return bits[index] if size is not None and index < size else None


def bound(claim, cases, qubits, registers):
    """The cases of a claim, with the bits of the program that they name."""
    found = []
    for expr, conditions in cases:
        if expr["qubits"] != qubits:
            raise refused_claim(claim, "QubitsDiffer")
        bits = [(bit_of(registers, name, index), value) for name, index, value in conditions]
        if any(bit is None for bit, _ in bits):
            raise refused_claim(claim, "BitUnknown")
        found.append((expr, bits))
    return found


def asked(program, claims):
    """The bound cases of each claim that is asked for, by its name."""
    names = [b"pre", b"post"] + program.claims
    for name in names:
        if name not in claims:
            raise refused_claim(name.decode(), "UnknownClaim")
    return {name: bound(name.decode(), claims[name], program.qubits, program.registers) for name in names}


def is_met(conditions, bits):
    return all(bits[bit] == value for bit, value in conditions)


def is_multiple(left, right):
    """Whether a nonzero vector is one state with another: told by products with the entries at the pivot."""
    places = [x for x in range(len(left)) if left[x] != ZERO or right[x] != ZERO]
    pivot = places[0]
    for x in places:
        if (left[x] == ZERO) != (right[x] == ZERO):
            return False
        if times(left[x], right[pivot]) != times(left[pivot], right[x]):
            return False
    return True


# ---- what a program owes

# From each state of the source's cases, with bits that meet the given conditions and are all 0 where it is a start, the fragment
# is to end in the goal. Given is a list of one guard or none.
Obligation = namedtuple("Obligation", "start source given fragment kind line goal")


def has_cut(statement):
    return statement[0] in ("assert", "while") or any(has_cut(inner) for part in bodies(statement) for inner in part)


def first_of(rest):
    """The first statement of what is left, and what is left behind it. What is left is a body, a place in it and what comes
    behind it, or nothing."""
    while rest is not None:
        body, place, behind = rest
        if place < len(body):
            return body[place], (body, place + 1, behind)
        rest = behind
    return None, None


def obligations(body, claims):
    """What a program owes, in order. What has been found out of a path: where it began, its fragment so far, what is left of it
    and its goal. Paths that wait stand in order from the end of the list."""
    found, weight = [], 0
    waiting = [((True, claims[b"pre"], []), [], (body, 0, None), ("post", 0, claims[b"post"]))]
    while waiting:
        begun, fragment, rest, goal = waiting.pop()
        while True:
            statement, rest = first_of(rest)
            if statement is not None and not has_cut(statement):
                fragment.append(statement)
                continue
            if statement is not None and statement[0] == "if":
                bit, value, yes, no = statement[1:]
                waiting.append((begun, fragment + [("assume", bit, 1 - value)], (no, 0, rest), goal))
                fragment, rest = fragment + [("assume", bit, int(value))], (yes, 0, rest)
                continue
            reached = goal
            if statement is not None:
                claim, line = statement[-2:] if statement[0] == "assert" else statement[3:5]
                reached = ("assert" if statement[0] == "assert" else "entry", line, claims[claim])
            found.append(Obligation(*begun, fragment, *reached))
            weight += sum(1 for _ in inside(fragment))
            if len(found) > MOST_OBLIGATIONS or weight > MOST_FRAGMENTS:
                raise TextRefused("refused: TooManyObligations\n")
            if statement is None:
                break
            fragment, begun = [], (False, claims[claim], [])
            if statement[0] == "while":
                bit, value = statement[1:3]
                waiting.append(((False, claims[claim], [(bit, 1 - value)]), [], rest, goal))
                begun = (False, claims[claim], [(bit, int(value))])
                rest, goal = (statement[5], 0, None), ("keep", line, claims[claim])
    return found


# ---- worlds

# All runs of one case that have the same outcomes and decisions. A bit is None where it isn't known. There is an end for each
# state that the case lists; it is None where a gate on the run didn't fit, since no end is known then. A blocked world is one
# that an assumption left out.
World = namedtuple("World", "states start bits outcomes ends blocked")


def on_ends(world, play):
    """The world with each end played on."""
    ends = []
    for end in world.ends:
        try:
            ends.append(None if end is None else play(end))
        except Wide:
            ends.append(None)
    return world._replace(ends=ends)


def with_value(bits, bit, value):
    return bits[:bit] + [int(value)] + bits[bit + 1 :]


def with_outcome(world, qubits, qubit, outcome):
    world = world._replace(outcomes=world.outcomes + [outcome])
    return on_ends(world, lambda end: projected(end, qubits, qubit, outcome))


def measured(world, qubits, qubit, bit, outcome):
    world = with_outcome(world, qubits, qubit, outcome)
    if bit is None:
        return world
    return world._replace(bits=with_value(world.bits, bit, outcome))


def reset(world, qubits, qubit, outcome):
    world = with_outcome(world, qubits, qubit, outcome)
    return on_ends(world, lambda end: flipped(end, qubits, qubit)) if outcome else world


def knowing(world, bit, value):
    """The world in which a bit that wasn't known had the value at the start."""
    return world._replace(start=with_value(world.start, bit, value), bits=with_value(world.bits, bit, value))


def decided(world, bit):
    """The worlds in which the bit is known."""
    return [world] if world.bits[bit] is not None else [knowing(world, bit, 0), knowing(world, bit, 1)]


def assumed(world, bit, value):
    if world.bits[bit] is None:
        return knowing(world, bit, value)
    return world if world.bits[bit] == value else world._replace(blocked=True)


def spread(world, qubits, statement):
    """What a statement makes of a world: several worlds where it takes an outcome or decides a bit, 0 before 1."""
    kind, parts = statement[0], statement[1:]
    if world.blocked:
        return [world]
    if kind == "gate":
        return [on_ends(world, lambda end: after(end, qubits, *parts))]
    if kind == "measure":
        return [measured(world, qubits, *parts, outcome) for outcome in (0, 1)]
    if kind == "reset":
        return [reset(world, qubits, *parts, outcome) for outcome in (0, 1)]
    if kind == "assume":
        return [assumed(world, *parts)]
    bit, value, yes, no = parts
    return [new for old in decided(world, bit) for new in spread_all(old, qubits, yes if old.bits[bit] == value else no)]


def spread_all(world, qubits, body):
    worlds = [world]
    for statement in body:
        worlds = [new for old in worlds for new in spread(old, qubits, statement)]
    return worlds


def first_world(bits, start, listed, conditions):
    """The world from which a case's runs begin, or nothing where its conditions contradict each other or the start."""
    known = [0 if start else None] * bits
    for bit, value in conditions:
        if known[bit] not in (None, value):
            return None
        known[bit] = int(value)
    return World(listed, known, known, [], listed, False)


def worlds_of(bits, qubits, owed, source):
    """In order of the cases, and then of decisions. The source has the listed states of each case."""
    worlds = []
    for listed, conditions in source:
        first = first_world(bits, owed.start, listed, conditions + owed.given)
        worlds += spread_all(first, qubits, owed.fragment) if first else []
    for bit in sorted({bit for _, conditions in owed.goal for bit, _ in conditions}):
        worlds = [new for old in worlds for new in (decided(old, bit) if not old.blocked else [old])]
    return worlds


def worlds_from_start(program, listed):
    """The worlds at the end of a program without cuts, from listed states."""
    owed = Obligation(True, [], [], program.body, "post", 0, [])
    return worlds_of(count_bits(program.registers), program.qubits, owed, [(listed, [])])


def escape(worlds, goal):
    """The first world in which an end escapes the goal, with the first state that has such an end; or nothing. It raises Wide
    where an end before that isn't known."""
    for world in worlds:
        goals = [vector for listed, conditions in goal if is_met(conditions, world.bits) for vector in listed]
        for state, end in zip(world.states, world.ends):
            if end is None:
                raise Wide
            if not is_zero(end) and not any(is_multiple(end, vector) for vector in goals):
                return world, state, end
    return None


def has_wide_comparison(world, goal):
    """An entry of some end times an entry of some goal for its bits doesn't fit."""
    lefts = {entry for end in world.ends if end is not None for entry in end}
    goals = [listed for listed, conditions in goal if is_met(conditions, world.bits)]
    rights = {entry for listed in goals for vector in listed for entry in vector}
    return not all(product_fits(left, right) for left in lefts for right in rights)


# ---- what is printed


def digits(bits):
    return "".join(str(int(bit)) for bit in bits) or "-"


def entries(label, qubits, vector):
    lines = ""
    for x, (quad, power) in enumerate(vector):
        if any(quad):
            lines += "%s |%s> (%d,%d,%d,%d)/%d\n" % ((label, format(x, "0%db" % qubits)) + quad + (power,))
    return lines


def shown(qubits, world, state, end):
    """The lines of a refutation. A bit that was never known counts as 0."""
    start, bits = ([bit or 0 for bit in found] for found in (world.start, world.bits))
    return (
        "  bits %s\n" % digits(start)
        + entries("  state", qubits, state)
        + "  outcomes %s\n  end bits %s\n" % (digits(world.outcomes), digits(bits))
        + entries("  end", qubits, end)
    )


def verdicts(bits, qubits, owed):
    """What a judge may say of an obligation: verified, refuted or gave up, and what is printed behind its head. Where the steps
    that are enough aren't allowed, it may give up for steps. Where some number of the obligation doesn't fit, it may give up for
    width; it needn't, where it knows better from numbers that fit."""
    most = enough(qubits, owed)
    if MOST_WORK < most:
        raise TooMuch
    gave_up = [("gave up", " steps\n")] if MOST_STEPS < most else []
    lists = [[(vectors(expr), conditions) for expr, conditions in cases] for cases in (owed.source, owed.goal)]
    is_wide = not all(fits for cases in lists for (_, fits), _ in cases)
    source, goal = ([(listed, conditions) for (listed, _), conditions in cases] for cases in lists)
    worlds = worlds_of(bits, qubits, owed, source)
    is_wide = is_wide or any(end is None for world in worlds for end in world.ends)
    worlds = [world for world in worlds if not world.blocked]
    is_wide = is_wide or any(has_wide_comparison(world, goal) for world in worlds)
    found = gave_up + ([("gave up", " width\n")] if is_wide else [])
    try:
        first = escape(worlds, goal)
    except Wide:
        return found
    if first is None:
        return found + [("verified", "\n")]
    return found + [("refuted", "\n" + shown(qubits, *first))]


def head(number, owed):
    return "%d post: " % number if owed.kind == "post" else "%d %s line %d: " % (number, owed.kind, owed.line)


def report(owed, said):
    """A report and its status."""
    text = "".join(head(number, one) + kind + lines for number, (one, (kind, lines)) in enumerate(zip(owed, said), 1))
    counts = [sum(kind == wanted for kind, _ in said) for wanted in ("verified", "refuted", "gave up")]
    return text + "verified %d, refuted %d, gave up %d\n" % tuple(counts), 1 if counts[1] else 2 if counts[2] else 0


def read_program(text):
    if len(text) > MOST_PROGRAM:
        raise TextRefused("refused: program: TooLong\n")
    try:
        return language.read(text)
    except language.Refused as refused:
        raise TextRefused("refused: program %s\n" % refused.line)


def read_sets(text):
    """The claims and the sets, each by name."""
    if len(text) > MOST_SETS:
        raise TextRefused("refused: sets: TooLong\n")
    try:
        return set_language.read(text)
    except set_language.Refused as refused:
        raise TextRefused("refused: sets %s\n" % refused.line(text))


def count_bits(registers):
    return sum(len(bits) for _, bits in registers.values())


def answers(program, sets):
    """What may be printed by `check` for two texts, each with its status; there is one, but where numbers don't fit or the steps
    that are enough aren't allowed. It raises TooMuch where that is too much for lists."""
    try:
        read = read_program(program)
        claims = asked(read, read_sets(sets)[0])
        owed = obligations(read.body, claims)
    except TextRefused as refused:
        return [(str(refused), 3)]
    bits = count_bits(read.registers)
    return [report(owed, said) for said in itertools.product(*[verdicts(bits, read.qubits, one) for one in owed])]


# ---- replay


class ReplayRefused(Exception):
    """The first cause for which a run isn't played to its end."""


def replay(qubits, body, bits, vector, outcomes):
    """The bits, the vector and the outcomes that are left, after the body was played."""
    for statement in body:
        kind, parts = statement[0], statement[1:]
        if kind == "gate":
            try:
                vector = after(vector, qubits, *parts)
            except Wide:
                raise ReplayRefused("Wide")
        elif kind in ("measure", "reset"):
            if not outcomes:
                raise ReplayRefused("ShortOutcomes")
            outcome, outcomes = outcomes[0], outcomes[1:]
            vector = projected(vector, qubits, parts[0], outcome)
            if is_zero(vector):
                raise ReplayRefused("Impossible")
            if kind == "reset" and outcome:
                vector = flipped(vector, qubits, parts[0])
            if kind == "measure" and parts[1] is not None:
                bits = bits[: parts[1]] + [outcome] + bits[parts[1] + 1 :]
        elif kind == "if":
            bit, value, yes, no = parts
            bits, vector, outcomes = replay(qubits, yes if bits[bit] == value else no, bits, vector, outcomes)
    return bits, vector, outcomes


def one_vector(sets, name, qubits):
    """The vector of a set, which is to be its only one."""
    found = "refused: set %s: %%s\n" % name
    if name.encode() not in sets:
        raise TextRefused(found % "UnknownSet")
    expr = sets[name.encode()]
    if expr["qubits"] != qubits:
        raise TextRefused(found % "QubitsDiffer")
    if how_many(expr) != 1:
        raise TextRefused(found % "NotOne")
    listed, fits = vectors(expr)
    if not fits:
        raise TextRefused(found % "Wide")
    return listed[0]


def whole_replay(qubits, bits, body, vector, text):
    """The bits and the vector at the end."""
    if set(text) - set("01"):
        raise ReplayRefused("BadOutcomes")
    if any(statement[0] == "while" for statement in inside(body)):
        raise ReplayRefused("NotLoopFree")
    bits, vector, left = replay(qubits, body, [0] * bits, vector, [int(digit) for digit in text])
    if left:
        raise ReplayRefused("LongOutcomes")
    return bits, vector


def replayed(program, sets, name, outcomes=""):
    """What is printed by `replay` for two texts, the name of a set and the outcomes, and the status."""
    try:
        read = read_program(program)
        vector = one_vector(read_sets(sets)[1], name, read.qubits)
        bits, end = whole_replay(read.qubits, count_bits(read.registers), read.body, vector, outcomes)
    except TextRefused as refused:
        return str(refused), 3
    except ReplayRefused as refused:
        return "refused: replay: %s\n" % refused, 3
    return "bits %s\n" % digits(bits) + entries("end", read.qubits, end), 0


# ---- all runs, with all outcomes and some turns of loops; nothing of worlds and obligations is used here


def multiplied(left, right):
    return tuple(sum(row) for row in rows_of_product((left, 0), (right, 0)))


def conjugate(quad, power):
    """What a number becomes where w is replaced by a power of w, which is odd."""
    found = [0] * 4
    for place, coefficient in enumerate(quad):
        at = place * power % 8
        found[at % 4] += -coefficient if at >= 4 else coefficient
    return tuple(found)


def primitive(vector):
    """The multiple of a nonzero vector that is the same for all its multiples: its first entry that isn't zero is a natural
    number, all entries are sums of powers of w with whole coefficients, and these have no common divisor."""
    most = max(power for quad, power in vector)
    quads = []
    for quad, power in vector:
        for _ in range(most - power if any(quad) else 0):
            quad = times_root(quad)
        quads.append(quad)
    pivot = next(quad for quad in quads if any(quad))
    others = reduce(multiplied, [conjugate(pivot, power) for power in (3, 5, 7)])
    quads = [multiplied(quad, others) for quad in quads]
    divisor = math.gcd(*(number for quad in quads for number in quad))
    divisor = divisor if multiplied(pivot, others)[0] > 0 else -divisor
    return tuple((tuple(number // divisor for number in quad), 0) for quad in quads)


# the bits, the vector in its primitive form, and the turns that are left
State = namedtuple("State", "bits vector turns")


def outcomes_of(state, qubits, qubit):
    """What is left of a state by each outcome that happens."""
    for outcome in (0, 1):
        vector = projected(state.vector, qubits, qubit, outcome)
        if not is_zero(vector):
            yield outcome, state._replace(vector=primitive(vector))


def with_stored(state, bit, outcome):
    return state if bit is None else state._replace(bits=state.bits[:bit] + (outcome,) + state.bits[bit + 1 :])


def with_flip(state, qubits, qubit, outcome):
    return state._replace(vector=primitive(flipped(state.vector, qubits, qubit))) if outcome else state


def played_on(state, qubits, statement, visit):
    """The states behind a statement. Claims that are passed are told to `visit`."""
    kind, parts = statement[0], statement[1:]
    if kind == "gate":
        return {state._replace(vector=primitive(after(state.vector, qubits, *parts)))}
    if kind == "measure":
        return {with_stored(new, parts[1], outcome) for outcome, new in outcomes_of(state, qubits, parts[0])}
    if kind == "reset":
        return {with_flip(new, qubits, parts[0], outcome) for outcome, new in outcomes_of(state, qubits, parts[0])}
    if kind == "assert":
        visit(parts[0], state)
        return {state}
    bit, value = parts[:2]
    if kind == "if":
        return play_all({state}, qubits, parts[2] if state.bits[bit] == value else parts[3], visit)
    return play_loop(state, qubits, statement, visit)


def play_loop(state, qubits, statement, visit):
    bit, value, claim, _, body = statement[1:]
    going, ended = {state}, set()
    while going:
        for found in going:
            visit(claim, found)
        ended |= {found for found in going if found.bits[bit] != value}
        turning = {found._replace(turns=found.turns - 1) for found in going if found.bits[bit] == value and found.turns > 0}
        going = play_all(turning, qubits, body, visit)
    return ended


def play_all(states, qubits, body, visit):
    for statement in body:
        states = {new for old in states for new in played_on(old, qubits, statement, visit)}
    return states


def play_program(program, listed, turns, visit):
    """Plays all runs from the listed states with at most so many turns of loops. What they pass and their ends are told."""
    bits = (0,) * count_bits(program.registers)
    starts = {State(bits, primitive(vector), turns) for vector in listed if not is_zero(vector)}
    for state in play_all(starts, program.qubits, program.body, visit):
        visit(b"post", state)


class Broken(Exception):
    """A claim doesn't hold for a state that passes it."""


def broken(program, sets, turns):
    """The first claim found that some run breaks, of two texts that are accepted; or nothing."""
    program = read_program(program)
    claims = asked(program, read_sets(sets)[0])
    lists = {name: [(vectors(expr)[0], conditions) for expr, conditions in cases] for name, cases in claims.items()}
    zeros = [0] * count_bits(program.registers)
    start = [vector for listed, conditions in lists[b"pre"] if is_met(conditions, zeros) for vector in listed]

    def visit(name, state):
        allowed = [vector for listed, conditions in lists[name] if is_met(conditions, state.bits) for vector in listed]
        if state.vector not in {primitive(vector) for vector in allowed if not is_zero(vector)}:
            raise Broken(name.decode())

    try:
        play_program(program, start, turns, visit)
    except Broken as found:
        return str(found)
    return None
