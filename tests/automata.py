"""What automata give is what lists of vectors give, on drawn texts: the vectors of sets, gates on them, the worlds of obligations
with the runs that end in them, and what is decided of an obligation. The program that compares them is made of the crates in a
scratch folder, and only run there: it has no proof."""

import os
import shutil
import subprocess
import tempfile

from drawn import drawn_dynamic, drawn_looped, drawn_pair

TOP = os.path.dirname(os.path.dirname(os.path.abspath(__file__)))
DRIVER = os.path.join(TOP, "tests", "automata_driver.txt")
SECONDS = 1800
DYNAMIC = 160
LOOPED = 110
PAIRS = 110
# so many cases are played in a run, which is not to take long
PART = 75
ENDS = ("same", "different", "unread", "unfinished")
# the crates that the driver names
CRATES = (
    "aq_ring aq_prog aq_plain aq_elab aq_sets aq_set_read aq_obligations aq_owing aq_store aq_gate_ops aq_set_build aq_symbolic"
    " aq_judge aq_world aq_worlds aq_plain_judge aq_report sqlite_items"
).split()
TELEPORTED = (
    b'OPENQASM 3.0;\ninclude "stdgates.inc";\nbit[2] c;\nqubit[3] q;\nh q[1];\ncx q[1], q[2];\ncx q[0], q[1];\nh q[0];\n'
    b"c[0] = measure q[0];\nc[1] = measure q[1];\nif (c[1]) {\n  x q[2];\n}\nif (c[0]) {\n  z q[2];\n}\n",
    b"set psi = [|0> + w|1>]; claim pre = psi * [|00>]; claim post = psi * all 2;",
)
KINDS = ("words of sets", "wide sets", "gates", "wide gates", "worlds", "wide fragments", "runs")
KINDS += ("obligations that hold", "obligations that don't", "obligations given up for width by both")
# at the least
WANTED = (3500, 6, 3500, 70, 1200, 20, 1700, 850, 200, 20)
# by only one of both
MOST_UNLIKE = 25


def below(lines, names):
    """The crates that these stand on, and they."""
    found, left = set(), list(names)
    while left:
        name = left.pop()
        if name in lines and name not in found:
            found.add(name)
            left += lines[name]
    return found


def make_crates(folder):
    """The crates that the driver stands on, and the driver."""
    with open(os.path.join(TOP, "crates.txt")) as file:
        text = [line.split("#")[0].strip() for line in file]
    lines = {line.split(":")[0]: line.split(":")[1].split() for line in text if line}
    needed = below(lines, CRATES)
    for name in needed:
        for part in ("src", "specs", "proofs"):
            source = os.path.join(TOP, "crates", name, part)
            if os.path.isdir(source):
                shutil.copytree(source, os.path.join(folder, "crates", name, part))
    driver = os.path.join(folder, "crates", "driver", "src")
    os.makedirs(driver)
    shutil.copy(DRIVER, os.path.join(driver, "main.rt"))
    shutil.copy(os.path.join(TOP, "HANDLES"), folder)
    with open(os.path.join(folder, "crates.txt"), "w") as file:
        for name in lines:
            if name in needed:
                file.write("%s: %s\n" % (name, " ".join(lines[name])))
        above = sorted(needed) + [name for name in CRATES if name not in needed]
        file.write("driver: %s\n" % " ".join(above))
    return os.path.join(folder, "crates", "driver")


def texts():
    """A teleportation, and drawn texts."""
    dynamic = [drawn_dynamic(seed)[:2] for seed in range(DYNAMIC)]
    return [TELEPORTED] + dynamic + [drawn_looped(seed) for seed in range(LOOPED)] + [drawn_pair(seed) for seed in range(PAIRS)]


def told(crate, texts_of_part):
    """What a run of the driver tells of each of these cases, and the end of all that was said."""
    cases = os.path.join(crate, "cases")
    with open(cases, "wb") as file:
        for program, sets in texts_of_part:
            file.write(program + b"\x01" + sets + b"\x02")
    done = subprocess.run(["rt", "try", "--", cases], cwd=crate, stdin=subprocess.DEVNULL, capture_output=True, timeout=SECONDS)
    lines = [line.split() for line in done.stdout.decode().splitlines()]
    return [line for line in lines if line and line[0] in ENDS], (done.stdout + done.stderr).decode()[-600:]


def compared():
    """For each case what is told of it, and the end of what was said where some aren't told of."""
    cases, lines = texts(), []
    with tempfile.TemporaryDirectory() as folder:
        crate = make_crates(folder)
        for start in range(0, len(cases), PART):
            found, said = told(crate, cases[start : start + PART])
            lines += found
            if len(lines) < min(start + PART, len(cases)):
                return lines, said
    return lines, ""


def found():
    """What is wrong with the cases: pairs of a name and what is wrong."""
    lines, said = compared()
    cases = 1 + DYNAMIC + LOOPED + PAIRS
    if len(lines) != cases:
        return [("the cases of automata", ["%d of %d were compared: %s" % (len(lines), cases, said)])]
    answers = []
    for number, line in enumerate(lines):
        answers.append(("automata, case %d" % number, [] if line[0] in ("same", "unread") else [line[0]]))
    # one world for each pair of outcomes, each with one state
    answers.append(("the worlds of a teleportation", [] if (lines[0][5], lines[0][7]) == ("4", "4") else [" ".join(lines[0])]))
    counts = [sum(int(line[place]) for line in lines) for place in range(1, len(lines[0]))]
    for kind, least, count in zip(KINDS, WANTED, counts):
        answers.append(("%s that were compared" % kind, [] if count >= least else ["only %d" % count]))
    answers.append(("obligations given up for width by one alone", [] if counts[-1] <= MOST_UNLIKE else ["%d" % counts[-1]]))
    return answers
