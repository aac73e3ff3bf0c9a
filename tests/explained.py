"""What the launcher explains on standard error: the cases, one at least for each name that the program has, and that
standard output and the status stay the program's own.

In a text of a case `PLACE` stands where the caret is to stand, and isn't a part of the text. Which line is shown, and where
the caret stands under it, is worked out from that.
"""

import os
import pty
import re
import shutil
import signal
import subprocess
import time

import refusals

TOP = os.path.dirname(os.path.dirname(os.path.abspath(__file__)))
PLACE = "‸"
SENTENCES, HELPS = refusals.explained()
WORDS = "check P S"
REGISTERS = "qubit[2] q; bit[2] c;\n"
CLAIMED = "qubit[2] q; bit[2] c; bit d;\n"
HALVED = "qubit[2] q; bit c; h q[0]; c = measure q[0]; cx q[0], q[1];\n"
ZERO = "set zero = [|00>];\n"
SECONDS = 60


def as_bytes(text):
    return text.encode() if isinstance(text, str) else text


# ---- cases: a key of explain/refusals.txt, the words, the program, the sets, and a part of the help

CASES = []


def case(key, program, sets="", words=WORDS, says=None):
    CASES.append((key, words, as_bytes(program), as_bytes(sets), says))


def of_program(name, program, says=None):
    case("program " + name, program, says=says)


def of_sets(name, sets, says=None):
    case("sets " + name, "qubit q;", sets, says=says)


def of_claims(name, sets, program=CLAIMED, says=None, words=WORDS):
    case("claim " + name, program, sets, says=says, words=words)


def of_set(name, sets, says=None):
    case("set " + name, "qubit[2] q;", sets, "replay P S --state zero", says)


def of_replay(name, outcomes, program=HALVED, sets=ZERO, says=None):
    words = "replay P S --state zero" + (" --outcomes " + outcomes if outcomes else "")
    case("replay " + name, program, sets, words, says)


of_program("TooLong", "//34567\n" * 131072 + "‸q")
of_program("NotUtf8", b"qubit q; " + PLACE.encode() + b"\xff")
of_program("BadByte", "qubit q;\nx q ‸#;", "a comment begins with //")
of_program("BadByte", "qubit[2] q;\n\tx\tq[0‸:1];", "a slice or a range isn't taken")
of_program("BadByte", "/* één */ ‸é q;")
of_program("OpenComment", "x q; ‸/* and")
of_program("OpenText", 'include ‸"stdgates.inc;')
of_program("LongNumber", "x q[‸1000000001];")
of_program("Unexpected", "qubit q; h q‸", "the text ends in the midst of a statement")
of_program("Unexpected", "qubit q; h q\n‸", "the text ends in the midst of a statement")
of_program("Unexpected", "qubit q;\nh q // one\n\n‸x q;", "maybe a `;` or a `,` is missing behind `q`")
of_program("Unexpected", "bit[3] c; qubit q;\nif (c == ‸5) x q;", "a test is against 0 or 1")
of_program("Unexpected", "qubit q; /* ( */ ‸; x q;", "a statement begins here")
of_program("Unexpected", 'include "stdgates.inc" /* ; */ ‸x q;', "a `;` is wanted behind the library")
of_program("Unexpected", "qubit q;\nu3(pi‸, 0, 0) q;", "an angle ends with `)`")
of_program("Unexpected", "rx(π‸*2) q;", "an angle ends with `)`")
of_program("NotTaken", "qubit q; ‸gate g a { }", "the gate's statements at each use")
of_program("NotTaken", "OPENQASM ‸2.0;", "the version is 3: write `OPENQASM 3.0;`")
of_program("NotTaken", "include ‸'a: b.inc';", "the library is `include \"stdgates.inc\";`")
of_program("TooDeep", "if(c)\n" * 65 + "\t‸x q;")
of_program("UnknownName", REGISTERS + "x ‸r;", "declared in this program: q[2], c[2]")
of_program("UnknownName", "x ‸q;", "declared in this program: none")
of_program("TwiceDeclared", REGISTERS + "bit ‸q;", "q[2], c[2], q")
of_program("EmptyRegister", REGISTERS + "bit[0] ‸d;")
of_program("IndexOut", "qubit s; // qubit t;\nx ‸s[0];", ": s")
of_program("SizeDiffers", REGISTERS + "if (‸c) x q;")
of_program("RepeatedQubit", REGISTERS + "cx q, ‸q[1];")
of_program("UnknownGate", REGISTERS + "‸u3 q;", "the gates are id x y z h")
of_program("UnknownGate", REGISTERS + "/* für */\t‸cnot q[0], q[1];", "write `cx a, b;`")
of_program("OperandCount", REGISTERS + "‸cx q[0];")
of_program("AngleForm", REGISTERS + "rx(‸pi/4) q;")
of_program("NoQubits", "bit b;‸")
of_program("TooManyQubits", REGISTERS + "qubit[15] ‸r;")
of_program("TooManyBits", REGISTERS + "bit[31] ‸d;")
of_program("TooManyStatements", "qubit q;\n" + "x q;\n" * 100000 + "  ‸x q;\n")
of_program("MissingInvariant", REGISTERS + "‸while (c[0]) x q;")
of_program("StrayAnnotation", REGISTERS + "  ‸@assert a b\nx q;")
of_program("DeclaredInBlock", REGISTERS + "if (c[0]) { ‸bit d; }")

of_sets("TooLong", "//34567\n" * 524288 + "‸s")
of_sets("NotUtf8", b"set a = all 1; " + PLACE.encode() + b"\xff")
of_sets("BadByte", "claim pre = [1‸.5|0>];", "numbers are whole: write 1/sqrt2^2 for 0.5")
of_sets("OpenComment", "set a = all 1; ‸/* and")
of_sets("LongNumber", "set a = all ‸" + "9" * 40 + ";")
of_sets("BadKet", "claim pre = [‸|02>];")
of_sets("Unexpected", "claim pre = [|0>]‸", "the text ends in the midst of an item")
of_sets("Unexpected", "claim pre = [1/‸2|0>];", "a coefficient is divided by `sqrt2` alone")
of_sets("Unexpected", "claim pre = [1/‸sqrt(2)|0>];", "the root is one word")
of_sets("Unexpected", "claim pre = [|0> + w‸*|1>];", "a ket is wanted behind a coefficient")
of_sets("Unexpected", "claim pre = [|00> ‸|11>];", "`+`, `-` or `]` is wanted here")
of_sets("Unexpected", "set ‸w = all 1;", "a name is wanted here")
of_sets("TooDeep", "set a =\n" + "(" * 64 + "‸(all 1;")
of_sets("TooManyNames", "".join("set s%d = all 1;\n" % i for i in range(1000)) + "set ‸more = all 1;")
of_sets("TwiceNamed", "set pre = all 1; claim ‸pre = all 1;", "sets are pre; claims are pre")
of_sets("UnknownSet", "set b = all 1; claim a = b;\nclaim pre = ‸a;", "sets are b; each stands before its use")
of_sets("QubitCount", "set a = all 1 ‸union all 2;")
of_sets("AmpTooWide", "set a = [-‸2w/sqrt2^4294967296|0>];")
of_sets("KetLength", "claim pre = [|0> + 2‸|00>];")
of_sets("RepeatedKet", "claim pre = [|0> + ‸|0>];")
of_sets("TooManyNodes", "set a = all 1\n" + "union all 1\n" * 49999 + " ‸union all 1;")

of_claims("UnknownClaim", "‸", says="write `claim pre = ..;` in S, where claims are none")
of_claims(
    "UnknownClaim",
    "set post = all 2;\nclaim pre = all 3; // claim post = all 2;‸",
    says="`claim post = ..;` in S, where claims are pre",
)
of_claims(
    "UnknownClaim",
    "claim pre = all 2; claim post = all 3;",
    CLAIMED + "/*\n@assert seen */\n  @assert ‸seen // here\nx q;",
    "where claims are pre, post",
)
of_claims("QubitsDiffer", "claim pre = all 2;\n/* claim post */ claim ‸post = all 3;", says="the program has 2 qubits")
of_claims("BitUnknown", "claim pre = all 2; claim\n\t‸post = all 2 when c == 0;", says="bits of the program: c[2], d;")
one_qubit = "claim pre = all 1; claim post = all 1; claim a = all 1;"
case("run TooManyObligations", "‸qubit q;\n" + "@assert a\n" * 1000 + "x q;", one_qubit)

of_set("UnknownSet", "claim ‸zero = all 2; set one = [|11>];", "sets are one;")
of_set("UnknownSet", "set one = [|11>];‸", "sets are one;")
of_set("QubitsDiffer", "set ‸zero = all 1;", "the program has 2 qubits")
of_set("NotOne", "set ‸zero = all 2;")
of_set("Wide", "set ‸zero = [18446744073709551616|0>]^2;")

of_replay("BadOutcomes", "1‸,0")
of_replay("NotLoopFree", "0", "qubit[2] q; bit c; // while\n@invariant a\n ‸while (c) x q;")
of_replay("ShortOutcomes", "‸")
of_replay("ShortOutcomes", "1‸", HALVED + "measure q;", says="--outcomes 10")
of_replay("Impossible", "‸1", "qubit[2] q; bit c; c = measure q[0];")
of_replay("Wide", "1", sets="set ‸zero = [1/sqrt2^4294967295|00>];")
of_replay("LongOutcomes", "10‸1")
case("read fault", "‸", words="check none S", says="there is no such file")
case("read fault", "‸", words="check . S", says="it is a folder")


def divided(text):
    """A text without its mark, and the line and column of the mark, with the line that it is in."""
    mark = PLACE.encode()
    if mark not in text:
        return text, None
    before, behind = text.split(mark)
    line = before.count(b"\n") + 1
    start = before.rfind(b"\n") + 1
    end = behind.find(b"\n")
    whole = before[start:] + (behind if end < 0 else behind[:end])
    return before + behind, (line, len(before) - start + 1, whole, before[start:])


def expected(key, file, place):
    """The lines in front of the help."""
    line, column, whole, before = place
    if key.endswith(" NotUtf8"):
        whole = before + b"?"
    caret = "".join("\t" if sign == "\t" else " " for sign in before.decode()) + "^"
    sentence = SENTENCES[key]
    name = key if key.startswith(("read", "out", "gave")) else key.split(" ")[1]
    head = "%s:%d:%d: error: %s: %s" % (file, line, column, name, sentence)
    return head, whole, caret


class Copy:
    """A copy of the launcher and of what it explains by, with a program as the released one of its sources."""

    def __init__(self, folder, program):
        self.top = os.path.join(folder, "the top")
        self.work = os.path.join(folder, "work")
        for made in (os.path.join(self.top, "release"), self.work):
            os.makedirs(made)
        shutil.copy(os.path.join(TOP, "autoq"), self.top)
        shutil.copytree(os.path.join(TOP, "explain"), os.path.join(self.top, "explain"))
        with open(os.path.join(self.top, "crates.txt"), "w") as file:
            file.write("autoq:\n")
        self.launcher = os.path.join(self.top, "autoq")
        self.release(program)

    def take(self, *names):
        """Takes files and folders of the repository too."""
        for name in names:
            path = os.path.join(self.top, name)
            if os.path.isdir(os.path.join(TOP, name)):
                shutil.copytree(os.path.join(TOP, name), path)
            else:
                shutil.copy(os.path.join(TOP, name), path)

    def release(self, program):
        released = os.path.join(self.top, "release", "autoq-x86_64-linux")
        shutil.copy(program, released)
        os.chmod(released, 0o755)
        script = 'printf "program %s\\nsources %s\\ntoolchain none\\n" "$(sha256sum <"$1" | cut -d " " -f 1)" "$("$2" --sources)"'
        with open(os.path.join(self.top, "release", "MANIFEST"), "wb") as file:
            subprocess.run(["sh", "-c", script, "sh", released, self.launcher], stdout=file, check=True)

    def stub(self, text):
        """Takes a shell script as the program."""
        path = os.path.join(self.work, "stub")
        with open(path, "w") as file:
            file.write("#!/bin/sh\n[ $# = 0 ] && exit 4\n" + text + "\n")
        self.release(path)

    def write(self, name, content):
        with open(os.path.join(self.work, name), "wb") as file:
            file.write(as_bytes(content))

    def start(self, words, explain="always", **how):
        environment = dict(os.environ, AUTOQ_EXPLAIN=explain)
        how = dict({"stdin": subprocess.DEVNULL, "stdout": subprocess.PIPE, "stderr": subprocess.PIPE}, **how)
        return subprocess.Popen([self.launcher] + words, cwd=self.work, env=environment, **how)

    def run(self, words, explain="always", **how):
        """The status, what was printed, and what was explained."""
        started = self.start(words, explain, **how)
        out, err = started.communicate(timeout=SECONDS)
        return started.returncode, out, err


# ---- each name, with its caret


def wrong_case(copy, program, row):
    """What is wrong with a case: the explanation, or that the launcher prints or ends otherwise than the program."""
    key, words, *texts, says = row
    if key == "read fault":
        for name in "PS":
            copy.write(name, "")
        file, place = words.split(" ")[1], (1, 1, None, b"")
    else:
        words, (file, place) = prepared(copy, words, texts)
    words = words.split(" ")
    alone = subprocess.run([program] + words, cwd=copy.work, stdin=subprocess.DEVNULL, capture_output=True)
    status, out, err = copy.run(words)
    if (status, out) != (alone.returncode, alone.stdout):
        return ["printed %r with status %d, and the program alone %r with %d" % (out, status, alone.stdout, alone.returncode)]
    lines = err.split(b"\n")
    head, whole, caret = expected(key, file, place)
    found = []
    shown = lines[0].decode(errors="replace")
    if not re.fullmatch(re.escape(head).replace(re.escape("{name}"), "[a-z]+"), shown):
        found.append("explained by %r, wanted %r" % (shown, head))
    if whole is not None:
        if lines[1] != b"  " + whole:
            found.append("showed %r, wanted %r" % (lines[1][:200], whole[:200]))
        if lines[2].decode(errors="replace").rstrip("~") != "  " + caret:
            found.append("the caret is %r, wanted %r" % (lines[2], caret))
    helps = [line for line in lines if line.startswith(b"  help: ")]
    if len(helps) != 1 or lines[-2:] != [helps[0], b""]:
        found.append("no last line of help: %r" % lines[-3:])
    elif says is not None and says not in helps[0].decode():
        found.append("helped by %r, wanted %r" % (helps[0].decode(), says))
    elif b"{" in re.sub(rb"`[^`]*`|\{ \}", b"", helps[0]):
        found.append("a place is left open: %r" % helps[0])
    return found


def prepared(copy, words, texts):
    """The words without their mark, and the file and place of the one mark, with the files written."""
    found = None
    for name, text in zip("PS", texts):
        text, place = divided(text)
        copy.write(name, text)
        if place is not None:
            found = name, place
    if found is None:
        left, _, outcomes = words.partition(" --outcomes ")
        outcomes, place = divided(outcomes.encode())
        return (left + " --outcomes " + outcomes.decode() if outcomes else left), ("--outcomes", place)
    return words, found


def names_without_case():
    keys, _ = refusals.names_of_crates()
    return sorted(keys - {row[0] for row in CASES} - {"out of memory"})


# ---- verdicts


def verdict_lines(copy, program, sets, words=()):
    """What is explained of a check, line by line, and what was printed."""
    copy.write("P", program)
    copy.write("S", sets)
    status, out, err = copy.run(["check", "P", "S"] + list(words))
    return status, out.decode(), err.decode().split("\n")[:-1]


def help_of_refutation(copy, folder, name):
    """Plays an example that is refuted, and then the command that the help gives, which is to print the end that was shown."""
    words = ["check", os.path.join(folder, name + ".qasm"), os.path.join(folder, name + ".sets")]
    _, out, err = copy.run(words)
    command = err.decode().split("\n")[3].replace("  help: ", "", 1)
    silent = dict(os.environ, AUTOQ_EXPLAIN="never")
    played = subprocess.run(["sh", "-c", command], cwd=copy.work, capture_output=True, env=silent)
    wanted = [line.replace("  end ", "  ", 1)[2:] for line in out.decode().split("\n") if line.startswith("  end ")]
    got = [re.sub("^end ", "", line) for line in played.stdout.decode().split("\n") if line]
    return [] if got == wanted and played.returncode == 0 else ["%r printed %r, wanted %r" % (command, got, wanted)]


def refuted_turn(copy):
    """A turn that ends outside of the invariant: at the word `while`."""
    program = "qubit q;\nbit c;\n@invariant a\n  while (c) { x q; c = measure q; }\n"
    _, _, lines = verdict_lines(copy, program, "claim pre = [|0>]; claim post = [|0>]; claim a = [|0>];")
    wanted = ["P:4:3: error: refuted: " + SENTENCES["refuted keep"], "    while (c) { x q; c = measure q; }", "    ^"]
    return lines[:3], wanted


def asserted(copy):
    program = "qubit q;\nx q;\n @assert a\nx q;\n"
    _, _, lines = verdict_lines(copy, program, "claim pre = [|0>]; claim post = [|0>]; claim a = [|0>];")
    wanted = ["P:3:2: error: refuted: " + SENTENCES["refuted assert"], "   @assert a", "   ^"]
    return lines[:3], wanted


def given_up(copy):
    """The help says the same check with ten times the steps."""
    program = "qubit[8] q;\nx q;\n\n"
    doubled = "set s0 = all 8;\n" + "".join("set s%d = s%d union s%d;\n" % (n, n - 1, n - 1) for n in range(1, 40))
    _, out, lines = verdict_lines(copy, program, doubled + "claim pre = s39; claim post = all 8;")
    wanted = ["P:2:1: warning: gave up steps: " + SENTENCES["gave up steps"], "  x q;", "  ^"]
    again = "`%r check P S --steps 200000000`" % copy.launcher in lines[3]
    return (out.split("\n")[0], lines[:3], again), ("1 post: gave up steps", wanted, True)


def given_up_for_width(copy):
    _, _, lines = verdict_lines(copy, "qubit q; h q;", "claim pre = [1/sqrt2^4294967295|0>]; claim post = [|0>];")
    return lines[0], "P:1:1: warning: gave up width: " + SENTENCES["gave up width"]


def given_up_for_memory(copy):
    copy.stub('echo "1 post: gave up memory"; echo "verified 0, refuted 0, gave up 1"; exit 2')
    _, _, lines = verdict_lines(copy, "qubit q;", "")
    return lines[0], "P:1:1: warning: gave up memory: " + SENTENCES["gave up memory"]


def memory(copy):
    copy.stub('echo "out of memory"; exit 7')
    status, _, lines = verdict_lines(copy, "qubit q;", "")
    return (status, lines), (7, ["P:1:1: error: out of memory: memory was wanting", "  help: " + HELPS["out of memory"]["help"]])


def options_in_front(copy):
    """The files are found behind options, the claims by their names, and the limit is raised to the greatest one."""
    copy.stub('echo "1 post: gave up steps"; exit 2')
    copy.write("P", "qubit q;")
    words = ["check", "--steps=900000000", "--pre", "a b", "--", "P", "-s"]
    _, _, err = copy.run(words)
    wanted = "check P ./-s --pre 'a b' --steps 1000000000`"
    copy.stub('echo "refused: claim start: UnknownClaim"; exit 3')
    copy.write("S", "")
    _, _, told = copy.run(["check", "--pre", "start", "--", "P", "S"])
    return (wanted in err.decode(), told.decode().split("\n")[0]), (
        True,
        "S:1:1: error: UnknownClaim: the set file has no claim start",
    )


def all_verified(copy):
    copy.write("P", "qubit q;")
    copy.write("S", "claim pre = all 1; claim post = all 1;")
    return copy.run(["check", "P", "S"])[2], b""


# ---- what stays the program's own


def any_bytes_and_status(copy):
    """Whatever is printed comes out as it is, with the status."""
    found = []
    for status in (0, 1, 5, 42, 255):
        copy.stub("printf 'refused: \\000\\377\\n\\n1 post: refuted\\nno end'; exit %d" % status)
        found.append(copy.run(["check", "P", "S"])[:2] == (status, b"refused: \x00\xff\n\n1 post: refuted\nno end"))
    return found, [True] * 5


def much_is_printed(copy):
    copy.stub("seq 1 300000; exit 3")
    status, out, _ = copy.run(["check", "P", "S"])
    return (status, out), (3, b"".join(b"%d\n" % n for n in range(1, 300001)))


def line_by_line(copy):
    """The first line is there while the program still runs."""
    copy.stub('echo first; while [ ! -e go ]; do sleep 0.05; done; echo second')
    started = copy.start(["check", "P", "S"])
    first = started.stdout.readline()
    running = started.poll() is None
    copy.write("go", "")
    rest, _ = started.communicate(timeout=SECONDS)
    return (first, running, rest), (b"first\n", True, b"second\n")


def output_that_fails(copy):
    """A closed output, a full one, and one whose reader is gone have the status 6."""
    copy.write("P", "qubit q")
    copy.write("S", "")
    found = []
    for end in (">&-", ">/dev/full"):
        command = ["sh", "-c", '"$@" ' + end, "sh", copy.launcher, "check", "P", "S"]
        always = dict(os.environ, AUTOQ_EXPLAIN="always")
        done = subprocess.run(command, cwd=copy.work, env=always, stderr=subprocess.DEVNULL, timeout=SECONDS)
        found.append(done.returncode)
    reading, writing = os.pipe()
    os.close(reading)
    found.append(copy.run(["check", "P", "S"], stdout=writing)[0])
    os.close(writing)
    return found, [6, 6, 6]


def reader_that_leaves(copy):
    """The program is stopped by its next line, and doesn't go on to its end."""
    copy.stub('trap "" PIPE; for i in 1 2 3 4 5 6 7 8 9; do echo line || exit 6; sleep 0.3; done; touch end')
    started = copy.start(["check", "P", "S"])
    started.stdout.readline()
    started.stdout.close()
    started.wait(timeout=SECONDS)
    return (started.returncode, os.path.exists(os.path.join(copy.work, "end"))), (6, False)


def ends_that_are_closed(copy):
    """Without an input or an error output the program runs all the same."""
    copy.write("P", "qubit q")
    copy.write("S", "")
    found = []
    for ends in ("<&-", "2>&-", "<&- 2>&-"):
        command = ["sh", "-c", '"$@" ' + ends, "sh", copy.launcher, "check", "P", "S"]
        always = dict(os.environ, AUTOQ_EXPLAIN="always")
        done = subprocess.run(command, cwd=copy.work, env=always, capture_output=True, timeout=SECONDS)
        found.append((done.returncode, done.stdout))
    return found, [(3, b"refused: program 1:8: Unexpected\n")] * 3


def program_on_standard_input(copy):
    """It can't be read again, so its line isn't shown."""
    copy.write("S", "")
    started = copy.start(["check", "/dev/stdin", "S"], stdin=subprocess.PIPE)
    out, err = started.communicate(b"qubit q", timeout=SECONDS)
    key = "program Unexpected"
    wanted = "/dev/stdin:1:8: error: Unexpected: %s\n  help: %s\n" % (SENTENCES[key], HELPS[key]["at (end)"])
    return (out, err.decode()), (b"refused: program 1:8: Unexpected\n", wanted)


def files_on_descriptors(copy):
    """Descriptors that the launcher was given are the program's too."""
    copy.write("P", "qubit q;")
    copy.write("S", "claim pre = all 1; claim post = [|0>];")
    command = '"$1" check /dev/fd/4 /dev/fd/5 4<P 5<S; "$1" check <(cat P) <(cat S)'
    always = dict(os.environ, AUTOQ_EXPLAIN="always")
    done = subprocess.run(["bash", "-c", command, "bash", copy.launcher], cwd=copy.work, env=always, capture_output=True)
    return (done.returncode, done.stdout.count(b"1 post: refuted\n")), (1, 2)


def names_with_signs(copy):
    """Files with blanks and signs in their names, and one that begins with a sign of options."""
    found, wanted = [], []
    for name in ("a b", "it's", "-"):
        copy.write(name, "qubit q")
        _, _, err = copy.run(["check", name, "S"])
        found.append(err.decode().split("\n")[:3])
        head = "%s:1:8: error: Unexpected: %s" % (name, SENTENCES["program Unexpected"])
        wanted.append([head, "  qubit q", "         ^"])
    return found, wanted


def long_line(copy):
    """Of a long line what is around the place is shown, whole characters alone, and nothing that a terminal obeys."""
    copy.write("P", "qubit q; /* " + "é" * 100 + "\x1b */ g q; // " + "ü" * 100)
    _, _, err = copy.run(["check", "P", "S"])
    lines = err.decode().split("\n")
    at = lines[1].index("g q;")
    cut = lines[1].startswith("  ..é") and lines[1].endswith("ü..") and len(lines[1]) < 110
    return (lines[2].index("^"), cut, "\x1b" in lines[1]), (at, True, False)


def nothing_in_between(copy):
    """Where nothing is to be explained, the launcher becomes the program."""
    copy.stub("echo $$")
    found = []
    for explain in ("never", ""):
        started = copy.start(["check", "P", "S"], explain)
        out, err = started.communicate(timeout=SECONDS)
        found.append((int(out) == started.pid, err))
    return found, [(True, b"")] * 2


def is_gone(process):
    """Whether a process ends within some seconds."""
    for _ in range(100):
        try:
            with open("/proc/%d/status" % process) as file:
                if "State:\tZ" in file.read():
                    return True
        except OSError:
            return True
        time.sleep(0.05)
    os.kill(process, signal.SIGKILL)
    return False


def ended_launcher(copy):
    """A launcher that is ended ends the program."""
    copy.stub("echo $$; exec sleep 60")
    found = []
    for number in (signal.SIGTERM, signal.SIGINT, signal.SIGHUP):
        started = copy.start(["check", "P", "S"])
        program = int(started.stdout.readline())
        started.send_signal(number)
        started.wait(timeout=SECONDS)
        started.stdout.close()
        started.stderr.close()
        found.append((started.returncode, is_gone(program)))
    return found, [(143, True), (130, True), (129, True)]


def on_a_terminal(copy):
    """There it is explained without a word, unless it is to be silent; and said which program runs."""
    copy.write("P", "qubit q")
    found = []
    for explain in ("", "never"):
        reading, writing = pty.openpty()
        status, out, _ = copy.run(["check", "P", "S"], explain, stderr=writing)
        os.close(writing)
        text = b""
        try:
            while part := os.read(reading, 4096):
                text += part
        except OSError:
            pass
        os.close(reading)
        lines = text.decode().replace("\r\n", "\n").split("\n")
        found.append((status, out, [re.sub(r"; .*", "", line) for line in lines if line.startswith(("autoq: ", "P:"))]))
    refused = 3, b"refused: program 1:8: Unexpected\n"
    which = "autoq: this is the released program, which was proved of these sources"
    return found, [(*refused, [which, "P:1:8: error: Unexpected: " + SENTENCES["program Unexpected"]]), (*refused, [])]


OTHERS = [
    refuted_turn,
    asserted,
    given_up,
    given_up_for_width,
    given_up_for_memory,
    memory,
    options_in_front,
    all_verified,
    any_bytes_and_status,
    much_is_printed,
    line_by_line,
    output_that_fails,
    reader_that_leaves,
    ends_that_are_closed,
    program_on_standard_input,
    files_on_descriptors,
    names_with_signs,
    long_line,
    nothing_in_between,
    ended_launcher,
    on_a_terminal,
]
# Examples with one obligation, which is refuted.
REFUTED = [
    "bell_wrong_sign",
    "half_turn",
    "teleportation_unturned",
    "fourier_unturned",
    "two_bells_twins",
    "toffoli_by_t_wrong_phase",
]
