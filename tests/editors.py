"""The recipes of docs/EDITORS.md: its patterns on what the launcher explains, and its commands on a folder of programs."""

import json
import os
import re
import shutil
import subprocess
import textwrap

TOP = os.path.dirname(os.path.dirname(os.path.abspath(__file__)))
PAGE = os.path.join(TOP, "docs", "EDITORS.md")
BELL = "qubit[2] q;\nh q[0];\ncx q[0], q[1];\n"
BELL_SETS = "claim pre = [|00>];\nclaim post = [|00> + |11>];\n"
WRONG_SETS = "claim pre = [|00>];\nclaim post = [|00> - |11>];\n"
SECONDS = 60


def blocks(language):
    with open(PAGE, encoding="utf-8") as file:
        return re.findall(r"^```%s\n(.*?)^```$" % language, file.read(), re.S | re.M)


def explained(copy):
    """What is explained of a refusal, a refutation and a check that was given up, and the places."""
    copy.write("a fault.qasm", "qubit q;\n\tx r;\n")
    copy.write("wrong.qasm", BELL)
    copy.write("wrong.sets", WRONG_SETS)
    copy.write("long.qasm", "qubit[8] q;\nx q;\n")
    copy.write("long.sets", "set s0 = all 8;\n" + "".join("set s%d = s%d union s%d;\n" % (n, n - 1, n - 1) for n in range(1, 40)) + "claim pre = s39; claim post = all 8;")
    text = b""
    for name in ("a fault", "wrong", "long"):
        text += copy.run(["check", name + ".qasm", name + ".sets"])[2]
    places = [("a fault.qasm", 2, 4, "error", "UnknownName: "), ("wrong.qasm", 3, 1, "error", "refuted: ")]
    return text.decode(), places + [("long.qasm", 2, 1, "warning", "gave up steps: ")]


def unlike(found, wanted):
    """What is wrong with places, of which each has a message that begins as is wanted."""
    same = len(found) == len(wanted) and all(f[:4] == w[:4] and f[4].startswith(w[4]) for f, w in zip(found, wanted))
    return [] if same else ["found %r, wanted %r" % (found, wanted)]


def matchers(copy):
    """Both patterns of the page, as Python reads them, and as node does where it is there."""
    text, wanted = explained(copy)
    task, step = [json.loads(block) for block in blocks("json")]
    patterns = [task["tasks"][0]["problemMatcher"]["pattern"], step["problemMatcher"][0]["pattern"][0]]
    parts = ("file", "line", "column", "severity", "message")
    found = []
    for pattern in patterns:
        matches = [m for m in (re.search(pattern["regexp"], line) for line in text.split("\n")) if m]
        places = [tuple(m.group(pattern[part]) for part in parts) for m in matches]
        found += unlike([(f, int(l), int(c), s, m) for f, l, c, s, m in places], wanted)
    if shutil.which("node"):
        script = "const [r, t] = process.argv.slice(1); console.log(t.split('\\n').filter(l => new RegExp(r).test(l)).length)"
        for pattern in patterns:
            done = subprocess.run(["node", "-e", script, pattern["regexp"], text], capture_output=True, timeout=SECONDS)
            found += [] if done.stdout == b"3\n" else ["node found %r" % done.stdout]
    return found


def errorformat(copy):
    """Vim's pattern, where vim is there; it answers with the name of what is missing."""
    text, wanted = explained(copy)
    if not shutil.which("vim") or b"+eval" not in subprocess.run(["vim", "--version"], capture_output=True).stdout:
        return "Vim's errorformat, since vim is not on this machine"
    copy.write("said", text)
    lines = [line for line in blocks("vim")[0].split("\n") if line.startswith("set errorformat")]
    listed = "map(filter(getqflist(), 'v:val.valid'), {_, e -> bufname(e.bufnr) . '|' . e.lnum . '|' . e.col . '|' . e.type . '|' . e.text})"
    script = "\n".join(lines + ["cgetfile said", "call writefile(%s, 'found')" % listed, "qall!", ""])
    copy.write("script.vim", script)
    subprocess.run(["vim", "-es", "-u", "NONE", "-S", "script.vim"], cwd=copy.work, stdin=subprocess.DEVNULL, timeout=SECONDS)
    with open(os.path.join(copy.work, "found")) as file:
        rows = [line.split("|", 4) for line in file.read().splitlines()]
    kinds = {"e": "error", "w": "warning"}
    return unlike([(f, int(l), int(c), kinds.get(t.lower(), t), m) for f, l, c, t, m in rows], wanted)


def folder_of_programs(copy):
    """A checkout with the launcher and a folder of programs that are verified, one with a blank in its name."""
    programs = os.path.join(copy.top, "programs")
    os.mkdir(programs)
    for name in ("one", "two", "three"):
        for ending, text in (("qasm", BELL), ("sets", BELL_SETS)):
            with open(os.path.join(programs, "%s.%s" % (name, ending)), "w") as file:
                file.write(text)
    return programs


def at_top(copy, command, script=None):
    done = subprocess.run(
        command, cwd=copy.top, input=script, capture_output=True, timeout=SECONDS, env=dict(os.environ, AUTOQ_EXPLAIN="always")
    )
    return done.returncode, done.stdout.decode() + done.stderr.decode()


def workflow_step(copy):
    """The step's script, run as GitHub runs it: it passes, and fails and says why where one program isn't verified."""
    programs = folder_of_programs(copy)
    for ending in ("qasm", "sets"):
        shutil.copy(os.path.join(programs, "one." + ending), os.path.join(programs, "with a blank." + ending))
    script = textwrap.dedent(blocks("yaml")[0].split("run: |\n")[1])
    copy.write("step.sh", script)
    step = ["bash", "-e", os.path.join(copy.work, "step.sh")]
    status, text = at_top(copy, step)
    found = [] if (status, text.count(": verified\n"), text.count("status 0\n")) == (0, 4, 4) else ["passing: %d, %r" % (status, text)]
    with open(os.path.join(programs, "with a blank.sets"), "w") as file:
        file.write(WRONG_SETS)
    status, text = at_top(copy, step)
    told = "\nprograms/with a blank.qasm:3:1: error: refuted: " in text and text.count("status 0\n") == 3
    return found + ([] if status != 0 and told else ["failing: %d, %r" % (status, text)])


def makefile(copy):
    """The rule, where make is there: it passes, does nothing the second time, and fails for the one that is changed."""
    if not shutil.which("make"):
        return "the makefile, since make is not on this machine"
    programs = folder_of_programs(copy)
    with open(os.path.join(copy.top, "Makefile"), "w") as file:
        file.write(blocks("make")[0])
    command = ["make", "-k", "-j", "4", "-O", "check"]
    status, text = at_top(copy, command)
    found = [] if (status, text.count(": verified\n")) == (0, 3) else ["passing: %d, %r" % (status, text)]
    status, text = at_top(copy, command)
    found += [] if status == 0 and "./autoq" not in text else ["again: %d, %r" % (status, text)]
    path = os.path.join(programs, "two.sets")
    with open(path, "w") as file:
        file.write(WRONG_SETS)
    later = os.stat(os.path.join(programs, "two.verified")).st_mtime + 5
    os.utime(path, (later, later))
    status, text = at_top(copy, command)
    told = "programs/two.qasm:3:1: error: refuted: " in text and "programs/one" not in text
    return found + ([] if status != 0 and told else ["failing: %d, %r" % (status, text)])


RECIPES = [matchers, errorformat, workflow_step, makefile]
