"""The launcher on a copy of it, with sources of one line and a builder that stands in for rt; and the gate and the check of
a release on the same copy."""

import os
import shutil
import signal
import subprocess
import tempfile
import time

TOP = os.path.dirname(os.path.dirname(os.path.abspath(__file__)))

# Builds a program that prints what the source says, unless the source says that it doesn't build.
BUILDER = """#!/bin/sh
[ "$1" = version ] && echo "a kit" && exit
[ "$1" = ci ] && cd crates/autoq
cat "$TOP/crates/autoq/src/main.rt" >"$TOP/read"
echo >>"$TOP/builds"
grep -q wrong "$TOP/read" && { echo "not proved" >&2; exit 1; }
grep -q slow "$TOP/read" && sleep 2
mkdir -p out || exit 1
{ echo '#!/bin/sh'; echo '[ $# = 0 ] && exit 4'; echo '[ "$2" = /dev/null ] && echo "refused: program 1:1: NoQubits" && exit 3'; \\
  echo "echo $(cat "$TOP/read")"; } >out/autoq || exit 1
chmod +x out/autoq
[ "$1" = ci ] && echo "1 passed, 0 failed" && exit
shift 2
exec out/autoq "$@"
"""


class Copy:
    """A folder with the launcher, one source and the builder."""

    def __init__(self, folder, source):
        self.top = os.path.join(folder, "a copy")
        self.source = os.path.join(self.top, "crates", "autoq", "src", "main.rt")
        self.temporary = os.path.join(folder, "temporary")
        binaries = os.path.join(folder, "binaries")
        for made in (os.path.dirname(self.source), self.temporary, binaries):
            os.makedirs(made)
        shutil.copy(os.path.join(TOP, "autoq"), self.top)
        for folder_of in ("explain", ".ci"):
            shutil.copytree(os.path.join(TOP, folder_of), os.path.join(self.top, folder_of))
        os.mkdir(os.path.join(self.top, "tests"))
        shutil.copy(os.path.join(TOP, "tests", "release"), os.path.join(self.top, "tests"))
        self.write("tests/run", "#!/bin/sh\nexec ./autoq --build\n")
        os.chmod(os.path.join(self.top, "tests/run"), 0o755)
        self.write("crates.txt", "autoq:\n")
        self.say(source)
        builder = os.path.join(binaries, "rt")
        with open(builder, "w") as file:
            file.write(BUILDER)
        os.chmod(builder, 0o755)
        self.environment = dict(os.environ, TOP=self.top, TMPDIR=self.temporary, PATH=binaries + ":/usr/bin:/bin")

    def write(self, name, text):
        with open(os.path.join(self.top, name), "w") as file:
            file.write(text)

    def say(self, text):
        with open(self.source, "w") as file:
            file.write(text + "\n")

    def start(self, words):
        return subprocess.Popen(
            [os.path.join(self.top, "autoq")] + words,
            env=self.environment,
            stdin=subprocess.DEVNULL,
            stdout=subprocess.PIPE,
            stderr=subprocess.PIPE,
            start_new_session=True,
        )

    def start_slow(self):
        """A build that takes a while and has read the sources."""
        self.say("slow")
        started = self.start(["check"])
        while not os.path.exists(os.path.join(self.top, "read")):
            time.sleep(0.05)
        return started

    def play(self, *command):
        """The status and what a command prints at the top of the copy."""
        done = subprocess.run(
            command, cwd=self.top, env=self.environment, stdin=subprocess.DEVNULL, capture_output=True, timeout=60
        )
        return done.returncode, done.stdout.decode()

    def release(self):
        """Plays the gate, and makes a release of what it has passed."""
        return self.play(".ci/run")[0], self.play("./autoq", "--release")[0]

    def forget(self):
        """Leaves the sources and the release, as in a fresh checkout."""
        for made in ("out", "crates/autoq/out"):
            shutil.rmtree(os.path.join(self.top, made), ignore_errors=True)

    def hide_builder(self):
        self.environment["PATH"] = "/usr/bin:/bin"

    def change(self, name):
        """Changes the last byte of a file."""
        with open(os.path.join(self.top, name), "r+b") as file:
            file.seek(-1, os.SEEK_END)
            file.write(b"#")

    def files(self):
        """Each file with the time of its last change."""
        found = {}
        for at, _, names in os.walk(os.path.dirname(self.top)):
            found.update((os.path.join(at, name), os.stat(os.path.join(at, name)).st_mtime_ns) for name in names)
        return found

    def run(self, words=("check",)):
        """The status, what was printed, and whether standard error says that something was built."""
        started = self.start(list(words))
        out, err = started.communicate(timeout=60)
        return started.returncode, out.decode(), "autoq: built" in err.decode()


def first_run(copy):
    return copy.run(), (0, "one\n", True)


def second_run(copy):
    copy.run()
    return copy.run(), (0, "one\n", False)


def changed_source(copy):
    copy.run()
    copy.say("two")
    return copy.run(), (0, "two\n", True)


def older_source(copy):
    copy.run()
    copy.say("two")
    os.utime(copy.source, (1, 1))
    return copy.run(), (0, "two\n", True)


def removed_source(copy):
    copy.write("crates/autoq/src/more.rt", "more\n")
    copy.run()
    os.remove(os.path.join(copy.top, "crates/autoq/src/more.rt"))
    return copy.run(), (0, "one\n", True)


def other_crates(copy):
    """What is built again after a change of a crate that the program stands on by another, of its lines, and of the rest."""
    copy.write("crates.txt", "low:\nmiddle: low\nautoq: middle\nother: low\n")
    for name in ("low", "other"):
        os.makedirs(os.path.join(copy.top, "crates", name, "specs"))
        copy.write("crates/%s/specs/One.antt" % name, "one\n")
    built = [copy.run()[2]]
    copy.write("crates/other/specs/One.antt", "two\n")
    copy.write("crates.txt", "low:\nmiddle: low\nautoq: middle\nother: low middle\nlast: other\n")
    built.append(copy.run()[2])
    copy.write("crates/low/specs/One.antt", "two\n")
    built.append(copy.run()[2])
    copy.write("crates.txt", "low:\nmiddle: low\nautoq: low middle\nother: low middle\nlast: other\n")
    built.append(copy.run()[2])
    return built, [True, False, True, True]


def failed_build(copy):
    copy.run()
    copy.say("wrong")
    return copy.run(), (70, "", False)


def program_after_failed_build(copy):
    copy.run()
    copy.say("wrong")
    copy.run()
    copy.say("one")
    return copy.run(), (0, "one\n", False)


def folder_of_program_taken(copy):
    copy.run()
    copy.say("two")
    shutil.rmtree(os.path.join(copy.top, "crates/autoq/out"))
    copy.write("crates/autoq/out", "")
    return copy.run(), (70, "", False)


def edit_during_build(copy):
    started = copy.start_slow()
    time.sleep(0.2)
    copy.say("two")
    started.communicate(timeout=60)
    return copy.run(), (0, "two\n", True)


def ended_build(copy):
    started = copy.start_slow()
    os.killpg(started.pid, signal.SIGTERM)
    started.communicate(timeout=60)
    return os.listdir(copy.temporary), []


def without_builder(copy):
    copy.hide_builder()
    return copy.run(), (70, "", False)


def old_program_without_builder(copy):
    copy.run()
    copy.say("two")
    copy.hide_builder()
    return copy.run(), (0, "one\n", False)


def only_built(copy):
    return copy.run(["--build"]), (0, "", True)


def released_program(copy):
    released = copy.release()
    copy.forget()
    copy.hide_builder()
    before = copy.files()
    return (released, copy.run(), copy.files() == before), ((0, 0), (0, "one\n", False), True)


def released_before_built(copy):
    """A builder is there, and isn't needed."""
    copy.release()
    copy.forget()
    return copy.run(), (0, "one\n", False)


def built_before_released(copy):
    copy.release()
    copy.change("release/autoq-x86_64-linux")
    return copy.run(), (0, "one\n", False)


def released_program_of_older_sources(copy):
    copy.release()
    copy.forget()
    copy.say("two")
    built = copy.run()
    copy.forget()
    copy.hide_builder()
    return (built, copy.run()), ((0, "two\n", True), (70, "", False))


def changed_released_program(copy):
    """It is never run."""
    copy.release()
    copy.forget()
    copy.change("release/autoq-x86_64-linux")
    built = copy.run()
    copy.forget()
    copy.hide_builder()
    return (built, copy.run()), ((0, "one\n", True), (70, "", False))


def released_program_without_manifest(copy):
    copy.release()
    copy.forget()
    os.remove(os.path.join(copy.top, "release/MANIFEST"))
    return copy.run(), (0, "one\n", True)


def released_program_on_another_machine(copy):
    copy.release()
    copy.forget()
    stub = os.path.join(os.path.dirname(copy.top), "binaries", "uname")
    with open(stub, "w") as file:
        file.write("#!/bin/sh\necho Linux aarch64\n")
    os.chmod(stub, 0o755)
    return copy.run(), (0, "one\n", True)


def released_program_that_does_not_run(copy):
    """As where the C library is too old for it: it isn't run, though its hash and its sources' are right."""
    copy.release()
    copy.forget()
    released = os.path.join(copy.top, "release", "autoq-x86_64-linux")
    with open(released, "w") as file:
        file.write("#!/bin/sh\necho wrong version\nexit 1\n")
    with open(os.path.join(copy.top, "release", "MANIFEST")) as file:
        manifest = file.read()
    manifest = manifest.replace(manifest.split()[1], copy.play("sha256sum", released)[1].split()[0])
    copy.write("release/MANIFEST", manifest)
    return copy.run(), (0, "one\n", True)


def only_built_beside_a_release(copy):
    copy.release()
    copy.forget()
    return copy.run(["--build"]), (0, "", True)


def read_only_checkout(copy):
    """Also as a user who may write nowhere, where the machine lets this one become another."""
    copy.release()
    copy.forget()
    copy.hide_builder()
    folder = os.path.dirname(copy.top)
    subprocess.run(["chmod", "-R", "a-w,a+rX", folder], check=True)
    command = [os.path.join(copy.top, "autoq"), "check"]
    if os.geteuid() == 0 and shutil.which("setpriv"):
        command = ["setpriv", "--reuid=65534", "--regid=65534", "--clear-groups"] + command
    answer = copy.play(*command)
    subprocess.run(["chmod", "-R", "u+w", folder], check=True)
    return answer, (0, "one\n")


def link_to_the_launcher(copy):
    """By a chain of links, one of them relative to its own folder."""
    copy.release()
    copy.forget()
    copy.hide_builder()
    os.symlink("a copy/autoq", os.path.join(os.path.dirname(copy.top), "near"))
    far = os.path.join(copy.temporary, "far")
    os.symlink(os.path.join(os.path.dirname(copy.top), "near"), far)
    return copy.play(far, "check"), (0, "one\n")


def two_first_runs(copy):
    """Both at once: one builds, and the other waits and runs what is built."""
    copy.say("slow")
    started = [copy.start(["check"]) for _ in range(2)]
    answers = [run.communicate(timeout=60)[0] for run in started]
    with open(os.path.join(copy.top, "builds")) as file:
        builds = len(file.readlines())
    alone = 1 if shutil.which("flock") else builds
    return ([run.returncode for run in started], answers, builds), ([0, 0], [b"slow\n"] * 2, alone)


def release_of_what_was_not_passed(copy):
    """The gate passed nothing, or other sources, or another program."""
    copy.run()
    found = [copy.play("./autoq", "--release")[0]]
    copy.play(".ci/run")
    copy.say("two")
    found.append(copy.play("./autoq", "--release")[0])
    copy.play(".ci/run")
    copy.write("crates/autoq/src/more.rt", "no other program\n")
    found.append(copy.play("./autoq", "--release")[0])
    copy.play(".ci/run")
    copy.change("out/autoq")
    found.append(copy.play("./autoq", "--release")[0])
    return (found, os.path.exists(os.path.join(copy.top, "release"))), ([70] * 4, False)


def failed_gate(copy):
    """What it passed before is forgotten."""
    copy.play(".ci/run")
    copy.say("wrong")
    failed = copy.play(".ci/run")[0]
    copy.say("one")
    return (failed, copy.play("./autoq", "--release")[0]), (1, 70)


def gate(copy):
    """It passes without a release and with one of its sources, and fails where the sources are newer than the release."""
    status, text = copy.play(".ci/run")
    found = [(status, "release: there is none" in text)]
    copy.play("./autoq", "--release")
    status, text = copy.play(".ci/run")
    found.append((status, "byte for byte" in text))
    copy.say("two")
    status, text = copy.play(".ci/run")
    found.append((status, "older than the sources" in text))
    copy.play("./autoq", "--release")
    found.append(copy.play(".ci/run")[0])
    return found, [(0, True), (0, True), (1, True), 0]


def checked_release(copy):
    """Each change of a release is found."""
    copy.release()
    top = lambda name: os.path.join(copy.top, "release", name)
    with open(top("MANIFEST")) as file:
        manifest = file.read()
    with open(top("autoq-x86_64-linux"), "rb") as file:
        program = file.read()
    found = [copy.play("tests/release")[0]]

    def check(end):
        status, text = copy.play("tests/release")
        found.append((status, end if end in text else text))
        copy.write("release/MANIFEST", manifest)
        with open(top("autoq-x86_64-linux"), "wb") as file:
            file.write(program)

    copy.change("release/autoq-x86_64-linux")
    check("isn't the program of release/MANIFEST")
    copy.change("release/autoq-x86_64-linux")
    hashes = copy.play("sha256sum", top("autoq-x86_64-linux"))[1].split()[0], manifest.split()[1]
    copy.write("release/MANIFEST", manifest.replace(hashes[1], hashes[0]))
    check("isn't the program that is built here")
    copy.write("release/MANIFEST", manifest.replace("toolchain a kit", "toolchain another kit"))
    check("another toolchain")
    copy.write("release/MANIFEST", manifest.split("\n")[0] + "\n")
    check("isn't three lines")
    os.chmod(top("autoq-x86_64-linux"), 0o644)
    check("lacks")
    os.chmod(top("autoq-x86_64-linux"), 0o755)
    copy.write("release/more", "")
    check("other files")
    os.remove(top("more"))
    copy.forget()
    copy.hide_builder()
    check("skipped: the comparison")
    return [end if isinstance(end, int) else end[0] for end in found], [0, 1, 1, 1, 1, 1, 1, 0]


CASES = [
    first_run,
    second_run,
    changed_source,
    older_source,
    removed_source,
    other_crates,
    failed_build,
    program_after_failed_build,
    folder_of_program_taken,
    edit_during_build,
    ended_build,
    without_builder,
    old_program_without_builder,
    only_built,
    released_program,
    released_before_built,
    built_before_released,
    released_program_of_older_sources,
    changed_released_program,
    released_program_without_manifest,
    released_program_on_another_machine,
    released_program_that_does_not_run,
    only_built_beside_a_release,
    read_only_checkout,
    link_to_the_launcher,
    two_first_runs,
    release_of_what_was_not_passed,
    failed_gate,
    gate,
    checked_release,
]


def found(case):
    """What is wrong with a case."""
    with tempfile.TemporaryDirectory() as folder:
        answer, wanted = case(Copy(folder, "one"))
    return [] if answer == wanted else ["%r, wanted %r" % (answer, wanted)]
