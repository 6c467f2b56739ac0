"""A copy of the launchers and of the test command, with small sources and stand-ins for what they call."""

import os
import shutil
import subprocess
from pathlib import Path

ROOT = Path(__file__).resolve().parent.parent.parent
SOURCE = "crates/wst/src/main.rt"
PROGRAM = "crates/wst/out/wst"
ROWS_SOURCE = "crates/test_rows/src/main.rt"
ROWS_PROGRAM = "crates/test_rows/out/test_rows"
DEVICES_SOURCE = "crates/test_devices/src/main.rt"
DEVICES_PROGRAM = "crates/test_devices/out/test_devices"
LOOPS_SOURCE = "crates/test_loops/src/main.rt"
LOOPS_PROGRAM = "crates/test_loops/out/test_loops"
REFUSALS_SOURCE = "crates/test_refusals/src/main.rt"
REFUSALS_PROGRAM = "crates/test_refusals/out/test_refusals"

# What the launchers call beside rt.
TOOLS = ("cat", "cut", "dirname", "find", "flock", "mkdir", "mktemp", "mv", "readlink", "rm", "sed", "sh", "sha256sum")
TOOLS += ("sort", "tail", "touch")

# The stand-in for rt notes each call, takes a while, fails or builds nothing where a source says so, and changes a
# source where it says so. `ci` notes the programs that it finds. `try` runs a source, and says what rt says of a run.
STAND_IN = r"""#!/bin/sh
[ "$*" = version ] && echo "stand-in logic 1" && exit
echo "$PWD: $*" >>"$BUILDS"
sleep "${BUILD_SECONDS:-0}"

build() {
    read -r word <src/main.rt
    case $word in
    broken) echo "error: broken"; exit 1 ;;
    lazy) return ;;
    changing) echo "calm" >src/main.rt ;;
    esac
    mkdir -p out
    printf '#!/bin/sh\n[ "$*" = --version ] && echo "wst 0.2.0 (rattle logic 1)" && exit\n' >"out/$1.new"
    printf 'echo "%s $*"; cat; exit 3\n' "$word" >>"out/$1.new"
    chmod +x "out/$1.new"
    mv "out/$1.new" "out/$1"
}

# Runs the source with the words behind the first `--`.
try() {
    while [ "$1" != -- ]; do shift; done
    shift
    read -r word <src/main.rt
    status=3 end=ended
    case $word in
    broken) echo "error: broken" >&2; echo "run=none runners=0 races=unchecked proved=no" >&2; exit 1 ;;
    faulty) echo "line 1: not a capture" >&2; status=1 ;;
    panics) end=fault status=4 ;;
    *) echo "$word $*"; cat ;;
    esac
    echo "interpreter: no-answer: the run did not finish within 1 step: the program may loop forever" >&2
    echo "checked: $end status=$status" >&2
    echo "races: not looked for, since a kit has no ThreadSanitizer" >&2
    echo "run=$end status=$status runners=1 races=unchecked proved=no" >&2
    exit "$status"
}

case $1 in
run) build "${PWD##*/}" ;;
try) try "$@" ;;
ci)
    for name in wst test_rows test_devices test_loops test_refusals; do
        cd "$(dirname "$0")/../a clone/crates/$name" || exit 1
        [ ! -e "out/$name" ] || echo "left from before: $name" >>"$BUILDS"
        build "$name"
    done
    echo "5 passed, 0 failed"
    ;;
esac
"""

# The stand-in for the toolchain's program rattle: it proves and compiles one crate. It notes when it begins and ends and
# how many jobs it has, takes a while, fails where the source says so, and changes a source where it says so.
RATTLE = r"""#!/bin/sh
while [ $# -gt 0 ]; do
    case $1 in
    --crate-name) name=$2 ;;
    --jobs) jobs=$2 ;;
    --extern) [ -d "${2#*=}" ] || echo "$name lacks ${2%%=*}" >>"$BUILDS" ;;
    -o) made=$2 ;;
    src/*) source=$1 ;;
    esac
    shift
done
echo "$name begins with $jobs" >>"$BUILDS"
sleep "${BUILD_SECONDS:-0}"
read -r word <"$source"
case $word in
broken) echo "error: broken"; exit 1 ;;
slow) sleep 30 ;;
changing) echo "calm" >"$source" ;;
esac
case $source in
src/lib.rt) mkdir "$made" ;;
*) printf '#!/bin/sh\n[ "$*" = --version ] && echo "wst 0.2.0 (rattle logic 1)" && exit\necho "%s $*"; cat; exit 3\n' "$word" >"$made" ;;
esac
echo "$name ends" >>"$BUILDS"
"""

# The stand-in for the toolchain's linker.
LINKER = r"""#!/bin/sh
while [ $# -gt 0 ]; do
    case $1 in
    -o) program=$2 ;;
    *.o) made=$1 ;;
    esac
    shift
done
cp "$made" "$program" && chmod +x "$program"
"""

# The stand-in for the rows, for the refusals of memory, for the clients over loopback, for the documents and for the
# tests of what is installed and of the launcher.
COUNTED = """#!/bin/sh
echo "rows: 2 passed, 0 failed"
"""

# The stand-in for what writes the manual page and the completions.
TEXTS = """#!/bin/sh
for name in wst.1 wst _wst wst.fish; do echo "$1" >"$2/$name"; done
"""


class Clone:
    """A copy of the launchers with a small source, in a folder of its own."""

    def __init__(self, folder):
        self.folder = Path(folder)
        self.builds = self.folder / "builds"
        self.top = self.folder / "a clone"
        self.top.mkdir()
        shutil.copy(ROOT / "wst", self.top)
        shutil.copy(ROOT / "try", self.top)
        shutil.copytree(ROOT / "tools", self.top / "tools")
        self.write("crates.txt", "wst:\ntest_rows:\ntest_devices:\ntest_loops:\ntest_refusals:\n")
        self.write("HANDLES", "Handles allowed: none.\n")
        self.write(SOURCE, "first\n")
        self.program("../bin/rt", STAND_IN)
        self.program("../bin/rattle", RATTLE)
        self.program("../bin/rattle-link", LINKER)
        (self.folder / "rlibs/std.rlib").mkdir(parents=True)

    def add_check(self):
        """Adds the test command, with the sources of its programs, and stand-ins for what it runs."""
        shutil.copy(ROOT / "check", self.top)
        self.write(ROWS_SOURCE, "calls\n")
        self.write(DEVICES_SOURCE, "devices\n")
        self.write(LOOPS_SOURCE, "loops\n")
        self.write(REFUSALS_SOURCE, "lists\n")
        self.program("rows/run", COUNTED)
        self.program("rows/refusals/run", COUNTED)
        self.program("rows/loopback/run", COUNTED)
        self.program("rows/documents/run", COUNTED)
        self.program("rows/install/test", COUNTED)
        self.program("rows/launcher/test", COUNTED)
        self.write("examples/show/hello.frames", "frames\n")
        self.write("examples/show/hello.out", "first show\nframes\n")

    def add_install(self):
        """Adds the command that installs, with a stand-in for what it runs."""
        shutil.copy(ROOT / "install", self.top)
        self.program("tools/home/write", TEXTS)

    def write(self, path, text):
        (self.top / path).parent.mkdir(parents=True, exist_ok=True)
        (self.top / path).write_text(text)

    def program(self, path, text):
        self.write(path, text)
        (self.top / path).chmod(0o755)

    def run(self, *words, how=("./wst",), path=None, seconds="0", text=""):
        """Runs the launcher, or another command, and gives its status, output and fault output."""
        path = f"{self.folder}/bin:{os.environ['PATH']}" if path is None else path
        env = {**os.environ, "PATH": path, "BUILDS": str(self.builds), "BUILD_SECONDS": seconds}
        given = {"cwd": self.top, "env": env, "input": text, "capture_output": True, "text": True, "timeout": 60}
        ran = subprocess.run([*how, *words], **given)
        return ran.returncode, ran.stdout, ran.stderr

    def tools_alone(self):
        """A folder with what the launchers call, but rt."""
        tools = self.folder / "tools"
        tools.mkdir()
        for name in TOOLS:
            (tools / name).symlink_to(shutil.which(name))
        return tools

    def shell(self, script):
        """Runs a script with the functions of tools/built.sh, and gives its output."""
        script = f'root={self.top.as_posix()!r}; . "$root/tools/built.sh"; {script}'
        return subprocess.run(["sh", "-c", script], capture_output=True, text=True, timeout=60).stdout.strip()

    def notes(self):
        """What the stand-ins noted, a line each."""
        return self.builds.read_text().splitlines() if self.builds.exists() else []

    def count(self):
        """How often a program was begun."""
        return sum(note.endswith("run -- --help") or note.startswith("wst begins") for note in self.notes())

    def crate(self, name, *below, text="calm"):
        """Adds a library, which stands on these."""
        self.write(f"crates/{name}/src/lib.rt", f"{text}\n")
        self.write("crates.txt", f"{name}: {' '.join(below)}\n" + (self.top / "crates.txt").read_text())

    def stand_on(self, *below):
        """The program stands on these libraries."""
        text = (self.top / "crates.txt").read_text()
        self.write("crates.txt", text.replace("wst:", f"wst: {' '.join(below)}"))
