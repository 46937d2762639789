"""Runs of the program: what a scenario costs, for bench/leases and bench/watchers, and what it comes to where an allocation fails, for
bench/growths, bench/attempts and bench/refusals. What is measured is a difference: of a scenario with it and one without."""
import argparse
import concurrent.futures
import contextlib
import os
import pathlib
import resource
import shutil
import subprocess
import sys
import tempfile

HERE = pathlib.Path(__file__).resolve().parent
TOP = HERE.parent

# Counts instructions. Without ERMS the C library copies by words: the instruction that copies any number of bytes is counted once for each of them.
COUNTING = ["env", "GLIBC_TUNABLES=glibc.cpu.hwcaps=-ERMS", "valgrind", "--tool=callgrind", "--callgrind-out-file=/dev/null"]

# What a script says whose report could not be made.
OUT_OF_MEMORY = "stmrun: out of memory"


def parser_of(description):
    """The parser of a command line that may name the program."""
    parser = argparse.ArgumentParser(description=description, formatter_class=argparse.RawDescriptionHelpFormatter)
    parser.add_argument("--program", metavar="STMRUN", help="the program; else the proved one is built (./stmrun --prove) and taken")
    return parser


def proved():
    """Builds the proved program, and gives where it is: what counts instructions or makes allocations fail is not to meet the script ./stmrun."""
    subprocess.run([TOP / "stmrun", "--prove"], check=True)
    return TOP / "crates" / "stmrun" / "out" / "stmrun"


@contextlib.contextmanager
def asked_costs(description):
    """What the runs of the program cost that the command line names."""
    parser = parser_of(description)
    parser.add_argument("--instructions", action="store_true", help="instructions by valgrind, which takes some minutes, and not processor time")
    given = parser.parse_args()
    with tempfile.TemporaryDirectory() as folder:
        yield Costs(given.program or proved(), folder, given.instructions)


@contextlib.contextmanager
def asked_refusals(description):
    """Scripts with refusals of the program that the command line names, and whether their allocations are only to be counted."""
    parser = parser_of(description)
    parser.add_argument("--count", action="store_true", help="only count allocations, and make none fail")
    given = parser.parse_args()
    with tempfile.TemporaryDirectory() as folder:
        yield Refusals(given.program or proved(), folder), given.count


def timed(words, out, memory=None, seconds=None):
    """The status, the processor time and the words on standard error of a run, which may use this much memory and is stopped after this many seconds."""

    def limit():
        if memory is not None:
            resource.setrlimit(resource.RLIMIT_AS, (memory, memory))
        if seconds is not None:
            resource.setrlimit(resource.RLIMIT_CPU, (int(seconds) + 1, int(seconds) + 2))

    before = resource.getrusage(resource.RUSAGE_CHILDREN)
    with open(out, "wb") as written:
        done = subprocess.run([str(word) for word in words], stdin=subprocess.DEVNULL, stdout=written, stderr=subprocess.PIPE, preexec_fn=limit, check=False)
    after = resource.getrusage(resource.RUSAGE_CHILDREN)
    return done.returncode, after.ru_utime + after.ru_stime - before.ru_utime - before.ru_stime, done.stderr.decode("utf-8", "replace").strip()


class Costs:
    """What runs of the program cost: the processor time, the least of 5 to 50 runs within two seconds, or the instructions of one."""

    def __init__(self, program, folder, instructions):
        self.program = program
        self.folder = pathlib.Path(folder)
        self.instructions = instructions
        self.unit = "instructions" if instructions else "ns"

    def run(self, words):
        status, seconds, said = timed(words, self.folder / "written")
        if status != 0:
            sys.exit(f"{words}: status {status} {said}")
        return seconds, said

    def of(self, scenario, command=("script",)):
        """What a command costs on a scenario."""
        file = self.folder / "scenario.json"
        file.write_text(scenario.text(), encoding="utf-8")
        words = [self.program, *command, file]
        if self.instructions:
            said = self.run([*COUNTING, *words])[1]
            return next(int(line.split()[-1]) for line in said.splitlines() if "Collected" in line)
        times = []
        while len(times) < 5 or len(times) < 50 and sum(times) < 2:
            times.append(self.run(words)[0])
        return min(times) * 1e9

    def show(self, what, count, each):
        print(f"{what:<28} {count:>6} {each:>8.0f} {self.unit} each", flush=True)


class Refusals:
    """Scripts of a program in which one allocation fails, by a library that is loaded before it, which the kit's clang compiles."""

    def __init__(self, program, folder):
        self.program = os.path.abspath(program)
        self.library = f"{folder}/refusals.so"
        clang = pathlib.Path(os.path.realpath(shutil.which("rt") or "rt")).parent.parent / "toolchain" / "bin" / "clang"
        words = ["--target=x86_64-unknown-linux-gnu", "-shared", "-fPIC", "-O2", "-nostdlib", "-fuse-ld=lld"]
        subprocess.run([clang, *words, HERE / "refusals.c", "-o", self.library], check=True)

    def ended(self, words, growth, folder=None, given=""):
        """How a command ends in which this allocation fails, 0 for none: its status, what it wrote and said, and whether it came to the refusal."""
        env = {**os.environ, "LD_PRELOAD": self.library, "REFUSE": str(growth)}
        ran = subprocess.run([self.program, *words], cwd=folder, input=given.encode(), env=env, capture_output=True, timeout=60, check=False)
        said = ran.stderr.decode().splitlines()
        return ran.returncode, ran.stdout.decode(), [it for it in said if it != "growth refused"], "growth refused" in said

    def run(self, scenario, growth):
        """The same of a script of a scenario."""
        return self.ended(["script"], growth, given=scenario)

    def count(self, scenario):
        """How many allocations a script makes: one that it does not make does not fail."""
        least, above = 0, 1
        while self.run(scenario, above)[3]:
            least, above = above, 2 * above
        while above - least > 1:
            middle = (least + above) // 2
            if self.run(scenario, middle)[3]:
                least = middle
            else:
                above = middle
        return least

    def is_kept(self, scenario, report, growth):
        """Whether the failure of this allocation keeps the report from being made. Ends the script where the run is wrong."""
        status, written, said, met = self.run(scenario, growth)
        if (status, written, said) == (0, report, []):
            return False
        if met and (status, written, said) == (3, "", [OUT_OF_MEMORY]):
            return True
        told = "\n".join(said)
        sys.exit(f"script with growth {growth} refused: status {status}\n{written}{told}")

    def refuse_each(self, scenario, report):
        """Makes a script with no allocation failing, and with each failing in a run of its own, as many runs at a time as there are processors. Prints how many there
        are, and how often the report was not made."""
        count = self.count(scenario)
        with concurrent.futures.ThreadPoolExecutor(os.cpu_count()) as pool:
            kept = sum(pool.map(lambda growth: self.is_kept(scenario, report, growth), range(count + 1)))
        print(f"{count} growths, each refused in turn; {OUT_OF_MEMORY}: {kept}", flush=True)
