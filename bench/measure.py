"""What the commands of this folder share: building what is missing, the blocks, and how a call is measured.

On x86-64 all run as they are. On Arm the proved program is for x86-64 and runs under qemu-x86_64; plain.c is then compiled by Debian's
cross compiler and runs under the same one. CC, CFLAGS and EMULATOR override."""
import os
import platform
import resource
import subprocess
import sys
import tempfile

ROOT = os.path.join(os.path.dirname(os.path.abspath(__file__)), "..")
os.chdir(ROOT)
sys.path.insert(0, "front")
import programs

INDEPENDENT = "independent/target/release/independent"
PROGRAM = "crates/placardpan_repeat/out/placardpan_repeat"
PLAIN = "target/bench/plain"
PLAIN_COUNT = "target/bench/plain-count"

NATIVE = platform.machine() == "x86_64"
EMULATOR = os.environ.get("EMULATOR", "")


def output(words, given=b""):
    return subprocess.run(words, input=given, stdout=subprocess.PIPE, check=True).stdout


def kit():
    """The kit's folder with the loader and the C library of its programs."""
    return os.path.join(os.path.dirname(output(["rt", "doc"]).decode().strip()), "toolchain")


def emulator():
    """The words before an x86-64 program's name: none on x86-64."""
    if EMULATOR:
        return [EMULATOR]
    return [] if NATIVE else ["qemu-x86_64"]


def program(path=PROGRAM):
    """The words that run a proved program: under an emulator it takes the kit's loader and C library."""
    before = emulator()
    if not before:
        return [path]
    library = os.path.join(kit(), "lib")
    return before + [os.path.join(library, "ld-linux-x86-64.so.2"), "--library-path", library, path]


def compiler():
    if "CC" in os.environ:
        return os.environ["CC"].split()
    return ["cc"] if NATIVE else ["x86_64-linux-gnu-gcc"]


def flags():
    if "CFLAGS" in os.environ:
        return os.environ["CFLAGS"].split()
    return ["-O2", "-march=native"] if not emulator() else ["-O2", "-static"]


def build(proved=True):
    """Builds what is missing or older than its source; rt proves the program again only if it has changed."""
    subprocess.run(["cargo", "build", "--release", "--offline", "--quiet", "--manifest-path", "independent/Cargo.toml"], check=True)
    os.makedirs("target/bench", exist_ok=True)
    for path, more in [(PLAIN, []), (PLAIN_COUNT, ["-DCOUNT"])]:
        subprocess.run(compiler() + ["-std=c11"] + flags() + more + ["-o", path, "bench/plain.c"], check=True)
    if proved:
        prove("placardpan_repeat")


def prove(name):
    """Proves and builds a program, as ./placardpan does."""
    programs.build(name)


def corpus(words):
    return output([INDEPENDENT, "corpus"] + words.split())


def frame(block):
    """A stream of one block."""
    return len(block).to_bytes(2, "big") + block


# The blocks that are made for two atoms at once (request #111); and those that were made to be as slow as we could make one, run where they are named.
TOGETHER = ["equalities", "sums", "linked"]
SLOWEST_KNOWN = ["again", "asked", "nested", "pinned"]


def blocks():
    """The names, and the blocks that each stands for."""
    cases, rest = [], corpus("cases 0 0")
    while rest:
        length = int.from_bytes(rest[:2], "big")
        cases.append(rest[2 : 2 + length])
        rest = rest[2 + length :]
    yield "cases A to N", cases
    chart = open("examples/load_chart.block", "rb").read()
    yield "load chart", [chart]
    yield "load chart, edition 2", [output([INDEPENDENT, "convert", "2"], chart)]
    for name in ["chain", "linear", "mixed", "deep", "slowest", "back", "zigzag", "scattered", "removed", "worst"] + TOGETHER + SLOWEST_KNOWN:
        yield name, [output([INDEPENDENT, "bench", name])]
    yield "mixed, edition 2", [output([INDEPENDENT, "convert", "2"], output([INDEPENDENT, "bench", "mixed"]))]


# ---- time

RUNS = 3
SHORTEST_RUN = 0.2  # seconds
LONGEST_CALL = 2.0


def run(words, given, limit=None):
    """Processor time in seconds and what was written; none if it took longer than the limit."""
    with tempfile.TemporaryFile() as stdin, tempfile.TemporaryFile() as stdout:
        stdin.write(given)
        stdin.seek(0)
        if limit:
            words = ["timeout", str(limit)] + words
        before = resource.getrusage(resource.RUSAGE_CHILDREN)
        status = subprocess.run(words, stdin=stdin, stdout=stdout).returncode
        after = resource.getrusage(resource.RUSAGE_CHILDREN)
        if status == 124:
            return None
        if status:
            sys.exit("run: %s ended with status %d" % (" ".join(words), status))
        stdout.seek(0)
        return after.ru_utime + after.ru_stime - before.ru_utime - before.ru_stime, stdout.read()


def one_call(words, block, limit=None):
    """Seconds of processor time for one call on the block, and the lines; none where one call takes longer than the limit.

    It is the time of K calls less that of 1 call, over K - 1, K at least 2, the best of several runs; or of one run where a call takes more than 2 s."""

    def calls(times):
        return run(words, times.to_bytes(4, "big") + block, limit)

    first = calls(1)
    if first is None or first[0] > LONGEST_CALL:
        return first
    times, took = 1, first[0]
    while took < SHORTEST_RUN:
        times = max(2 * times, int(times * min(1000, 1.2 * SHORTEST_RUN / max(took, 0.0001))))
        took = calls(times)[0]
    if times == 1:
        times, took = 2, calls(2)[0]
    many = min([took] + [calls(times)[0] for _ in range(RUNS - 1)])
    once = min([first[0]] + [calls(1)[0] for _ in range(RUNS - 1)])
    return (many - once) / (times - 1), first[1]


def shown(seconds):
    if seconds >= 1:
        return "%.2f s" % seconds
    if seconds >= 0.001:
        return "%.2f ms" % (1000 * seconds)
    return "%.2f µs" % (1000000 * seconds)
