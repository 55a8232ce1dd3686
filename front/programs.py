"""The proved programs behind ./placardpan: each is proved and built when it is first needed, and again where what it is made of has changed.

In a release (tools/release) the built programs stand in bin/, and nothing is built."""
import fcntl
import os
import re
import select
import shutil
import subprocess
import sys

from endings import Failed

HERE = os.path.dirname(os.path.dirname(os.path.abspath(__file__)))
QUIET = 3.0  # seconds after which a build is told of, also where nothing was proved yet


def tool(name):
    return os.path.join(HERE, "tools", name)


def say(text, end="\n"):
    sys.stderr.write(text + end)
    sys.stderr.flush()


# ---- building


def made_of(name):
    """What the program is made of, as one sum; nothing where it is not built."""
    done = subprocess.run([tool("made-of"), "--sum", name], stdout=subprocess.PIPE, stderr=subprocess.DEVNULL)
    return done.stdout.decode().strip() if done.returncode == 0 else ""


def is_built(name, kept):
    """Is the program built of what is there now?"""
    try:
        with open(kept) as file:
            before = file.read().strip()
    except OSError:
        return False
    return before != "" and before == made_of(name)


def lines_of(pipe):
    """The lines that come through a pipe, and None whenever none has come for a while."""
    rest = b""
    while True:
        if not select.select([pipe], [], [], QUIET)[0]:
            yield None
            continue
        some = os.read(pipe.fileno(), 65536)
        if not some:
            return
        *whole, rest = (rest + some).split(b"\n")
        for line in whole:
            yield line.decode(errors="replace")


def tell_progress(pipe, log, crates):
    """What rt prints, kept in the log, and told as the crates that it proves, of at most so many (it names none that is built already).
    Whether the program was built: rt says then that it runs it."""
    before, after = ("\r\033[K", "") if sys.stderr.isatty() else ("", "\n")
    proved, begun, crate, is_built = 0, False, "", False
    for line in lines_of(pipe):
        if line is not None:
            log.write(line + "\n")
        if not begun and (line is None or line.startswith("fn ")):
            begun = True
            say("placardpan: proving and building the program; the first time this takes some minutes")
        line = line or ""
        found = re.match(r"crate (\w+): modules loaded=", line)
        crate = found.group(1) if found else crate
        if line.startswith("logic=proved "):
            proved += 1
            if begun:
                say("%splacardpan: %d proved of at most %d crates, %s" % (before, proved, crates, crate), after)
        is_built = is_built or line.startswith("rt: running out/")
    if begun and after == "":
        say("")
    return is_built


def build(name):
    """Proves and builds the program, unless it is built of what is there now. Builds that are begun at once take turns."""
    if os.path.exists(os.path.join(HERE, "bin", name)):
        return
    own = os.path.join(HERE, "target", name)
    kept, log = os.path.join(own, "made-of"), os.path.join(own, "log")
    if is_built(name, kept):
        return
    if shutil.which("rt") is None:
        raise Failed("the program is not built, and the Rattle kit's command rt is not there to build it")
    os.makedirs(own, exist_ok=True)
    with open(os.path.join(HERE, "target/placardpan.lock"), "w") as lock:
        fcntl.flock(lock, fcntl.LOCK_EX)
        if is_built(name, kept):
            return
        if os.path.exists(kept):
            os.remove(kept)
        crates = subprocess.run([tool("made-of"), name], stdout=subprocess.PIPE).stdout.split()
        # rt run proves, builds and then runs the program, here on an empty input; how that run ends has no meaning
        with open(log, "w") as file:
            folder = os.path.join(HERE, "crates", name)
            child = subprocess.Popen(["rt", "run"], cwd=folder, stdin=subprocess.DEVNULL, stdout=subprocess.PIPE, stderr=subprocess.STDOUT)
            is_made = tell_progress(child.stdout, file, len(crates))
        child.wait()
        if not is_made:
            raise Failed("the program is not built; the log is in %s" % log)
        with open(kept, "w") as file:
            file.write(made_of(name) + "\n")


# ---- running


def words_of(name, words):
    """The words that run the built program."""
    ready = os.path.join(HERE, "bin", name)
    return [ready] + words if os.path.exists(ready) else [tool("run"), name] + words


def run(name, words=(), given=b""):
    """What the program writes, given these bytes on standard input."""
    done = subprocess.run(words_of(name, list(words)), input=given, stdout=subprocess.PIPE)
    if done.returncode != 0:
        raise Failed("the program %s has failed, with status %d" % (name, done.returncode))
    return done.stdout


def live(name, words, given=None):
    """The lines that the program writes, as they come; it has this command's own standard input, or the given bytes."""
    stdin = subprocess.PIPE if given is not None else None
    child = subprocess.Popen(words_of(name, list(words)), stdin=stdin, stdout=subprocess.PIPE)
    if given is not None:
        child.stdin.write(given)
        child.stdin.close()
    for line in child.stdout:
        yield line.decode(errors="replace").rstrip("\n")
    if child.wait() != 0:
        raise Failed("the program %s has failed, with status %d" % (name, child.returncode))
