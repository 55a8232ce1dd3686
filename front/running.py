"""The commands that hand their input on to a proved program and its output back: evaluate, convert, smt, pool, load, start."""
import re
import subprocess

import answers
import files
import programs
from endings import ANSWERED, REFUSED, Usage


def told(lines, what=""):
    """Prints the lines as they come; a refusal among them is told in words too and makes the status 1."""
    status = ANSWERED
    for line in lines:
        files.put(line + "\n")
        found = re.fullmatch(r"REFUSED ([0-9]+)(?: [0-9]+)?", line)
        if found:
            answers.tell_refusal(int(found.group(1)), what)
            status = REFUSED
    return status


def evaluate(options, words):
    """READING .. with the block on standard input, or FILE with lines of readings on standard input."""
    if not words:
        raise Usage("give readings, or the block's FILE and lines of readings on standard input")
    programs.build("placardpan_evaluate")
    if len(words) == 1 and not re.fullmatch("-?[0-9]+", words[0]):
        files.open_to_read(words[0]).close()
    return told(programs.live("placardpan_evaluate", words))


def converted(block, words):
    """The block in another edition, or the number of a refusal; and what the program says of the sizes."""
    programs.build("placardpan_convert")
    done = subprocess.run(programs.words_of("placardpan_convert", words), input=block, stdout=subprocess.PIPE, stderr=subprocess.PIPE)
    said = done.stderr.decode(errors="replace").strip()
    found = re.search(r"^REFUSED ([0-9]+)", said, re.M)
    return done.stdout, said, int(found.group(1)) if found else None


def convert(options, words):
    """The block in the other edition, or in edition 1 or 2: bytes to standard output or with -o to a file, sizes on standard error."""
    edition = [words[0]] if words and words[0] in ("1", "2") else []
    rest = words[len(edition) :]
    if len(rest) > 1:
        raise Usage("one FILE, or standard input")
    made, said, refusal = converted(files.read_block(rest[0] if rest else None), edition)
    if refusal is not None:
        programs.say(said)
        answers.tell_refusal(refusal, rest[0] if rest else "")
        return REFUSED
    if "o" in options:
        files.write(options["o"], made)
    else:
        files.put_bytes(made)
    programs.say(said)
    return ANSWERED


def back(options, words):
    """A script's block, as a line of hex pairs, or with -o its bytes to a file."""
    if len(words) > 1:
        raise Usage("smt back [-o BLOCK] [SCRIPT]")
    path = words[0] if words else None
    text = files.read(path, files.MOST_OF_SCRIPT)
    programs.build("placardpan_smt")
    made = programs.run("placardpan_smt", ["back"], text)
    found = re.fullmatch(rb"REFUSED ([0-9]+) ([0-9]+)\n", made)
    if found:
        files.put_bytes(made)
        answers.tell_refusal(int(found.group(1)), path or "")
        return REFUSED
    if "o" in options:
        files.write(options["o"], bytes.fromhex(made.decode()))
    else:
        files.put_bytes(made)
    return ANSWERED


def smt(options, words):
    """The shortened block as an SMT-LIB script; or, behind the word back, a script's block."""
    if words[:1] == ["back"]:
        return back(options, words[1:])
    if len(words) > 1:
        raise Usage("one FILE, or standard input")
    path = words[0] if words else None
    block = files.read_block(path)
    programs.build("placardpan_smt")
    made = programs.run("placardpan_smt", [], block)
    found = re.fullmatch(rb"REFUSED ([0-9]+)\n", made)
    if found:
        files.put_bytes(made)
        answers.tell_refusal(int(found.group(1)), path or "")
        return REFUSED
    if "o" in options:
        files.write(options["o"], made)
    else:
        files.put_bytes(made)
    return ANSWERED


def load(options, words):
    """A block to the file that stands for the memory, byte by byte in the order of docs/LOADING.md."""
    if not 1 <= len(words) <= 2:
        raise Usage("load AREA [FILE]")
    files.open_to_read(words[0]).close()
    block = files.read_block(words[1] if len(words) == 2 else None)
    programs.build("placardpan_load")
    return told(programs.live("placardpan_load", [words[0]] + (["sync"] if "sync" in options else []), block), words[0])


def start(options, words):
    """The check at the start: what the area starts, or the refusal."""
    if len(words) != 1:
        raise Usage("start AREA")
    files.open_to_read(words[0]).close()
    programs.build("placardpan_start")
    return told(programs.live("placardpan_start", words, b""), words[0])
