"""The commands of ./placardpan, each with its words and its help: the one source of --help, docs/USAGE.md and the completion."""
import explaining
import files
import page
import pooling
import running
import shortening
import texts
from endings import ANSWERED, FAILED, REFUSED, USAGE


class Command:
    """A command: its name, the words behind it, a line on what it does, more of it, what carries it out, its options (with a word or without), and
    examples to be run in the project's folder (tools/commands-test runs them)."""

    def __init__(self, name, words, does, more, carry_out, flags=(), takes=(), examples=()):
        self.name, self.words, self.does, self.more = name, words, does, more
        self.carry_out, self.flags, self.takes, self.examples = carry_out, flags, takes, examples


def with_line(word):
    """The command that shortens with a line more."""
    return lambda options, words: shortening.shorten(dict(options, **{word: True}), words)


def completion(options, words):
    """A script for bash that completes the commands' names."""
    files.put("complete -o default -W '%s' placardpan ./placardpan\n" % " ".join(command.name for command in COMMANDS))
    return ANSWERED


COMMANDS = [
    Command(
        "shorten",
        "[--plain] [-o NEW] [FILE]",
        "shortens the block in FILE, or on standard input; the word shorten may be left out",
        "Prints the report line (FORMULA, ALWAYS or UNSATISFIABLE with atoms in, atoms out, polynomials in, polynomials out) and the new block in hex;\n"
        "or REFUSED and the number. With -o the new block's bytes go to the file NEW. With --plain every deduction is made by the plain engine, which\n"
        "tests single values; the answer is the same. --places and --rounds print the lines of the two commands below too.",
        shortening.shorten,
        flags=("plain", "places", "rounds"),
        takes=("o",),
        examples=(
            "./placardpan examples/load_chart.block",
            "./placardpan shorten --plain -o short.block examples/load_chart.block",
        ),
    ),
    Command(
        "places",
        "[FILE]",
        "as shorten, and for each atom of the new block the place it comes from",
        "The last line is PLACES and, for each atom of the new block in order, the number, from 0, of the given block's atom in reading order.",
        with_line("places"),
        flags=("plain", "rounds"),
        takes=("o",),
        examples=(
            "./placardpan places examples/load_chart.block",
        ),
    ),
    Command(
        "rounds",
        "[FILE]",
        "as shorten, and the largest number of rounds that one run took",
        "The last line is ROUNDS and the number.",
        with_line("rounds"),
        flags=("plain", "places"),
        takes=("o",),
        examples=(
            "./placardpan rounds examples/load_chart.block",
        ),
    ),
    Command(
        "many",
        "[--jobs N] [-o FOLDER] FILE|FOLDER ..",
        "shortens many blocks, as many at once as the machine has processors",
        "A line for each block, in order: its file, the report line and the new block, parted by tabs. Of a folder the files NAME.block are taken. With -o\n"
        "the new blocks go to FOLDER under the same names. Progress is told on standard error, and the status is the worst of all.\n"
        "Blocks share nothing, so several machines can share the work: see docs/USAGE.md.",
        shortening.many,
        takes=("jobs", "o"),
        examples=(
            "./placardpan many -o shorter examples/release",
        ),
    ),
    Command(
        "text",
        "[--short] [-o TEXT] FILE [NAME ..]",
        "prints a block as a text; with --short the shortened one, each atom with its place",
        "The names are those of the variables; without them the file NAME.names beside the block is taken, else x1, x2, .. A block that is not accepted is\n"
        "refused. With --short the first line is the report line, and each atom's line ends in its place, as the comment # [7].",
        texts.text,
        flags=("short",),
        takes=("o",),
        examples=(
            "./placardpan text examples/load_chart.block",
            "./placardpan text --short examples/release/chart_00.block",
        ),
    ),
    Command(
        "block",
        "[-o BLOCK] [TEXT]",
        "makes a block of a text",
        "The first line of the text names the variables, then one node to a line, two spaces deeper under its AND or OR: AND, OR, or a polynomial, a sign\n"
        "and 0, as 2*load*radius - 90000 <= 0. What is no condition is told by line and column. With -o the block's bytes go to a file, and the variables'\n"
        "names to the file NAME.names beside it. Nothing is shortened.",
        texts.block,
        takes=("o",),
        examples=(
            "./placardpan block -o chart.block examples/load_chart.txt",
        ),
    ),
    Command(
        "why",
        "[--lines] [FILE [NAME ..]]",
        "tells why each line of a chart whose lines have to hold together is kept, narrowed, merged or gone",
        "The root of the block is an AND of atoms, or an atom. First the verdict, how many lines the chart has and how many are kept; then each line with what became\n"
        "of it, and by which lines: these suffice under the rules, and with any one left out they no longer do. The names are those of the variables, as of text. With\n"
        "--lines the proved program's own lines are printed.",
        explaining.why,
        flags=("lines",),
        examples=(
            "./placardpan why examples/limits.block",
            "./placardpan why --lines examples/limits.block",
        ),
    ),
    Command(
        "evaluate",
        "READING .. <BLOCK, or FILE <LINES",
        "runs a block on readings: PERMIT, DENY, or REFUSED and the number",
        "With readings as words the block is on standard input. With a FILE each line on standard input has the readings of one lift, and gets a line of answer\n"
        "as it comes; a line that is not n whole numbers of 32 bits is REFUSED 16, and the stream goes on.",
        running.evaluate,
        examples=(
            "./placardpan evaluate examples/load_chart.block <examples/shift.readings",
            "./placardpan evaluate 8000 90 40000 30 60 <examples/load_chart.block",
        ),
    ),
    Command(
        "convert",
        "[1|2] [-o NEW] [FILE]",
        "writes a block in the other edition, or in edition 1 or 2",
        "The block's bytes go to standard output, or with -o to a file; its sizes are told on standard error. The formula is the same.",
        running.convert,
        takes=("o",),
        examples=(
            "./placardpan convert -o two.block examples/load_chart.block",
            "./placardpan convert 1 -o one.block two.block",
        ),
    ),
    Command(
        "smt",
        "[-o SCRIPT] [FILE] | smt back [-o BLOCK] [SCRIPT]",
        "writes the shortened block as an SMT-LIB script, or a script's block",
        "The script (docs/SMTLIB.md) goes to standard output, or with -o to a file. With `back` a script is read: its block goes to standard output as a line\n"
        "of hex pairs, or with -o to a file; or REFUSED 25 and the position, from 0, of the first byte at which no script goes on.",
        running.smt,
        takes=("o",),
        examples=(
            "./placardpan smt -o chart.smt2 examples/load_chart.block",
            "./placardpan smt back -o again.block chart.smt2",
        ),
    ),
    Command(
        "pool",
        "[--text] [SCRIPT|FOLDER]",
        "keeps the pool of a release's polynomials",
        "A script has the lines `add 3 FILE`, `withdraw 3` and `show`, and gets the proved program's lines. Of a FOLDER all blocks are added and the pool is shown\n"
        "as a text with the variables' names, and what the release saves; a script likewise with --text.",
        pooling.pool,
        flags=("text",),
        examples=(
            "./placardpan pool examples/release",
            "./placardpan pool examples/release/release.calls",
        ),
    ),
    Command(
        "load",
        "[--sync] AREA [FILE]",
        "loads a block into the file AREA, byte by byte, so that a power cut cannot hurt",
        "AREA stands for the controller's memory. Prints LOADED and the length, or REFUSED and the number. With --sync each write is waited for.",
        running.load,
        flags=("sync",),
        examples=(
            "head -c 1024 /dev/zero | tr '\\0' '\\377' >area",
            "./placardpan load area examples/load_chart.block",
        ),
    ),
    Command(
        "start",
        "AREA",
        "the check at the start: STARTS and the length of the block in AREA, or REFUSED and the number",
        "This is the loader's check: it reads to the last bit, and what it refuses must not be started.",
        running.start,
        examples=(
            "./placardpan start area",
        ),
    ),
    Command(
        "page",
        "--out PAGE BLOCK|FOLDER ..",
        "writes the inspection body's page for a release's blocks, as one HTML file",
        "The two questions with their answers, and for each block which lines of its chart are kept, narrowed or gone. Blocks that are refused appear with number\n"
        "and meaning, and make the status 1.",
        page.page,
        takes=("out",),
        examples=(
            "./placardpan page --out page.html examples/release examples/limits.block",
        ),
    ),
    Command(
        "completion",
        "",
        "prints a script for bash that completes these words",
        "To be read by the shell, as in the example.",
        completion,
        examples=("source <(./placardpan completion)",),
    ),
]

STATUS = (
    "Exit status: %d answered; %d refused, with the number and what it means on standard error; %d wrong words, or a file that cannot be read; %d anything else\n"
    "that went wrong (a program that is not built, an output that cannot be written)." % (ANSWERED, REFUSED, USAGE, FAILED)
)


def find(name):
    return next((command for command in COMMANDS if command.name == name), None)


def help_of(command):
    shown = "".join("  %s\n" % example for example in command.examples)
    return "usage: placardpan %s %s\n\n%s\n\n%s\n\nFor example:\n\n%s" % (command.name, command.words, sentence(command.does), command.more, shown)


def sentence(text):
    return text[0].upper() + text[1:] + "."


def help_of_all():
    rows = "".join("  %-11s %s\n" % (command.name, command.does) for command in COMMANDS)
    return (
        "usage: placardpan [FILE], placardpan COMMAND ..\n\n"
        "Without a command the block in FILE, or on standard input, is shortened. The commands:\n\n%s\n"
        "placardpan COMMAND --help tells more of one. A file whose name is a command's is named ./FILE.\n\n%s\n" % (rows, STATUS)
    )


def markdown():
    """docs/USAGE.md."""
    parts = ["# Usage\n\nMade from the same source as `./placardpan --help` (`tools/generated`).\n\n    ./placardpan [FILE]\n    ./placardpan COMMAND ..\n"]
    parts.append("\nWithout a command the block in FILE, or on standard input, is shortened. A file whose name is a command's is named `./FILE`.\n")
    parts.append("\n%s\n" % STATUS.replace("\n", " "))
    parts.append("\nOutput that programs read goes to standard output alone. `-o FILE` writes to a new file first and then moves it, so that a cut leaves the old file or\n")
    parts.append("the new one. Names of variables stand in a file `NAME.names` beside `NAME.block`, and are used wherever a person reads.\n")
    for command in COMMANDS:
        parts.append("\n## %s\n\n    ./placardpan %s\n" % (command.name, (command.name + " " + command.words).strip()))
        parts.append("\n%s %s For example:\n\n" % (sentence(command.does), command.more.replace("\n", " ")))
        parts.append("".join("    $ %s\n" % example for example in command.examples))
    parts.append(PARALLEL)
    return "".join(parts)


PARALLEL = """
## Several machines

Blocks share nothing, so a release can be shared out with GNU parallel (Debian's package `parallel`). `-S` names the machines, which it reaches by ssh (`:` is
this one); each has the project at the same place, with the programs built. Here they are called crane and yard, and take sixteen blocks at a time:

    $ ls examples/release/*.block | parallel -S crane,yard -N 16 --workdir . ./placardpan many {}

The status of `parallel` is the number of batches that ended with another status than 0. With `-k` behind `parallel` the lines stay in the order of the blocks.
"""
