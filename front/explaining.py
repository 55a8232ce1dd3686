"""The command `why`: each line of a chart with what became of it."""
import answers
import fates
import files
import names
import texts
from condition import atoms
from endings import ANSWERED, REFUSED, Usage


def refused(lines, path):
    """A refusal, by its line and in words; nothing where there is none."""
    if not lines[0].startswith("REFUSED"):
        return False
    files.put(lines[0] + "\n")
    answers.tell_refusal(int(lines[0].split()[1]), path or "")
    return True


def why(options, words):
    """The head line, then each line of the chart with its fate in words; with --lines what the proved program prints, as it is."""
    path, given = (words[0] if words else None), words[1:]
    if "lines" in options and given:
        raise Usage("one FILE, or standard input")
    block = files.read_block(path)
    lines = fates.lines_for(block)
    if refused(lines, path):
        return REFUSED
    if "lines" not in options:
        _, variables, root = texts.tree_of(block, path)
        lines[1:] = in_words(names.of(path, variables, given), atoms(root), fates.by_reasons(lines))
    files.put("".join(line + "\n" for line in lines))
    return ANSWERED


def in_words(called, chart, found):
    """The chart's lines, each with its place and its fate."""
    shown = [fates.shown_atom(called, atom[1], atom[2]) for atom in chart]
    width = min(max(map(len, shown), default=0), 60)
    return ["%3d  %-*s   %s" % (place, width, shown[place], fates.in_words(called, chart, found, place)) for place in range(len(chart))]
