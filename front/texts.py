"""The commands between texts and blocks."""
import os

import answers
import files
import names
from condition import Bad, read_block, read_text, write_block, write_text
from endings import ANSWERED, REFUSED, Usage


def tree_of(block, path):
    """The edition, the variables and the tree of a block that was accepted."""
    try:
        return read_block(block)
    except (ValueError, RecursionError) as error:
        raise Usage("%s: this is no block: %s" % (path or "standard input", error))


def text(options, words):
    """A block as a text; with --short the report line, and the shortened one with each atom's place."""
    path, given = (words[0] if words else None), words[1:]
    block = files.read_block(path)
    found = answers.answer(block, ["places"])
    if found.refusal is not None:
        files.put(found.lines[0] + "\n")
        answers.tell_refusal(found.refusal, path or "")
        return REFUSED
    if "short" in options:
        edition, variables, root = tree_of(found.block, path)
        shown = found.lines[0] + "\n" + write_text(edition, names.of(path, variables, given, strict=True), root, found.places)
    else:
        edition, variables, root = tree_of(block, path)
        shown = write_text(edition, names.of(path, variables, given, strict=True), root)
    if "o" in options:
        files.write(options["o"], shown.encode())
    else:
        files.put(shown)
    return ANSWERED


def block(options, words):
    """A text as a block: its bytes to standard output, or with -o to a file, and the names to a file beside it."""
    if len(words) > 1:
        raise Usage("one FILE, or standard input")
    path = words[0] if words else None
    try:
        edition, given, root = read_text(files.read_text(path))
    except Bad as bad:
        raise Usage("%s:%d:%d: %s" % (path or "standard input", bad.line, bad.column, bad.why))
    made = write_block(edition, len(given), root)
    if "o" in options:
        files.write(options["o"], made)
        if os.path.splitext(options["o"])[1] != ".names":
            files.write(names.beside(options["o"]), ("\n".join(given) + "\n").encode())
    else:
        files.put_bytes(made)
    return ANSWERED
