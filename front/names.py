"""Names of a block's variables: given as words, or in a small text file beside the block, NAME.names for NAME.block; else x1, x2, ..

Such a file has the names in order, one to a line or parted by white space; '#' starts a comment. Where a person reads, any name will do; a text that
is to be made a block again (tools/condition.py) asks for letters and digits that begin with a letter."""
import os

from condition import is_name
from endings import Usage
import files


def beside(path):
    """The file of names that belongs to a block."""
    return os.path.splitext(path)[0] + ".names"


def listed(text, variables):
    """The names of a file: its lines where there are just as many, else its words."""
    lines = [line.split("#")[0].strip() for line in text.split("\n")]
    lines = [line for line in lines if line]
    return lines if len(lines) == variables else [word for line in lines for word in line.split()]


def of(path, variables, given=(), strict=False):
    """The names of so many variables: the given ones, those beside the block, or x1, x2, ..; strict: such as a text can be read back with."""
    where, names = "the names given", list(given)
    if not names and path is not None and os.path.exists(beside(path)):
        where = beside(path)
        names = listed(files.read_text(where), variables)
    elif not names:
        return ["x%d" % (i + 1) for i in range(variables)]
    if len(names) != variables:
        raise Usage("%s: %d names, and the block has %d variables" % (where, len(names), variables))
    if len(set(names)) != len(names):
        raise Usage("%s: the names must differ" % where)
    if strict and not all(map(is_name, names)):
        raise Usage("%s: in a text a name is letters and digits that begin with a letter; AND, OR and in are none" % where)
    return names
