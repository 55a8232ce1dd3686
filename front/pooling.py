"""The command `pool`: a release's pool of polynomials (request #113), by the lines of a script, or of a folder of blocks shown as a text."""
import os
import re

import files
import names
import programs
import running
import shortening
from condition import Bits, read_polynomial, shown_polynomial
from endings import ANSWERED, REFUSED, USAGE, Usage

TERM = re.compile(r"(-?[0-9]+):([0-9.]+)")


def read_form(words):
    """A form as `show` prints it: terms c:e1.e2..en."""
    return tuple((tuple(map(int, exponents.split("."))), int(c)) for c, exponents in (TERM.fullmatch(word).groups() for word in words))


def table_bits(block):
    """The bits of a block's table: all between its head of 40 bits and its tree, as the block has them."""
    bits = Bits(block)
    edition, variables, polynomials = bits.field(4), bits.field(5), bits.field(7)
    bits.field(24)
    for _ in range(polynomials):
        read_polynomial(bits, edition, variables)
    return bits.at - 40


def form_bits(form):
    """The bits of a form in a table of edition 1: a term count, and for each term a sign, a magnitude and the exponents."""
    return 5 + sum(32 + 4 * len(exponents) for exponents, _ in form)


def script_of(folder):
    """The script that adds each block of a folder, and shows the pool."""
    paths = list(shortening.blocks_in([folder]))
    return "".join("add %d %s\n" % (number, path) for number, path in enumerate(paths)) + "show\n"


def shown(script, lines, called):
    """The pool's lines for a person: each form as a text with its names, and at the end what the release saves."""
    calls = [line for line in script.split("\n") if line]
    present, result, variables, status = {}, [], None, ANSWERED
    at, rest = 0, list(lines)
    for call in calls:
        words = call.split(" ", 2)
        first, rest = rest[0], rest[1:]
        if words[0] != "show" or not first.startswith("FORMS"):
            result.append("%s: %s" % (call, first))
            if first.startswith("ADDED"):
                present[int(words[1])] = words[2]
            elif first.startswith("WITHDRAWN"):
                present.pop(int(words[1]), None)
            elif first.startswith("REFUSED"):
                status = max(status, REFUSED)
            else:
                status = USAGE
            continue
        forms, blocks = int(first.split()[1]), int(first.split()[3])
        result.append("%d forms of %d blocks" % (forms, blocks))
        pool = 0
        for line in rest[:forms]:
            slot, uses, numbers, *terms = line.split(" ")
            form = read_form(terms)
            pool += form_bits(form)
            if called is None:
                path = present[min(present)]
                called = names.of(path, len(form[0][0]))
            result.append("%4s  %-60s used by %s: %s" % (slot, shown_polynomial(called, form), uses, numbers))
        rest = rest[forms:]
        tables = sum(table_bits(files.read_block(path)) for path in present.values())
        result.append("tables of the blocks: %d bytes; the pool: %d bytes; saved: %d bytes" % (-(-tables // 8), -(-pool // 8), -(-tables // 8) - -(-pool // 8)))
    return result, status


def pool(options, words):
    """The lines that the proved program prints for a script; of a folder, or with --text, the pool for a person."""
    if len(words) > 1:
        raise Usage("one SCRIPT or FOLDER, or a script on standard input")
    folder = bool(words) and os.path.isdir(words[0])
    script = script_of(words[0]) if folder else files.read_text(words[0] if words else None)
    programs.build("placardpan_pool")
    lines = programs.live("placardpan_pool", [], script.encode())
    if not folder and "text" not in options:
        return running.told(lines)
    result, status = shown(script, lines, None)
    files.put("".join(line + "\n" for line in result))
    return status
