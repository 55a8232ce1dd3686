"""What became of each line of a chart, in words: from what `placardpan_why` prints (request #106), and from the places of the answer (request #105)."""
from functools import reduce
from math import gcd

import programs
from condition import SETS, SIGNS, atoms, shown_polynomial

MIRROR = {0: 0, 1: 4, 2: 2, 3: 6, 4: 1, 5: 5, 6: 3, 7: 7}


class Fate:
    """What became of one atom: `word` is KEPT, NARROWED, MERGED, REMOVED, FALSE, or GONE where no reason is told."""

    def __init__(self, word, chosen=None, mirrored=False, places=()):
        self.word, self.chosen, self.mirrored, self.places = word, chosen, mirrored, list(places)


def normal(form):
    """The normal form of a polynomial: divided by the greatest common divisor of its coefficients, the first one above 0."""
    divisor = reduce(gcd, (abs(c) for _, c in form))
    divisor = -divisor if form[0][1] < 0 else divisor
    return tuple((e, c // divisor) for e, c in form)


def is_negated(form):
    return form[0][1] < 0


def is_constant(form):
    return len(form) == 1 and not any(form[0][0])


def own_set(atom):
    """An atom's set as read, mirrored if its normal form is negated."""
    return MIRROR[atom[2]] if is_negated(atom[1]) else atom[2]


# ---- from the lines of placardpan_why


def read_fate(words):
    """The fate that a line tells: the place, then `KEPT < MIRRORED`, `MERGED 3`, `REMOVED >= BY 0 2` and so on."""
    word, rest = words[1], words[2:]
    if word == "MERGED":
        return Fate(word, places=[int(rest[0])])
    chosen, mirrored = None, False
    if rest and rest[0] in SETS:
        chosen, rest = SETS[rest[0]], rest[1:]
    if rest and rest[0] == "MIRRORED":
        mirrored, rest = True, rest[1:]
    return Fate(word, chosen, mirrored, map(int, rest[1:]) if rest[:1] == ["BY"] else ())


def lines_for(block):
    """The head line of `placardpan_why`, and a line for each atom."""
    programs.build("placardpan_why")
    return programs.run("placardpan_why", [], block).decode().splitlines()


def by_reasons(lines):
    """The fates of a block's atoms, by these lines."""
    return [read_fate(line.split()) for line in lines[1:]]


# ---- from the places of the answer


def by_places(given, answered, places):
    """The fates of a block's atoms, by the places of its answer: kept or narrowed where the answer has the atom, else gone, and no reason is told."""
    kept = {place: atom for place, atom in zip(places, atoms(answered))}
    fates = []
    for place, atom in enumerate(atoms(given)):
        if place not in kept:
            fates.append(Fate("GONE"))
        else:
            chosen = kept[place][2]
            fates.append(Fate("KEPT" if chosen == own_set(atom) else "NARROWED", chosen, is_negated(atom[1])))
    return fates


# ---- in words


def shown_atom(names, form, chosen):
    return "%s %s" % (shown_polynomial(names, form), SIGNS[chosen])


def both(texts):
    return texts[0] if len(texts) == 1 else ", ".join(texts[:-1]) + " and " + texts[-1]


def named(names, given, fates, place):
    """A named atom as its own record has it: its normal form with the set that it carried."""
    atom, fate = given[place], fates[place]
    chosen = own_set(atom) if fate.chosen is None else fate.chosen
    return shown_atom(names, normal(atom[1]), chosen)


def in_words(names, given, fates, place):
    """What became of the atom at a place."""
    fate, atom = fates[place], given[place]
    if fate.word == "KEPT":
        return "kept"
    if fate.word == "NARROWED":
        return "kept, narrowed to %s" % shown_atom(names, normal(atom[1]), fate.chosen)
    if fate.word == "MERGED":
        return "merged into line %d" % fate.places[0]
    if fate.word == "FALSE":
        lines = both(["line %d" % p for p in fate.places])
        return "the whole never holds: %s" % (lines + " cannot hold" if len(fate.places) == 1 else lines + " cannot hold together")
    if fate.word == "GONE":
        return "gone"
    if fate.chosen is None:
        return "gone: it always holds"
    if not fate.places:
        return "gone: its terms alone say it"
    says = "says it" if len(fate.places) == 1 else "say it"
    return "gone: %s %s (%s)" % (both([named(names, given, fates, p) for p in fate.places]), says, both(["line %d" % p for p in fate.places]))
