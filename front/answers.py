"""What the program `placardpan` says of a block, taken apart."""
import programs
from refusals import meaning

VERDICTS = ("FORMULA", "ALWAYS", "UNSATISFIABLE")


class Answer:
    """The answer to a block: its verdict and counts, the new block, and where they were asked for the places and the rounds; or a refusal's number."""

    def __init__(self, lines):
        words = lines[0].split()
        self.lines, self.refusal = lines, None
        if words[0] == "REFUSED":
            self.refusal = int(words[1])
            return
        self.verdict = words[0]
        self.atoms_in, self.atoms_out, self.polynomials_in, self.polynomials_out = map(int, words[1:5])
        self.block = bytes.fromhex(lines[1])
        self.places = self.rounds = None
        for line in lines[2:]:
            first, *rest = line.split()
            if first == "PLACES":
                self.places = list(map(int, rest))
            if first == "ROUNDS":
                self.rounds = int(rest[0])


def lines_for(block, words=()):
    """Document 01's lines for a block, and one more for each of the words `places` and `rounds`; by the plain engine with the word `plain`."""
    engine = [word for word in words if word == "plain"]
    more = [word for word in words if word != "plain"]
    programs.build("placardpan")
    lines = programs.run("placardpan", engine, block).decode().splitlines()
    if len(lines) > 1:
        for word in more:
            lines.append(programs.run("placardpan", [word], block).decode().splitlines()[-1])
    return lines


def answer(block, words=()):
    return Answer(lines_for(block, words))


def tell_refusal(number, what=""):
    """A refusal in words, on standard error."""
    programs.say("placardpan: %srefused by number %d: %s" % (what and what + ": ", number, meaning(number)))
