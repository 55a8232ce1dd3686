"""Lift conditions as texts and as blocks: what tools/block and tools/text share.

A condition is the edition of its block, the names of its variables and a tree: ('atom', polynomial, set) or ('AND' or 'OR', children). A polynomial
is a tuple of terms (exponents, coefficient), falling. The grammar of a text, one node to a line, two spaces deeper under its AND or OR; '#' starts a
comment; a text without its first line is of edition 1:

    first line   edition 1 | edition 2
    next line    variables NAME ..
    node         AND | OR | polynomial sign 0 | polynomial in none | polynomial in all
    polynomial   [+ | -] term {(+ | -) term}
    term         factor {* factor}
    factor       (NUMBER | NAME) [^ NUMBER]
    sign         < | = | <= | > | != | >=
"""
import re

SETS = {"in none": 0, ">": 1, "=": 2, ">=": 3, "<": 4, "!=": 5, "<=": 6, "in all": 7}
SIGNS = {0: "in none", 1: "> 0", 2: "= 0", 3: ">= 0", 4: "< 0", 5: "!= 0", 6: "<= 0", 7: "in all"}
KEPT = ("AND", "OR", "in")  # no names of variables
LARGEST = 2147483647


class Bad(Exception):
    """A text that is no condition: where, by line and column from 1, and why."""

    def __init__(self, line, column, why):
        super().__init__(why)
        self.line, self.column, self.why = line, column, why


def is_name(word):
    return word.isidentifier() and word not in KEPT


# ---- a text is read


class Line:
    """One line of a text, cut into words with their columns."""

    WORD = re.compile(r"[0-9]+|[^\W\d]\w*|<=|>=|!=|[-+*^<=>]")

    def __init__(self, number, text):
        text = text.split("#")[0].rstrip()
        self.number, self.indent = number, len(text) - len(text.lstrip())
        self.words, self.columns, self.at = [], [], 0
        place = self.indent
        while place < len(text):
            found = self.WORD.match(text, place)
            if not found:
                raise Bad(number, place + 1, "what is %r?" % text[place])
            self.words.append(found.group())
            self.columns.append(place + 1)
            place = found.end()
            while place < len(text) and text[place] == " ":
                place += 1
        self.columns.append(len(text) + 1)
        if text[: self.indent].strip(" "):
            raise Bad(number, 1, "a line is moved in by spaces only")

    def fail(self, why, back=0):
        raise Bad(self.number, self.columns[self.at - back], why)

    def next(self):
        """The word at hand; '' at the end of the line."""
        return self.words[self.at] if self.at < len(self.words) else ""

    def take(self):
        self.at += 1
        return self.words[self.at - 1]

    def number_up_to(self, most, what):
        word = self.next()
        if not re.fullmatch("[0-9]+", word):
            self.fail("%s is wanted here" % what)
        if len(word.lstrip("0")) > 10 or int(word) > most:
            self.fail("%s is at most %d" % (what, most))
        return int(self.take())

    def factor(self, names):
        """A factor: its whole number, and its exponents."""
        exponents = [0] * len(names)
        word = self.next()
        if re.fullmatch("[0-9]+", word):
            base = self.number_up_to(LARGEST, "a number")
            power = self.power(31)
            return base**power, exponents
        if not is_name(word):
            self.fail("a number or a variable is wanted here")
        if word not in names:
            self.fail("no variable has the name %s" % word)
        self.take()
        exponents[names.index(word)] = self.power(15)
        return 1, exponents

    def power(self, most):
        if self.next() != "^":
            return 1
        self.take()
        return self.number_up_to(most, "a power")

    def term(self, names):
        began = self.columns[self.at]
        coefficient, exponents = self.factor(names)
        while self.next() == "*":
            self.take()
            by, more = self.factor(names)
            coefficient, exponents = coefficient * by, [a + b for a, b in zip(exponents, more)]
        if max(exponents) > 15:
            raise Bad(self.number, began, "an exponent of this term is above 15")
        return coefficient, tuple(exponents)

    def polynomial(self, names):
        began, terms = self.columns[self.at], {}
        sign = self.take() if self.next() in ("+", "-") else "+"
        while True:
            coefficient, exponents = self.term(names)
            terms[exponents] = terms.get(exponents, 0) + (coefficient if sign == "+" else -coefficient)
            if self.next() not in ("+", "-"):
                break
            sign = self.take()
        result = tuple(sorted(((e, c) for e, c in terms.items() if c), reverse=True))
        if not 1 <= len(result) <= 16:
            raise Bad(self.number, began, "this polynomial has %d terms; 1 to 16 are allowed" % len(result))
        if any(abs(coefficient) > LARGEST for _, coefficient in result):
            raise Bad(self.number, began, "a coefficient of this polynomial is above %d" % LARGEST)
        return result

    def atom(self, names):
        form = self.polynomial(names)
        word = self.next()
        if word == "in":
            self.take()
            if self.next() not in ("none", "all"):
                self.fail("'none' or 'all' is wanted here")
            chosen = SETS["in " + self.take()]
        elif word in SETS:
            chosen = SETS[self.take()]
            if self.next() != "0":
                self.fail("0 is wanted here")
            self.take()
        else:
            self.fail("one of + - * ^ < = <= > != >= is wanted here")
        return ("atom", form, chosen)

    def end(self):
        if self.at < len(self.words):
            self.fail("nothing is wanted here")

    def node(self, names):
        node = (self.take(), []) if self.next() in ("AND", "OR") else self.atom(names)
        self.end()
        return node

    def edition(self):
        self.take()
        if self.next() not in ("1", "2"):
            self.fail("1 or 2 is wanted here")
        edition = int(self.take())
        self.end()
        return edition

    def variables(self):
        if self.indent or self.next() != "variables":
            raise Bad(self.number, 1, "the first line names the variables: variables NAME ..")
        self.take()
        names = []
        while self.next():
            if not is_name(self.next()):
                self.fail("the name of a variable is wanted here")
            if self.next() in names:
                self.fail("this name is there already")
            if len(names) == 16:
                self.fail("at most 16 variables are allowed")
            names.append(self.take())
        if not names:
            self.fail("the name of a variable is wanted here")
        return names


def read_text(text):
    """The edition, the names and the tree of a text, which is read to its last character; else Bad is raised."""
    edition, names, root, above, nodes, forms = None, None, None, [], 0, set()
    for number, given in enumerate(text.split("\n"), 1):
        line = Line(number, given)
        if not line.words:
            continue
        if edition is None:
            said = line.next() == "edition" and not line.indent
            edition = line.edition() if said else 1
            if said:
                continue
        if names is None:
            names = line.variables()
            continue
        node = line.node(names)
        depth, odd = divmod(line.indent, 2)
        if odd or depth > len(above):
            raise Bad(number, line.indent + 1, "a node stands two spaces deeper than the AND or OR that it is under")
        if depth == 0 and root is not None:
            raise Bad(number, 1, "a second root; the first is an AND or an OR of them all")
        if depth and above[depth - 1][0] in ("atom", node[0]):
            why = "nothing stands under an atom" if above[depth - 1][0] == "atom" else "no %s stands under %s" % (node[0], node[0])
            raise Bad(number, line.indent + 1, why)
        if node[0] != "atom" and depth == 6:
            raise Bad(number, line.indent + 1, "AND and OR are nested at most 6 deep")
        nodes += 1
        if nodes > 255:
            raise Bad(number, line.indent + 1, "a tree has at most 255 nodes")
        if node[0] == "atom":
            forms.add(node[1])
            if len(forms) > 64:
                raise Bad(number, line.indent + 1, "a block has at most 64 polynomials")
        if depth:
            above[depth - 1][1].append(node)
        else:
            root = node
        above[depth:] = [node]
    if root is None:
        why = "the first line names the variables: variables NAME .." if names is None else "a tree of 1 to 255 nodes is wanted"
        raise Bad(number, len(given) + 1, why)
    return edition, names, root


# ---- a text is written


def shown_term(names, exponents, magnitude):
    factors = [name if exponent == 1 else "%s^%d" % (name, exponent) for name, exponent in zip(names, exponents) if exponent]
    if magnitude != 1 or not factors:
        factors.insert(0, str(magnitude))
    return "*".join(factors)


def shown_polynomial(names, form):
    text = " ".join(("-" if c < 0 else "+") + " " + shown_term(names, e, abs(c)) for e, c in form)
    return text[2:] if text.startswith("+ ") else "-" + text[2:]


def shown_node(names, node, depth, places):
    if node[0] == "atom":
        line = "  " * depth + shown_polynomial(names, node[1]) + " " + SIGNS[node[2]]
        return (line if places is None else "%-40s # [%s]" % (line, next(places))) + "\n"
    return "  " * depth + node[0] + "\n" + "".join(shown_node(names, child, depth + 1, places) for child in node[1])


def write_text(edition, names, root, places=None):
    """The text of a condition, its edition told where it is not 1; with places, one for each atom in order, each atom's line ends in its own, as a comment."""
    return ("" if edition == 1 else "edition %d\n" % edition) + "variables " + " ".join(names) + "\n" + shown_node(names, root, 0, None if places is None else iter(places))


# ---- a block is written


def atoms(node):
    return [node] if node[0] == "atom" else [atom for child in node[1] for atom in atoms(child)]


def size(node):
    return 1 if node[0] == "atom" else 1 + sum(map(size, node[1]))


def tree_bits(node, table):
    if node[0] == "atom":
        return "00" + format(table.index(node[1]), "06b") + format(node[2], "03b")
    return {"AND": "01", "OR": "10"}[node[0]] + format(len(node[1]), "08b") + "".join(tree_bits(child, table) for child in node[1])


def exponent_bits(edition, exponents):
    """Edition 1 has each exponent; edition 2 how many are above 0, and each of these behind its variable's number, from 0."""
    if edition == 1:
        return "".join(format(exponent, "04b") for exponent in exponents)
    pairs = [format(number, "04b") + format(exponent, "04b") for number, exponent in enumerate(exponents) if exponent]
    return format(len(pairs), "05b") + "".join(pairs)


def write_block(edition, variables, root):
    """The block of a tree: each polynomial once, in the order of first use, nothing simplified."""
    table = list(dict.fromkeys(atom[1] for atom in atoms(root)))
    body = ""
    for form in table:
        body += format(len(form), "05b")
        for exponents, coefficient in form:
            body += str(int(coefficient < 0)) + format(abs(coefficient), "031b") + exponent_bits(edition, exponents)
    body += tree_bits(root, table)
    length = (40 + len(body) + 7) // 8
    bits = format(edition, "04b") + format(variables, "05b") + format(len(table), "07b") + format(size(root), "08b") + format(length, "016b") + body
    bits += "0" * (8 * length - len(bits))
    return bytes(int(bits[i : i + 8], 2) for i in range(0, len(bits), 8))


# ---- a block is read


class Bits:
    def __init__(self, block):
        self.bits, self.at = "".join("{:08b}".format(byte) for byte in block), 0

    def field(self, bits):
        self.at += bits
        if self.at > len(self.bits):
            raise ValueError("its bits end too early")
        return int(self.bits[self.at - bits : self.at], 2)


def read_exponents(bits, edition, variables):
    if edition == 1:
        return tuple(bits.field(4) for _ in range(variables))
    exponents = [0] * variables
    for _ in range(bits.field(5)):
        number, exponent = bits.field(4), bits.field(4)
        if number >= variables:
            raise ValueError("it has no variable %d" % number)
        exponents[number] = exponent
    return tuple(exponents)


def read_polynomial(bits, edition, variables):
    form = []
    for _ in range(bits.field(5)):
        sign, magnitude = 1 - 2 * bits.field(1), bits.field(31)
        form.append((read_exponents(bits, edition, variables), sign * magnitude))
    return tuple(form)


def read_node(bits, table):
    kind = bits.field(2)
    if kind == 0:
        number = bits.field(6)
        if number >= len(table):
            raise ValueError("it has no polynomial %d" % number)
        return ("atom", table[number], bits.field(3))
    if kind == 3:
        raise ValueError("it has a node of kind 3")
    return ({1: "AND", 2: "OR"}[kind], [read_node(bits, table) for _ in range(bits.field(8))])


def read_block(block):
    """The edition, the number of variables and the tree of a block that Placardpan accepts. Of others it promises nothing, but that it ends, with
    ValueError where there is no tree."""
    bits = Bits(block)
    edition = bits.field(4)
    if edition not in (1, 2):
        raise ValueError("its edition is %d" % edition)
    variables, polynomials = bits.field(5), bits.field(7)
    bits.field(8)
    bits.field(16)
    table = [read_polynomial(bits, edition, variables) for _ in range(polynomials)]
    return edition, variables, read_node(bits, table)
