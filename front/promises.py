"""What docs/PROMISES.md says, for the page: the two questions with their answers and theorems, and what is not claimed. One source for both."""
import html
import os
import re

import files
import programs


def section(title):
    text = files.read_text(os.path.join(programs.HERE, "docs/PROMISES.md"))
    return text.split("\n## %s\n" % title)[1].split("\n## ")[0]


def inline(text):
    """A line of the paper as HTML: names of theorems set as code, stress in bold."""
    text = html.escape(text)
    text = re.sub(r"`([^`]*)`", r"<code>\1</code>", text)
    return re.sub(r"\*\*([^*]*)\*\*", r"<strong>\1</strong>", text)


def questions():
    """The two questions, each with its answer's first paragraph."""
    found = re.findall(r"^\*\*(.+?)\*\* (.+)$", section("The inspection body's two questions"), re.M)
    return [(question, answer) for question, answer in found[:2]]


def theorems():
    """The rows of the table of theorems under the second question: promise, theorem, what it does not say."""
    rows = re.findall(r"^\| (.+) \|$", section("The inspection body's two questions").split("\n\n| New over old")[0], re.M)
    cells = [re.split(r"\s*\|\s*", row) for row in rows]
    return [row for row in cells if len(row) == 3 and row[0] not in ("Promise",) and not set(row[0]) <= set("-: ")]


def not_claimed():
    return re.findall(r"^- (.+)$", section("What is not claimed"), re.M)
