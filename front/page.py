"""The page for the inspection body: one HTML file with the two questions, and for each block of a release what became of each line of its chart.

All that it tells of a block comes from what the proved programs print; the page says which parts are proved and which are layout."""
import hashlib
import html
import os
import subprocess

import answers
import fates
import files
import names
import picture
import programs
import promises
import shortening
import texts
from condition import atoms, write_text
from endings import ANSWERED, REFUSED, Usage
from refusals import meaning

STYLE = """
@page { size: A4; margin: 16mm }
* { box-sizing: border-box }
body { font: 11pt/1.45 Georgia, "Times New Roman", serif; color: #1a1a1a; max-width: 178mm; margin: 0 auto; padding: 12px }
h1 { font-size: 20pt; line-height: 1.2 } h2 { font-size: 15pt; margin-top: 2em } h3 { font-size: 12pt }
code, pre, .line { font: 9.5pt/1.4 "DejaVu Sans Mono", Consolas, monospace }
pre { white-space: pre-wrap; overflow-wrap: anywhere; background: #f6f6f2; padding: 8px }
table { border-collapse: collapse; width: 100%; table-layout: fixed } th, td { border-bottom: 1px solid #ddd; padding: 3px 6px 3px 0; text-align: left;
vertical-align: top; overflow-wrap: anywhere } th { font-size: 9.5pt; color: #555 } .place { width: 3em } .fate { width: 45% }
.hash { font: 8pt/1.3 "DejaVu Sans Mono", Consolas, monospace; overflow-wrap: anywhere } .gone { color: #777 } .refused { color: #a00000 }
code { overflow-wrap: anywhere } svg { width: 100%; height: auto } svg text { font: 11px Georgia, serif } svg .number { font-size: 10px } svg .head { fill: #555 }
.before { fill: #c9c9c2 } .bytes { fill: #2f6f8f } .atoms { fill: #8a5a2b } section.block { break-inside: auto } h2, h3 { break-after: avoid } tr { break-inside: avoid }
.proved { border-left: 4px solid #2f6f8f; padding-left: 8px } .layout { border-left: 4px solid #c9c9c2; padding-left: 8px } .facts td:first-child { width: 34% }
"""


def identity():
    """The commit and the kit that proved it."""
    kept = os.path.join(programs.HERE, "COMMIT")
    if os.path.exists(kept):
        commit = files.read_text(kept).strip()
    else:
        done = subprocess.run(["git", "-C", programs.HERE, "rev-parse", "HEAD"], stdout=subprocess.PIPE, stderr=subprocess.DEVNULL)
        commit = done.stdout.decode().strip() or "not known"
        if done.returncode == 0:
            changed = subprocess.run(["git", "-C", programs.HERE, "status", "--porcelain", "--", "crates", "crates.txt"], stdout=subprocess.PIPE).stdout
            commit += ", with changes that are not committed" if changed.strip() else ""
    return commit, files.read_text(os.path.join(programs.HERE, "KIT-ID")).strip()


EXPLAINED = (
    "All lines have to hold together, so each one's fate has its reason (request #106): the lines that are named suffice for it under the rules, and with any "
    "one of them left out they no longer do. A named line that is gone itself is named with the set that it had then; following names ends at lines that are kept."
)
UNEXPLAINED = (
    "This condition has an OR, so no reasons are to be had, and none is claimed. A line is told as kept or narrowed where the places of the answer name it, else "
    "as gone: some other lines say it, it was merged into one, or all signs are allowed."
)


class Told:
    """What the proved programs say of one block."""

    def __init__(self, path):
        self.path, self.name = path, os.path.basename(path)
        self.block = files.read_block(path)
        self.answer = answers.answer(self.block, ["places", "rounds"])
        self.fates = None
        if self.answer.refusal is not None:
            return
        self.edition, self.variables, self.root = texts.tree_of(self.block, path)
        _, _, self.short = texts.tree_of(self.answer.block, path)
        self.names = names.of(path, self.variables)
        lines = fates.lines_for(self.block)
        self.explained = not lines[0].startswith("REFUSED")
        self.fates = fates.by_reasons(lines) if self.explained else fates.by_places(self.root, self.short, self.answer.places)


def facts(told):
    answer = told.answer
    rows = [
        ("Edition", told.edition),
        ("Bytes", "%d before, %d after" % (len(told.block), len(answer.block))),
        ("SHA-256 before", '<span class="hash">%s</span>' % hashlib.sha256(told.block).hexdigest()),
        ("SHA-256 after", '<span class="hash">%s</span>' % hashlib.sha256(answer.block).hexdigest()),
        ("Verdict", answer.verdict),
        ("Atoms", "%d in, %d out" % (answer.atoms_in, answer.atoms_out)),
        ("Polynomials", "%d in, %d out" % (answer.polynomials_in, answer.polynomials_out)),
        ("Rounds", "at most %d in one run" % answer.rounds),
    ]
    return '<table class="facts">%s</table>' % "".join("<tr><td>%s</td><td>%s</td></tr>" % row for row in rows)


def chart_lines(told, node, depth, counter):
    """The chart's lines as the maker wrote them, each atom with its place and its fate."""
    indent = "&nbsp;" * (4 * depth)
    if node[0] != "atom":
        row = '<tr><td class="place"></td><td class="line">%s%s</td><td class="fate"></td></tr>' % (indent, node[0])
        return row + "".join(chart_lines(told, child, depth + 1, counter) for child in node[1])
    place = next(counter)
    text = html.escape(fates.shown_atom(told.names, node[1], node[2]))
    words = html.escape(fates.in_words(told.names, atoms(told.root), told.fates, place))
    kind = "kept" if told.fates[place].word in ("KEPT", "NARROWED") else "gone"
    return '<tr class="%s"><td class="place">%d</td><td class="line">%s%s</td><td class="fate">%s</td></tr>' % (kind, place, indent, text, words)


def block_section(told):
    title = "<h2>%s</h2>" % html.escape(told.name)
    if told.answer.refusal is not None:
        number = told.answer.refusal
        hashed = hashlib.sha256(told.block).hexdigest()
        return '<section class="block">%s<p class="refused">Refused by number %d: %s. Nothing was written.</p><p class="hash">%d bytes, SHA-256 %s</p></section>' % (
            title, number, html.escape(meaning(number)), len(told.block), hashed)
    rows = chart_lines(told, told.root, 0, iter(range(256)))
    source = EXPLAINED if told.explained else UNEXPLAINED
    table = '<table><tr><th class="place">Line</th><th>As the maker wrote it</th><th class="fate">What became of it</th></tr>%s</table>' % rows
    short = html.escape(write_text(told.edition, told.names, told.short, told.answer.places))
    return '<section class="block">%s%s<h3>The chart\'s lines</h3><p>%s</p>%s<h3>The short condition</h3><p>Behind each line the chart\'s line that it comes from.</p><pre>%s</pre></section>' % (
        title, facts(told), source, table, short)


def page_of(release):
    commit, kit = identity()
    accepted = [told for told in release if told.answer.refusal is None]
    asked = "".join('<h3>%s</h3><p class="proved">%s</p>' % (promises.inline(question), promises.inline(answer)) for question, answer in promises.questions())
    rows = "".join("<tr>%s</tr>" % "".join("<td>%s</td>" % promises.inline(cell) for cell in row) for row in promises.theorems())
    table = "<table><tr><th>Promise</th><th>Theorem</th><th>What it does not say</th></tr>%s</table>" % rows
    drawn = picture.picture([(t.name, len(t.block), len(t.answer.block), t.answer.atoms_in, t.answer.atoms_out) for t in accepted])
    unclaimed = "".join("<li>%s</li>" % promises.inline(line) for line in promises.not_claimed())
    before, after = sum(len(t.block) for t in accepted), sum(len(t.answer.block) for t in accepted)
    counted = "%d block%s, %d refused; %d bytes before, %d after." % (len(release), "" if len(release) == 1 else "s", len(release) - len(accepted), before, after)
    return """<!doctype html>
<html lang="en"><head><meta charset="utf-8"><meta name="viewport" content="width=device-width, initial-scale=1">
<meta http-equiv="Content-Security-Policy" content="default-src 'none'; style-src 'unsafe-inline'">
<title>Lift conditions: the two questions answered</title><style>%s</style></head><body>
<h1>Lift conditions: the two questions answered</h1>
<p>%s Proved at commit <code class="hash">%s</code> with the kit <code>%s</code>.</p>
<h2>The inspection body's two questions</h2>%s<h3>The theorems of the second answer</h3>%s
<h2>The release at a glance</h2><p>For each block its bytes and its atoms, before (grey) and after.</p>%s
%s
<h2>What is proved on this page, and what is layout</h2>
<p class="proved">Proved: verdict, counts, rounds, new block, places, and where all lines have to hold together what became of each and by which lines. They are
what the proved programs printed for these blocks; the theorems speak of those programs.</p>
<p class="layout">Layout, not proved: conditions shown as texts with names, sums and pictures, SHA-256, and this page itself.</p>
<h2>What is not claimed</h2><ul>%s</ul>
</body></html>
""" % (STYLE, counted, html.escape(commit), html.escape(kit), asked, table, drawn, "".join(map(block_section, release)), unclaimed)


def page(options, words):
    """One HTML file for the blocks of a release; refused blocks appear, and make the status 1."""
    if "out" not in options:
        raise Usage("--out PAGE names the file to be written")
    if not words:
        raise Usage("which blocks? Name files or folders")
    release = [Told(path) for path in shortening.blocks_in(words)]
    files.write(options["out"], page_of(release).encode("utf-8"))
    refused = [told for told in release if told.answer.refusal is not None]
    for told in refused:
        answers.tell_refusal(told.answer.refusal, told.path)
    return REFUSED if refused else ANSWERED
