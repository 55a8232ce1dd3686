"""The commands that shorten: one block, or many at once."""
import os
import sys
import time
from concurrent.futures import ThreadPoolExecutor, as_completed

import answers
import files
import programs
from endings import ANSWERED, REFUSED, USAGE, Ending, Usage

BATCH = 16  # blocks that one process is given at a time


def shorten(options, words):
    """The lines of one block; with -o the new block's bytes go to that file."""
    if len(words) > 1:
        raise Usage("one FILE, or standard input; `placardpan many` takes many")
    block = files.read_block(words[0] if words else None)
    lines = answers.lines_for(block, [word for word in ("plain", "places", "rounds") if word in options])
    found = answers.Answer(lines)
    if "o" in options and found.refusal is None:
        files.write(options["o"], found.block)
    files.put("".join(line + "\n" for line in lines))
    if found.refusal is not None:
        answers.tell_refusal(found.refusal, words[0] if words else "")
        return REFUSED
    return ANSWERED


# ---- many


def blocks_in(words):
    """The files that the words name: each file itself, of a folder its files NAME.block in the order of their names."""
    for word in words:
        if os.path.isdir(word):
            found = sorted(name for name in os.listdir(word) if name.endswith(".block"))
            if not found:
                raise Usage("%s has no file NAME.block" % word)
            yield from (os.path.join(word, name) for name in found)
        else:
            yield word


def answered(batch):
    """The lines of each block of a batch, by one process of `placardpan_many`: blocks share nothing."""
    given = b"".join(len(block).to_bytes(2, "big") + block for _, block in batch)
    lines = iter(programs.run("placardpan_many", [], given).decode().splitlines())
    for path, _ in batch:
        first = next(lines)
        yield path, [first] if first.startswith("REFUSED") else [first, next(lines)]


def many(options, words):
    """A line for each block, in order: its file, the report line and the new block, parted by tabs; the worst status at the end."""
    if not words:
        raise Usage("which blocks? Name files or folders")
    paths, status, blocks = list(blocks_in(words)), ANSWERED, []
    for path in paths:
        try:
            blocks.append((path, files.read_block(path)))
        except Ending as ending:
            programs.say("placardpan: %s" % ending)
            status = USAGE
    programs.build("placardpan_many")
    if "o" in options:
        os.makedirs(options["o"], exist_ok=True)
    jobs = int(options.get("jobs", os.cpu_count() or 1))
    size = max(1, min(BATCH, -(-len(blocks) // max(jobs, 1))))
    batches = [blocks[i : i + size] for i in range(0, len(blocks), size)]
    results, done, told = {}, 0, time.time()
    with ThreadPoolExecutor(max(jobs, 1)) as pool:
        for future in as_completed([pool.submit(lambda batch: list(answered(batch)), batch) for batch in batches]):
            for path, lines in future.result():
                results[path] = lines
                done += 1
            if sys.stderr.isatty() or time.time() - told > 1:
                told = time.time()
                programs.say("%splacardpan: %d of %d blocks" % ("\r" if sys.stderr.isatty() else "", done, len(blocks)), "" if sys.stderr.isatty() else "\n")
    if sys.stderr.isatty():
        programs.say("")
    for path, _ in blocks:
        lines = results[path]
        files.put("\t".join([path] + lines) + "\n")
        found = answers.Answer(lines)
        if found.refusal is not None:
            answers.tell_refusal(found.refusal, path)
            status = max(status, REFUSED)
        elif "o" in options:
            files.write(os.path.join(options["o"], os.path.basename(path)), found.block)
    return status
