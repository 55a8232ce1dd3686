"""The front door: the words of ./placardpan taken apart, the command carried out, and how it ends."""
import os
import sys

HERE = os.path.dirname(os.path.dirname(os.path.abspath(__file__)))
sys.path.insert(0, os.path.join(HERE, "tools"))

import files
import usage
from endings import ANSWERED, Ending, Usage


def taken_apart(command, words):
    """The options and the other words of a command; `--` ends the options."""
    options, rest, words = {}, [], list(words)
    while words:
        word = words.pop(0)
        if word == "--":
            rest += words
            break
        name = word.lstrip("-")
        if word.startswith("-") and word != "-" and not word[1:].isdigit():
            if name in command.takes and (word == "-" + name if len(name) == 1 else word == "--" + name):
                if not words:
                    raise Usage("%s wants a word behind it" % word)
                options[name] = words.pop(0)
            elif name in command.flags and word == "--" + name:
                options[name] = True
            else:
                raise Usage("no option %s; see placardpan %s --help" % (word, command.name))
        else:
            rest.append(word)
    return options, rest


def carried_out(words):
    if words[:1] in (["--help"], ["-h"], ["help"]):
        files.put(usage.markdown() if words[1:] == ["--markdown"] else usage.help_of_all())
        return ANSWERED
    command = usage.find(words[0]) if words else None
    rest = words[1:] if command else words
    command = command or usage.find("shorten")
    if "--help" in rest:
        files.put(usage.help_of(command))
        return ANSWERED
    return command.carry_out(*taken_apart(command, rest))


def main():
    try:
        status = carried_out(sys.argv[1:])
    except Ending as ending:
        sys.stderr.write("placardpan: %s\n" % ending)
        status = ending.status
    except BrokenPipeError:
        # nobody reads any more
        os.dup2(os.open(os.devnull, os.O_WRONLY), 1)
        status = 141
    except KeyboardInterrupt:
        status = 130
    sys.exit(status)


if __name__ == "__main__":
    main()
