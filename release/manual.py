#!/usr/bin/env python3
"""A manual page (troff) from a help text: `manual.py NAME VERSION TITLE < HELP > NAME.1`.

A help text is blocks with an empty line between: the usage; prose; then any of commands and options, whose lines begin
with a word and go on indented; then the block that begins with `Status:`."""
import re
import sys


def troff(text):
    text = text.replace("\\", "\\e").replace("-", "\\-")
    return "\\&" + text if text[:1] in ".'" else text


def usage(block):
    lines = [line.removeprefix("usage:").strip() for line in block]
    return [".SH SYNOPSIS", ".nf", *(f".B {troff(line)}" for line in lines), ".fi"]


def listed(block):
    """Items with an indented text, as `scale      an array of ...` or `-o, --out OUT   write to OUT`."""
    out = []
    for line in block:
        if line[0] != " ":
            head, text = re.split(r"  +", line, maxsplit=1)
            out += [".TP", f".B {troff(head)}", troff(text)]
        else:
            out.append(troff(line.strip()))
    return out


def page(name, version, title, text):
    blocks = [block.splitlines() for block in text.strip().split("\n\n")]
    out = [f'.TH {name.upper()} 1 "" "suontarvi {version}" "User Commands"', ".SH NAME", f"{name} \\- {troff(title)}"]
    prose = False
    for block in blocks:
        first = block[0]
        if first.startswith("usage:"):
            out += usage(block)
        elif first.startswith("Status:"):
            out += [".SH EXIT STATUS", troff(first.removeprefix("Status:").strip()), *map(troff, block[1:])]
        elif first.startswith("-"):
            out += [".SH OPTIONS", *listed(block)]
        elif re.match(r"\S+  +", first):
            out += [".SH COMMANDS", *listed(block)]
        else:
            out += [".PP" if prose else ".SH DESCRIPTION", *map(troff, block)]
            prose = True
    out += [".SH SEE ALSO", ", ".join(f"{other}(1)" for other in ("pairs", "suontarvi", "ties") if other != name)]
    return "\n".join(out) + "\n"


if __name__ == "__main__":
    sys.stdout.write(page(*sys.argv[1:4], sys.stdin.read()))
