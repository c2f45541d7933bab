#!/usr/bin/env python3
"""Runs each command that the pages show, and compares what it prints.

usage: tools/tutorial.py [PROGRAM]

PROGRAM is ./quorum of this repository unless it is given. The pages are
docs/TUTORIAL.md and docs/DIAGNOSTICS.md, each in a folder of its own that is
made for it and thrown away. Of a page, these fenced blocks are read, in their
order; the word behind the fence is the block's kind:

  KIND title=FILE             the file's whole text; folders in its name are made
  diff title=FILE             an edit of the file: lines with `-` give way to
                              lines with `+`, those with a space stay. The old
                              lines of a place stand together in the file once;
                              behind lines with `+` the next place begins
  diff title=FILE from=OTHER  the file is OTHER with this edit
  console                     commands, each a line `$ ./quorum WORDS`,
                              `$ tools/journals.py WORDS` or `$ mkdir FOLDER`,
                              and then all that it prints: standard output,
                              standard error, and for a status other than 0 the
                              line `status N`. `> FILE` at a command's end sends
                              standard output there.

Says which line of a page differs, and ends with status 1 then, and where a page
has no command.
"""

import os
import re
import subprocess
import sys
import tempfile

HERE = os.path.dirname(os.path.abspath(__file__))
ROOT = os.path.dirname(HERE)
PAGES = ("docs/TUTORIAL.md", "docs/DIAGNOSTICS.md")
FENCE = re.compile(r"^```(\w*)(.*)$")
# The commands beside ./quorum, and how they are called.
OTHERS = {"tools/journals.py": [sys.executable, os.path.join(ROOT, "tools", "journals.py")], "mkdir": ["mkdir"]}


class Wrong(Exception):
    """What is wrong, and at which line of the page."""

    def __init__(self, line, what):
        super().__init__("%d: %s" % (line, what))


# Reading a page.


class Block:
    """A fenced block: its kind, its options, the number of its first line, its lines."""

    def __init__(self, kind, options, line):
        self.kind, self.line, self.lines = kind, line, []
        self.options = dict(option.split("=", 1) for option in options.split() if "=" in option)


def blocks_of(lines):
    """The fenced blocks."""
    blocks, open_block = [], None
    for number, line in enumerate(lines, 1):
        fence = FENCE.match(line)
        if open_block is not None and line == "```":
            blocks.append(open_block)
            open_block = None
        elif open_block is not None:
            open_block.lines.append(line)
        elif fence:
            open_block = Block(fence.group(1), fence.group(2), number + 1)
    if open_block is not None:
        raise Wrong(open_block.line, "the block isn't closed")
    return blocks


# Files.


def hunks_of(block):
    """The edits of a block: for each the number of its first line, old lines and new lines."""
    hunks, last = [], "+"
    for number, line in enumerate(block.lines, block.line):
        sign = line[:1]
        if sign not in ("-", "+", " ") or not sign:
            raise Wrong(number, "the line of an edit begins with none of -, + and a space")
        if last == "+" and sign != "+" or not hunks:
            hunks.append((number, [], []))
        if sign != "+":
            hunks[-1][1].append(line[1:])
        if sign != "-":
            hunks[-1][2].append(line[1:])
        last = sign
    return hunks


def edited(lines, number, old, new):
    """The lines with the new ones in place of the old ones, which have to stand there once."""
    places = [k for k in range(len(lines)) if lines[k : k + len(old)] == old]
    if not old or len(places) != 1:
        raise Wrong(number, "the old lines stand in the file %d times" % len(places))
    return lines[: places[0]] + new + lines[places[0] + len(old) :]


def make_file(folder, files, block):
    """Writes the file that a block gives, and notes its lines."""
    name, lines = block.options["title"], block.lines
    if block.kind == "diff":
        lines = files.get(block.options.get("from", name))
        if lines is None:
            raise Wrong(block.line, "there is no such file yet")
        for number, old, new in hunks_of(block):
            lines = edited(lines, number, old, new)
    files[name] = lines
    os.makedirs(os.path.dirname(os.path.join(folder, name)), exist_ok=True)
    with open(os.path.join(folder, name), "w", encoding="utf-8") as file:
        file.write("".join(line + "\n" for line in lines))


# Commands.


def commands_of(block):
    """The commands: for each the number of its line, its words, and the lines that it prints."""
    commands = []
    for number, line in enumerate(block.lines, block.line):
        words = line.split(" ")
        if words[0] == "$" and words[1:2] and words[1] in ["./quorum", *OTHERS]:
            commands.append((number, words[1:], []))
        elif not commands or words[0] == "$":
            raise Wrong(number, "no command that is known here")
        else:
            commands[-1][2].append(line)
    return commands


def printed(program, folder, words):
    """What the program prints, and its status, as lines."""
    if words[-2:-1] == [">"]:
        with open(os.path.join(folder, words[-1]), "wb") as output:
            ran = called(program, folder, words[:-2], output)
    else:
        ran = called(program, folder, words, subprocess.PIPE)
    text = ((ran.stdout or b"") + ran.stderr).decode("utf-8", "backslashreplace")
    lines = text.split("\n")
    if lines.pop() != "":
        lines.append("(the last line has no end)")
    return lines + (["status %d" % ran.returncode] if ran.returncode else [])


def called(program, folder, words, output):
    """The call of the program, ended."""
    call = OTHERS.get(words[0], [program]) + words[1:]
    return subprocess.run(call, cwd=folder, stdin=subprocess.DEVNULL, stdout=output, stderr=subprocess.PIPE, timeout=3600)


def compare(number, want, have):
    """Tells the first line in which the two differ; what is wanted begins behind this line."""
    for k in range(max(len(want), len(have))):
        page = want[k] if k < len(want) else None
        program = have[k] if k < len(have) else None
        if page != program:
            raise Wrong(number + 1 + k, "the page has %s, the program %s" % (shown(page), shown(program)))


def shown(line):
    return "no such line" if line is None else "`%s`" % line


# Pages.


def run_page(program, folder, page):
    """Does all that a page shows, and counts its commands."""
    with open(os.path.join(ROOT, page), encoding="utf-8") as file:
        blocks = blocks_of(file.read().split("\n"))
    files, count = {}, 0
    for block in blocks:
        if "title" in block.options:
            make_file(folder, files, block)
        elif block.kind == "console":
            for number, words, want in commands_of(block):
                compare(number, want, printed(program, folder, words))
                count += 1
    if count == 0:
        raise Wrong(1, "no command")
    return count


def passes(program, page):
    """Whether the program does what a page shows; says so."""
    with tempfile.TemporaryDirectory() as folder:
        try:
            print("%s: %d commands, as shown" % (page, run_page(program, folder, page)))
            return True
        except Wrong as wrong:
            print("%s:%s" % (page, wrong), file=sys.stderr)
            return False


def main():
    program = os.path.abspath(sys.argv[1]) if len(sys.argv) > 1 else os.path.join(ROOT, "quorum")
    if not os.access(program, os.X_OK):
        print("%s: no program" % program, file=sys.stderr)
        return 1
    return 0 if all([passes(program, page) for page in PAGES]) else 1


if __name__ == "__main__":
    sys.exit(main())
