#!/usr/bin/env python3
"""Runs the commands that README.md shows with their output, and holds the output to what stands there.

A block shows commands behind '$ ' and below each what it prints, on standard error too. CC_X86 names the compiler that stands in for `cc`, EMULATOR the words that
run what it makes (checks/setup sets both); where EMULATOR is not empty the program is linked statically.
"""

import os
import re
import subprocess
import sys

TOP = os.path.dirname(os.path.dirname(os.path.abspath(__file__)))


def blocks(text):
    for block in re.findall(r"^```\n(.*?)^```$", text, re.M | re.S):
        if block.startswith("$ "):
            for part in re.split(r"^\$ ", block, flags=re.M)[1:]:
                command, _, output = part.partition("\n")
                yield command, output


def main():
    compiler, run = os.environ.get("CC_X86", "cc"), os.environ.get("EMULATOR", "")
    with open(os.path.join(TOP, "README.md")) as page:
        shown = list(blocks(page.read()))
    if len(shown) < 20:
        sys.exit("README.md shows %d commands: there should be twenty" % len(shown))
    for command, output in shown:
        words = command
        if words.startswith("cc "):
            words = compiler + (" -static" if run else "") + words[2:]
        elif words.startswith("target/") and run:
            words = run + " " + words
        got = subprocess.run(words, shell=True, cwd=TOP, stdout=subprocess.PIPE, stderr=subprocess.STDOUT, check=True).stdout.decode()
        if got != output:
            sys.exit("README.md: `%s` prints\n%sand the page has\n%s" % (command, got, output))
    print("README.md: %d commands do what the page shows" % len(shown))


if __name__ == "__main__":
    main()
