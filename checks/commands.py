"""Every command that a page gives can be run: what it runs is a file of the repository, or a word of rt's.

    python3 checks/commands.py PAGE...

A command is a text in backquotes or a line of a block, behind '$ ' or alone, that begins with ./NAME, with python3 and a file, with a file
of a folder that has scripts, or with rt and a word.
"""

import os
import re
import subprocess
import sys


def texts(page):
    """The lines of a page's blocks, and its other texts in backquotes."""
    fenced = r"^```\w*\n(.*?)^```$"
    whole = open(page).read()
    for block in re.findall(fenced, whole, re.M | re.S):
        yield from (re.sub(r"^\$ ", "", line) for line in block.splitlines())
    rest = re.sub(fenced, "", whole, flags=re.M | re.S)
    yield from re.findall(r"^    (\S.*)$", rest, re.M)
    yield from (re.sub(r"\s+", " ", text) for text in re.findall(r"`([^`]+)`", rest))


def fault(text):
    """None where the text is no command, else what is wrong with it, or '' where nothing is."""
    ours = re.match(r"(?:(?:/usr/bin/)?python3 (\S+)|(\./\S+)|((?:bench|checks|compare|examples)/[^\s*]*))(?:\s|$)", text)
    word = re.match(r"rt ([a-z-]+)(?:\s|$)", text)
    if ours:
        script, alone, path = ours.groups()
        if not os.path.exists(script or alone or path):
            return "there is no %s" % (script or alone or path)
        return "" if script or path or os.access(alone, os.X_OK) else "%s cannot be run" % alone
    if word:
        return "" if word.group(1) in WORDS else "rt has no %s" % word.group(1)
    return None


HELP = subprocess.run(["rt", "help"], stdout=subprocess.PIPE, stderr=subprocess.STDOUT).stdout.decode()
WORDS = [word for words in re.findall(r"^(?:  |usage: |       )rt ([a-z|-]+)", HELP, re.M) for word in words.split("|")]
found, failed = 0, 0
for page in sys.argv[1:]:
    for text in texts(page):
        wrong = fault(text)
        found += wrong is not None
        if wrong:
            print("%s: `%s`: %s" % (page, text, wrong))
            failed += 1
print("commands: %d on %d pages, %d that cannot be run" % (found, len(sys.argv) - 1, failed))
sys.exit(0 if found and not failed else 1)
