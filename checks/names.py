"""Every name that a page gives with a file, as `name` in `path` or in a table of files under a heading that is their folder, stands in that file;
every file named on it exists, and every edit.

    python3 checks/names.py PAGE...
"""

import os
import re
import sys



def in_tables(lines):
    """The last column's names and the file, for each row of a table under a heading such as `## crates/rules/specs`."""
    folder, out = None, []
    for line in lines:
        heading = re.match(r"## (crates/\w+/\w+)?", line)
        if heading:
            folder = heading.group(1)
        row = re.match(r"\| (\w+) \|.*\|([^|]*)\|\s*$", line)
        if folder and row and row.group(1) != "file":
            out.append((row.group(2), "%s/%s.antt" % (folder, row.group(1))))
    return out


failed = 0
for page in sys.argv[1:]:
    text = re.sub(r"\s+", " ", open(page).read())
    named = re.findall(r"((?:`[^`/ ]+`(?:, | and )?)+) in `([^`]+\.(?:antt|rt|h|py))`", text)
    named += in_tables(open(page))
    for names, path in named:
        for name in re.findall(r"`([^`]+)`", names):
            if not os.path.exists(path):
                print("%s: there is no %s" % (page, path))
                failed += 1
            elif not re.search(r"(?<![\w-])%s(?![\w-])" % re.escape(name), open(path).read()):
                print("%s: %s is not in %s" % (page, name, path))
                failed += 1
    for path in re.findall(r"`((?:crates|compare|docs|include|examples|bench|checks)/[^` ]*)`", text):
        if "NAME" not in path and not os.path.exists(path.rstrip("/")):
            print("%s: there is no %s" % (page, path))
            failed += 1
    for crate, label in re.findall(r"`(\w+)/(\w+)`", text):
        if os.path.isdir("crates/" + crate) and not any(os.path.exists("crates/%s/%s/%s.edit" % (crate, folder, label)) for folder in ("must-fail", "more-edits")):
            print("%s: there is no edit %s/%s" % (page, crate, label))
            failed += 1
    looked = sum(len(re.findall("`[^`]+`", n)) for n, _ in named)
    if looked == 0:
        print("%s: no name was looked up" % page)
        failed += 1
    print("%s: %d names looked up" % (page, looked))
sys.exit(1 if failed else 0)
