"""Every edit that the proofs must refuse still fits the code: each text that it replaces stands once in its file.

    python3 checks/edits.py

The gate tries the edits of must-fail; those of more-edits would otherwise be found wanting only when checks/more-edits runs.
"""

import glob
import os
import sys

found, failed = 0, 0
for path in sorted(glob.glob("crates/*/m*-*/*.edit")):
    crate, folder, label = path.split(os.sep)[1:]
    found += 1
    texts, name, old, pairs = {}, None, None, 0
    for line in open(path).read().splitlines():
        if line.startswith("file: "):
            name = os.path.join("crates", crate, line[len("file: "):])
            texts.setdefault(name, open(name).read() if os.path.exists(name) else "")
        elif line.startswith("old: "):
            old = line[len("old: "):]
        elif line.startswith("new:"):
            pairs += 1
            if not old or texts.get(name, "").count(old) != 1:
                print("%s: the text of step %d does not stand once in %s" % (path, pairs, name))
                failed += 1
            else:
                texts[name] = texts[name].replace(old, line[len("new: "):])
            old = None
    if pairs == 0:
        print("%s: it changes nothing" % path)
        failed += 1
print("edits: %d fit the code" % found if found and not failed else "edits: %d of %d do not fit" % (failed, found))
sys.exit(0 if found and not failed else 1)
