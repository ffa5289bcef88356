"""Runs target/accept, which checks/readme.py leaves, on meshes of every kind, and holds its lines to what the separate program finds; and the same with an
engine that lies.

CC_X86 names the compiler, EMULATOR the words that run what it makes (checks/setup sets both); where EMULATOR is not empty the program is linked statically.
"""

import os
import random
import subprocess
import sys
import tempfile

TOP = os.path.dirname(os.path.dirname(os.path.abspath(__file__)))
sys.path.insert(0, os.path.join(TOP, "compare"))

import meshes  # noqa: E402
import reference as rules  # noqa: E402

EMULATOR = os.environ.get("EMULATOR", "")
FOLDER = os.path.join(TOP, "target", "daybook")
RIGHT, WRONG = [os.path.join(TOP, "target", name) for name in ("accept", "accept-lies")]
MOST_PAIRS, MOST_ENTRIES, SAMPLE, MOST_SHOWN = 100000, 400000, 10000, 10
EVERY, ENTRIES, SHARE = "every pair", "every entry and as many other pairs", "a sample"

# An engine that gives another answer, AS, where it is asked as D, E, I and J say; a number of -1 is any. AS 0 and 1 are no and yes, above that it is a refusal.
# It tells on standard error what it was asked in a book of how many words.
LYING = """#include "daybook.h"
#include <stdio.h>
#include <stdlib.h>
static int is(const char *name, uint32_t number) { return atoi(getenv(name)) == -1 || atoi(getenv(name)) == (int)number; }
uint32_t lying(const uint32_t *book, size_t book_len, uint32_t d, uint32_t e, uint32_t i, uint32_t j, uint32_t *yes, uint32_t *key, size_t *position) {
    uint32_t as = (uint32_t)atoi(getenv("AS"));
    fprintf(stderr, "%u %u %u %u %u\\n", (unsigned)book_len, (unsigned)d, (unsigned)e, (unsigned)i, (unsigned)j);
    if (!is("D", d) || !is("E", e) || !is("I", i) || !is("J", j)) return daybook_plain(book, book_len, d, e, i, j, yes, key, position);
    if (as > 1) return as;
    *yes = as;
    return 0;
}
"""


def build_wrong(folder):
    """The program with the engine that lies in the place of the plain one."""
    source, words = os.path.join(folder, "lying.c"), os.environ.get("CC_X86", "cc").split() + ["-std=c99", "-O2", "-I", FOLDER]
    with open(source, "w") as file:
        file.write(LYING)
    parts = [os.path.join(folder, name) for name in ("lying.o", "accept.o")]
    subprocess.run(words + ["-c", source, "-o", parts[0]], check=True)
    subprocess.run(words + ["-Ddaybook_plain=lying", "-c", os.path.join(TOP, "examples", "accept.c"), "-o", parts[1]], check=True)
    subprocess.run(words + (["-static"] if EMULATOR else []) + parts + [os.path.join(FOLDER, "libdaybook.a"), "-o", WRONG], check=True)


def said(program, words, **lie):
    """The exit code, and what was printed and said."""
    done = subprocess.run(EMULATOR.split() + [program] + words, stdout=subprocess.PIPE, stderr=subprocess.PIPE,
                          env={**os.environ, **{name: str(number) for name, number in lie.items()}})
    return done.returncode, done.stdout.decode(), done.stderr.decode()


def relations(data):
    """N_0 to N_D, and the rows of each relation."""
    book = [0] * (1 << 19)
    assert rules.load(data, book) == (0, None)
    state = rules.State(rules.Frame.of(book))
    every = [(d, e) for d in range(state.D + 1) for e in range(state.D + 1)]
    for d, e in every:
        assert state.ask(d, e) == 0
    return [state.counts[d] for d in range(state.D + 1)], {r: state.rows[r] for r in every}


def kind_of(possible, both, number, whole):
    """The kind of questions where there are so many pairs, and so many entries and as many other pairs."""
    if possible <= (number or MOST_PAIRS):
        return EVERY
    return ENTRIES if whole or not number and both <= MOST_ENTRIES else SHARE


def expected(data, number, whole):
    """What has to be printed of a file, with so many questions named, or None, or with --all; the kind of questions, and how many are asked."""
    counts, rows = relations(data)
    entries = {r: sum(map(len, rows[r])) for r in rows}
    others = {(d, e): counts[d] * counts[e] - entries[d, e] for d, e in rows}
    possible, share = sum(counts) ** 2, max(1, (number or SAMPLE) // (2 * len(rows)))
    kind = kind_of(possible, sum(entries[r] + min(entries[r], others[r]) for r in rows), number, whole)
    lines, total = [], 0
    for d, e in rows:
        most = {EVERY: possible, ENTRIES: entries[d, e], SHARE: share}[kind]
        asked = min(most, entries[d, e]) + min(most, others[d, e])
        lines.append("%d→%d: rows %d, entries %d, asked %d, agree %d" % (d, e, counts[d], entries[d, e], asked, asked))
        total += asked
    held, past = sum(min(1, entries[r]) + min(1, others[r]) for r in rows), sum(4 if counts[d] else 2 for d, _ in rows)
    lines.append("in the book that holds them all: asked %d, agree %d" % (held, held))
    lines.append("one past the last, 17 for i and 19 for j: asked %d, agree %d" % (past, past))
    lines.append("asked %d of %d, %s; agree %d, disagree 0" % (total, possible, kind, total))
    return "\n".join(lines) + "\n", kind, total


def demand(what, got, wanted):
    if got != wanted:
        sys.exit("accept: %s: %.900r, and not %.900r" % (what, got, wanted))


def star(count, apart):
    """So many edges at vertex 0, and so many more, none of which touches another."""
    return 1, 1 + count + 2 * apart, [[0, v] for v in range(1, count + 1)] + [[count + k, count + k + 1] for k in range(1, 2 * apart, 2)]


def files():
    """Files, each with a number of questions, or None, whether --all is said, and the kind of questions, or None where it may be any."""
    rng = random.Random(12)
    for name, number, whole, kind in (("t", None, False, EVERY), ("t", 121, False, EVERY), ("t", 120, False, SHARE), ("t", 1, False, SHARE),
                                      ("t", None, True, EVERY), ("dam", 1500, False, SHARE), ("stack", 4000, False, SHARE)):
        with open(os.path.join(TOP, "examples", name + ".day"), "rb") as file:
            yield file.read(), number, whole, kind
    for mesh in ((1, 0, []), (1, 2, [[0, 1]]), (2, 0, []), (2, 3, []), (3, 5, [])) + meshes.CLOSED:
        yield rules.file_bytes(*mesh), None, False, EVERY
    # the first star has 316 entities, so 99,856 pairs, the next 317 and 100,489; the third asks 400,000, the others would ask 400,012 and 400,653
    for mesh, number, whole, kind in ((star(156, 1), None, False, EVERY), (star(158, 0), None, False, ENTRIES),
                                      (star(440, 700), None, False, ENTRIES), (star(440, 701), None, False, SHARE), (star(627, 0), None, True, ENTRIES),
                                      (meshes.sheet(12, 12), None, False, ENTRIES), (meshes.sheet(12, 12), 22544, False, SHARE),
                                      (meshes.fan(60), None, False, EVERY), (meshes.fan(120), None, True, ENTRIES), (meshes.fan(400), None, False, SHARE),
                                      (meshes.box(2, 2, 2), None, False, EVERY), (meshes.box(2, 2, 2), 3000, False, SHARE),
                                      (meshes.box(3, 2, 2), None, False, ENTRIES), (meshes.pages(40), None, False, EVERY)):
        yield rules.file_bytes(*mesh), number, whole, kind
    for _ in range(30):
        yield rules.file_bytes(*meshes.small_mesh(rng)), rng.choice((None, None, 10, 100)), rng.random() < 0.2, None


def right_ones(path):
    """Runs the program on every file; the numbers of files and of questions."""
    met, questions = 0, 0
    for data, number, whole, wanted_kind in files():
        with open(path, "wb") as file:
            file.write(data)
        number = None if whole else number
        wanted, kind, total = expected(data, number, whole)
        demand("the kind of %s" % data[:64].hex(), kind, wanted_kind or kind)
        code, out, err = said(RIGHT, [path] + (["--all"] if whole else ["--questions", str(number)] if number else []))
        demand("of %s" % data[:64].hex(), (code, out), (0, wanted))
        demand("the time", (err.startswith("a question took "), err.count("\n")), (True, 1))
        met, questions = met + 1, questions + total
    return met, questions


def lie(path, text, here, above, more=(), **how):
    """An engine that lies so is found out: the line that says it, and in the last line how many disagree, there and in the two lines above."""
    code, out, _ = said(WRONG, [path] + list(more), **how)
    lines = out.splitlines()
    end = "disagree %d" % here + (" here and %d in the two lines above" % above if above else "")
    demand("a lie of %s" % how, (code, text in lines, lines[-1].split("; agree ")[-1].split(", ", 1)[-1]), (1, True, end))
    return lines


def wrong_ones():
    """Engines that lie about one pair or about many, count one too many or too few, or refuse."""
    t, dam = [os.path.join(TOP, "examples", name + ".day") for name in ("t", "dam")]
    says = "%d→%d, i %d, j %d: the relation says %s, the engine says %s"
    lie(t, says % (2, 1, 0, 2, "yes", "no"), 1, 0, D=2, E=1, I=0, J=2, AS=0)
    lie(t, says % (1, 2, 4, 0, "no", "yes"), 1, 0, D=1, E=2, I=4, J=0, AS=1)
    lie(t, says % (0, 0, 2, 2, "no", "yes"), 1, 0, D=0, E=0, I=2, J=2, AS=1)
    lie(t, says % (1, 1, 3, 4, "yes", "refused 19"), 1, 0, D=1, E=1, I=3, J=4, AS=19)
    lie(t, says % (1, 0, 5, 4, "refused 17", "no"), 0, 2, D=1, E=0, I=5, J=4, AS=0)
    lie(t, says % (2, 2, 1, 2, "refused 19", "refused 17"), 0, 2, D=2, E=2, I=1, J=2, AS=17)
    many = lie(t, says % (0, 1, 0, 0, "yes", "no"), 10, 5, D=0, E=1, I=-1, J=-1, AS=0)
    demand("the first few", sum("the engine says" in line for line in many), MOST_SHOWN)
    # in a sample the first entry is asked and the last, and so are the first of the other pairs and the last
    with open(dam, "rb") as file:
        counts, rows = relations(file.read())
    first, last, numbers = rows[0, 1][0], rows[0, 1][-1], set(range(counts[1]))
    for i, j, above, truth, engine in ((0, first[0], 1, "yes", "no"), (counts[0] - 1, last[-1], 0, "yes", "no"),
                                       (0, min(numbers - set(first)), 1, "no", "yes"), (counts[0] - 1, max(numbers - set(last)), 0, "no", "yes")):
        lie(dam, says % (0, 1, i, j, truth, engine), 1, above, ("--questions", "200"), D=0, E=1, I=i, J=j, AS=int(engine == "yes"))
    demand("a right engine", said(WRONG, [t], D=9, E=0, I=0, J=0, AS=0)[:2], said(RIGHT, [t])[:2])


def spread(path, data, words, share):
    """The pairs asked of each relation: so many entries, or all with None, and as many others, no pair twice, from the first row to the last."""
    with open(path, "wb") as file:
        file.write(data)
    counts, rows = relations(data)
    D, (code, _, err) = len(counts) - 1, said(WRONG, [path] + words, D=9, E=0, I=0, J=0, AS=0)
    lines = [tuple(map(int, line.split())) for line in err.splitlines()[:-1]]
    for (d, e), row in rows.items():
        asked = [(i, j) for length, *r, i, j in lines if length == 6 + counts[D] * (D + 2) and r == [d, e] and j < counts[e]]
        entries, held = sum(j in row[i] for i, j in asked), sum(map(len, row))
        most = held if share is None else share
        demand("a sample of %d→%d" % (d, e), (entries, len(asked) - entries), (min(most, held), min(most, counts[d] * counts[e] - held)))
        demand("its pairs", (len(set(asked)), {0, counts[d] - 1} <= {i for i, _ in asked}), (len(asked), True))
    demand("the code", code, 0)


def refusals(path):
    """Files that are refused, words that are wrong, and files that cannot be opened or read."""
    for data in (b"", b"\x80", rules.file_bytes(2, 4, [[0, 1, 3], [1, 2, 1]])):
        with open(path, "wb") as file:
            file.write(data)
        demand("of %s" % data.hex(), said(RIGHT, [path]), (1, "refused %d\n" % rules.read_file(data)[0], ""))
    usage, missing, folder = "accept FILE [--questions N | --all]: a day file, and how many questions\n", path + "s", os.path.dirname(path)
    for file in (path, missing, folder):
        for more in (["--questions"], ["--questions", "0"], ["--questions", "5x"], ["--questions", "-5"], ["--questions", ""], ["--questions", "4294967296"],
                     ["--questions", "5", "6"], ["--all", "5"], ["--some"], [file]):
            demand("the words %s" % more, said(RIGHT, [file] + more), (2, "", usage))
    for words in ([], ["--all"], ["--all", path], ["--questions", "5"]):
        demand("the words %s" % words, said(RIGHT, words), (2, "", usage))
    for more in ([], ["--all"], ["--questions", "5"]):
        demand("a file that is not there", said(RIGHT, [missing] + more), (2, "", missing + " cannot be opened\n"))
        demand("a folder", said(RIGHT, [folder] + more), (2, "", folder + " cannot be read\n"))


def main():
    with tempfile.TemporaryDirectory() as folder:
        path = os.path.join(folder, "a.day")
        met, questions = right_ones(path)
        refusals(path)
        build_wrong(folder)
        wrong_ones()
        spread(path, rules.file_bytes(*meshes.box(3, 3, 3)), ["--questions", "10000"], 10000 // 32)
        spread(path, rules.file_bytes(*meshes.fan(400)), [], SAMPLE // 18)
        spread(path, rules.file_bytes(*meshes.sheet(12, 12)), [], None)
        spread(path, rules.file_bytes(*meshes.scattered(60, 240)), ["--questions", "1000"], 1000 // 32)
        spread(path, rules.file_bytes(*meshes.fan(90)), ["--all"], None)
    print("accept: %d meshes, %d questions, each line as the separate program counts it; engines that lie are found out" % (met, questions))


if __name__ == "__main__":
    main()
