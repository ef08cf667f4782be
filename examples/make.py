#!/usr/bin/env python3
"""Writes session files from texts that picture the sessions: make.py [--check] [NAME.txt ..]. NAME.txt gives NAME.session beside it; with no text
named, those that stand beside this script. With --check nothing is written.

Exit status: 0 all is made, or is what it should be; 1 with --check, a session file isn't what its text gives; 2 a text is refused, or a file can't
be read or written: a message names the file and the line, and where a text is refused nothing is written.

How a text is written, by a small example of a whole one:

    // Good: the gate is shut wherever a train is near. Bad: it isn't.
    propositions near shut
    good
      ..##
      ####
    good
      #.
      #.
    bad
      .#.
      #..
    unary G
    binary ->
    constants no
    bound 4

'//' starts a comment, and a line with nothing else counts for nothing. All is ASCII text. Each line below stands at most once, in any order, but
that the propositions come before the sessions, and that 'good' and 'bad' start a session each, 1 to 32 in all.

    propositions NAME ..    1 to 16 names: letters, digits and '_', a letter first, 1 to 16 bytes, none twice; none of
                            U  R  X  F  G  true  false, which would be taken for an operator or a constant
    good, or bad            the session's mark; then come as many rows as there are propositions, in their order, one a line and all of one
                            length: a sign for each snapshot, '#' where the proposition holds and '.' where it doesn't, at most 64; of a session
                            with no snapshots each row is '-'
    unary OPERATOR ..       of  !  X  X[!]  F  G, none twice, in the order in which they are tried; left out: none of them
    binary OPERATOR ..      of  |  &  U  R  ->  <->, likewise
    constants yes, or no    whether true and false may be used; left out: no
    bound B                 the largest size, 1 to 31; not to be left out
    cut N                   only the first N bytes of the file are written, N below its length. This is for showing how a broken file is refused, and
                            it is the only way to a file that isn't good; left out: the whole file
"""
import glob
import os
import re
import sys

MARKS = {"bad": 0, "good": 1}
UNARY = {"!": 0, "X": 1, "X[!]": 2, "F": 3, "G": 4}
BINARY = {"|": 5, "&": 6, "U": 7, "R": 8, "->": 9, "<->": 10}
NAME = re.compile(r"[A-Za-z][A-Za-z0-9_]{0,15}")
RESERVED = ("U", "R", "X", "F", "G", "true", "false")
NUMBER = re.compile(r"0|[1-9][0-9]{0,5}")
OTHER = re.compile(rb"[^ -~\t\r]")


def fail(path, line, why):
    """Refuses: ends the program with a message that names the file and the line (None: it is the file as a whole)."""
    print(f"{path}: {why}" if line is None else f"{path}:{line}: {why}", file=sys.stderr)
    sys.exit(2)


def none_twice(words, no):
    for i, word in enumerate(words):
        if word in words[:i]:
            no(f"'{word}' stands twice")


def names(words, no):
    if not 1 <= len(words) <= 16:
        no(f"1 to 16 names are due, and here are {len(words)}")
    for word in words:
        if not NAME.fullmatch(word):
            no(f"'{word}' is no name: letters, digits and '_', a letter first, 1 to 16 of them")
        if word in RESERVED:
            no(f"'{word}' is no name: it would be taken for an operator or a constant")
    none_twice(words, no)
    return words


def codes(words, no, group):
    if not words:
        no("an operator is due; if there is to be none, leave the line out")
    for word in words:
        if word not in group:
            no(f"'{word}' is none of {' '.join(group)}")
    none_twice(words, no)
    return [group[word] for word in words]


def constants(words, no):
    if words not in (["no"], ["yes"]):
        no("'yes' or 'no' is due, and nothing else")
    return int(words == ["yes"])


def one_number(words, no, least, most):
    if len(words) != 1 or not NUMBER.fullmatch(words[0]) or not least <= int(words[0]) <= most:
        no(f"one number from {least} to {most} is due")
    return int(words[0])


# The lines that a text has once: what reads the words after the first.
LINES = {
    "propositions": names,
    "unary": lambda words, no: codes(words, no, UNARY),
    "binary": lambda words, no: codes(words, no, BINARY),
    "constants": constants,
    "bound": lambda words, no: one_number(words, no, 1, 31),
    "cut": lambda words, no: one_number(words, no, 0, 4449),
}


def row(words, no, length):
    """A row's number of signs, which is `length` unless that is None, and its 8 bytes, low byte first: bit i is snapshot i."""
    signs = "" if words == ["-"] else words[0]
    if len(words) != 1 or signs.strip("#.") or len(signs) > 64:
        no("a row is due, one for each proposition: '#' and '.', at most 64 of them, or '-' alone")
    if length not in (None, len(signs)):
        no(f"the rows of a session are of one length: this one has {len(signs)} signs, the first one {length}")
    return len(signs), sum(1 << i for i, sign in enumerate(signs) if sign == "#").to_bytes(8, "little")


def session_file(path):
    """The bytes of the session file that a text gives."""
    if not path.endswith(".txt"):
        fail(path, None, "the name of a text ends in .txt")
    try:
        with open(path, "rb") as f:
            lines = f.read().rstrip(b"\n").split(b"\n")
    except OSError as e:
        fail(path, None, f"can't be read: {e.strerror}")

    # what the lines gave, and where; the sessions' bytes; and of the session at hand how many rows are due and the length of those that came
    given, at, sessions, due, length = {}, {}, [], 0, None
    for number, line in enumerate(lines, 1):
        def no(why, number=number):
            fail(path, number, why)
        if OTHER.search(line):
            no("a byte that isn't of ASCII text")
        words = line.decode("ascii").split("//")[0].split()
        if not words:
            continue
        head, rest = words[0], words[1:]
        if due:
            first = length is None
            length, word = row(words, no, length)
            sessions[-1] += (bytes([length]) if first else b"") + word
            due -= 1
        elif head in MARKS:
            if rest:
                no(f"'{head}' stands alone on its line")
            if "propositions" not in given:
                no("the propositions come before the sessions")
            if len(sessions) == 32:
                no("a session too many: there may be 32")
            sessions.append(bytes([MARKS[head]]))
            due, length = len(given["propositions"]), None
        elif head not in LINES:
            no(f"not understood, and no row is due here: {' '.join(words)}")
        elif head in given:
            no(f"a second line '{head}': the first is line {at[head]}")
        else:
            given[head], at[head] = LINES[head](rest, lambda why: no(f"{head}: {why}")), number

    def lacks(what):
        fail(path, len(lines), f"the text ends without {what}")
    if due:
        lacks("all rows of its last session, one for each proposition")
    if "propositions" not in given:
        lacks("'propositions'")
    if not sessions:
        lacks("a session")
    if "bound" not in given:
        lacks("'bound'")

    unary, binary = given.get("unary", []), given.get("binary", [])
    out = bytes([len(given["propositions"])])
    for name in given["propositions"]:
        out += bytes([len(name)]) + name.encode("ascii")
    out += bytes([len(sessions)]) + b"".join(sessions)
    out += bytes([len(unary), *unary, len(binary), *binary, 2, given.get("constants", 0), given["bound"]])
    if "cut" in given and given["cut"] >= len(out):
        fail(path, at["cut"], f"cut: a number below the file's length is due, which is {len(out)}")
    return out[: given.get("cut", len(out))]


def main(words):
    check = words[:1] == ["--check"]
    texts = words[1:] if check else words
    here = os.path.dirname(os.path.abspath(__file__))
    made = [(path, path[: -len(".txt")] + ".session", session_file(path)) for path in texts or sorted(glob.glob(os.path.join(here, "*.txt")))]
    status = 0
    for path, to, content in made:
        try:
            if not check:
                with open(to, "wb") as f:
                    f.write(content)
            elif not os.path.exists(to) or open(to, "rb").read() != content:
                print(f"{to}: not what {path} gives")
                status = 1
        except OSError as e:
            fail(to, None, f"can't be {'read' if check else 'written'}: {e.strerror}")
    return status


sys.exit(main(sys.argv[1:]))
