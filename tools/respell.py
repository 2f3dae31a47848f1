#!/usr/bin/env python3
"""Brings the names of definitions and lemmas to today's spelling, after the port script of the kit: words in snake case.

usage: tools/respell.py [FOLDER]      FOLDER holds crates/; this repository if none is given

Every name of ours in specs/ and proofs/ that was in lower camel case (streamPlaces) becomes snake case (stream_places), where it is defined, in clauses, and in
comments; so do fields of records in specs/ that had a dash. A lemma whose name would then be its definition's gets _lem. Text in quotes stays.
"""

import glob
import os
import re
import sys

# fields of records in specs/ with a dash, and lemmas that would have their definition's name
OTHERS = {"stamp-set": "stamp_set", "status-set": "status_set", "non-leaf": "non_leaf"}
LEMMAS = {"has_move": "has_move_lem", "number_by": "number_by_lem", "number_read": "number_read_lem"}

WORD = re.compile(r"(?<![\w'\u2032-])[a-z][\w'\u2032-]*")
QUOTED = re.compile(r'"(?:[^"\\]|\\.)*"|b?\'.\'')


def is_camel(word):
    return re.search(r"[a-z0-9][A-Z]", word) and re.fullmatch(r"[a-z]\w*", word)


def snake(word):
    word = re.sub(r"([a-z])0$", r"\1_0", word)
    return re.sub(r"([a-z0-9])([A-Z])", r"\1_\2", word).lower()


def outside_quotes(line, turn):
    out, at = "", 0
    for q in QUOTED.finditer(line):
        out += turn(line[at:q.start()]) + q.group(0)
        at = q.end()
    return out + turn(line[at:])


def main():
    top = sys.argv[1] if len(sys.argv) > 1 else os.path.join(os.path.dirname(os.path.abspath(__file__)), "..")
    antt = [p for f in ("specs", "proofs") for p in glob.glob(os.path.join(top, "crates/*", f, "**/*.antt"), recursive=True)]
    code = glob.glob(os.path.join(top, "crates/*/src/**/*.rt"), recursive=True)
    names = set()
    for p in antt:
        for line in open(p, encoding="utf-8"):
            if not line.lstrip().startswith("--"):
                outside_quotes(line, lambda t: names.update(w for w in WORD.findall(t) if is_camel(w)) or t)

    def word(m, own):
        w = m.group(0)
        if own and w in OTHERS:
            return OTHERS[w]
        if own and w in LEMMAS and not re.match(r"\.(Statement|Tie|Reads|Lts)\b", m.string[m.end():]):
            return LEMMAS[w]
        return snake(w) if w in names else w

    for p in antt + code:
        was = open(p, encoding="utf-8").read()
        own = p.endswith(".antt")
        now = "".join(outside_quotes(line, lambda t: WORD.sub(lambda m: word(m, own), t)) for line in was.splitlines(keepends=True))
        if now != was:
            with open(p, "w", encoding="utf-8") as f:
                f.write(now)


main()
