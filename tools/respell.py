#!/usr/bin/env python3
"""Gives the repository's own definitions and lemmas the spelling of today's Rattle.

usage: python3 tools/respell.py [FOLDER]     FOLDER is a checkout that port.py has run over (default: this folder)

It was run once, right after port.py. Words of specs/ and proofs/ get snake case, types and relations get camel case,
and fields of records lose their hyphens. Functions of src/, strings, inputs, outputs and must-fail edits are untouched:
every name below is looked for as a whole word, in .antt and .rt files alone, and none of them is a function of src/.
"""
import os
import re
import sys

# Definitions, as they stood after port.py; each is turned to snake case, also where it is part of a lemma's name.
WORDS = """
bookTag bytesOf countFrom countIn damagedNotice decodeFront firstBytes firstOf firstValue frontParts headBytes headerIn headerOf
highFirst holdTo intoV0 intoV2 intoV3 isPath lastWord lengthFor noticeAllowed noticeBits noticeBy noticeOf numberAt oneMore
packetLength pathIn readingAllowed readingBits relayedBytes relayedNotice roundOf rowStations sealedBytes sealedParts sentBytes
sentNotice sipHash sipTag stationsIn tagBytes tagFor tagIn tagsFor tagsHold tagsIn
""".split()

# Relations and theorems.
TYPES = """
Front-form Front-within Is-notice Made-by-stations None-without-value One-form Published-hash Read-form Read-within Reads-back
Row-read Unanimous-value-given Worked-packets Worked-tags Written-back Written-within
""".split()

# Fields of records.
FIELDS = "damaged-not-held damaged-read relayed-held relayed-read sent-held sent-read".split()


def snake(word):
    return re.sub(r"[A-Z]", lambda m: "_" + m.group(0).lower(), word)


def camel(name):
    first, *rest = name.split("-")
    return first + "".join(part.capitalize() for part in rest)


def names():
    out = {w: snake(w) for w in WORDS}
    out.update({t: camel(t) for t in TYPES})
    out.update({f: f.replace("-", "_") for f in FIELDS})
    return out


# A name: what antt reads as one word.
NAME = re.compile(r"[A-Za-z_][\w]*(?:[-'][\w']+)*")


def respell(text, table):
    def one(match):
        whole = match.group(0)
        if whole in table:
            return table[whole]
        return "-".join(table.get(part, part) for part in whole.split("-"))

    return NAME.sub(one, text)


def main():
    top = sys.argv[1] if len(sys.argv) > 1 else "."
    table = names()
    for folder, dirs, files in os.walk(os.path.join(top, "crates")):
        dirs[:] = sorted(d for d in dirs if d != "out")
        for name in sorted(files):
            if not name.endswith((".antt", ".rt")):
                continue
            path = os.path.join(folder, name)
            with open(path, encoding="utf-8") as f:
                old = f.read()
            new = respell(old, table)
            if new != old:
                with open(path, "w", encoding="utf-8") as f:
                    f.write(new)
                print(path)


if __name__ == "__main__":
    main()
