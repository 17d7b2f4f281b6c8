#!/usr/bin/env python3
"""Brings this repository's own definitions and lemmas to today's spelling: words in snake case, types and modules in camel case.

usage: python3 tools/snake_names.py      at the top of the repository, once, right after port.py

A dash stays where it joins the names of two functions, as in length-laid. Functions of src/, strings, inputs and outputs keep their
names. A new name that some file has already is refused, so that no two names fall together.
"""

import glob
import re
import sys

# words in camel case; whenceOf would have fallen together with the function whence_of, seek-answer with seekAnswer
CAMEL = """
isZ is_z
whenceOf whence_for
sizeAnswer size_answer
digitRead digit_read
digitRow digit_row
memoryPile memory_pile
bpsRead bps_read
bpsRow bps_row
rowNotice row_notice
entriesLeft entries_left
cutShort cut_short
scriptedPile scripted_pile
skippedPile skipped_pile
skippingPile skipping_pile
allRead all_read
allWritten all_written
seekAnswer seek_answer
cutAnswer cut_answer
getD-laid get_or-laid
getD-laid-before get_or-laid_before
getD-laid-in get_or-laid_in
getD-laid-after get_or-laid_after
length-laid-le length-laid_le
seek-answer seek_answered
"""

# a plain word is joined by an underscore
DASHED = """
sound-file leaves-same read-file left-file whole-read write-past write-none whole-cond whole-write put-cleared put-pasted laid-in-file
wrote-file cut-in-file after-truncate truncate-out tell-file flush-file seek-file seek-out-file seek-bad-file len-fits place-fits
start-signed end-bits ends-past starts-in got-size row-short row-full fill-full fill-less fill-bits fill-refused lay-more lay-none
lay-less lay-bits lay-refused writes-passed goal-is sought-place not-outside gotten-missing gotten-there get-past get-unsought get-unread
get-short get-whole put-unwritable put-unsought lay-why laid-at put-laid gotten-back patch-part unsteady-why some-granted granted-row
patch-unput patch-unflushed patch-granted back-why patch-ungotten row-said put-said got-said unput-said patch-said shown-same shown-laid
stored-shown grants-on most-some never-steady fair-second fair-cond fair-verdict still-under unmoved-under refused-under sound-under
leaves-under script-refuses seek-refuses write-answer seek-to-under origin-under seek-under seek-bad placed-within fits-within past-answer
truncate-under leaves-still tell-under flush-under whole-cut place-z place-bits place-signed seek-z ends-in not-past end-past from-drop
sound-skip based-skip kept-skip still-skip piled-skip leaves-ok failed-once failed-then read-skip wrote-skip cut-skip flush-skip seek-skip
seek-fails head-fits size-laid laid-rest blames-deepened blames-map reaches-self put-none put-from put-more room-left length-slice some-from
got-none got-length got-bytes got-more still-refl unmoved-refl still-then piled-refl piled-then when-map when-never why-map why-deeper
refused-deeper steady-refused within-is within-out within-at seek-lost some-not-none in-range sought-is refused-is cut-is call-is
position-is layers-is count-buf limit-same steady-on held-from headers-same position-same shown-cut held-shown
"""

NAME = r"\w'·-"


def table():
    new = dict(line.split() for line in CAMEL.split("\n") if line)
    new.update((w, w.replace("-", "_")) for w in DASHED.split())
    return new


def files():
    names = glob.glob("crates/*/src/**/*.rt", recursive=True)
    names += glob.glob("crates/*/specs/*.antt")
    names += glob.glob("crates/*/proofs/**/*.antt", recursive=True)
    return sorted(names) + sorted(glob.glob("docs/*.md")) + ["README.md"]


def main():
    new = table()
    texts = {p: open(p, encoding="utf-8").read() for p in files()}
    there = set()
    for p, t in texts.items():
        if p.endswith((".rt", ".antt")):
            there |= set(re.findall(rf"[{NAME}]+", t))
    both = sorted(w for w in new.values() if w in there)
    if both or len(set(new.values())) != len(new):
        print("these names are taken:", *both)
        return 1
    old = re.compile(rf"(?<![{NAME}])(?:{'|'.join(sorted(map(re.escape, new), key=len, reverse=True))})(?![{NAME}])")
    for p, t in texts.items():
        if p.startswith("docs/PORT"):
            continue
        turned = old.sub(lambda m: new[m[0]], t)
        if turned != t:
            with open(p, "w", encoding="utf-8") as f:
                f.write(turned)
    return 0


if __name__ == "__main__":
    sys.exit(main())
