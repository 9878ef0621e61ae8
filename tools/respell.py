#!/usr/bin/env python3
"""Brings this repository's own definitions and lemmas to snake case.

usage: python3 tools/respell.py     at the top, once, after /opt/rattle/port/port.py

A name that stands in PLAIN gets `_` for each `-`; one in OTHERS gets the name beside it. A `-` stays where it joins the
names of two functions, as in `number-encoded`. Only whole names are turned, in specs/, proofs/ and the clauses of src/;
comments, strings and Rust names stay as they are.
"""

import os
import re

PLAIN = """
a-class a-less above-all accepted-unless add-answer added-some after-all after-round alike-on-all all-below
all-below-decides all-below-end all-below-fails all-below-false all-below-from all-below-more all-below-true
all-below-weaker all-in-order answers-all answers-behind any-below-decides any-below-end any-below-false
any-below-from any-below-more any-below-none any-below-true any-below-weaker as-calls ascends-from at-q
at-state b-less before-part behind-calls behind-opening behind-part behind-sweeps below-cut both-none
buffer-lawful c-is calm-none-loose cause-of cause-refusal caused-faulty certificate-law certificate-says
channel-count channels-allowed channels-at channels-bound channels-held channels-place channels-read class-end
class-ends class-of-125 class-of-126 code-list code-list-lawful controller-at controller-held controller-in
controller-moves controller-moves-bound controller-place controller-same controller-word count-below
count-below-less count-below-most count-below-none count-below-one-more count-below-same count-bound
count-line counted-in counted-some encoded-short ended-solves ends-below entry-most environment-at
environment-held environment-in environment-moves environment-moves-bound environment-place environment-same
environment-word equal-entries-refused error-text example-count exchange-closed fault-number fault-text
faultless-simulation faulty-is faulty-less faulty-more few-channels few-controller-moves few-enough
few-environment-moves few-from few-moves few-moves-in-both few-of few-p few-q few-states fewer-left
fewer-stand fewer-to-come file-fault file-fault-from file-parts file-read file-spelled file-tested file-text
file-words filed-back filled-kept first-below-found first-below-none-all first-below-none-from
first-below-none-more first-below-some first-fault first-fault-in first-loose first-loose-in fitting-room
found-caused found-later four-sweeps from-read full-budget full-makes-none full-none full-pair full-row
full-rows further-rounds good-after good-after-opening good-behind-calls good-count good-does good-marked
good-most good-opened good-opens good-room good-sound good-strike good-sweep-pair good-sweep-row
good-sweep-rows good-swept good-tells held-laid-out highest-below idle-at-pair idle-at-row idle-pair idle-row
idle-rows if-granted if-granted-both in-class in-part in-range is-loose is-used joined-below joined-more
joint-lawful joint-step joint-steps laid-out-prop larger-replaces largest-behind-sweeps largest-number
last-bound layout-by-rows layout-complete layout-decides layout-holds layout-sound least-next least-refutes
least-refuting left-right long-enough loose-granted loose-strike loose-strike-none loose-strike-some
loose-told lost-below marked-ordered move-fits move-flattened move-line move-lines move-refutes moves-allowed
moves-bound moves-text n-is new-controller-moves new-environment-moves new-next new-next-bound new-rank
new-states next-allowed next-at next-bound next-cell next-fault next-flattened next-held next-highest next-in
next-numbers next-pair next-ranked next-row-ranked next-row-seen next-same next-seen next-states-fit
next-states-from next-states-true next-step no-channel-reading no-controller no-controller-move
no-controller-next no-environment no-environment-move no-environment-next no-loose-strike no-next
no-pair-fault no-question no-reading no-state-controller no-state-environment no-state-reading none-faulty
none-loose-calm none-made-largest none-made-same none-made-says none-made-settled none-made-tight none-past
none-ranked none-unless none-where not-two not-used not-within-3 now-faulty now-ranked number-found
number-refusal number-standing number-too-large number-too-long ok-either ok-past ok-then old-controller-moves
old-environment-moves old-next old-next-bound old-states one-made one-p one-q one-refutes one-row open-does
open-says openable-fits opened-in-use opened-length opened-openable opening-refusal opens-unless
ordered-and-calm outside-struck pair-fault pair-fault-none pair-refusal part-long past-state proposals-all
proposals-next put-answer put-at put-in-front put-joined put-listed put-none rank-does rank-kept rank-pair
rank-round rank-rounds rank-row rank-rows rank-says ranked-before ranked-in-it ranked-keeps ranked-right
ranked-solves ranks-accepted ranks-calm ranks-now ranks-ordered reached-next reading-at reading-held
reading-in reading-same reading-text reading-word readings-fault readings-flattened readings-line
reads-as-filed reads-back refusal-number refused-from refuted-alike refuted-at refuted-is refuted-more
refuted-same refuted-still refuted-there refutes-more rest-ascends resting-laid-out room-after-sight
room-enough round-below round-counts round-ends round-fits round-from round-goes-on round-in-use round-size
rounding-none rounding-pair rounding-row rounding-rows rounds-keep rounds-last rounds-next rounds-same
rounds-solve row-cell row-complete row-end row-fault row-fault-from row-flattened row-held row-laid-out-prop
row-place row-sound row-start row-tested row-turn row-word-at rows-answer rows-fault rows-flattened rows-place
rows-read rows-spelled rows-tested run-law same-below same-cell same-channels same-meaning same-pair
same-ranks same-reading same-sea-state second-byte second-found seen-row seen-rows set-answer set-two
settle-says settle-tells settled-accepted settled-behind-sweeps settled-right settled-unless sight-rank
sight-row sight-rows sight-unlike sighted-below simulation-faultless skip-more some-by-move some-cause
some-channel some-controller-move some-count some-environment-move some-if some-of-two some-refutes some-state
some-states spells-listed spells-row spells-rows-of spells-split spoilt-so standing-from standing-parts
start-stands state-count state-text states-allowed states-at states-bound states-held states-read
stepped-bound still-faulty stored-lawful stored-word stored-words stored-words-kept stored-words-laid-out
strike-does strike-for strike-refusal strike-says strikes-now struck-at struck-later struck-outside
struck-rightly struck-same struck-so struck-there sweep-does sweep-pair sweep-row sweep-rows sweep-says
sweeps-accepted swept-counts swept-from swept-from-pair swept-from-row swept-from-rows swept-from-start
swept-good swept-in-use swept-out swept-out-enough swept-out-from swept-out-last swept-out-next swept-out-same
swept-table system-bytes system-text system-word system-words tested-same third-byte third-found tolerance-of
tolerances-after too-many-states two-stand unfiled-back unfiled-held unless-err unless-ok unread-by
unspell-listed unspell-one unspell-row unspell-rows unspell-rows-of use-refusal used-before used-behind-calls
used-here used-index used-more used-on used-same value-and-rest value-at value-bound value-bound-by was-opened
was-refuted whole-size with-earlier with-entry within-4 within-from within-true words-taken write-fault
yes-some yes-used
""".split()

OTHERS = {
    "Answers-of": "answers_of",
    "spells-append": "Spells-append",
    "spells-spelled": "Spells-spelled",
}

RENAMED = {**{name: name.replace("-", "_") for name in PLAIN}, **OTHERS}
NAME = re.compile(r"[\w'-]+")
STRING_OR_COMMENT = re.compile(r'("(?:[^"\\]|\\.)*"|//.*$|(?<!\S)--(?: .*)?$)')


def respelled(line):
    parts = STRING_OR_COMMENT.split(line)
    return "".join(
        part if k % 2 else NAME.sub(lambda m: RENAMED.get(m.group(), m.group()), part)
        for k, part in enumerate(parts)
    )


def main():
    for folder, dirs, files in os.walk("crates"):
        dirs[:] = sorted(d for d in dirs if d != "out")
        for name in sorted(files):
            if not name.endswith((".rt", ".antt")):
                continue
            path = os.path.join(folder, name)
            with open(path, encoding="utf-8") as f:
                old = f.read()
            new = "\n".join(respelled(line) for line in old.split("\n"))
            if new != old:
                with open(path, "w", encoding="utf-8") as f:
                    f.write(new)


main()
