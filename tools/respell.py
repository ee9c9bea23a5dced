#!/usr/bin/env python3
"""Brings this repository's own definitions and lemmas to the spelling of the installed Rattle.

usage: python3 tools/respell.py        at the top, once, right after the toolchain's own script port.py

Every name in NAMES is one that this repository declares in specs/ or proofs/, or a local name there. A fact or a
type (a capital first) becomes upper camel case, anything else snake case. Names that come from Rattle's library, names
that Rattle makes (goals, steps, returns), functions of src/, strings, inputs and outputs are not in the list and stay.
Comments and the pages of docs/ that name one of these follow.
"""

import os
import re

NAMES = """
All-fair Answered-with Ask-reported Before-cease Block-given Exactly-one First-unsound Fits-in-any-order
In-order In-range le-one Marked-hold Never-falling Nobody-in-the-money Nobody-passes Now-on Number-reported
Priced-or-refused S-ascends Sound-to Taken-or-refused Terms-of Up-to Worked-hold above-cons above-differs
above-entered above-put-in above-tail accepted-instruction accepted-list accepted-or-not accepted-screening
accepted-shown accepted-trade accepted-with after-differs after-screening after-word all-above-not-among
all-differ all-entered all-fair-stepped all-granted all-is all-mapped all-open all-rounds all-space
all-space-drop all-unmap among-at among-with-key amount-beside amount-if amount-within amounts-shown
answer-says answer-to-assign answer-to-failure answer-to-instruction answer-to-list answer-to-notice
answer-to-preliminary answer-to-propose answer-to-trade answer-to-withdraw answer-with apart-keys apt-of
as-notice as-preliminary as-withdrawal ascending-cons ascending-entered ascending-head ascending-in-order
ascending-inserted ascending-map ascending-placed ascending-rest ascending-set ascending-tail ask-of ask-shown
assign-answer assigned-in assigned-line assignment-of at-drop-two at-start before-asymmetric before-differs
before-earlier before-irreflexive before-one before-transitive below-differs below-if below-past below-unless
between-once blank-swaption block-by block-given block-least block-most blocks-blockwise blocks-fit blocks-of
blocks-of-fit book-judges-it book-judges-list book-judges-trade book-misses-it book-misses-swaption
book-puts-in-place book-takes-it both-netted bought-named bound-among bound-amount bound-by-figures
bound-no-lower bound-of-stranger bound-recorded bound-rises-with-trade bound-stepped bounds-rise buyer-found
buyer-in-the-money buyer-of buyers-in by-figures by-j by-k by-price by-remainder by-remainder-proper
by-running by-test changed-in claim-at claim-of claim-waits cut-after cut-after-drop distance-of
distance-shown div-lower div-upper divisor-pos due-of each-open ends-in-return entered-before entered-between
entered-commute entered-either-order entered-found entered-missing entered-past entry-by equal-not-less
event-of exercise-taken failed-flag failed-in failure-above-price failure-answer failure-elsewhere
failure-recorded failure-steps fair-after fair-anywhere fair-by-screening fair-by-trade fair-by-word
fair-elsewhere fair-in-trade fair-stepped fair-still fair-table fault-shown figure-back figure-in
figure-recorded first-by-transitive first-fault first-fault-more first-or first-row first-terms floor-share
floors-going floors-le floors-ranked floors-stand floors-under found-fits found-is-listed found-once
found-ordered fraction-shown fresh-is fresh-stranger fresh-swaption from-cease from-cutoff-on from-start-on
gain-of getD-le-sum gets-at-least gets-at-most give-keeps given-of goes-push going-fits granted-at
granted-before granted-long granted-more granted-none granted-places granted-set granted-sum greater-differs
grown-by had-room heard-so held-is held₀-is high-differs highest-price history-after history-of history-push
holds-of-found if-accepted if-listed if-priced if-standing in-money in-money-by in-range in-the-money in-up
instructed-positions instruction-answer instruction-answer-same instruction-recorded instruction-rises
instruction-rows instruction-same instruction-says instruction-settled is-assigned is-caught is-comment
is-listed is-price is-space its-terms judged-list kept-if-not keys-ascend keys-back keys-of-rows keys-recorded
kind-of last-at last-in-range last-is last-notice last-once last-part last-pass last-pass-each last-pass-long
last-pass-sum last-price last-priced later-words latest-moment leaves-below led-by-screening led-by-trade
led-by-word led-positions-ascend led-swaptions-ascend left₀-is less-differs less-up-to line-says list-among
list-answer list-kept list-recorded list-says list-settled listed-figure-found listed-terms listed-terms-found
listed-terms-missing long-out low-before-found low-before-missing low-differs low-found-after
low-found-after-put-in low-found-after-write low-missing-before-found low-missing-before-missing ltb-one
ltb-transitive map-in-part map-through marked-found marked-missing missing-found missing-is-no-buyer
missing-ones mixed-of mixed-shown modest-there moments-in-order most-rest moved-size moved-up-twice named-at
named-row named-rows ne-up neither-before net-elsewhere net-of net-recorded net-same net-within nets-capped
never-falling-in-order new-positions new-swaptions next-stance next-there no-fewer no-terms nobody-exercised
nobody-has nobody-holds nobody-waits none-if-not none-screened not-among not-bought not-less not-of-it
not-over not-p not-raised not-under nothing-changed notice-answer notice-elsewhere notice-of-nothing
notice-recorded notice-steps notice-taken noticed-position now-settled number-after number-after-large
number-after-none number-after-some number-of-word number-of-word-some numbers-say numbers-shown of-ask of-due
of-index of-value of-variant once-bought once-sold one-waits open-position or-else-cases other-before
other-found other-number others-differ others-differ-above p-is part-is passed-if passed-in-order
passed-unless picked-at picked-before place-shown placed-in-order placed-with-row position-inside
position-keys position-of position-restanced position-written positions-after positions-ascend positions-by
positions-capped positions-fair positions-in positions-line positions-long positions-screened positions-up
preliminaries-in preliminary-answer preliminary-elsewhere preliminary-of preliminary-recorded
preliminary-steps preliminary-taken price-at priced-first propose-answer propose-elsewhere propose-recorded
propose-steps proposed-flag put-in-part put-more put-row put-twice put-two-in-part quiet-bound quiet-in-trade
quiet-stance quoted-by raised-to rank-on ranked-less ranked-more ranked-up-to reach-all recorded-after
recorded-bound recorded-stance refuse-if refuse-unless refused-not-accepted refused-shown refuses-above
rest-above rest-turn rises-by-trade round-long round-ranks rounds-done rounds-given rounds-keep rounds-long
rounds-next rounds-rank rounds-round rounds-short rounds-unclaimed row-among row-capped row-found
row-of-stranger row-or-fresh row-steps row-there row-with rows-netted rows-spared rows-with-one-more rule-in
rule-number rule-of running-fits running-from same-bound same-either-way same-itself same-key-after-write
same-key-kept same-latest same-means-equal same-party same-positions same-rises same-terms screen-is screen-of
screened-by screened-inside screened-positions screened-rises screened-rows screening-answer
screening-answer-same screening-entry screening-event screening-misses screening-modest screening-priced
screening-recorded screening-refused screening-rises screening-rows screening-same screening-says
screening-settled screening-unpriced screening-window seller-found seller-of sellers-in sellers-row
settled-after settled-less settled-none share-le share-over share-under shifted-inserted shifted-moved-up
shown-as sides-differ sides-of-parties size-one size-up sold-row sound-blocks sound-by-test sound-deal
sound-in sound-payoff sound-price sound-rank sound-size sound-terms spent-in spent-recorded stance-amount
stance-by-notices stance-by-preliminary stance-in-window stance-of stance-recorded standing-more start-written
step-shown stepped-if steps-shown still-among stranger-net stronger-is strongest-from strongest-waits
sum-drop-all sum-drop-more sum-set swaption-after swaption-inside swaption-marked swaption-of
swaption-screened swaption-within swaption-written swaptions-after swaptions-ascend swaptions-in
swaptions-long swaptions-stay swaptions-traded swaptions-up take-written taken-or terms-ascend terms-at
terms-back terms-in terms-new terms-of terms-of-rows terms-other terms-recorded terms-shown terms-with
told-failure told-list told-not-yet told-notice told-preliminary told-propose told-trade told-withdraw
too-early top-cons trade-among trade-answer trade-answer-same trade-facts trade-fair trade-kept trade-recorded
trade-rises trade-room trade-rows trade-says trade-settled trade-sound trade-was traded-capped traded-in
traded-positions traded-swaptions turn-of two-fit two-put unassigned-before unassigned-in-window unassigned-on
unlisted-before unreadable-shown up-to-less up-to-past up-to-up-to v-is valid-amount valid-within valid-word
value-after-grows values-more volume-back volume-capped volume-if-listed volume-in waiting-at waiting-le
waiting-set waits-claim was-fair with-block with-block-gets with-failed with-key with-kind with-net
with-proposed with-row-netted with-rows-either-order with-stance with-stated with-swaption with-terms
with-volume with-word withdraw-answer withdraw-elsewhere withdraw-recorded withdraw-steps withdraw-taken
withdrawn-position without-return word-before-cutoff word-modest word-of-buyer words-cut words-say words-whole
written-by-key written-by-number written-more yes-one
""".split()

# where the rule alone would not give a name of the kind that is meant
OTHERWISE = {
    "S-ascends": "s_ascends",
    "Now-on": "now_on",
    "getD-le-sum": "get_or_le_sum",
}

WORD = re.compile(r"(?<![\w'\u25cc-])[A-Za-z_][\w']*(?:-[\w']+)+(?![\w'-])")
STRING = re.compile(r'"(?:[^"\\]|\\.)*"')


def respelled(name):
    if name in OTHERWISE:
        return OTHERWISE[name]
    if name[0].isupper():
        return "".join(w[0].upper() + w[1:] for w in name.split("-"))
    return name.replace("-", "_")


TABLE = {n: respelled(n) for n in NAMES}


def turn(text):
    return WORD.sub(lambda m: TABLE.get(m.group(0), m.group(0)), text)


def turn_code(text):
    """The words of a .rt file or an edit, but none inside a string."""
    parts, at = [], 0
    for m in STRING.finditer(text):
        parts += [turn(text[at : m.start()]), m.group(0)]
        at = m.end()
    return "".join(parts + [turn(text[at:])])


def turn_page(text):
    """The words of a page that stand in code marks."""
    return re.sub(r"`[^`\n]+`", lambda m: turn(m.group(0)), text)


def files():
    for folder, dirs, names in os.walk("crates"):
        dirs[:] = sorted(d for d in dirs if d != "out")
        for n in sorted(names):
            yield os.path.join(folder, n)
    yield "README.md"
    for n in sorted(os.listdir("docs")):
        yield os.path.join("docs", n)


def main():
    taken = {}
    for old, new in TABLE.items():
        if new in taken:
            raise SystemExit(f"respell: {old} and {taken[new]} would both be {new}")
        taken[new] = old
    kinds = {".antt": turn, ".rt": turn_code, ".edit": turn_code, ".md": turn_page}
    changed = 0
    for path in files():
        how = kinds.get(os.path.splitext(path)[1])
        if not how:
            continue
        with open(path, encoding="utf-8") as f:
            old = f.read()
        new = how(old)
        if new != old:
            with open(path, "w", encoding="utf-8") as f:
                f.write(new)
            changed += 1
    print(f"respell: {len(TABLE)} names, {changed} files changed")


if __name__ == "__main__":
    main()
