#!/usr/bin/env python3
"""Respells this repository's own definitions and lemmas in snake case, types in camel case.

usage: python3 tools/respell.py    at the top of the repository, once, right after the toolchain's port.py

It goes by whole words: everywhere in specs/ and proofs/, in the sources outside comments and strings,
and in the pages between backticks. Functions of src/, exported names, inputs and outputs keep their names.
"""

import glob
import re

# names that only change their dashes and capitals
WORDS = """
a-b-c aCapitals aMark absent-nine absent-nowhere absent-rest adds-more after-space afterKey afterPut
ahead-kept ahead-low ahead-names all-rows alone-away alone-toward andNone apart-agree apart-inserted
apart-removed apart-tall approach-step as-fault as-history at-end at-later away-agree away-other
away-prop away-same back-from-end back-from-key back-kept back-names back-of before-inserted
before-removed begins-at below-or-at below-or-past bind-then book-built book-small both-in by-class
by-push calls-stay capitals-are capitals-none capitals-read capitals-said capitalsOf carries-after
carries-found carries-given carries-head carries-index carries-out carries-out-at case-decided
case-moved case-refused cases-le chained-out chained-put class-is classed-capital classed-digit
clean-capitals clean-number clean-spelt cleared-all climb-ends climb-hop climb-row climb-starts
climb-step closed-more commandAt counted-bound counted-row counts-ahead counts-back cut-chain
cut-index cut-other cut-run decided-fault decided-first decided-so decides-once decimal-more
departs-so descent-ends descent-nears descent-sides descent-starts descent-step dialogue-follows
distinct-rest done-call done-listed done-placed done-sent done-unfit each-drop each-prop each-turned
end-leads end-said ending-sides ending-starts entered-last enters-count enters-last enters-links
enters-place exceeding-le exceeding-more faultNumber faultWord faulted-so fields-rest fields-spread
first-leads first-send follow-add follow-decide follow-drop follow-join follow-move follow-send
follow-turn follows-once follows-within found-used four-goes-in free-at free-low free-unused
fresh-out from-b from-head full-after further-back gathered-append gathered-front gathered-push
going-never going-there half-prop has-four has-nine head-keeps head-kept head-tall headLinks
height-is height-put height-stays heightAfter held-is held-old heldReply here-at here-row high-drop
high-inserted high-raised high-removed high-reverse high-take high-xs high-ys highs-out highs-put
holds-from holds-new holds-none home-new home-old in-turn insert-after-capped insert-capped
is-reached joined-chain joined-first joined-index joined-kept joined-on joined-run joined-stays
joins-further joins-one joins-refused kept-capitals kept-mark kept-number key-read keyLink keyNumber
keyed-drop keyed-take keyed-turned keys-stay last-draw lasts-dropped lasts-equal lasts-moved
lasts-placed lasts-with law-of lead-end leads-back leave-absent leave-is leaves-ends leaves-onto
leaves-row leaves-sides leaves-starts leaving-ends left-more length-here length-is length-kept
length-levels length-lower length-order length-picked length-reverse length-turned length-upto
length-used length-view length-walk lent-prop level-alone level-back level-from level-high level-is
level-kept level-low level-on level-prop level-told levelOf levelReply leveled-behind leveled-head
levels-are levels-at levels-behind levels-head levels-lead levels-left levels-same levelsAfter
limited-prop line-bad line-done lineNumber lineWord link-eq linkAhead linkBack linkHeld linkReply
linked-at linked-told links-are linksAt list-brief list-is list-past list-room list-ruled list-small
listNumber listText listed-most listed-prop lost-key lower-at lower-below lower-drop lower-inserted
lower-removed lower-take map-reverse mark-other mark-read mark-said mark-same meaning-told
means-taken midway-ends midway-step more-over more-under move-accepted moved-last moved-past
names-behind names-drop names-on narrow-miss near-row nearest-agree nearest-apart nearest-below
nearest-each nearest-long nearest-low nearest-names nearestKey never-turned new-desk new-head
new-height next-joined nine-decides nine-goes-in nine-is none-at none-listed none-recorded
none-refuses not-bad not-below not-both not-vacant number-one number-said numberHash numbered-prop
obeyed-more only-spliced only-twice onto-least onto-low onto-met onto-next onto-over onto-past
onto-row onto-some opened-all opened-more opened-none order-left orderAfter over-is performs-on
picked-append picked-at picked-drop picked-inserted picked-kept picked-removed picked-reverse
picked-take place-last placed-brief placed-fault placedText plays-more plus-plus plus-to
prepared-prop present-after prints-front puts-as puts-more read-line read-so ready-done ready-list
ready-out ready-put recalled-prop recalls-prop recorded-most recorded-set refused-brief
refused-leads refused-reached refused-same refused-so refused-wrongly refusedText remove-at-capped
remove-capped removed-absent replies-on replyTo reportCount reportOf rest-stays reverse-at
reverse-past right-agree right-prop ring-at ring-back ring-here ring-leveled ring-nears ring-new
ring-on ring-only ring-onto ring-prop ring-whole rise-more rises-from rising-from rising-onto
room-key room-left room-none room-put rounds-step route-law row-free row-high row-key row-linked
row-stands row-there rows-below ruled-append ruled-more ruled-part ruled-small rules-prop run-kept
runs-more same-built same-joined same-pages seek-ends seek-goes-on seek-starts seek-used sent-brief
sent-fault sent-first sentText set-behind set-small setNumber shows-placed shows-sent sides-fit
sides-some sides-with sinking-starts size-put some-found some-held some-row sound-65 sound-68
sound-76 sound-77 sound-83 sound-84 sound-in sound-out sound-put sound-taken spliced-once
spread-push spread-short stands-some stays-bad stays-placed stays-sent staysText still-apart
stop-again stop-head stop-lower stop-nearest stop-row suc-is tagHash take-word tall-prop
tally-append tally-inserted tally-le-length tally-removed those-hit those-keys those-miss
those-turned threads-in threads-over to-b told-apart told-next told-out told-put toward-agree
toward-other toward-prop toward-same toward-turn turned-reverse turned-toward turned-twice
underway-all underway-left underway-more underway-none underway-refused unmatched-none
unmatched-rule unmoved-splice upto-below upto-once upto-run usable-fits used-out used-put view-at
view-behind view-head waits-rest walk-capitals walk-decimal walk-keys walk-mark walk-on walk-rising
walk-starts walked-append walked-bad was-next with-back with-other with-rule withLevel withLink
without-b word-and-rest word-rest word-spread written-more wrote-behind wrote-head x-absent x-b-y
y-absent yard-else yard-prop yard-waits
""".split()

# names that would fall together with another, or with a word of the library
OTHERS = {
    "Back-to": "BackTo",
    "Levels-lead": "LevelsLead",
    "after-at": "after_at_lem",
    "first_of": "first_in",
    "getD-behind": "get_or_behind",
    "getD-own": "get_or_own",
    "key-of": "key_of_lem",
    "list-text": "list_text_lem",
    "nearest-key": "nearest_key_lem",
    "with-level": "with_level_lem",
    "with-link": "with_link_lem",
}


def snake(name):
    return re.sub(r"([a-z0-9])([A-Z])", lambda m: m[1] + "_" + m[2].lower(), name).replace("-", "_")


NEW = {w: snake(w) for w in WORDS} | OTHERS
TOKEN = re.compile(r"(?<![\w'-])(?:%s)(?![\w'-])" % "|".join(sorted(map(re.escape, NEW), key=len, reverse=True)))


def respelled(text):
    return TOKEN.sub(lambda m: NEW[m[0]], text)


def source(text):
    """A source file: its code and clauses, not its comments and strings."""
    parts = re.split(r'(//[^\n]*|"(?:[^"\\\n]|\\.)*")', text)
    return "".join(p if k % 2 else respelled(p) for k, p in enumerate(parts))


def page(text):
    """A page: what stands between backticks."""
    return re.sub(r"`[^`\n]+`", lambda m: respelled(m[0]), text)


def main():
    turns = [("crates/**/*.antt", respelled), ("crates/**/*.rt", source), ("docs/*.md", page), ("README.md", page)]
    changed = 0
    for pattern, turn in turns:
        for path in sorted(glob.glob(pattern, recursive=True)):
            with open(path, encoding="utf-8") as f:
                old = f.read()
            new = turn(old)
            if new != old:
                changed += 1
                with open(path, "w", encoding="utf-8") as f:
                    f.write(new)
    print(f"respell: {changed} files")


main()
