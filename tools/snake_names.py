#!/usr/bin/env python3
"""Spells the repository's own definitions and lemmas in snake case, as the toolchain's library does.

usage: python3 tools/snake_names.py, at the top of the repository

Turned are the names of NAMES alone, in specs/, in proofs/ and in the clauses and ghost lines of src/. Comments, strings
and must-fail edits stay as they are, and so do the names that the toolchain makes. A second run changes nothing.
"""

import os
import re

# A dash becomes an underscore, and hexadecimal digits become small.
NAMES = """
after-ahead after-all after-consume after-lt after-mark after-marking after-release after-releasing after-seek
after-seek-sought after-sought after-sought-tests after-tests ahead-at ahead-end ahead-here ahead-is ahead-nowhere
ahead-on ahead-some ahead-token all-between all-replied all-reverse all-tokens and-false answer-text apart-eof
apart-marked apart-plain apart-token as-count as-done as-got as-token as-told at-end at-end-all at-end-is
at-end-more at-least-five at-or-above at-within at-word back-first back-given back-here back-past back-short
back-shows back-status back-steps back-stop back-within bare-call before-eof before-is begins-here begins-kept
begins-left begins-stops behind-held behind-none behind-some behind-was-ahead below-or-from below-reach between-both
between-cut between-some between-valid beyond-alike beyond-marked beyond-moved blank-is-none both-splits by-item
byte-here byte-input byte-text bytes-added bytes-around bytes-from bytes-text bytes-within call-of calls-made
char-four char-three check-bad check-good check-long class-blank class-digit class-letter closed-first closed-next
closed-shows closed-status closed-unmarked codes-laid codes-moved codes-of column-at column-is columns-add
columns-end come-to consume-finds-eof consume-finds-full consume-finds-next consume-full consume-inside consume-last
consume-on consume-same consume-tests consumed-on consumed-same count-ahead count-text counted-all counted-longest
counted-marked counted-more counted-unmarked counts-ahead covers-no covers-yes cursor-is cursor-on-a-token cut-order
cuts-laid cuts-split dark-first dark-none digit-is-none digit-missing digit-more digits-quiet done-shows done-status
drop-all-held drop-none-held drop-some-held each-apart echo-input echo-other else-empty empty-open encode-four
encode-three encode-two encoded-cut encoded-lawful encoded-more encoded-size encoded-text end-grown end-within
end-without ends-at-eof ends-differing ends-early ends-line ends-none ends-unseen ends-unwanted eof-at eof-ends
eof-index eof-is eof-last eof-later eof-not-yet eof-same eof-stamped eqb-suc every-token-comes feed-after feed-cases
feed-consume feed-lt feed-place-column feed-place-line feed-seek feeds-not few-given filling-done filling-more
filling-none first-at first-at-start first-line first-mark first-starts floor-never-passes-the-cursor floor-stays
forward-movement fraction-le fraction-other fraction-point from-cursor from-from from-here from-rises from-shorter
from-skips from-split from-within front-empty front-min further-between get-below get-found get-held get-past
given-all given-refused given-same goes-on-inner good-list granted-cuts half-input hash-other held-as here-index
hex-byte hex-digit holds-without if-given if-read in-line index-above index-after index-answer index-clamped
index-here index-rises inner-goes-on input-words interval-check interval-given interval-held interval-of
interval-text interval-tokens is-consumed is-eof is-reset is-shown is-sought item-at item-begins item-below item-end
item-here item-none item-past item-skips item-start item-within just-written keeps-first kept-all kept-both
kept-none kept-past kind-feed kind-of la-here la-not-refused la-now la-same laid-append laid-codes laid-lawful
laid-left laid-within last-below last-is last-read last-same last-symbol later-goes-on later-lines latest-back
latest-none latest-some leading-all leading-most leading-no leading-past leading-stops leading-yes left-by-all
left-few left-more left-start length-numbers length-replies length-ring length-stamps letter-is-none lexed-eof
lexed-lawful lexed-more lexed-some lexeme-here lexeme-of lexeme-quiet line-feed line-feed-column line-feed-line
line-head line-is line-passed line-told lines-add lines-front lines-over list-check list-is list-source lone-eof
lone-good longer-end longest-agreed longest-more longest-none looked-ahead looked-behind looked-for looked-same
lt-ahead made-eof map-before map-from mark-after mark-answer mark-given mark-refused mark-status marked-floor
marking-keeps marks-after-mark marks-after-release marks-append marks-are marks-as-marking marks-as-releasing
marks-back marks-left marks-same more-is more-le moved-moved moved-within n-is name-call name-counts name-numbers
name-token new-stream new-token next-above next-at next-back next-begins next-column next-goes-on next-length
next-line next-mark next-number next-on next-place-column next-place-line next-same next-texts no-decimal no-letter
no-space no-texts none-covers none-fit none-further none-held-at-the-reach none-longer none-past
none-pulled-past-the-eof none-replied none-text not-consumed not-feed not-feeds not-grown not-hash not-held
not-shrunk now-how now-out number-back number-least number-lexeme number-on number-pointed number-rest number-whole
numbers-coming numbers-kept numbers-less numeral-fails numeral-passes octets-from-scalars of-class of-count of-done
of-got of-list of-looked of-place offset-is on-and-back on-eof on-more on-stop on-token on-within one-at-least
one-back one-call only-first onto-more onto-none onward-all onward-none onward-some onward-start open-answer
open-from open-with ordered-lookahead other-is-none outside-start own-place own-target pair-more part-laid part-more
part-points passed-between passed-both passed-more passed-wide past-spaces piece-feed place-and-rest place-before
place-first place-from place-next place-own place-start place-text pointed-le pointed-more pointed-some points-few
points-split proper-at pull-falls pulled-eof pulled-last pulled-more pulled-to pulls-next pulls-stays push-full
push-late push-one put-done put-end put-more put-none put-stop quiet-count raised-more raised-none ran-more ran-none
reading-none reading-some refusal-text refused-cases refused-stays release-answer release-given release-of
release-refused released-given released-marks remark-is-never-a-value replies-so reply-of rest-ends rest-fits
rest-is rest-lawful rest-none rest-shorter rests-again reverse-map ring-at ring-drop ring-end ring-more ring-other
ring-past rises-low rises-under roomy-call row-back-first row-back-past row-back-short row-back-steps row-from-min
row-from-past row-item row-item-past row-no-part row-none row-on-none row-part row-size run-answer run-ended
run-is-more run-stopped same-capacity same-channel same-cursor same-decision same-equal same-feed same-floor
same-interval same-line-column same-minus-one same-open same-pulled same-reach same-status same-words scalars-parts
seek-after seek-back seek-back-restores seek-cases seek-finds-full seek-same seek-sought seek-status seen-given
seen-held seen-now seen-some settled-view sheet-from sheet-source shorter-front shown-lawful shown-text
shows-the-list size-answer size-kept size-start skip-drop slice-fit slice-text small-given small-more some-beyond
some-token sought-back sought-full sought-on sought-out sought-out-same sought-same sought-tests source-words
spaces-are span-append span-one span-text span-width split-at-start split-bytes split-here start-at start-ended
start-from start-from-above start-from-onward start-from-start start-from-within start-stops start-without
starts-before starts-climb starts-high starts-low starts-split starts-within status-of status-with steps-off
stops-start stream-lt stream-numbers stream-of stream-words symbol-at tallied-marked tally-agrees tally-beyond
tally-differs tally-ended tally-unwanted target-index tells-end tells-short text-after text-answer text-found
text-given text-is text-lawful text-left text-left-found text-refused texts-end texts-more texts-of the-list-stays
this-start three-call to-cursor together-as together-marked together-new together-released together-rests
together-seen token-answer token-at token-before token-below token-first token-found token-held token-inside
token-of token-past token-seen token-shown token-text tokens-are-of-the-list tokens-ended tokens-few tokens-of
tokens-some tokens-without told-apart told-eof two-call type-of typed-unless typed-when unaltered-chained
unaltered-same units-check units-text unless-passed unmarked-first unmarked-shows unmarked-status upto-length
upto-none upto-upto utf8-1 utf8-2 utf8-3-E0 utf8-3-E1-EC utf8-3-ED utf8-3-EE-EF utf8-4-F0 utf8-4-F1-F3 utf8-4-F4
utf8-from-octets utf8-input utf8-whole walk-looked walk-stayed wander-none wander-seek wander-step went-after
went-cases went-status when-open when-opened whole-match with-floor with-index with-marks with-point with-status
with-tokens within-reach within-second word-added word-input words-on written-answer written-end written-front
written-leaves written-more y-is z-is
""".split()

# Names that become others.
OTHERS = {
    'getD-stamps': 'get_or_stamps',
    'Made-so': 'made_so',
}

TURNED = {name: name.replace("-", "_").lower() for name in NAMES} | OTHERS
# A string, a comment, or a word; a word is turned where it is a name of the table.
PARTS = re.compile(r'"(?:[^"\\]|\\.)*"|--[^\n]*|//[^\n]*|[^\W\d][\w\']*(?:-[\w\']+)*')


def turned(text):
    return PARTS.sub(lambda part: TURNED.get(part.group(), part.group()), text)


def main():
    for folder, folders, files in os.walk("crates"):
        folders[:] = [name for name in folders if name not in ("out", "must-fail")]
        for name in files:
            if not name.endswith((".rt", ".antt")):
                continue
            path = os.path.join(folder, name)
            with open(path, encoding="utf-8") as file:
                old = file.read()
            new = turned(old)
            if new != old:
                with open(path, "w", encoding="utf-8") as file:
                    file.write(new)


main()
