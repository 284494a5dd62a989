#!/usr/bin/env python3
"""Brings the repository's own definitions and lemmas to the spelling of the installed Rattle: words in snake case, and a
dash only where it joins two names.

usage: python3 tools/respell.py [TOP]      in place, once, after the porting script

It goes by text: each name of the table below, as a whole token, in definitions, proofs, the clauses of sources and the
must-fail edits. Comments and strings stay. `poke-if` and `pokeIf` would fall together; the lemma gets an ending.
"""

import glob
import os
import re
import sys

TABLE = dict(
    line.split()
    for line in """
addRoundKey add_round_key
all-passed all_passed
all-step all_step
always-ended always_ended
and-erased and_erased
and-half and_half
answer-is answer_is
answered-more answered_more
as-told as_told
at-end at_end
bad-image bad_image
base-here base_here
base-length base_length
base-set base_set
base-vectors base_vectors
begin-step begin_step
benchOf bench_of
bigSigma0 big_sigma0
bigSigma1 big_sigma1
blocks-are blocks_are
blocks-laid blocks_laid
blocksIn blocks_in
blocksOf blocks_of
board-is board_is
boardIn board_in
boardOf board_of
by-columns by_columns
byte-digits byte_digits
byte-free byte_free
byte-roomed byte_roomed
bytes-found bytes_found
bytes-joined bytes_joined
bytes-roomed bytes_roomed
bytes-seen bytes_seen
call-is call_is
ch-bits ch_bits
ch-of ch_of
ch-short ch_short
chained-block chained_block
chainsIn chains_in
chainsOf chains_of
checked-from-formed checked_from_formed
chip-cuts chip_cuts
chip-sized chip_sized
chipBank chip_bank
chipCutting chip_cutting
cleared-again cleared_again
cleared-same cleared_same
closed-one closed_one
closed-two closed_two
closing-done closing_done
closing-fits closing_fits
closing-whole closing_whole
cmac-law cmac_law
cmacChaining cmac_chaining
cold-good cold_good
cold-half cold_half
confirmationBy confirmation_by
confirmationOf confirmation_of
control-block control_block
control-outside control_outside
control-set control_set
counted-ended counted_ended
counted-pass counted_pass
counted-written counted_written
crcOf crc_of
cut-here cut_here
cycle-made cycle_made
cycle-shown cycle_shown
decides-filled decides_filled
decides-spoiled decides_spoiled
decides-unfilled decides_unfilled
digest-more digest_more
digest-push digest_push
digitOf digit_of
doneAll done_all
doubled-number doubled_number
eight-pieces eight_pieces
empty-line empty_line
entered-one entered_one
executable-or-not executable_or_not
executed-one executed_one
expanded-key expanded_key
expanded-own expanded_own
fed-all fed_all
fed-confirmation fed_confirmation
fed-more fed_more
fed-none fed_none
fed-token fed_token
filled-from-formed filled_from_formed
filled-from-zeros filled_from_zeros
finished-block finished_block
finished-blocks finished_blocks
finished-front finished_front
finished-one finished_one
finished-start finished_start
finished-two finished_two
first-cut first_cut
first-is first_is
first-open first_open
first-page first_page
first-passed first_passed
flag-kept flag_kept
flag-length flag_length
flag-reads-back flag_reads_back
flagBlock flag_block
flagByte flag_byte
flagIn flag_in
flags-differ flags_differ
formed-body formed_body
formed-from-both formed_from_both
formed-from-parts formed_from_parts
formed-front formed_front
formed-high formed_high
formed-low formed_low
formed-vectors formed_vectors
found-more found_more
four-held four_held
four-words four_words
free-block free_block
from-digits from_digits
front-byte front_byte
front-confirmation front_confirmation
front-padded front_padded
gathered-more gathered_more
getD-formed get_or-formed
good-at good_at
good-set good_set
good-when good_when
half-set half_set
half-when half_when
headerOf header_of
held-block held_block
heldIn held_in
hexOf hex_of
hmac-law hmac_law
hmacChaining hmac_chaining
image-byte image_byte
image-length image_length
image-more image_more
image-nonce image_nonce
image-none image_none
image-set image_set
image-there image_there
image-vectors image_vectors
image-version image_version
image-whole image_whole
imageAt image_at
imageIn image_in
imageTests image_tests
innerPad inner_pad
install-cut install_cut
install-done install_done
install-keeps install_keeps
install-made install_made
install-shown install_shown
install-whole install_whole
installed-then installed_then
installedBy installed_by
installing-event installing_event
installing-fits installing_fits
is-flag is_flag
isCold is_cold
isMatch is_match
isMatched is_matched
isRunning is_running
judged-cut judged_cut
judged-done judged_done
judged-reset judged_reset
keeps-law keeps_law
keptOf kept_of
key-added key_added
key-word key_word
keyIn key_in
keyLength key_length
keyWords key_words
laid-itself laid_itself
laid-over laid_over
laid-page laid_page
laid-whole laid_whole
last-block-from last_block_from
last-block-to last_block_to
last-open last_open
last-part last_part
last-two last_two
last-whole last_whole
launchOf launch_of
leave-made leave_made
leave-shown leave_shown
length-residue length_residue
live-row live_row
load-done load_done
load-left load_left
load-stopped load_stopped
loadTests load_tests
loaded-inv loaded_inv
loading-range loading_range
long-enough long_enough
lost-page lost_page
lowest-laid lowest_laid
made-room made_room
maj-bits maj_bits
maj-of maj_of
maj-short maj_short
makes-all makes_all
marked-written marked_written
max-held max_held
min-held min_held
mix-bytes mix_bytes
mixColumns mix_columns
mixed-sum mixed_sum
next-from-reset next_from_reset
next-passed next_passed
next-step next_step
next-version next_version
no-mark no_mark
no-match no_match
nonce-is nonce_is
nonceOf nonce_of
none-for-factory none_for_factory
not-cut not_cut
not-newer not_newer
not-pass not_pass
not-refused not_refused
numbersText numbers_text
of-running of_running
offer-made offer_made
offer-matches offer_matches
offer-shown offer_shown
offerTests offer_tests
on-board on_board
on-duty on_duty
ones-check ones_check
ones-fall ones_fall
only-ended only_ended
only-ok only_ok
out-of-store out_of_store
outerPad outer_pad
pad-more pad_more
pad-whole pad_whole
padding-block padding_block
padding-written padding_written
page-length page_length
pages-count pages_count
pages-joined pages_joined
pages-length pages_length
pages-sized pages_sized
passes-ended passes_ended
passes-pass passes_pass
passes-reset passes_reset
past-blocks past_blocks
past-flag past_flag
past-last past_last
past-last-byte past_last_byte
past-length past_length
past-tail past_tail
past-version past_version
placeAt place_at
plain-or-cut plain_or_cut
plain-sized plain_sized
plainBank plain_bank
plainCutting plain_cutting
pointer-length pointer_length
pointerTo pointer_to
points-once points_once
poke-if poke_if_lem
pokeIf poke_if
pokes-cut pokes_cut
pokes-done pokes_done
pokesOf pokes_of
program-begins program_begins
programmed-erased programmed_erased
programmed-suc programmed_suc
progress-ended progress_ended
progress-more progress_more
progress-pass progress_pass
progress-reset progress_reset
put-cut put_cut
put-done put_done
put-laid put_laid
puts-ahead puts_ahead
puts-count puts_count
puts-length puts_length
puts-range puts_range
puts-sized puts_sized
puts-there puts_there
quiet-left quiet_left
read-odd read_odd
reads-back reads_back
reads-finished reads_finished
reads-unfinished reads_unfinished
register-kept register_kept
register-left register_left
register-len register_len
remainder-laid remainder_laid
reset-made reset_made
residueOf residue_of
right-image right_image
right-scratch right_scratch
right-token right_token
rises-later rises_later
rises-never rises_never
roomed-free roomed_free
roomed-full roomed_full
rotWord rot_word
rotated-1 rotated_1
rotated-2 rotated_2
rotated-3 rotated_3
run-kept run_kept
running-block running_block
running-cut running_cut
running-is running_is
said-then said_then
said-there said_there
saidAt said_at
same-below same_below
same-confirmation same_confirmation
same-remainder same_remainder
schedule-key schedule_key
scheduled-extended scheduled_extended
scheduled-loaded scheduled_loaded
scratch-left scratch_left
scratch-len scratch_len
second-cut second_cut
secondTook second_took
shared-at-first shared_at_first
shared-at-other shared_at_other
shiftRows shift_rows
shown-is shown_is
shownBy shown_by
sized-drop sized_drop
sized-take sized_take
smallSigma0 small_sigma0
smallSigma1 small_sigma1
split-fill split_fill
stage-made stage_made
stage-shown stage_shown
stands-from-formed stands_from_formed
start-made start_made
start-shown start_shown
state-left state_left
state-more state_more
stateAfter state_after
step-shown step_shown
stepped-blocks stepped_blocks
storeAfter store_after
subBytes sub_bytes
subWord sub_word
sym-left sym_left
tagLength tag_length
take-four take_four
tokenOf token_of
tokenText token_text
tookEffect took_effect
torn-long torn_long
two-from-bytes two_from_bytes
unfinished-start unfinished_start
unguarded-pokes unguarded_pokes
unwritten-one unwritten_one
usesRegister uses_register
usesScratch uses_scratch
value-digit value_digit
vectors-are vectors_are
vectors-length vectors_length
vectors-row vectors_row
vectors-size vectors_size
vectors-stand vectors_stand
version-is version_is
versionOf version_of
wasCut was_cut
window-after window_after
window-below window_below
window-count window_count
window-held window_held
window-reading window_reading
window-whole window_whole
window-writing window_writing
within-blocks within_blocks
worked-whole worked_whole
written-bytes written_bytes
written-left written_left
written-more written_more
wrote-page wrote_page
wrote-unguarded wrote_unguarded
xor-half xor_half
zeros-check zeros_check
zeros-fall zeros_fall
zeros-from-filled zeros_from_filled
""".split("\n")
    if line
)

TOKEN = re.compile(r"[^\s(){}.,;=:|λ«»\[\]\"]+")


def respelled(text):
    return TOKEN.sub(lambda m: TABLE.get(m.group(0), m.group(0)), text)


def code(line, comment):
    """The line with its names respelled, but for a comment and strings."""
    at = line.find(comment)
    if at >= 0 and (at == 0 or line[at - 1] in " \t"):
        return code(line[:at], comment) + line[at:]
    parts = re.split(r'("(?:[^"\\]|\\.)*")', line)
    return "".join(p if p.startswith('"') else respelled(p) for p in parts)


def turned(path, text):
    if path.endswith(".antt"):
        return "".join(code(line, "--") for line in text.splitlines(keepends=True))
    if path.endswith(".rt"):
        return "".join(code(line, "//") for line in text.splitlines(keepends=True))
    return "".join(
        line if line.startswith("file:") else code(line, "//") for line in text.splitlines(keepends=True)
    )


def main(top):
    n = 0
    for pattern in ("**/*.antt", "**/*.rt", "*/must-fail/*.edit"):
        for path in sorted(glob.glob(os.path.join(top, "crates", pattern), recursive=True)):
            with open(path, encoding="utf-8") as f:
                old = f.read()
            new = turned(path, old)
            if new != old:
                n += 1
                with open(path, "w", encoding="utf-8") as f:
                    f.write(new)
    print(f"respell: {n} files changed")


if __name__ == "__main__":
    main(sys.argv[1] if len(sys.argv) > 1 else ".")
