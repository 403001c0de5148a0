#!/usr/bin/env python3
"""Brings the definitions and lemmas of this repository to the spelling of today's Rattle: snake case, and camel case for
facts and types. It ran once, at the top, after the toolchain's port.py; docs/PORT.md says when. Functions of src/ keep
their names, and a dash that joins the names of two functions stays (`length-row`)."""
import pathlib
import re

NAMES = """
Begins-in BeginsIn, Buckets-stand BucketsStand, Hits-cover HitsCover, Last-enters LastEnters,
Masks-stand MasksStand, One-answer OneAnswer, One-listing OneListing, Reads-back ReadsBack,
Small-answer SmallAnswer, Small-hit SmallHit, Sums-or SumsOr, Texts-served TextsServed, Told-so ToldSo,
Turned-down TurnedDown, accepted-at accepted_at, accepted-other accepted_other, all-scanned all_scanned,
allZero all_zero, and-true and_true, anded-set anded_set, ask-scan ask_scan, ask-tally ask_tally,
at-step at_step, bad-over bad_over, bad-refused bad_refused, bad-within bad_within, below-few below_few,
body-short body_short, book-in book_in, book-is book_is, book-of book_of, bucket-all bucket_all,
bucket-is bucket_is, bucket-known bucket_known, bucket-of bucket_of, bucket-preferred bucket_preferred,
bucket-same bucket_same, buckets-stand buckets_stand, by-eight by_eight, byte-and byte_and,
byte-halved byte_halved, byte-of-number byte_of_number, byte-splat byte_splat, bytes-join bytes_join,
candidate-of candidate_of, chosen-first chosen_first, clean-below clean_below, clear-lowest clear_lowest,
cleared-set cleared_set, cleared-sum cleared_sum, closing-fault closing_fault, count-is count_is,
count-split count_split, covered-scan covered_scan, dec-replaces dec_replaces, decides-alike decides_alike,
digit-64 digit_64, earlier-is earlier_is, ended-other ended_other, entered-or entered_or,
entered-order entered_order, entered-sound entered_sound, entered-within entered_within, even-shr even_shr,
fill-again fill_again, fill-bad fill_bad, fill-fault fill_fault, fill-over fill_over, fill-text fill_text,
filled-end filled_end, filled-no filled_no, filled-start filled_start, filled-yes filled_yes,
filling-done filling_done, filling-more filling_more, first-text first_text, folded-same folded_same,
found-answers found_answers, found-unique found_unique, four-of four_of, from-fold from_fold, hash-of hash_of,
head-is head_is, head-long head_long, high-mask high_mask, high-nybbles high_nybbles, hit-answers hit_answers,
hit-or hit_or, hit-or-none hit_or_none, hits-after hits_after, hits-from hits_from, hits-front hits_front,
hits-of hits_of, hits-of-more hits_of_more, hits-of-none hits_of_none, hits-placed hits_placed,
hits-refused hits_refused, hits-with hits_with, id-at id_at, id-of id_of, ids-in ids_in, ids-of ids_of,
in-book in_book, in-bucket in_bucket, in-room in_room, in-text in_text, is-text is_text, keeps-more keeps_more,
keeps-none keeps_none, kept-pattern kept_pattern, lane-high lane_high, lane-shuffled lane_shuffled,
lanewise-join lanewise_join, last-pattern last_pattern, leader-at leader_at, leader-first leader_first,
leader-here leader_here, leader-later leader_later, leader-none leader_none, leader-same leader_same,
leads-both leads_both, leads-kept leads_kept, leads-last leads_last, leads-m leads_m,
leads-through leads_through, listing-covers listing_covers, listing-ids listing_ids,
listing-lists listing_lists, listing-unique listing_unique, lists-apart lists_apart, lists-from lists_from,
lists-hits lists_hits, lists-inside lists_inside, lists-none lists_none, lists-occur lists_occur,
lists-rest lists_rest, lists-short lists_short, lists-unique lists_unique, loaded-join loaded_join,
looked-up looked_up, low-is low_is, low-nybbles low_nybbles, lowest-above lowest_above,
lowest-below lowest_below, lowest-even lowest_even, lowest-odd lowest_odd, made-text made_text,
map-inserted map_inserted, marks-same marks_same, mask-count mask_count, masks-stand masks_stand,
member-key member_key, mul-mod mul_mod, next-is next_is, no-match no_match, none-assigned none_assigned,
none-in-zero none_in_zero, none-in-zeros none_in_zeros, none-past none_past, none-some none_some,
not-zero not_zero, number-high number_high, number-low number_low, number-of-bytes number_of_bytes,
occurs-less occurs_less, occurs-more occurs_more, of-kind of_kind, ok-err ok_err, ok-placed ok_placed,
old-or-new old_or_new, old-size old_size, one-and one_and, one-or one_or, ones-set ones_set,
opened-short opened_short, opening-step opening_step, or-either or_either, or-is-zero or_is_zero,
or-one or_one, or-set-l or_set_l, or-set-r or_set_r, order-in order_in, order-of order_of,
other-refused other_refused, outcome-is outcome_is, own-leads own_leads, pairs-kept pairs_kept,
pattern-at pattern_at, placed-is placed_is, placed-ok placed_ok, placed-some placed_some, pow-digit pow_digit,
pow-set pow_set, power-more power_more, preferred-both preferred_both, preferred-self preferred_self,
prefix-hash prefix_hash, printed-end printed_end, printed-lines printed_lines, printed-tallies printed_tallies,
raised-more raised_more, reading-bad reading_bad, reading-from reading_from, reading-good reading_good,
reading-order reading_order, reading-over reading_over, reading-past reading_past, reading-same reading_same,
reads-back reads_back, refuses-step refuses_step, renamed-alone renamed_alone, renamed-new renamed_new,
repeated-at repeated_at, rest-none rest_none, rest-set rest_set, rest-short rest_short, rising-of rising_of,
row-ext row_ext, row-join row_join, same-match same_match, same-occurrence same_occurrence,
scan-answer scan_answer, scan-of scan_of, scan-refused scan_refused, searcher-of searcher_of,
second-byte second_byte, seen-set seen_set, served-none served_none, served-scan served_scan,
served-tally served_tally, serves-scan serves_scan, set-64 set_64, set-cleared set_cleared,
settled-good settled_good, settled-over settled_over, shifted-set shifted_set, shiftedIn shifted_in,
shiftedIn-join shifted_in_join, shiftedRight4 shifted_right_4, shortest-le shortest_le,
shortest-pos shortest_pos, shown-line shown_line, shr-lowest shr_lowest, shuffled-join shuffled_join,
size-at size_at, size-new size_new, size-old size_old, small-hit small_hit, some-none some_none,
splat-number splat_number, splatted-join splatted_join, standing-hash standing_hash,
stands-decided stands_decided, step-here step_here, step-leads step_leads, step-next step_next,
step-over step_over, step-whole step_whole, step-written step_written, taken-mod taken_mod,
tally-answer tally_answer, tally-at tally_at, tally-in tally_in, tally-is tally_is, tally-line tally_line,
tells-so tells_so, text-refused text_refused, text-scanned text_scanned, text-short text_short,
texts-from texts_from, texts-line texts_line, texts-step texts_step, three-of three_of,
times-inserted times_inserted, told-bad told_bad, told-placed told_placed, told-scan told_scan,
told-some told_some, told-tally told_tally, two-of two_of, tz-below tz_below, tz-set tz_set, used-by used_by,
window-below window_below, wordLanes word_lanes, words-bytes words_bytes, words-high words_high,
words-low words_low, words-map words_map, words-op words_op, words-pack words_pack, words-splat words_splat,
words-zero words_zero, written-front written_front, written-long written_long, yes-zero yes_zero,
zero-from zero_from, zero-to zero_to, zero-unset zero_unset, zero-words zero_words
"""

names = dict(pair.split() for pair in NAMES.replace("\n", " ").split(",") if pair.strip())
# An identifier of antt: letters, digits, `_`, `-` and `'`.
word = re.compile(r"[\w'][\w'-]*[\w']|\w")


def respelled(text):
    return word.sub(lambda m: names.get(m.group(), m.group()), text)


def main():
    for pattern in ("crates/*/src/**/*.rt", "crates/*/specs/**/*.antt", "crates/*/proofs/**/*.antt", "crates/*/must-fail/*.edit"):
        for path in sorted(pathlib.Path(".").glob(pattern)):
            old = path.read_text()
            new = respelled(old)
            if new != old:
                path.write_text(new)


main()
