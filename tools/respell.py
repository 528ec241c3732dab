#!/usr/bin/env python3
"""Brings the definitions and lemmas of this repository to one spelling: snake case, and camel case for what is a type or a fact.

usage: python3 tools/respell.py      at the top of the repository, once, right after the kit's own script

It changes whole names alone, in specs/, proofs/, the sources and the must-fail edits. Functions, strings, inputs and outputs keep
theirs: no name in the table is one that a source could have, as each has a dash or begins in lower case and goes on in camel case.
"""

import glob
import re

# Each old name and its new one.
NAMES = """
All-tell AllTell; Denied-for DeniedFor; Ended-before EndedBefore; Fault-at FaultAt; Field-fault FieldFault; Fields-tell FieldsTell
Figures-of-the-bottom FiguresOfTheBottom; First-fault FirstFault; First-field-fault FirstFieldFault; First-offence FirstOffence
Group-at GroupAt; Is-a IsA; Lawful-asking LawfulAsking; Laws-above LawsAbove; Length-tells LengthTells; Marked-answered MarkedAnswered
Names-first NamesFirst; Nested-by NestedBy; Of-a-sort OfASort; Open-group OpenGroup; Or-else-the-host OrElseTheHost
Record-tells RecordTells; Refusing-keeps-figures RefusingKeepsFigures; Refusing-keeps-verdicts RefusingKeepsVerdicts
Right-before RightBefore; Right-bytes RightBytes; Right-length RightLength; Settling-raises SettlingRaises
Settling-within-limit SettlingWithinLimit; Shown-field ShownField; Shows-its-registers ShowsItsRegisters
Shows-the-figures-below ShowsTheFiguresBelow; Shows-the-ground-below ShowsTheGroundBelow; Stacked-as-nested StackedAsNested
Stacked-by StackedBy; Trailer-tells TrailerTells; Uppermost-objects UppermostObjects; Verdict-of-the-uppermost VerdictOfTheUppermost
Walk-Ends walk_ends; Whole-groups WholeGroups; Wrong-at WrongAt; accountRow account_row; addedToLedger added_to_ledger
addedToSheet added_to_sheet; after-some after_some; after-trailer after_trailer; allSound all_sound; amountOf amount_of
amountStated amount_stated; amounts-more amounts_more; answer-again answer_again; answer-asked answer_asked; answer-is answer_is
answerTo answer_to; answered-above answered_above; answered-by answered_by; anyRegister any_register; at-end at_end; at-header at_header
at-start at_beginning; at-trailer at_trailer; atFirst at_first; bare-again bare_again; billerCode biller_code; books-laws books_laws
booksAfter books_after; booksTaken books_taken; booksVerdict books_verdict; bothRead both_read; bufferAfter buffer_after
by-column by_column; by-fields by_fields; by-record by_record; by-sort by_sort; by-tally by_tally; by-walk by_walk; byteIn byte_in
changeAnswer change_answer; changeTold change_told; changedAt changed_at; check-first check_first; check-lawful check_lawful
check-passes check_passes; chunk-at chunk_at; class-plain class_plain; codeNumbered code_numbered; codeTold code_told
coded-zero coded_zero; column-classed column_classed; column-covered column_covered; column-most column_most; countStated count_stated
coveredBy covered_by; customerRow customer_row; data-other data_other; dataAmount data_amount; debit-nested debit_nested
debit-stacked debit_stacked; denies-first denies_first; desk-debited desk_debited; digit-byte digit_byte; dropped-next dropped_next
each-sound each_sound; emptyDesk empty_desk; emptyOf empty_of; end-follows end_follows; end-other end_other; fault-read fault_read
fault-some fault_some; faultAt fault_at; few-checked few_checked; few-enough few_enough; few-more few_more; few-of few_of
few-wider few_wider; field-right field_right; field-tells field_tells; field-wrong field_wrong; fieldShown field_shown
fields-end fields_end; fields-fault-if fields_fault_if; fields-faulty fields_faulty; fields-if-fault fields_if_fault
fields-if-kept fields_if_kept; fields-kept fields_kept; fields-kept-if fields_kept_if; fields-tell fields_tell
fifteenDigits fifteen_digits; figureLimit figure_limit; figureOf figure_of; figuresAbove figures_above; file-amount file_amount
file-count file_count; file-groups file_groups; fine-length fine_length; first-is first_is; first-named first_named
first-other first_other; first-same first_same; first-true first_true; found-later found_later; found-more found_more
found-true found_true; from-here from_here; front-keeps front_keeps; gone-more gone_more; groundAbove ground_above
group-amount group_amount; group-asks group_asks; group-count group_count; group-only group_only; group-sorts group_sorts
group-there group_there; groupAsking group_asking; groupClosedBy group_closed_by; groups-closing groups_closing; groups-sorts groups_sorts
hasEnded has_ended; hasRule has_rule; headStated head_stated; header-follows header_follows; header-other header_other
header-states header_states; in-group-closing in_group_closing; in-record in_record; inUse one_in_use; index-most index_most
is-amount is_amount; is-count is_count; is-g is_g; is-s is_s; isDate is_date; isKept is_kept; isLineEnd is_line_end; isListed is_listed
isRead is_read; isSound is_sound; judgedBytes judged_bytes; judgedField judged_field; kept-below kept_below; kept-room kept_room
lawful-closing lawful_closing; lawful-packs lawful_packs; lawful-passes lawful_passes; lawful-plain lawful_plain
lawful-restores lawful_restores; lawful-sorts lawful_sorts; lawful-walks lawful_walks; layer-debits layer_debits
layer-verdict layer_verdict; leastRecords least_records; ledger-laws ledger_laws; ledgerAfter ledger_after; ledgerTaken ledger_taken
ledgerVerdict ledger_verdict; leftTo left_to; length-atFirst length_at_first; length-fine length_fine; length-tells length_tells
length-tested length_tested; lengthDenial length_denial; lineBytes line_bytes; lineEnd line_end; lines-all lines_all; lines-body lines_body
lines-kept lines_kept; lines-length lines_length; listAnswer list_answer; listIn list_in; listed-there listed_there; listingRow listing_row
long-length long_length; lowered-all lowered_all; marked-answered marked_answered; monthDays month_days; mostRecords most_records
needsMemory needs_memory; never-chosen never_chosen; never-left-out never_left_out; never-more never_more; never-one never_one
never-settles never_settles; nextOrder next_order; no-amount no_amount; no-count no_count; no-figure no_figure; no-groups no_groups
none-fall none_fall; none-held none_held; none-wrong none_wrong; not-ended not_ended; not-here not_here; not-settled not_settled
not-settled-there not_settled_there; not-trailer not_trailer; noted-below noted_below; number-none number_none; number-record number_record
number-some number_some; numbered-row numbered_row; numbered-sound numbered_sound; numberedIn numbered_in; of-no-sort of_no_sort
ofAccount of_account; ofBiller of_biller; ofSort of_sort; offTold off_told; ok-err ok_err; ok-is ok_is; one-changed one_changed
one-debit one_debit; open-yet open_yet; or-else-the-host or_else_the_host; order-known order_known; orderAfter order_after
other-more other_more; out-of-place out_of_place; over-push over_push; over-put over_put; packAnswer pack_answer; packBuffer pack_buffer
packed-bare packed_bare; packed-length packed_length; passed-lawful passed_lawful; passedDown passed_down; passes-lawful passes_lawful
past-fields past_fields; past-groups past_groups; past-header past_header; pile-laws pile_laws; placed-more placed_more
plain-kept plain_kept; plain-restores plain_restores; putOn put_on; readField read_field; readIfAny read_if_any; record-item record_item
record-kept record_kept; record-named record_named; record-numbered record_numbered_lem; record-passes record_passes
record-plain record_plain; record-refused record_refused; record-tells record_tells; recordAt record_at; recordBytes record_bytes
recordNumbered record_numbered; records-long records_long; recordsOf records_of; refused-first refused_first; registerAt register_at
registers-same registers_same; registersAbove registers_above; registersChanged registers_changed; removed-first removed_first
right-here right_here; right-length right_length; right-more right_more; row-numbered row_numbered; row-tested row_tested; rowCode row_code
rowLimit row_limit; rowVerdict row_verdict; rowsThatCount rows_that_count; same-figure same_figure; same-verdict same_verdict
sameAccount same_account; sameBiller same_biller; sameCustomer same_customer; settled-below settled_below; settled-rows settled_rows
sheet-laws sheet_laws; sheetAfter sheet_after; sheetTaken sheet_taken; sheetVerdict sheet_verdict; short-length short_length
silent-pile silent_pile; small-figure small_figure; some-here some_here; some-wrong some_wrong; sortOf sort_of; sound-inside sound_inside
spent-now spent_now; stacked-as-nested stacked_as_nested; stated-all stated_all; stated-more stated_more; statedTo stated_to
stepOrder step_order; stepSort step_sort; strike-absent strike_absent; strike-there strike_there; strikeAnswer strike_answer
strikeIn strike_in; strikingRow striking_row; sum-small sum_small; tables-sound tables_sound; tables-tile tables_tile
take-front take_front; takenOff taken_off; tally-here tally_here; tally-then tally_then; tell-more tell_more; tells-so tells_so
tenDigits ten_digits; testFields test_fields; testRecord test_record; tested-row tested_row; testedAs tested_as; there-tested there_tested
tile-covers tile_covers; to-nested to_nested; to-stacked to_stacked; told-fine told_fine; told-fits told_fits; toldAt told_at
toldInRun told_in_run; totals-trailer totals_trailer; totalsOf totals_of; totalsStated totals_stated; trailer-states trailer_states
trailer-tells trailer_tells; trailer-tested trailer_tested; trailerAmount trailer_amount; trailerCount trailer_count
transferDate transfer_date; unlessDenied unless_denied; unlessFault unless_fault; unpackAnswer unpack_answer; unpackBuffer unpack_buffer
uppermost-above uppermost_above; uppermost-objects uppermost_objects; usedBottom used_bottom; value-is value_is; value-kept value_kept
valueIfAny value_if_any; valueIn value_in; verdict-nested verdict_nested; verdict-same verdict_same; verdictAbove verdict_above
walk-named walk_named; walkIfFine walk_if_fine; whole-group whole_group; wideAccount wide_account; wideBiller wide_biller
wideCeiling wide_ceiling; wideCustomer wide_customer; withBottom with_bottom; withClaim with_claim; withLedgerRow with_ledger_row
withSheetRow with_sheet_row; withoutFirst without_first; withoutUppermost without_uppermost; wrong-amount wrong_amount
wrong-count wrong_count; wrong-here wrong_here; wrong-length wrong_length; wrong-value wrong_value; wrongByte first_wrong_byte
zero-code zero_code; zeroTrailer zero_trailer
"""

# Names that would have fallen together with one in the table, where they stand alone: folder, old, new.
APART = [("crates/afternoon/proofs/", "put_on", "put_on_lem")]

NAME = re.compile(r"[^\s:(){};,.\[\]λ→«»=|]+")


def table():
    return dict(pair.split() for pair in re.split(r"[;\n]", NAMES) if pair.strip())


def respelled(text, names):
    return NAME.sub(lambda m: names.get(m.group(0), m.group(0)), text)


def main():
    names = table()
    for kind in ("specs/**/*.antt", "proofs/**/*.antt", "src/**/*.rt", "must-fail/*.edit"):
        for path in sorted(glob.glob("crates/*/" + kind, recursive=True)):
            with open(path, encoding="utf-8") as file:
                text = file.read()
            apart = {old: new for folder, old, new in APART if path.startswith(folder)}
            new = respelled(respelled(text, apart), names)
            if new != text:
                with open(path, "w", encoding="utf-8") as file:
                    file.write(new)


if __name__ == "__main__":
    main()
