#!/bin/bash
# Counts the places of older forms in crates/*/src, by the points of docs/DESIGN-PASS.md. Run it at the top of a checkout; `list` prints each place.
# A pattern of names finds what has such a name, and a pattern of forms what has such a form: each place is to be read.
S='crates/*/src/*.rt'
MODE=$1
show() { if [ "$MODE" = list ]; then echo "== $1"; cat; else printf '%-84s %s\n' "$1" "$(wc -l)"; fi; }
own() { sed -E '/enum (Kind|Refusal|Model|File|Unread|Stop|Mode)\b/d'; }

grep -nE '^(pub(\(crate\))? )?enum ' $S | own | show '1a enums of the shape of Option or Result'
grep -nE '^\s+(pub )?(status: Status|some: bool|refusal: u32|good: bool|refresh: usize|mark: usize|value: u32|cell: u32|length: u32),$' $S |
  grep -vE 'rows/src/(lib|row).rt' | show '1b fields that hold a flag or a sentinel beside a value'
grep -nE 'fn (ask_\w+|place_of|first_out|refusal_in|count_in|kind_of|refresh_at|take_row|stand_of|stand_at|put)\b' $S |
  grep -vE 'print/src|Result<|Option<' | show '1c functions that answer a number with a sentinel'
grep -nE '^(pub )?const (READ|WRITE|COMMIT|OPEN|CLOSE|SYNC|SEND|RECV|WAIT|BARRIER|ARRIVAL|NONE|PUBLISH|REFRESH|BOTH|POSIX|SESSION|MPI_IO|FIRST|SECOND|NO_MODEL|SOME_MODEL): u' $S |
  show '1d constants that number kinds, models, marks, files'
grep -nE '^pub const' crates/rows/src/refusal.rt | show '1d constants that number refusals'
grep -nE 'refusal::[A-Z_]+\b' $S | grep -v 'Refusal::' | show '1e uses of a refusal by its number'
grep -nE 'rows::(READ|WRITE|COMMIT|OPEN|CLOSE|SYNC|SEND|RECV|WAIT|BARRIER|ARRIVAL|KINDS)\b' $S | show '1f lines that use a kind by its number'
grep -nE '\b(no|asked|order|place|out|row|refusal|stand|last|refresh) (==|!=) 0\b|0 < (next|last|found)\b' $S | show '1g tests of a sentinel'
grep -nE 'fn (clear|clear_counts|clear_parts|clear_between|put_row|put_part|put_pair|put_run|number_at|entry_for|arrivals_at|stand_at|flag_at|byte_at|larger|smaller|least|most|has_barrier|is_unfinished|is_any_flagged|read_records|read_text|read_rows|ask_call|ask_join|ask_file|make|step|replay|put|advance|is_state|is_plain|word_length|put_word|pack_\w+|lacks|map_at)\b' $S |
  show '2 functions with a name that had a twin'
grep -nE '^\s*(while|loop)\b' $S | show '3 while and loop'
grep -nE 'fn (same|larger|smaller|least|most|wide|is_mark_published|view_is_target|kind_of|word_length|width_of|put_digits|digit|pack_\w+|word|cell_of|number_in|mark_in|copy|fresh|with_digit|number|digits|starts_plain|clear\w*|within)\b' $S |
  show '4 equality, order, copying, conversion, printing by hand'
grep -nE 'requires.*lawful' $S | show '5 clauses that ask a lawful map or state'
grep -nE 'requires.*(Given|later\.)' $S | show '5 clauses of races on a later row'
grep -nE 'requires.*(FIELDS ≤ length|processes ≤ PROCESSES)' $S | show '5 clauses on rows and counts in slices'
grep -nE 'requires.*(two_maps|OwnCounted)' $S | show '5 clauses that ask two maps'
grep -nE '\[(at|from|to|a|b)( \+ [a-z:A-Z_0-9]+)?\]' $S | show '6 lines that index a row, run, pair or part in a slice by hand'
grep -nE 'lo = mid \+ 1' $S | show '6 binary searches by hand'
grep -nE 'match (mode|kind)\b|keep: bool|is_publish\(|is_refresh\(|view_is_target\(mode\)|is_mark_published\(mode\)' $S | show '7 switches on which step to run'
