#!/bin/sh
# Writes the definitions of the worked programs anew, from the texts in worked/, in lines that aren't too long and in rt's layout.
# Run it here, and `rt tidy` in both crates after it, which drops imports that nothing uses.
set -eu
cd "$(dirname "$0")"

# write NAME TEXT..   the tokens, trees and plain trees of the texts, in the files of that name
write() {
    name=$1
    shift
    files=
    for text in "$@"; do files="$files worked/$text.pvl"; done
    python3 tokens.py $files > "../crates/worked_texts/specs/Tokens$name.antt"
    python3 trees.py $files > "../crates/worked_programs/specs/$name.antt"
    python3 meaning.py $files > "../crates/worked_programs/specs/Core$name.antt"
}

write Objects counter counter_by_two half writers alias account account_kept chain chain_by_two sum grow
write Arrays last read_wrong read fill
write Threads unheld_invariant pair_of_two pair twice members shift_too_far shift copying copying_unsent
write Witnesses handed relay posted list members_race overwritten divided

python3 wrap.py ../crates/worked_texts/specs/Tokens*.antt ../crates/worked_programs/specs/*.antt
for crate in worked_texts worked_programs; do (cd "../crates/$crate" && rt fmt); done
