#!/bin/bash
# Counts, in src/, the places that docs/DESIGN-PASS.md is about: a list for each point, and the number of its lines.
# Run at the top of a checkout. With the argument `list`, the places are printed too.
cd "$(dirname "$0")/.."
point() {
    local places
    places=$(cat)
    printf '%s: %s\n' "$1" "$(printf '%s' "$places" | grep -c '')"
    if [ "${mode:-}" = list ]; then printf '%s\n' "$places"; fi
}
mode=${1:-}
src=(crates/*/src/*.rt)

# 1. own enums of the shape of Option or Result; numbers for kinds and refusals; flags
grep -nE '^ *(Unknown|NoRequest|None|Nothing),$' "${src[@]}" | point '1 enum variants that say there is nothing'
grep -nE '\b(if|else if) (kind|number) == u32::from\((Sha256|Blake2b)::' "${src[@]}" | point '1 branches on the number of a kind'
grep -nE 'refusal\.number\(\)|fn number\(self\)' "${src[@]}" | point '1 numbers taken of a refusal by a method'
grep -nE '^ *(pub |pub\(crate\) )?(refusal|number): u32,' "${src[@]}" | point '1 fields with a number beside a value'
grep -nE '^ *(pub |pub\(crate\) )?[a-z_]+: bool,' "${src[@]}" | point '1 fields and parameters that are flags'

# 2. twins: definitions whose names differ in a type, a size, a constant or a direction only
grep -nE 'fn ((be|le)_word|(load|store)_(be|le)|padded_block|padded_byte|absorb|hash_blocks|block_count|last_block|initial_value|round_constant|timing_[a-z0-9_]+|code|answer_code|judge_[a-z_]+|reserve|give_back|parse_[a-z]+|seal_behind|open_behind|known|key_tested|kind|block_len|shortest_key|longest_key|cross_all|cross_text)\b' "${src[@]}" | point '2 functions that come in twos or more'

# 3. loops that count an index
grep -nE '^ *(for [a-z] in .*\.\.|while |loop \{)' "${src[@]}" | point '3 loops that count'

# 4. equality, order, copying, conversion, printing
grep -nE 'fn (is_drawn|number|start|bytes_of|number_at|label_of|blank|digit|nibble|number)\(' "${src[@]}" | point '4 comparisons, conversions and defaults by hand'
grep -nE 'push_str\(|push_hex\(|push_field\(|\.push\(|String::from_str\(' "${src[@]}" | point '4 printing by hand'
grep -nE '\bas (u8|u16|u32|u64|u128|usize)\b' "${src[@]}" | point '4 casts'

# 5. facts in contracts of three functions or more, with how often
grep -hoE '(requires|ensures)[a-z* ]*\{.*\}' "${src[@]}" | sort | uniq -c | awk '$1 >= 3' | sort -rn | point '5 clauses that stand three times or more'

# 6. fixed buffers, and arrays that are parallel
grep -nE '\[0(u8)?; [A-Z0-9_]+\]|^ *(pub |pub\(crate\) )?[a-z_]+: \[.*; [0-9]+\],' "${src[@]}" | point '6 fixed buffers and arrays'

# 7. switches on which step to run
grep -nE 'match (way|work)\b|: fn\(|\bdyn ' "${src[@]}" | point '7 switches on a step, function values'

# 8. proofs: numbers only
echo "8 files of answers: $(find crates/*/proofs -name Answers.antt | wc -l)"
echo "8 answers: $(find crates/*/proofs -name Answers.antt -exec grep -hE '^(pub )?[a-z].* : goal\.' {} + | wc -l)"
echo "8 lines of proofs: $(find crates/*/proofs -name '*.antt' -exec cat {} + | wc -l)"
