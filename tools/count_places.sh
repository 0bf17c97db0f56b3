#!/usr/bin/env bash
# Counts the places in src/ of each point of docs/DESIGN-PASS.md; -l lists them too.
set -euo pipefail
cd "$(dirname "$0")/.."

list=${1:-}
# Comments, clauses and imports of clauses are no code.
code() {
    grep -rnE "$1" crates/*/src --include='*.rt' | grep -vE ':[0-9]+:\s*(//|ghost |requires|ensures)' || true
}
count() {
    printf '%-72s %s\n' "$1" "$(grep -c . <<<"$2" || true)"
    if [ "$list" = -l ]; then printf '%s\n' "$2" | sed 's/^/    /'; fi
}

count '1 enums' "$(code '^\s*(pub(\([a-z]+\))? )?enum ')"
count '1 an Option or a Result taken apart by hand' "$(code 'None =>|Err\(\w+\) =>|let Some\(.*else \{')"
count '1 a refusal or a kind as a number, 0 for no joint' "$(code '\(u32, usize\)|letter: u8|fn (number|joint)\(self\)|\bp (==|>) 0')"
count '1 a flag' "$(code '(: bool\b|let mut \w+ = (true|false);)')"
count '1 a kind beside the numbers of each kind' "$(code 'pub kind: JointKind')"
count '2 names that end in the ring' "$(code 'fn \w+_(a|b|w)\b|const \w+_(A|B|W)\b')"
count '2 types of one shape' "$(code 'pub struct (Motion|Force|Residue|Word|Fifteen|Number)\b')"
count '2 a setting, a show and its test of the lists, a number in a range' "$(code 'fn (set_rate|set_acceleration|set_force|show_torques|show_matrix|parent_number|number_of|told|done|report\w*)\b')"
count '3 loops' "$(code '^\s*(\S+: )?(for|while|loop)\b')"
count '4 equality, conversion, printing' "$(code 'fn (equals|of_link|full|kind_of|number|residue|parent_number|number_of|report\w*|print_\w*)\b|as usize;|impl.* Display for')"
count '5 i from 1 to n in a clause' "$(grep -rnE 'requires .*\(0 < i\)|requires (low|high) \{.*\bi\b' crates/*/src --include='*.rt' || true)"
count '5 a fact of every rig in a clause' "$(grep -rnE 'ensures (keeps|given|lent) ' crates/*/src --include='*.rt' || true)"
count '5 numbers or lists that travel together' "$(code '(back: R|square: R|c: R, s: R|res: &mut \[R\], work|rig: &mut Rig)')"
count '6 a buffer or a list with a length beside it' "$(code '\[Row; 24\]|^\s+n: usize,|slots: usize,|count: usize,|lengths: ')"
count '7 a switch on the step to run' "$(code 'matrix: bool|if matrix|if M == ')"
