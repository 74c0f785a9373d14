#!/usr/bin/env bash
# Runs the outline program on texts beside its stdin and holds what it prints to what document 01 says of them, worked out by hand:
# refusals, line ends, the longest text and one byte more, the full store and one record more; then on every file of examples/
# that has an outline beside it. cases.sh PROGRAM; without it that is out/outline beside it, as `rt run` or `rt ci` left it.
set -euo pipefail
here=$(cd "$(dirname "$0")" && pwd)
root=$(cd "$here/../.." && pwd)
program=$(readlink -f "${1:-$here/out/outline}")
work=$(mktemp -d)
trap 'rm -rf "$work"' EXIT
count=0
. "$root/.ci/machine"

fail() { echo "crates/outline/cases.sh: $*" >&2; exit 1; }

has_tools || fail "$missing"

# expect NAME TEXT-FILE PRINTED-FILE
expect() {
    "${emulator[@]}" "$program" <"$2" >"$work/got" || fail "$1: ended with status $?"
    diff "$3" "$work/got" >"$work/difference" || { head -n 10 "$work/difference" >&2; fail "$1: expected <, printed >"; }
    count=$((count + 1))
}

# says NAME TEXT PRINTED: both as printf writes them.
says() {
    printf "$2" >"$work/text"
    printf "$3" >"$work/printed"
    expect "$1" "$work/text" "$work/printed"
}

# repeat COUNT TEXT
repeat() { awk -v n="$1" -v text="$2" 'BEGIN { for (; n > 0; n--) printf "%s", text }'; }

# Readings that document 01 names, and each refusal that a text can meet here.
says "empty text" '' 'refused 3 0 1 1\n'
says "heading alone" 'data_' '1 0 5 1 1\nend\n'
says "not ASCII, before all else" 'x\n\200' 'refused 2 2 2 1\n'
says "no block" '# c\n x' 'refused 3 5 2 2\n'
says "open frame" 'data_x\nsave_f\n_a 1\n' 'refused 4 7 2 1\n'
says "ragged loop" 'data_x loop_ _a _b 1 2 3' 'refused 5 7 1 8\n'
says "open quote" "data_x _a 'b" 'refused 6 7 1 8\n'
says "open quote in a loop" "data_x loop_ _a 1 'b" 'refused 7 18 1 19\n'
says "second block" 'data_x data_y' 'refused 7 7 1 8\n'
says "form feed" 'data_x\f' 'refused 7 6 1 7\n'
says "loop without names" 'data_x loop_' 'refused 8 7 1 8\n'
says "ten digits" 'data_x _a 1234567890' 'refused 9 10 1 11\n'
says "loop without rows" 'data_x loop_ _a' '1 0 6 1 1\n5 7 5 1 8\n6 13 2 1 14\n7\nend\n'
says "item dropped in a frame" 'data_x save_f _a save_' '1 0 6 1 1\n2 7 6 1 8\n3 17 5 1 18\nend\n'

# CR LF and LF CR are one line end each, taken from the left; a lone CR is one.
says "CR LF" 'data_t\r\n_a 1.50(2)\r\nloop_ _b _c\r\nx ?\r\n' \
    '1 0 6 1 1\n4 8 2 2 1\n15 11 7 2 4\n5 20 5 3 1\n6 26 2 3 7\n6 29 2 3 10\n10 33 1 4 1\n9 35 1 4 3\n7\nend\n'
says "line ends mixed" 'data_t\r_a\n\r1\r\r\n\n_b ?' '1 0 6 1 1\n4 7 2 2 1\n14 11 1 3 1\n4 16 2 6 1\n9 19 1 6 4\nend\n'
says "a refusal behind CR LF" 'data_t\r\n\r\n x' 'refused 7 11 3 2\n'
says "text field over CR LF" 'data_t _a\r\n;b\r\n;\r\n_c .' '1 0 6 1 1\n4 7 2 1 8\n13 11 5 2 1\n4 18 2 4 1\n8 21 1 4 4\nend\n'

# 65,536 bytes are read, to the last: here the closing mark. One byte more is too long, whatever the text.
quote=$(repeat 65524 b)
says "65,536 bytes" "data_x _a '$quote'" '1 0 6 1 1\n4 7 2 1 8\n11 10 65526 1 11\nend\n'
says "65,537 bytes" "data_x _a '$quote' " 'input over 65536 bytes\n'
says "65,537 bytes, refused otherwise" "data_x _a 'b$quote " 'input over 65536 bytes\n'
says "200,000 bytes" "$(repeat 200000 x)" 'input over 65536 bytes\n'

# A record takes 17 bytes of the store and a loop's end 1, so 3,852 values in one loop fill its 65,536 bytes: 17 * 3855 + 1.
table() { printf 'data_x loop_ _a'; repeat "$1" ' 1'; }
table 3852 >"$work/text"
{
    printf '1 0 6 1 1\n5 7 5 1 8\n6 13 2 1 14\n'
    awk 'BEGIN { for (i = 0; i < 3852; i++) printf "14 %d 1 1 %d\n", 16 + 2 * i, 17 + 2 * i }'
    printf '7\nend\n'
} >"$work/printed"
expect "store just full" "$work/text" "$work/printed"
says "store one record short" "$(table 3853)" 'refused 10 0 0 0\n'
# 3 to 9 come before 10, however late they are met: the quote stands at 15 + 2 * 3853 + 1.
says "7 behind a full store" "$(table 3853) 'b" 'refused 7 7722 1 7723\n'

# A text that arrives piece by piece is one text.
{ printf 'da'; sleep 0.1; printf 'ta_x'; sleep 0.1; printf '\n_a ?'; } | "${emulator[@]}" "$program" >"$work/got"
printf '1 0 6 1 1\n4 7 2 2 1\n9 10 1 2 4\nend\n' | cmp -s - "$work/got" || fail "a text in pieces"

for outline in "$root"/examples/*.outline "$root"/examples/refused/*.outline; do
    expect "${outline#"$root"/}" "${outline%.outline}.cif" "$outline"
done
echo "crates/outline: $((count + 1)) texts outlined as expected"
