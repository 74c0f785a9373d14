#!/usr/bin/env bash
# Builds the C programs against the library and runs them: calls.c as it is, outline.c on every file of examples/ that has an outline
# beside it (those below strict/ in the strict reading), the README's example, and stack.c on all files of examples/ with a stack of 96 KiB.
# CHUNTAREK_LIB_DIR names the folder of libchuntarek.a; without it that is crates/chuntarek/out, made if it is missing.
set -euo pipefail
here=$(cd "$(dirname "$0")" && pwd)
root=$(cd "$here/../.." && pwd)
library=${CHUNTAREK_LIB_DIR:-$root/crates/chuntarek/out}/libchuntarek.a
work=$(mktemp -d)
trap 'rm -rf "$work"' EXIT
. "$root/.ci/machine"

fail() { echo "bindings/c/test.sh: $*" >&2; exit 1; }

has_tools || fail "$missing"
if [ ! -f "$library" ] && [ -z "${CHUNTAREK_LIB_DIR:-}" ]; then
    (cd "$root/crates/chuntarek" && rt lib) >&2 || fail "rt lib failed in crates/chuntarek"
fi
[ -f "$library" ] || fail "no library at $library"

# build SOURCE PROGRAM
build() { "${CC:-$c_compiler}" -O2 -Wall -Wextra -Werror -std=c11 -pthread -I "$here" "$1" "$library" -o "$work/$2"; }

# run PROGRAM ARGUMENTS
run() { "${emulator[@]}" "$work/$1" "${@:2}"; }

# A refused file has status 1, any other 0.
expected_status() { if grep -q '^refused' "$1"; then echo 1; else echo 0; fi; }

# outline_matches OUTLINE OPTION..
outline_matches() {
    local outline=$1 file=${1%.outline}.cif status=0
    run outline "${@:2}" "$file" >"$work/got" || status=$?
    diff -u "$outline" "$work/got" || fail "outline of ${file#"$root"/} differs"
    [ "$status" -eq "$(expected_status "$outline")" ] || fail "outline of ${file#"$root"/} ended with status $status"
}

build "$here/calls.c" calls
build "$here/outline.c" outline
run calls || fail "calls failed"
count=0
for outline in "$root"/examples/*.outline "$root"/examples/refused/*.outline; do
    outline_matches "$outline"
    count=$((count + 1))
done
for outline in "$root"/examples/strict/*.outline "$root"/examples/strict/refused/*.outline; do
    outline_matches "$outline" --strict
    count=$((count + 1))
done

status=0
run outline "$root/examples/no-such-file" 2>/dev/null || status=$?
[ "$status" -eq 2 ] || fail "a missing file ended with status $status"

# shellcheck disable=SC2016 # the marks are the README's own
sed -n '/^```c$/,/^```$/{/^```/!p}' "$root/README.md" >"$work/readme.c"
build "$work/readme.c" readme
run readme >"$work/got" || fail "the README's example failed"
diff -u - "$work/got" <<'TEXT' || fail "the README's example prints something else"
kind 1 at line 1, column 1
kind 4 at line 1, column 8
kind 15 at line 1, column 11
TEXT

build "$here/stack.c" stack
run stack 96 "$root"/examples/*.cif "$root"/examples/refused/*.cif "$root"/examples/strict/*.cif "$root"/examples/strict/refused/*.cif >"$work/got" || fail "a service needs more stack than it may"
echo "bindings/c: every function called, $count outlines as expected"
