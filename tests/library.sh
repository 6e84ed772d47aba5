#!/bin/sh
# Tests the library as a program in C meets it, a row for each thing: tests/library.sh
# It builds the archive where that is older than a source (tools/library), compiles what is under tests/ and examples/
# against it, and runs: the example, every script with known answers, a long script beside the script program, every
# file of calls under tests/calls, those with rewinds, and the measurement of the stack. CC names another compiler than cc.
# It ends with 'N passed, 0 failed' and status 0, or with the rows that failed and status 1.
LC_ALL=C
export LC_ALL
top=$(CDPATH='' cd -P -- "$(dirname -- "$0")/.." && pwd -P) || exit 2
cd -- "$top" || exit 2
tmp=$(mktemp -d) || exit 2
trap 'rm -rf "$tmp"' EXIT
trap 'exit 130' INT TERM

passed=0 failures=0
end() {
    printf '%s passed, %s failed\n' "$passed" "$failures"
    [ "$failures" -eq 0 ]
    exit
}
# A row: a name, a file with the output wanted (or - for any); then the command, which has to succeed.
row() {
    name=$1 want=$2
    shift 2
    if "$@" >"$tmp/out" 2>"$tmp/err" </dev/null && { [ "$want" = - ] || cmp -s "$want" "$tmp/out"; }; then
        passed=$((passed + 1))
        printf 'ok      %s\n' "$name"
        return 0
    fi
    failures=$((failures + 1))
    printf 'FAILED  %s\n' "$name"
    if [ "$want" != - ]; then diff "$want" "$tmp/out" | head -n 5 | sed 's/^/        /'; fi
    tail -n 20 "$tmp/err" | sed 's/^/        err: /'
    return 1
}

cc=${CC:-cc}
archive=target/staticlib/libgurtheddu.a
if ! command -v "$cc" >/dev/null 2>&1; then
    echo "tests/library.sh: there is no C compiler ($cc); the library was not tested"
    failures=1
    end
fi

echo '# the archive and its header'
row 'the archive is proved and built' - tools/library || end
compile() { "$cc" -std=c99 -pedantic -Wall -Wextra -Werror -O2 -Iinclude "$1" "$archive" -o "$tmp/$2"; }
only_needs() { nm -u "$archive" | awk 'NF == 2 && $2 !~ /^(memcpy|memset|memmove)$/ { print; bad = 1 } END { exit bad }'; }
row 'the archive needs nothing but memcpy, memset and memmove' - only_needs
no_data() { size "$archive" | awk 'NR > 1 && $2 + $3 > 0 { print; bad = 1 } END { exit bad || NR < 2 }'; }
row 'the archive keeps nothing of its own: no data, no bss' - no_data
# Each constant of the crate `words` that the header names has the same value there, and none is missing.
same_map() {
    awk '
        FNR == 1 { file++ }
        file == 1 && /^ *GURTHEDDU_[A-Z_]+ = [0-9]+/ { sub(/^ *GURTHEDDU_/, ""); split($0, w, /[ =,]+/); header[w[1]] = w[2] }
        file == 2 && /^pub const [A-Z_]+: usize = [0-9]+;$/ {
            split($0, w, /[ :;]+/)
            n++
            if (w[3] == "INDEX_SIZE") next
            if (header[w[3]] != w[6]) { print w[3] ": " w[6] " in crates/words, " header[w[3]] " in the header"; bad = 1 }
        }
        END { exit bad || n < 10 }' include/gurtheddu.h crates/words/src/lib.rt >&2
}
row 'the header has the map of the crate words' - same_map
if command -v c++ >/dev/null 2>&1; then
    printf '#include "gurtheddu.h"\nint main() { static gurtheddu deck; return int(gd_reset(&deck)); }\n' >"$tmp/plus.cpp"
    plus() { c++ -std=c++11 -pedantic -Wall -Wextra -Werror -Iinclude "$tmp/plus.cpp" "$archive" -o "$tmp/plus" && "$tmp/plus"; }
    row 'a program in C++ that includes the header' - plus
fi

echo '# the example'
row 'examples/deck.c compiles' - compile examples/deck.c deck
row '.. and prints examples/deck.out' examples/deck.out "$tmp/deck"
# The lines of README that build and run it, as they stand there.
readme() { sed -n 's/^    \(cc .*\)/\1/p' README.md | sed "s|-o deck|-o $tmp/readme|;s|&& ./deck|\&\& $tmp/readme|" >"$tmp/lines" && [ -s "$tmp/lines" ] && sh -e "$tmp/lines"; }
row 'the line of README compiles and runs it' examples/deck.out readme

echo '# scripts, through the library'
row 'tests/calls.c compiles' - compile tests/calls.c calls || end
row 'examples/worked.script' examples/worked.out "$tmp/calls" --script examples/worked.script
# The answers to a file among those of a program that prints a line '# NAME' before the answers to each: PROGRAM NAME.
answers() {
    awk -v name="# $2" '/^# / { on = ($0 == name); found += on; next } on { print } END { exit !found }' "$1/stdout" >"$tmp/want" ||
        echo "no answers to $2 in $1/stdout" >"$tmp/want"
}
vectors=crates/test_vectors
for script in "$vectors"/data/*.in; do
    name=$(basename "$script")
    answers "$vectors" "$name"
    row "$name" "$tmp/want" "$tmp/calls" --script "$script"
done
# A long script of all lines, readable or not, beside the script program.
awk 'function any(n) { seed = (seed * 16807) % 2147483647; return seed % n }
    BEGIN {
        seed = 7
        for (i = 0; i < 60000; i++) {
            k = any(100)
            if (k < 45) print "U," any(9)
            else if (k < 70) print "S," any(5)
            else if (k < 76) printf "R,%d,%d,%d,%d\n", any(9), any(290), any(3000), any(16500)
            else if (k < 86) printf "R,%d,%d,%d,%d,%d\n", any(9), any(290), any(3000), any(16500), any(11)
            else if (k < 93) {
                x = any(3000); y = any(9000)
                printf "%s,%d,%d,%d,%d,%d", substr("QTW", 1 + kind, 1), any(5), x, y, x + any(4000) - 9, y + any(9000) - 9
                if (kind > 0) printf ",%d", any(520)
                print ""
                kind = (kind + 1) % 3
            }
            else if (k < 96) print "C," any(5)
            else if (k < 98) print "L," any(5)
            else if (k < 99) print "X," any(5)
            else print substr("R,0,01,1,1 U,00 Q,1,2,3 C S,4294967296 U,4294967295 u,0 ", 1 + any(50), any(12))
        }
    }' >"$tmp/long"
# rt ci leaves the script program here, and ./grid there.
program=crates/grid_script/out/grid_script
[ -x "$program" ] || program=target/bin/grid_script
if [ -x "$program" ]; then
    "$program" <"$tmp/long" >"$tmp/want"
    row 'a script of 60,000 lines, with the answers of the script program' "$tmp/want" "$tmp/calls" --script "$tmp/long"
else
    row 'the script program is there (./grid builds it)' - false
fi

echo '# files of calls, through the library'
for calls in tests/calls/*.calls; do
    row "$(basename "$calls")" "${calls%.calls}.out" "$tmp/calls" "$calls"
done

echo '# the stack'
row 'tests/stack.c compiles' - compile tests/stack.c stack
row 'a call stays within the stack that the header says' - "$tmp/stack" && cat "$tmp/out"
end
