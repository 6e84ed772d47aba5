#!/bin/sh
# Tries each behaviour of ./grid, a row for each: tests/grid.sh
# It needs the built program (target/bin/grid_script; run ./grid once) and proves nothing: where a row is about building,
# a stand-in for rt that builds nothing is put on PATH. Everything happens in a temporary folder.
# It ends with 'N passed, 0 failed' and status 0, or with the rows that failed and status 1.

LC_ALL=C
export LC_ALL
top=$(CDPATH='' cd -P -- "$(dirname -- "$0")/.." && pwd -P) || exit 2
if [ ! -x "$top/target/bin/grid_script" ]; then
    echo 'tests/grid.sh: target/bin/grid_script is missing; run ./grid once, which builds it' >&2
    exit 2
fi
tmp=$(mktemp -d) || exit 2
trap 'chmod -R u+w "$tmp"; rm -rf "$tmp"' EXIT
trap 'exit 130' INT TERM

passed=0 failures=0
ok() {
    passed=$((passed + 1))
    printf 'ok      %s\n' "$1"
}
bad() {
    failures=$((failures + 1))
    printf 'FAILED  %s\n' "$1"
    printf '        status %s\n' "$status"
    sed 's/^/        out: /' "$tmp/out" | head -n 5
    sed 's/^/        err: /' "$tmp/err" | head -n 5
}

# A row: a name, the status wanted, a file with the output wanted (or - for any, or nothing for none), a word that
# standard error has to have (empty: it has to be empty; * for any); then the command.
row() {
    name=$1 want=$2 output=$3 word=$4
    shift 4
    "$@" >"$tmp/out" 2>"$tmp/err"
    status=$?
    judge "$name" "$want" "$output" "$word"
}
judge() {
    good=yes
    [ "$status" = "$2" ] || good=''
    case $3 in
    -) ;;
    '') [ ! -s "$tmp/out" ] || good='' ;;
    *) cmp -s "$3" "$tmp/out" || good='' ;;
    esac
    case $4 in
    '*') ;;
    '') [ ! -s "$tmp/err" ] || good='' ;;
    *) grep -q -e "$4" "$tmp/err" || good='' ;;
    esac
    if [ "$good" ]; then ok "$1"; else bad "$1"; fi
}

# A deck of its own: the wrapper, the built program, and what the wrapper reads. Its path has blanks.
deck=$tmp/'a deck'
make_deck() {
    mkdir -p "$1/docs" "$1/crates/grid_script/src" "$1/target/bin"
    cp "$top/grid" "$top/crates.txt" "$1/"
    cp "$top/docs/DECISIONS.md" "$1/docs/"
    echo '// a source' >"$1/crates/grid_script/src/main.rt"
    cp "$top/target/bin/grid_script" "$1/target/bin/"
    touch -t 200001010000 "$1/crates.txt" "$1/crates/grid_script/src/main.rt"
}
make_deck "$deck"
grid=$deck/grid
script=$top/examples/worked.script
answers=$top/examples/worked.out

# Without rt: PATH has what the wrapper needs and no rt.
mkdir "$tmp/bare"
for tool in sh awk sed find dirname readlink printf cat dd timeout touch rm mkdir cp wc tr git chmod head sleep grep; do
    at=$(command -v "$tool") && ln -s "$at" "$tmp/bare/$tool" 2>/dev/null
done
# A stand-in for rt that says what rt says, puts the built program in place and runs it; and one that fails.
mkdir "$tmp/stand-in" "$tmp/failing"
cat >"$tmp/stand-in/rt" <<RT
#!/bin/sh
[ "\$1" = version ] && { echo another-kit; exit 0; }
[ "\$*" = run ] && [ -f src/main.rt ] || exit 2
exec 3>&1 >&2
echo 'rt: chose --jobs 2 for base'
echo 'fn base::nothing: proved'
echo 'logic=proved functions=1'
echo 'rt: chose --jobs 2 for pool'
echo 'logic=proved functions=2'
echo 'rt: chose --jobs 2 for grid_script'
mkdir -p out && cp '$top/target/bin/grid_script' out/
echo 'logic=proved functions=3'
echo 'rt: running out/grid_script; to give it other input, run that file yourself'
exec out/grid_script >&3
RT
cat >"$tmp/failing/rt" <<'RT'
#!/bin/sh
exec >&2
echo 'rt: chose --jobs 2 for base'
echo 'fn base::nothing: proved'
echo 'logic=proved functions=1'
echo 'rt: chose --jobs 2 for pool'
echo 'error: this one is not so'
echo 'logic=not-proved functions=1'
echo 'rt: the library pool did not build, so nothing above it was checked'
exit 1
RT
chmod +x "$tmp/stand-in/rt" "$tmp/failing/rt"

echo '# scripts'
from() {
    input=$1
    shift
    "$@" <"$input"
}
row 'a script on standard input' 0 "$answers" '' from "$script" "$grid"
row 'a script that is named' 0 "$answers" '' "$grid" "$script"
row '- is standard input' 0 "$answers" '' from "$script" "$grid" -
row 'a named script is read, standard input is not' 0 "$answers" '' from /dev/null "$grid" "$script"
cp "$script" "$tmp/-odd name"
dashed() { (cd "$tmp" && "$grid" -- '-odd name'); }
row 'a name that begins with a dash, after --' 0 "$answers" '' dashed
row 'empty input prints nothing' 0 '' '' from /dev/null "$grid"
printf 'U,0' >"$tmp/unended"
printf '1,3\n' >"$tmp/want"
row 'the last line may lack its line feed' 0 "$tmp/want" '' "$grid" "$tmp/unended"
printf 'U,0\r\n# a comment\nU, 0\nu,0\nU,+0\nU,00\n\n' >"$tmp/odd"
printf '1,13\n2,13\n3,13\n4,13\n5,13\n6,13\n7,13\n' >"$tmp/want"
row 'carriage return, comment, blank, small letter, sign, needless zero, empty line: 13, status 0' 0 "$tmp/want" '' "$grid" "$tmp/odd"

echo '# options'
"$grid" --help >"$tmp/help" 2>/dev/null
row '-h prints what --help prints, and reads nothing' 0 "$tmp/help" '' from /dev/full "$grid" -h
asks() { "$grid" --help | grep -c -e 'R,lane,carrier,x,y,mark' -e 'W,lane,x0,y0,x1,y1,radius' -e '13  unreadable line' -e '32  radius' -e 'Exit status: 0' | grep -qx 5; }
row '--help has calls, numbers and status' 0 '' '' asks
versions() { "$grid" --version | grep -c -e 'commit ' -e "^kit $(sed -n 's/^Toolchain: `\([^`]*\)`.*/\1/p' "$top/docs/DECISIONS.md")\$" | grep -qx 2; }
row '--version has the commit and the kit' 0 '' '' versions
row 'an unknown option is a usage error' 2 '' 'no option --fast' "$grid" --fast
row 'a short unknown option too' 2 '' 'no option -x' "$grid" -x
row 'two scripts are a usage error' 2 '' 'more than one' "$grid" "$script" "$script"

echo '# reading and writing that fail'
row 'no such script' 1 '' 'reading failed' "$grid" "$tmp/nowhere"
row 'the script is a folder' 1 '' 'reading failed' "$grid" "$tmp"
row 'standard input is a folder' 1 '' 'reading failed' from "$tmp" "$grid"
closed_in() { "$grid" <&-; }
row 'standard input is closed' 1 '' 'reading failed' closed_in
no_read() { "$grid" 0>/dev/null; }
row 'standard input is open for writing only' 1 '' 'reading failed' no_read
closed_out() { "$grid" "$script" >&-; }
row 'standard output is closed' 1 '' 'writing failed' closed_out
full() { "$grid" "$script" >/dev/full; }
row 'standard output is full' 1 '' 'writing failed' full
no_write() { "$grid" "$script" 1</dev/null; }
row 'standard output is open for reading only' 1 '' 'writing failed' no_write
mkfifo "$tmp/slow"
full_waiting() {
    { printf 'U,0\n'; sleep 4; } >"$tmp/slow" &
    timeout 3 "$grid" <"$tmp/slow" >/dev/full
}
row 'standard output is full while more input is to come' 1 '' 'writing failed' full_waiting
wait
closed_all() { "$grid" "$script" >&- 2>&-; }
row 'standard output and standard error are closed' 1 '' '' closed_all

echo '# SIGPIPE'
awk 'BEGIN { for (i = 0; i < 200000; i++) print "U,0" }' >"$tmp/long"
piped() {
    { "$grid" "$tmp/long"; echo $? >"$tmp/ended"; } | head -n 1 >/dev/null
    return "$(cat "$tmp/ended")"
}
row 'a reader that goes away ends it by SIGPIPE, without a word' 141 '' '' piped
ignored() {
    { (trap '' PIPE; "$grid" "$tmp/long"; echo $? >"$tmp/ended"); } | head -n 1 >/dev/null
    return "$(cat "$tmp/ended")"
}
row 'where SIGPIPE is ignored, writing fails' 1 '' 'writing failed' ignored

echo '# nothing is held back'
mkfifo "$tmp/in" "$tmp/answers"
"$grid" <"$tmp/in" >"$tmp/answers" 2>"$tmp/err" &
runner=$!
exec 8>"$tmp/in" 9<"$tmp/answers"
talk() {
    printf 'R,0,7,100,100\n' >&8
    IFS= read -r one <&9
    printf 'U,' >&8
    printf '0\nU,9\n' >&8
    IFS= read -r two <&9
    IFS= read -r three <&9
    printf '%s %s %s\n' "$one" "$two" "$three"
}
talk >"$tmp/out"
exec 8>&-
wait "$runner"
status=$?
exec 9<&-
echo '1,0 2,0 3,1' >"$tmp/want"
judge 'each answer comes before the next line is read' 0 "$tmp/want" ''

echo '# the picture'
mkdir "$deck/tools"
cp "$top/tools/draw-deck" "$deck/tools/"
row 'the picture of README is what its script draws' 0 "$top/docs/deck.svg" '' "$deck/tools/draw-deck" "$top/examples/deck.script"
row 'a script on standard input' 0 "$top/docs/deck.svg" '' from "$top/examples/deck.script" "$deck/tools/draw-deck"
row 'an empty deck is drawn' 0 - '' from /dev/null "$deck/tools/draw-deck"
row 'a script that is not there' 1 '' 'nowhere' "$deck/tools/draw-deck" "$tmp/nowhere"

echo '# places'
ln -s "$grid" "$tmp/absolute"
row 'through a symbolic link' 0 "$answers" '' "$tmp/absolute" "$script"
mkdir "$tmp/links"
ln -s '../a deck/grid' "$tmp/links/relative"
ln -s relative "$tmp/links/chain"
row 'through a chain of relative links' 0 "$answers" '' "$tmp/links/chain" "$script"
elsewhere() { (cd / && "$grid" "$script"); }
row 'from another folder' 0 "$answers" '' elsewhere
by_name() { (cd "$top/examples" && "$grid" worked.script); }
row 'a name is taken from the folder one stands in' 0 "$answers" '' by_name
by_sh() { (cd "$deck" && sh grid "$script"); }
row 'as sh grid' 0 "$answers" '' by_sh
on_path() { (PATH="$deck:$PATH" && cd / && grid "$script"); }
row 'found on PATH' 0 "$answers" '' on_path
with_cdpath() { (cd "$tmp" && CDPATH=/:/tmp 'a deck/grid' "$script"); }
row 'with CDPATH set' 0 "$answers" '' with_cdpath
cp -R "$deck" "$tmp/sealed"
touch "$tmp/sealed/target/bin/grid_script"
chmod -R a-w "$tmp/sealed"
sealed() {
    if [ "$(id -u)" = 0 ]; then
        chmod 711 "$tmp"
        cat "$script" | setpriv --reuid=65534 --regid=65534 --clear-groups "$tmp/sealed/grid"
    else
        "$tmp/sealed/grid" "$script"
    fi
}
row 'in a folder that cannot be written, once built' 0 "$answers" '' sealed

echo '# building'
without() {
    (PATH=$tmp/bare && export PATH && "$1/grid" "$script")
}
with() {
    (PATH=$1:$PATH && export PATH && "$2/grid" "$script")
}
row 'without rt, built' 0 "$answers" '' without "$deck"
make_deck "$tmp/unbuilt"
rm "$tmp/unbuilt/target/bin/grid_script"
row 'without rt, not built: it says what to install' 1 '' 'install rattle-kit' without "$tmp/unbuilt"
row 'a build that fails' 1 '' 'building failed' with "$tmp/failing" "$tmp/unbuilt"
row '.. shows what rt said of the crate that failed' 1 '' 'this one is not so' with "$tmp/failing" "$tmp/unbuilt"
row 'the first run proves and builds, and says so' 0 "$answers" 'proving and building' with "$tmp/stand-in" "$tmp/unbuilt"
rm -r "$tmp/unbuilt/target" "$tmp/unbuilt/crates/grid_script/out"
row '.. and shows which crate of how many' 0 "$answers" 'proved pool, 3 of [1-9][0-9]' with "$tmp/stand-in" "$tmp/unbuilt"
rm -r "$tmp/unbuilt/target"
row 'a program that rt has made since is taken as it is' 0 "$answers" '' with "$tmp/failing" "$tmp/unbuilt"
row 'the second run does not' 0 "$answers" '' with "$tmp/failing" "$tmp/unbuilt"
touch -t 203001010000 "$tmp/unbuilt/crates/grid_script/src/main.rt"
row 'after a change of a source it proves again' 0 "$answers" 'a source is newer' with "$tmp/stand-in" "$tmp/unbuilt"
row '.. or, without rt, says that the program as built runs' 0 "$answers" 'as it was built' without "$tmp/unbuilt"
if [ "$(id -u)" != 0 ]; then
    make_deck "$tmp/closed"
    rm -r "$tmp/closed/target"
    chmod -R a-w "$tmp/closed"
    row 'not built in a folder that cannot be written' 1 '' 'cannot be written' with "$tmp/stand-in" "$tmp/closed"
fi

printf '%s passed, %s failed\n' "$passed" "$failures"
[ "$failures" -eq 0 ]
