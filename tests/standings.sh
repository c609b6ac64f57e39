#!/bin/sh
# Tries `section` and `standings`, whose paths are given beside the terminal's, on the three sections in a folder that the program `sections` writes: all
# orders of the sections, records in several orders and forms, tallies that are none, and what cannot be read; and on the two sections of samples/, whose
# standings were worked out by hand. Run from the repository's folder.
set -u
section=$1
standings=$2
terminal=$3
work=$4
. tests/same.sh

# same_file WHAT WROTE DUE
same_file() { cmp -s "$2" "$3" || same "$1" "other bytes" "those of $3"; }

for k in 1 2 3; do
    "$section" -o "$work/tallies-$k" <"$work/section-$k" 2>"$work/said-$k"
    same "section $k status" $? "$(cat "$work/status-$k")"
    for order in "sort" "sort -r" "sort -k1.33" "sort -r -k1.40"; do
        $order "$work/section-$k" | "$section" -o "$work/tallies" 2>/dev/null
        same_file "section $k by $order" "$work/tallies" "$work/tallies-$k"
    done
done
same "a fouled board within a section" "$(grep -c 'board 17 refused, a fouled board, results of two deals$' "$work/said-1")" 1
same "over 128 results within a section" "$(grep -c 'board 64 refused, more than 128 results$' "$work/said-2")" 1
"$section" -o "$work/tallies" "$work"/records/*.hex
same "a file a record, in hexadecimal" $? 0
same_file "a file a record, in hexadecimal" "$work/tallies" "$work/tallies-3"
set --
for record in "$work"/records/*[0-9]; do set -- "$record" "$@"; done
"$section" -o "$work/tallies" "$@"
same "a file a record, as bytes" $? 0
same_file "a file a record, as bytes" "$work/tallies" "$work/tallies-3"

# All orders of the three sections: one output.
for order in "1 2 3" "1 3 2" "2 1 3" "2 3 1" "3 1 2" "3 2 1"; do
    files=
    for k in $order; do files="$files $work/tallies-$k"; done
    # shellcheck disable=SC2086
    wrote=$("$standings" $files 2>"$work/said"; echo "status $?")
    same "sections $order" "$wrote" "$(cat "$work/standings"; echo "status 1")"
    same "sections $order, a fouled board in words" "$(grep -c 'board 7 refused, a fouled board, results of two deals$' "$work/said")" 1
    same "sections $order, 129 results in words" "$(grep -c 'board 16 refused, more than 128 results$' "$work/said")" 1
    same "sections $order, boards refused in words" "$(grep 'refused' "$work/said" | grep -vc 'as it was before$')" 4
done
same "boards refused" "$(grep -c ' refused$' "$work/standings")" 4

# The two sections of samples/, both ways.
for text in samples/sections/*.txt; do "$terminal" -w "$text" >"$work/sample-$(basename "$text" .txt)"; done
for k in a b; do
    "$section" -o "$work/tallies-$k" "$work/sample-$k"-*
    same "section $k of the samples" $? 0
done
for order in "a b" "b a"; do
    files=
    for k in $order; do files="$files $work/tallies-$k"; done
    # shellcheck disable=SC2086
    wrote=$("$standings" $files 2>/dev/null; echo "status $?")
    same "samples, sections $order" "$wrote" "$(cat samples/sections/expected; echo "status 1")"
done

# One section alone, and boards that nothing is wrong with.
"$section" -o "$work/tallies" samples/claim.hex samples/slam.hex
same "two boards" "$("$standings" "$work/tallies" 2>&1; echo "status $?")" "BOARD 2
NS-SCORE COUNT NS-MP EW-MP NS-% EW-%
1460 1 0 0 ALONE ALONE
BOARD 3
NS-SCORE COUNT NS-MP EW-MP NS-% EW-%
-100 1 0 0 ALONE ALONE
status 0"
same "no record" "$("$section" -o "$work/tallies" </dev/null; echo "status $?"; wc -c <"$work/tallies")" "status 0
0"
same "no tally" "$("$standings" "$work/tallies" 2>&1; echo "status $?")" "status 0"

# What is refused or cannot be read leaves the output as it was; with -k the other records are written.
# section_says WHAT STATUS WORDS OPTION..: what `section` says and how it exits; and whether the output was written.
section_says() {
    what=$1 status=$2 words=$3
    shift 3
    echo before >"$work/out"
    same "$what" "$("$section" -o "$work/out" "$@" 2>&1; echo "status $?")" "$words${words:+
}status $status"
}
unwritten() { same "$1, the output" "$(cat "$work/out")" before; }
written() { same "$1, boards written" "$("$standings" "$work/out" | sed -n 's/^BOARD //p' | tr '\n' ' ')" "$2"; }

refused="samples/refused-card.hex: record refused, play 3: card dealt to another seat"
section_says "a refused record" 1 "$refused
$work/out: 1 record left out, not written" samples/claim.hex samples/refused-card.hex
unwritten "a refused record"
section_says "a refused record, going on" 1 "$refused
$work/out: 1 record left out" -k samples/claim.hex samples/refused-card.hex
written "a refused record, going on" "3 "
section_says "a missing file" 2 "$work/none cannot be opened
$work/out: 1 record left out, not written" samples/claim.hex "$work/none"
unwritten "a missing file"
section_says "a missing file, going on" 2 "$work/none cannot be opened
$refused
$work/out: 2 records left out" -k samples/slam.hex "$work/none" samples/refused-card.hex
written "a missing file, going on" "2 "
{ tr -d ' \n' <samples/claim.hex; echo; echo '# a comment'; echo '02 0'; tr -d '\n' <samples/slam.hex; } >"$work/lines"
bad="standard input, line 3 is not hexadecimal, two digits a byte"
section_says "a bad line" 2 "$bad
$work/out: 1 record left out, not written" <"$work/lines"
unwritten "a bad line"
section_says "a bad line, going on" 2 "$bad
$work/out: 1 record left out" -k <"$work/lines"
written "a bad line, going on" "2 3 "

section_says "a folder for lines" 2 "standard input cannot be read to its end
$work/out: 1 record left out, not written" <"$work"
unwritten "a folder for lines"
section_says "a folder for a record" 2 "$work cannot be read to its end
$work/out: 1 record left out, not written" "$work"
unwritten "a folder for a record"

# Two records of one board and table.
cp samples/slam.hex "$work/again.hex"
sed 's/^claim.*/claim 2/' samples/claim.txt >"$work/other.txt"
"$terminal" -w "$work/other.txt" >"$work/other"
section_says "the same record twice" 0 "$work/again.hex: the same record as samples/slam.hex, counted once" samples/slam.hex samples/claim.hex "$work/again.hex"
"$section" -o "$work/once" samples/slam.hex samples/claim.hex
same_file "the same record twice" "$work/out" "$work/once"
different="samples/claim.hex: left out, a different record of board 3 table 1 is $work/other
$work/other: left out, a different record of board 3 table 1 is samples/claim.hex"
section_says "two records of one table" 1 "$different
$work/out: 2 records left out, not written" samples/claim.hex samples/slam.hex "$work/other"
unwritten "two records of one table"
section_says "two records of one table, going on" 1 "$different
$work/out: 2 records left out" -k samples/claim.hex samples/slam.hex "$work/other"
written "two records of one table, going on" "2 "
cp samples/claim.hex "$work/claim-again.hex"
section_says "one record twice and another" 1 "samples/claim.hex: left out, a different record of board 3 table 1 is $work/other
$work/claim-again.hex: left out, a different record of board 3 table 1 is $work/other
$work/other: left out, a different record of board 3 table 1 is samples/claim.hex
$work/out: 3 records left out" -k samples/claim.hex "$work/claim-again.hex" samples/slam.hex "$work/other"
written "one record twice and another" "2 "
printf '%s\n%s\n%s\n' "$(tr -d ' \n' <samples/slam.hex)" "$(tr -d ' \n' <samples/claim.hex)" "$(tr -d ' \n' <samples/slam.hex)" >"$work/lines"
section_says "the same line twice" 0 "standard input, line 3: the same record as standard input, line 1, counted once" <"$work/lines"
same_file "the same line twice" "$work/out" "$work/once"
tr -d ' \n' <samples/refused-card.hex >"$work/refused.hex"
section_says "a refused record beside an accepted one" 1 "$work/refused.hex: record refused, play 3: card dealt to another seat
$work/out: 1 record left out" -k "$work/refused.hex" samples/claim.hex
written "a refused record beside an accepted one" "3 "

# The output is whole or as it was, and never one of the inputs.
for name in "$work/a.hex" "$work/link.hex" "$work/hard.hex"; do
    rm -f "$work/a.hex" "$work/link.hex" "$work/hard.hex"
    cp samples/claim.hex "$work/a.hex"
    ln -s a.hex "$work/link.hex"
    ln "$work/a.hex" "$work/hard.hex"
    same "$name as output" "$("$section" -k -o "$name" "$work/a.hex" samples/slam.hex 2>&1; echo "status $?")" "$name is read, and is not written over
status 2"
    same_file "$name after it" "$work/a.hex" samples/claim.hex
done
same "standard input as output" "$("$section" -o "$work/a.hex" <"$work/a.hex" 2>&1; echo "status $?")" "$work/a.hex is read, and is not written over
status 2"
same_file "standard input after it" "$work/a.hex" samples/claim.hex
same "a file that cannot be written" "$("$section" -o "$work/none/none" </dev/null 2>&1; echo "status $?")" "$work/none/none cannot be written
status 2"
same "a folder as output" "$("$section" -o "$work" samples/slam.hex 2>&1; echo "status $?")" "$work cannot be written
status 2"
same "a full device" "$("$section" -o /dev/full samples/slam.hex 2>&1; echo "status $?")" "/dev/full cannot be written
status 2"
rm -rf "$work/place"
mkdir "$work/place"
"$section" -o "$work/place/out" samples/slam.hex && chmod 640 "$work/place/out" && "$section" -o "$work/place/out" samples/slam.hex samples/claim.hex
same "what stands beside the output" "$(ls "$work/place")" out
same "permissions of the output" "$(stat -c %a "$work/place/out")" 640
ln -sf out "$work/place/link" && "$section" -o "$work/place/link" samples/slam.hex
same "a link to the output" "$(readlink "$work/place/link"; wc -c <"$work/place/out")" "out
398"
(ulimit -f 4; trap '' XFSZ; "$section" -o "$work/place/out" <"$work/section-3") 2>/dev/null
same "no room for the output" "$? $(ls "$work/place" | tr '\n' ' ')$(wc -c <"$work/place/out")" "2 link out 398"
"$section" -o "$work/tallies" samples/slam.hex samples/claim.hex
"$section" -o - samples/slam.hex samples/claim.hex | cat >"$work/out"
same_file "standard output" "$work/out" "$work/tallies"
same "standings of standard input" "$("$standings" - <"$work/tallies")" "$("$standings" "$work/tallies")"

# Options.
for program in "$section" "$standings"; do
    same "$program --help" "$("$program" --help 2>&1 >/dev/null; echo $?; "$program" --help | head -1 | cut -d ' ' -f 1-2)" "0
usage: $(basename "$program")"
    interfaces=$([ "$program" = "$standings" ] || echo 'judge N, ')'tally N'
    same "$program --version" "$("$program" --version 2>&1 | sed 's/[0-9]\.[0-9]*/N/g'; echo $?)" "$(basename "$program") ($interfaces)
0"
    same "$program with an unknown option" "$("$program" -q 2>/dev/null; echo $?)" 2
    same "$program with help for a full device" "$("$program" --help 2>&1 >/dev/full; echo $?)" "what is due cannot be written
2"
done
same "no output named" "$("$section" samples/slam.hex 2>&1 | head -1)" "usage: section [-k] -o OUT [FILE]..."
same "no output named, going on" "$("$section" -k samples/slam.hex 2>/dev/null; echo $?)" 2
same "an output without a name" "$("$section" -o 2>/dev/null; echo $?)" 2
(cd "$work" && "$OLDPWD/$section" -ko-out -- "$OLDPWD/samples/slam.hex" && "$OLDPWD/$standings" -- -out) >"$work/out"
same "options in one word" "$? $(head -1 "$work/out")" "0 BOARD 2"

head -c 397 "$work/tallies-3" >"$work/short"
same "397 bytes" "$("$standings" "$work/short" 2>&1; echo "status $?")" "$work/short is no file of tallies, 398 bytes each
status 2"
head -c 398 /dev/zero >"$work/zeros"
same "398 zeros" "$("$standings" "$work/zeros" 2>&1; echo "status $?")" "$work/zeros, tally 1: of no board from 1 to 127
status 1"
{ printf '\002'; head -c 397 /dev/zero | tr '\000' '\377'; } >"$work/marked"
same "a board that a section refused" "$("$standings" "$work/marked" 2>&1; echo "status $?")" "$work/marked: board 2 refused, a tally that is not as described
BOARD 2 refused
status 1"
"$section" -o "$work/tallies" samples/slam.hex
same "it in front" "$("$standings" "$work/marked" "$work/tallies" 2>&1)" "$work/marked: board 2 refused, a tally that is not as described
$work/tallies: board 2 refused, as it was before
BOARD 2 refused"
same "it behind" "$("$standings" "$work/tallies" "$work/marked" "$work/tallies" 2>&1)" "$work/marked: board 2 refused, a tally that is not as described
$work/tallies: board 2 refused, as it was before
BOARD 2 refused"
same "no argument" "$("$section" 2>/dev/null; echo $?) $("$standings" 2>/dev/null; echo $?)" "2 2"

[ "$failed" = 0 ] && echo "sections and standings: all orders of three sections write the same"
exit $failed
