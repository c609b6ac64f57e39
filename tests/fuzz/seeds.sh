#!/bin/sh
# Writes the first inputs of the fuzzer into a folder, from the samples: each sample in each way in which a program can read it, with the byte in front that
# tests/fuzz/programs.c takes for the way. The terminal's and section's paths are given. Run from the repository's folder.
set -u
folder=$1
terminal=$2
section=$3
mkdir -p "$folder"

# seed NAME KIND: standard input behind the byte KIND, in octal
seed() {
    {
        # shellcheck disable=SC2059
        printf "\\$2"
        cat
    } >"$folder/$1"
}

for text in samples/*.txt samples/sections/*.txt; do
    name=$(basename "$text" .txt)
    seed "words-$name" 002 <"$text"
    "$terminal" -w "$text" 2>/dev/null >"$folder/.record" && seed "record-$name" 000 <"$folder/.record"
done
for hex in samples/*.hex; do
    name=$(basename "$hex" .hex)
    seed "hex-$name" 001 <"$hex"
    tr -d '\n' <"$hex" | seed "file-$name" 005
done
for hex in samples/*.hex; do tr -d '\n' <"$hex"; echo; done >"$folder/.lines"
seed lines 003 <"$folder/.lines"
seed lines-kept 004 <"$folder/.lines"
{ echo '# two of one table'; head -3 "$folder/.lines"; echo; head -3 "$folder/.lines"; echo 0G; } | seed lines-twice 004
"$section" -k -o "$folder/.tallies" samples/*.hex 2>/dev/null
seed tallies 006 <"$folder/.tallies"
{ cat "$folder/.tallies" "$folder/.tallies"; head -c 398 /dev/zero; } | seed tallies-twice 006
for words in '--help' '--version' '-w' '-b -x' '-vx -' '-o out -' '-k -o out' '-oout' '--' '- -' 'out'; do
    echo "$words" | tr ' ' '\n' | seed "options-$(echo "$words" | tr -d ' -')" 007
done
head -c 400 "$folder/.tallies" | seed helpers 010
rm -f "$folder/.record" "$folder/.lines" "$folder/.tallies"
