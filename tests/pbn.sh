#!/bin/sh
# Reads the games of samples/pbn by the program pbn, whose path is given: each gives the record of its words, by the program write_record, and the terminal
# judges it as the line beside it says; as they were exported, they are outside the subset. And tables and inputs that are refused or too long. Run from
# the repository's folder.
set -u
program=$1
writer=$2
terminal=$3
work=$4
. tests/same.sh

# digits FILE: the bytes of a file in hexadecimal
digits() { od -An -v -tx1 "$1" | tr -d ' \n' | tr a-f A-F; }

for game in samples/pbn/*.pbn; do
    name=${game%.pbn}
    table=$(sed -n 's/^Board [0-9]* table \([0-9]*\):.*/\1/p' "$name.expected")
    { echo "$table"; cat "$game"; } | "$program" >"$work/record"
    same "$game" "$(digits "$work/record")" "$("$writer" <"$name.txt" | tr -d ' \n')"
    same "$game judged" "$("$terminal" -b "$work/record")" "$(cat "$name.expected")"
    same "$name.export" "$({ echo "$table"; cat "$name.export"; } | "$program")" "32 1"
    same "$game for no table" "$({ echo 'table 17'; cat "$game"; } | "$program")" "3 1"
done

game() { cat samples/pbn/passed-out.pbn; }
same "no input" "$("$program" </dev/null)" "32 1"
same "a table without a newline" "$(printf 17 | "$program")" "32 1"
same "a table alone" "$(echo 17 | "$program")" "32 1"
same "a game without a table" "$(game | "$program")" "32 1"
for table in 0 07 512 999 1000 '' ' 17' '17 ' -1; do
    same "the table '$table'" "$({ echo "$table"; game; } | "$program")" "3 1"
done
same "no table, and a line behind the end" "$({ echo 0; game; echo; } | "$program")" "32 5"
same "CR for newlines" "$({ echo 17; game | tr '\n' '\r'; } | "$program")" "32 1"
same "as many bytes as are held" "$(head -c 65536 /dev/zero | "$program")" "32 1"
same "a byte more" "$(head -c 65537 /dev/zero | "$program")" "over 65536 bytes"
same "a game and too many bytes behind it" "$({ echo 17; game; head -c 65536 /dev/zero; } | "$program")" "over 65536 bytes"
[ $failed = 0 ] && echo "games in Portable Bridge Notation: records and refusals as they should be"
exit $failed
