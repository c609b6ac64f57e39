#!/bin/sh
# Tries the terminal, whose path is given: each sample against its line, all in one call, bytes and hexadecimal, files and standard input,
# each sample written from its words, the play trick by trick, what cannot be read, and the exit status. Run from the repository's folder.
set -u
terminal=$1
work=$2
. tests/same.sh

# bytes HEX-FILE: the record as bytes
bytes() {
    for byte in $(cat "$1"); do
        # shellcheck disable=SC2059
        printf "\\$(printf '%03o' "0x$byte")"
    done
}

all_due=
for due in samples/*.expected; do
    hex=${due%.expected}.hex
    wrote=$("$terminal" "$hex")
    status=$?
    same "$hex" "$wrote" "$(cat "$due")"
    case $hex in samples/refused-*) same "$hex status" $status 1 ;; *) same "$hex status" $status 0 ;; esac
    all_due="$all_due$(cat "$due")
"
done
wrote=$("$terminal" samples/*.hex; echo "status $?")
same "all samples" "$wrote" "${all_due}status 1"

for play in samples/*.play; do
    hex=${play%.play}.hex
    same "$hex with the play" "$("$terminal" -v "$hex"; echo $?)" "$(cat "${play%.play}.expected" "$play")
0"
done
same "a passed-out board with the play" "$("$terminal" -v samples/passed-out.hex)" "$(cat samples/passed-out.expected)"
same "a refused record with the play" "$("$terminal" -v samples/refused-card.hex; echo $?)" "$(cat samples/refused-card.expected)
1"

good='Board 3 table 1: 3NT by N, 7 tricks, NS -100'
bytes samples/claim.hex >"$work/claim"
same "a file of bytes" "$("$terminal" "$work/claim"; echo $?)" "$good
0"
same "bytes on standard input" "$("$terminal" <"$work/claim"; echo $?)" "$good
0"
same "bytes on standard input named -" "$("$terminal" - <"$work/claim"; echo $?)" "$good
0"
same "hexadecimal on standard input" "$("$terminal" -x <samples/claim.hex; echo $?)" "$good
0"
tr -d ' \n' <samples/claim.hex | tr A-F a-f >"$work/joined"
same "small letters without blanks" "$("$terminal" -x "$work/joined"; echo $?)" "$good
0"
{ echo '# a comment with 02 01 in it'; cat samples/claim.hex; printf '# the last line'; } >"$work/comment.hex"
same "a comment" "$("$terminal" "$work/comment.hex"; echo $?)" "$good
0"
cp "$work/claim" "$work/bytes.hex"
same "bytes in a file named .hex" "$("$terminal" -b "$work/bytes.hex"; echo $?)" "$good
0"
same "an empty record" "$("$terminal" </dev/null; echo $?)" "standard input: refused, the record ends before a field is whole
1"
printf '0' >"$work/odd.hex"
same "an odd digit" "$("$terminal" "$work/odd.hex" 2>&1; echo $?)" "$work/odd.hex is not hexadecimal, two digits a byte
2"
printf '02 0x' >"$work/letter.hex"
same "a letter" "$("$terminal" "$work/letter.hex" 2>&1; echo $?)" "$work/letter.hex is not hexadecimal, two digits a byte
2"
same "a missing file" "$("$terminal" "$work/none" 2>&1; echo $?)" "$work/none cannot be opened
2"
same "a missing file among others" "$("$terminal" "$work/none" samples/claim.hex 2>/dev/null; echo $?)" "$good
2"
same "an unknown option" "$("$terminal" -q 2>/dev/null; echo $?)" "2"
help=$("$terminal" --help)
for forms in "-w -x" "-x -w" "-b -x" "-xb" "-b -w" "-v -w" "-wv"; do
    # shellcheck disable=SC2086
    same "two forms, $forms" "$("$terminal" $forms samples/claim.hex 2>&1 >/dev/null; echo $?)" "$help
2"
done
same "one form twice" "$("$terminal" -x -x samples/claim.hex; echo $?)" "$good
0"
cp samples/claim.hex "$work/-x"
same "a file named as an option" "$(cd "$work" && "$OLDPWD/$terminal" -x -- -x; echo $?)" "$good
0"
same "help" "$("$terminal" -x --help 2>/dev/null | head -1; "$terminal" --help 2>&1 >/dev/null; echo $?)" "usage: terminal [-v] [-b | -x] [FILE]...
0"
same "version" "$("$terminal" --version 2>&1; echo $?)" "terminal (judge $(sed -n 's/^#define JUDGE_VERSION_M[AJINOR]* //p' include/judge.h | paste -sd .))
0"
same "a full device" "$("$terminal" samples/claim.hex 2>&1 >/dev/full; echo $?)" "what is due cannot be written
2"

# Each sample written from its words: its own bytes, or the words of its refusal. A record that lacks bytes cannot be written.
for text in samples/*.txt; do
    hex=${text%.txt}.hex
    "$terminal" -w "$text" >"$work/written" 2>"$work/said"
    status=$?
    case $text in
    samples/refused-short.txt) same "$text" "$(cat "$work/said"; echo $status)" "$text, line 9: missing: a record is written whole
2" ;;
    samples/refused-*) same "$text" "$(cat "$work/said"; echo $status)" "$(sed "s|$hex|$text|" "${text%.txt}.expected")
1" ;;
    *) bytes "$hex" | cmp -s - "$work/written" && same "$text" "$(cat "$work/said"; echo $status)" 0 || same "$text" "other bytes" "those of $hex" ;;
    esac
    [ $status = 0 ] || same "$text, bytes of a refused record" "$(wc -c <"$work/written" | tr -d ' ')" 0
done
same "written and judged" "$("$terminal" -w <samples/claim.txt | "$terminal"; echo $?)" "$good
0"

# refused_words WHAT SENTENCE: what is said of samples/passed-out.txt with the change that the sed command on standard input makes.
refused_words() {
    sed -f - samples/passed-out.txt >"$work/changed.txt"
    same "$1" "$("$terminal" -w "$work/changed.txt" 2>&1; echo $?)" "$work/changed.txt$2"
}
echo 's/^board .*/board 128/' | refused_words "board 128" ": refused, board not 1 to 127
1"
echo 's/^table .*/table 99999999999/' | refused_words "a table beyond 32 bits" ": refused, table not 1 to 511
1"
echo 's/hand N AKQ/hand N AK/' | refused_words "a card in no hand" ": refused, deal: a card is in no hand
1"
echo '$a claim 16' | refused_words "a claim when passed out" ": refused, after 0 cards: a claim cannot stand here
1"
echo '$a trick SA SJ S8 S5' | refused_words "cards when passed out" ": refused, play count 4: over 52, or cards for a passed-out board
1"
echo 's/hand E JT9/hand E AT9/' | refused_words "a card in two hands" ", line 5: hand AT9.543.AKQ2.876: a card is in two hands
2"
echo 's/^calls.*/calls P P 8C/' | refused_words "no call" ", line 8: calls 8C: no such call
2"
echo '$a trick SA S1' | refused_words "no card" ", line 9: trick S1: no such card
2"
echo '$a trick ?S1 SA' | refused_words "no card exposed" ", line 9: trick ?S1: no such card
2"
echo '$a trick !SA +NT SA' | refused_words "no suit required" ", line 9: trick +NT: no such suit
2"
echo '$a trick - SA' | refused_words "no suit forbidden" ", line 9: trick -: no such suit
2"
echo '$a trick ?S9' | refused_words "an exposure without a card" ": refused, play 0: choice of a lead not open, or no card after an exposure or choice
1"
echo 's/^board.*/board x7/' | refused_words "no digits" ", line 2: board x7: not a number
2"
echo 's/^board.*/board 7 8/' | refused_words "a word behind a number" ", line 2: board 8: a word too many
2"
echo 's/^table.*/table -1/' | refused_words "a number with a sign" ", line 3: table -1: not a number
2"
echo '$a board 7' | refused_words "a second board" ", line 9: board 7: said twice
2"
echo '$a table 7' | refused_words "a second table" ", line 9: table 7: said twice
2"
{ echo '$a claim 3'; echo '$a claim 3'; } | refused_words "a second claim" ", line 10: claim 3: said twice
2"
echo '$a claim' | refused_words "a claim without a number" ", line 9: claim: a number is missing
2"
echo '$a claim three' | refused_words "a claim in letters" ", line 9: claim three: not a number
2"
echo 's/^hand N.*/hand N AKQ.876.543JT92/' | refused_words "a suit missing" ", line 4: hand AKQ.876.543JT92: a suit is missing
2"
echo 's/^hand N.*/hand N AKQ.876.543.JT9.2/' | refused_words "a fifth suit" ", line 4: hand AKQ.876.543.JT9.2: a hand has four suits
2"
echo 's/^hand N.*/hand N AKQ.876.543.JT1/' | refused_words "no rank" ", line 4: hand AKQ.876.543.JT1: no such card
2"
echo 's/^hand N.*/& & /' | refused_words "words behind a hand" ", line 4: hand hand: a word too many
2"
echo 's/^hand N.*/hand N/' | refused_words "a hand without cards" ", line 4: hand N: the cards are missing
2"
echo 's/^hand N.*/hand/' | refused_words "a hand without a seat" ", line 4: hand: no such seat
2"
echo 's/^hand N/hand NE/' | refused_words "a seat of two letters" ", line 4: hand NE: no such seat
2"
echo 's/^hand E/hand N/' | refused_words "a seat twice" ", line 5: hand N: said twice
2"
echo 's/^calls.*/calls P P P PX/' | refused_words "a call and more" ", line 8: calls PX: no such call
2"
printf 'board 7\0' >"$work/changed.txt"
same "a zero among the words" "$("$terminal" -w "$work/changed.txt" 2>&1; echo $?)" "$work/changed.txt is no text
2"
echo 's/^board.*/board/' | refused_words "no number" ", line 2: board: a number is missing
2"
echo '$a tricks SA' | refused_words "an unknown line" ", line 9: tricks: this says nothing of a record
2"
same "two files to write" "$("$terminal" -w samples/claim.txt samples/slam.txt 2>/dev/null; echo $?)" "2"
sed 's/^claim.*/claim 16/' samples/claim.txt >"$work/changed.txt"
same "a claim of 16" "$("$terminal" -w "$work/changed.txt" 2>&1; echo $?)" "$work/changed.txt: refused, claim of 15 or more: more tricks than are left
1"

# changed_trick WHAT CARDS LINE: what is said of samples/penalty-major.txt, written and judged, with other cards in its trick.
changed_trick() {
    sed "s/^trick.*/trick $2/" samples/penalty-major.txt >"$work/changed.txt"
    same "$1" "$({ "$terminal" -w "$work/changed.txt" | "$terminal"; } 2>&1)" "$3"
}
board='Board 1 table 6: 1NT by N,'
failures='failures to play a penalty card: trick 1, E plays H3; trick 1, W plays D6'
# The ten of hearts was due from W, the four of hearts, faced too, from E; both revokes and failures are told.
changed_trick "two failures" '!H4 !HT H3 H2 D6 H6' "$board 7 tricks, 7 after Law 64, NS 90; revoke: trick 1, W, hearts; $failures"
# Clubs are required and a heart is led: a revoke, and W has picked the queen of clubs up. E did not win, and EW have six tricks: 1 changes sides.
changed_trick "a suit required" '!CQ +C H3 HA H9 H6' "$board 7 tricks, 8 after Law 64, NS 120; revoke: trick 1, E, clubs"
# Twenty times W's ten of hearts is faced and hearts are forbidden: forty codes. W wins, and N has the six tricks that he claims, one down.
forty=$(printf '!HT -H %.0s' 1 2 3 4 5 6 7 8 9 10 11 12 13 14 15 16 17 18 19 20)
changed_trick "forty codes" "$forty C8 C3 CA C2" "$board 6 tricks, NS -50"
sed "s/^trick.*/trick $forty !HT C8 C3 CA C2/" samples/penalty-major.txt >"$work/changed.txt"
same "a 41st code" "$("$terminal" -w "$work/changed.txt" 2>&1; echo $?)" "$work/changed.txt: refused, play 0: more than 40 exposures and choices
1"
[ $failed = 0 ] && echo "terminal: every sample and form as it should be"
exit $failed
