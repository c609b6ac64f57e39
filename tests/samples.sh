#!/bin/sh
# Holds the bytes of each sample to the record in words beside it, by the program write_record, whose path is given; and the records that try_slip and
# try_best read to their words, beside them or among the samples.
set -u
writer=$1
failed=0
for text in samples/*.txt; do
    hex=${text%.txt}.hex
    if [ "$("$1" <"$text")" != "$(cat "$hex")" ]; then
        echo "$hex is not what $text says"
        failed=1
    fi
done

# held RECORD WORDS: the record in a file is that of the words
held() {
    if [ "$("$writer" <"$2" | tr -d ' \n')" != "$(od -An -v -tx1 "$1" | tr -d ' \n' | tr a-f A-F)" ]; then
        echo "$1 is not what $2 says"
        failed=1
    fi
}

for program in slip best; do
    data=crates/try_$program/data
    for record in "$data"/*; do
        name=$(basename "$record" .txt)
        [ "$record" = "$data/$name" ] || continue
        if [ -f "$record.txt" ]; then held "$record" "$record.txt"; else held "$record" "samples/$name.txt"; fi
    done
done
[ $failed = 0 ] && echo "samples: the bytes are those of the records in words"
exit $failed
