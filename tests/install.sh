#!/bin/sh
# Builds the two programs of the README's fifteen lines against the copy installed under the folder that is given, with the flags of its pkg-config
# files and outside the repository's own folders, by the shared libraries and by the archives; judges the passed-out board of docs/RULES.md with the one, and
# merges tallies with the other. Sees which names the shared libraries export, and has the words of refusals from each library that has them.
set -u
prefix=$1
cc=$2

# variable NAME: a variable of the pkg-config file, those before it put in; field NAME: what the file says for NAME.
variable() { eval echo "$(sed -n "s/^$1=//p" "$file")"; }
field() { eval echo "$(sed -n "s/^$1: //p" "$file")"; }

# same WHAT WROTE DUE
same() {
    [ "$2" = "$3" ] && return
    printf 'installed copy, %s: wrote %s, to be %s\n' "$1" "$2" "$3"
    exit 1
}

# version HEADER NUMBER: a number of the header's version.
version() { sed -n "s/^#define [A-Z]*_VERSION_$2 //p" "$prefix/include/$1.h"; }

# read_flags LIBRARY: the flags in the library's pkg-config file.
read_flags() {
    file=$prefix/lib/pkgconfig/$1.pc
    prefix=$(variable prefix)
    # shellcheck disable=SC2034
    includedir=$(variable includedir)
    # shellcheck disable=SC2034
    libdir=$(variable libdir)
    flags=$(field Cflags)
    libraries=$(field Libs)
    same "the version of $1" "$(field Version)" "$(version "$2" MAJOR).$(version "$2" MINOR).0"
}

# compile PROGRAM OUT LIBRARIES: builds a program with such libraries.
compile() {
    # shellcheck disable=SC2086
    "$cc" -std=c99 -Wall -Wextra -Wpedantic -Werror $flags "$1.c" $3 -o "$2" || exit 1
}

# build LIBRARY PROGRAM: builds a program with the library's flags, and as PROGRAM-static with its archive. Sees which one it is linked to, by the name that
# the loader asks for.
build() {
    read_flags "$1" "$1"
    compile "$2" "$2" "$libraries"
    compile "$2" "$2-static" "$libdir/lib$1.a"
    soname=lib$1.so.$(version "$1" MAJOR)
    same "what $2 is linked to" "$(needed "$2")" "$soname"
    same "what $2-static is linked to" "$(needed "$2-static")" ""
    same "the name of lib$1.so" "$(readelf -d "$libdir/lib$1.so" | sed -n 's/.*(SONAME).*\[\(.*\)\]/\1/p')" "$soname"
}
needed() { readelf -d "$1" | sed -n 's/.*(NEEDED).*\[\(lib[jt].*\)\]/\1/p'; }

# exports LIBRARY NAMES: the functions that a shared library exports, all of them.
exports() { same "what lib$1.so exports" "$(nm -D --defined-only "$libdir/lib$1.so" | sed 's/.* //' | sort | tr '\n' ' ')" "$2 "; }

cp tests/c/installed.c "$prefix/program.c" || exit 1
cp tests/c/installed_tally.c "$prefix/merge.c" || exit 1
cp tests/c/words.c "$prefix/words.c" || exit 1
cd "$prefix" || exit 1
build judge program
exports judge 'judge_best_play judge_dealer judge_read_pbn judge_record judge_slip judge_vulnerable judge_words judge_write_record'
compile words words-judge "$libraries"
build tally merge
exports tally 'judge_words tally_add tally_award tally_cell tally_fresh tally_hundredths tally_matchpoints tally_merge'
compile words words-tally "$libraries"
read_flags judge_words judge
compile words words "$libraries"
for program in words words-judge words-tally; do same "the words of $program" "$("./$program"; echo $?)" 0; done
record='\002\001\000\000\000\025\125\125\132\252\252\253\377\377\377\002\000\000\000'
for program in program program-static; do
    same "the whole record" "$(printf "$record\\000" | "./$program"; echo $?)" "board 1: NS 0, 0 revokes
0"
    same "one byte less" "$(printf "$record" | "./$program"; echo $?)" "refused: number 2, place 0
1"
done

# Board 7, the deal of docs/RULES.md, one result of 420 each: 7, the deal's bytes, 01 A4, zeros, the count 1, zeros.
zeros() { head -c "$1" /dev/zero; }
one_result() {
    printf '\007\000\000\000\025\125\125\132\252\252\253\377\377\377\001\244'
    zeros 254
    printf '\001'
    zeros 127
}
one_result >tally
zeros 398 >none
{ printf '\007'; zeros 397 | tr '\000' '\377'; } >forged
for program in merge merge-static; do
    same "one tally" "$("./$program" tally; echo $?)" "board 7: 1 results of 420
0"
    same "two tallies" "$("./$program" tally tally; echo $?)" "board 7: 2 results of 420
0"
    for files in "tally none tally" "none" "forged" "forged forged" "tally forged"; do
        # shellcheck disable=SC2086
        same "refused, $files" "$("./$program" $files; echo $?)" "board 0: 0 results of 0
1"
    done
done
echo "installed copy: the README's programs build against its shared libraries and archives, judge, merge and have words"
