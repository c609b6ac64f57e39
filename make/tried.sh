#!/bin/sh
# tried.sh CRATE: runs the crate's program by `rt try`, on its stdin and with its data, and holds what it writes to its stdout.
set -eu
cd "crates/$1"
written=$(mktemp)
trap 'rm -f "$written"' EXIT
input=/dev/null
test ! -f stdin || input=stdin
set --
for file in data/*; do test ! -f "$file" || set -- "$@" --data "$(basename "$file")=$file"; done
rt try "$@" <"$input" >"$written"
cmp "$written" stdout
