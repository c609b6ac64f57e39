# What the programs write, held to what is due; for the scripts that try them, which run from the repository's folder and end with `failed` as their status.
failed=0

# same WHAT WROTE DUE
same() {
    [ "$2" = "$3" ] && return
    failed=1
    printf '%s: wrote\n%s\nto be\n%s\n' "$1" "$2" "$3"
}
