#!/usr/bin/env bash
# docs/DEFINITION.md names things that are there: each word between backticks is one of the definitions or laws or a crate, and
# each with a slash a folder or a file of crates/.
set -uo pipefail
words=$(mktemp) || exit 1
trap 'rm -f "$words"' EXIT
{
    find crates -name '*.antt' -exec sed 's/--.*//' {} + | grep -oE '[A-Za-z][A-Za-z0-9_-]*' | sort -u
    ls crates
} >"$words" || exit 1

# is_there NAME
is_there() {
    case $1 in
    */*) compgen -G "crates/$1" || compgen -G "crates/$1.antt" ;;
    *) grep -xF -- "$1" "$words" ;;
    esac >/dev/null
}

named=0
missing=0
while read -r name; do
    named=$((named + 1))
    is_there "$name" || { missing=$((missing + 1)) && echo "not there: $name"; }
done < <(grep -oE '`[A-Za-z][A-Za-z0-9_/*-]*`' docs/DEFINITION.md | tr -d '`' | sort -u)
[ "$named" -gt 50 ] && [ "$missing" -eq 0 ]
