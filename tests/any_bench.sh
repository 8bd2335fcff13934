#!/usr/bin/env bash
# Opens, sweeps, appends, entries and hints on a bench that no calls made: tests/any_bench.c, linked with the proved library.
set -uo pipefail
program=$(mktemp) || exit 1
trap 'rm -f "$program"' EXIT
"${CC:-cc}" -std=c11 -Wall -Wextra -Werror -O1 tests/any_bench.c -Ltarget/staticlib -llent -o "$program" && .ci/x86-64 "$program"
