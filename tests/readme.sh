#!/usr/bin/env bash
# README.md shows what the programs say: in each block `desk` the lines after `> ` are typed and the others are the answers, a session a block;
# each block `equations` is a file, and the block `answer` after it what the program writes for it.
set -uo pipefail
status=0

# block NAME N: the lines of the N-th block of that name
block() { awk -v name="$1" -v want="$2" '$0 == "```" { inside = 0 } inside { print } $0 == "```" name && ++seen == want { inside = 1 }' README.md; }
blocks() { grep -cx "\`\`\`$1" README.md; }

[ "$(blocks desk)" -ge 2 ] && [ "$(blocks equations)" -ge 2 ] && [ "$(blocks equations)" -eq "$(blocks answer)" ] || exit 1
for n in $(seq "$(blocks desk)"); do
    session=$(block desk "$n")
    grep '^> ' <<<"$session" | cut -c3- | .ci/x86-64 target/bin/desk | diff - <(grep -v '^> ' <<<"$session") || status=1
done
for n in $(seq "$(blocks answer)"); do
    block equations "$n" | .ci/x86-64 target/bin/equations | diff - <(block answer "$n") || status=1
done
exit $status
