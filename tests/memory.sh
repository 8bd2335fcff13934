#!/usr/bin/env bash
# Under valgrind the programs read and write nothing that is not theirs: the README's session, each kind of bad line, and matrices.
set -uo pipefail
watch() { valgrind -q --error-exitcode=9 "$@" >/dev/null; }
session=$(sed -n '/^```desk$/,/^```$/p' README.md | grep '^> ' | cut -c3-) || exit 1
{
    printf '%s\nheld\nhint 2 15\nhint 3 15\nhint 0 16\nappend 0 0 1\nappend 7 0 1\nsweep\nnew\nsweep\nreport\nshow\ngate 1 2\n\n# remark\nopen 5348 table - 0 0 0\n' "$session"
    printf 'distance 4 0102040807 0000000002 15 3\nentry 18446744073709551615 0\nentry 18446744073709551616 0\n'
    printf 'open 534802010147540100014f5002 matrix %s 1 1 0\n' 03 0301 030100 0302
    printf 'entry 0 3\nentry 0 0 1\nhint 0 15\nhint 0 16\nentry 0 3 2\nentry 0 3 1 1\nentry 0 3 x\nreport\nheld\n'
    head -c 70000 /dev/zero | tr '\0' 'x'
    printf '\nreport'
} | watch target/bin/desk || exit 1
{ sed -n '/^```equations$/,/^```$/p' README.md | sed '/^```/d' | head -n 7; } | watch target/bin/equations || exit 1
for input in 'y0=(((((((((((((((((((((((((((((((((x0\n' 'a = b' 'y0 = x0' '' '\n\n \n'; do
    printf "$input" | watch target/bin/equations || exit 1
done
head -c 70000 /dev/zero | tr '\0' '~' | watch target/bin/equations || exit 1
for input in '\003\003\002\003\007\006' '\010\001\002\377' '\010\004\003\377\176\201\132' '\001' ''; do
    printf "$input" | watch target/bin/build || exit 1
done
