#!/usr/bin/env bash
# The wrong answers keep step: each edit's old text stands once in its file, and docs/WRONG-ANSWERS.md names each edit, and as `gate` those
# of must-fail/. That they are refused is for the gate and for wrong-answers/try.
set -u
status=0
for edit in crates/*/must-fail/*.edit wrong-answers/*/*.edit; do
    crate=$(basename "$(dirname "${edit/must-fail\//}")")
    while IFS= read -r line; do
        case $line in
        'file: '*) file=crates/$crate/${line#file: } ;;
        'old: '*) [ "$(grep -cF -- "${line#old: }" "$file")" = 1 ] || { echo "$edit: not once in $file" && status=1; } ;;
        esac
    done <"$edit"
done
standing() { ls crates/*/must-fail/*.edit wrong-answers/*/*.edit | sed -E 's|crates/(.*)/must-fail/(.*).edit|\1 \2, gate|; s|wrong-answers/(.*)/(.*).edit|\1 \2|'; }
named() { sed -nE 's/^\| ([a-z_]+) \|.*\| `([a-z0-9_]+)`(, gate)? \|.*\|.*\|$/\1 \2\3/p' docs/WRONG-ANSWERS.md; }
diff <(standing | sort) <(named | sort) || status=1
exit $status
