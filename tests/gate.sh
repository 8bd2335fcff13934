#!/usr/bin/env bash
# The gate itself, in a small house of stubs: where all is well it passes, and with one thing broken it fails and names that.
# A house has a copy of .ci/, a tests/ of its own, and no tool on its PATH but its stubs and a few basic ones, so nothing
# is proved here and no gate runs within a gate.
set -uo pipefail
gate=$PWD/.ci
scratch=$(mktemp -d) || exit 1
trap 'rm -rf "$scratch"' EXIT
status=0
processor=x86_64

mkdir "$scratch/basics"
for tool in bash cp diff dirname grep mkdir mktemp rm sed tail tee; do
    ln -s "$(type -P "$tool")" "$scratch/basics/" || exit 1
done

# stub NAME CODE: a tool of the house
stub() {
    printf '#!%s\n%s\n' "$BASH" "$2" >"bin/$1"
    chmod +x "bin/$1"
}

# package NAME CODE: a Rust package of the house, with what `cargo test` does in it
package() {
    mkdir -p "$1"
    echo "$2" >"$1/cargo-test"
}

# a house in the current folder; `rt ci` runs the stub rt-ci, and so on
house() {
    local well='echo "test result: ok. 3 passed; 0 failed; 0 ignored"'
    mkdir -p bin bindings/c bindings/rust/examples crates/{lent_c,build,equations,desk} tests
    cp -r "$gate" .
    echo 'from C' >bindings/c/example.out
    echo 'from Rust' >bindings/rust/examples/morning.out
    echo 'exit 0' >tests/script.sh
    stub rt 'exec "$0-$1"'
    stub rt-ci 'echo "5 passed, 0 failed"'
    stub rt-lib 'mkdir -p out && echo library >"out/lib${PWD##*/}.a"'
    stub rt-run 'mkdir -p out && echo program >"out/${PWD##*/}"'
    stub cargo 'exec "$0-$1"'
    stub cargo-test 'source ./cargo-test'
    stub cargo-run 'echo "from Rust"'
    stub cc 'cp bin/example "${@: -1}"'
    stub example 'echo "from C"'
    stub valgrind ''
    package reference "$well"
    package compare "$well"
}

# a house on another processor: packages that are there, what they bring, and a test that would fail, left out there
other_processor() {
    processor=aarch64
    stub dpkg 'echo /bin/rustc'
    stub apt-get 'exit 1'
    stub rt-doc 'echo docs/guide'
    stub x86_64-linux-gnu-gcc 'exec cc "$@"'
    stub qemu-x86_64 'exec "${@: -1}"'
    echo 'exit 1' >tests/memory.sh
}

# says LINES COMMAND..: in a new house in which COMMAND broke something, the gate's failures and its last line are these, and
# its exit status is 0 exactly where none failed
says() {
    local expected=$1 wanted=1 said ended
    shift
    if [[ $expected == *', 0 failed' ]]; then wanted=0; fi
    cd "$(mktemp -d -p "$scratch")" && house && "$@" || exit 1
    HOSTTYPE=$processor CC='' PATH=$PWD/bin:$scratch/basics "$BASH" .ci/run >log 2>&1
    ended=$?
    said=$({ grep '^FAILED' log; tail -n 1 log; } | paste -sd';')
    if [ "$said" != "$expected" ] || [ "$ended" != "$wanted" ]; then
        printf 'after: %s\nto be said: %s\nbut it was: %s (exit status %s)\n' "$*" "$expected" "$said" "$ended"
        status=1
    fi
}

says '15 passed, 0 failed' true

says 'FAILED: rt ci, exit status 1;15 passed, 1 failed' stub rt-ci 'echo "5 passed, 0 failed"; exit 1'
says 'FAILED: rt ci, 2 of its tests;13 passed, 2 failed' stub rt-ci 'echo "3 passed, 2 failed"; exit 1'
says 'FAILED: rt ci, no test ran;10 passed, 1 failed' stub rt-ci 'echo "0 passed, 0 failed"'
says 'FAILED: rt ci, no test ran;10 passed, 1 failed' stub rt-ci 'echo "5 passed, 0 failed"; echo "and more"'
says 'FAILED: rt ci, no test ran;10 passed, 1 failed' stub rt-ci ''
says 'FAILED: rt ci, bad edits;15 passed, 1 failed' stub rt-ci 'echo "rt: ok, must-fail edits: 4 refused, 1 bad"; echo "5 passed, 0 failed"'
linked='FAILED: programs, and the static library for other languages'
says "$linked;14 passed, 1 failed" stub rt-lib 'exit 1'
says "$linked;14 passed, 1 failed" stub rt-lib ''
says "$linked;14 passed, 1 failed" stub rt-run 'exit 1'
says "$linked;14 passed, 1 failed" stub rt-run ''

says 'FAILED: example in C;14 passed, 1 failed' stub cc 'exit 1'
says 'FAILED: example in C;14 passed, 1 failed' stub example 'echo "from c"'
says 'FAILED: example in C;14 passed, 1 failed' stub example 'echo "from C"; exit 1'
says 'FAILED: example in Rust;14 passed, 1 failed' stub cargo-run 'echo "from rust"'
says 'FAILED: example in Rust;14 passed, 1 failed' stub cargo-run 'echo "from Rust"; exit 1'

compare='FAILED: cargo test in compare'
says "$compare, exit status 101;15 passed, 1 failed" package compare 'echo "test result: ok. 3 passed; 0 failed;"; exit 101'
says "$compare, exit status 101;12 passed, 1 failed" package compare 'echo "error: could not compile"; exit 101'
says "$compare, 1 of its tests;14 passed, 1 failed" package compare 'echo "test result: FAILED. 2 passed; 1 failed;"; exit 101'
says "$compare, no test ran;12 passed, 1 failed" package compare 'echo "test result: ok. 0 passed; 0 failed;"'
says "$compare, no test ran;12 passed, 1 failed" package compare ''
says "$compare, exit status 1;12 passed, 1 failed" rm -r compare

says 'FAILED: tests/script.sh;14 passed, 1 failed' sed -i s/0/1/ tests/script.sh
says 'FAILED: tests/*.sh;14 passed, 1 failed' rm tests/script.sh

says 'FAILED: no valgrind on the PATH;15 passed, 1 failed' rm bin/valgrind
says 'FAILED: no cc on the PATH;FAILED: example in C;14 passed, 2 failed' rm bin/cc
says 'FAILED: no rt on the PATH;FAILED: rt ci, exit status 127;'\
'FAILED: programs, and the static library for other languages;9 passed, 3 failed' rm bin/rt
says 'FAILED: no cargo on the PATH;FAILED: cargo test in reference, exit status 127;'\
"FAILED: example in Rust;$compare, exit status 127;8 passed, 4 failed" rm bin/cargo

# without NAME: the house on another processor, where the tool NAME fails
without() { other_processor && stub "$1" 'exit 1'; }
says '16 passed, 0 failed' other_processor
says 'FAILED: compilers for x86-64;15 passed, 1 failed' without dpkg
says 'FAILED: example in C;15 passed, 1 failed' without x86_64-linux-gnu-gcc
says 'FAILED: example in C;15 passed, 1 failed' without qemu-x86_64
exit $status
