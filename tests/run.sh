#!/usr/bin/env bash
# The tests from outside, to be run once `rt ci` has passed: they link the archive of the proved engine, start the proved text
# program, and run both beside the reference engine. Writes under target/, the out/ of the crates that it
# builds, and a temporary folder that it removes. The last line is 'N passed, M failed', and the status is 0 where M is 0.
set -uo pipefail
cd "$(dirname "$0")/.." || exit 2

# shellcheck source=tests/library.sh
. tests/library.sh
mkdir -p "$made" || exit 2
export CARGO_TARGET_DIR="$PWD/$made"
# The engine and the program that are tested are those that this repository makes.
unset CKPT_LIB_DIR CKPT_PROGRAM

passed=0
failed=0

# check NAME COMMAND..: one test, passed when the command's status is 0
check() {
    local name=$1
    shift
    if "$@"; then
        passed=$((passed + 1))
        echo "check $name ... ok"
    else
        failed=$((failed + 1))
        echo "check $name ... FAILED"
    fi
}

# cargo_tests NAME WORDS..: `cargo test` with these words, each of its tests counted. A run that ends badly without a failed test,
# as by a signal or a build error, counts as one; so does a run without any test.
cargo_tests() {
    local log="$made/$1.log" status p f
    shift
    cargo test --release --offline --locked --no-fail-fast "$@" 2>&1 | tee "$log"
    status=$?
    read -r p f < <(awk '/^test result:/ { p += $4; f += $6 } END { print p + 0, f + 0 }' "$log")
    if [ "$f" -eq 0 ] && { [ "$status" -ne 0 ] || [ "$p" -eq 0 ]; }; then
        f=1
    fi
    passed=$((passed + p))
    failed=$((failed + f))
}

vendored_unchanged() {
    (cd tests && sha256sum --check --quiet vendored.sha256)
}

# vectors_current NAME WORDS..: the generator, given these words, prints the vectors' file NAME
vectors_current() {
    local name=$1
    shift
    cargo run --release --offline --locked --quiet --manifest-path tests/Cargo.toml -p vectors -- "$@" >"$made/$name" &&
        diff "crates/vectors/specs/$name" "$made/$name" | head -n 20
}

program_made() {
    make -s program && [ -x target/bin/ckpt ]
}

# every example gets the answers that stand beside it, and the listing is what the gate runs the program on
examples_answered() {
    local name
    for name in listing worked overtaking restart; do
        target/bin/ckpt <"examples/$name.csv" | cmp - "examples/$name.answers.csv" || return 1
    done
    cmp examples/listing.csv crates/ckpt/stdin
}

check "the engine's archive" make lib
check "the text program is there" program_made
check "the worked controller from C" worked_host
check "the header as C99 and the documents' tables" header_in_c99
check "the header as C++17" header_in_cpp17
check "the archive exports the header's calls alone" symbols
check "an installed library is found and linked by pkg-config" installed
check "a program without a C library" freestanding
check "the sizes in the README" sizes_current
check "a thousand restarts: ledgers equal registers" host_restarts
check "lines ignored: ledgers differ" host_ignores_lines
check "wrong hosts: ledgers differ" wrong_hosts
check "restarts explained, line by line" host_explains
check "wrong explanations are found out" wrong_explanations
check "hosts under sanitizers" sanitized_hosts
check "a table in a file across power cuts" tests/storage.sh
check "power cuts under sanitizers" tests/storage.sh --sanitized
check "hosts that lose or invent tables are found out" tests/storage.sh --wrong
check "an engine that oversteps its areas is caught" tests/overruns.sh
check "ten seconds of random calls under sanitizers" tests/fuzz.sh 10
check "no call on the largest table takes twice as long as plain C" tests/bench.sh --short
check "the bench refuses engines that are slow or wrong" tests/bench.sh --faults
check "the examples are answered as written" examples_answered
check "the reference engine and the peer are as they were taken over" vendored_unchanged
check "the vectors are what the reference engine gives" vectors_current Vectors.antt
check "the text vectors are what the reference engine gives" vectors_current TextVectors.antt text
cargo_tests reference --manifest-path tests/reference/Cargo.toml
cargo_tests beside --manifest-path tests/Cargo.toml -p beside -- --show-output

echo "$passed passed, $failed failed"
[ "$failed" -eq 0 ]
