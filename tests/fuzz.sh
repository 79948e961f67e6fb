#!/usr/bin/env bash
# fuzz.sh SECONDS [SEED [CASE]]: random calls on the archive of the engine, beside the reference engine, from a C host under
# AddressSanitizer and UndefinedBehaviorSanitizer that lends every block in exactly its length. A seed, or a seed and a case, as
# printed by an earlier run, make the same calls again. Writes under target/ only. The status is 0 where nothing was found.
set -uo pipefail
cd "$(dirname "$0")/.." || exit 2

# shellcheck source=tests/hosts.sh
. tests/hosts.sh
export CARGO_TARGET_DIR="$PWD/$made"
# The engine that is tested is the one that this repository makes.
unset CKPT_LIB_DIR

# fuzz_parts: what the fuzzer is linked of, besides the engine
fuzz_parts() {
    archive_made &&
        cargo build --release --offline --locked --quiet --manifest-path tests/Cargo.toml -p fuzz &&
        ${CC:-cc} -std=c99 "${strict[@]}" "${sanitized[@]}" -c -o "$made/fuzz.o" tests/c/fuzz.c
}

# fuzz_program PROGRAM ARCHIVE WORDS..: links the fuzzer with the engine of this archive. The part in Rust brings a copy of the
# engine along; as the whole of this archive is linked, the copy stays out, or the linker stops at a call that is there twice.
fuzz_program() {
    local program=$1 engine=$2
    shift 2
    ${CC:-cc} "${sanitized[@]}" -o "$program" "$made/fuzz.o" "$@" -Wl,--whole-archive "$engine" -Wl,--no-whole-archive \
        "$made/release/libfuzz.a"
}

# overruns.sh takes the functions only
if [ "${BASH_SOURCE[0]}" = "$0" ]; then
    [[ ${1-} =~ ^[0-9]*[1-9][0-9]*$ ]] || {
        echo "usage: fuzz.sh SECONDS [SEED [CASE]], with a positive number of seconds" >&2
        exit 2
    }
    fuzz_parts && fuzz_program "$made/fuzz" "$lib" && "$made/fuzz" "$@"
fi
