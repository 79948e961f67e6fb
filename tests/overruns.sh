#!/usr/bin/env bash
# Shows that the fuzzer finds what it is there for: engines that touch one byte outside a lent block or answer wrongly, each made of
# the archive and tests/c/overrun.c. Prints a line for each. The status is 0 where each is found for its own reason and the engine
# without a fault passes. Writes under target/ only.
set -uo pipefail
# shellcheck source=tests/fuzz.sh
. "$(dirname "$0")/fuzz.sh" || exit 2

folder=$made/overruns
program=$folder/fuzz
seconds=2
seed=1
origin="fuzz, case [0-9]+, CKPT_SEED=$seed"
missed=0

# what overrun.c wraps: two calls that only read the table, two that write it, and two that are lent more than table and area
calls=(ckpt_line ckpt_send ckpt_receipt ckpt_grounds ckpt_resend ckpt_audit)

# wrapped WORDS..: makes the fuzzer with overrun.c, compiled with these words, around these calls of the archive
wrapped() {
    ${CC:-cc} -std=c99 "${strict[@]}" -O1 -fno-builtin "$@" -c -o "$folder/overrun.o" tests/c/overrun.c &&
        fuzz_program "$program" "$lib" "$folder/overrun.o" "${calls[@]/#/-Wl,--wrap=}"
}

# swapped: makes the fuzzer with an archive in which two calls have changed names. That this is found shows that the fuzzer's calls
# go to the archive that it is linked with, not to the copy that the part in Rust brings along.
swapped() {
    objcopy --redefine-sym ckpt_line=ckpt_failed --redefine-sym ckpt_failed=ckpt_line "$lib" "$folder/swapped.a" &&
        fuzz_program "$program" "$folder/swapped.a"
}

# passes: the fuzzer finds nothing
passes() {
    "$program" "$seconds" "$seed" >"$log" 2>&1
}

# finds PATTERN..: the fuzzer ends badly, and each pattern is in what it prints
finds() {
    local pattern
    ! passes || return 1
    for pattern in "$@"; do
        grep -qE -- "$pattern" "$log" || return 1
    done
}

# engine NAME: begins a variant, whose fuzzer prints to a log of this name
engine() {
    name=$1
    log=$folder/${1// /-}.log
    rm -f "$log"
}

# told: ends the variant with a line on whether the command before went well
told() {
    if [ "$?" -eq 0 ]; then
        echo "overruns: $name ... ok"
    else
        missed=$((missed + 1))
        echo "overruns: $name ... FAILED, see $log"
    fi
}

# touches FUNCTION BLOCK PATTERN..: the variant in which this function of overrun.c touches a byte outside the block of this name
touches() {
    engine "${1//_/ } the $2"
    wrapped "-DTOUCH=$1" "-DTOUCHED=\"$2\"" && finds "AddressSanitizer" "${@:3}"
    told
}

fuzz_parts && mkdir -p "$folder" || exit 1

engine "no fault"
wrapped && passes
told

for block in table area "table of grounds" "area of grounds" "table of resend" "area of resend" positions "table of audit" "area of audit" scratch; do
    lent=${block% of *}
    case $lent in positions | scratch) lent="positions or scratch" ;; esac
    touches read_before "$block" "SEGV" "caused by a READ" "$lent with a closed page in front"
    touches read_behind "$block" "SEGV" "caused by a READ" "$lent with a closed page behind"
    touches write_before "$block" "SEGV" "caused by a WRITE" "$lent with a closed page in front"
    touches write_behind "$block" "SEGV" "caused by a WRITE" "$lent with a closed page behind"
    touches memcpy_behind "$block" "heap-buffer-overflow" "READ of size 2" "$lent in a heap block"
    touches memset_behind "$block" "heap-buffer-overflow" "WRITE of size 1" "$lent in a heap block"
done

engine "a wrong number"
wrapped -DWRONG_NUMBER && finds "differ in the number returned" "$origin" "proved: +returned 5" "reference: returned 6"
told

engine "a send that carries nothing"
wrapped -DNOTHING_CARRIED && finds "differ in the table" "$origin" "Send" "proved: +returned 0"
told

engine "a place counted from 0"
wrapped -DPLACE_FROM_0 && finds "differ in the area" "$origin" "Receipt" "proved: +returned 0"
told

engine "the count where no state is saved"
wrapped -DCOUNT_ANSWERED && finds "differ in the number returned" "$origin" "Line" "proved: +returned 0" "reference: returned 15"
told

engine "lines refused by the numbers in the headings"
wrapped -DBY_NUMBER && finds "differ in the number returned" "$origin" "Line" "proved: +returned 15" "reference: returned 0"
told

engine "line 0 refused without a record"
wrapped -DFRESH_REFUSED && finds "differ in the number returned" "$origin" "Line \{ number: 0 \}" "proved: +returned 15" "reference: returned 0"
told

engine "positions written by a refused line"
wrapped -DEARLY_POSITIONS && finds "differ in the area" "$origin" "Line" "proved: +returned 15," "reference: returned 15,"
told

engine "a ground's place counted from 0"
wrapped -DGROUND_FROM_0 && finds "differ in the area" "$origin" "Grounds" "proved: +returned 0"
told

engine "the ground 1 for every failed process"
wrapped -DFAILED_ALONE && finds "differ in the area" "$origin" "Grounds" "proved: +returned 0"
told

engine "an area written by refused grounds"
wrapped -DEARLY_GROUNDS && finds "differ in the area" "$origin" "Grounds" "proved: +returned 11,"
told

engine "a byte behind the list"
wrapped -DBEHIND_LIST && finds "differ in the area" "$origin" "Resend" "proved: +returned 0"
told

engine "a count in an area that is too short"
wrapped -DEARLY_COUNT && finds "differ in the area" "$origin" "Resend" "proved: +returned 13"
told

engine "an audit that always says 1"
wrapped -DALWAYS_MADE && finds "differ in the area" "$origin" "Audit" "proved: +returned 0"
told

engine "an audit that never says 1"
wrapped -DNEVER_MADE && finds "differ in the area" "$origin" "Audit" "proved: +returned 0"
told

engine "an audit that says what its scratch held"
wrapped -DHELD && finds "differ in the area" "$origin" "Audit" "proved: +returned 0"
told

engine "a scratch written by a refused audit"
wrapped -DEARLY_SCRATCH && finds "differ in the scratch" "$origin" "Audit" "proved: +returned (1|2|3|4|14),"
told

engine "two calls swapped"
swapped && finds "differ" "$origin"
told

[ "$missed" -eq 0 ]
