#!/usr/bin/env bash
# bench.sh: times each call of the archive beside the same call in plain C, prints the tables and writes them to bench/RESULTS.md,
# which stays as it was if the bench fails.
# bench.sh --short: few rounds, for the gate. Prints the largest ratio, or everything where a bound is exceeded.
# bench.sh --faults: shows that the bench refuses what it is to refuse, on engines that are slow or wrong.
# The status is 0 where nothing was found amiss. Writes under target/ otherwise.
set -uo pipefail
cd "$(dirname "$0")/.." || exit 2

# shellcheck source=tests/hosts.sh
. tests/hosts.sh

program=$made/bench
out=$made/bench.out

compiled() {
    ${CC:-cc} -std=c99 "${strict[@]}" -D_POSIX_C_SOURCE=200809L -O3 "$@"
}

# objects: the bench and the peer, compiled once for all engines
objects() {
    compiled -c -o "$made/bench.o" bench/bench.c && compiled -c -o "$made/peer.o" bench/peer.c
}

# bench_of PROGRAM WORDS..: links the bench, with these words for the compiler. The peer comes behind the bench, always: its time changes
# by up to a fifth with where the linker puts it (docs/DECISIONS.md, "Speed").
bench_of() {
    local program=$1
    shift
    compiled -o "$program" "$made/bench.o" "$made/peer.o" "$@" "$lib"
}

# results: what bench/RESULTS.md is to have in it
results() {
    local processor
    processor=$(awk -F ': ' '/^model name/ { print $2; exit }' /proc/cpuinfo)
    echo "# What the calls cost"
    echo
    echo "- date: $(date -u +%F)"
    echo "- processor: ${processor:-unknown}, $(uname -m)"
    echo "- C compiler: $(${CC:-cc} --version | head -n 1), -O3"
    echo "- toolchain: $(rt version)"
    "$program"
}

full() {
    bench_of "$program" && results | tee "$out" && mv "$out" bench/RESULTS.md
}

# every_call_timed: each call that the header declares has a row in what was printed
every_call_timed() {
    diff <(header_calls | sort) <(sed -n 's/^| \([a-z_]*\) *|.*/ckpt_\1/p' "$out" | grep -vx ckpt_call | sort -u)
}

short() {
    bench_of "$program" || return 1
    if "$program" --short >"$out" && every_call_timed; then
        tail -n 1 "$out"
    else
        cat "$out"
        return 1
    fi
}

# fault WORDS..: the bench of faults.c, compiled with these words, ends with status 1
fault() {
    local calls=(send line failed grounds resend audit)
    bench_of "$program-fault" "${calls[@]/#/-Wl,--wrap=ckpt_}" "$@" bench/faults.c || return 1
    "$program-fault" --short >"$out" 2>&1
    [ $? -eq 1 ] || {
        cat "$out"
        echo "bench of an engine with $*: its status is not 1" >&2
        return 1
    }
}

# said NAME PATTERN: with a message of this pattern
said() {
    grep -m 1 -E "^bench: $2" "$out" | sed "s/^/bench of an engine $1: /" | grep . || {
        cat "$out"
        echo "bench of an engine $1: not refused for its reason" >&2
        return 1
    }
}

# The area's last byte, the table's last and the number returned are wrong in turn; of a refused line the number and a position; of
# grounds a place, of small tables and of the fall; of the messages to send again the positions, a byte behind the list and a long
# list; of the audit its table and what it says, of each table and of one that no run makes. Then a step, lines, the fall, its grounds,
# the list and the audit are slow; then a step is slower the larger the table, a line is slow where it is refused alone, the list where
# the area is exact alone, and the audit where a message goes down the ring.
faults() {
    local send='send at n = 3, E = 6: product and peer differ in' largest='at n = 16, E = 1024 takes [0-9.]+ times' last
    local refused='line that is refused at n = 3, E = 6: product and peer differ in'
    local grounds='grounds at n = 3, E = 6: product and peer differ in'
    local resend='resend at n = 3, E = 6: product and peer differ in'
    local long='resend of thousands at n = 16, E = 1024: product and peer differ in'
    local audit='audit at n = 3, E = 6: product and peer differ in'
    local unmade='audit of what no run makes at n = 16, E = 1024: product and peer differ in'
    last=$(($(table_length 3 6) - 1))
    fault -DAFTER='area[7] ^= 1' && said "with a wrong area" "$send the area, first at byte 7$" &&
        fault -DAFTER='table[table_len - 1] ^= 1' && said "with a wrong table" "$send the table, first at byte $last$" &&
        fault -DAFTER='returned = CKPT_BAD_PROCESS' && said "with a wrong number" "$send the number returned: 5 and 0$" &&
        fault -DLINED='if (returned == CKPT_NO_SAVED_STATE) returned = CKPT_OK' &&
        said "that answers a line without a saved state" "$refused the number returned: 0 and 15$" &&
        fault -DLINED='if (returned == CKPT_NO_SAVED_STATE) area[3] = 0' &&
        said "that writes a line that it refuses" "$refused the area, first at byte 3$" &&
        fault -DGROUNDED='area[7] ^= area_len == CKPT_GROUNDS_LENGTH(3)' && said "with a wrong ground's place" "$grounds the area, first at byte 7$" &&
        fault -DGROUNDED='area[7] ^= area_len == CKPT_GROUNDS_LENGTH(16)' &&
        said "with wrong grounds of the fall" "the product's grounds are not those of the fall$" &&
        fault -DLISTED='((uint8_t *)positions)[3] ^= 1' && said "that changes positions" "$resend the positions, first at byte 3$" &&
        fault -DLISTED='area[area_len - 1] = 0' && said "that writes behind a list" "$resend the area, first at byte 219$" &&
        fault -DLISTED='area[15] ^= ckpt_word(area, 0) > 2000' && said "with a wrong long list" "$long the area, first at byte 15$" &&
        fault -DAUDITED='((uint8_t *)table)[table_len - 1] ^= 1' &&
        said "that changes what it audits" "$audit the table, first at byte $last$" &&
        fault -DAUDITED='area[3] ^= 1' && said "with a wrong audit" "$audit the area, first at byte 3$" &&
        fault -DAUDITED='area[3] = 1' && said "that says of every table that it is made" "$unmade the area, first at byte 3$" &&
        fault -DCHECKS=4 -DLINES=3 -DREPEATS=3 -DREASONS=3 -DLISTS=3 -DAUDITS=3 && said "with a slow send" "send $largest" &&
        said "with a slow line" "line $largest" &&
        said "with a slow fall" "failed in the fall $largest" &&
        said "with slow grounds" "grounds $largest" && said "with slow grounds of a fall" "grounds in the fall $largest" &&
        said "with a slow list" "resend $largest" &&
        said "with a slow audit" "audit $largest" &&
        fault -DCHECKS='ckpt_word(table, 1) / 64' \
            -DLINES='ckpt_word(table, 1) == 1024 && ckpt_word(table, CKPT_RECORD_AT(1024, 15, 1) - 2) == 0 ? 3 : 0' \
            -DLISTS='ckpt_word(table, 1) == 1024 && area_len < CKPT_RESEND_MOST(16, 1024) ? 3 : 0' \
            -DAUDITS='ckpt_word(table, 1) == 1024 && ckpt_word(table, 2) == 1024 ? 3 : 0' &&
        said "that is not linear" "send takes [0-9.]+ times as long for a place" &&
        said "with a slow refused line" "line that is refused $largest" &&
        said "with a slow exact list" "resend into an exact area $largest" &&
        said "with a slow audit of the ring" "audit of the ring $largest"
}

archive_made && objects || exit 2
case "${1-}" in
    '') full ;;
    --short) short ;;
    --faults) faults ;;
    *)
        echo "usage: bench.sh [--short | --faults]" >&2
        exit 2
        ;;
esac
