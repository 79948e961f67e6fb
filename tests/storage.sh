#!/usr/bin/env bash
# storage.sh: examples/storage.c through power cuts, damage and invented tables (tests/c/storage.c), and beside other files.
# storage.sh --sanitized: a few of everything, in a host under AddressSanitizer and UndefinedBehaviorSanitizer.
# storage.sh --wrong: shows that hosts which are wrong in a line or two are found out, each for its own reason.
# The status is 0 where nothing was found amiss. Writes under target/ only.
set -uo pipefail
cd "$(dirname "$0")/.." || exit 2

# shellcheck source=tests/hosts.sh
. tests/hosts.sh

folder=$made/storage
example=examples/storage.c
wraps=-Wl,--wrap=pread,--wrap=pwrite,--wrap=fsync,--wrap=rename

# cutter WORDS..: compiles what cuts hosts, with these words for the compiler
cutter() {
    ${CC:-cc} -std=c99 "${strict[@]}" "$@" -c -o "$folder/cutter.o" tests/c/storage.c
}

# cut_host SOURCE WORDS..: makes the program that cuts the host of this source
cut_host() {
    local source=$1
    shift
    ${CC:-cc} -std=c99 "${strict[@]}" "$@" -Dmain=storage_main -c -o "$folder/host.o" "$source" &&
        ${CC:-cc} "$@" "$wraps" -o "$folder/cuts" "$folder/cutter.o" "$folder/host.o" "$lib"
}

# cuts WORDS..: runs it, in a folder that has nothing else
cuts() {
    rm -rf "$folder/files"
    mkdir "$folder/files" && "$folder/cuts" "$folder/files" "$@"
}

# says STATUS PATTERN WORDS..: the host, given these words, ends with this status and says this
says() {
    local status=$1 pattern=$2
    shift 2
    "$folder/storage" "$@" >"$folder/out" 2>&1
    if [ $? -ne "$status" ] || ! grep -qE -- "$pattern" "$folder/out"; then
        cat "$folder/out"
        echo "storage $*: not status $status and '$pattern'" >&2
        return 1
    fi
}

# other_files: files that are no host's, and starts one after the other on one that is
other_files() {
    local files=$folder/files
    rm -rf "$files"
    mkdir -p "$files/folder" && mkfifo "$files/fifo" && host_of "$example" "$folder/storage" -O2 &&
        says 1 'folder: Is a directory$' "$files/folder" &&
        says 1 'none/table: No such file or directory$' "$files/none/table" &&
        says 1 'none: No such file or directory$' "$files/none" --show &&
        says 1 'null: refused: ' /dev/null &&
        says 1 'fifo: refused: ' "$files/fifo" &&
        says 1 'File name too long$' "$files/$(printf 'n%.0s' {1..255})" &&
        says 2 '^usage: ' && says 2 '^usage: ' "$files/table" --other && says 2 '^usage: ' "$files/table" --show more &&
        says 0 'table: begun with a fresh table$' "$files/table" &&
        says 0 'table: save 6 is whole' "$files/table" &&
        says 0 'table: save 11 is whole' "$files/table" --show &&
        says 0 '^process 2: .* 1,2,0,0$' "$files/table" --show &&
        says 0 'table: save 11 is whole' "$files/table" --invent &&
        says 1 'table: refused: no run of calls leaves this table$' "$files/table" --show
}

# messages_listed: each message about a file that isn't believed is in examples/README.md, and no other
messages_listed() {
    diff <(sed -n 's/.*stop("\(refused: [^"]*\)").*/\1/p' "$example" | sort) \
        <(sed -n 's/^| \(refused: [^|]*\) |.*/\1/p' examples/README.md | sort)
}

# shown_by_make: what `make run-storage` shows: a host that begins, goes on, comes back with the save before a torn one, and refuses
shown_by_make() {
    local shown='begun|save [0-9]+ is whole|saved two|refused: no run'
    make -s run-storage >"$folder/out" 2>&1 && diff <(grep -oE "$shown" "$folder/out") \
        <(printf '%s\n' begun 'save 1 is whole' 'save 6 is whole' 'save 10 is whole' 'save 15 is whole' 'saved two' \
            'refused: no run')
}

# host_that NAME PART REASON OLD NEW [OLD NEW]..: the host with these texts changed, each of which it has just once, is found out in
# this part for this reason
host_that() {
    local name=$1 part=$2 reason=$3 text rest
    text=$(<"$example")
    shift 3
    while [ $# -ge 2 ]; do
        rest=${text#*"$1"}
        if [ "$rest" = "$text" ] || [ "${rest#*"$1"}" != "$rest" ]; then
            echo "host that $name: '$1' is not in $example just once" >&2
            return 1
        fi
        text=${text/"$1"/"$2"}
        shift 2
    done
    printf '%s\n' "$text" >"$folder/wrong.c"
    cut_host "$folder/wrong.c" -O2 -static -w || return 1
    cuts "$part" >"$folder/out"
    if [ $? -ne 1 ] || ! grep -q "^storage: $reason; " "$folder/out"; then
        cat "$folder/out"
        echo "host that $name: not found out for its reason" >&2
        return 1
    fi
    head -n 1 "$folder/out" | sed "s/^storage: \(.*\); the last.*/host that $name: \1/"
}

# hosts that lose a table, or come back with another one
wrong_savers() {
    local another='after a cut it came back with another table' in_its_place=' && number(slot) % 2 == i'
    local named='if (rename(name, path)) stop(strerror(errno));' told=$'    puts("");\n    return true;'
    local begun='printf("%s: begun with a fresh table\n", path);' accepted=$'    must(returned);\n'
    local saved=$'    save();\n' read='pread(file, slot, SLOT, (off_t)i * ROOM)'
    host_that "has no sum" cuts "$another" ' && sum(slot) == ckpt_word(slot, SUMMED / 4)' '' &&
        host_that "sums the table alone" cuts "$another" 'int i = 0; i < SUMMED' 'int i = 8; i < SUMMED' &&
        host_that "has one slot" cuts "$another" '(off_t)(saves % 2) * ROOM' '0' "$in_its_place" '' &&
        host_that "takes the older slot" cuts "a table that was saved isn't there" '<= saves)' '> saves - 1)' &&
        host_that "has both slots in one block" cuts "$another" 'LENGTH = 2 * ROOM' 'LENGTH = 2 * BLOCK' \
            'ROOM = (SLOT + BLOCK - 1) / BLOCK * BLOCK' 'ROOM = SLOT' &&
        host_that "doesn't sync" cuts "$another" '!= SLOT || fsync(file)' '!= SLOT' &&
        host_that "goes on where a save fails" cuts "a start ended with another status" \
            "stop(\"the table can't be saved\")" 'return' &&
        host_that "takes part of a write for all" cuts "a start ended with another status" '!= SLOT || fsync' '< 0 || fsync' &&
        host_that "tells before it saves" cuts "a call isn't saved in one write before it is told" \
            "$accepted$saved" "$accepted" "$told" "$saved$told" &&
        host_that "names its file at once" cuts "$another" 'file = open(name,' 'file = open(path,' "$named" '' &&
        host_that "names its file before it is whole" cuts "$another" "$saved    $named" "    $named$saved" &&
        host_that "doesn't sync the name" cuts "$another" 'folder < 0 || fsync(folder)' 'folder < 0' &&
        host_that "doesn't sync a name that a killed start left" cuts "$another" $'    keep();\n' '' "$begun" "$begun keep();" &&
        host_that "doesn't sync what a killed start left" cuts "$another" ' || fsync(file)) stop(strerror' ') stop(strerror' &&
        host_that "begins anew where no slot is whole" damage "a file with both slots damaged isn't refused" \
            'stop("refused: neither slot is whole, and no power cut leaves that")' 'must(ckpt_fresh(table, TABLE, N, E))' &&
        host_that "takes a file of any length" damage "a file of another length isn't refused" \
            'lseek(file, 0, SEEK_END) != LENGTH' '0' &&
        host_that "stops at a slot that can't be read" damage "without a slot that can't be read it came back with another table" \
            "return $read == SLOT" "if ($read != SLOT) stop(\"not readable\"); return true"
}

# hosts that believe what they shouldn't
wrong_believers() {
    local waiting='4,1,1,0 3,1,1,0 / 4,0,1,0 3,0,1,0 /' made='ckpt_word(made, 0) != 1' place=' && number(slot) % 2 == i'
    host_that "doesn't audit" inventions "$waiting" $'    audit();\n' '' &&
        host_that "audits and doesn't look" inventions "$waiting" "$made" 'ckpt_word(made, 0) > 1' &&
        host_that "believes what the audit refuses" inventions '5,1,1,0 / /' 'if (returned == CKPT_NOT_WELL_LAID)' 'if (0)' \
            'if (returned != CKPT_OK)' 'if (0)' "$made" "returned == CKPT_OK && $made" &&
        host_that "takes the older slot where the newer is refused" inventions "$waiting" '        saves = number(slot);' \
            'uint8_t m[4], s[TABLE]; if (ckpt_audit(slot + 8, TABLE, m, 4, s, TABLE) || !m[3]) continue; saves = number(slot);' &&
        host_that "takes other dimensions" inventions "a table of other dimensions isn't refused" \
            'ckpt_word(table, 0) != N || ckpt_word(table, 1) != E' '0' &&
        host_that "counts saves in 32 bits" inventions "save 2^32 isn't newer than the one before it" \
            '(uint64_t)ckpt_word(slot, 0) << 32 | ' '' &&
        host_that "takes a slot in the other's place" inventions "a slot in the other's place is taken" "$place" ''
}

archive_made && mkdir -p "$folder" || exit 2
case "${1-}" in
    '') cutter -O2 && cut_host "$example" -O2 -static && cuts && other_files && messages_listed && shown_by_make ;;
    --sanitized)
        # no leak check, which needs rights that not every machine gives; a finding's status is none of the host's
        export ASAN_OPTIONS=detect_leaks=0:exitcode=99 UBSAN_OPTIONS=exitcode=99
        cutter "${sanitized[@]}" && cut_host "$example" "${sanitized[@]}" && cuts few
        ;;
    --wrong) cutter -O2 && wrong_savers && wrong_believers ;;
    *)
        echo "usage: storage.sh [--sanitized | --wrong]" >&2
        exit 2
        ;;
esac
