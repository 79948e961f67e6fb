#!/usr/bin/env bash
# Prints what the archive takes of a controller's memory, as rows of the README's table: code, constants and writable data by their
# sections, and the stack of each call by a measured mark. Then what the text program's own code and constants take, by the sections
# of the object that the linker is given: what C adds to a program differs from one machine to the next.
set -uo pipefail
cd "$(dirname "$0")/.." || exit 2

# shellcheck source=tests/hosts.sh
. tests/hosts.sh
archive_made || exit 2

program=target/ckpt.o
[ -f "$program" ] || {
    echo "$program is missing: run 'make program' first" >&2
    exit 2
}

# bytes FILE REGEX: the bytes in sections with such names
bytes() {
    size -A "$1" | awk -v names="$2" '$1 ~ names { sum += $2 } END { print sum + 0 }'
}

echo "| code | $(bytes "$lib" '^\.text') |"
echo "| constants | $(bytes "$lib" '^\.rodata') |"
echo "| writable data | $(bytes "$lib" '^\.(data|bss|tdata|tbss)') |"
# Names are bound at the start: binding one in a call would take stack for it.
host_of tests/c/stack.c "$made/stack" -O2 -Wl,-z,now && "$made/stack" || exit 1
echo "| code of the text program | $(bytes "$program" '^\.text') |"
echo "| constants of the text program | $(bytes "$program" '^\.rodata') |"
