# shellcheck shell=bash disable=SC2034
# How C hosts of the archive are built, for the scripts beside it, which have gone to the repository's top.

made=target/tests
lib=target/staticlib/libengine.a
strict=(-Wall -Wextra -Wpedantic -Werror -Iinclude)
sanitized=(-O1 -g "-fsanitize=address,undefined" -fno-sanitize-recover=all)

archive_made() {
    [ -f "$lib" ] || {
        echo "$lib is missing: run \`make lib\` first" >&2
        return 1
    }
    mkdir -p "$made"
}

# header_calls: the calls that the header declares
header_calls() {
    sed -n 's/^uint32_t \(ckpt_[a-z_]*\)(.*/\1/p' include/ckpt.h
}

# header_has MACRO: what the header makes of a macro
header_has() {
    ${CC:-cc} -E -P -Iinclude -include ckpt.h - <<<"$1" | tail -n 1
}

# table_length N E: the header's length of a table
table_length() {
    local sum
    sum=$(header_has "CKPT_TABLE_LENGTH($1, $2)") || return 1
    echo $((${sum//ul/}))
}

# header_version: the header's version, without the quotes and blanks between its parts
header_version() {
    header_has CKPT_VERSION_STRING | tr -d '" '
}

# host_of SOURCE PROGRAM WORDS..: builds a C99 host of the archive, with these words for the compiler
host_of() {
    local source=$1 program=$2
    shift 2
    ${CC:-cc} -std=c99 "${strict[@]}" "$@" -o "$program" "$source" "$lib"
}
