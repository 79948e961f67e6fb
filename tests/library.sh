# shellcheck shell=bash
# Checks of the C library, for run.sh.

# shellcheck source=tests/hosts.sh
. tests/hosts.sh

worked_host() {
    host_of examples/worked.c "$made/worked" -O2 && "$made/worked"
}

header_in_c99() {
    host_of tests/c/header.c "$made/header_c" -O0 && "$made/header_c"
}

header_in_cpp17() {
    ${CXX:-c++} -std=c++17 "${strict[@]}" -O2 -o "$made/header_cpp" -x c++ tests/c/header.c -x none "$lib" &&
        "$made/header_cpp"
}

# the archive exports the header's calls and nothing else, and asks of C for nothing but memset
symbols() {
    local asked
    diff <(header_calls | sort) \
        <(nm --extern-only --defined-only "$lib" | awk 'NF == 3 { print $3 }' | sort) || return 1
    asked=$(nm --undefined-only "$lib" | awk 'NF == 2 { print $2 }') || return 1
    ! grep -vx memset <<<"$asked"
}

# same_version VERSION: the version that pkg-config gives is the header's
same_version() {
    local stated
    stated=$(header_version)
    if [ "$1" != "$stated" ] || [[ ! $1 =~ ^[0-9]+\.[0-9]+\.[0-9]+$ ]]; then
        echo "pkg-config gives version '$1', the header '$stated'" >&2
        return 1
    fi
}

# installed_in PREFIX: what `make install` puts into an empty folder is enough to build and run the hosts and has the header's
# version, and `make uninstall` takes it away; a package is collected in DESTDIR and says where it will stand
installed_in() {
    local prefix=$1 flags name
    local -x PKG_CONFIG_PATH="$prefix/lib/pkgconfig"
    make -s install PREFIX="$prefix" || return 1
    flags=$(pkg-config --cflags --libs ckpt) && same_version "$(pkg-config --modversion ckpt)" || return 1
    for name in worked host; do
        # shellcheck disable=SC2086
        ${CC:-cc} -std=c99 -o "$prefix/$name" "examples/$name.c" $flags && "$prefix/$name" >"$made/installed.out" || return 1
    done
    cmp "$lib" "$prefix/lib/libckpt.a" && make -s uninstall PREFIX="$prefix" || return 1
    [ -z "$(find "$prefix" -name '*ckpt*')" ] || return 1
    make -s -o lib install DESTDIR="$prefix/a package" PREFIX=/usr &&
        grep -qx 'prefix=/usr' "$prefix/a package/usr/lib/pkgconfig/ckpt.pc"
}

installed() {
    local prefix status
    prefix=$(mktemp -d) || return 1
    installed_in "$prefix"
    status=$?
    rm -rf "$prefix"
    return "$status"
}

freestanding() {
    # The loop of its own memset must not become a call of itself.
    host_of tests/c/freestanding.c "$made/freestanding" -O2 -ffreestanding -nostdlib -static -fno-tree-loop-distribute-patterns &&
        "$made/freestanding"
}

# the README has the sizes, and the stack of every call is among them
sizes_current() {
    local row
    tests/sizes.sh >"$made/sizes" || return 1
    diff <(header_calls | sort) <(sed -n 's/^| stack of .\(ckpt_[a-z_]*\). | .*/\1/p' "$made/sizes" | sort) || return 1
    while IFS= read -r row; do
        grep -qxF -- "$row" README.md || {
            echo "README.md lacks the row: $row" >&2
            return 1
        }
    done <"$made/sizes"
}

# a thousand restarts, ten lines, and the ledgers equal the registers; for some other seeds too
host_restarts() {
    local seed
    host_of examples/host.c "$made/host" -O2 && "$made/host" >"$made/host.out" || return 1
    tail -n 2 "$made/host.out"
    [ "$(grep -c '^ *[0-9]*00 restarts: .*, travelled [1-9][0-9]* places at most$' "$made/host.out")" -eq 10 ] &&
        [ "$(tail -n 1 "$made/host.out")" = 'ledgers equal registers' ] || return 1
    for seed in 2 3 4 5 6 7 8 9; do
        "$made/host" "$seed" >"$made/host.out" || {
            echo "seed $seed" >&2
            return 1
        }
    done
}

# differs NAME PROGRAM WORDS..: a wrong host reports a difference, with status 1
differs() {
    local name=$1 status
    shift
    "$@" >"$made/host.out"
    status=$?
    if [ "$status" -ne 1 ] || ! grep -q '^flat .*: its meter counted ' "$made/host.out"; then
        echo "host that $name: status $status, $(tail -n 1 "$made/host.out")" >&2
        return 1
    fi
}

host_ignores_lines() {
    local seed
    for seed in 1 2 3 4 5 6 7 8 9; do
        differs "ignores the lines" "$made/host" --ignore-lines "$seed" || return 1
    done
    cat "$made/host.out"
}

# changed_host NAME OLD NEW: writes the source of the host with one line changed
changed_host() {
    local name=$1 old=$2 new=$3 text rest
    text=$(<examples/host.c)
    rest=${text#*"$old"}
    if [ "$rest" = "$text" ] || [ "${rest#*"$old"}" != "$rest" ]; then
        echo "host that $name: its line is not in examples/host.c just once" >&2
        return 1
    fi
    printf '%s\n' "${text/"$old"/"$new"}" >"$made/wrong_host.c"
}

# host_that NAME OLD NEW: the host with one line changed reports a difference
host_that() {
    changed_host "$@" && host_of "$made/wrong_host.c" "$made/wrong_host" -O2 && differs "$1" "$made/wrong_host"
}

wrong_hosts() {
    local cut='at < owed[p] ? owed[p] : at' again='post(m->from, m->to, m->flat, m->pulses);'
    host_that "repeats nothing" 'count = ckpt_word(list, 0);' 'count = 0;' &&
        host_that "loses a message in transit" 'm < again + count' 'm + 1 < again + count' &&
        host_that "forgets what a table began with" "$cut" 'at' &&
        host_that "sends again what was unsent" "$cut" "p < COLLECTORS ? position[p] : $cut" &&
        host_that "looks at all receipts" "$again" "if (!m->received) $again" &&
        host_that "asks for what is in transit at the running states" "$cut" 'position[p]' &&
        host_that "reloads the failed alone" 'back = ckpt_word(area, N);' 'back = failed;' &&
        host_that "reloads those below their count alone" 'back >> p & 1' '(back >> p & 1 && at < position[p])' &&
        host_that "takes a forced checkpoint's place for the receipt's" 'received_at = ckpt_word(area, 3);' \
            'received_at = ckpt_word(area, 3) - ckpt_word(area, 1);' &&
        host_that "saves a state with the message in it" 'save(m->to);' \
            'running[m->to].pulses[m->flat] += m->pulses; save(m->to); running[m->to].pulses[m->flat] -= m->pulses;'
}

# explaining SOURCE WORDS..: builds this host, compiled with these words, so that it says on standard error what it is to explain
explaining() {
    local source=$1
    shift
    host_of "$source" "$made/explaining" -O2 -Itests/c -Wl,--wrap=ckpt_grounds "$@" tests/c/explained.c
}

# explains SEED: what that host explains is what it is to explain, a line for each process that went back and each in one of six forms,
# of which none is missing; for the rest it says what it says otherwise
explains() {
    local seed=$1 out=$made/explained.out said=$made/explained.said lines back forms
    "$made/explaining" --explain "$seed" >"$out" 2>"$said" || return 1
    lines=$(grep -c '^restart ' "$out")
    back=$(sed -n 's/.* went back \([0-9]*\), .*/\1/p' "$out" | tail -n 1)
    forms=$(sed -n 's/^\(restart [1-9][0-9]*: process\) [0-5] /\1 /; s/\(save\|receipt\) at [1-9][0-9]*/\1/g
        s/message [1-9][0-9]* from process [0-5],/message/; s/^restart [0-9]*: process //p' "$out" | LC_ALL=C sort -u)
    diff "$said" <(grep '^restart ' "$out") >"$made/explained.diff" && [ "$lines" -gt 1000 ] && [ "$lines" = "$back" ] &&
        diff - <(echo "$forms") <<'END' && grep -v '^restart ' "$out" | diff - <("$made/host" "$seed")
failed and goes back to its first state: its receipt is of message which isn't sent any more
failed and goes back to its save: its receipt is of message which isn't sent any more
failed: reloads its first state
failed: reloads its save
goes back to its first state: its receipt is of message which isn't sent any more
goes back to its save: its receipt is of message which isn't sent any more
END
}

# lines_ignored_explained SEED: where lines are ignored, they are explained as what would be, and the ledgers differ as they did
lines_ignored_explained() {
    local out=$made/explained.out
    differs "explains the lines it ignores" "$made/host" --ignore-lines --explain "$1" || return 1
    mv "$made/host.out" "$out"
    grep -v '^restart ' "$out" | diff - <("$made/host" --ignore-lines "$1") &&
        grep '^restart ' "$out" | grep -q ' would reload ' && ! grep '^restart ' "$out" | grep -v ' would '
}

# refused_words WORDS..: the host doesn't know these words
refused_words() {
    "$made/host" "$@" >"$made/host.out" 2>&1
    [ $? -eq 2 ] && [ "$(cat "$made/host.out")" = 'usage: host [--ignore-lines] [--explain] [SEED]' ]
}

host_explains() {
    local seed
    explaining examples/host.c || return 1
    for seed in 5 4 3 2 1; do
        if ! explains "$seed" || ! lines_ignored_explained "$seed"; then
            echo "seed $seed" >&2
            return 1
        fi
    done
    # as examples/README.md has it
    grep '^restart 9: ' "$made/explained.said" | tee "$made/explained.out"
    sed -n 's/^ *\(restart 9: \)/\1/p' examples/README.md | diff "$made/explained.out" - &&
        refused_words --explian && refused_words --explain=1 && refused_words --explain 1x && refused_words ''
}

# found_out NAME: the host that was built explains wrongly, and that alone is what is found
found_out() {
    local status
    explains 1
    status=$?
    if [ "$status" -eq 0 ] || [ ! -s "$made/explained.diff" ] || [ "$(tail -n 1 "$made/explained.out")" != 'ledgers equal registers' ]
    then
        echo "host that $1: not found out" >&2
        return 1
    fi
}

# explains_wrong NAME OLD NEW: the host with one line changed is found out
explains_wrong() {
    changed_host "$@" && explaining "$made/wrong_host.c" && found_out "$1"
}

# told_wrong NAME CODE: so is the host of an engine whose answer for process p is changed by this code
told_wrong() {
    explaining examples/host.c "-DANSWER=$2" && found_out "$1"
}

wrong_explanations() {
    explains_wrong "names the receipt behind" 'CKPT_RECORD_AT(E, p, place)' 'CKPT_RECORD_AT(E, p, place + 1)' &&
        explains_wrong "takes the number for the sender" 'ckpt_word(table, receipt + 1)' 'ckpt_word(table, receipt + 2)' &&
        explains_wrong "tells of those alone that didn't fail" 'ground == CKPT_GROUND_STAYS' 'ground != CKPT_GROUND_RECEIPT' &&
        explains_wrong "tells of all" 'if (ground == CKPT_GROUND_STAYS) continue;' '' &&
        explains_wrong "tells the place for the position" 'state_at(ckpt_word(line, p))' 'state_at(place ? place : ckpt_word(line, p))' &&
        explains_wrong "asks as if one alone had failed" 'ckpt_grounds(table, sizeof table, area, sizeof area, failed)' \
            'ckpt_grounds(table, sizeof table, area, sizeof area, failed & -failed)' &&
        explains_wrong "leaves out who failed" '"failed and " : ""' '"" : ""' &&
        told_wrong "counts places from 0" 'if (ckpt_word(area, 2*p) == 2) put_word(area, 2*p+1, ckpt_word(area, 2*p+1) - 1)' &&
        told_wrong "is told 1 of all that failed" 'if (mask >> p & 1) put_word(area, 2*p, 1)' &&
        told_wrong "is told 2 of all that failed" 'if (ckpt_word(area, 2*p) == 1) put_word(area, 2*p, 2), put_word(area, 2*p+1, 1)' &&
        told_wrong "is told that all stay" 'put_word(area, 2*p, 0)'
}

# the examples and the header's checks in hosts under sanitizers; no leak check, which needs rights that not every machine gives
sanitized_hosts() {
    local name
    local -x ASAN_OPTIONS=detect_leaks=0
    for name in examples/worked examples/host tests/c/header; do
        host_of "$name.c" "$made/sanitized" "${sanitized[@]}" && "$made/sanitized" >"$made/sanitized.out" || return 1
        [ "$name" != examples/host ] || "$made/sanitized" --explain >"$made/sanitized.out" || return 1
    done
}
