#!/usr/bin/env bash
# Runs the program with these arguments, this input and its own status. Where there is no program, or
# it was built from other sources, it is built first: every crate that it stands on is proved on the
# way. With --unproved before the arguments of a script it is compiled and run at once, with checks in
# place of proofs. `package` makes packages of it, in the folder that is named behind it, or in package/.
set -euo pipefail
here=$(cd "$(dirname "${BASH_SOURCE[0]}")" && pwd)
folder=$here/crates/jsp_program
program=$folder/out/jsp_program
built_from=$folder/out/built_from

find_sources() {
    (cd "$here" && find crates.txt crates -name out -prune -o -type f \( -name '*.rt' -o -name '*.antt' \
        -o -name crates.txt \) "$@")
}

# One checksum of the program and of all that it is built from.
sum_up() {
    (cd "$here" && { find_sources -print0 | LC_ALL=C sort -z | xargs -0 sha256sum; sha256sum <"$program"; } | sha256sum)
}

# Times tell in a moment where no source is newer. In a checkout that was copied they tell nothing, so the checksum is
# noted where they do, and compared where they don't.
is_old() {
    [ -x "$program" ] || return 0
    if [ -z "$(find_sources -newer "$program" -print -quit)" ]; then
        [ "$built_from" -nt "$program" ] || sum_up >"$built_from"
        return 1
    fi
    [ "$(sum_up)" = "$(cat "$built_from" 2>/dev/null)" ] || return 0
    touch "$program" "$built_from"
    return 1
}

build() {
    echo "jsp: the program is proved and built: up to an hour and a half the first time, on four processors" >&2
    if ! "$here/build"; then
        echo "jsp: not built ($here/build.log)" >&2
        exit 1
    fi
    touch "$program"
}

# What the compiler itself says of a run that came to its end is left out.
run_unproved() {
    echo "jsp: nothing is proved of this run: the program is compiled with checks, which takes two or three minutes" >&2
    local said status=0
    said=$(mktemp)
    (cd "$folder" && rt try -- "$@") 2>"$said" || status=$?
    if grep -q '^run=ended ' "$said"; then
        grep -v '^checked: \|^races: \|^run=\|^interpreter: ' "$said" >&2 || true
    else
        cat "$said" >&2
    fi
    rm "$said"
    exit "$status"
}

if [ "${1:-}" = --unproved ]; then
    shift
    # The compiler ends such a run after a minute and shows what it prints at its end, so it is no server.
    if [ "${1:-}" != script ]; then
        echo 'jsp: only a script can be run unproved' >&2
        exit 2
    fi
    run_unproved "$@"
fi
if [ "${1:-}" = package ] && [ $# -gt 2 ]; then
    echo 'jsp: package takes one folder, or none for package/' >&2
    exit 2
fi
if is_old; then build; fi
if [ "${1:-}" = package ]; then
    exec python3 -B "$here/packaging/make.py" "$program" "${2:-$here/package}"
fi
exec "$program" "$@"
