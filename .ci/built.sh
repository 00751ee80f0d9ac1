# shellcheck shell=bash disable=SC2154
# What is known of the two programs that there can be, to be sourced with `top` set: the one that was built here, which is
# never tracked, and the released one. Beside each stands a note of what it was built from: a line each for the checksum of
# its sources, the version of the toolchain, and the checksum of the program.
program=$top/crates/qmapc/out/qmapc
built_from=$top/crates/qmapc/out/built-from
released=$top/release/qmapc-x86_64-linux
release_note=$top/release/BUILT

# the lines of crates.txt for the program and all that it stands on
crates_of_program() {
    awk '
        { sub(/#.*/, "") }
        NF {
            name = $1
            sub(/:.*/, "", name)
            order[++count] = name
            line[name] = $0
            sub(/^[^:]*:/, "")
            below[name] = $0
        }
        function take(name, parts, number, at) {
            if (name in taken || !(name in line)) return
            taken[name] = 1
            number = split(below[name], parts, " ")
            for (at = 1; at <= number; at++) take(parts[at])
        }
        END {
            take("qmapc")
            for (at = 1; at <= count; at++) if (order[at] in taken) print line[order[at]]
        }' "$top/crates.txt"
}

# the folders of each crate's sources, definitions and proofs
source_folders() {
    local name
    crates_of_program | while IFS=': ' read -r name _; do
        echo "crates/$name/src crates/$name/specs crates/$name/proofs"
    done
}

# the checksum of what is read
checksum() {
    local sum
    sum=$(sha256sum) && echo "${sum%% *}"
}

# the checksum of what the program is built from: its crates, the handles, and each crate's sources, definitions and proofs
sources() {
    (
        set -f
        cd "$top" || return
        [[ -f crates.txt && -d crates ]] || return
        crates=$(crates_of_program) && folders=$(source_folders)
        [[ -n $crates ]] || return
        {
            sha256sum <<<"$crates"
            # shellcheck disable=SC2086  # the names of folders
            { find -L HANDLES $folders -type f -print0 2>/dev/null || true; } | LC_ALL=C sort -z | xargs -0 sha256sum
        } | checksum
    )
}

# what a note says under a name
noted() { # noted NOTE NAME
    local name value
    while read -r name value; do
        [[ $name != "$2" ]] || echo "$value"
    done <"$1"
}

# whether a program is the one of its note
is_noted() { # is_noted PROGRAM NOTE
    [[ -x $1 && $(noted "$2" program) == "$(checksum <"$1")" ]]
}

# whether a program was built here from these sources
is_built_from() { # is_built_from SOURCES
    [[ -f $program && -f $built_from && $(noted "$built_from" sources) == "$1" ]] && is_noted "$program" "$built_from"
}

note_built_from() { # note_built_from SOURCES TOOLCHAIN
    printf 'sources %s\ntoolchain %s\nprogram %s\n' "$1" "$2" "$(checksum <"$program")" >"$built_from"
}

# why the released program is not one of these sources; if it is, nothing is said
release_fault() { # release_fault SOURCES
    if [[ ! -f $released || ! -f $release_note ]]; then
        echo "there is no released program"
    elif [[ $(noted "$release_note" sources) != "$1" ]]; then
        echo "the sources have changed since the release"
    elif [[ ! -x $released ]]; then
        echo "the released program may not be executed, as by a copy that lost its modes: chmod +x $released"
    elif ! is_noted "$released" "$release_note"; then
        echo "the released program is not the file that release/BUILT names"
    fi
}

# the version of the product: the newest one of the change log
version() {
    awk '/^## \[[0-9]/ { gsub(/[][]/, "", $2); print $2; exit }' "$top/CHANGELOG.md"
}
