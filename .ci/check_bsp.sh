# shellcheck shell=bash disable=SC2154
# Sourced by .ci/checks, behind check_tools.sh and check_levels.sh: levels for engines, read by a reader of the checks' own.

# makes NAME.bsp and NAME-wide.bsp of NAME.map and NAME.tree
makes_levels() { # makes_levels NAME WORD..
    local name=$1
    shift
    "$top/tools/qmbsp" "$folder/$name.map" "$folder/$name.tree" "$folder/$name.bsp" --bsp29 "$@" >"$folder/printed" 2>"$folder/said" &&
        "$top/tools/qmbsp" "$folder/$name.map" "$folder/$name.tree" "$folder/$name-wide.bsp" --bsp2 "$@" >>"$folder/printed" 2>>"$folder/said"
}

holds_level() { # holds_level NAME WORD..
    python3 .ci/check_bsp.py "$folder/$1.map" "$folder/$1.tree" "$folder/$1.bsp" "$folder/$1-wide.bsp" "${@:2}"
}

holds_levels_of_samples() {
    local name
    # brushes of layers and groups are the world's only then
    look world gatehouse.map --out grouped.map
    [[ $status == 0 ]] || return 1
    run_program compile grouped.map grouped.tree --fast
    [[ $status == 0 ]] || return 1
    for name in cube hole room rooms rooms8 courtyard courtyard_leak grouped; do
        makes_levels $name && holds_level $name || return 1
    done
}

# one with slanted brushes of all contents and with textures that lie in many ways, and one of many rooms
holds_made_levels() {
    local name
    python3 .ci/made_levels.py 3 14 | awk '
        BEGIN { count = split("8 -16 90 1 1;3 5 0 0.5 2;0 0 30 1 -1;[ 1 0 0 8 ] [ 0 -1 0 -5 ] 0 1 1;-7 0 180 0 1.25;" \
                              "[ 0 1 0 0 ] [ 0 0 -1 3 ] 45 0.5 2", ways, ";") }
        { sub(/0 0 0 1 1$/, ways[1 + NR % count]) } { print }' >"$folder/turned.map"
    python3 .ci/made_rooms.py 24 27182818284 >"$folder/many.map"
    for name in turned many; do
        run_program compile $name.map $name.tree --fast
        [[ $status == 0 ]] && makes_levels $name && holds_level $name || return 1
    done
    makes_levels turned --texels 496 && holds_level turned --texels 512
}

# the check itself has to find what is wrong
finds_planted_faults() {
    holds_level rooms8 --plant || return 1
    python3 .ci/check_bsp.py "$folder/rooms.map" "$folder/rooms8.tree" "$folder/rooms8.bsp" >"$folder/said" 2>&1 && return 1
    ! python3 .ci/check_bsp.py "$folder/rooms8.map" "$folder/rooms.tree" "$folder/rooms8.bsp" >"$folder/said" 2>&1
}

check "levels: those of the samples are what their trees and maps say" holds_levels_of_samples
check "levels: made ones are what their trees and maps say" holds_made_levels
check "levels: what is planted in one is found" finds_planted_faults
