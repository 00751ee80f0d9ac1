# shellcheck shell=bash disable=SC2154
# How the program is proved and built, to be sourced with `top` and `stop` set and after built.sh. The gate of the
# toolchain proves the crates of a folder side by side, those with the longest chain of others behind them first, and
# keeps each that is proved by what it was proved from: a build that was interrupted goes on where it was, and the gate
# of the whole repository takes what was proved here. It also tries edits, and wants no second copy below the sources. So
# the crates of the program are copied without edits to a folder of the user's own, and the program is taken from there.

# the folder for these sources; nothing is lost but time where it is removed
build_folder() {
    local cache=${XDG_CACHE_HOME:-${HOME:-}/.cache}
    [[ $cache == /* && $cache != /.cache ]] || return 1
    echo "$cache/qmapc/$(sha256sum <<<"$top" | cut -c 1-16)"
}

# the same sources below the folder, with what the program is tried on, and nothing else
copy_sources() { # copy_sources FOLDER
    local to=$1 name part
    rm -rf "$to/crates" "$to/HANDLES" && mkdir -p "$to/crates" || return
    crates_of_program >"$to/crates.txt" || return
    [[ -s $to/crates.txt ]] || return
    if [[ -f $top/HANDLES ]]; then cp "$top/HANDLES" "$to/" || return; fi
    while IFS=': ' read -r name _; do
        mkdir -p "$to/crates/$name" || return
        for part in src specs proofs args stdin stdout status data; do
            if [[ -e $top/crates/$name/$part ]]; then
                cp -R "$top/crates/$name/$part" "$to/crates/$name/" || return
            fi
        done
    done <"$to/crates.txt"
}

# Proves the crates and builds the program in the folder, and says how far it is; what is printed goes to its log. No
# program is left where it is not proved, or prints something else than it should.
prove_and_build() { # prove_and_build FOLDER
    local folder=$1 count done=0 line
    count=$(wc -l <"$folder/crates.txt")
    (cd "$folder" && exec rt ci 2>&1 </dev/null) | while IFS= read -r line; do
        printf '%s\n' "$line" >&3
        if [[ $line =~ ^"rt: "[a-z0-9_]+" "(proved|"is kept:") ]]; then
            done=$((done + 1))
            echo "qmapc: $done of $count crates" >&2
        fi
    done 3>"$folder/log" || rm -f "$folder/crates/qmapc/out/qmapc"
}

# runs a command in a process group of its own, which ends with this process where that is told to end, however soon
run_while_here() {
    trap 'end_group 130' INT
    trap 'end_group 143' HUP TERM
    set -m
    "$@" &
    set +m
    wait $! || true
    trap - INT HUP TERM
}

# ends the process group that was started last, if there is one, and this process
end_group() { # end_group STATUS
    [[ -z ${!-} ]] || kill -TERM -- "-$!" || true
    exit "$1"
}

# what was printed of each crate that was tried and not proved, and of the whole
tell_failure() { # tell_failure LOG
    awk '
        /^== / { inside = 1; said = "" }
        inside { said = said $0 "\n" }
        !inside && !/^rt: [a-z0-9_]+ (is kept:|NOT PROVED: its library)/ { print }
        /^rt: [a-z0-9_]+ (proved|NOT PROVED)$/ { if (/NOT PROVED$/) printf "%s", said; inside = 0 }
        END { if (inside) printf "%s", said }' "$1"
}

# makes the program of these sources: it is put in its place whole, or not at all, with a note of what it was built from
build_program() { # build_program SOURCES
    local folder toolchain
    toolchain=$(rt version) || stop "the Rattle toolchain's command rt, which proves and builds the program, is not on the PATH"
    folder=$(build_folder) || stop "no folder for the build: set HOME or XDG_CACHE_HOME"
    mkdir -p "$folder" "$(dirname "$program")" || stop "the folder $folder for the build cannot be made"
    exec 9>"$folder/lock"
    if ! flock -n 9; then
        echo "qmapc: another call builds the program; waiting for it" >&2
        flock 9
        is_built_from "$1" && return
    fi
    copy_sources "$folder" || stop "the sources cannot be copied to $folder"
    run_while_here prove_and_build "$folder"
    if [[ ! -x $folder/crates/qmapc/out/qmapc ]]; then
        tell_failure "$folder/log" >&2
        stop "the program was not proved, so it was not built"
    fi
    cp "$folder/crates/qmapc/out/qmapc" "$program.new" && mv "$program.new" "$program" ||
        stop "the program cannot be put at $program"
    note_built_from "$1" "$toolchain" || stop "what the program was built from cannot be noted in $built_from"
    exec 9>&-
}
