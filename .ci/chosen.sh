# shellcheck shell=bash disable=SC2154
# Which program the launcher runs, to be sourced with `top` and `stop` set: the one that was built here from these sources,
# or else the released one, if it is of these sources and runs on this machine. The choice is kept, with the checksum of a list
# of all files that it depends on, each with its size and the time of its last change: while that stays the same, it takes one
# call of `find` to choose, and no file is read.

# where the choice is kept: beside the program, or in the user's own folder if nothing can be written there
choice_files() {
    local cache=${XDG_CACHE_HOME:-${HOME:-}/.cache}
    kept_in=("$top/crates/qmapc/out/chosen")
    [[ $cache != /* || $cache == /.cache ]] || kept_in+=("$cache/qmapc/chosen${top//\//%}")
}

# prints a line for each of these files, and for each file in these folders, and ends the shell that it is called in. The time
# is that of the last change of anything about the file, which no command sets back
list_files() { # list_files NAMES
    set -f
    cd "$top" || exit
    # shellcheck disable=SC2086  # the names
    LC_ALL=C exec find -L $1 -type f -printf '%C@ %s %i %p\n' 2>/dev/null
}

# the names of what the choice depends on
names_of_choice() {
    local folders
    folders=$(source_folders)
    echo crates.txt HANDLES .ci/chosen.sh .ci/built.sh release crates/qmapc/out/qmapc crates/qmapc/out/built-from "${folders//$'\n'/ }"
}

# takes the choice that was kept, if each file is as it was
take_kept_choice() {
    local file choice machine listed names
    for file in "${kept_in[@]}"; do
        [[ -f $file && -r $file ]] || continue
        {
            read -r choice machine
            read -r listed
            read -r names
        } <"$file" || continue
        [[ $machine == "$HOSTTYPE $OSTYPE" && $(list_files "$names" | sha256sum) == "$listed" ]] || continue
        chosen=$top/$choice
        return
    done
    return 1
}

# whether each file was changed two seconds before a time at the latest: one that changes once more within the same tick of
# the clock would look the same
is_settled() { # is_settled LISTING TIME
    printf '%s\n' "$1" | awk -v latest=$(($2 - 2)) '$1 > latest { late = 1 } END { exit late }'
}

# keeps the choice for the next call, if it can be kept
keep_choice() { # keep_choice NAMES LISTING
    local file listed
    listed=$(printf '%s\n' "$2" | sha256sum)
    for file in "${kept_in[@]}"; do
        {
            mkdir -p "${file%/*}" &&
                printf '%s %s %s\n%s\n%s\n' "${chosen#"$top/"}" "$HOSTTYPE" "$OSTYPE" "$listed" "$1" >"$file.$$" &&
                mv -f "$file.$$" "$file"
        } 2>/dev/null && return
        rm -f "$file.$$"
    done
    return 0
}

# whether the released program runs on this machine: without words it prints its usage line, and ends with 2
runs_here() {
    local status=0
    [[ $(uname -sm) == "Linux x86_64" ]] || return
    "$released" >/dev/null 2>&1 || status=$?
    [[ $status == 2 ]]
}

# sets `chosen` to the program of these sources; if there is none, ends with 1, and `unfit` says why
choose_program() {
    local begun names listing
    choice_files
    ! take_kept_choice || return 0
    # shellcheck source=.ci/built.sh
    . "$top/.ci/built.sh"
    printf -v begun '%(%s)T' -1
    names=$(names_of_choice)
    # find ends with 1 if one of the files is not there
    listing=$(list_files "$names") || true
    now=$(sources) || stop "the sources in $top cannot be read"
    if is_built_from "$now"; then
        chosen=$program
    elif unfit=$(release_fault "$now") && [[ -n $unfit ]]; then
        return 1
    elif ! runs_here; then
        unfit="the released program does not run on this machine: it needs Linux on x86-64-v2 with glibc 2.34 or later"
        return 1
    else
        chosen=$released
    fi
    [[ -z $listing ]] || ! is_settled "$listing" "$begun" || keep_choice "$names" "$listing"
}

# the same, and if there is none, the program is proved and built
choose_or_build() {
    ! choose_program || return 0
    command -v rt >/dev/null ||
        stop "$unfit; and the Rattle toolchain's command rt, which proves and builds the program, is not on the PATH"
    echo "qmapc: $unfit" >&2
    echo "qmapc: proving and building the program; the first time takes half an hour on four processors, and can be interrupted" >&2
    # shellcheck source=.ci/building.sh
    . "$top/.ci/building.sh"
    build_program "$now"
    chosen=$program
}
