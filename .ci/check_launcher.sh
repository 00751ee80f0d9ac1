# shellcheck shell=bash disable=SC2154
# Sourced by .ci/checks: the launcher. How it decides what to run is tried on a small tree with an `rt` that only writes what
# it is asked.

compiles_a_sample() {
    cp samples/cube.map "$folder/" || return 1
    (cd "$folder" && "$top/qmapc" compile cube.map cube.tree >printed) || return 1
    printf 'no entity\nbrushes 1\nflat 0\nplanes 6\nnodes 6\nleaves 7\nnumbered 6\nfilled 0\nportals 12\nseen 34\n' | cmp - "$folder/printed" || return 1
    [[ $(stat -c %s "$folder/cube.tree") == 330 ]]
}

runs_through_links() {
    mkdir -p "$folder/a folder/deep"
    ln -sf "$top/qmapc" "$folder/a folder/first"
    ln -sf ../first "$folder/a folder/deep/second"
    (cd "$folder" && "a folder/first" compile cube.map first.tree >printed) || return 1
    cmp "$folder/cube.tree" "$folder/first.tree" || return 1
    (cd "$folder/a folder/deep" && ./second compile ../../cube.map second.tree >printed) || return 1
    cmp "$folder/cube.tree" "$folder/a folder/deep/second.tree" || return 1
    (cd "$folder" && PATH="$folder/a folder:$PATH" first compile cube.map third.tree >printed) || return 1
    cmp "$folder/cube.tree" "$folder/third.tree"
}

# a tree with the launcher and five crates, of which the program stands on three, and an `rt` that keeps what it proved and
# builds a program which prints its own name and its words
small="$folder/small"
make_a_small_tree() {
    local crate
    rm -rf "$small" "$folder/cache" "$folder/kept"
    mkdir -p "$small/.ci" "$small/tools" "$folder/bin" "$folder/kept"
    cp qmapc CHANGELOG.md "$small/" && cp .ci/{program,chosen.sh,built.sh,building.sh} "$small/.ci/" || return 1
    cp tools/{prove,release} "$small/tools/" || return 1
    printf '%s\n' 'low: kit' 'beside:' 'other: low' 'near: low beside' 'qmapc: near # the program' >"$small/crates.txt"
    for crate in low beside other near qmapc; do
        mkdir -p "$small/crates/$crate/src" "$small/crates/$crate/must-fail"
        echo 'one' >"$small/crates/$crate/src/main.rt"
    done
    echo 'a word' >"$small/crates/qmapc/args"
    echo 'kit one' >"$folder/version"
    cat >"$folder/bin/rt" <<END
#!/bin/bash
kept() { echo "$folder/kept/\$1-\$(sha256sum <crates/\$1/src/main.rt | cut -c 1-16)"; }
case "\$*" in
version) cat "$folder/version" ;;
ci)
    [[ ! -e crates/other && ! -e crates/low/must-fail && -e crates/qmapc/args ]] || exit 2
    for crate in low beside near qmapc; do
        if [[ -e \$(kept \$crate) ]]; then
            echo "rt: \$crate is kept: an earlier run on this machine proved the same files"
            continue
        fi
        printf '== %s\nwhat the prover says of %s\n' \$crate \$crate
        if grep -q wrong crates/\$crate/src/main.rt; then
            printf 'rt: %s NOT PROVED\n0 passed, 1 failed\n' \$crate
            exit 1
        fi
        echo "rt: \$crate proved"
        echo \$crate >>"$folder/proved"
        : >"\$(kept \$crate)"
        while [[ -e $folder/slow ]]; do sleep 0.1; done
    done
    echo built >>"$folder/builds"
    mkdir -p crates/qmapc/out
    printf '#!/bin/sh\n[ \$# != 0 ] || exit 2\necho "\${0##*/}: \$*"\n' >crates/qmapc/out/qmapc
    chmod +x crates/qmapc/out/qmapc
    if [[ -e $folder/prints_more ]]; then
        printf 'what the program printed\n0 passed, 1 failed\n'
        exit 1
    fi
    ;;
esac
END
    chmod +x "$folder/bin/rt"
    : >"$folder/builds"
    : >"$folder/proved"
}

# a tool of the small tree
in_small() { # in_small TOOL WORDS..
    PATH="$folder/bin:$PATH" XDG_CACHE_HOME="$folder/cache" "$small/tools/$1" "${@:2}" >"$folder/printed" 2>"$folder/said"
}

# a small tree with a release of its sources, and with nothing that was built in it
make_a_small_release() {
    make_a_small_tree && in_small prove && in_small release && rm -rf "$small/crates/qmapc/out" && : >"$folder/builds"
}

launch() {
    PATH="$folder/bin:$PATH" XDG_CACHE_HOME="$folder/cache" "$small/qmapc" "$@" >"$folder/printed" 2>"$folder/said"
}

# the launcher, with these commands alone
launch_with() { # launch_with COMMAND..
    local command
    rm -rf "$folder/plain" && mkdir "$folder/plain" || return
    for command in "$@"; do
        ln -s "$(command -v "$command")" "$folder/plain/$command" || return
    done
    PATH="$folder/plain" XDG_CACHE_HOME="${cache-"$folder/cache"}" HOME='' "$small/qmapc" a b >"$folder/printed" 2>"$folder/said"
}

# with what the launcher calls to choose, and no rt
launch_without_rt() {
    launch_with awk bash find mkdir mv rm sha256sum sort uname xargs
}

# with what it takes to see that nothing has changed
launch_as_before() {
    launch_with bash find sha256sum
}

has_built() { # has_built TIMES
    [[ $(wc -l <"$folder/builds") == "$1" ]]
}

# the launcher said nothing and ran the program that was built here, qmapc, or the released one
has_run() { # has_run NAME
    [[ $(<"$folder/printed") == "$1: a b" && ! -s $folder/said ]]
}

# calls the launcher until it keeps what it chose, which it does once each file is older than two seconds
keep_what_is_chosen() { # keep_what_is_chosen FILE
    local time
    rm -f "$1"
    for time in {1..10}; do
        launch_without_rt || return
        [[ ! -e $1 ]] || return 0
        sleep 1
    done
    echo "after $time calls nothing is kept in $1"
    return 1
}

# changes the first byte, and neither the size nor the time
change_a_byte() { # change_a_byte FILE
    local time
    time=$(stat -c %y "$1") && printf x | dd of="$1" conv=notrunc status=none && touch -d "$time" "$1" && [[ $(stat -c %y "$1") == "$time" ]]
}

builds_where_something_changed() {
    make_a_small_tree || return 1
    launch two 'words each' && has_built 1 && [[ $(<"$folder/printed") == 'qmapc: two words each' ]] || return 1
    grep -q 'there is no released program' "$folder/said" && grep -q 'proving and building' "$folder/said" || return 1
    launch a b && has_built 1 && has_run qmapc || return 1
    local name count=1
    for name in crates/qmapc/src/main.rt crates/near/specs/Lib.antt crates/low/proofs/Lib.antt HANDLES; do
        mkdir -p "$(dirname "$small/$name")"
        # a file that is new, is another one, and is gone
        echo 'new' >"$small/$name"
        launch a b && has_built $((count + 1)) && grep -q 'proving and building' "$folder/said" || return 1
        echo 'two' >"$small/$name"
        launch a b && has_built $((count + 2)) || return 1
        rm "$small/$name"
        launch a b && has_built $((count + 3)) || return 1
        count=$((count + 3))
    done
    # what the program stands on
    sed -i 's/near: low beside/near: beside low/' "$small/crates.txt"
    launch a b && has_built $((count += 1)) || return 1
    # a crate on which the program does not stand
    echo 'two' >"$small/crates/other/src/main.rt"
    launch a b && has_built $count && has_run qmapc || return 1
    # what an earlier version of the toolchain has proved is proved
    echo 'kit two' >"$folder/version"
    launch a b && has_built $count && has_run qmapc || return 1
    # a program that was put there by other means
    echo 'exit 0' >>"$small/crates/qmapc/out/qmapc"
    launch a b && has_built $((count + 1))
}

# what changed a moment ago may change again without another time
keeps_nothing_too_early() {
    (. .ci/chosen.sh && is_settled $'97.9 1 1 a\n99.9 1 1 b' 102 && ! is_settled $'97.9 1 1 a\n100.1 1 1 b\n98.5 1 1 c' 102)
}

# while nothing has changed no file is read; and a byte that changed is noticed, though the time was set back
looks_only_at_what_changed() {
    local kept file
    for file in crates/low/src/main.rt release/qmapc-x86_64-linux; do
        make_a_small_release || return 1
        kept="$small/crates/qmapc/out/chosen"
        keep_what_is_chosen "$kept" && launch_as_before && has_run qmapc-x86_64-linux || return 1
        change_a_byte "$small/$file" && ! launch_as_before && launch a b && has_built 1 || return 1
    done
    # the same of the program that was built
    keep_what_is_chosen "$kept" && launch_as_before && has_run qmapc || return 1
    change_a_byte "$small/crates/qmapc/out/qmapc" && ! launch_as_before && launch a b && has_built 2 || return 1
    # a file that is as it was, and has another time
    keep_what_is_chosen "$kept" && touch "$small/crates/low/src/main.rt" && ! launch_as_before || return 1
    launch a b && has_built 2 && has_run qmapc || return 1
    # another file of the same name
    keep_what_is_chosen "$kept" && mv "$small/crates/low/src/main.rt" "$folder/main.rt" && cp -p "$folder/main.rt" "$small/crates/low/src/" || return 1
    ! launch_as_before && launch a b && has_built 2 && has_run qmapc
}

runs_the_release() {
    make_a_small_release || return 1
    launch_without_rt && has_run qmapc-x86_64-linux && launch a b && has_built 0 && has_run qmapc-x86_64-linux || return 1
    # a program that was proved here goes before it, by another toolchain too
    echo 'kit two' >"$folder/version"
    in_small prove && has_built 1 && launch a b && has_run qmapc || return 1
    in_small prove && has_built 2 || return 1
    # what was built is of other sources, and the release is of these
    echo 'two' >"$small/crates/near/src/main.rt"
    launch a b && has_built 3 || return 1
    echo 'one' >"$small/crates/near/src/main.rt"
    launch a b && has_built 3 && has_run qmapc-x86_64-linux
}

# it says why the release will not do; and then builds, or ends where there is no rt
refuses_the_release() { # refuses_the_release WORDS
    fails_with_words "$1.*not on the PATH" launch_without_rt || return 1
    launch a b && has_built 1 && grep -q "^qmapc: .*$1" "$folder/said" && [[ $(<"$folder/printed") == 'qmapc: a b' ]]
}

refuses_a_release_that_will_not_do() {
    local released="$small/release/qmapc-x86_64-linux"
    make_a_small_release && echo 'two' >"$small/crates/near/src/main.rt" || return 1
    refuses_the_release 'the sources have changed since the release' || return 1
    make_a_small_release && change_a_byte "$released" || return 1
    refuses_the_release 'not the file that release/BUILT names' || return 1
    make_a_small_release && : >"$released" || return 1
    refuses_the_release 'not the file that release/BUILT names' || return 1
    make_a_small_release && rm "$small/release/BUILT" || return 1
    refuses_the_release 'there is no released program' || return 1
    # where the loader of the program is missing
    make_a_small_release && printf '#!/no/such/loader\n' >"$released" || return 1
    sed -i "s/^program .*/program $(sha256sum <"$released" | cut -d ' ' -f 1)/" "$small/release/BUILT"
    refuses_the_release 'does not run on this machine'
}

refuses_the_release_on_another_machine() {
    local machine
    for machine in 'Linux aarch64' 'Darwin x86_64'; do
        make_a_small_release || return 1
        printf '#!/bin/sh\necho %s\n' "$machine" >"$folder/bin/uname"
        chmod +x "$folder/bin/uname"
        launch a b && has_built 1 && grep -q 'does not run on this machine: it needs Linux on x86-64' "$folder/said" || return 1
        rm "$folder/bin/uname"
    done
    # what one kind of machine has kept another does not take
    make_a_small_release && keep_what_is_chosen "$small/crates/qmapc/out/chosen" && launch_as_before || return 1
    sed -i '1s/ [^ ]* / other /' "$small/crates/qmapc/out/chosen"
    ! launch_as_before && launch_without_rt && has_run qmapc-x86_64-linux
}

# where nothing can be written beside the sources, what is chosen is kept in the user's own folder, or not at all
runs_where_nothing_can_be_written() {
    local cache
    make_a_small_release || return 1
    # a file where the folder should be, since not everybody is stopped by what may be written
    : >"$small/crates/qmapc/out"
    chmod -R a-w "$small"
    keep_what_is_chosen "$folder/cache/qmapc/chosen${small//\//%}" && launch_as_before && has_run qmapc-x86_64-linux || return 1
    for cache in '' /dev/null/none; do
        ! launch_as_before && launch_without_rt && has_run qmapc-x86_64-linux || return 1
    done
    chmod -R u+w "$small"
}

# ends with 1 and a word, and nothing on the standard output
fails_with_words() { # fails_with_words WORDS COMMAND..
    local words=$1 status=0
    shift
    "$@" || status=$?
    [[ $status == 1 && ! -s $folder/printed ]] && grep -q "^qmapc: .*$words" "$folder/said"
}

launch_alone() {
    mkdir -p "$folder/alone"
    cp qmapc "$folder/alone/"
    "$folder/alone/qmapc" compile a b >"$folder/printed" 2>"$folder/said"
}

tells_how_far_it_is() {
    make_a_small_tree || return 1
    launch again && [[ $(grep -o '[1-9] of 4 crates$' "$folder/said" | tr '\n' ' ') == '1 of 4 crates 2 of 4 crates 3 of 4 crates 4 of 4 crates ' ]]
}

# what an earlier build proved the toolchain keeps for the next one, also where the earlier one was interrupted
goes_on_where_it_was() {
    make_a_small_tree || return 1
    touch "$folder/slow"
    : >"$folder/said"
    PATH="$folder/bin:$PATH" XDG_CACHE_HOME="$folder/cache" "$small/qmapc" again >"$folder/printed" 2>"$folder/said" &
    for _ in {1..600}; do
        ! grep -qs '1 of 4 crates' "$folder/said" || break
        sleep 0.1
    done
    kill -TERM $! && ! wait $! || return 1
    rm "$folder/slow"
    sleep 1
    # what proved was stopped too
    [[ ! -e $small/crates/qmapc/out/qmapc ]] && has_built 0 && [[ $(<"$folder/proved") == low ]] || return 1
    launch a b && has_built 1 && [[ $(<"$folder/printed") == 'qmapc: a b' ]] || return 1
    grep -q '4 of 4 crates' "$folder/said" && [[ $(tr '\n' ' ' <"$folder/proved") == 'low beside near qmapc ' ]]
}

says_why_it_fails() {
    local wrong
    for wrong in qmapc near beside; do
        make_a_small_tree || return 1
        echo 'wrong' >"$small/crates/$wrong/src/main.rt"
        fails_with_words 'was not proved' launch again && has_built 0 || return 1
        grep -q "^what the prover says of $wrong" "$folder/said" && ! grep -q 'of low' "$folder/said" || return 1
    done
    make_a_small_tree || return 1
    touch "$folder/prints_more"
    fails_with_words 'was not proved' launch again && grep -q '^what the program printed' "$folder/said" || return 1
    [[ ! -e $small/crates/qmapc/out/qmapc ]] || return 1
    rm "$folder/prints_more"
    fails_with_words 'not on the PATH' launch_without_rt || return 1
    launch again && launch_without_rt && has_run qmapc || return 1
    fails_with_words 'do not stand beside the launcher' launch_alone
}

check "the launcher compiles samples/cube.map" compiles_a_sample
check "the launcher runs through symbolic links" runs_through_links
check "the launcher builds exactly where the sources or the program changed" builds_where_something_changed
check "the launcher reads files again where one changed, and only there" looks_only_at_what_changed
check "the launcher keeps nothing that is younger than two seconds" keeps_nothing_too_early
check "the launcher runs the release where nothing was built" runs_the_release
check "the launcher says why a release will not do" refuses_a_release_that_will_not_do
check "the launcher runs the release on its own kind of machine alone" refuses_the_release_on_another_machine
check "the launcher runs where nothing can be written" runs_where_nothing_can_be_written
check "the launcher tells how far it is" tells_how_far_it_is
check "a build that is interrupted goes on where it was" goes_on_where_it_was
check "the launcher says why it fails" says_why_it_fails
