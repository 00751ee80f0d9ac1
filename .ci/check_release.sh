# shellcheck shell=bash disable=SC2154
# Sourced by .ci/checks, behind check_launcher.sh: the release, and what is installed.

has_a_release_of_these_sources() {
    tools/release --check
}

# where the toolchain is the one by which the release was proved, the program that was proved here is the same, byte by byte
releases_what_is_proved_here() {
    (
        . .ci/built.sh
        if ! is_built_from "$(sources)"; then
            echo "no program was proved here: none is compared with the released one"
        elif [[ $(noted "$built_from" toolchain) != "$(noted "$release_note" toolchain)" ]]; then
            echo "the release was proved by $(noted "$release_note" toolchain): the program that was proved here is not compared with it"
        elif ! cmp -s "$program" "$released"; then
            echo "the released program is not the one that was proved here: call tools/release, commit release/, and call .ci/run again"
            exit 1
        fi
    )
}

# a tool of the small tree ends with 1 and such a line, and prints nothing
refused_in_small() { # refused_in_small WORDS TOOL WORDS..
    local words=$1 status=0
    in_small "${@:2}" || status=$?
    [[ $status == 1 && ! -s $folder/printed ]] && grep -q "^release: .*$words.*tools/release, and commit release/$" "$folder/said"
}

releases_what_was_built_of_these_sources() {
    make_a_small_tree || return 1
    refused_in_small 'there is no released program' release --check && refused_in_small 'no program was built here' release || return 1
    in_small prove && echo 'two' >"$small/crates/near/src/main.rt" || return 1
    refused_in_small 'have changed since it was built' release && [[ ! -e $small/release ]] || return 1
    in_small prove && echo 'exit 0' >>"$small/crates/qmapc/out/qmapc" || return 1
    refused_in_small 'have changed since it was built' release && [[ ! -e $small/release ]] || return 1
    in_small prove && in_small release && in_small release --check || return 1
    cmp "$small/crates/qmapc/out/qmapc" "$small/release/qmapc-x86_64-linux" && [[ -x $small/release/qmapc-x86_64-linux ]] || return 1
    sed 's/[0-9a-f]\{64\}$/SUM/' "$small/release/BUILT" >"$folder/note"
    printf 'version %s\nsources SUM\ntoolchain kit one\nprogram SUM\n' "$(sed -n 's/^## \[\([0-9.]*\)\].*/\1/p' CHANGELOG.md | head -n 1)" | cmp - "$folder/note" || return 1
    local status=0
    in_small release --now || status=$?
    [[ $status == 2 ]] && grep -q '^usage: tools/release' "$folder/said"
}

# what the gate asks of a release, and it asks no rt
refuses_another_release() {
    make_a_small_release && in_small release --check || return 1
    change_a_byte "$small/crates/low/src/main.rt" && refused_in_small 'the sources have changed since the release' release --check || return 1
    make_a_small_release && change_a_byte "$small/release/qmapc-x86_64-linux" || return 1
    refused_in_small 'not the file that release/BUILT names' release --check || return 1
    make_a_small_release && chmod -x "$small/release/qmapc-x86_64-linux" || return 1
    refused_in_small 'may not be executed' release --check || return 1
    make_a_small_release && sed -i '0,/^## \[/s/^## \[/## [9./' "$small/CHANGELOG.md" || return 1
    refused_in_small 'another version than 9.' release --check || return 1
    make_a_small_release && rm "$folder/bin/rt" && in_small release --check
}

in_the_small_tree() {
    (top=$small && cd "$small" && "$@" >"$folder/printed")
}

compares_what_is_proved_here() {
    make_a_small_tree && in_small prove && in_small release || return 1
    in_the_small_tree releases_what_is_proved_here && [[ ! -s $folder/printed ]] || return 1
    # a release of these sources, and not of the program that they make
    echo 'exit 0' >>"$small/release/qmapc-x86_64-linux"
    sed -i "s/^program .*/program $(sha256sum <"$small/release/qmapc-x86_64-linux" | cut -d ' ' -f 1)/" "$small/release/BUILT"
    in_small release --check && ! in_the_small_tree releases_what_is_proved_here && grep -q 'call tools/release' "$folder/printed" || return 1
    # another toolchain may make another program
    sed -i 's/^toolchain .*/toolchain kit none/' "$small/release/BUILT"
    in_the_small_tree releases_what_is_proved_here && grep -q 'proved by kit none' "$folder/printed" || return 1
    rm -r "$small/crates/qmapc/out"
    in_the_small_tree releases_what_is_proved_here && grep -q 'no program was proved here' "$folder/printed"
}

# a tool that is called without words prints its usage line
prints_its_usage() { # prints_its_usage FILE
    local status=0
    "$1" >"$folder/printed" 2>"$folder/said" || status=$?
    [[ $status == 2 ]] && grep -q "^usage: ${1##*/}" "$folder/said"
}

# the program needs the C library alone, and it and each tool run where nothing else of the repository is
installs_what_runs_alone() {
    local name status=0
    tools/install "$folder/installed" >"$folder/printed" || return 1
    # what was there before makes room, and what it was linked to stays
    : >"$folder/installed/qmapc-tools/old.py"
    for name in qmapc tools/qmlook; do
        cp "$name" "$folder/linked" && ln -sf "$folder/linked" "$folder/installed/${name##*/}" || return 1
        tools/install "$folder/installed" >"$folder/printed" && cmp "$name" "$folder/linked" && [[ ! -L $folder/installed/${name##*/} ]] || return 1
    done
    [[ ! -e $folder/installed/qmapc-tools/old.py ]] || return 1
    mv "$folder/installed" "$folder/moved"
    (cd "$folder" && env -i "$folder/moved/qmapc" compile cube.map alone.tree >printed) && cmp "$folder/cube.tree" "$folder/alone.tree" || return 1
    "$folder/moved/qmlook" plan "$folder/alone.tree" >"$folder/alone.svg" && grep -q '^<svg' "$folder/alone.svg" || return 1
    # a tool finds the program in the folder above its own
    mkdir "$folder/by_qmbuild" && "$folder/moved/qmbuild" samples/room.map --out "$folder/by_qmbuild" >"$folder/printed" || return 1
    "$folder/moved/qmapc" compile samples/room.map "$folder/room_alone.tree" --fast >"$folder/printed" || return 1
    cmp "$folder/room_alone.tree" "$folder/by_qmbuild/room.tree" || return 1
    for name in tools/qm*; do
        [[ -x $name ]] || continue
        prints_its_usage "$folder/moved/${name##*/}" || return 1
    done
    [[ ! -e $folder/moved/install && ! -e $folder/moved/qmapc-tools/install && ! -e $folder/moved/qmapc-tools/release ]] || return 1
    [[ ! -e $folder/moved/qmapc-tools/manual ]] && cmp docs/qmapc.1 "$folder/moved/share/man/man1/qmapc.1" || return 1
    cmp tools/completion/qmapc "$folder/moved/qmapc-tools/completion/qmapc" || return 1
    ldd "$folder/moved/qmapc" >"$folder/needed" && ! grep -vE 'linux-vdso|/libc\.so|/ld-linux' "$folder/needed" || return 1
    for name in . tools; do
        ! tools/install "$name" >"$folder/printed" 2>"$folder/said" && grep -q 'where the sources are' "$folder/said" && bash -n qmapc && [[ ! -e tools/qmapc ]] || return 1
    done
    for name in '' --archives '--archive a b' 'a b'; do
        # shellcheck disable=SC2086  # the words of a command
        status=0 && tools/install $name 2>"$folder/said" || status=$?
        [[ $status == 2 ]] && grep -q '^install: usage' "$folder/said" || return 1
    done
}

# packed once and once more, unpacked elsewhere, and called as the pages say
packs_what_runs_alone() {
    local name
    name=qmapc-$(sed -n 's/^version //p' release/BUILT)-x86_64-linux
    tools/install --archive "$folder/packed" >"$folder/printed" && (cd "$folder" && "$top/tools/install" --archive >printed) || return 1
    cmp "$folder/packed/$name.tar.xz" "$folder/$name.tar.xz" || return 1
    (cd "$folder/packed" && sha256sum --quiet -c "$name.tar.xz.sha256" && tar -xf "$name.tar.xz") || return 1
    cmp release/qmapc-x86_64-linux "$folder/packed/$name/qmapc" || return 1
    (
        cd "$folder/packed/$name" && [[ -f LICENSE && -f README.md && -f CHANGELOG.md && -f BUILT && -f docs/EDITORS.md ]] || exit
        env -i ./qmapc compile samples/cube.map cube.tree >"$folder/printed" && cmp cube.tree "$folder/cube.tree" || exit
        tools/qmlook plan cube.tree | grep -q '^<svg' && [[ ! -e tools/install && ! -e tools/release && ! -e tools/prove ]]
    ) || return 1
    for name in "$folder/packed/$name"/tools/qm*; do
        [[ -x $name ]] || continue
        prints_its_usage "$name" || return 1
    done
}

check "the release is one of these sources" has_a_release_of_these_sources
check "the released program is the one that is proved here" releases_what_is_proved_here
check "a release takes what was proved of these sources alone" releases_what_was_built_of_these_sources
check "a release of other sources, a damaged one and one of another version are refused" refuses_another_release
check "a program that is proved here is compared with the released one" compares_what_is_proved_here
check "what is installed runs alone" installs_what_runs_alone
check_fully "what is packed runs alone" packs_what_runs_alone
