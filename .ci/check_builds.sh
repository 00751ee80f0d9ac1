# shellcheck shell=bash disable=SC2154
# Sourced by .ci/checks, behind check_tools.sh: `qmbuild`, on levels as an editor saves them. It is tried as it is installed, in a
# folder of its own beside the program, so that the launcher need not look at the sources each time.

builds=$folder/builds

# runs qmbuild in the folder; `status` is how it ended, the file `printed` has what it printed, and `said` what it said beside, but
# how long it takes, which hangs on the machine
build() {
    status=0
    (cd "$builds/levels" && ../tools/qmbuild "$@" >../printed 2>../said) || status=$?
    say_no_times
    # nothing is left behind
    [[ -z $(find "$builds" -name '.qmbuild*') ]] || status=left
}

say_no_times() {
    sed -i -E '/^qmbuild: ([a-zA-Z0-9. ]+,|took) [0-9]+ s$/d' "$builds/said"
}

# qmbuild ended so and printed exactly this
built() { # built STATUS LINES
    [[ $status == "$1" && $(<"$builds/printed") == "$2" ]] && return
    echo "ended with $status, printed: $(<"$builds/printed")"
    echo "and said: $(<"$builds/said")"
    return 1
}

# these are the files beside the levels
stand() { # stand NAMES
    [[ $(ls -A "$builds/levels") == "${1// /$'\n'}" ]] && return
    echo "there are" "$builds"/levels/*
    return 1
}

# the tools in a folder beside the program, and nothing but these samples beside them
begin_builds() { # begin_builds SAMPLES..
    local name
    rm -rf "$builds"
    mkdir -p "$builds/levels"
    cp -R tools "$builds/tools"
    ln -s "$program" "$builds/qmapc"
    for name in "$@"; do
        cp "samples/$name.map" "$builds/levels/"
    done
}

# the gatehouse without the brush of its sky, which stands on a layer
open_the_sky() {
    awk '/sky_day/ { sky = NR } { line[NR] = $0 } END { for (at = 1; at <= NR; at++) if (at < sky - 6 || at > sky + 1) print line[at] }' \
        samples/gatehouse.map >"$builds/levels/gatehouse.map"
}

builds_sealed_levels() {
    begin_builds courtyard gatehouse cube
    build courtyard.map
    built 0 $'sealed; 55 open leaves, each sees 30 on average\ntree: courtyard.tree' || return 1
    run_program compile courtyard.map fast.tree --fast
    cmp "$folder/fast.tree" "$builds/levels/courtyard.tree" || return 1
    build courtyard.map --full
    built 0 $'sealed; 55 open leaves, each sees 25 on average\ntree: courtyard.tree' || return 1
    cmp "$folder/courtyard.tree" "$builds/levels/courtyard.tree" || return 1
    build --threads 4 gatehouse.map --out .
    built 0 $'sealed; 69 open leaves, each sees 47 on average\ntree: gatehouse.tree' || return 1
    look world "$top/samples/gatehouse.map" --out merged.map
    run_program compile merged.map merged.tree --fast
    cmp "$folder/merged.tree" "$builds/levels/gatehouse.tree" || return 1
    build cube.map
    built 0 $'not sealed, since no entity stands in the open; 6 open leaves, each sees 6 on average\ntree: cube.tree' || return 1
    stand 'courtyard.map courtyard.tree cube.map cube.tree gatehouse.map gatehouse.tree'
}

# by the launcher of the repository, and from another folder
builds_in_the_repository() {
    begin_builds gatehouse
    mkdir "$builds/made"
    status=0
    (cd "$builds/levels" && "$top/tools/qmbuild" ./gatehouse.map --out "$builds/made" --name 'a gate' >../printed 2>../said) || status=$?
    built 0 "sealed; 69 open leaves, each sees 47 on average
tree: $builds/made/a gate.tree" && cmp "$folder/merged.tree" "$builds/made/a gate.tree" && stand gatehouse.map
}

# a leak is named, and its line stands beside the level until the level is sealed
finds_leaks_and_forgets_them() {
    local trail words='leak: the outside reaches info_player_start "in the yard" at -336 -64 24 (entity 7)'
    begin_builds gatehouse
    mkdir "$builds/made"
    open_the_sky
    sed -i 's/^"classname" "info_player_start"/&\n"targetname" "in the yard"/' "$builds/levels/gatehouse.map"
    build gatehouse.map --out ../made --lin
    trail=$(sed -n 's/^trail: //p' "$builds/printed")
    built 3 "$words
leak line: gatehouse.pts and gatehouse.lin
trail: $trail
tree: ../made/gatehouse.tree" && stand 'gatehouse.lin gatehouse.map gatehouse.pts' || return 1
    python3 .ci/check_points.py "$builds/made/gatehouse.tree" "$builds/levels/gatehouse.pts" "$trail" || return 1
    cmp "$builds/levels/gatehouse.pts" "$builds/levels/gatehouse.lin" || return 1
    cp samples/gatehouse.map "$builds/levels/"
    build gatehouse.map
    built 0 $'sealed; 69 open leaves, each sees 47 on average\ntree: gatehouse.tree' || return 1
    stand 'gatehouse.lin gatehouse.map gatehouse.tree' || return 1
    build gatehouse.map --lin
    stand 'gatehouse.map gatehouse.tree'
}

# the gatehouse with a change in one line is refused so, with a mark behind a part of that line; nothing is written
refuses_a_change() { # refuses_a_change LINE CHANGE FAULT BEFORE MARK
    local line
    sed "$1$2" samples/gatehouse.map >"$builds/levels/gatehouse.map"
    line=$(sed -n "$1p" "$builds/levels/gatehouse.map" | tr '\t' ' ')
    [[ ${line:0:${#4}} == "$4" && ${line:${#4}:${#5}} == "$5" ]] || return 1
    build gatehouse.map
    built 4 "gatehouse.map:$1: fault $3
$line
${4//?/ }${5//?/^}" && stand gatehouse.map
}

# lines and marks are those of the level as it is saved, whose group Towers begins in line 163
marks_each_fault() {
    local line change fault before mark
    begin_builds gatehouse
    while IFS='|' read -r line change fault before mark; do
        refuses_a_change "$line" "$change" "$fault" "$before" "$mark" || return 1
    done <<'END'
172|s/-56 0/-56.0005 0/|6: fraction|( 24 -88 0 ) ( 24 -88 224 ) ( -8 |-56.0005
172|s/88 224/2e2 224/|5: bad number|( 24 -88 0 ) ( 24 |-2e2
172|s/88 224/88 -32768.001/|7: coordinate out of range|( 24 -88 0 ) ( 24 -88 |-32768.001
172|s/-8 -56 0/24 -88 -7.5/|8: no normal|( 24 -88 0 ) ( 24 -88 224 ) ( 24 -88 -7.5 |)
172|s/88 224 ) ( -8 -56/88.001 9999 ) ( -9999 -56/|12: plane too fine|( 24 -88 0 ) ( 24 -88.001 9999 ) ( -9999 -56 0 |)
172|s/224 )/224/|3: unexpected|( 24 -88 0 ) ( 24 -88 224 |(
172|s/$/ 0/|3: unexpected|( 24 -88 0 ) ( 24 -88 224 ) ( -8 -56 0 ) stone_wall [ 1 0 0 0 ] [ 0 0 -1 0 ] 0 1 1 |0
172|s/^/\t  "/|3: unexpected|   |"( 24 -88 0 ) ( 24 -88 224 ) ( -8 -56 0 ) stone_wall [ 1 0 0 0 ] [ 0 0 -1 0 ] 0 1 1
169|s/.*/ { }/|9: no faces| { |}
345|s/-64 24/-64/|10: bad origin|"origin" |"-336 -64"
END
    # where no token is refused, nothing is marked
    head -n 171 samples/gatehouse.map >"$builds/levels/gatehouse.map"
    build gatehouse.map
    built 4 'gatehouse.map:172: fault 4: end inside' || return 1
    printf '%s' "$(head -n 166 samples/gatehouse.map | head -c -2)" >"$builds/levels/gatehouse.map"
    build gatehouse.map
    built 4 $'gatehouse.map:166: fault 2: quote not closed\n"_tb_name" "Towers\n           ^' || return 1
    : >"$builds/levels/gatehouse.map"
    build gatehouse.map
    built 4 'gatehouse.map:1: fault 11: no entity' || return 1
    truncate -s 67108865 "$builds/levels/gatehouse.map"
    build gatehouse.map
    built 4 'gatehouse.map:1: fault 1: text too long' && stand gatehouse.map
}

# of a long line a part is shown, and a letter of several bytes, or one that is none, has one place
marks_in_long_lines() {
    begin_builds
    printf '{ "%0300d" "\xc3\xa9\xff\t" x %0300d' 0 0 >"$builds/levels/long.map"
    build long.map
    built 4 "long.map:1: fault 3: unexpected
$(printf '%071d' 0)\" \"é� \" x $(printf '%078d' 0)
$(printf '%79s' '')^" || return 1
    # what is too long to be read as a number has no mark
    printf '{ { ( 0 0 %09999d1.0001 ) ( 0 0 1 ) ( 0 1 0 ) x 0 0 0 1 1 } }' 0 >"$builds/levels/long.map"
    build long.map --all --mend
    built 4 "long.map:1: fault 6: fraction
{ { ( 0 0 $(printf '%0190d' 0)" || return 1
    [[ $(<"$builds/said") == 'qmbuild: not all faces could be read: line 1: no three points of a face stand there' ]]
}

# each face that is refused is listed as qmlook lists them, behind a first fault of another kind
lists_all_faces_of_a_level() {
    begin_builds
    sed '172s/-56 0/-56.0005 0/; 173s/224/2e2/; 174s/224/99999/; 175s/-88 224/-88 0/; 176s/-136 224 ) ( -56/-136.001 9999 ) ( -9999/' samples/gatehouse.map \
        >"$builds/levels/spoiled.map"
    build spoiled.map --all
    [[ $status == 4 ]] && sed -n 's/^spoiled.map:\([0-9]*\): fault [0-9]*: /\1 /p' "$builds/printed" >"$folder/listed" || return 1
    "$top/tools/qmlook" faces "$builds/levels/spoiled.map" 2>"$folder/said" | sed 's/^line \([0-9]*\), .*: \(.*\); .*/\1 \2/' | cmp - "$folder/listed" || return 1
    printf '%s\n' '172 fraction' '173 bad number' '174 coordinate out of range' '175 no normal' '176 plane too fine' | cmp - "$folder/listed" || return 1
    cp "$builds/printed" "$folder/faces"
    sed -i '101s/$/ 0/' "$builds/levels/spoiled.map"
    build spoiled.map --all
    [[ $status == 4 && $(head -n 1 "$builds/printed") == 'spoiled.map:101: fault 3: unexpected' ]] || return 1
    tail -n +4 "$builds/printed" | cmp - "$folder/faces" || return 1
    sed -i '101s/^( //' "$builds/levels/spoiled.map"
    build spoiled.map --all
    built 4 "spoiled.map:101: fault 3: unexpected
$(sed -n 101p "$builds/levels/spoiled.map")
^^^^" && stand spoiled.map || return 1
    [[ $(<"$builds/said") == "qmbuild: not all faces could be read: line 101: no three points of a face stand there" ]]
}

# a face that is mended gives the tree that it gave before it was spoiled; one that cannot be mended is refused as before
mends_faces() {
    local told='spoiled.map:172: mended: fraction; points moved by 0.0004 at most
spoiled.map:173: mended: bad number; points moved by 0 at most, in the same plane
spoiled.map:174: mended: coordinate out of range; points moved by 7232 at most, in the same plane'
    begin_builds
    sed '172s/-56 0/-56.0004 0/; 173s/224/2.24e2/; 174s/224/40000/' samples/gatehouse.map >"$builds/levels/spoiled.map"
    cp "$builds/levels/spoiled.map" "$folder/"
    build spoiled.map --mend
    built 0 "$told
faces mended: 3
sealed; 69 open leaves, each sees 47 on average
tree: spoiled.tree" && cmp "$folder/merged.tree" "$builds/levels/spoiled.tree" && cmp "$folder/spoiled.map" "$builds/levels/spoiled.map" || return 1
    sed -i '175s/-88 224/-88 0/' "$builds/levels/spoiled.map"
    rm "$builds/levels/spoiled.tree"
    build spoiled.map --mend
    built 4 "$told
faces mended: 3
spoiled.map:175: fault 8: no normal
$(sed -n 175p "$builds/levels/spoiled.map")
                                         ^" && stand spoiled.map || return 1
    # what is not closed is told by the compiler
    head -n 180 "$folder/spoiled.map" >"$builds/levels/spoiled.map"
    build spoiled.map --mend
    [[ $status == 4 && $(head -n 1 "$builds/printed") == 'spoiled.map:172: fault 6: fraction' ]]
}

# a map as games of the Quake 3 family have it: three more numbers a face, and patches, in both forms; with them it is refused
reads_maps_of_quake_3() {
    local patch='{\npatchDef2\n{\n"a }"\n( 3 3 0 0 0 )\n(\n( ( 0 0 0 0 0 ) ( 0 1 0 0 1 ) )\n)\n}\n}\n' name
    begin_builds
    for name in gatehouse courtyard; do
        sed "s/^( .*/& 0 134217728 -1/; 0,/^}/s/^}/&\n$patch\/\/ {\n${patch,,}/" samples/$name.map >"$builds/levels/$name.map"
    done
    build gatehouse.map
    [[ $status == 4 && $(head -n 1 "$builds/printed") == 'gatehouse.map:12: fault 3: unexpected' ]] && stand 'courtyard.map gatehouse.map' || return 1
    [[ $(<"$builds/said") == 'qmbuild: this is a map of the Quake 3 family: build it with --q3' ]] || return 1
    build gatehouse.map --q3
    built 0 'left out: the three numbers after the mapping of 199 faces, and 2 patches
sealed; 69 open leaves, each sees 47 on average
tree: gatehouse.tree' && cmp "$folder/merged.tree" "$builds/levels/gatehouse.tree" || return 1
    build courtyard.map --q3 --mend
    built 0 "left out: the three numbers after the mapping of $(grep -c '^( ' samples/courtyard.map) faces, and 2 patches
faces mended: 0
sealed; 55 open leaves, each sees 30 on average
tree: courtyard.tree" && cmp "$folder/fast.tree" "$builds/levels/courtyard.tree" || return 1
    # brush primitives are none of what is read, and are refused as they stand
    sed '0,/^}/s/^}/&\n{\nbrushDef\n{\n( 0 0 0 ) ( 0 1 0 ) ( 1 0 0 ) ( ( 1 0 0 ) ( 0 1 0 ) ) a 0 0 0\n}\n}/' samples/courtyard.map >"$builds/levels/primitives.map"
    build primitives.map --q3
    built 4 'left out: the three numbers after the mapping of 0 faces, and 0 patches
primitives.map:'"$(grep -n brushDef "$builds/levels/primitives.map" | cut -d : -f 1)"': fault 3: unexpected
brushDef
^^^^^^^^' || return 1
    # lines and marks are those of the level as it is; two more numbers are none of such a map
    sed -i '40s/ 0 134217728 -1/ 0 134217728/' "$builds/levels/courtyard.map"
    build courtyard.map --q3
    [[ $status == 4 && $(sed -n 2p "$builds/printed") == 'courtyard.map:40: fault 3: unexpected' ]] || return 1
    [[ $(tail -n 1 "$builds/printed") == *^ && $(tail -n 2 "$builds/printed" | head -n 1) == *' 0 134217728' ]]
}

# the .bsp is that of qmbsp, from a map with bevels and the tree of that map; one that is not made leaves the old one
makes_levels_for_engines() {
    local words
    begin_builds gatehouse
    look bevels merged.map --out bevelled.map
    for words in 'bevelled ' 'merged --no-bevels'; do
        run_program compile "${words%% *}.map" hulled.tree --fast --hulls
        "$top/tools/qmbsp" "$folder/${words%% *}.map" "$folder/hulled.tree" "$folder/wanted.bsp" >"$folder/said" || return 1
        # shellcheck disable=SC2086  # the words of a command
        build gatehouse.map --bsp ${words#* }
        built 0 $'sealed; 69 open leaves, each sees 47 on average\ntree: gatehouse.tree\ngatehouse'"$(sed 's|^.*wanted||' "$folder/said")" || return 1
        cmp "$folder/hulled.tree" "$builds/levels/gatehouse.tree" && cmp "$folder/wanted.bsp" "$builds/levels/gatehouse.bsp" || return 1
    done
    build gatehouse.map --bsp --wad gatehouse.map
    [[ $status == 1 ]] && grep -q 'gatehouse.map is no WAD' "$builds/said" && cmp "$folder/wanted.bsp" "$builds/levels/gatehouse.bsp" || return 1
    open_the_sky
    build gatehouse.map --bsp
    [[ $status == 3 && $(tail -n 1 "$builds/printed") == 'gatehouse.bsp: BSP'* ]] && grep -q 'gatehouse.tree has no rows' "$builds/said" || return 1
    stand 'gatehouse.bsp gatehouse.map gatehouse.pts gatehouse.tree'
}

# clip hulls, brush models and faces stand in the tree where they are asked for, also behind the full visibility
passes_options_on() {
    local words
    begin_builds gatehouse
    look world "$top/samples/gatehouse.map" --out merged.map
    for words in '--fast --hulls' '--fast --models' '--fast --hulls --models' '--fast --faces' '--models --faces'; do
        # shellcheck disable=SC2086  # the words of a command
        run_program compile merged.map parts.tree $words
        # shellcheck disable=SC2046
        build gatehouse.map $(case $words in --fast*) echo "${words#--fast }" ;; *) echo "--full $words" ;; esac)
        [[ $status == 0 ]] && cmp "$folder/parts.tree" "$builds/levels/gatehouse.tree" || return 1
    done
    look bevels merged.map --out bevelled.map
    run_program compile bevelled.map parts.tree --fast --hulls --models --faces
    build gatehouse.map --bsp --models --faces
    [[ $status == 0 && $(tail -n 1 "$builds/printed") == 'gatehouse.bsp: BSP29, '*', 1 models' ]] || return 1
    cmp "$folder/parts.tree" "$builds/levels/gatehouse.tree"
}

says_how_qmbuild_is_used() {
    local words
    begin_builds cube
    for words in '' 'cube.map more' 'cube.map --threads 65' 'cube.map --threads=04' 'cube.map --ful' 'cube.map --wad a.wad' \
        'cube.map --out=' 'cube.map --name a/b' '-cube.map' 'cube.map --fast'; do
        # shellcheck disable=SC2086  # the words of a command
        build $words
        [[ $status == 2 && ! -s $builds/printed ]] && grep -q '^usage: qmbuild' "$builds/said" || return 1
    done
    build ''
    [[ $status == 2 ]] && stand cube.map || return 1
    # the level is not written over, nor taken away
    for words in 'cube.tree --name cube' 'cube.pts --name cube' 'cube.lin --name cube --lin'; do
        mv "$builds"/levels/cube.* "$builds/levels/${words%% *}"
        # shellcheck disable=SC2086
        build $words
        [[ $status == 2 && $(<"$builds/said") == "qmbuild: ${words%% *} is the level itself: "* ]] || return 1
        cmp samples/cube.map "$builds/levels/${words%% *}" && stand "${words%% *}" || return 1
    done
    build --help
    [[ $status == 0 ]] && grep -q '^usage: qmbuild' "$builds/printed"
}

# qmbuild ended so, printed nothing and said this one line
stopped() { # stopped STATUS LINE
    [[ $status == "$1" && ! -s $builds/printed && $(<"$builds/said") == "qmbuild: $2" ]] && return
    echo "ended with $status and said: $(<"$builds/said")"
    return 1
}

# a program in the place of the compiler, which ends so and prints this line
answer_with() { # answer_with STATUS LINE
    rm "$builds/qmapc"
    printf '#!/bin/sh\n[ -z "%s" ] || echo "%s"\nexit %s\n' "$2" "$2" "$1" >"$builds/qmapc"
    chmod +x "$builds/qmapc"
}

says_what_cannot_be_done() {
    begin_builds cube
    build missing.map
    stopped 5 'missing.map: No such file or directory' || return 1
    build .
    stopped 5 '.: Is a directory' || return 1
    build cube.map --out missing
    stopped 6 'missing: No such file or directory' || return 1
    mkdir "$builds/levels/cube.tree"
    build cube.map
    [[ $status == 6 ]] && grep -q 'Is a directory$' "$builds/said" && rmdir "$builds/levels/cube.tree" || return 1
    status=0
    (cd "$builds/levels" && : >../printed && ../tools/qmbuild cube.map >/dev/full 2>../said) || status=$?
    say_no_times
    stopped 6 'standard output: No space left on device' && rm "$builds/levels/cube.tree" || return 1
    answer_with 5 'read fault'
    build cube.map
    stopped 5 'read fault' || return 1
    answer_with 6 'write fault'
    build cube.map
    stopped 6 '.: write fault' || return 1
    answer_with 7 ''
    build cube.map
    stopped 7 'memory ran out' || return 1
    # a text that becomes too long when its groups are merged
    answer_with 4 'map fault 1 at line 9: text too long' && sed -i '2i case $* in format*) exit 0 ;; esac' "$builds/qmapc"
    build cube.map
    stopped 4 'cube.map, with its layers and groups merged: map fault 1 at line 9: text too long' || return 1
    answer_with 9 'a word'
    build cube.map
    stopped 1 'the compiler ended with 9: a word' || return 1
    # as the launcher ends, which says why
    answer_with 1 '' && sed -i 's/^exit/echo "qmapc: not built" >\&2\n&/' "$builds/qmapc"
    build cube.map
    [[ $status == 1 && $(<"$builds/said") == 'qmapc: not built' ]] || return 1
    rm "$builds/qmapc"
    build cube.map
    stopped 1 "$builds/qmapc: No such file or directory" && stand cube.map
}

leaves_nothing_when_it_is_stopped() {
    begin_builds cube
    python3 .ci/stop_builds.py "$builds"
}

check "builds: sealed levels, coarse and full, layers and groups merged" builds_sealed_levels
check "builds: in the repository, to another folder and under another name" builds_in_the_repository
check "builds: a leak has a name and a line, which goes once the level is sealed" finds_leaks_and_forgets_them
check "builds: each fault has its line of the level, and a mark" marks_each_fault
check "builds: long lines are shown in part" marks_in_long_lines
check "builds: all faces that are refused are listed" lists_all_faces_of_a_level
check "builds: faces are mended" mends_faces
check "builds: maps of the Quake 3 family are read" reads_maps_of_quake_3
check "builds: levels for engines are made, with bevels or without" makes_levels_for_engines
check "builds: clip hulls, brush models and faces are written where they are asked for" passes_options_on
check "builds: words that are no command get the usage line, and status 2" says_how_qmbuild_is_used
check "builds: what cannot be done is said, with the compiler's status" says_what_cannot_be_done
check "builds: a run that is stopped leaves nothing, and a long one says how far it is" leaves_nothing_when_it_is_stopped
