# shellcheck shell=bash disable=SC2154
# Sourced by .ci/checks: the program that the launcher runs, each exit status that it can have, on real files,
# devices and pipes.

# runs the program in the folder; `status` is how it ended, and the file `printed` has what it printed
run_program() {
    status=0
    (cd "$folder" && "$program" "$@" >printed 2>said) || status=$?
}

# the program ended so and printed exactly this, and the file `none` was not made
# shellcheck disable=SC2059  # the text has its line ends as \\n
ended() { # ended STATUS TEXT
    [[ $status == "$1" && ! -s $folder/said && ! -e $folder/none ]] && printf "$2" | cmp - "$folder/printed"
}

prints_the_usage_line() {
    local words
    for words in '' 'compil room.map none' 'compile room.map' 'format room.map none more' 'format none none' \
        'format -room.map none' 'format room.map -none' 'format --fast room.map none' \
        'compile room.map none --fast --fast' 'compile room.map none --hulls --hulls' 'compile room.map none --prt' 'compile room.map none --prt=' \
        'compile room.map none --prt -x' 'compile room.map --prt --fast none' 'compile --prt room.map room.map none' \
        'compile room.map none --prt=none' 'format room.map none --prt list' '--help' 'help' '-h' 'compile --help' \
        'compile room.map none --threads 0' 'compile room.map none --threads=04' 'compile room.map none --threads 65' \
        'compile room.map none --threads' 'compile room.map none --threads 2 --threads 2' 'compile -- room.map none' \
        'inspect room.map' 'inspect room.map at=1,2' 'inspect room.map row=01' 'inspect room.map count --fast' \
        'inspect room.map parts=1' 'inspect -room.map count' 'demo 8' 'demo 0 7' 'demo 65 7' 'demo 8 07' \
        'demo 8 18446744073709551616' 'demo 8 7 --fast' 'upgrade' 'upgrade room.tree' 'upgrade room.tree room.tree' \
        'upgrade room.tree none more' 'upgrade room.tree none --fast' 'upgrade -room.tree none' 'upgrade room.tree -none'; do
        # shellcheck disable=SC2086  # the words of a command
        run_program $words
        [[ $status == 2 && ! -s $folder/said && ! -e $folder/none ]] || return 1
        grep -q '^usage: qmapc compile MAP OUT' "$folder/printed" && [[ $(wc -l <"$folder/printed") == 1 ]] || return 1
    done
    run_program format '' none
    [[ $status == 2 ]] || return 1
    run_program format room.map $'\xff'
    [[ $status == 2 && ! -e $folder/$'\xff' ]]
}

says_which_fault_a_map_has() {
    printf '{ { x' >"$folder/open.map"
    run_program compile open.map none
    ended 4 'map fault 3 at line 1: unexpected\n' || return 1
    : >"$folder/empty.map"
    run_program format empty.map none
    ended 4 'map fault 11 at line 1: no entity\n'
}

says_that_a_map_is_not_read() {
    run_program compile missing.map none
    ended 5 'read fault\n' || return 1
    mkdir -p "$folder/is_a_folder"
    run_program format is_a_folder none
    ended 5 'read fault\n' || return 1
    run_program format room.map/room.map none
    ended 5 'read fault\n'
}

says_that_a_file_is_not_written() {
    mkdir -p "$folder/is_a_folder"
    run_program format room.map is_a_folder
    ended 6 'write fault\n' || return 1
    run_program compile cube.map no_such_folder/none
    ended 6 'write fault\n' || return 1
    run_program format room.map /dev/full
    ended 6 'write fault\n'
}

# OUT may not grow past a kilobyte; the launcher has the system tell that by an error
says_that_a_file_is_too_large() {
    status=0
    (cd "$folder" && ulimit -f 1 && exec "$top/qmapc" format large.map limited.map >printed 2>said) || status=$?
    ended 6 'write fault\n' && has_bytes limited.map 1024 && cmp -n 1024 "$folder/large.once" "$folder/limited.map"
}

ends_with_six_where_nothing_can_be_printed() {
    status=0
    (cd "$folder" && "$program" format room.map full.map >/dev/full 2>said) || status=$?
    [[ $status == 6 && ! -s $folder/said ]] && cmp "$folder/room.once" "$folder/full.map" || return 1
    status=0
    (cd "$folder" && "$program" compile bare.map full.tree >/dev/full 2>said) || status=$?
    [[ $status == 6 && ! -s $folder/said ]] && cmp "$folder/bare.tree" "$folder/full.tree" || return 1
    status=0
    (cd "$folder" && "$program" format room.map closed.map >&- 2>said) || status=$?
    [[ $status == 6 && ! -s $folder/said ]] && cmp "$folder/room.once" "$folder/closed.map"
}

# under each limit of memory from just enough to be loaded to just enough to end well
runs_out_of_memory() {
    local kilobytes seven=0
    for kilobytes in 3000 3500 4000 5000 6000 7000 10000 20000; do
        rm -f "$folder/short.map"
        status=0
        (cd "$folder" && ulimit -v $kilobytes && exec "$program" format large.map short.map >printed 2>said) || status=$?
        case $status in
        0) cmp "$folder/large.once" "$folder/short.map" || return 1 ;;
        # OUT is not there, or has a prefix of what it should have
        7)
            seven=$((seven + 1))
            [[ ! -s $folder/said && ! -s $folder/printed ]] || return 1
            [[ ! -e $folder/short.map ]] ||
                cmp -n "$(stat -c %s "$folder/short.map")" "$folder/large.once" "$folder/short.map" || return 1
            ;;
        # the program could not be loaded
        127) ;;
        *) return 1 ;;
        esac
    done
    [[ $seven -gt 0 && $status == 0 ]]
}

# one request for memory is refused, in each run another one
refuses_requests() {
    python3 .ci/refuse_requests.py "$program"
}

# one call to the system fails, in each run another one
fails_calls() {
    python3 .ci/fail_calls.py "$program"
}

reads_damaged_files_as_a_slow_reader_does() {
    python3 .ci/damage_files.py "$program"
}

# how far from 0 a coordinate of a map can be
extent=$(sed -n 's/^EXTENT = //p' tools/maptext.py)

# a file of the folder has so many bytes
has_bytes() { # has_bytes NAME BYTES
    [[ $(stat -c %s "$folder/$1") == "$2" ]]
}

compiles_a_room() {
    run_program compile room.map room.tree
    ended 0 'sealed\nbrushes 6\nflat 0\nplanes 12\nnodes 12\nleaves 13\nnumbered 1\nfilled 6\nportals 0\nseen 1\n' && has_bytes room.tree 595 || return 1
    # a world of two brushes, one within the other
    {
        echo '{'
        sed '1d;$d' "$folder/cube.map"
        sed '1d;$d; s/64/32/g' "$folder/cube.map"
        echo '}'
    } >"$folder/two.map"
    run_program format two.map two.out
    [[ $status == 0 && $(<"$folder/printed") == $'entities 1\nbrushes 2' ]] || return 1
    run_program compile two.map two.tree
    ended 0 'no entity\nbrushes 2\nflat 0\nplanes 9\nnodes 6\nleaves 7\nnumbered 6\nfilled 0\nportals 12\nseen 34\n' && has_bytes two.tree 390 || return 1
    # a world without brushes
    echo '{ }' >"$folder/bare.map"
    run_program compile bare.map bare.tree
    ended 0 'no entity\nbrushes 0\nflat 0\nplanes 0\nnodes 0\nleaves 1\nnumbered 1\nfilled 0\nportals 0\nseen 1\n' && has_bytes bare.tree 55 || return 1
    # the option, in each place after the first word
    local words
    for words in '--fast bare.map fast.tree' 'bare.map --fast fast.tree' 'bare.map fast.tree --fast'; do
        rm -f "$folder/fast.tree"
        # shellcheck disable=SC2086  # the words of a command
        run_program compile $words
        [[ $status == 0 ]] && cmp "$folder/bare.tree" "$folder/fast.tree" || return 1
    done
    # an entity in the open
    echo '{ } { "origin" "0 0 0" }' >"$folder/open.map"
    run_program compile open.map open.tree
    ended 3 'leak: entity 1\ntrail: 0\n' && has_bytes open.tree 54 && cmp -n 40 "$folder/bare.tree" "$folder/open.tree"
}

lists_the_portals_of_the_cube() {
    local words
    for words in '--prt cube.prt cube.map listed.tree' 'cube.map listed.tree --fast --prt=cube.prt'; do
        rm -f "$folder/cube.prt" "$folder/listed.tree"
        # shellcheck disable=SC2086  # the words of a command
        run_program compile $words
        # 40 of its numbers are the extent
        [[ $status == 0 ]] && has_bytes listed.tree 330 && has_bytes cube.prt $((558 + 40 * ${#extent})) || return 1
        [[ $(head -n 4 "$folder/cube.prt") == $'PRT1\n6\n12\n'"4 1 5 (0 64 -$extent ) (0 64 $extent ) (0 $extent $extent ) (0 $extent -$extent ) " ]] || return 1
    done
    # the tree is whole where its listing is not written
    rm -f "$folder/listed.tree"
    run_program compile cube.map listed.tree --prt=/dev/full
    ended 6 'write fault\n' && has_bytes listed.tree 330 || return 1
    # nothing is listed of a leak
    echo '{ } { "origin" "0 0 0" }' >"$folder/open.map"
    run_program compile open.map open.tree --prt none
    ended 3 'leak: entity 1\ntrail: 0\n' && has_bytes open.tree 54
}

formats_a_room_once_and_again() {
    run_program format room.map room.once
    ended 0 'entities 3\nbrushes 7\n' || return 1
    run_program format room.once room.again
    ended 0 'entities 3\nbrushes 7\n' || return 1
    cmp "$folder/room.once" "$folder/room.again" && [[ $(wc -l <"$folder/room.once") == 69 ]]
}

# a text of many pieces is read and written whole: of the texts that are made here, the canonical text is the lines
# that are no comments, with whole numbers written short; their comments count the entities and brushes
formats_a_large_text() {
    bench/make_map.py 1 mixed crlf >"$folder/large.map" || return 1
    sed '/^\/\//d; s/\r$//; s/\.000 / /g' "$folder/large.map" >"$folder/large.once"
    run_program format large.map large.out
    ended 0 "entities $(grep -c '^// entity' "$folder/large.map")\nbrushes $(grep -c '^// brush' "$folder/large.map")\n" || return 1
    cmp "$folder/large.once" "$folder/large.out" || return 1
    run_program format large.out large.again
    [[ $status == 0 ]] && cmp "$folder/large.once" "$folder/large.again"
}

# and one with decimals, which are written as they stand
formats_a_text_with_decimals() {
    bench/make_map.py 1 eighths >"$folder/eighths.map" || return 1
    sed '/^\/\//d; s/\.000 / /g' "$folder/eighths.map" >"$folder/eighths.once"
    grep -q ' -[0-9]*\.125 ' "$folder/eighths.once" || return 1
    run_program format eighths.map eighths.out
    [[ $status == 0 ]] && cmp "$folder/eighths.once" "$folder/eighths.out"
}

writes_over_what_was_there() {
    cp "$folder/large.map" "$folder/old.map"
    run_program format room.map old.map
    [[ $status == 0 ]] && cmp "$folder/room.once" "$folder/old.map"
}

prints_all_into_a_pipe() {
    (cd "$folder" && set -o pipefail && "$program" format large.map piped.map | cat >through) || return 1
    run_program format large.map large.out
    cmp "$folder/printed" "$folder/through" && cmp "$folder/large.once" "$folder/piped.map" || return 1
    # a pipe that nobody reads from: an error, or a signal, where the system sends one, but no success
    status=0
    (cd "$folder" && trap '' PIPE && { sleep 0.2; "$program" format room.map deaf.map 2>said; echo $? >status; } | true)
    [[ $(<"$folder/status") == 6 ]] && cmp "$folder/room.once" "$folder/deaf.map"
}

reads_a_map_that_is_a_pipe() {
    local name
    mkfifo "$folder/pipe"
    for name in room large; do
        cat "$folder/$name.map" >"$folder/pipe" 2>/dev/null &
        status=0
        (cd "$folder" && timeout 20 "$program" format pipe from_pipe.map >printed 2>said) || status=$?
        # where the program never read it, the writer still waits
        kill $! 2>/dev/null || true
        wait $! 2>/dev/null || true
        [[ $status == 0 ]] && cmp "$folder/$name.once" "$folder/from_pipe.map" || return 1
    done
}

# a fault is said once it is certain, while more may come
stops_reading_at_a_certain_fault() {
    status=0
    (cd "$folder" && timeout 5 "$program" compile /dev/stdin none < <(printf '} ' && exec sleep 9) >printed 2>said) || status=$?
    ended 4 'map fault 3 at line 1: unexpected\n'
}

agrees_with_a_slow_reader() {
    [[ -x crates/text_faults/out/text_faults ]] || (cd crates/text_faults && rt run >/dev/null 2>&1) || return 1
    python3 .ci/compare_texts.py "$program" crates/text_faults/out/text_faults
}

reads_words_as_a_slow_reader_does() {
    python3 .ci/compare_words.py "$program"
}

# a demo compiles the rooms that a plain script makes, and touches no file; the sample is one of them, as format prints it
demo_compiles_made_rooms() {
    local rooms number
    mkdir -p "$folder/untouched"
    while read -r rooms number; do
        python3 .ci/made_rooms.py "$rooms" "$number" >"$folder/made_rooms.map" || return 1
        run_program compile made_rooms.map made_rooms.tree
        [[ $status == 0 ]] || return 1
        (cd "$folder/untouched" && "$program" demo "$rooms" "$number") | cmp - "$folder/printed" || return 1
    done <<<$'1 0\n2 0\n3 4\n33 18446744073709551615\n64 123456789012345'
    [[ -z $(ls -A "$folder/untouched") ]] || return 1
    python3 .ci/made_rooms.py 8 7 | cmp - samples/rooms8.map || return 1
    cp samples/rooms8.map "$folder/"
    run_program format rooms8.map rooms8.once
    ended 0 'entities 2\nbrushes 21\n' && cmp "$folder/rooms8.map" "$folder/rooms8.once" || return 1
    run_program compile rooms8.map rooms8.tree
    ended 0 'sealed\nbrushes 21\nflat 0\nplanes 30\nnodes 58\nleaves 59\nnumbered 24\nfilled 6\nportals 29\nseen 236\n' || return 1
    cp "$folder/printed" "$folder/rooms8.summary"
    run_program demo 8 7
    [[ $status == 0 ]] && cmp "$folder/rooms8.summary" "$folder/printed"
}

# the lines that a page shows behind this call
page_shows() { # page_shows PAGE CALL
    awk -v call="    ./qmapc $2" '$0 == call { on = 1; next } on && /^$/ && ++blanks == 2 { exit } on && sub(/^    /, "")' "docs/$1"
}

# what the pages show of the courtyard, and each query of a tree with rows, in one call
answers_as_the_pages_show() {
    local page words
    cp samples/courtyard.map "$folder/"
    run_program compile courtyard.map courtyard.tree
    cp "$folder/courtyard.tree" "$folder/courtyard.kept"
    while IFS='|' read -r page words; do
        # shellcheck disable=SC2086  # the words of a command
        run_program $words
        [[ $status == 0 ]] && page_shows "$page" "$words" | cmp - "$folder/printed" || return 1
    done <<'END'
EDITORS.md|inspect courtyard.tree at=-208,-128,24 at=64,0,24
EDITORS.md|inspect courtyard.tree sees=53,27 sees=53,0
END
    # with clip hulls, of which the page shows both lines before the answers
    grep -qxF '    ./qmapc compile samples/courtyard.map courtyard.tree --hulls' docs/EDITORS.md || return 1
    run_program compile courtyard.map hulled.tree --hulls
    run_program inspect hulled.tree hull=1,-208,-128,24 hull=1,-240,-60,24 hull=1,-272,-128,24
    [[ $status == 0 ]] && page_shows EDITORS.md "inspect courtyard.tree hull=1,-208,-128,24 hull=1,-240,-60,24 hull=1,-272,-128,24" |
        cmp - "$folder/printed" || return 1
    run_program inspect courtyard.tree trace=-208,96,112,-208,-128,46 trace=-208,-128,46,208,-128,46
    [[ $status == 0 ]] && page_shows EDITORS.md "inspect courtyard.tree trace=-208,96,112,-208,-128,46 trace=-208,-128,46,208,-128,46" |
        cmp - "$folder/printed" || return 1
    run_program inspect courtyard.tree count parts at=0,0,300 sees=54,54 at=208,-60,24 at=64.000001,-.5,+24. row=22
    ended 0 'planes 65 nodes 140 leaves 141 numbered 55 rows yes\nversion 2 bound '"$extent"' parts\nleaf 15 solid filled\nyes\nleaf 46 water number 22\nleaf 54 empty number 27\nrow 22: 20 21 22 23\n' || return 1
    cmp "$folder/courtyard.kept" "$folder/courtyard.tree"
}

# the rows of the tables: worlds and what they compile to, leaks, queries, damaged tree files, faulty texts, words
does_what_the_tables_say() {
    python3 .ci/check_rows.py "$program"
}

# the first query that is refused, and no answer
says_which_query_is_refused() {
    local words text
    echo '{ } { "origin" "0 0 0" }' >"$folder/open.map"
    run_program compile open.map open.tree
    while IFS='|' read -r words text; do
        # shellcheck disable=SC2086  # the words of a command
        run_program inspect $words
        ended 9 "query $text\n" || return 1
    done <<END
room.tree at=$extent,0,0|1 refused: outside the cube
room.tree at=0,0,-$((extent - 1)).999999 at=0,0,-$extent|2 refused: outside the cube
room.tree count row=1 at=0,0,5000|2 refused: no such leaf
room.tree sees=0,1|1 refused: no such leaf
room.tree sees=999999999999999999,0|1 refused: no such leaf
open.tree count row=0|2 refused: no rows
open.tree row=1 row=0|1 refused: no such leaf
open.tree sees=0,0|1 refused: no rows
END
}

says_that_a_tree_is_not_read() {
    local name
    mkdir -p "$folder/is_a_folder"
    for name in missing.tree is_a_folder room.tree/room.tree; do
        run_program inspect $name count
        ended 5 'read fault\n' || return 1
        run_program upgrade $name none
        ended 5 'read fault\n' || return 1
    done
}

# a tree file that is cut off, one with a byte too many, none at all, and files of other programs
says_which_fault_a_tree_file_has() {
    local name text
    head -c 100 "$folder/room.tree" >"$folder/cut.tree"
    { cat "$folder/room.tree" && printf x; } >"$folder/longer.tree"
    { printf QMTREE03 && tail -c +9 "$folder/room.tree"; } >"$folder/later.tree"
    { head -c 45 "$folder/room.tree" && printf '\1\0\0\0' && tail -c +50 "$folder/room.tree" && head -c 12 /dev/zero; } >"$folder/kind.tree"
    { head -c 41 "$folder/room.tree" && printf '\210\023' && tail -c +44 "$folder/room.tree"; } >"$folder/bound.tree"
    : >"$folder/empty.tree"
    cp "$program" "$folder/program.tree"
    while IFS='|' read -r name text; do
        run_program inspect "$name" count
        ended 8 "tree fault $text\n" || return 1
        run_program upgrade "$name" none
        ended 8 "tree fault $text\n" || return 1
    done <<'END'
empty.tree|1 at byte 0: short
/dev/null|1 at byte 0: short
cut.tree|1 at byte 100: short
longer.tree|8 at byte 595: trailing
later.tree|2 at byte 7: magic
bound.tree|10 at byte 41: header form
kind.tree|11 at byte 595: section form
room.map|2 at byte 0: magic
program.tree|2 at byte 0: magic
END
    # a fault of the file comes before that of a query
    run_program inspect cut.tree at=5000,0,0
    ended 8 'tree fault 1 at byte 100: short\n'
}

# a tree file without an end is read to its limit
stops_at_the_limit_of_a_tree_file() {
    cat "$folder/room.tree" /dev/zero >"$folder/pipe" 2>/dev/null &
    status=0
    (cd "$folder" && timeout 120 "$program" inspect pipe count >printed 2>said) || status=$?
    kill $! 2>/dev/null || true
    wait $! 2>/dev/null || true
    ended 8 'tree fault 9 at byte 1073741824: too long\n'
}

# a chain of a million nodes on one plane, asked at both ends
answers_in_a_chain_of_a_million_nodes() {
    python3 - "$folder" <<'END' || return 1
import sys
sys.path[:0] = [".ci", "tools"]
from made_trees import SOLID, tree_file
last = 1_000_000
nodes = [(0, -1 - k, k + 1 if k + 1 < last else -1 - last) for k in range(last)]
open(sys.argv[1] + "/chain.tree", "wb").write(tree_file([(1, 0, 0, 0)], nodes, [(SOLID, 0)] * (last + 1), None, 1))
END
    has_bytes chain.tree 25000066 || return 1
    run_program inspect chain.tree at=1,0,0 at=-1,0,0
    ended 0 'leaf 0 solid\nleaf 1000000 solid\n'
}

# runs the program, which reads the room's tree from a pipe
from_a_pipe() { # from_a_pipe WORDS..
    cat "$folder/room.tree" >"$folder/pipe" 2>/dev/null &
    status=0
    (cd "$folder" && timeout 20 "$program" "$@" >printed 2>said) || status=$?
    # where the program never read it, the writer still waits
    kill $! 2>/dev/null || true
    wait $! 2>/dev/null || true
}

reads_a_tree_that_is_a_pipe() {
    from_a_pipe inspect pipe count at=0,0,24 row=0 sees=0,0
    ended 0 'planes 12 nodes 12 leaves 13 numbered 1 rows yes\nleaf 6 empty number 0\nrow 0: 0\nyes\n' || return 1
    from_a_pipe upgrade pipe from_pipe.tree
    ended 0 'version 2 to 2\n' && cmp "$folder/room.tree" "$folder/from_pipe.tree"
}

# trees of both versions, with rows and without, in a large world and with sections, as a plain writer writes them
upgrades_as_a_slow_writer_does() {
    (cd "$folder" && python3 "$top/.ci/compare_upgrades.py" "$program" room.tree bare.tree open.tree courtyard.tree)
}

# OUT is a folder, is in none, or takes nothing; or nothing can be printed, and then OUT is whole
says_that_an_upgraded_tree_is_not_written() {
    local name
    mkdir -p "$folder/is_a_folder"
    for name in is_a_folder no_such_folder/none /dev/full; do
        run_program upgrade room.tree $name
        ended 6 'write fault\n' || return 1
    done
    status=0
    (cd "$folder" && "$program" upgrade room.tree full.tree >/dev/full 2>said) || status=$?
    [[ $status == 6 && ! -s $folder/said ]] && cmp "$folder/room.tree" "$folder/full.tree"
}

# as runs_out_of_memory does, with a tree of version 1 whose rows take some megabytes
upgrades_with_little_memory() {
    local kilobytes seven=0
    python3 - "$folder" <<'END' || return 1
import sys
sys.path[:0] = [".ci", "tools"]
import made_trees, treefile
tree = treefile.decode(made_trees.long_tree(4200))._replace(bound=treefile.BOUNDS[0])
for version in 1, 2:
    open(f"{sys.argv[1]}/large{version}.tree", "wb").write(made_trees.written(tree, version))
END
    cp "$folder/large1.tree" "$folder/large1.kept"
    for kilobytes in 3000 3500 4000 5000 6000 7000 10000 20000; do
        rm -f "$folder/short.tree"
        status=0
        (cd "$folder" && ulimit -v $kilobytes && exec "$program" upgrade large1.tree short.tree >printed 2>said) || status=$?
        case $status in
        0) ended 0 'version 1 to 2\n' && cmp "$folder/large2.tree" "$folder/short.tree" || return 1 ;;
        # OUT is not there, or has a prefix of what it should have
        7)
            seven=$((seven + 1))
            [[ ! -s $folder/said && ! -s $folder/printed ]] || return 1
            [[ ! -e $folder/short.tree ]] ||
                cmp -n "$(stat -c %s "$folder/short.tree")" "$folder/large2.tree" "$folder/short.tree" || return 1
            ;;
        # the program could not be loaded
        127) ;;
        *) return 1 ;;
        esac
        cmp "$folder/large1.kept" "$folder/large1.tree" || return 1
    done
    [[ $seven -gt 0 && $status == 0 ]]
}

# words that are not UTF-8 or empty, 100,000 words, and words nearly as long as the system hands on
answers_words_of_any_length() {
    local bad call zeros ones usage='usage: qmapc compile MAP OUT [--prt FILE] [--threads N] [--fast] [--hulls] [--models] [--faces] | inspect TREE QUERY.. | format MAP OUT | demo N NUMBER | upgrade TREE OUT\n'
    local -a words
    for bad in $'\xff' ''; do
        for call in 'inspect BAD count' 'inspect room.tree BAD' 'inspect room.tree count BAD' 'demo BAD 7' 'demo 8 BAD' 'BAD' \
            'format BAD none' 'upgrade BAD none' 'upgrade room.tree BAD' 'compile room.map BAD' 'compile room.map none --prt BAD' 'compile room.map none --threads=BAD'; do
            read -ra words <<<"$call"
            run_program "${words[@]/BAD/$bad}"
            ended 2 "$usage" || return 1
        done
    done
    mapfile -t words < <(yes count | head -n 100000)
    run_program inspect room.tree "${words[@]}"
    [[ $status == 0 ]] && cmp "$folder/printed" <(yes 'planes 12 nodes 12 leaves 13 numbered 1 rows yes' | head -n 100000) || return 1
    run_program inspect room.tree "${words[@]}" row=1
    ended 9 'query 100001 refused: no such leaf\n' || return 1
    run_program inspect room.tree "${words[@]}" x
    ended 2 "$usage" || return 1
    run_program compile room.map none "${words[@]/count/--fast}"
    ended 2 "$usage" || return 1
    run_program "${words[@]}"
    ended 2 "$usage" || return 1
    zeros=$(head -c 130000 /dev/zero | tr '\0' 0)
    ones=$(head -c 130000 /dev/zero | tr '\0' 1)
    for call in "at=$zeros,0,0" "at=0,0,0.$zeros"; do
        run_program inspect room.tree "$call"
        ended 0 'leaf 6 empty number 0\n' || return 1
    done
    for call in "at=$ones,0,0" "at=0.$ones,0,0" "row=$zeros" "row=$ones" "sees=0,$ones" "$ones"; do
        run_program inspect room.tree "$call"
        ended 2 "$usage" || return 1
    done
    run_program demo 8 "$ones"
    ended 2 "$usage" || return 1
    run_program inspect "$ones" count
    ended 5 'read fault\n'
}

ends_with_six_where_no_answer_can_be_printed() {
    local words
    for words in 'inspect room.tree count' 'inspect room.tree row=1' 'inspect room.map count' 'upgrade room.map none' 'demo 1 0'; do
        status=0
        # shellcheck disable=SC2086  # the words of a command
        (cd "$folder" && "$program" $words >/dev/full 2>said) || status=$?
        [[ $status == 6 && ! -s $folder/said && ! -e $folder/none ]] || return 1
    done
}

reads_tree_files_as_a_slow_reader_does() {
    [[ -x crates/file_faults/out/file_faults ]] || (cd crates/file_faults && rt run >/dev/null 2>&1) || return 1
    python3 .ci/compare_files.py crates/file_faults/out/file_faults
}

# while a level comes late: of several workers a line on the terminal, once a second at most, that is gone before the summary;
# of one worker, or of none, nothing; and nothing where standard error is no terminal
says_how_far_several_workers_are() {
    python3 - "$program" samples/rooms8.map "$folder" <<'END'
import os, pty, re, subprocess, sys, time

program, level, folder = sys.argv[1:]
LINES = re.compile(rb"((?:\rportals begun: \d+)+)\r {35}\r")


def counts(printed):
    """The lines of a summary, but for the one in which the number of workers may show."""
    return [line for line in printed.splitlines() if not line.startswith(b"seen ")]


class Run:
    """A run on a terminal that waits for its level. Its standard output is the terminal too, where no other is given."""

    def __init__(self, threads, *options, output=None):
        self.begun, (self.control, terminal) = time.monotonic(), pty.openpty()
        tree = os.path.join(folder, f"late{threads}{''.join(options)}.tree")
        words = [program, "compile", "/dev/stdin", tree, "--threads", threads, *options]
        self.child = subprocess.Popen(words, stdin=subprocess.PIPE, stdout=output or terminal, stderr=terminal)
        os.close(terminal)

    def end(self, text):
        """What it printed to another standard output, what the terminal was given, and how many seconds it took."""
        printed = self.child.communicate(text, timeout=60)[0] or b""
        given = b""
        try:
            while piece := os.read(self.control, 65536):
                given += piece
        except OSError:
            pass
        return printed, given, time.monotonic() - self.begun


def speaks(printed, given, seconds):
    """Whether it said how far it was, not too often, and took that away before it printed a summary."""
    lines = LINES.match(given)
    return lines and lines.group(1).count(b"\r") <= seconds and counts(printed + given[lines.end():]) == summary


with open(level, "rb") as file:
    text = file.read()
plain = subprocess.run([program, "compile", level, os.path.join(folder, "late.tree"), "--threads", "2"], capture_output=True)
summary = counts(plain.stdout)
loud, silent = [Run("2"), Run("4", output=subprocess.PIPE)], [Run("1"), Run("2", "--fast")]
time.sleep(2)
good = [speaks(*run.end(text)) for run in loud] + [counts(run.end(text)[1]) == summary for run in silent]
sys.exit(not (all(good) and summary and not plain.stderr))
END
}

counts_clips_as_fractions_do() {
    python3 bench/counts.py | cmp - crates/wind_bench/stdout
}

cp samples/cube.map samples/room.map "$folder/"
check "status 0: the canonical text of samples/room.map is printed again as it is" formats_a_room_once_and_again
check "status 0: trees of a room, of one brush within another, and of no brush" compiles_a_room
check "the listing of samples/cube.map, in FILE behind a whole OUT, and none of a leak" lists_the_portals_of_the_cube
check "status 0: a text of a megabyte is read whole" formats_a_large_text
check "status 0: a text with decimals is written as it stands" formats_a_text_with_decimals
check "status 0: OUT that was there is written anew" writes_over_what_was_there
check "every row of the tables: status, printed text and files" does_what_the_tables_say
check "status 2: words that are no command print the usage line" prints_the_usage_line
check "status 4: a map with a fault" says_which_fault_a_map_has
check "status 5: a map that is missing or is a folder" says_that_a_map_is_not_read
check "status 6: OUT that cannot be made or not be written" says_that_a_file_is_not_written
check "status 6: OUT that grows past the limit of the shell" says_that_a_file_is_too_large
check "status 6: a standard output that takes nothing" ends_with_six_where_nothing_can_be_printed
check "status 7: too little memory" runs_out_of_memory
check_fully "status 7, or a whole result: a request for memory of each command is refused" refuses_requests
check_fully "status 5 or 6, or a whole result: a call to the system of each command fails" fails_calls
check "status 8: damaged tree files have the faults that a plain slow reader finds" reads_damaged_files_as_a_slow_reader_does
check "a pipe as standard output gets each byte" prints_all_into_a_pipe
check "a map that is a pipe is read" reads_a_map_that_is_a_pipe
check "a fault is said while the pipe is open" stops_reading_at_a_certain_fault
check "command words are read as a plain slow reader reads them" reads_words_as_a_slow_reader_does
check "a demo compiles the rooms that a plain script makes, and touches no file" demo_compiles_made_rooms
check "inspect answers as the pages show" answers_as_the_pages_show
check "status 9: the first query that is refused" says_which_query_is_refused
check "status 5: a tree that is missing or is a folder" says_that_a_tree_is_not_read
check "status 8: a tree file with a fault" says_which_fault_a_tree_file_has
check "status 8: a tree file without an end is read to its limit" stops_at_the_limit_of_a_tree_file
check "a tree of a million nodes in a row is asked at both ends" answers_in_a_chain_of_a_million_nodes
check "a tree that is a pipe is read" reads_a_tree_that_is_a_pipe
check "status 0: upgraded trees are those that a plain writer writes" upgrades_as_a_slow_writer_does
check "status 6: an upgraded tree that cannot be written" says_that_an_upgraded_tree_is_not_written
check "status 7: too little memory to upgrade a tree" upgrades_with_little_memory
check "words of any number and length get a named answer" answers_words_of_any_length
check "status 6: no answer can be printed" ends_with_six_where_no_answer_can_be_printed
check "several workers say how far they are, on a terminal alone" says_how_far_several_workers_are
check_fully "generated texts have the faults that a plain slow reader finds" agrees_with_a_slow_reader
check_fully "altered tree files have the faults that a plain slow reader finds" reads_tree_files_as_a_slow_reader_does
check "the counts of clips are those of fractions without bound" counts_clips_as_fractions_do
