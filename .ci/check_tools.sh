# shellcheck shell=bash disable=SC2154
# Sourced by .ci/checks, behind check_program.sh: the tools, on trees that the program wrote and on files that are none.

# runs qmlook in the folder; `status` is how it ended, the file `printed` has what it printed, and `said` what went wrong
look() {
    status=0
    (cd "$folder" && "$top/tools/qmlook" "$@" >printed 2>said) || status=$?
}

# a picture is made, and nothing is said
looked() {
    [[ $status == 0 && -s $folder/printed && ! -s $folder/said ]]
}

# nothing is printed, and this one line is said
refused() { # refused LINE
    [[ $status == 1 && ! -s $folder/printed && $(<"$folder/said") == "qmlook: $1" ]] && return
    echo "ended with $status and said: $(<"$folder/said")"
    return 1
}

# rows lack nothing in sight, which is proved; what they have beyond that is held from above: these counts are those of today,
# and smaller ones would be better
compiles_the_samples() {
    local name seen
    while read -r name seen; do
        run_program compile "$name.map" "$name.tree"
        [[ $status == 0 ]] && grep -qx "seen $seen" "$folder/printed" || return 1
    done <<<$'cube 34\nroom 1\nrooms 21\nrooms8 236\ncourtyard 1396'
    for name in hole courtyard_leak; do
        run_program compile $name.map $name.tree
        [[ $status == 3 ]] || return 1
        sed -n 's/^trail: //p' "$folder/printed" >"$folder/$name.trail"
    done
    # the page shows what the program prints
    grep -qxF "    trail: $(<"$folder/courtyard_leak.trail")" docs/EDITORS.md
}

# a slice without --z stands at the eyes of a player at the start, and has the entities upon it; the class of each is told
marks_the_entities() {
    look plan courtyard.tree --map courtyard.map
    looked && grep -q 'slice at z = 46,' "$folder/printed" || return 1
    grep -qx '<path fill="#00803c".*><title>info_player_start at -208,-128,24</title></path>' "$folder/printed" || return 1
    [[ $(grep -c '<title>light at' "$folder/printed") == 3 && $(grep -c '<text.*>player start</text>' "$folder/printed") == 1 ]] || return 1
    # above the ceiling of the hall there is what stands in the courtyard alone
    look plan courtyard.tree --map courtyard.map --z 150
    looked && ! grep -q 'info_player_start' "$folder/printed" && [[ $(grep -c '<title>light at' "$folder/printed") == 1 ]] || return 1
    look plan cube.tree --map cube.map
    refused "cube.map has no entity that stands in the open" || return 1
    look plan cube.tree --map cube.map --z 0
    looked || return 1
    look plan cube.tree --map cube.tree
    refused "cube.tree is no map: line 1: no entity begins there"
}

draws_what_the_pages_show() {
    look plan courtyard.tree --z 32
    looked && cmp "$folder/printed" docs/courtyard.svg || return 1
    look plan rooms8.tree --z 32 --row 23
    looked && cmp "$folder/printed" docs/rooms8.svg || return 1
    look plan courtyard.tree --trace -208,-128,46,400,150,60 --map courtyard.map
    looked && cmp "$folder/printed" docs/courtyard_trace.svg || return 1
    look plan courtyard_leak.tree --leak "$(<"$folder/courtyard_leak.trail")"
    looked && cmp "$folder/printed" docs/courtyard_leak.svg || return 1
    look plan courtyard_leak.tree --leak "trail: $(<"$folder/courtyard_leak.trail")" --z 76
    looked && cmp "$folder/printed" docs/courtyard_leak.svg
}

# what a brush holds is told by its fill: as many pieces of lava as there are of water in the same place
draws_each_kind_of_contents() {
    local kind
    for kind in water slime lava; do
        sed "s/[*]water1/*${kind}1/" "$folder/courtyard.map" >"$folder/$kind.map"
        run_program compile $kind.map $kind.tree
        look plan $kind.tree --z 32
        looked && [[ $(grep -c "fill=\"url(#$kind)\"" "$folder/printed") == 5 ]] || return 1
        [[ $(grep -c "<pattern id=\"$kind\"" "$folder/printed") == 1 ]] || return 1
    done
    look plan water.tree --z 40
    looked && ! grep -q 'url(#water)' "$folder/printed"
}

draws_slices_that_agree_with_the_tree() {
    (cd "$folder" && python3 "$top/.ci/check_plans.py" cube.tree hole.tree rooms.tree rooms8.tree courtyard.tree courtyard_leak.tree)
}

# gives the three rooms, in which the first sees neither the third nor the way to it, their rows and portals
rows_of_rooms() {
    python3 - "$folder" <<'END' || return 1
import sys
sys.path[:0] = [".ci", "tools"]
import made_trees, treefile
tree = treefile.load(sys.argv[1] + "/rooms.tree")._replace(rows=[bytes([byte]) for byte in (0x0f, 0x0f, 0x1f, 0x1f, 0x1c)])
open(sys.argv[1] + "/seen.tree", "wb").write(made_trees.written(tree))
END
    cat >"$folder/rooms.prt" <<'END'
PRT1
5
4
4 0 1 (0 80 0 ) (32 80 0 ) (32 80 64 ) (0 80 64 ) 
4 1 2 (0 64 0 ) (32 64 0 ) (32 64 64 ) (0 64 64 ) 
4 3 4 (-16 -64 0 ) (-16 -64 64 ) (-16 -32 64 ) (-16 -32 0 ) 
4 2 3 (0.000000 -64 0 ) (0.000000 -64 64 ) (0.000000 -32 64 ) (0.000000 -32 0 ) 
END
}

draws_rows_and_portals() {
    rows_of_rooms || return 1
    look plan seen.tree --row 4 --prt rooms.prt --z 24.5
    looked && python3 -c 'import sys, xml.dom.minidom as dom; dom.parse(sys.argv[1])' "$folder/printed" || return 1
    # three leaves and the line of the legend
    [[ $(grep -c 'fill="url(#held)"' "$folder/printed") == 4 ]] || return 1
    [[ $(grep -c 'class="portal" x1' "$folder/printed") == 4 ]] || return 1
    # above the doorways no portal is crossed
    look plan seen.tree --row 0 --prt rooms.prt --z 80
    looked && [[ $(grep -c 'fill="url(#held)"' "$folder/printed") == 3 ]] || return 1
    [[ $(grep -c 'class="portal" x1' "$folder/printed") == 0 ]] || return 1
    # without --z the row's own leaf is met
    look plan seen.tree --row 3
    looked && grep -q 'z = 32' "$folder/printed" && [[ $(grep -c 'class="own"' "$folder/printed") == 2 ]]
}

# by the file and by its clip hull, also straight up, and where there is no hull
# shellcheck disable=SC2016  # what is said has backquotes
shows_a_segment() {
    python3 .ci/made_sections.py add "$folder/rooms.tree" "$folder/hulled.tree" "1:$folder/cube.tree" || return 1
    look plan hulled.tree --trace -64,0,32,32,128,32
    looked && grep -q 'slice at z = 32,' "$folder/printed" && [[ $(grep -c '<text class="place"' "$folder/printed") == 2 ]] || return 1
    [[ $(grep -o ', [a-z]*, to [0-9/]*<' "$folder/printed") == $', empty, to 1/2<\n, solid, to 2/3<\n, empty, to 1/1<' ]] || return 1
    look plan hulled.tree --trace=-64,32,32,32,32,32 --hull 1
    looked && [[ $(grep -o ', [a-z]*, to [0-9/]*<' "$folder/printed") == $', empty, to 2/3<\n, solid, to 1/1<' ]] || return 1
    look plan hulled.tree --trace 32,32,32,32,32,96 --hull 1 --z 40
    looked && [[ $(grep -o ', [a-z]*, to [0-9/]*<' "$folder/printed") == $', solid, to 1/2<\n, empty, to 1/1<' ]] || return 1
    look plan hulled.tree --trace 1,2,3,1,2,3
    looked && [[ $(grep -c '<line class="span"' "$folder/printed") == 1 ]] || return 1
    look plan rooms.tree --trace 1,2,3,4,5,6 --hull 1
    refused 'rooms.tree has no clip hull 1: `qmapc compile --hulls` writes it, but not of a level that leaks' || return 1
    look plan small.tree --trace 1,2,3,4,-5000,6
    refused "4,-5000,6 is outside the cube of small.tree, which ends at 4096"
}

# the rooms with the cube, and with the rooms, as their clip hulls; with what is no hull; and the hull of a compiled level
# shellcheck disable=SC2016  # what is said has backquotes
shows_a_clip_hull() {
    python3 .ci/made_sections.py add "$folder/rooms.tree" "$folder/hulled.tree" "1:$folder/cube.tree" "2:$folder/rooms.tree" || return 1
    look plan hulled.tree --z 32 --hull 1
    looked && [[ $(grep -c ' fill="url(#blocked)"' "$folder/printed") == 2 ]] || return 1
    look plan hulled.tree --z 32 --hull 2
    looked && grep -q '>solid in hull 2</text>' "$folder/printed" && [[ $(grep -c ' fill="url(#blocked)"' "$folder/printed") == \
        $((1 + $(grep -cE ' fill="url\(#(solid|filled)\)" d=' "$folder/printed"))) ]] || return 1
    look plan rooms.tree --hull 2
    refused 'rooms.tree has no clip hull 2: `qmapc compile --hulls` writes it, but not of a level that leaks' || return 1
    # a tree with rows is none
    python3 - "$folder" <<'END' || return 1
import sys
sys.path[:0] = [".ci", "tools"]
import made_trees, treefile
names = [f"{sys.argv[1]}/{name}.tree" for name in ("rooms", "cube", "bad")]
section = treefile.Section(1, open(names[1], "rb").read())
open(names[2], "wb").write(made_trees.written(treefile.load(names[0])._replace(sections=[section])))
END
    look plan bad.tree --hull 1
    refused "section 1 of bad.tree is no clip hull: a tree file with rows or sections" || return 1
    mkdir -p "$folder/walls"
    run_program compile courtyard.map walls/courtyard.tree --fast --hulls
    [[ $status == 0 ]] || return 1
    look plan walls/courtyard.tree --hull 1 --map courtyard.map
    looked && cmp "$folder/printed" docs/courtyard_hull.svg
}

# a door whose box reaches over the height, one that does not, and which a row sees
# shellcheck disable=SC2016  # what is said has backquotes
shows_brush_models_in_a_slice() {
    bench/made_doors.py 8 >"$folder/doors.map" || return 1
    run_program compile doors.map doors.tree --models
    [[ $status == 0 ]] || return 1
    look plan doors.tree --models --z 32
    looked && [[ $(grep -c '^<g><title>entity [0-9]*, .*<path class="model"' "$folder/printed") == 6 ]] || return 1
    look plan doors.tree --models --z 4 --map doors.map
    looked && [[ $(grep -c '^<g><title>func_door room[0-9], entity' "$folder/printed") == 6 ]] || return 1
    [[ $(grep -o '<title>func_plat [^<]*' "$folder/printed") == '<title>func_plat room5, entity 7, 88,-24,0 to 120,8,8, 1 leaf
<title>func_plat room7, entity 9, -24,88,0 to 8,120,8, 1 leaf' ]] || return 1
    look plan doors.tree --models --z 32 --row 19
    (cd "$folder" && python3 - "$top" <<'END') || return 1
import re, sys
sys.path.insert(0, sys.argv[1] + "/tools")
import treefile
tree, text = treefile.load("doors.tree"), open("printed").read()
told = {int(entity): pale for pale, entity in re.findall(r"<g( opacity=\S+)?><title>entity (\d+), ", text)}
wanted = {model.entity: not tree.is_drawn(model, 19) for model in tree.models() if model.high[2] >= 32}
sys.exit(told.keys() != wanted.keys() or any(bool(told[entity]) != pale for entity, pale in wanted.items()) or len(set(wanted.values())) < 2)
END
    # the picture of the page
    mkdir -p "$folder/doors"
    look world gatehouse.map --out doors/merged.map
    run_program compile doors/merged.map doors/gatehouse.tree --fast --models
    look plan doors/gatehouse.tree --models --map gatehouse.map
    looked && cmp "$folder/printed" docs/gatehouse_doors.svg || return 1
    look plan rooms.tree --models
    refused 'rooms.tree has no brush models: `qmapc compile --models` writes them, but not of a level that leaks'
}

tells_of_doors_as_the_page_shows() {
    local words='inspect room.tree model=2 model=2,32,32,32 model=2,-1,0,0'
    grep -qxF '    ./qmapc compile samples/room.map room.tree --models' docs/EDITORS.md || return 1
    mkdir -p "$folder/doors"
    run_program compile room.map doors/room.tree --models
    # shellcheck disable=SC2086  # the words of a command
    run_program ${words/room.tree/doors/room.tree}
    [[ $status == 0 ]] && page_shows EDITORS.md "$words" | cmp - "$folder/printed"
}

# with a group for each texture, also of slanted brushes and of names with odd letters, and of a level with layers
writes_faces_as_obj() {
    local name
    look world gatehouse.map --out grouped.map
    sed '0,/ stone / s// "Two\/Words #1%" /; 0,/ stone / s// STONE /' "$folder/cube.map" >"$folder/named.map"
    python3 .ci/made_levels.py 3 10 >"$folder/slanted.map" || return 1
    for name in courtyard named slanted grouped; do
        run_program compile $name.map faced.tree --fast --faces
        [[ $status == 0 ]] || return 1
        look obj faced.tree --map $name.map --out faced.obj
        [[ $status == 0 && ! -s $folder/printed && ! -s $folder/said ]] || return 1
        python3 .ci/check_obj.py "$folder/faced.obj" "$folder/faced.tree" "$folder/$name.map" || return 1
    done
    # the map as its editor saved it, with layers, will do
    look obj faced.tree --map gatehouse.map
    looked && cmp "$folder/printed" "$folder/faced.obj" || return 1
    refuses_obj
}

# shellcheck disable=SC2016  # what is said has backquotes
refuses_obj() {
    look obj faced.tree --map courtyard.map
    refused "faced.tree was not made from courtyard.map: its faces are of other brushes" || return 1
    look obj rooms.tree --map rooms.map
    refused 'rooms.tree has no faces: `qmapc compile --faces` writes them, but not of a level that leaks' || return 1
    look obj faced.tree --map faced.tree
    refused "faced.tree is no map: line 1: no entity begins there" || return 1
    look obj faced.tree --map missing.map
    refused "missing.map: No such file or directory" || return 1
    look obj faced.tree --map grouped.map --out no_such_folder/faced.obj
    refused "no_such_folder/faced.obj: No such file or directory" || return 1
    python3 - "$folder" <<'END' || return 1
import sys
sys.path[:0] = [".ci", "tools"]
import made_sections, made_trees, treefile
tree = treefile.load(sys.argv[1] + "/faced.tree")
data = made_sections.stored_faces([(0, 0, 0, [(0, 1, -1)] * 2)])
open(sys.argv[1] + "/bad4.tree", "wb").write(made_trees.written(tree._replace(sections=[treefile.Section(4, data)])))
END
    look obj bad4.tree --map grouped.map
    refused "bad4.tree: section 4 has no faces: form at byte 8" || return 1
    look obj faced.tree
    [[ $status == 2 && ! -s $folder/printed ]] && grep -q '^usage: qmlook obj' "$folder/said"
}

# what the lists of tools/manual give: the page, the completion, and the words of the program
has_a_manual() {
    tools/manual --check || return 1
    run_program
    [[ $status == 2 ]] && tools/manual --usage | cmp - "$folder/printed" || return 1
    # the queries and the statuses are those of the page of editors
    diff <(sed -n '/^\.SH QUERIES/,/^\.PP/ s/^\\fB\(.*\)\\fR$/\1/p' docs/qmapc.1 | sort) \
        <(sed -n '/^| Query | Answer |/,/^$/ s/^| `\([^`]*\)` |.*/\1/p' docs/EDITORS.md | sort) || return 1
    diff <(sed -n '/^\.SH EXIT STATUS/,/^\.SH EXAMPLES/ s/^\\fB\([0-9]*\)\\fR$/\1/p' docs/qmapc.1) \
        <(sed -n '/^### Statuses/,/^### The/ s/^| \([0-9]\) |.*/\1/p' docs/EDITORS.md) || return 1
    if command -v groff >/dev/null; then
        groff -man -Tascii -ww docs/qmapc.1 >"$folder/printed" 2>"$folder/said" && [[ -s $folder/printed && ! -s $folder/said ]] || return 1
    else
        echo "groff is not installed: docs/qmapc.1 was not formatted"
    fi
    status=0
    tools/manual --more >"$folder/printed" 2>"$folder/said" || status=$?
    [[ $status == 2 && $(<"$folder/said") == "manual: usage: "* ]]
}

# bash completes the last of these words to those
completed() { # completed WORDS WORD..
    local words=$1 found
    shift
    # shellcheck disable=SC2016  # the words of the shell below
    found=$(cd "$folder/completing" && bash -c '. "$1"; read -ra COMP_WORDS <<<"qmapc $2"; [[ $2 && $2 != *" " ]] || COMP_WORDS+=("")
        COMP_CWORD=$((${#COMP_WORDS[@]} - 1)); _qmapc; printf "%s\n" "${COMPREPLY[@]}"' bash "$top/tools/completion/qmapc" "$words" | sort | xargs)
    [[ $found == "$*" ]] && return
    echo "'$words' is completed to '$found', and should be to '$*'"
    return 1
}

completes_words() {
    mkdir -p "$folder/completing/maps"
    touch "$folder/completing/"{one.map,two.map,one.tree,notes.txt}
    completed '' compile demo format inspect upgrade && completed 'up' upgrade && completed 'compile ' maps one.map two.map &&
        completed 'compile one.map o' one.map one.tree && completed 'compile one.map out.tree --f' --faces --fast &&
        completed 'compile --prt o' one.map one.tree && completed 'compile --threads ' && completed 'compile --threads 4 --fast t' two.map &&
        completed 'compile --prt = p.prt t' two.map && completed 'compile one.map out.tree x' && completed 'inspect ' maps one.tree &&
        completed 'inspect one.tree h' hull= hulltrace= && completed 'inspect one.tree count f' face= faces && completed 'upgrade o' one.tree &&
        completed 'demo ' && completed 'format t' two.map
}

makes_point_files() {
    local name
    for name in hole courtyard_leak; do
        look points $name.tree --leak "$(<"$folder/$name.trail")"
        looked && python3 .ci/check_points.py "$folder/$name.tree" "$folder/printed" "$(<"$folder/$name.trail")" || return 1
    done
    look points hole.tree --leak "8 6 0"
    printf '0 0 48\n64 0.5 48\n72 0.5 48\n80 0.5 48\n%s 0 0\n%s 0 0\n' $(((80 + extent) / 2)) "$extent" | cmp - "$folder/printed" || return 1
    # a world that is one leaf
    echo '{ } { "origin" "0 0 0" }' >"$folder/open.map"
    run_program compile open.map open.tree
    look plan open.tree --leak 0
    looked || return 1
    look points open.tree --leak 0
    printf '0 0 0\n-%s 0 0\n' "$extent" | cmp - "$folder/printed"
}

# the three rooms in version 1, and with sections; and the room with a hole in a smaller world and in a larger one
made_of_rooms() {
    python3 - "$folder" <<'END'
import sys
sys.path[:0] = [".ci", "tools"]
import made_trees, treefile
seen, hole = (treefile.load(f"{sys.argv[1]}/{name}.tree") for name in ("seen", "hole"))
sections = [treefile.Section(2, b"abc"), treefile.Section(5, bytes(range(256)))]
trees = {"first": seen._replace(version=1), "parts": seen._replace(sections=sections), "small": hole._replace(bound=treefile.BOUNDS[0]),
         "large": hole._replace(bound=treefile.BOUNDS[-1])}
for name, tree in trees.items():
    open(f"{sys.argv[1]}/{name}.tree", "wb").write(made_trees.written(tree))
END
}

# of what is printed the bytes of the file can be made again
prints_a_tree_as_json() {
    local name
    made_of_rooms || return 1
    for name in seen first parts; do
        look json $name.tree
        looked && python3 - "$folder" $name <<'END' || return 1
import base64, json, sys
sys.path[:0] = [".ci", "tools"]
import made_trees
seen = json.load(open(sys.argv[1] + "/printed"))
nodes = [(node["plane"], node["front"], node["back"]) for node in seen["nodes"]]
leaves = [(made_trees.CODES[leaf["contents"]], leaf["filled"]) for leaf in seen["leaves"]]
sections = [(section["kind"], base64.b64decode(section["bytes"])) for section in seen["sections"]]
rows = [set(row) for row in seen["rows"]]
again = made_trees.tree_file(seen["planes"], nodes, leaves, rows, seen["version"], seen["bound"], sections)
numbers = [leaf["number"] for leaf in seen["leaves"] if leaf["number"] is not None]
sys.exit(again != open(f"{sys.argv[1]}/{sys.argv[2]}.tree", "rb").read() or numbers != [0, 1, 2, 3, 4] or seen["rows"][4] != [2, 3, 4])
END
    done
}

# the same pictures of both versions; and in a smaller world and a larger one slices reach its walls, and so does a leak line
shows_both_versions_and_both_worlds() {
    made_of_rooms || return 1
    look plan seen.tree --row 4
    sed 's/seen[.]tree/any.tree/' "$folder/printed" >"$folder/whole"
    local name
    for name in first parts; do
        look plan $name.tree --row 4
        looked && sed "s/$name[.]tree/any.tree/" "$folder/printed" | cmp - "$folder/whole" || return 1
    done
    for name in small large; do
        (cd "$folder" && python3 "$top/.ci/check_plans.py" $name.tree && python3 "$top/.ci/check_surfaces.py" $name.tree) || return 1
        look points $name.tree --leak "$(<"$folder/hole.trail")"
        looked && python3 .ci/check_points.py "$folder/$name.tree" "$folder/printed" "$(<"$folder/hole.trail")" || return 1
    done
    look plan large.tree --z 5000
    looked
}

says_how_the_tools_are_used() {
    local words
    for words in '' 'plan' 'points hole.tree' 'faces' 'faces hole.map more' 'json' 'draw hole.tree' 'plan hole.tree --z 32768' 'plan hole.tree --z 1/0' \
        'plan hole.tree --trace 1,2,3' 'plan hole.tree --trace=1,2,3,4,5,6,7' 'plan hole.tree --trace 1,2,3,4,5,x' \
        'plan hole.tree --row -1' 'plan hole.tree --hull' 'plan hole.tree --hull 3' 'plan hole.tree --hull=0' 'plan hole.tree --row=x' 'points hole.tree --leak=8,6' 'points hole.tree --leak=' \
        'plan hole.tree --lea=8' 'json hole.tree more' 'world' 'world hole.map more' 'world hole.map --out'; do
        # shellcheck disable=SC2086  # the words of a command
        look $words
        [[ $status == 2 && ! -s $folder/printed ]] && grep -q '^usage: qmlook' "$folder/said" || return 1
    done
    look plan --help
    looked && grep -q '^usage: qmlook plan' "$folder/printed"
}

says_what_is_no_tree_file() {
    local words
    head -c 100 "$folder/cube.tree" >"$folder/cut.tree"
    { cat "$folder/cube.tree" && printf x; } >"$folder/longer.tree"
    truncate -s 1073741825 "$folder/huge.tree"
    for words in plan json "points --leak=0"; do
        # shellcheck disable=SC2086
        look $words room.map
        refused "room.map is no tree file: magic at byte 0" || return 1
        # shellcheck disable=SC2086
        look $words cut.tree
        refused "cut.tree is no tree file: short at byte 100" || return 1
        # shellcheck disable=SC2086
        look $words missing.tree
        refused "missing.tree: No such file or directory" || return 1
    done
    look json longer.tree
    refused "longer.tree is no tree file: trailing at byte $(stat -c %s "$folder/cube.tree")" || return 1
    look json huge.tree
    refused "huge.tree is no tree file: too long at byte 1073741824" || return 1
    look json .
    refused ".: Is a directory"
}

says_what_a_tree_does_not_have() {
    look points hole.tree --leak "8 0"
    refused "leaf 8 does not touch leaf 0" || return 1
    look points hole.tree --leak "8 8"
    refused "leaf 8 does not touch leaf 8" || return 1
    look points hole.tree --leak "8 15"
    refused "there is no leaf 15" || return 1
    look plan hole.tree --leak "8 6"
    refused "leaf 6 does not touch the outside" || return 1
    look plan small.tree --z=-4096
    refused "-4096 is outside the cube of small.tree, which ends at 4096" || return 1
    look plan hole.tree --row 0
    refused "hole.tree has no rows" || return 1
    look plan seen.tree --row 5
    refused "seen.tree has no row 5: its rows are numbered from 0 to 4"
}

says_what_is_no_listing() {
    local wrong
    look plan rooms.tree --prt room.map
    refused "room.map is no listing of portals: line 1 is not PRT1" || return 1
    sed '2s/5/x/' "$folder/rooms.prt" >"$folder/no.prt"
    look plan rooms.tree --prt no.prt
    refused "no.prt is no listing of portals: lines 2 and 3 are not how many leaves and portals there are" || return 1
    sed '$d' "$folder/rooms.prt" >"$folder/no.prt"
    look plan rooms.tree --prt no.prt
    refused "no.prt is no listing of portals: there are not 4 portals, a line each" || return 1
    # a number in two, a corner too many for its count, a portal from a leaf to itself, and one to a leaf that is not there
    for wrong in '5s/64/6 4/' '5s/^4/3/' '5s/1 2/1 1/' '5s/1 2/1 5/'; do
        sed "$wrong" "$folder/rooms.prt" >"$folder/no.prt"
        look plan rooms.tree --prt no.prt
        refused "no.prt is no listing of portals: line 5 is not a portal" || return 1
    done
    look plan cube.tree --prt rooms.prt
    refused "rooms.prt is a listing of another tree: it has 5 leaves, and the tree 6" || return 1
    look plan rooms.tree --prt missing.prt
    refused "missing.prt: No such file or directory"
}

# qmlook printed just what a file of the folder has, and said how much it moved
moved() { # moved FILE WORDS
    [[ $status == 0 && $(<"$folder/said") == "qmlook: moved $2 into the world" ]] && cmp "$folder/$1" "$folder/printed"
}

# the courtyard with its last brushes, the sky first, in an entity of a class: layers.map as an editor writes it, whose lines end
# so, and what becomes of it in layers.moved
puts_brushes_on_a_layer() { # puts_brushes_on_a_layer CLASS ENDS
    local layer="{\n\"classname\" \"$1\"\n\"_tb_name\" \"\xe9\""
    sed '/^\/\/ brush 28:/,$d' "$folder/courtyard.map" >"$folder/before"
    sed -n '/^\/\/ brush 28:/,/^\/\/ entity/p' "$folder/courtyard.map" | head -n -2 >"$folder/above"
    sed -n '/^\/\/ entity 1/,$p' "$folder/courtyard.map" >"$folder/behind"
    (
        cd "$folder" || exit
        { cat before && printf '}\n%b\n' "$layer" && cat above && printf '}\n' && cat behind; } | sed "s/\$/$2/" >layers.map
        { cat before above && printf '}\n%b\n}\n' "$layer" && cat behind; } | sed "s/\$/$2/" >layers.moved
    )
}

# without the brushes of a layer the courtyard leaks; with them it is what it was, byte by byte
moves_groups_into_the_world() {
    local class ends
    for class in func_group func_detail; do
        for ends in '' $'\r'; do
            puts_brushes_on_a_layer $class "$ends"
            look world layers.map
            moved layers.moved "9 brushes of 1 entity" || return 1
            run_program compile layers.map layers.tree
            [[ $status == 3 ]] || return 1
            run_program compile layers.moved layers.tree
            [[ $status == 0 ]] && cmp "$folder/courtyard.tree" "$folder/layers.tree" || return 1
        done
    done
    look world layers.map --out world.map
    [[ $status == 0 && ! -s $folder/printed ]] && cmp "$folder/layers.moved" "$folder/world.map" || return 1
    look world world.map
    moved world.map "0 brushes of 0 entities" || return 1
    # from a pipe into a pipe
    (cd "$folder" && set -o pipefail && "$top/tools/qmlook" world /dev/stdin <layers.map 2>said | cat >printed) || return 1
    moved layers.moved "9 brushes of 1 entity"
}

# the words that the page gives to each editor make of the layers what they were before
# shellcheck disable=SC2016  # the editor's own names of files
compiles_as_the_editors_do() {
    local line
    local -a words
    run_program compile courtyard.map fast.tree --fast
    cp "$folder/layers.map" "$folder/level-compile.map"
    cp "$folder/layers.map" "$folder/a level.map"
    while read -ra words; do
        (cd "$folder" && "${words[@]//'${MAP_BASE_NAME}'/level}" >/dev/null 2>&1) || return 1
    done < <(sed -n 's/.*Tool path: `REPOSITORY\(.*\)`\. Parameters: `\(.*\)`\. Let .*/\1 \2/p' docs/EDITORS.md |
        sed "s|^/tools/|$top/tools/|")
    cmp "$folder/fast.tree" "$folder/level.tree" || return 1
    line=$(sed -n 's/^ *\("REPOSITORY.*\[MapFile\].*\)/\1/p' docs/EDITORS.md)
    line=${line//REPOSITORY/$top}
    sh -c "${line//'[MapFile]'/$folder/a level.map}" >"$folder/printed" 2>"$folder/said" || return 1
    cmp "$folder/fast.tree" "$folder/a level.tree" && cmp "$folder/printed" "$folder/a level.map.log"
}

# what is moved stands apart from its new neighbours, and entities of other classes keep their brushes
moves_nothing_else() {
    local face='( 0 0 0 ) ( 0 1 0 ) ( 1 0 0 ) {x 0 0 0 1 1' class
    cat >"$folder/dense.map" <<END
{ "a" "}"} { "b" "c"//d { "e
"classname" "func_group"{ $face } //f }
{ "}" 0 0 0 1 1 } "g" "}"//h
}
END
    cat >"$folder/dense.moved" <<END
{ "a" "}"
{ $face } //f }
{ "}" 0 0 0 1 1 }
} { "b" "c"//d { "e
"classname" "func_group" "g" "}"//h
}
END
    look world dense.map
    moved dense.moved "2 brushes of 1 entity" || return 1
    for class in func_detail_wall func_detail_illusionary func_groups Func_Group 'func_group ' func_door; do
        echo "{ } { \"classname\" \"$class\" \"classname\" \"func_group\" { $face } }" >"$folder/others.map"
        look world others.map
        moved others.map "0 brushes of 0 entities" || return 1
    done
    # the world is the first entity, whatever its class
    echo "{ \"classname\" \"func_group\" { $face } } { \"classname\" \"func_group\" }" >"$folder/others.map"
    look world others.map
    moved others.map "0 brushes of 0 entities"
}

says_what_is_no_map() {
    local text words
    while IFS='|' read -r text words; do
        printf '%b' "$text" >"$folder/no.map"
        look world no.map
        refused "no.map is no map: $words" || return 1
    done <<'END'
|it has no entity
// a comment alone|it has no entity
{ } { { ( 0|it ends inside an entity
{ }\n}|line 2: no entity begins there
{ }\n// {\nx { }|line 3: no entity begins there
{ }\n{\n"a" "b\n\n|line 3: a quote is not closed
{ "a" }|line 1: a key has no value
{ "a"\n{ x } }|line 2: a key has no value
{ a }|line 1: neither a pair nor a brush begins there
{ {\n( 0 0 0 )\n{ }|line 3: a brush is not ended
END
    look world missing.map
    refused "missing.map: No such file or directory" || return 1
    look world courtyard.map --out no_such_folder/world.map
    refused "no_such_folder/world.map: No such file or directory" || return 1
    look world courtyard.map --out /dev/full
    refused "/dev/full: No space left on device" || return 1
    status=0
    (cd "$folder" && : >printed && "$top/tools/qmlook" world courtyard.map >/dev/full 2>said) || status=$?
    refused "standard output: No space left on device"
}

# qmlook lists these lines, of so many faces
listed() { # listed LINES FACES
    local lines=0
    [[ -z $1 ]] || lines=$(wc -l <<<"$1")
    [[ $status == 0 && $(<"$folder/printed") == "$1" && $(<"$folder/said") == "qmlook: faces that are refused: $lines of $2" ]] && return
    echo "ended with $status, and listed: $(<"$folder/printed")"
    return 1
}

# what the program says of a map whose second face has these points
formats_face() { # formats_face POINTS
    printf '{ } { } { {\n( 0 0 0 ) ( 0 1 0 ) ( 1 0 0 ) x 0 0 0 1 1 }\n{ %s x 0 0 0 1 1 } }' "$1" >"$folder/faces.map"
    run_program format faces.map faces.out
}

# by itself a face is refused by the program as it is listed, and with the points that are named it is taken
lists_faces_as_the_program_refuses_them() {
    local points fault near
    while IFS='|' read -r points fault near; do
        formats_face "$points"
        if [[ -z $fault ]]; then
            [[ $status == 0 ]] && look faces faces.map && listed '' 2 || return 1
            continue
        fi
        [[ $status == 4 && $(<"$folder/printed") == "map fault "*" at line 3: $fault" ]] || return 1
        look faces faces.map
        listed "line 3, entity 2, brush 1: $fault; ${near:-no points near these serve}" 2 || return 1
        [[ -z $near ]] || formats_face "${near#*: }"
        [[ -z $near || $status == 0 ]] || return 1
    done <<END
( 8192 1 0 ) ( 0 0 0 ) ( 0 8192 1 )
( 10000 1 0 ) ( 0 0 0 ) ( 1 10000 1 )|plane too fine|on the grid of 2: ( 10000 0 0 ) ( 0 0 0 ) ( 0 10000 0 )
( 4097 0 0 ) ( 4097 1 0 ) ( 4097 0 1 )
( 8.192 .001 0 ) ( 0 0 0 ) ( 0 8.192 .001 )
( 0 8.192 -.001 ) ( 0 0 0 ) ( 8.192 -.001 0 )
( 10 .001 0 ) ( 0 0 0 ) ( .001 10 .001 )|plane too fine|on the grid of 1/500: ( 10 0 0 ) ( 0 0 0 ) ( 0 10 0 )
( .001 10 .001 ) ( 0 0 0 ) ( 10 .001 0 )|plane too fine|on the grid of 1/500: ( 0 10 0 ) ( 0 0 0 ) ( 10 0 0 )
( -480 -872.723 1063.236 ) ( -1248 -872.723 1063.236 ) ( -480 -750.477 369.933 )|plane too fine|on the grid of 1/500: ( -480 -872.724 1063.236 ) ( -1248 -872.724 1063.236 ) ( -480 -750.476 369.932 )
( 0.5000 0 0 ) ( 0.5 1 0 ) ( 0.5 0 1 )
( 64.000 +64 64. ) ( -0 .5 -.125 ) ( 0 0 .1250 )
( 0.0005 0 0 ) ( 0.5 1 0 ) ( 0.5 0 1 )|fraction|on the grid of 1/1000: ( 0 0 0 ) ( 0.5 1 0 ) ( 0.5 0 1 )
( 63.9999 0 0 ) ( 64 .0001 0 ) ( 64 0 1 )|fraction|
( $extent.0001 0 0 ) ( 0 $extent 0 ) ( 0 0 1 )|fraction|
( 1e-5 0 0 ) ( 0.5 1 0 ) ( 0.5 0 1 )|bad number|on the grid of 1/1000: ( 0 0 0 ) ( 0.5 1 0 ) ( 0.5 0 1 )
( 0.1 0.1 0.1 ) ( 0.2 0.2 0.2 ) ( 0.7 0.7 0.7 )|no normal|
( 50 $extent.001 0 ) ( 50 0 0 ) ( 50 0 1 )|coordinate out of range|on the grid of 1/1000: ( 50 $extent 0 ) ( 50 0 0 ) ( 50 0 1 )
( -$((extent + 8)) 0 0 ) ( 0 $extent 0 ) ( 0 0 1 )|coordinate out of range|
( $extent -$extent.000 0 ) ( $extent 0 0 ) ( $extent 0 1 )
END
}

# all faces, in both forms, of all entities; and texts of which it is not said what their faces are
lists_all_faces() {
    local text words
    {
        printf '{ "a" "{ (" { // ( 0\r\n( 0 0 0 ) ( 1 0\r\n0 ) ( 2 0 0 //)\r\n) "( 1 0" [ 1 0 0 0 ] [ 0 1 0 0 ] 0 1 1 ( 0 0\n'
        echo '1.0001 ) ( 1 0 1.0001 ) ( 0 1 1.0001 ) (x 0 0 0 1 1 7 7 7 } }'
        echo '{ { ( 0 0 9 ) ( 1 0 9 ) ( 0 1 9 ) {x 0 0 0 1 1 } { ( 0 0 0 ) ( 0 0 0 ) ( 0 0 0 ) x//y 0 0 0 1 1 } }'
    } >"$folder/faces.map"
    look faces faces.map
    listed "line 4, entity 0, brush 0: no normal; no points near these serve
line 5, entity 0, brush 0: fraction; on the grid of 1/1000: ( 0 0 1 ) ( 1 0 1 ) ( 0 1 1 )
line 6, entity 1, brush 1: no normal; no points near these serve" 4 || return 1
    for text in room.map courtyard.map; do
        look faces $text
        listed '' "$(grep -c '^( ' "$folder/$text")" || return 1
    done
    while IFS='|' read -r text words; do
        printf '%b' "$text" >"$folder/no.map"
        look faces no.map
        refused "no.map is no map: $words" || return 1
    done <<'END'
|it has no entity
{ { ( 0 0 0 )|it ends inside an entity
{ {\nx } }|line 2: no three points of a face stand there
{ { ( 0 0 0 )\n( 0 0 1 ) } }|line 2: no three points of a face stand there
{ { ( 0 0 0 )\n( 0 0 1 )\n( 0 x 1 ) x 0 0 0 1 1 } }|line 3: no three points of a face stand there
{ { ( 0 0 0 0 )\n( 0 0 1 ) ( 0 x 1 ) x 0 0 0 1 1 } }|line 1: no three points of a face stand there
END
    look faces missing.map
    refused "missing.map: No such file or directory"
}

# what docs/EDITORS.md says of planes that are too fine. Twice the area of a triangle, as one looks along an axis, is a component of
# its normal, and at most the product of two sides of a box around the points. With whole points the numbers of the plane are whole,
# and 8192 * 8192 is 2^26. With points on the grid of 1/K the components are whole when they are taken K * K times, and the distance
# with them K times more: so K * K * K times the product is a bound, and 8 * 8 * 8 * 362 * 362 is less than 2^26.
finds_no_plane_too_fine_near_by() {
    python3 - <<'END'
import random, sys
sys.path.insert(0, "tools")
from faces import GREATEST, UNIT, is_too_fine, outward


def plane_of(places, parts):
    """The plane of three points that are counted in parts of a unit."""
    return outward([[UNIT * number // parts for number in place] for place in places])


draw = random.Random(9)
for side, parts in (8192, 1), (362, 8):
    if side ** 2 * parts ** 3 > GREATEST:
        sys.exit(f"the bound of {side} does not follow")
    far = side * parts
    for _ in range(1000):
        low = [draw.randint(-32768 * parts, 32768 * parts - far) for _ in range(3)]
        places = [[at + draw.choice((0, 1, far - 1, far, draw.randint(0, far))) for at in low] for _ in range(3)]
        plane = plane_of(places, parts)
        if plane and is_too_fine(plane):
            sys.exit(f"the plane of {places} in parts of 1/{parts} is too fine")
    far += parts
    if not is_too_fine(plane_of([[far + 1, 1, 0], [1, 0, 0], [1, far, 1]], parts)):
        sys.exit(f"points that are {side + 1} apart are near enough too")
END
}

answers_as_the_slow_reader_finds() {
    run_program compile courtyard.map hulled.tree --fast --hulls --models --faces
    [[ $status == 0 ]] || return 1
    look world gatehouse.map --out grouped.map
    run_program compile grouped.map grouped.tree --fast --models
    [[ $status == 0 ]] || return 1
    (cd "$folder" && python3 "$top/.ci/compare_answers.py" "$program" {cube,hole,rooms,rooms8,courtyard,courtyard_leak,hulled,grouped}.tree)
}

finds_models_as_slow_ones_are() {
    python3 .ci/compare_models.py "$program"
}

finds_faces_as_slow_ones_are() {
    python3 .ci/compare_faces.py "$program"
}

traces_as_the_slow_trace_finds() {
    (cd "$folder" && python3 "$top/.ci/compare_traces.py" "$program" -n 60 cube.tree courtyard.tree)
}

agrees_with_the_page_on_tree_files() {
    local name
    for name in cube rooms courtyard; do
        run_program compile $name.map faces_of_$name.tree --fast --faces
        [[ $status == 0 ]] || return 1
    done
    run_program compile room.map door.tree --models --hulls
    [[ $status == 0 ]] || return 1
    python3 .ci/check_treefile_page.py "$folder" faces_of_{cube,rooms,courtyard}.tree hole.tree door.tree
}

loads_tree_files_in_c() {
    look world gatehouse.map --out grouped.map
    run_program compile grouped.map gatehouse.tree --fast --models --hulls --faces
    [[ $status == 0 ]] || return 1
    python3 .ci/check_qmtree.py "$folder" room.tree courtyard.tree gatehouse.tree
}

cp samples/*.map "$folder/"
check "the samples compile, and leak where they should" compiles_the_samples
check "inspect answers as the slow reader finds" answers_as_the_slow_reader_finds
check "inspect traces segments as the slow trace finds" traces_as_the_slow_trace_finds
check "brush models are those that plain slow fractions give" finds_models_as_slow_ones_are
check "faces are those that plain slow fractions give" finds_faces_as_slow_ones_are
check "tools: the pictures of the pages are those of the samples" draws_what_the_pages_show
check "tools: the entities of a map are marked, at a player's height" marks_the_entities
check "tools: each kind of contents has a fill of its own" draws_each_kind_of_contents
check "tools: slices agree with their trees, and no texts overlap" draws_slices_that_agree_with_the_tree
check "tools: a row and the portals of a listing are drawn" draws_rows_and_portals
check "tools: a clip hull is drawn, and refused where there is none" shows_a_clip_hull
check "inspect tells of doors as the page shows" tells_of_doors_as_the_page_shows
check "tools: brush models are drawn, and refused where there are none" shows_brush_models_in_a_slice
check "tools: faces are written as an OBJ, and refused where there are none" writes_faces_as_obj
check "tools: the manual page and the completion have the words of the program" has_a_manual
check "tools: bash completes the words of the program" completes_words
check "tools: point files go through the leaves of their trails alone" makes_point_files
check "tools: a tree as JSON has all of its file" prints_a_tree_as_json
check "tools: both versions of a tree file are shown, and a larger world" shows_both_versions_and_both_worlds
check "tools: a segment is drawn with its spans" shows_a_segment
check "tools: words that are no command get the usage line, and status 2" says_how_the_tools_are_used
check "tools: a file that is no tree file is refused, and status 1" says_what_is_no_tree_file
check "tools: a trail, a leaf or a row that a tree does not have is refused" says_what_a_tree_does_not_have
check "tools: a file that is no listing is refused" says_what_is_no_listing
check "tools: brushes of groups are moved into the world, and nothing else changes" moves_groups_into_the_world
check "tools: both editors compile a level with layers as the page says" compiles_as_the_editors_do
check "tools: brushes of other entities stay, and what is moved stands apart" moves_nothing_else
check "tools: a text that is no map is refused" says_what_is_no_map
check "tools: faces are listed as the program refuses them, and what is named instead is taken" lists_faces_as_the_program_refuses_them
check "tools: all faces that are refused are listed" lists_all_faces
check "tools: points that are near enough give no plane that is too fine" finds_no_plane_too_fine_near_by
check_fully "tools: docs/look.c finds leaves, rows, hulls, models and faces" agrees_with_the_page_on_tree_files
check_fully "tools: docs/qmtree.h finds in tree files, damaged ones too, what the slow reader finds" loads_tree_files_in_c
