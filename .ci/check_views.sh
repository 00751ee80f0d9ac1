# shellcheck shell=bash disable=SC2154
# Sourced by .ci/checks, behind check_tools.sh, whose functions and trees it uses: the page and the pictures in which one looks
# at a level from inside.

# and the same one made small and moved off the whole numbers, which has as many of all parts
compiles_a_made_level() {
    python3 .ci/made_levels.py 1 10 >"$folder/made.map" || return 1
    run_program compile made.map made.tree
    [[ $status == 0 ]] && grep -v '^seen' "$folder/printed" >"$folder/parts" || return 1
    python3 .ci/made_variants.py "$folder/made.map" 3/1000 100.5,-7.125,3.001 >"$folder/fine.map" || return 1
    run_program compile fine.map fine.tree
    [[ $status == 0 ]] && grep -v '^seen' "$folder/printed" | cmp - "$folder/parts" || return 1
    # one where chains come to some portals more than twenty times, so that searches are made
    python3 .ci/made_levels.py 1 16 >"$folder/searched.map" || return 1
    run_program compile searched.map searched.tree --threads 2
    [[ $status == 0 ]] || return 1
    run_program compile courtyard.map courtyard.tree --prt courtyard.prt
    [[ $status == 0 ]]
}

draws_the_views_of_the_pages() {
    look picture courtyard.tree --from 392,-176,110 --to 60,60,50
    looked && cmp "$folder/printed" docs/courtyard_view.svg || return 1
    look picture courtyard_leak.tree --from 60,560,330 --to -130,250,30 --leak "$(<"$folder/courtyard_leak.trail")"
    looked && cmp "$folder/printed" docs/courtyard_leak_view.svg || return 1
    look picture courtyard.tree --from 40,-420,520 --to 70,50,0 --row -208,-128,24
    looked && cmp "$folder/printed" docs/courtyard_row.svg
}

draws_what_a_row_holds() {
    look picture courtyard.tree --from -208,-128,24 --to 0,0,32
    looked && python3 -c 'import sys, xml.dom.minidom as dom; dom.parse(sys.argv[1])' "$folder/printed" || return 1
    sed '/<text/d' "$folder/printed" >"$folder/whole"
    # the row leaves nothing out that is seen from its own leaf; the title alone says that it is asked for
    look picture courtyard.tree --from -208,-128,24 --to 0,0,32 --row
    looked && grep -q ', row 53 sees 37 of 55 leaves<' "$folder/printed" && sed '/<text/d' "$folder/printed" | cmp - "$folder/whole" || return 1
    # the third room is not seen from the first
    look picture seen.tree --from 0,0,600 --to 0,0,0
    looked && cp "$folder/printed" "$folder/whole" || return 1
    look picture seen.tree --from 0,0,600 --to 0,0,0 --row=-64,0,32
    looked && [[ $(grep -c ', not in the row</title>' "$folder/printed") -gt 0 ]] || return 1
    [[ $(grep 'class="surface"' "$folder/printed" | grep -vc ', not in the row<') -lt $(grep -c 'class="surface"' "$folder/whole") ]]
}

# from above, and from inside
draws_each_kind_in_its_colour() {
    local kind above below
    while read -r kind above below; do
        look picture "$kind.tree" --from 392,-176,110 --to 60,60,50
        looked && grep -q "fill=\"#$above\" fill-opacity" "$folder/printed" || return 1
        [[ $(grep -c '>sky</text>' "$folder/printed") == 1 && $(grep -c ">$kind</text>" "$folder/printed") == 1 ]] || return 1
        look picture "$kind.tree" --from 160,-40,20 --to 160,-40,60
        looked && grep -q "fill=\"#$below\" fill-opacity" "$folder/printed" || return 1
    done <<'END'
water 3570b4 20446e
slime 608a28 3a5419
lava ce5818 7d360f
END
}

fills_the_borders_of_solid_leaves() {
    (cd "$folder" && python3 "$top/.ci/check_surfaces.py" cube.tree hole.tree rooms.tree courtyard.tree made.tree fine.tree)
}

draws_slices_between_whole_heights() {
    (cd "$folder" && python3 "$top/.ci/check_plans.py" fine.tree) || return 1
    look plan fine.tree
    looked
}

shows_what_is_seen_along_rays() {
    (cd "$folder" && python3 "$top/.ci/check_views.py" rooms.tree courtyard.tree made.tree searched.tree courtyard_leak.tree)
}

# the page of a tree begins at this place
begins_at() { # begins_at PLACE
    looked && grep -q "^const LEVEL = .*\"at\": \[$1\]" "$folder/printed"
}

writes_a_page() {
    look view courtyard.tree --at=-208,1/2,24
    begins_at '-208.0, 0.5, 24.0' || return 1
    look view courtyard.tree --at=-208,1/2,24 --map courtyard.map
    begins_at '-208.0, 0.5, 24.0' && grep -q '"entities": \[{"kind": "player start"' "$folder/printed" || return 1
    look view courtyard_leak.tree --leak "$(<"$folder/courtyard_leak.trail")"
    begins_at '-192.0, -112.0, 64.0' || return 1
    # without a place, in the middle of the largest leaf that is not solid
    look view room.tree
    begins_at '0.0, 0.0, 48.0' || return 1
    look view made.tree
    looked && python3 .ci/check_pages.py "$folder/printed" "$folder/made.tree" || return 1
    # and with the clip hull of players
    run_program compile courtyard.map walled.tree --hulls
    [[ $status == 0 ]] || return 1
    look view walled.tree --map courtyard.map --prt courtyard.prt
    begins_at '-208.0, -128.0, 46.0' && cp "$folder/printed" "$folder/page.html" || return 1
    python3 .ci/check_pages.py "$folder/page.html" "$folder/walled.tree" "$folder/courtyard.prt" "$folder/courtyard.map" || return 1
    python3 .ci/made_sections.py add "$folder/rooms.tree" "$folder/hulled.tree" "1:$folder/cube.tree" && look view hulled.tree || return 1
    looked && python3 .ci/check_pages.py "$folder/printed" "$folder/hulled.tree" || return 1
    look view bad.tree
    refused "section 1 of bad.tree is no clip hull: a tree file with rows or sections"
}

# walls by the faces of the tree file, in the page and in a picture: in the colours of textures, with lines where faces of brushes end
draws_walls_by_faces() {
    local name
    run_program compile courtyard.map faced.tree --fast --faces
    [[ $status == 0 ]] || return 1
    look view faced.tree
    looked && grep -q '"ends": null' "$folder/printed" && python3 .ci/check_pages.py "$folder/printed" "$folder/faced.tree" || return 1
    look view faced.tree --map courtyard.map
    looked && cp "$folder/printed" "$folder/faced.html" || return 1
    python3 .ci/check_page_faces.py "$folder/faced.html" "$folder/faced.tree" "$folder/courtyard.map" || return 1
    look picture faced.tree --from 392,-176,110 --to 60,60,50 --map courtyard.map
    looked && grep -q '<title>leaf [0-9]*, empty, before solid, brush 35, face [0-9], marble</title>' "$folder/printed" || return 1
    [[ $(grep -c '>brick</text>' "$folder/printed") == 1 && $(grep -c '>wall</text>' "$folder/printed") == 0 ]] || return 1
    grep -q '<path class="end"' "$folder/printed" || return 1
    look picture faced.tree --from 392,-176,110 --to 60,60,50
    looked && [[ $(grep -c '>wall</text>' "$folder/printed") == 1 ]] && ! grep -q '<path class="end"' "$folder/printed" || return 1
    # a map with layers counts as merged, and of another map there are no textures
    look world gatehouse.map --out grouped.map
    run_program compile grouped.map grouped.tree --fast --faces
    for name in grouped gatehouse; do
        look picture grouped.tree --from 0,0,64 --to 100,40,64 --map $name.map
        looked && mv "$folder/printed" "$folder/$name.svg" || return 1
    done
    cmp "$folder/grouped.svg" "$folder/gatehouse.svg" || return 1
    look picture grouped.tree --from 0,0,64 --to 100,40,64 --map courtyard.map
    [[ $status == 0 && $(<"$folder/said") == "qmlook: grouped.tree was not made from courtyard.map: walls have no textures" ]] || return 1
    run_program compile made.map faced_made.tree --fast --faces
    [[ $status == 0 ]] || return 1
    (cd "$folder" && python3 "$top/.ci/check_surfaces.py" faced.tree faced_made.tree && python3 "$top/.ci/check_views.py" faced.tree)
}

# eight rooms with a door each, of which a row sees some
shows_brush_models() {
    bench/made_doors.py 8 >"$folder/doors.map" || return 1
    run_program compile doors.map doors.tree --models
    [[ $status == 0 ]] || return 1
    look view doors.tree --map doors.map
    looked && cp "$folder/printed" "$folder/doors.html" || return 1
    python3 .ci/check_pages.py "$folder/doors.html" "$folder/doors.tree" || return 1
    python3 .ci/check_page_models.py "$folder/doors.html" "$folder/doors.tree" "$folder/doors.map" || return 1
    # in a level without any, and where the section is none
    run_program compile courtyard.map none.tree --fast --models
    look view none.tree
    looked && grep -q '"models": \[\]' "$folder/printed" || return 1
    python3 .ci/made_sections.py add "$folder/rooms.tree" "$folder/odd.tree" "3:0:$folder/cube.tree" && look view odd.tree || return 1
    refused "section 3 of odd.tree has no brush models: form at byte 4" || return 1
    look plan odd.tree --models
    refused "section 3 of odd.tree has no brush models: form at byte 4"
}

# the plan in the corner reaches farther in the hall than in the store, and eight times as far in a level that is eight times as large
fits_the_plan_to_the_room() {
    look view courtyard.tree --map courtyard.map
    looked && cp "$folder/printed" "$folder/page.html" || return 1
    (cd "$folder" && python3 "$top/.ci/check_page_plans.py" page.html courtyard.tree -208,-128,24=512 -144,304,24=128) || return 1
    python3 .ci/made_variants.py "$folder/courtyard.map" 8 >"$folder/wide.map" || return 1
    run_program compile wide.map wide.tree
    [[ $status == 0 ]] || return 1
    look view wide.tree
    looked && cp "$folder/printed" "$folder/page.html" || return 1
    (cd "$folder" && python3 "$top/.ci/check_page_plans.py" page.html wide.tree -1664,-1024,192=4096)
}

# each line is an entity, and where a page begins, and looks, whose map has this entity and those of the lines before it
begins_at_a_start() {
    local class place angle from to
    sed '/^\/\/ entity 1$/,$d' "$folder/courtyard.map" >"$folder/starts.map"
    while IFS='|' read -r class place angle from to; do
        printf '{\n"classname" "%s"\n"origin" "%s"\n%s\n}\n' "$class" "$place" "$angle" >>"$folder/starts.map"
        look view courtyard.tree --map starts.map
        begins_at "$from" && grep -q "^const LEVEL = .*\"to\": ${to}[,}]" "$folder/printed" || return 1
        look plan courtyard.tree --map starts.map
        looked && grep -q "slice at z = $(sed 's/.* //; s/[.]0$//' <<<"$from")," "$folder/printed" || return 1
    done <<'END'
light|-208 96 112||-208.0, 96.0, 112.0|null
light|-208 96 100||-208.0, 96.0, 112.0|null
info_player_intermission|-208 96 100||-208.0, 96.0, 112.0|null
team_CTF_redplayer|-144 304 24|"angle" "180"|-144.0, 304.0, 46.0|\[-208.0, 304.0, 46.0\]
info_player_deathmatch|352 0 32||352.0, 0.0, 54.0|null
info_player_start|0 0 -5000||352.0, 0.0, 54.0|null
info_player_start|-208 -128 110|"angles" "0 0 0"|-208.0, -128.0, 110.0|\[-144.0, -128.0, 110.0\]
info_player_start|-208 -128 24||-208.0, -128.0, 110.0|\[-144.0, -128.0, 110.0\]
END
}

says_how_views_are_used() {
    local words
    for words in 'view' 'picture hole.tree' 'picture hole.tree --from 1,2,3' 'view hole.tree --at 1,2' 'view hole.tree --at 1,2,3,4' \
        'view hole.tree --at 1,2,32768' 'view hole.tree --at=1,x,3' 'view hole.tree --map' 'plan hole.tree --map' \
        'view hole.tree --leak=' 'picture hole.tree --from 1,2,3 --to 1,2,3/0' 'picture hole.tree --from 1,2,3 --to 4,5,6 --row=1'; do
        # shellcheck disable=SC2086  # the words of a command
        look $words
        [[ $status == 2 && ! -s $folder/printed ]] && grep -q '^usage: qmlook' "$folder/said" || return 1
    done
    look picture --help
    looked && grep -q '^usage: qmlook picture' "$folder/printed"
}

says_why_there_is_no_view() {
    local words
    for words in view 'picture --from 0,0,0 --to 1,0,0'; do
        # shellcheck disable=SC2086
        look $words cut.tree
        refused "cut.tree is no tree file: short at byte 100" || return 1
        # shellcheck disable=SC2086
        look $words hole.tree --leak "8 0"
        refused "leaf 8 does not touch leaf 0" || return 1
    done
    look view small.tree --at 1,2,5000
    refused "1,2,5000 is outside the cube of small.tree, which ends at 4096" || return 1
    for words in '5000,2,3 --to 4,5,6' '4,5,6 --to 1,5000,3' '4,5,6 --to 1,2,3 --row=1,-5000,3'; do
        # shellcheck disable=SC2086
        look picture small.tree --from $words
        [[ $(<"$folder/said") == *5000*"is outside the cube of small.tree, which ends at 4096" && $status == 1 ]] || return 1
    done
    look picture hole.tree --from 1,2,3 --to 1,2,3
    refused "the place from which one looks is the one to which one looks" || return 1
    look picture hole.tree --from 1,2,3 --to 4,5,6 --row
    refused "hole.tree has no rows" || return 1
    look picture courtyard.tree --from 0,0,4000 --to 0,0,0 --row
    refused "0,0,4000 is in leaf $(leaf_at courtyard.tree 0 0 4000), which is solid and has no row" || return 1
    look view hole.tree --map cube.tree
    refused "cube.tree is no map: line 1: no entity begins there" || return 1
    head -c 200 "$folder/room.map" >"$folder/cut.map"
    look view hole.tree --map cut.map
    refused "cut.map is no map: it ends inside an entity" || return 1
    look view cube.tree --map cube.map
    refused "cube.map has no entity that stands in the open" || return 1
    look view hole.tree --prt rooms.prt
    refused "rooms.prt is a listing of another tree: it has 5 leaves, and the tree $(numbered_of hole.tree)" || return 1
    look view cube.tree --map missing.map
    refused "missing.map: No such file or directory"
}

# the leaf at a point of a tree, and how many leaves of a tree are not solid
leaf_at() { python3 -c 'import sys; sys.path.insert(0, "tools"); import treefile
print(treefile.load(sys.argv[1]).leaf_at(tuple(map(int, sys.argv[2:]))))' "$folder/$1" "${@:2}"; }
numbered_of() { python3 -c 'import sys; sys.path.insert(0, "tools"); import treefile
print(sum(leaf.number is not None for leaf in treefile.load(sys.argv[1]).leaves))' "$folder/$1"; }

check "a made level with slanted brushes compiles" compiles_a_made_level
check "views: the pictures of the pages are those of the samples" draws_the_views_of_the_pages
check "views: a row leaves out what is not seen, and nothing else" draws_what_a_row_holds
check "views: each kind of contents has a colour of its own" draws_each_kind_in_its_colour
check "views: surfaces fill the borders of solid leaves once" fills_the_borders_of_solid_leaves
check "views: slices of a tree whose planes are fractions agree with it" draws_slices_between_whole_heights
check "views: pictures and rows have what is seen along rays" shows_what_is_seen_along_rays
check "views: a page holds its tree, and draws it" writes_a_page
check "views: walls are drawn by the faces of a tree file, in the colours of their textures" draws_walls_by_faces
check "views: a page has the brush models of its tree, and lists them" shows_brush_models
check "views: a page begins at the first player start of the best kind" begins_at_a_start
check "views: the plan of a page shows the leaves, and fits the room" fits_the_plan_to_the_room
check "views: words that are no command get the usage line, and status 2" says_how_views_are_used
check "views: what cannot be shown is refused by a line" says_why_there_is_no_view
