# shellcheck shell=bash disable=SC2154
# Sourced by .ci/checks, behind check_tools.sh: what readies a level for engines.

# this file is printed, and this one line said
printed_as() { # printed_as FILE LINE
    [[ $status == 0 ]] && cmp "$folder/printed" "$1" && [[ $(<"$folder/said") == "qmlook: $2" ]]
}

# bevels are added to the brushes that stop a player, on each side without a face along the axes, rounded outward
bevels_what_is_slanted() {
    local wedge='( 0 0 0 ) ( 1 0 0 ) ( 0 1 0 ) S 0 0 0 1 1 ( 9 0 0 ) ( 0 0 0 ) ( 9 0 9 ) S 0 0 0 1 1
( 0 9.125 0 ) ( 9 9.125 0 ) ( 0 9.125 9 ) S 0 0 0 1 1 ( 0 0 0 ) ( 0 9 0 ) ( 3 0 9 ) S 0 0 0 1 1
( 10 0 0 ) ( 3 0 9 ) ( 10 9 0 ) S 0 0 0 1 1 // the last' name
    local added='( 0 0 0 ) ( 0 1 0 ) ( 0 0 1 ) S 0 0 0 1 1 ( 10 0 0 ) ( 10 0 1 ) ( 10 1 0 ) S 0 0 0 1 1 ( 0 0 9 ) ( 0 1 9 ) ( 1 0 9 ) S 0 0 0 1 1 '
    for name in wall sky1 Clip clip1; do
        printf '{ } { "a" "}" {\n%s\n} }\n' "${wedge//S/$name}" >"$folder/wedge.map"
        printf '{ } { "a" "}" {\n%s\n%s} }\n' "${wedge//S/$name}" "${added//S/$name}" >"$folder/bevelled.map"
        look bevels wedge.map
        printed_as "$folder/bevelled.map" "added 3 bevel faces to 1 brush" || return 1
        look bevels bevelled.map --out again.map
        [[ $status == 0 && $(<"$folder/said") == "qmlook: added 0 bevel faces to 0 brushes" ]] || return 1
        cmp "$folder/again.map" "$folder/bevelled.map" || return 1
    done
    for name in '*water' '*lava1'; do
        printf '{ { %s\n} }' "${wedge//S/$name}" >"$folder/wedge.map"
        look bevels wedge.map
        printed_as "$folder/wedge.map" "added 0 bevel faces to 0 brushes" || return 1
    done
}

# a level with bevels holds the same everywhere, and its lines keep their numbers
bevels_change_no_contents() {
    look bevels courtyard.map --out bevelled.map
    [[ $status == 0 && $(wc -l <"$folder/bevelled.map") == $(wc -l <"$folder/courtyard.map") ]] || return 1
    run_program compile bevelled.map bevelled.tree --fast
    [[ $status == 0 ]] && grep -qx 'leaves 141' "$folder/printed" && grep -qx 'numbered 55' "$folder/printed" || return 1
    python3 - "$folder" <<'END'
import sys
sys.path.insert(0, "tools")
import treefile
one, other = (treefile.load(f"{sys.argv[1]}/{name}.tree") for name in ("courtyard", "bevelled"))
for point in ((x, y, z) for x in range(-300, 500, 7) for y in range(-300, 400, 7) for z in (5, 33, 101, 180)):
    if one.leaves[one.leaf_at(point)].contents != other.leaves[other.leaf_at(point)].contents:
        sys.exit(f"{point} holds something else")
END
}

refuses_maps_without_faces() {
    local text words
    while IFS='|' read -r text words; do
        printf '%b' "$text" >"$folder/no.map"
        look bevels no.map
        refused "no.map is no map: $words" || return 1
    done <<'END'
|it has no entity
{ {\n} }|line 2: no faces
{ {\n( 0 0 0 ) ( 0 0 1 ) ( 1 0 0 ) } }|line 2: no texture and mapping after the points of a face
{ {\n( 0 0 0 ) ( 0 0 1 ) ( 1 0 0 ) x 0 0 0 1 } }|line 2: no texture and mapping after the points of a face
{ {\n( 0 0 0 ) ( 0 0 1 ) ( 1 0 0 ) x [ 0 0 0 1 ] 0 0 0 0 0 0 0 0 0 } }|line 2: no texture and mapping after the points of a face
{ { ( 0 0 0 ) ( 0 0 1 ) ( 1 0 0 ) x 0 0 0 1 1\n( 0 0 0 ) ( 0 0 1.0001 ) ( 1 0 0 ) x 0 0 0 1 1 } }|line 2: fraction
{ { ( 0 0 0 ) ( 0 0 1 ) ( 1 0 0 ) x 0 0 0 1 1 5 5 } }|line 1: no three points of a face stand there
END
    look bevels missing.map
    refused "missing.map: No such file or directory"
}

check "levels: bevels are added where a brush is slanted and stops a player" bevels_what_is_slanted
check "levels: bevels change no contents and no line's number" bevels_change_no_contents
check "levels: a text whose brushes are no brushes gets no bevels" refuses_maps_without_faces

# runs qmbsp in the folder, as `look` runs qmlook
engine_level() {
    status=0
    (cd "$folder" && "$top/tools/qmbsp" "$@" >printed 2>said) || status=$?
}

# no level is made, what was there stays, and this one line is said
no_level() { # no_level LINE WORD..
    local line=$1
    shift
    echo kept >"$folder/kept.bsp"
    engine_level "$@"
    [[ $status == 1 && ! -s $folder/printed && $(<"$folder/said") == "qmbsp: $line" && $(<"$folder/kept.bsp") == kept ]] && return
    echo "ended with $status and said: $(<"$folder/said")"
    return 1
}

# writes wall.wad: of the textures `brick`, 32 x 16, and `+0lamp`, and an entry that is none; and files that are no WADs
makes_wads() {
    python3 - "$folder" <<'END'
import struct, sys


def texture(name, width, height, size=None):
    data = struct.pack("<16s6I", name, width, height, *(40 + width * height * part // 64 for part in (0, 64, 80, 84)))
    return data + bytes([7]) * (width * height * 85 // 64 if size is None else size)


def wad(textures, magic=b"WAD2"):
    places, data = [], b""
    for name, kind, bytes_ in textures:
        places.append(struct.pack("<iiibbxx16s", 12 + len(data), len(bytes_), len(bytes_), kind, 0, name))
        data += bytes_
    return magic + struct.pack("<ii", len(places), 12 + len(data)) + data + b"".join(places)


brick = (b"BRICK", 0x44, texture(b"BRICK", 32, 16))
files = {
    "wall": wad([brick, (b"palette", 0x40, b"x" * 9), (b"+0lamp", 0x44, texture(b"+0lamp", 16, 16))]), "half": wad([brick], b"WAD3"),
    "short": wad([brick])[:-1], "odd": wad([(b"odd", 0x44, texture(b"odd", 24, 16))]), "cut": wad([(b"cut", 0x44, texture(b"cut", 16, 16, 9))]),
}
for name, data in files.items():
    open(f"{sys.argv[1]}/{name}.wad", "wb").write(data)
END
}

says_how_levels_are_made() {
    local words
    while read -ra words; do
        engine_level "${words[@]}"
        [[ $status == 2 && ! -s $folder/printed ]] && grep -q '^usage: qmbsp ' "$folder/said" || return 1
    done <<'END'

room.map room.tree
room.map room.tree a.bsp b.bsp
room.map room.tree a.bsp --bsp2 --bsp29
room.map room.tree a.bsp --texels 31
room.map room.tree a.bsp --texels 4065
room.map room.tree a.bsp --texels 2e2
room.map room.tree a.bsp --wad
room.map room.tree a.bsp --dar
END
    [[ ! -e $folder/a.bsp ]]
}

refuses_levels() {
    makes_wads || return 1
    no_level "courtyard.tree was not made from room.map: it has 65 planes, and the brushes of the map's world have 12" \
        room.map courtyard.tree kept.bsp || return 1
    sed 's/__TB_empty/*water/' "$folder/room.map" >"$folder/wet.map"
    sed 's/( 80 /( 81 /g' "$folder/room.map" >"$folder/moved.map"
    no_level "room.tree was not made from moved.map: its plane 1 is another one than the map has there" moved.map room.tree kept.bsp || return 1
    run_program compile wet.map wet.tree --fast
    no_level "wet.tree was not made from room.map: in the middle of brush 0, which is solid, it has water" room.map wet.tree kept.bsp || return 1
    head -c 99 "$folder/room.tree" >"$folder/short.tree"
    no_level "short.tree is no tree file: short at byte 99" room.map short.tree kept.bsp || return 1
    no_level "room.tree is no map: line 1: no entity begins there" room.tree room.tree kept.bsp || return 1
    no_level "missing.wad: No such file or directory" room.map room.tree kept.bsp --wad missing.wad || return 1
    no_level "half.wad is no WAD of textures: it is a WAD3 of Half-Life, whose textures have palettes of their own" \
        room.map room.tree kept.bsp --wad wall.wad --wad half.wad || return 1
    no_level "short.wad is no WAD of textures: its list of entries does not lie in it" room.map room.tree kept.bsp --wad short.wad || return 1
    no_level "odd.wad is no WAD of textures: the texture odd is 24 x 16, which are no sixteens from 16 to 4096" \
        room.map room.tree kept.bsp --wad odd.wad || return 1
    no_level "cut.wad is no WAD of textures: the texture cut ends too early" room.map room.tree kept.bsp --wad cut.wad || return 1
    cp "$folder/room.tree" "$folder/kept.tree"
    no_level "kept.tree is one of the files that are read" room.map kept.tree kept.tree && cmp "$folder/room.tree" "$folder/kept.tree" || return 1
    no_level "no_such_folder/a.bsp: No such file or directory" room.map room.tree no_such_folder/a.bsp
}

# textures come from a WAD under the names of the map; what a WAD lacks is made
takes_textures() {
    engine_level courtyard.map courtyard.tree wall.bsp --wad wall.wad
    [[ $status == 0 && $(<"$folder/printed") == "wall.bsp: BSP29, "*" faces, "*" clip nodes, 0 models" ]] || return 1
    grep -qx 'qmbsp: [0-9]* of [0-9]* textures are in no WAD: they are checkers' "$folder/said" || return 1
    sed 's/brick/+1lamp/' "$folder/courtyard.map" >"$folder/lamps.map"
    engine_level lamps.map courtyard.tree lamps.bsp --wad wall.wad --dark --bsp2
    [[ $status == 0 && $(<"$folder/printed") == "lamps.bsp: BSP2, "* ]] || return 1
    python3 - "$folder" <<'END'
import struct, sys


def textures(name):
    data = open(f"{sys.argv[1]}/{name}.bsp", "rb").read()
    begin, length, = struct.unpack_from("<2i", data, 4 + 8 * 2)
    count, = struct.unpack_from("<i", data, begin)
    places = struct.unpack_from(f"<{count}i", data, begin + 4)
    light, lights = struct.unpack_from("<2i", data, 4 + 8 * 8)
    return {data[begin + at:begin + at + 16].rstrip(b"\0"): struct.unpack_from("<2I", data, begin + at + 16) for at in places}, \
        data[light:light + lights]


wall, bright = textures("wall")
lamps, dark = textures("lamps")
if wall[b"brick"] != (32, 16) or wall[b"sky1"] != (256, 128) or not max(bright):
    sys.exit(f"textures {wall}")
if lamps[b"+0lamp"] != (16, 16) or lamps[b"+1lamp"] != (64, 64) or b"brick" in lamps or not dark or max(dark):
    sys.exit(f"textures {lamps}")
END
}

# sections of a tree file are used, and where one is not what its kind says there is no level
takes_sections() {
    local name words
    for name in room cube; do
        for words in hull:1 hull:2 ${name/#room/model:2}; do
            [[ $words == cube ]] && continue
            python3 .ci/made_sections.py "${words%:*}" "$folder/$name.map" "${words#*:}" >"$folder/part.map" || return 1
            run_program compile part.map "${words/:/}.tree" --fast
            [[ $status == 0 ]] || return 1
        done
        words="1:hull1.tree 2:hull2.tree 3:2:model2.tree"
        [[ $name == room ]] || words="1:hull1.tree 2:hull2.tree 4"
        # shellcheck disable=SC2086
        (cd "$folder" && python3 "$top/.ci/made_sections.py" add $name.tree parts.tree $words) || return 1
        engine_level $name.map parts.tree parts.bsp
        [[ $status == 0 ]] && python3 .ci/check_bsp.py "$folder/$name.map" "$folder/$name.tree" "$folder/parts.bsp" || return 1
    done
    # the clip nodes are those of the sections
    grep -qx 'parts.bsp: BSP29, 6 faces, 12 clip nodes, 0 models' "$folder/printed" || return 1
    (cd "$folder" && python3 "$top/.ci/made_sections.py" add cube.tree parts.tree 1:hull2.tree 2:hull1.tree) || return 1
    engine_level cube.map parts.tree parts.bsp
    [[ $status == 0 ]] && ! python3 .ci/check_bsp.py "$folder/cube.map" "$folder/cube.tree" "$folder/parts.bsp" >"$folder/said" 2>&1 || return 1
    refuses_bad_sections
}

# the hulls that the compiler writes make a level that is as good, with clip nodes of their own
takes_hulls_of_the_compiler() {
    local name
    for name in rooms8 courtyard; do
        run_program compile $name.map hulled.tree --fast --hulls
        [[ $status == 0 ]] || return 1
        engine_level $name.map hulled.tree hulled.bsp
        [[ $status == 0 ]] && python3 .ci/check_bsp.py "$folder/$name.map" "$folder/hulled.tree" "$folder/hulled.bsp" || return 1
    done
    grep -qx 'hulled.bsp: BSP29, 188 faces, 262 clip nodes, 0 models' "$folder/printed"
}

# the models that the compiler writes too
takes_models_of_the_compiler() {
    local name
    look world gatehouse.map --out grouped.map
    [[ $status == 0 ]] || return 1
    for name in room grouped; do
        run_program compile $name.map modelled.tree --fast --models
        [[ $status == 0 ]] || return 1
        engine_level $name.map modelled.tree modelled.bsp
        [[ $status == 0 ]] && python3 .ci/check_bsp.py "$folder/$name.map" "$folder/modelled.tree" "$folder/modelled.bsp" || return 1
    done
}

# and the faces, which are those that are found without them: cut elsewhere, and with the same owners
takes_faces_of_the_compiler() {
    local name count
    look world gatehouse.map --out grouped.map
    for name in room rooms8 courtyard grouped; do
        run_program compile $name.map faced.tree --fast --faces
        [[ $status == 0 ]] || return 1
        engine_level $name.map faced.tree faced.bsp
        [[ $status == 0 ]] && python3 .ci/check_bsp.py "$folder/$name.map" "$folder/faced.tree" "$folder/faced.bsp" || return 1
        count=$(<"$folder/printed")
        run_program compile $name.map faced.tree --fast
        engine_level $name.map faced.tree faced.bsp
        [[ $count == "$(<"$folder/printed")" ]] || return 1
    done
}

refuses_bad_sections() {
    python3 - "$folder" <<'END' || return 1
import sys
sys.path[:0] = [".ci", "tools"]
import made_trees, treefile
tree = treefile.load(sys.argv[1] + "/cube.tree")
for name, kind, data in ("bad1", 1, b"QMTREE02"), ("bad3", 3, bytes(5)), ("bad4", 4, (1).to_bytes(8, "little") + bytes(24)):
    sections = [treefile.Section(kind, data)]
    open(f"{sys.argv[1]}/{name}.tree", "wb").write(made_trees.written(tree._replace(sections=sections)))
END
    no_level "bad1.tree is no tree file for a level: section 1 has no tree file: short at byte 8" cube.map bad1.tree kept.bsp || return 1
    no_level "bad3.tree is no tree file for a level: section 3 has no brush models: trailing at byte 4" cube.map bad3.tree kept.bsp || return 1
    no_level "bad4.tree is no tree file for a level: section 4 has no faces: form at byte 8" cube.map bad4.tree kept.bsp
}

check "levels: words that ask for none get the usage line, and status 2" says_how_levels_are_made
check "levels: none is made of the wrong tree, of files that are none, and over what is read" refuses_levels
check "levels: textures come from WADs, or are made, and a dark level has no light" takes_textures
check "levels: sections of a tree file are used, and bad ones refused" takes_sections
check "levels: clip hulls that the compiler writes are used" takes_hulls_of_the_compiler
check "levels: brush models that the compiler writes are used" takes_models_of_the_compiler
check "levels: faces that the compiler writes are used" takes_faces_of_the_compiler
