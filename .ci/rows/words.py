"""Words that are no command, and options in each place."""

from rows.cube_files import LISTING, SUMMARY, TEXT, TREE
from rows.table import Row

USAGE = ("usage: qmapc compile MAP OUT [--prt FILE] [--threads N] [--fast] [--hulls] [--models] [--faces] | inspect TREE QUERY.. | format MAP OUT | "
         "demo N NUMBER | upgrade TREE OUT\n")

# an empty word stands between two spaces
NO_COMMANDS = """\
compile
compile map
compile map map
compile map out more
Compile map out
compile -map out
compile map -out
compile  out
compile map\x20
format
format map
format map map
format map -out
--help
map out
 map out
compile map out --fast --fast
compile --fast map --fast out
compile map --fast
compile --fast map map
--fast compile map out
compile map out --Fast
compile map out --fast=1
format map out --fast
compile map out --hulls --hulls
compile --hulls map --fast --hulls out
compile map --hulls
compile --hulls map map
--hulls compile map out
compile map out --Hulls
compile map out --hulls=1
compile map out --hulls=
compile map out --hull
format map out --hulls
compile map out --models --models
compile --models map --hulls --models out
compile map --models
compile map out --Models
compile map out --models=1
compile map out --model
format map out --models
compile map out --faces --faces
compile --faces map --models --faces out
compile map --faces
compile map out --Faces
compile map out --faces=1
compile map out --face
format map out --faces
compile map out --prt
compile map out --prt --hulls
compile --prt map out
compile map out --prt=
compile map out --prt\x20
compile map out --prt -x
compile map out --prt --fast
compile map out --prt --prt=list
compile map out --prt list --prt list
compile --prt=list map out --prt=other
compile map --prt list --prt=other out
compile map out --prt map
compile map out --prt=out
compile map out --prt list more
compile map out --prtlist
format map out --prt list
format map --prt=list out
--prt list compile map out
compile map out -- more
compile map out --threads 65
compile map out --threads 0
compile map out --threads=04
compile map out --threads=+4
compile map out --threads
compile map out --threads=4 --threads 4
compile map out --thr 4
format map out --threads 1
inspect map
inspect -map count
inspect map count --fast
inspect map counts
inspect map at=1,2
inspect map at=1,2,3,4
inspect map at=1,2,0.0000001
inspect map at=1,2,1000000001
inspect map hull=3,0,0,0
inspect map hull=0,0,0,0
inspect map hull=01,0,0,0
inspect map hull=1.,0,0,0
inspect map hull=,0,0,0
inspect map hull=1,2,3
inspect map hull=1,2,3,4,5
inspect map hull=1,2,3,0.0000001
inspect map hull=1
inspect map --hulls
inspect map count --hulls
inspect map trace=1,2,3
inspect map trace=1,2,3,4,5
inspect map trace=1,2,3,4,5,6,7
inspect map trace=1,2,3,4,5,0.0000001
inspect map trace=1,2,3,4,5,6 trace=1
inspect map hulltrace=1,2,3,4,5,6
inspect map hulltrace=3,0,0,0,1,1,1
inspect map hulltrace=01,0,0,0,1,1,1
inspect map hulltrace=1,0,0,0,1,1,1,1
inspect map model=
inspect map model=01
inspect map model=1000000000000000000
inspect map model=-1
inspect map model=1,2,3
inspect map model=1,2,3,4,5
inspect map model=01,2,3,4
inspect map model=1,2,3,0.0000001
inspect map count --models
inspect map faces=
inspect map faces=1
inspect map face
inspect map face=
inspect map face=01
inspect map face=-1
inspect map face=1,
inspect map face=1000000000000000000
inspect map count --faces
inspect map row=1000000000000000000
inspect map count row=01
inspect map sees=0
inspect map sees=0,01
inspect map parts=1
upgrade
upgrade map
upgrade map map
upgrade map out more
upgrade map out --fast
upgrade map out --hulls
upgrade -map out
upgrade map -out
upgrade  out
Upgrade map out
demo 8
demo 0 7
demo 65 7
demo 08 7
demo 8 07
demo 8 -7
demo 8 18446744073709551616
demo 8 7 map
demo 8 7 --hulls
-h
help
"""

# words that ask for a listing of the cube's portals, and its name
LISTINGS = [
    ("compile --prt list map out", "list"),
    ("compile map --prt list out", "list"),
    ("compile map out --prt list", "list"),
    ("compile map --prt=list out", "list"),
    ("compile map out --prt=-x", "-x"),
    ("compile map out --prt=--fast", "--fast"),
    ("compile --fast map --prt list out", "list"),
    ("compile --prt=list --fast map out", "list"),
    ("compile map out --prt== --fast", "="),
    ("compile --threads 4 map out --prt list", "list"),
    ("compile map --prt=list --threads=64 out --fast", "list"),
    ("compile map --fast --threads=1 --prt list out", "list"),
]


def rows():
    for words in ([], *NO_COMMANDS.splitlines()):
        yield Row(words, 2, USAGE, {"map": b"{ }"})
    for words, name in LISTINGS:
        yield Row(words, 0, SUMMARY, {"map": TEXT}, {"out": TREE, name: LISTING})
