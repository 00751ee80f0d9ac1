#!/usr/bin/env python3
"""Makes the data of a game so small that it has a level, a player and nothing else, for engines that play Quake's levels.

    .ci/game/make_game.py FOLDER

FOLDER gets a palette, a table of shades, a font, pictures and a model of a player, each made by this program; the settings of the folder
cfg; and `progs.dat`, which `fteqcc` compiles from the folder qc. Levels are put into FOLDER/maps."""

from pathlib import Path
import shutil
import subprocess
import sys
import tempfile

import font
import model
import palette
from wad import PICTURE, PLAIN, picture, wad

GREY, BROWN, RED = 6, 22, 75
# pictures of the status bar, by their widths and heights; engines look for each
BARS = {"sbar": (320, 24), "ibar": (320, 24), "scorebar": (320, 24), "disc": (24, 24), "backtile": (64, 64), "net": (32, 32),
        "turtle": (32, 32), "ram": (32, 32)}
SMALL = [f"{kind}_{mark}" for kind in ("num", "anum") for mark in (*range(10), "minus")] + ["num_colon", "num_slash"]
SMALL += [f"sb_{what}" for what in ("shells nails rocket cells armor1 armor2 armor3 key1 key2 invis invuln suit quad sigil1 sigil2 "
                                    "sigil3 sigil4").split()]
SMALL += [f"{face}{at}" for face in ("face", "face_p") for at in range(1, 6)]
SMALL += ["face_invis", "face_invul2", "face_inv2", "face_quad"]
SMALL += [f"{kind}_{weapon}" for kind in ("inv", "inv2", "inva1", "inva2", "inva3", "inva4", "inva5")
          for weapon in "shotgun sshotgun nailgun snailgun rlaunch srlaunch lightng".split()]
# pictures that stand alone
ALONE = {"conback": (320, 200), "loading": (144, 24), "pause": (128, 24), "ttl_main": (96, 24), "qplaque": (32, 144),
         "mainmenu": (240, 112), "menudot1": (16, 24)}


def bar_pictures():
    """The lumps of the file of pictures."""
    yield "conchars", PLAIN, font.sheet()
    for name, (width, height) in BARS.items():
        yield name, PICTURE, picture(width, height, GREY)
    for name in SMALL:
        yield name, PICTURE, picture(24, 24, BROWN)


def compile_code(folder):
    """Compiles the game's code into a folder. Ends the program where there is no compiler, or where it refuses the code."""
    if not shutil.which("fteqcc"):
        sys.exit("make_game: fteqcc is not here, which compiles the game's code")
    with tempfile.TemporaryDirectory() as copy:
        shutil.copytree(Path(__file__).resolve().parent / "qc", Path(copy) / "qc")
        done = subprocess.run(["fteqcc", "-O0"], cwd=Path(copy) / "qc", stdout=subprocess.PIPE, stderr=subprocess.STDOUT, text=True)
        code = Path(copy) / "qc" / "progs.dat"
        if done.returncode or not code.exists() or "NetQuake server gamecode" not in done.stdout:
            sys.exit(f"make_game: fteqcc refuses the game's code:\n{done.stdout}")
        shutil.copy(code, folder)


def make(folder):
    """Puts all data of the game into a folder."""
    for inner in ("gfx", "progs", "maps"):
        (folder / inner).mkdir(parents=True, exist_ok=True)
    found = palette.colours()
    (folder / "gfx" / "palette.lmp").write_bytes(palette.palette(found))
    (folder / "gfx" / "colormap.lmp").write_bytes(palette.colormap(found))
    (folder / "gfx.wad").write_bytes(wad(list(bar_pictures())))
    for name, (width, height) in ALONE.items():
        (folder / "gfx" / f"{name}.lmp").write_bytes(picture(width, height, 2))
    for settings in (Path(__file__).resolve().parent / "cfg").iterdir():
        shutil.copy(settings, folder)
    (folder / "progs" / "player.mdl").write_bytes(model.model(RED))
    compile_code(folder)


if __name__ == "__main__":
    if len(sys.argv) != 2:
        sys.exit("usage: make_game.py FOLDER")
    make(Path(sys.argv[1]))
