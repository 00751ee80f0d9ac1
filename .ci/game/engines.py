"""The engines in which levels are tried: how each is started, what it is told, and where its pictures are.

An engine runs in a folder of its own, which is made anew for each run, on the display that the caller has set."""

import os
from pathlib import Path
import shutil
import subprocess

import make_game

# the size of pictures, and that of the window where none are taken
LARGE, SMALL = (640, 480), (160, 120)
# seconds of the game from one frame to the next, so that a run does not hang on how fast the machine is
FRAME = 0.05
# what each engine is told before a level: nothing but the level is drawn
PLAIN = ["viewsize 120", "scr_viewsize 120", "crosshair 0", "con_notifytime 0", "con_notify 0", "r_waterwarp 0", "r_drawviewmodel 0",
         "fov 90", 'alias rest "wait;wait;wait;wait;wait;wait;wait;wait"',
         'alias pair "r_novis 0;rest;rest;rest;shot;r_novis 1;rest;shot;r_novis 0"']


class Failed(Exception):
    """Why an engine did not do what it was asked."""


def program(name):
    """The path of an engine, or None where it is not installed. Debian keeps games in a folder of their own."""
    return shutil.which(name, path=os.environ.get("PATH", "") + os.pathsep + "/usr/games")


def run(command, seconds):
    """What an engine prints. It is stopped after so many seconds."""
    environment = {**os.environ, "LIBGL_ALWAYS_SOFTWARE": "1", "LP_NUM_THREADS": "2", "SDL_AUDIODRIVER": "dummy"}
    done = subprocess.run(["timeout", "-k", "5", str(seconds), *map(str, command)], stdin=subprocess.DEVNULL,
                          stdout=subprocess.PIPE, stderr=subprocess.STDOUT, env=environment, text=True, errors="replace")
    return done.stdout


class DarkPlaces:
    """DarkPlaces with the small game."""
    name, still = "DarkPlaces", ["slowmo 0.0001", "r_waterscroll 0", "r_skyscroll1 0", "r_skyscroll2 0"]

    def __init__(self, folder, game):
        self.folder, self.user = folder / "darkplaces", folder / "darkplaces-user"
        shutil.copytree(game, self.folder / "id1")

    def play(self, level, lines, seconds, size=SMALL):
        """Runs a level by some lines of the console, and gives what the engine prints."""
        shutil.copy(level, self.folder / "id1" / "maps" / level.name)
        shutil.rmtree(self.user, ignore_errors=True)
        told = ["scr_screenshot_jpeg 0", "scr_screenshot_png 0", 'alias shot "screenshot"', *PLAIN, f"host_framerate {FRAME}", *lines]
        (self.folder / "id1" / "play.cfg").write_text("\n".join([*told, f"map {level.stem}", ""]))
        return run([program("darkplaces"), "-basedir", self.folder, "-userdir", self.user, "-nosound", "+vid_fullscreen", 0, "+vid_width",
                    size[0], "+vid_height", size[1], "+exec", "play.cfg"], seconds)

    def pictures(self):
        """The pictures of the last run in their order."""
        return sorted((self.user / "id1" / "screenshots").glob("*.tga"))


class QuakeSpasm:
    """QuakeSpasm with the small game, and the data of a game that the user has: it starts other games for those alone who have
    that. The level and the code are those of the small game, and pictures are the user's."""
    name, still = "QuakeSpasm", ["host_timescale 0.0001"]

    def __init__(self, folder, game, data):
        self.folder = folder / "quakespasm"
        shutil.copytree(game, self.folder / "play")
        (self.folder / "id1").symlink_to(Path(data).resolve() / "id1", target_is_directory=True)

    def play(self, level, lines, seconds, size=SMALL):
        """Runs a level by some lines of the console, and gives what the engine prints."""
        shutil.copy(level, self.folder / "play" / "maps" / level.name)
        for picture in self.pictures():
            picture.unlink()
        told = ['alias shot "screenshot tga"', *PLAIN, f"host_framerate {FRAME}", *lines]
        (self.folder / "play" / "play.cfg").write_text("\n".join([*told, f"map {level.stem}", ""]))
        printed = run([program("quakespasm"), "-basedir", self.folder, "-game", "play", "-width", size[0], "-height", size[1], "-window",
                       "-nosound", "+exec", "play.cfg"], seconds)
        if "registered version" in printed:
            raise Failed("QuakeSpasm plays other games only with the data of the full game: gfx/pop.lmp is not in the folder's id1")
        return printed

    def pictures(self):
        """The pictures of the last run in their order."""
        return sorted((self.folder / "play").glob("spasm*.tga"))


class Nexuiz:
    """Nexuiz, a game of its own with weapons and bots, in DarkPlaces."""
    name, data = "Nexuiz", Path("/usr/share/games/nexuiz")

    def __init__(self, folder):
        self.user = folder / "nexuiz"

    def play(self, level, lines, seconds, size=SMALL):
        """Runs a level by some lines of the console, and gives what the engine prints."""
        shutil.rmtree(self.user, ignore_errors=True)
        (self.user / "data" / "maps").mkdir(parents=True)
        shutil.copy(level, self.user / "data" / "maps" / level.name)
        (self.user / "data" / "play.cfg").write_text("\n".join([*lines, f"map {level.stem}", ""]))
        return run([program("darkplaces"), "-nexuiz", "-basedir", self.data, "-userdir", self.user, "-nosound", "+vid_fullscreen", 0,
                    "+vid_width", size[0], "+vid_height", size[1], "+exec", "play.cfg"], seconds)

    def pictures(self):
        """The pictures of the last run in their order."""
        return sorted((self.user / "data").rglob("*.tga"))


def installed(folder, quake):
    """The engines that are installed, and a line for each that is not tried and why."""
    found, missing, game = [], [], folder / "game"
    make_game.make(game)
    if program("darkplaces"):
        found.append(DarkPlaces(folder, game))
        if (Nexuiz.data / "data").is_dir():
            found.append(Nexuiz(folder))
        else:
            missing.append("Nexuiz is not tried: its data is not installed (package nexuiz-data)")
    else:
        missing.append("DarkPlaces is not tried: it is not installed (package darkplaces)")
    if quake is None:
        missing.append("QuakeSpasm is not tried: no folder with a game's data is named (--quake FOLDER)")
    elif program("quakespasm"):
        found.append(QuakeSpasm(folder, game, quake))
    else:
        missing.append("QuakeSpasm is not tried: it is not installed (package quakespasm)")
    return found, missing
