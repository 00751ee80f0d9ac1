"""A level in Nexuiz: a player and three bots play it, and each second it is told where they are."""

import re

from engines import LARGE
from walked import held

BOTS, LONGEST = 3, 240
# after so many seconds the player, who runs ahead, turns or jumps
TURNS = 3
# seconds after which the player asks to join, from when on and up to when it is told where all are, and when pictures are taken
JOINS, FIRST, SECONDS, PICTURES = (10, 20, 30, 40), 15, 75, 10
ORIGIN = re.compile(r"^origin +'(\S+) (\S+) (\S+)'", re.M)
# who plays, and does not look on or lie dead
PLAYS = re.compile(r"^classname +player\s*$", re.M)


def play(engine, level_name, level, tree):
    """Plays a level, and answers where players were."""
    lines = [f"set bot_number {BOTS}", "set skill 5", "set timelimit 0", "set fraglimit 0", "cl_maxfps 30", "host_framerate 0.033",
             "con_notify 0", "scr_screenshot_jpeg 0", "scr_screenshot_png 0", *(f'defer {second} "cmd join"' for second in JOINS)]
    for at, second in enumerate(range(FIRST, SECONDS, TURNS)):
        lines += [f'defer {second} "+forward"', f'defer {second} "{("+left", "-left", "-left", "+jump", "-jump")[at % 5]}"']
    for second in range(FIRST, SECONDS):
        lines += [f'defer {second + part / 5} "prvm_edict server {1 + part}"' for part in range(1 + BOTS)]
    lines += [f"defer {second} screenshot" for second in range(FIRST, SECONDS, PICTURES)] + [f"defer {SECONDS} quit"]
    printed = engine.play(level_name, lines, LONGEST, LARGE)
    told = [ORIGIN.search(part) for part in printed.split("EDICT ")[1:] if PLAYS.search(part)]
    places = [(tuple(map(float, found.groups())), None, 0) for found in told if found]
    return held(places, level, tree), printed
