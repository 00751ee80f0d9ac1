#!/usr/bin/env bash
# Plays levels in the engines that are installed, and prints a table. It is run by hand, and is no part of the gate.
#
#     .ci/play.sh [--quake FOLDER] [--pictures FOLDER] [--program PROGRAM] [--only ENGINE] [MAP | FOLDER]..
#
# It needs Xvfb, fteqcc and one engine at least: DarkPlaces, with Nexuiz's data also Nexuiz, or QuakeSpasm with a game's data in
# FOLDER/id1. On Debian: apt install xvfb fteqcc darkplaces nexuiz-data quakespasm. Without a MAP the samples are played.
set -euo pipefail
cd "$(dirname "${BASH_SOURCE[0]}")/.."
for need in Xvfb fteqcc python3; do
    command -v $need >/dev/null || { echo "play.sh: $need is not installed" >&2; exit 2; }
done
screen=$(mktemp)
Xvfb -displayfd 3 -screen 0 1024x768x24 -nolisten tcp 3>"$screen" 2>/dev/null &
server=$!
trap 'kill $server 2>/dev/null; rm -f "$screen"' EXIT
for _ in $(seq 100); do
    [[ -s $screen ]] && break
    sleep 0.1
done
[[ -s $screen ]] || { echo "play.sh: Xvfb does not start" >&2; exit 2; }
DISPLAY=:$(<"$screen") python3 .ci/game/play.py "$@"
