"""A palette of sixteen ramps, and the table of its colours in the dark."""

import colorsys

# the hue and the saturation of each ramp, and whether it ascends to the light
RAMPS = [(0.0, 0.0, True), (0.08, 0.35, True), (0.62, 0.15, True), (0.2, 0.25, True), (0.02, 0.4, True), (0.13, 0.3, True),
         (0.09, 0.4, True), (0.07, 0.25, True), (0.6, 0.2, False), (0.07, 0.15, False), (0.1, 0.2, False), (0.4, 0.15, False),
         (0.13, 0.25, False), (0.6, 0.6, False), (0.05, 0.95, True), (0.14, 0.6, True)]
STEPS, SHADES, BRIGHT = 16, 64, 32


def colours():
    """The 256 colours."""
    found = []
    for hue, saturation, ascends in RAMPS:
        for step in range(STEPS):
            light = (step if ascends else STEPS - 1 - step) / (STEPS - 1)
            found.append(tuple(round(255 * part) for part in colorsys.hsv_to_rgb(hue, saturation, 0.05 + 0.9 * light)))
    return found


def palette(found):
    """The bytes of a palette."""
    return bytes(part for colour in found for part in colour)


def nearest(found, first, wanted):
    """The number of the colour of a ramp that is nearest to another."""
    return min(range(first, first + STEPS), key=lambda at: sum((a - b) ** 2 for a, b in zip(found[at], wanted)))


def colormap(found):
    """For each of 64 shades the number of each colour in it; the last two ramps shine in the dark."""
    rows = bytearray()
    for shade in range(SHADES):
        part = 2 - 2 * shade / SHADES
        for at, colour in enumerate(found):
            dimmed = [min(255, round(number * part)) for number in colour]
            rows.append(at if at >= 256 - BRIGHT else nearest(found, at // STEPS * STEPS, dimmed))
    return bytes(rows) + bytes([BRIGHT])
