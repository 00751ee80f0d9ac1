"""How a picture tells contents apart: each by a fill and by a pattern, so that it can be read in grey too."""

FILLED, HELD, BLOCKED, MODEL = "filled", "held", "blocked", "model"

# of each kind the fill below, and the pattern upon it: its size, its colour, and its strokes
KINDS = {
    "empty": ("#ffffff", 8, "#ffffff", ""),
    "solid": ("#77726b", 7, "#3d3a36", "M-1,1L1,-1M0,7L7,0M6,8L8,6"),
    FILLED: ("#e4e1dc", 12, "#c3beb6", "M0,6H12M6,0V12"),
    "water": ("#a9d0f2", 16, "#1d5c9c", "M0,5Q4,1 8,5T16,5M0,13Q4,9 8,13T16,13"),
    "slime": ("#bfdc8f", 9, "#3f6b12", "M2,2H4V4H2ZM6.5,6.5H8.5V8.5H6.5Z"),
    "lava": ("#f5b078", 12, "#8f2b00", "M0,9L3,3L6,9L9,3L12,9"),
    "sky": ("#dfeefa", 10, "#4f80a8", "M2.5,5A2.5,2.5 0 1 0 7.5,5A2.5,2.5 0 1 0 2.5,5"),
    HELD: ("none", 10, "#a3006b", "M5,2V8M2,5H8"),
    BLOCKED: ("none", 6, "#c25400", "M-1,-1L7,7M5,-1L7,1M-1,5L1,7"),
    MODEL: ("#e0a878", 8, "#7a3d0c", "M0,2H8M0,6H8"),
}


def kind(leaf):
    """What a leaf is drawn as."""
    return FILLED if leaf.filled else leaf.contents


def definitions(kinds):
    """The patterns of some kinds, as a picture defines them."""
    return "<defs>\n" + "".join(definition(name, *KINDS[name]) for name in kinds) + "</defs>\n"


def definition(name, fill, size, colour, strokes):
    """One pattern."""
    return (f'<pattern id="{name}" width="{size}" height="{size}" patternUnits="userSpaceOnUse">'
            f'<rect width="{size}" height="{size}" fill="{fill}"/>'
            f'<path d="{strokes}" fill="none" stroke="{colour}" stroke-width="1.2"/></pattern>\n')
