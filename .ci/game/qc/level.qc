// The level as a whole.

void() worldspawn =
{
    precache_model("progs/player.mdl");
    lightstyle(0, "m");
};

void() StartFrame = {};
void() main = {};
