// A player that looks from places that it is told. From each two pictures are taken, with the console variable r_novis at 0 and at 1.

// the place from which it looks, and whether the pictures are under way
.float looked, is_looking;

// as an eye that nothing stops
void() stand_as_eye =
{
    self.movetype = MOVETYPE_NONE;
    self.solid = SOLID_NOT;
    self.view_ofs = '0 0 0';
    self.model = "";
    self.modelindex = 0;
    self.velocity = '0 0 0';
    setorigin(self, told_place());
    self.angles_x = cvar("scratch1");
    self.angles_y = cvar("scratch2");
    self.angles_z = 0;
    self.v_angle = self.angles;
    self.fixangle = TRUE;
};

// the engine has taken the pictures when it has set saved4 to the number of the next place
void() look =
{
    if (self.is_looking && cvar("saved4") > self.looked)
    {
        self.looked = self.looked + 1;
        self.is_looking = FALSE;
    }
    if (self.looked >= cvar("scratch3"))
        localcmd("quit\n");
    else if (!self.is_looking)
    {
        self.is_looking = TRUE;
        ask_for(self.looked);
        localcmd("pair\ndone");
        localcmd(ftos(self.looked));
        localcmd("\n");
    }
    if (has_come(self.looked))
        stand_as_eye();
};

void() PlayerPreThink =
{
    if (self.health <= 0)
        return;
    if (way_to_play() == WALKS)
        walk();
    else if (way_to_play() == LOOKS)
        look();
    else if (self.button2)
    {
        if (self.waterlevel > 1)
            self.velocity_z = 100;
        else if (self.flags & FL_ONGROUND)
        {
            self.velocity_z = JUMP;
            self.flags = self.flags - FL_ONGROUND;
        }
    }
};

void() PlayerPostThink = {};
