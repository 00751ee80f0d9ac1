// A player that walks by itself: it runs where there is room, turns where it is stopped, jumps now and then, swims, and begins
// anew from another spot after some seconds: in turn from one of the level and from one that it is told. Each tenth of a second it says where it is, and what the engine finds there.

float LEG = 4, RUN = 320, SWIM = 200, JUMP = 270, EYES = 400;
.float turns_at, tells_at, moves_on_at, told_spots, is_asking, legs, ends_at;
.vector heading, told_origin;

// a coordinate as a whole part and 4096th parts, which say a number of the engine without rounding it far
void(float number) told =
{
    local float whole;
    whole = floor(number);
    bprint(ftos(whole));
    bprint(" ");
    bprint(ftos(floor((number - whole) * 4096)));
    bprint(" ");
};

void() tell_place =
{
    bprint("place ");
    told(self.origin_x);
    told(self.origin_y);
    told(self.origin_z);
    bprint(ftos(pointcontents(self.origin)));
    bprint(" ");
    bprint(ftos(self.waterlevel));
    bprint("\n");
};

// of some ways by chance the one with most room
void() choose_heading =
{
    local float tries, yaw, best;
    local vector way;
    best = -1;
    tries = 0;
    while (tries < 4)
    {
        yaw = random() * 360;
        way_x = 0;
        way_y = yaw;
        way_z = 0;
        makevectors(way);
        traceline(self.origin, self.origin + v_forward * EYES, TRUE, self);
        if (trace_fraction + random() * 0.5 > best)
        {
            best = trace_fraction + random() * 0.5;
            self.heading = v_forward;
        }
        tries = tries + 1;
    }
    self.turns_at = time + 0.5 + random() * 2;
};

void() swim =
{
    self.velocity = self.heading * SWIM;
    self.velocity_z = SWIM * (random() * 2.4 - 1);
};

void() run =
{
    self.velocity_x = self.heading_x * RUN;
    self.velocity_y = self.heading_y * RUN;
    if (random() < 0.02)
    {
        self.velocity_z = JUMP;
        if (self.flags & FL_ONGROUND)
            self.flags = self.flags - FL_ONGROUND;
    }
};

// goes to another spot: the level's own are at hand, and one that is told comes with the engine's next frames
void() move_on =
{
    self.moves_on_at = time + LEG;
    self.legs = self.legs + 1;
    if (self.told_spots >= cvar("scratch3") || floor(self.legs / 2) * 2 != self.legs)
    {
        to_next_spot();
        choose_heading();
        return;
    }
    self.told_spots = self.told_spots + 1;
    ask_for(self.told_spots - 1);
    self.is_asking = TRUE;
};

void() stand_where_told =
{
    self.is_asking = FALSE;
    stand_at(told_place(), 0);
    choose_heading();
};

void() walk =
{
    if (!self.ends_at)
        self.ends_at = time + cvar("saved4");
    if (time > self.ends_at)
        localcmd("quit\n");
    if (time > self.moves_on_at)
        move_on();
    if (self.is_asking && has_come(self.told_spots - 1))
        stand_where_told();
    if (time > self.turns_at)
        choose_heading();
    if (self.waterlevel > 1)
        swim();
    else if (self.flags & FL_ONGROUND)
        run();
    self.angles_y = vectoyaw(self.heading);
    self.fixangle = TRUE;
    if (time > self.tells_at)
    {
        if (vlen(self.origin - self.told_origin) < 8)
            choose_heading();
        self.told_origin = self.origin;
        self.tells_at = time + 0.1;
        tell_place();
    }
};
