// Entities with brushes: walls, things without substance, and doors that open when a player comes near.

void() stand_still =
{
    self.angles = '0 0 0';
    self.movetype = MOVETYPE_PUSH;
    self.solid = SOLID_BSP;
    setmodel(self, self.model);
};

void() func_wall = { stand_still(); };
void() func_detail = { stand_still(); };
void() func_group = { stand_still(); };
void() func_plat = { stand_still(); };
void() func_button = { stand_still(); };
void() func_train = { stand_still(); };
void() func_rotating = { stand_still(); };
void() func_bobbing = { stand_still(); };
void() func_static = { stand_still(); };
void() func_door_secret = { stand_still(); };

void() func_illusionary =
{
    stand_still();
    self.solid = SOLID_NOT;
};

// of doors
.vector closed, opened;
.float opening;
.entity door;

void() door_moves;

void(vector goal) move_to =
{
    local float seconds;
    seconds = vlen(goal - self.origin) / self.speed;
    if (seconds < 0.1)
        seconds = 0.1;
    self.velocity = (goal - self.origin) * (1 / seconds);
    self.think = door_moves;
    self.nextthink = self.ltime + seconds;
};

void() door_closes =
{
    self.opening = FALSE;
    move_to(self.closed);
};

void() door_moves =
{
    self.velocity = '0 0 0';
    if (!self.opening)
    {
        setorigin(self, self.closed);
        return;
    }
    setorigin(self, self.opened);
    if (self.wait < 0)
        return;
    self.think = door_closes;
    self.nextthink = self.ltime + self.wait;
};

void() door_opens =
{
    if (self.opening)
        return;
    self.opening = TRUE;
    move_to(self.opened);
};

void() door_is_blocked =
{
    if (self.opening)
        door_closes();
    else
        door_opens();
};

void() door_is_touched =
{
    if (other.classname != "player")
        return;
    self = self.door;
    door_opens();
};

void() make_door_trigger =
{
    local entity trigger;
    trigger = spawn();
    trigger.solid = SOLID_TRIGGER;
    trigger.movetype = MOVETYPE_NONE;
    trigger.door = self;
    trigger.touch = door_is_touched;
    setsize(trigger, self.absmin - '48 48 8', self.absmax + '48 48 8');
};

vector(vector from) way_of_angle =
{
    if (from == '0 -1 0')
        return '0 0 1';
    if (from == '0 -2 0')
        return '0 0 -1';
    makevectors(from);
    return v_forward;
};

void() func_door =
{
    local float far;
    self.movedir = way_of_angle(self.angles);
    stand_still();
    if (!self.speed)
        self.speed = 100;
    if (!self.wait)
        self.wait = 3;
    if (!self.lip)
        self.lip = 8;
    far = fabs(self.movedir * self.size) - self.lip;
    self.closed = self.origin;
    self.opened = self.closed + self.movedir * far;
    self.blocked = door_is_blocked;
    make_door_trigger();
};

// what a player is not to see or to meet
void() gone = { remove(self); };
void() trigger_multiple = { gone(); };
void() trigger_once = { gone(); };
void() trigger_push = { gone(); };
void() trigger_hurt = { gone(); };
void() trigger_teleport = { gone(); };
void() trigger_changelevel = { gone(); };
void() trigger_counter = { gone(); };
void() trigger_relay = { gone(); };
