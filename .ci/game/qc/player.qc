// A player: stands, walks and swims as the engine moves it. What it does besides is said by walker.qc and camera.qc.

.entity spot;
// stands a player at a place, at rest
void(vector place, float yaw) stand_at =
{
    setorigin(self, place);
    self.velocity = '0 0 0';
    self.angles = '0 0 0';
    self.angles_y = yaw;
    self.fixangle = TRUE;
};

void() to_next_spot =
{
    self.spot = spot_behind(self.spot);
    if (self.spot)
        stand_at(self.spot.origin + '0 0 1', self.spot.angles_y);
};

void() PutClientInServer =
{
    self.classname = "player";
    self.health = 100;
    self.max_health = 100;
    self.takedamage = 0;
    self.solid = SOLID_SLIDEBOX;
    self.movetype = MOVETYPE_WALK;
    self.flags = FL_CLIENT;
    self.effects = 0;
    setmodel(self, "progs/player.mdl");
    setsize(self, PLAYER_LOW, PLAYER_HIGH);
    self.view_ofs = '0 0 22';
    to_next_spot();
};

void() ClientConnect = {};
void() ClientDisconnect = {};
void() ClientKill = { PutClientInServer(); };
void() SetNewParms = {};
void() SetChangeParms = {};
