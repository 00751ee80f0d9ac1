// Places at which a player comes into the level: those of all entities for players, in a ring.

.entity next_spot;
entity first_spot, last_spot;

void() keep_spot =
{
    if (last_spot)
        last_spot.next_spot = self;
    else
        first_spot = self;
    last_spot = self;
    self.next_spot = first_spot;
};

entity(entity spot) spot_behind =
{
    if (!first_spot)
        return world;
    if (!spot)
        return first_spot;
    return spot.next_spot;
};

void() info_player_start = { keep_spot(); };
void() info_player_start2 = { keep_spot(); };
void() info_player_deathmatch = { keep_spot(); };
void() info_player_coop = { keep_spot(); };
void() info_player_team1 = { keep_spot(); };
void() info_player_team2 = { keep_spot(); };
void() info_teleport_destination = { keep_spot(); };
void() team_CTF_redplayer = { keep_spot(); };
void() team_CTF_blueplayer = { keep_spot(); };
void() team_CTF_redspawn = { keep_spot(); };
void() team_CTF_bluespawn = { keep_spot(); };
