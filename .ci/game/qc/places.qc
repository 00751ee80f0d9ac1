// Entities without brushes that levels have often, and for which this game has no use.

void() light = { remove(self); };
void() light_flame_large_yellow = { remove(self); };
void() info_null = { remove(self); };
void() info_notnull = {};
void() info_player_intermission = {};
void() info_intermission = {};
