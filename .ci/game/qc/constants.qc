// Numbers that the engine knows.

float TRUE = 1, FALSE = 0;

// flags
float FL_SWIM = 2, FL_CLIENT = 8, FL_ONGROUND = 512;

// how a thing moves
float MOVETYPE_NONE = 0, MOVETYPE_WALK = 3, MOVETYPE_PUSH = 7, MOVETYPE_NOCLIP = 8;

// what meets a thing
float SOLID_NOT = 0, SOLID_TRIGGER = 1, SOLID_SLIDEBOX = 3, SOLID_BSP = 4;

// what fills a place
float CONTENT_EMPTY = -1, CONTENT_SOLID = -2;

vector PLAYER_LOW = '-16 -16 -24';
vector PLAYER_HIGH = '16 16 32';

// fields that map texts set
.float wait, speed, lip, height, dmg, angle;
