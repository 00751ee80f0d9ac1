// What the one who runs the game says, by console variables and by aliases of the console.
//
// scratch4 chooses the way to play: 1 walks by itself, 2 looks from places, and 0 is played by hand. scratch3 is how many places are
// told; the alias place0, place1 and so on sets saved1, saved2 and saved3 to one of them, scratch1 and scratch2 to a pitch
// and a yaw, and temp1 to one more than the place's number. saved4 is for how many seconds is walked. The alias pair takes both pictures from a place, and the alias done0, done1 and so on
// sets saved4 to one more than its number.

float HANDS = 0, WALKS = 1, LOOKS = 2;

float() way_to_play = { return cvar("scratch4"); };

vector() told_place =
{
    local vector place;
    place_x = cvar("saved1");
    place_y = cvar("saved2");
    place_z = cvar("saved3");
    return place;
};

float(float number) has_come = { return cvar("temp1") == number + 1; };

// asks for a place, which comes with one of the next frames
void(float number) ask_for =
{
    localcmd("place");
    localcmd(ftos(number));
    localcmd("\n");
};
