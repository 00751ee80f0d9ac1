// Calls of the engine, by their numbers.

void(vector angles) makevectors = #1;
void(entity what, vector place) setorigin = #2;
void(entity what, string model) setmodel = #3;
void(entity what, vector low, vector high) setsize = #4;
float() random = #7;
vector(vector way) normalize = #9;
void(string why) error = #10;
float(vector way) vlen = #12;
float(vector way) vectoyaw = #13;
entity() spawn = #14;
void(entity what) remove = #15;
void(vector from, vector to, float nomonsters, entity ignored) traceline = #16;
entity(entity from, .string field, string value) find = #18;
void(string name) precache_model = #20;
void(entity client, string words) stuffcmd = #21;
string(float number) ftos = #26;
float(float number) floor = #37;
float(vector place) pointcontents = #41;
float(float number) fabs = #43;
float(string name) cvar = #45;
void(string words) bprint = #23;
void(float style, string light) lightstyle = #35;
void(string words) localcmd = #46;
