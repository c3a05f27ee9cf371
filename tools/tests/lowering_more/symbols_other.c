// The other file of symbols.c.
static int hidden_state = 50;
static int real(int x) { return x - 1; }
int chosen(void) { return 9; }
int from_other(void) { return real(hidden_state); }
