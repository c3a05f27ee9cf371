// What the engine can do: each call is durable when it returns.
enum { SLOTS = 16 };

int put(long number); // 0 if there is no room
int del(long number); // 0 if the number is not there
void tree_insert(long number);
