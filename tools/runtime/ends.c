// Ends of the run. `exit` and `_exit` jump to the end of main (lowering/jumps.py); a call in main itself becomes a call of
// hippo_run_atexit and a return.
#include <stddef.h>

enum { HANDLERS = 256 };
enum { EXIT = -1, EXIT_AT_ONCE = -2 }; // the targets of these jumps

void hippo_jump(long frame, long site, int value); // written by tools/lower

static void (*handlers[HANDLERS])(void);
static int handler_count;
void (*hippo_thread_end)(void); // what ends the data of the thread, which is before all handlers

int atexit(void (*handler)(void)) {
  if (handler_count == HANDLERS) return -1;
  handlers[handler_count++] = handler;
  return 0;
}

// A part of a program gives this function to the system's library (hippo_c/part_ends.py).
void hippo_call_handler(void (*handler)(void)) { handler(); }

void hippo_run_atexit(void) {
  if (hippo_thread_end) hippo_thread_end();
  while (handler_count) hippo_call_handler(handlers[--handler_count]);
}

_Noreturn void abort(void) { __builtin_trap(); }

void _exit(int status) { hippo_jump(EXIT_AT_ONCE, 0, status); }

void _Exit(int status) { _exit(status); }

void quick_exit(int status) { _exit(status); }

void exit(int status) {
  hippo_run_atexit();
  hippo_jump(EXIT, 0, status);
}

_Noreturn void __assert_fail(const char *assertion, const char *file, unsigned line, const char *function) {
  (void)assertion, (void)file, (void)line, (void)function;
  __builtin_trap();
}

_Noreturn void __assert_perror_fail(int number, const char *file, unsigned line, const char *function) {
  (void)number, (void)file, (void)line, (void)function;
  __builtin_trap();
}
