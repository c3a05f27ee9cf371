// Jumps. A buffer has two words: which run of a function called setjmp, and where. tools/lower writes them, and what hippo_jump does
// (lowering/jumps.py).

void hippo_jump(long frame, long site, int value);

void longjmp(void *buffer, int value) {
  const long *target = buffer;
  if (target[0] <= 0) __builtin_trap(); // setjmp did not fill this buffer
  hippo_jump(target[0], target[1], value ? value : 1);
}

void _longjmp(void *buffer, int value) { longjmp(buffer, value); }

void siglongjmp(void *buffer, int value) { longjmp(buffer, value); }

void __longjmp_chk(void *buffer, int value) { longjmp(buffer, value); }
