// Notes each change of a byte in a range of memory of the program that it is linked into, with the instruction that made it.
// The range's pages are write-protected. A store into them faults, and then runs alone by the processor's single step. For each
// byte that it changed, the file that STORE_TRACE names gets a line `ADDRESS VALUE INSTRUCTION CALLER...` in hexadecimal.
// STORE_RANGE has the first address and the size. The callers of an instruction of a library come from frame pointers, which
// libc's copies do not change. Nothing here calls malloc, which may be the program's own.
#define _GNU_SOURCE
#include <fcntl.h>
#include <signal.h>
#include <stdint.h>
#include <stdio.h>
#include <stdlib.h>
#include <string.h>
#include <sys/mman.h>
#include <ucontext.h>
#include <unistd.h>

enum { PAGE = 4096, STEP = 0x100, FRAMES = 32, LINE = 1024, BUFFER = 1 << 16 };
extern char __executable_start, etext;
static uintptr_t first, size, instruction, touched;
static unsigned char *before;
static int out = -1;
static char written[BUFFER], printed[BUFFER];
static size_t filled;

static void protect(int rights) {
  uintptr_t start = first & ~(uintptr_t)(PAGE - 1), end = (first + size + PAGE - 1) & ~(uintptr_t)(PAGE - 1);
  if (mprotect((void *)start, end - start, rights)) abort();
}

static int is_own(uintptr_t address) {
  return address >= (uintptr_t)&__executable_start && address < (uintptr_t)&etext;
}

static void flush_lines(void) {
  for (size_t done = 0; done < filled;) {
    ssize_t more = write(out, written + done, filled - done);
    if (more <= 0) abort();
    done += (size_t)more;
  }
  filled = 0;
}

// The return addresses above an instruction of a library, in the program itself; their count.
static int callers_of(const ucontext_t *at, uintptr_t *callers) {
  int count = 0;
  uintptr_t above = *(const uintptr_t *)at->uc_mcontext.gregs[REG_RSP];
  if (is_own(above)) callers[count++] = above - 1;
  const uintptr_t *frame = (const uintptr_t *)at->uc_mcontext.gregs[REG_RBP];
  while (count < FRAMES && frame && is_own(frame[1])) {
    callers[count++] = frame[1] - 1;
    frame = (const uintptr_t *)frame[0];
  }
  return count;
}

static void on_fault(int number, siginfo_t *info, void *context) {
  (void)number;
  uintptr_t address = (uintptr_t)info->si_addr & ~(uintptr_t)(PAGE - 1);
  if (address + PAGE <= (first & ~(uintptr_t)(PAGE - 1)) || address >= first + size) abort();
  ucontext_t *at = context;
  instruction = (uintptr_t)at->uc_mcontext.gregs[REG_RIP];
  touched = (uintptr_t)info->si_addr;
  at->uc_mcontext.gregs[REG_EFL] |= STEP;
  protect(PROT_READ | PROT_WRITE);
}

static void on_step(int number, siginfo_t *info, void *context) {
  (void)number, (void)info;
  ucontext_t *at = context;
  at->uc_mcontext.gregs[REG_EFL] &= ~STEP;
  uintptr_t callers[FRAMES];
  int count = is_own(instruction) ? 0 : callers_of(at, callers);
  // A store has at most 64 bytes, and the address of the fault is one of them.
  uintptr_t low = touched < first + 64 ? 0 : touched - first - 64, high = touched + 64 < first + size ? touched - first + 64 : size;
  for (uintptr_t place = low; place < high; place++) {
    unsigned char now = ((unsigned char *)first)[place];
    if (now == before[place]) continue;
    before[place] = now;
    if (filled + LINE > BUFFER) flush_lines();
    filled += (size_t)sprintf(written + filled, "%lx %x %lx", first + place, now, instruction);
    for (int i = 0; i < count; i++) filled += (size_t)sprintf(written + filled, " %lx", callers[i]);
    written[filled++] = '\n';
  }
  protect(PROT_READ);
}

__attribute__((constructor)) static void begin(void) {
  setvbuf(stdout, printed, _IOFBF, sizeof printed);
  const char *range = getenv("STORE_RANGE"), *name = getenv("STORE_TRACE");
  if (!range || !name || sscanf(range, "%lx %lx", &first, &size) != 2) return;
  out = open(name, O_WRONLY | O_CREAT | O_TRUNC, 0666);
  before = mmap(NULL, size, PROT_READ | PROT_WRITE, MAP_PRIVATE | MAP_ANONYMOUS, -1, 0);
  if (out < 0 || before == MAP_FAILED) return;
  memcpy(before, (void *)first, size);
  struct sigaction fault = {.sa_sigaction = on_fault, .sa_flags = SA_SIGINFO}, step = {.sa_sigaction = on_step, .sa_flags = SA_SIGINFO};
  sigaction(SIGSEGV, &fault, NULL);
  sigaction(SIGTRAP, &step, NULL);
  protect(PROT_READ);
}

__attribute__((destructor)) static void end(void) {
  if (out < 0) return;
  flush_lines();
  protect(PROT_READ | PROT_WRITE);
}
