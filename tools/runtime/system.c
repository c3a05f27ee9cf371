// Queries about the system: a run has one process, pages of 4,096 bytes, and the environment of --environment.
#include <errno.h>
#include <sched.h>
#include <stddef.h>
#include <stdlib.h>
#include <string.h>
#include <sys/utsname.h>
#include <unistd.h>

enum { PAGE = 4096 };

pid_t getpid(void) { return 1; }
pid_t getppid(void) { return 0; }
pid_t gettid(void) { return 1; }
uid_t getuid(void) { return 0; }
uid_t geteuid(void) { return 0; }
gid_t getgid(void) { return 0; }
gid_t getegid(void) { return 0; }

int getpagesize(void) { return PAGE; }

// Limits of Linux on x86-64, and one processor.
long sysconf(int name) {
  switch (name) {
  case _SC_PAGESIZE: return PAGE;
  case _SC_NPROCESSORS_ONLN: case _SC_NPROCESSORS_CONF: return 1;
  case _SC_OPEN_MAX: case _SC_IOV_MAX: return 1024;
  case _SC_CLK_TCK: return 100;
  case _SC_LEVEL1_DCACHE_LINESIZE: return 64;
  case _SC_LOGIN_NAME_MAX: return 256;
  case _SC_HOST_NAME_MAX: return 64;
  }
  errno = EINVAL;
  return -1;
}

// The numbers of a device, as Linux packs them.
unsigned gnu_dev_major(unsigned long device) { return (device >> 8 & 0xfff) | (device >> 32 & 0xfffff000); }
unsigned gnu_dev_minor(unsigned long device) { return (device & 0xff) | (device >> 12 & 0xffffff00); }
unsigned long gnu_dev_makedev(unsigned major, unsigned minor) {
  unsigned long high = major & 0xfffff000, low = minor & 0xffffff00;
  return high << 32 | low << 12 | (major & 0xfff) << 8 | (minor & 0xff);
}

extern char *hippo_environment[];

char *getenv(const char *name) {
  size_t length = strlen(name);
  for (char **entry = hippo_environment; *entry; entry++)
    if (strncmp(*entry, name, length) == 0 && (*entry)[length] == '=') return *entry + length + 1;
  return NULL;
}

char *secure_getenv(const char *name) { return getenv(name); }

int sched_yield(void) { return 0; }

int isatty(int descriptor) {
  (void)descriptor;
  return 0;
}

char *setlocale(int category, const char *name) {
  (void)category;
  return name && name[0] && !(name[0] == 'C' && !name[1]) ? NULL : "C";
}

int uname(struct utsname *to) {
  memset(to, 0, sizeof *to);
  strcpy(to->sysname, "hippo");
  strcpy(to->release, "6.0.0");
  strcpy(to->machine, "x86_64");
  return 0;
}
