// Calls on names of files. The native build works in an empty folder, which the first call of getcwd names.
#include "check.h"
#include <dirent.h>
#include <errno.h>
#include <fcntl.h>
#include <fts.h>
#include <stdio.h>
#include <stdlib.h>
#include <string.h>
#include <sys/ioctl.h>
#include <sys/stat.h>
#include <sys/sysmacros.h>
#include <sys/time.h>
#include <unistd.h>
#include <utime.h>

static const char *const NAMES[] = {"data.file", "./data.file", "none"};

static void note_result(long long result) {
  note(result);
  note(result < 0 ? errno : 0);
}

static void modes(void) {
  for (int i = 0; i < 3; i++) note_result(chmod(NAMES[i], 0600));
  int file = open(NAMES[0], O_RDWR | O_CREAT, 0600);
  for (int i = 0; i < 3; i++) note_result(chmod(NAMES[i], 0600));
  note_result(fchmod(file, 0600));
  note_result(close(file));
  note_result(fchmod(file, 0600));
  print_sum();
}

static void real_paths(void) {
  static char folder[4096], path[4096];
  note(getcwd(folder, sizeof folder) == folder);
  note(realpath(".", NULL) != NULL);
  for (int i = 0; i < 3; i++) {
    char *found = realpath(NAMES[i], i ? path : NULL);
    note(found == NULL);
    note(found ? 0 : errno);
    if (found) {
      note(found[0] == '/');
      note(strcmp(strrchr(found, '/'), "/data.file"));
      note(access(found, F_OK));
    }
    if (i == 0) free(found);
  }
  note(realpath("", path) == NULL), note(errno);
  note(gnu_dev_major(makedev(259, 70001))), note(gnu_dev_minor(makedev(259, 70001)));
  print_sum();
}

static void new_files(void) {
  char path[] = "new.XXXXXX", bad[] = "new.XXXXX";
  int file = mkstemp(path);
  note(file >= 0), note(memcmp(path, "new.XXXXXX", 4)), note(strcmp(path, "new.XXXXXX") != 0);
  note(write(file, "abc", 3)), note(close(file));
  note_result(access(path, F_OK));
  note_result(mkstemp(bad));
  note_result(unlink(path));
  print_sum();
}

static void folders(void) {
  for (int i = 0; i < 3; i++) {
    note(opendir(NAMES[i]) == NULL);
    note(errno);
  }
  DIR *folder = opendir(".");
  for (int round = 0; round < 2; round++) {
    int count = 0;
    for (struct dirent *entry; (entry = readdir(folder));) count += strcmp(entry->d_name, "data.file") == 0;
    note(count);
    rewinddir(folder);
  }
  note_result(closedir(folder));
  print_sum();
}

static void walks(void) {
  char *const paths[] = {"data.file", "none", NULL};
  FTS *walk = fts_open(paths, FTS_PHYSICAL, NULL);
  for (FTSENT *entry; (entry = fts_read(walk));) {
    note(entry->fts_info), note(entry->fts_errno), note(entry->fts_level), note(entry->fts_pathlen);
    note_bytes(entry->fts_path, strlen(entry->fts_path));
  }
  note_result(fts_close(walk));
  print_sum();
}

static void owners_and_links(void) {
  char target[16];
  int file = open(NAMES[0], O_RDWR | O_CREAT, 0600);
  for (int i = 0; i < 3; i++) note_result(chown(NAMES[i], getuid(), getgid())), note_result(readlink(NAMES[i], target, 16));
  note_result(readlink(".", target, 16));
  note_result(ioctl(file, TIOCGWINSZ, target));
  struct stat64 status;
  for (int i = 0; i < 3; i++) note_result(lstat64(NAMES[i], &status));
  note_result(fchown(file, getuid(), getgid())), note_result(close(file)), note_result(fchown(file, getuid(), getgid()));
  note_result(ioctl(file, TIOCGWINSZ, target));
  print_sum();
}

static void times_and_folders(void) {
  static const char *const there[] = {"data.file", ".", "./", "/"};
  int file = open(NAMES[0], O_RDWR | O_CREAT, 0600);
  for (int i = 0; i < 3; i++) note_result(utimes(NAMES[i], NULL)), note_result(utime(NAMES[i], NULL));
  note_result(futimens(file, NULL));
  note_result(close(file));
  note_result(futimens(file, NULL));
  for (int i = 0; i < 4; i++) note_result(mkdir(there[i], 0700)), note_result(rmdir(there[i]));
  note_result(rmdir("none"));
  print_sum();
}

int main(void) {
  modes();
  owners_and_links();
  times_and_folders();
  real_paths();
  new_files();
  folders();
  walks();
  return 0;
}
