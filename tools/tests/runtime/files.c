#include "check.h"
#include <errno.h>
#include <fcntl.h>
#include <stdlib.h>
#include <string.h>
#include <sys/file.h>
#include <sys/mman.h>
#include <sys/stat.h>
#include <sys/uio.h>
#include <unistd.h>

static const char *const NAME = "data.file";

static void note_content(int file) {
  unsigned char bytes[300];
  struct stat status;
  note(fstat(file, &status));
  note(status.st_size);
  note(S_ISREG(status.st_mode));
  memset(bytes, 'q', sizeof bytes);
  note(pread(file, bytes, sizeof bytes, 0));
  note_bytes(bytes, sizeof bytes);
}

static void opens(void) {
  struct stat status;
  note(access(NAME, F_OK));
  note(stat(NAME, &status));
  note(errno);
  note(open("no.such.file", O_RDONLY) < 0);
  note(errno);
  int file = open(NAME, O_RDWR | O_CREAT | O_EXCL, 0600);
  note(file >= 0);
  note_content(file);
  note(close(file));
  note(close(file));
  note(errno);
  note(open(NAME, O_RDWR | O_CREAT | O_EXCL, 0600));
  note(errno);
  note(access(NAME, F_OK));
  note(read(file, &status, 4));
  note(errno);
  print_sum();
}

static void writes(void) {
  int file = open(NAME, O_RDWR);
  note(write(file, "hello, file", 11));
  note(lseek(file, 0, SEEK_CUR));
  note(lseek(file, -4, SEEK_END));
  note(write(file, "FILE and more", 13));
  note(pwrite(file, "far", 3, 200));
  note_content(file);
  char a[8], b[5];
  struct iovec parts[] = {{"one", 3}, {"twos", 4}, {"", 0}, {"three", 5}}, places[] = {{a, 8}, {b, 5}};
  note(lseek(file, 40, SEEK_SET));
  note(writev(file, parts, 4));
  note(pwritev(file, parts, 2, 100));
  note_content(file);
  note(lseek(file, 40, SEEK_SET));
  note(read(file, a, 8));
  note(read(file, b, 5));
  note_bytes(places[0].iov_base, 8);
  note_bytes(places[1].iov_base, 4);
  note(ftruncate(file, 50));
  note_content(file);
  note(ftruncate(file, 120));
  note_content(file);
  note(posix_fallocate(file, 100, 150));
  note_content(file);
  note(lseek(file, -1, SEEK_SET));
  note(errno);
  note(fsync(file));
  note(fdatasync(file));
  note(flock(file, LOCK_EX));
  struct flock lock = {.l_type = F_WRLCK};
  note(fcntl(file, F_GETLK, &lock));
  note(lock.l_type == F_UNLCK);
  note(close(file));
  file = open(NAME, O_WRONLY | O_APPEND);
  note(write(file, "tail", 4));
  note(close(file));
  print_sum();
}

static void maps(void) {
  int file = open(NAME, O_RDWR);
  note(ftruncate(file, 3 * 4096));
  char *all = mmap(NULL, 3 * 4096, PROT_READ | PROT_WRITE, MAP_SHARED, file, 0);
  char *last = mmap(NULL, 4096, PROT_READ | PROT_WRITE, MAP_SHARED, file, 8192);
  char *own = mmap(NULL, 8192, PROT_READ | PROT_WRITE, MAP_PRIVATE, file, 0);
  note(mremap(all, 3 * 4096, 3 * 4096, 0) == all), note(mremap(all + 1, 4096, 4096, 0) == MAP_FAILED), note(errno);
  char *none = mmap(NULL, 5000, PROT_READ | PROT_WRITE, MAP_PRIVATE | MAP_ANONYMOUS, -1, 0);
  note_bytes(all, 300);
  note_bytes(none, 5000);
  strcpy(all + 8200, "through the map");
  strcpy(own, "a private text");
  note_bytes(last, 64);
  note(msync(all, 3 * 4096, MS_SYNC));
  note(msync(all + 1, 10, MS_SYNC));
  note(errno);
  char text[20];
  note(pread(file, text, sizeof text, 8200));
  note_bytes(text, sizeof text);
  note(pwrite(file, "written", 7, 10));
  note_bytes(all, 64);
  note(munmap(all, 3 * 4096));
  none = mmap(NULL, 16384, PROT_READ | PROT_WRITE, MAP_PRIVATE | MAP_ANONYMOUS, -1, 0);
  none[12288] = 'x';
  note(munmap(none, 8192)); // a part of it
  note(none[12288]);
  for (int i = 0; i < 400; i++) {
    char *again = mmap(NULL, 32768, PROT_READ | PROT_WRITE, MAP_PRIVATE | MAP_ANONYMOUS, -1, 0);
    again[32767] = (char)i;
    note(munmap(again, 32768));
  }
  note(munmap(own, 8192));
  note(mmap(NULL, 4096, PROT_READ, MAP_SHARED, 99, 0) == MAP_FAILED);
  note(errno);
  note(close(file));
  note(creat(NAME, 0600) >= 0);
  struct stat status;
  note(stat(NAME, &status));
  note(status.st_size);
  note(truncate(NAME, 77));
  note(stat(NAME, &status));
  note(status.st_size);
  note(unlink(NAME));
  note(unlink(NAME));
  note(errno);
  note(access(NAME, F_OK));
  print_sum();
}

static void note_result(long long result) {
  note(result);
  if (result < 0) note(errno);
}

static void descriptors(void) {
  int file = open(NAME, O_RDWR | O_CREAT | O_TRUNC | O_CLOEXEC, 0600);
  note_result(fcntl(file, F_GETFL));
  note_result(fcntl(file, F_GETFD));
  note(write(file, "12345678", 8));
  note(lseek(file, 2, SEEK_SET));
  note_result(fcntl(file, F_SETFL, O_APPEND | O_WRONLY | O_SYNC));
  note_result(fcntl(file, F_GETFL));
  note(write(file, "XY", 2));
  note(lseek(file, 0, SEEK_CUR));
  note(pwrite(file, "Z", 1, 0));
  note_content(file);
  note_result(fcntl(file, F_SETFL, 0));
  note(pwrite(file, "Z", 1, 0));
  note(pwrite(file, "Z", 0, 100));
  note_content(file);
  int other = dup(file), far = fcntl(file, F_DUPFD, 20), closed = fcntl(file, F_DUPFD_CLOEXEC, 20);
  note(other == file + 1);
  note(far);
  note(closed);
  note_result(fcntl(other, F_GETFD));
  note_result(fcntl(closed, F_GETFD));
  note_result(fcntl(closed, F_SETFD, 0));
  note_result(fcntl(closed, F_GETFD));
  note(lseek(far, 5, SEEK_SET));
  note(lseek(other, 1, SEEK_CUR));
  note_result(fcntl(far, F_SETFL, O_APPEND));
  note(write(closed, "end", 3));
  note_result(fcntl(file, F_DUPFD, -1));
  note_result(fcntl(file, 9999, 0));
  note_result(fcntl(file, F_GETFL) & O_APPEND);
  note(close(file));
  note_content(other);
  note(close(other) + close(far) + close(closed));
  note_result(fcntl(far, F_GETFL));
  note_result(dup(far));
  print_sum();
}

static void modes(void) {
  char byte;
  struct flock reads = {.l_type = F_RDLCK}, writes = {.l_type = F_WRLCK}, none = {.l_type = F_UNLCK}, bad = {.l_type = 9};
  int reader = open(NAME, O_RDONLY), writer = open(NAME, O_WRONLY);
  note_result(write(reader, "a", 1));
  note_result(pwrite(reader, "a", 1, 0));
  note_result(ftruncate(reader, 3));
  note(posix_fallocate(reader, 0, 100));
  note(posix_fallocate(writer, 0, 0));
  note_result(read(reader, &byte, 1));
  note(byte);
  note_result(read(writer, &byte, 1));
  note_result(pread(writer, &byte, 1, 0));
  note_result(pread(writer, &byte, 1, -1));
  note_result(fcntl(reader, F_SETLK, &reads));
  note_result(fcntl(reader, F_SETLK, &writes));
  note_result(fcntl(writer, F_SETLK, &writes));
  note_result(fcntl(writer, F_SETLK, &reads));
  note_result(fcntl(writer, F_SETLK, &none));
  note_result(fcntl(writer, F_SETLK, &bad));
  note_result(fcntl(writer, F_GETLK, &none));
  note_result(lockf(reader, F_LOCK, 1));
  note_result(lockf(writer, F_LOCK, 1));
  note_result(lockf(writer, 77, 1));
  note_result(flock(writer, 77));
  note_result(lseek(reader, 0, 77));
  note_result(lseek(reader, 2, SEEK_DATA));
  note_result(lseek(reader, 2, SEEK_HOLE));
  note_result(lseek(reader, 5000, SEEK_DATA));
  print_sum();
  note(mmap(NULL, 4096, PROT_READ | PROT_WRITE, MAP_SHARED, reader, 0) == MAP_FAILED);
  note(errno);
  note(mmap(NULL, 4096, PROT_READ | PROT_WRITE, MAP_SHARED_VALIDATE, reader, 0) == MAP_FAILED);
  note(errno);
  note(mmap(NULL, 4096, PROT_READ, MAP_SHARED, reader, 0) == MAP_FAILED);
  note(mmap(NULL, 4096, PROT_READ | PROT_WRITE, MAP_PRIVATE, reader, 0) == MAP_FAILED);
  note(mmap(NULL, 4096, PROT_READ, MAP_SHARED, writer, 0) == MAP_FAILED);
  note(errno);
  note(close(reader) + close(writer));
  print_sum();
}

static void types(void) {
  int file = open(NAME, O_RDWR | O_CREAT, 0600);
  note(ftruncate(file, 8192));
  char *first = mmap(NULL, 8192, PROT_READ | PROT_WRITE, MAP_SHARED_VALIDATE, file, 0), *own;
  strcpy(first + 5000, "stored through a validated mapping");
  char text[40];
  note(pread(file, text, sizeof text, 5000));
  note_bytes(text, sizeof text);
  own = mmap(NULL, 8192, PROT_READ | PROT_WRITE, MAP_PRIVATE, file, 4096);
  strcpy(own, "a private text");
  note(pread(file, text, sizeof text, 4096));
  note_bytes(text, sizeof text);
  static const int BAD[] = {0, 4, MAP_ANONYMOUS, MAP_ANONYMOUS | MAP_SHARED_VALIDATE, MAP_SHARED_VALIDATE | 1 << 24};
  for (int i = 0; i < 5; i++) {
    note(mmap(NULL, 4096, PROT_READ, BAD[i], BAD[i] & MAP_ANONYMOUS ? -1 : file, 0) == MAP_FAILED);
    note(errno);
  }
  note_result(msync(first, 8192, MS_SYNC | MS_ASYNC));
  note_result(msync(first, 8192, 64));
  note_result(msync(first, 8192, 0));
  note_result(msync(first, 8192, MS_SYNC | MS_INVALIDATE));
  note(close(file));
  print_sum();
}

// A lock belongs to an open file, which lives as long as a descriptor or a mapping has it.
static void locks(void) {
  int first = open(NAME, O_RDWR | O_CREAT, 0600), second = open(NAME, O_RDWR), third = dup(first);
  note(ftruncate(first, 8192));
  note_result(flock(first, LOCK_SH | LOCK_NB));
  note_result(flock(second, LOCK_SH | LOCK_NB));
  note_result(flock(second, LOCK_EX | LOCK_NB));
  note_result(flock(first, LOCK_EX | LOCK_NB));
  note_result(flock(third, LOCK_EX | LOCK_NB));
  note_result(flock(second, LOCK_SH | LOCK_NB));
  note(close(first));
  note_result(flock(second, LOCK_SH | LOCK_NB));
  char *mapped = mmap(NULL, 8192, PROT_READ | PROT_WRITE, MAP_SHARED, third, 0);
  note(close(third));
  note_result(flock(second, LOCK_SH | LOCK_NB));
  note(munmap(mapped, 4096));
  note_result(flock(second, LOCK_SH | LOCK_NB));
  note(munmap(mapped + 4096, 4096));
  note_result(flock(second, LOCK_EX | LOCK_NB));
  note_result(flock(second, LOCK_UN));
  note(close(second));
  print_sum();
}

static void reservations(void) {
  char *first = mmap(NULL, 1ul << 33, PROT_READ, MAP_PRIVATE | MAP_ANONYMOUS, -1, 0);
  char *second = mmap(NULL, 1ul << 33, PROT_NONE, MAP_PRIVATE | MAP_ANONYMOUS, -1, 0);
  note(first != MAP_FAILED && second != MAP_FAILED && (first + (1ul << 33) <= second || second + (1ul << 33) <= first));
  note((uintptr_t)first % 4096);
  note(munmap(first, 1ul << 33) + munmap(second, 1ul << 33));
  print_sum();
}

int main(void) {
  opens();
  writes();
  maps();
  descriptors();
  modes();
  types();
  locks();
  reservations();
  return 0;
}
