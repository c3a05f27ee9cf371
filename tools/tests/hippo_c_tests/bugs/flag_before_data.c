// A mailbox holds one letter of two cache lines, and a word that says whether there is one.
// Bug: no fence between the letter and that word, so a power cut may keep the word and lose a part of the letter.
#include "common.h"

#define WORDS 16

PERSISTENT struct {
  LINE uint64_t letter[WORDS];
  LINE uint64_t is_full;
} mailbox;

static void recover(void) {
  for (uint64_t i = 0; mailbox.is_full && i < WORDS; i++) HOLDS(mailbox.letter[i] == mailbox.is_full + i);
}

static void post(uint64_t first) {
  for (uint64_t i = 0; i < WORDS; i++) mailbox.letter[i] = first + i;
  FLUSH(mailbox.letter);
  if (!BUG) pmem_drain();
  mailbox.is_full = first;
  PERSIST(mailbox.is_full);
}

static void collect(void) {
  print_i64(mailbox.is_full ? (long long)(mailbox.letter[0] + mailbox.letter[WORDS - 1]) : -1);
  mailbox.is_full = 0;
  PERSIST(mailbox.is_full);
}

int main(void) {
  recover();
  for (long long command; (command = read_i64());) {
    collect();
    if (command == 1) post(100 + (uint64_t)read_i64());
  }
  return 0;
}
