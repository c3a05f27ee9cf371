// The words of the command line for a program that reads them as the first numbers of its input (--args-from-input). A number has up to
// eight bytes of a word, the first one lowest; a byte 0 ends the word. A number 0 in place of a word ends the words.

#include <hippo.h>

#define MOST_WORDS 64
#define MOST_BYTES 4096

static char bytes[MOST_BYTES];
static char *words[MOST_WORDS + 1];
static int word_count;

// Reads a word from its first number on, to `to`, and returns where the next one may begin.
static char *read_word(char *to, unsigned long long number) {
  for (int left = 8;; number >>= 8, left--) {
    if (!left) {
      number = (unsigned long long)read_i64();
      left = 8;
    }
    hippo_assume(to < bytes + MOST_BYTES);
    *to++ = (char)number;
    if (!(number & 255)) return to;
  }
}

// The number of words; the first one is the name of the program.
int hippo_read_words(char *program) {
  if (word_count) return word_count;
  words[word_count++] = program;
  char *to = bytes;
  for (unsigned long long number; (number = (unsigned long long)read_i64());) {
    hippo_assume(word_count < MOST_WORDS);
    words[word_count++] = to;
    to = read_word(to, number);
  }
  return word_count;
}

// The words, and a null pointer after them.
char **hippo_words(char *program) {
  hippo_read_words(program);
  return words;
}
