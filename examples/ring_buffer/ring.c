// A queue of messages in a ring buffer. `put` writes a message into a slot and then increments `head`; `take` reads a
// message and then increments `tail`, which frees the slot. So after a crash the messages from `tail` up to `head` are
// whole. Each number of the input is a command: a positive one puts that many messages, a negative one takes that many.
#include <hippo.h>
#include <stdint.h>
#include <string.h>

enum { SLOTS = 32, TEXT = 112 };

struct message {
  uint64_t number;
  uint32_t length;
  uint32_t sum;
  char text[TEXT];
};

struct ring {
  _Alignas(64) uint64_t head; // how many messages were put
  _Alignas(64) uint64_t tail; // how many of them were taken
  _Alignas(64) struct message slots[SLOTS];
};

PERSISTENT static struct ring ring;

static uint32_t sum_of(const char *text, uint32_t length) {
  uint32_t sum = 5381;
  for (uint32_t i = 0; i < length; i++) {
    sum = sum * 33 + (unsigned char)text[i];
  }
  return sum;
}

// Makes one object durable.
static void persist(const void *object) {
  _mm_clwb(object);
  _mm_sfence();
}

static int put(struct ring *r, const char *text, uint32_t length) {
  if (r->head - r->tail == SLOTS || length > TEXT) {
    return 0;
  }
  struct message *slot = &r->slots[r->head % SLOTS];
  slot->number = r->head;
  slot->length = length;
  slot->sum = sum_of(text, length);
  memcpy(slot->text, text, length);
  persist(slot);
  pm_assert(slot, sizeof *slot);
  r->head += 1;
  persist(&r->head);
  return 1;
}

static int take(struct ring *r, char *text, uint32_t *length) {
  if (r->head == r->tail) {
    return 0;
  }
  const struct message *slot = &r->slots[r->tail % SLOTS];
  *length = slot->length;
  memcpy(text, slot->text, slot->length);
  r->tail += 1;
  _mm_clwb(&r->tail);
  return 1;
}

// After a crash: the messages that the ring counts must be whole.
static void recover(const struct ring *r) {
  for (uint64_t i = r->tail; i < r->head; i++) {
    const struct message *slot = &r->slots[i % SLOTS];
    if (slot->number != i || slot->length > TEXT || slot->sum != sum_of(slot->text, slot->length)) {
      __builtin_trap();
    }
  }
}

int main(void) {
  char text[TEXT];
  uint32_t length = 0;
  recover(&ring);
  for (int64_t wanted = read_i64(); wanted != 0; wanted = read_i64()) {
    for (; wanted > 0; wanted--) {
      memset(text, 'a' + (int)(ring.head % 26), sizeof text);
      put(&ring, text, 40 + (uint32_t)(ring.head % 5) * 8);
    }
    for (; wanted < 0 && take(&ring, text, &length); wanted++) {
      print_i64(length);
    }
  }
  return 0;
}
