"""Detours of numbers by functions of the C library: copies, texts, blocks of `malloc`, and sorting."""
from __future__ import annotations

import random
from string import Template


def through_parts(chance: random.Random, name: str) -> str:
    """Copies of parts of a word, with overlap."""
    cut = chance.randint(1, 7)
    room, at = chance.randint(24, 60), chance.randint(0, 12)
    return Template(
        """long $name(long k) {
  unsigned char room[$room];
  long back;
  memset(room, 170, sizeof room);
  memcpy(room + $at, &k, $cut);
  memcpy(room + $at + $cut, (char *)&k + $cut, 8 - $cut);
  touch(room);
  memmove(room + $to, room + $at, 8);
  memmove(&back, room + $to, 8);
  return back;
}"""
    ).substitute(name=name, room=room, at=at, cut=cut, to=max(0, min(room - 8, at + chance.randint(-7, 7))))


def through_text(chance: random.Random, name: str) -> str:
    """A text: its length, the place of a letter in it, or its digits."""
    alphabet = "".join(chance.choice("abcdefgh") for _ in range(63))
    form = chance.choice(["length", "place", "digits"])
    body = {
        "length": "room[k] = 0;\n  return (long)strlen(room);",
        "place": "room[k] = 'x';\n  return strchr(room, 'x') - room;",
        "digits": f'snprintf(room, sizeof room, "{chance.choice(["%ld", "%04ld", "%+ld", "%8ld"])}|%s", k, "tail");\n  return strtol(room, 0, 10);',
    }[form]
    return Template(
        """long $name(long k) {
  char room[72];
  strcpy(room, "$text");
  touch(room);
  $body
}"""
    ).substitute(name=name, text=alphabet, body=body)


def through_heap(chance: random.Random, name: str) -> str:
    """A list of blocks of `malloc`."""
    return Template(
        """long $name(long k) {
  struct node { struct node *next; long value; char room[$room]; } *head = 0;
  for (long i = 0; i < $count; i++) {
    struct node *new = malloc(sizeof *new);
    new->next = head, new->value = k + i, head = new;
  }
  long found = 0;
  while (head) {
    struct node *next = head->next;
    if (!next) found = head->value;
    free(head);
    head = next;
  }
  return found;
}"""
    ).substitute(name=name, room=chance.randint(1, 40), count=chance.randint(1, 6))


def through_sorting(chance: random.Random, name: str) -> str:
    """A place in an array that `qsort` sorted and `bsearch` searches."""
    count = chance.randint(64, 80)
    return Template(
        """static int ${name}_order(const void *a, const void *b) {
  return *(const $type *)a < *(const $type *)b ? -1 : *(const $type *)a > *(const $type *)b;
}
long $name(long k) {
  $type all[$count], wanted = ($type)(k * 3);
  for (long i = 0; i < $count; i++) all[i] = ($type)((i * 7 + $some) % $count * 3);
  qsort(all, $count, sizeof *all, ${name}_order);
  return ($type *)bsearch(&wanted, all, $count, sizeof *all, ${name}_order) - all;
}"""
    ).substitute(
        name=name,
        type=chance.choice(["short", "int", "long", "float", "double"]),
        count=count if count % 7 else count + 1,
        some=chance.randrange(9),
    )
