/* Two threads that read, look up, play and write one block at once answer what one alone does. */
#include "called.h"

#include <pthread.h>
#include <string.h>

enum { ROUNDS = 2000, ROOM = 4096 };

static uint8_t text[KIF_LONGEST_TEXT], block[ROOM];
static size_t text_len, block_len;

/* What the calls make of the text and the block. */
struct made {
  uint8_t block[ROOM], text[ROOM], position[100];
  uint64_t numbers[19];
};

static void make(struct made *m) {
  uint64_t *n = m->numbers;
  memset(m, 0, sizeof *m);
  kif_fill(text, text_len, m->block, sizeof m->block, n, n + 1, n + 2, n + 3);
  kif_write_as(block, block_len, KIF_SHARED, m->text, sizeof m->text, n + 4, n + 5, n + 6);
  kif_position(block, block_len, 1, 0, m->position, sizeof m->position, n + 7, n + 8, n + 9);
  kif_comment(block, block_len, 0, n + 10, n + 11, n + 12);
  kif_entry(block, block_len, 1, 0, n + 13, n + 14, n + 15);
  kif_parent(block, block_len, 1, n + 16, n + 17, n + 18);
}

static void *rounds(void *alone) {
  int round;
  for (round = 0; round < ROUNDS; round++) {
    struct made m;
    make(&m);
    EXPECT(memcmp(&m, alone, sizeof m) == 0);
  }
  return NULL;
}

int main(int words, char **word) {
  static struct made alone;
  pthread_t first, second;
  uint64_t n, x, y, lost;
  EXPECT(words == 2);
  text_len = file_text(word[1], text, sizeof text);
  kif_fill(text, text_len, block, sizeof block, &n, &x, &y, &lost);
  EXPECT(n == KIF_DONE);
  block_len = (size_t)y;
  make(&alone);
  EXPECT(alone.numbers[4] == KIF_DONE && alone.numbers[7] == KIF_DONE && alone.numbers[13] == KIF_DONE);
  EXPECT(pthread_create(&first, NULL, rounds, &alone) == 0 && pthread_create(&second, NULL, rounds, &alone) == 0);
  EXPECT(pthread_join(first, NULL) == 0 && pthread_join(second, NULL) == 0);
  return 0;
}
