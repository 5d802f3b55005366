/* Lent memory to its last byte: each slice ends where the memory ends, so that a byte past it cannot be touched; a slice without bytes is NULL. */
#define _DEFAULT_SOURCE
#include "called.h"

#include <string.h>
#include <sys/mman.h>
#include <unistd.h>

enum { ROOM = 1 << 18 };

static uint64_t n, x, y, lost;

/* Memory of a length that ends where no memory follows. */
static uint8_t *at_the_end(size_t length) {
  size_t page = (size_t)sysconf(_SC_PAGESIZE);
  uint8_t *start = mmap(NULL, ROOM + page, PROT_READ | PROT_WRITE, MAP_PRIVATE | MAP_ANONYMOUS, -1, 0);
  EXPECT(start != MAP_FAILED && length <= ROOM && mprotect(start + ROOM, page, PROT_NONE) == 0);
  return start + ROOM - length;
}

/* The same with these bytes in it. */
static uint8_t *copied(const void *bytes, size_t length) { return memcpy(at_the_end(length), bytes, length); }

/* The block of a text, in memory of just its length. */
static uint8_t *read_block(const uint8_t *text, size_t length, size_t *block_len) {
  uint8_t *block;
  kif_measure(text, length, &n, &x, &y);
  EXPECT(n == KIF_DONE);
  *block_len = (size_t)x;
  block = at_the_end(*block_len);
  kif_fill(text, length, block, *block_len - 1, &n, &x, &y, &lost);
  EXPECT(n == KIF_BUFFER_SHORT && x == *block_len);
  kif_fill(text, length, block, *block_len, &n, &x, &y, &lost);
  EXPECT(n == KIF_DONE && x <= length && y == *block_len);
  return block;
}

/* What is written in each mode, first with nothing lent. */
static void write_back(const uint8_t *block, size_t block_len) {
  uint64_t mode;
  for (mode = KIF_PLAIN; mode <= KIF_SHARED; mode++) {
    uint8_t *out;
    uint64_t length;
    kif_write_as(block, block_len, mode, NULL, 0, &n, &x, &y);
    EXPECT(n == KIF_BUFFER_SHORT);
    length = x;
    out = at_the_end((size_t)length);
    kif_write_as(block, block_len, mode, out, (size_t)length, &n, &x, &y);
    EXPECT(n == KIF_DONE && x == length);
  }
}

/* All that is asked of a block, past its ends too. */
static void look_round(const uint8_t *block, size_t block_len) {
  uint8_t *out = at_the_end(100);
  uint64_t lines, entries, k, e;
  kif_lines(block, block_len, &n, &lines, &y);
  EXPECT(n == KIF_DONE && lines > 0);
  for (k = 0; k < lines; k++) {
    kif_parent(block, block_len, k, &n, &x, &y);
    EXPECT(n == KIF_DONE && x <= k);
    kif_line(block, block_len, k, &n, &x, &entries);
    EXPECT(n == KIF_DONE && entries > 0);
    for (e = 0; e < entries; e++) {
      kif_entry(block, block_len, k, e, &n, &x, &y);
      EXPECT(n == KIF_DONE && y == 20 && x + 20 <= block_len);
      kif_position(block, block_len, k, e, out, 100, &n, &x, &y);
      EXPECT(n == KIF_DONE || n == KIF_PLAY_STOPPED);
    }
    kif_entry(block, block_len, k, entries, &n, &x, &y);
    EXPECT(n == KIF_NO_SUCH_ENTRY && x == k && y == entries);
  }
  kif_line(block, block_len, lines, &n, &x, &y);
  EXPECT(n == KIF_NO_SUCH_PART && x == lines && y == 0);
  kif_entry(block, block_len - 1, 0, 0, &n, &x, &y);
  EXPECT(n == KIF_NOT_SOUND);
}

/* A variation put in, restated and cut out again. */
static void edit(const uint8_t *block, size_t block_len) {
  static const char move[] = "2 ９四歩(93)\n";
  uint8_t *text = copied(move, sizeof move - 1), *out, *two, *back;
  size_t length;
  kif_put_in(block, block_len, 0, text, sizeof move - 1, NULL, 0, &n, &x, &y);
  EXPECT(n == KIF_BUFFER_SHORT);
  length = (size_t)x;
  out = at_the_end(length), two = at_the_end(length), back = at_the_end(block_len);
  kif_put_in(block, block_len, 0, text, sizeof move - 1, out, length, &n, &x, &y);
  EXPECT(n == KIF_DONE && x == length);
  kif_cut(out, length, y, back, block_len, &n, &x, &y);
  EXPECT(n == KIF_DONE && x == block_len && y == 1 && memcmp(block, back, block_len) == 0);
  kif_restate(out, length, two, length, &n, &x, &y);
  EXPECT(n == KIF_DONE && x == length && two[2] == 2 && memcmp(out + 3, two + 3, length - 3) == 0);
}

int main(int words, char **word) {
  static uint8_t read[KIF_LONGEST_TEXT];
  size_t length, block_len;
  uint8_t *text, *block;
  EXPECT(words == 2);
  length = file_text(word[1], read, sizeof read);
  text = copied(read, length);
  block = read_block(text, length, &block_len);
  write_back(block, block_len);
  look_round(block, block_len);
  edit(block, block_len);
  kif_fill(NULL, 0, NULL, 0, &n, &x, &y, &lost);
  EXPECT(n == KIF_BUFFER_SHORT && x == 156);
  kif_put_in(block, block_len, 0, NULL, 0, NULL, 0, &n, &x, &y);
  EXPECT(n == KIF_NOT_ONE_VARIATION);
  return 0;
}
