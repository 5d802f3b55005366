/* How deep each call goes into the stack, in bytes, over the texts and blocks that take it deepest: a thread's stack is painted, the call is made in
 * that thread, and the lowest byte that lost its paint is looked for. Prints a line for each call. */
#define _DEFAULT_SOURCE
#include "called.h"

#include <pthread.h>
#include <string.h>
#include <sys/mman.h>

enum { STACK = 8 << 20, OWN = 512, PAINT = 0xa5, ROOM = 1 << 18 };

static uint8_t *stack;
static uint8_t text[KIF_LONGEST_TEXT], block[KIF_LONGEST_BLOCK], out[ROOM];
static size_t text_len, block_len;
static uint64_t n[7];

/* ---- the calls, of the present text and block: the last line and entry, and the longest buffer */

static uint64_t last(void) { return (uint64_t)(block[8] + 256 * block[9]) - 1; }
static void measure(void) { kif_measure(text, text_len, n, n + 1, n + 2); }
static void fill(void) { kif_fill(text, text_len, out, ROOM, n, n + 1, n + 2, n + 3); }
static void stop(void) { kif_stop(text, text_len, n, n + 1, n + 2, n + 3, n + 4, n + 5, n + 6); }
static void spot(void) { kif_spot(text, text_len, text_len, n, n + 1); }
static void write_plain(void) { kif_write(block, block_len, out, ROOM, n, n + 1, n + 2); }
static void write_shared(void) { kif_write_as(block, block_len, KIF_SHARED, out, ROOM, n, n + 1, n + 2); }
static void put_in(void) { kif_put_in(block, block_len, last(), text, text_len, out, ROOM, n, n + 1, n + 2); }
static void cut(void) { kif_cut(block, block_len, 1, out, ROOM, n, n + 1, n + 2); }
static void restate(void) { kif_restate(block, block_len, out, ROOM, n, n + 1, n + 2); }
static void position(void) { kif_position(block, block_len, last(), 0, out, ROOM, n, n + 1, n + 2); }
static void sound(void) { n[0] = !kif_sound(block, block_len); }
static void comment(void) { kif_comment(block, block_len, 0, n, n + 1, n + 2); }
static void key(void) { kif_key(block, block_len, 0, n, n + 1, n + 2); }
static void value(void) { kif_value(block, block_len, 0, n, n + 1, n + 2); }
static void lines(void) { kif_lines(block, block_len, n, n + 1, n + 2); }
static void line(void) { kif_line(block, block_len, last(), n, n + 1, n + 2); }
static void parent(void) { kif_parent(block, block_len, last(), n, n + 1, n + 2); }
static void entry(void) { kif_entry(block, block_len, last(), 0, n, n + 1, n + 2); }

static struct call {
  const char *name;
  void (*make)(void);
  size_t depth;
} calls[] = {
    {"kif_measure", measure, 0},       {"kif_fill", fill, 0},         {"kif_stop", stop, 0},     {"kif_spot", spot, 0},
    {"kif_write", write_plain, 0},     {"kif_write_as", write_shared, 0}, {"kif_put_in", put_in, 0}, {"kif_cut", cut, 0},
    {"kif_restate", restate, 0},       {"kif_position", position, 0}, {"kif_sound", sound, 0},   {"kif_comment", comment, 0},
    {"kif_key", key, 0},               {"kif_value", value, 0},       {"kif_lines", lines, 0},   {"kif_line", line, 0},
    {"kif_parent", parent, 0},         {"kif_entry", entry, 0},
};
enum { CALLS = sizeof calls / sizeof *calls };

/* ---- the depth of a call, which is not told below OWN, the room of the function that makes it */

static void *made(void *call) {
  uint8_t *from = __builtin_frame_address(0), *lowest = stack;
  struct call *c = call;
  size_t depth;
  memset(stack, PAINT, (size_t)(from - stack) - OWN);
  c->make();
  while (*lowest == PAINT) lowest++;
  depth = (size_t)(from - lowest);
  if (c->depth < depth) c->depth = depth;
  return NULL;
}

/* Every call, with the text and the block that stand there. */
static void measure_all(void) {
  size_t k;
  for (k = 0; k < CALLS; k++) {
    pthread_attr_t attributes;
    pthread_t thread;
    EXPECT(pthread_attr_init(&attributes) == 0 && pthread_attr_setstack(&attributes, stack, STACK) == 0);
    EXPECT(pthread_create(&thread, &attributes, made, calls + k) == 0 && pthread_join(thread, NULL) == 0);
    EXPECT(pthread_attr_destroy(&attributes) == 0);
  }
}

/* ---- texts and blocks */

static void add(const char *words) {
  size_t length = strlen(words);
  EXPECT(text_len + length <= sizeof text);
  memcpy(text + text_len, words, length);
  text_len += length;
}

/* So many times the same words behind others. */
static void repeat(const char *before, int times, const char *words) {
  text_len = 0;
  add(before);
  while (times-- > 0) add(words);
}

/* So many header lines with keys of their own, in descending order. */
static void headers(int count) {
  text_len = 0;
  while (count-- > 0) {
    char words[32];
    sprintf(words, "%05d：\n", count);
    add(words);
  }
}

static void read_text(void) {
  uint64_t lost;
  kif_fill(text, text_len, block, sizeof block, n, n + 1, n + 2, &lost);
  EXPECT(n[0] == KIF_DONE);
  block_len = (size_t)n[2];
}

/* The block's variations as equals, all of them on the one move of line 0. */
static void all_on_line_0(void) {
  uint64_t k, rows = (uint64_t)(block[16] + 256 * block[17]);
  block[2] = 2;
  for (k = 1; k <= last(); k++) block[rows + 8 * k + 6] = block[rows + 8 * k + 7] = 0;
  EXPECT(kif_sound(block, block_len));
}

/* Every second variation nested in the one before it, the others on line 0. */
static void every_second_nested(void) {
  uint64_t k, rows = (uint64_t)(block[16] + 256 * block[17]);
  for (k = 2; k <= last(); k += 2) {
    block[rows + 8 * k + 6] = (uint8_t)(k - 1);
    block[rows + 8 * k + 7] = (uint8_t)((k - 1) >> 8);
  }
  EXPECT(kif_sound(block, block_len));
}

int main(int words, char **word) {
  size_t k;
  stack = mmap(NULL, STACK, PROT_READ | PROT_WRITE, MAP_PRIVATE | MAP_ANONYMOUS, -1, 0);
  EXPECT(words == 2 && stack != MAP_FAILED);
  text_len = file_text(word[1], text, sizeof text);
  read_text(), measure_all();
  repeat("", 13107, "a：\n"), read_text(), measure_all();
  headers(4600), read_text(), measure_all();
  repeat("手数\n", 3200, "1同歩打\n"), read_text(), measure_all();
  repeat("手数\n1同歩打\n", 2334, "x\n1同歩打\n"), read_text(), measure_all();
  all_on_line_0(), measure_all();
  every_second_nested(), measure_all();
  repeat("手数\n1同歩打\n", 2300, "x\n1同歩打\n"), read_text();
  repeat("", 1, "1同歩打\n"), measure_all();
  for (k = 0; k < CALLS; k++) printf("%s %lu\n", calls[k].name, (unsigned long)calls[k].depth);
  return 0;
}
