/* What the programs of this folder share: a failure that says where, and the text of a file. */
#ifndef CALLED_H
#define CALLED_H

#include "kif.h"

#include <stdio.h>
#include <stdlib.h>

#define EXPECT(fact) ((fact) ? (void)0 : failed(__FILE__, __LINE__, #fact))

static inline void failed(const char *file, int line, const char *fact) {
  fprintf(stderr, "%s:%d: not so: %s\n", file, line, fact);
  exit(1);
}

/* Reads a file into text, and answers its length. */
static inline size_t file_text(const char *name, uint8_t *text, size_t most) {
  FILE *file = fopen(name, "rb");
  size_t length;
  EXPECT(file != NULL);
  length = fread(text, 1, most, file);
  EXPECT(fclose(file) == 0);
  return length;
}

#endif
