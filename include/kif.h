/* Prunicheta's calls for C: a text is read into a block, which is looked up, edited and written as a text. docs/BLOCK.md tells a block byte by byte.
 *
 * A slice is a pointer and a length in bytes; a lent number is a pointer to it. Every call takes every input: any bytes, any numbers. A refused
 * call says so in *number, by a number of enum kif_answer, and in its figures; 0 is success.
 *
 * A block is of version 1, as it is read, in which each variation hangs where the attaching rule finds it, or of version 2, as kif_restate makes it, in
 * which a move may have several variations and the parents stand as they were given. Every call that takes a block takes both, but for kif_restate.
 *
 * Pointers. A slice of length 0 may be NULL; any other has as many bytes as its length says. out and the lent numbers are written, so none of
 * them overlaps another of them or a slice that is read: a result goes into another buffer than what it is made of. Slices that are only read
 * may overlap. A lent number is not NULL, and stands where a uint64_t may stand.
 *
 * Lengths. Whoever wants to know how long a result is lends NULL and 0 as out: refusal 5 says it.
 *
 * Threads. Nothing is kept from call to call, nothing is shared and no memory is asked for: calls may run at once, for the same block too, as long
 * as none writes what another one reads or writes.
 *
 * Stack. A call takes at most so many bytes of it, the writer where variations are nested 2,334 deep (tests/c measures it):
 *   kif_measure, kif_fill     280000
 *   kif_stop                  100000
 *   kif_write, kif_write_as   600000
 *   kif_position              520000
 *   every other call            4096 */
#ifndef KIF_H
#define KIF_H

#include <stdbool.h>
#include <stddef.h>
#include <stdint.h>

#if SIZE_MAX != UINT64_MAX
#error "libkif takes lengths of 64 bits, and size_t has fewer here"
#endif

#define KIF_VERSION_MAJOR 0
#define KIF_VERSION_MINOR 1
#define KIF_VERSION_PATCH 0
#define KIF_VERSION "0.1.0"

/* The most bytes of a text that is read, and of a block. A text that is written may have more. */
#define KIF_LONGEST_TEXT 65535
#define KIF_LONGEST_BLOCK 65535

/* What a call says in *number. 14 was a refusal of kif_put_in that is never met, and is not used again. */
enum kif_answer {
  KIF_DONE = 0,
  KIF_TEXT_TOO_LONG = 1,      /* the text has more than KIF_LONGEST_TEXT bytes */
  KIF_NOT_UTF8 = 2,           /* the text is not UTF-8 */
  KIF_HAND_LINE = 3,          /* a line that tells the pieces in a hand cannot be read */
  KIF_BLOCK_TOO_LONG = 4,     /* the block would have more than KIF_LONGEST_BLOCK bytes */
  KIF_BUFFER_SHORT = 5,       /* out is shorter than the result */
  KIF_NO_ENTRY = 6,           /* a variation has no entry to hang on */
  KIF_NOT_SOUND = 7,          /* the slice is not just a sound block */
  KIF_HAND_COUNT = 8,         /* a hand holds more than 99 of a kind */
  KIF_CANNOT_WRITE = 9,       /* a move goes to a file or rank outside 1 to 9 without 同, or its time comes after a width of 14 */
  KIF_NO_SUCH_PART = 10,      /* there is no such line, comment or header entry; in a cut, also line 0 */
  KIF_NOT_ONE_VARIATION = 11, /* the text is not one variation, numbered one by one */
  KIF_OUTSIDE_LINE = 12,      /* the line has no such ply, or it is 0 */
  KIF_ENTRY_TAKEN = 13,       /* the block is of version 1, and a variation hangs there already */
  KIF_NO_START = 15,          /* the record has no diagram, and another preset than 平手 */
  KIF_NO_SUCH_ENTRY = 16,     /* the line has no such entry */
  KIF_PLAY_STOPPED = 17,      /* a move on the way to the entry cannot be played */
  KIF_STARTS_AT_ZERO = 20     /* a variation starts at ply 0, which the modes that lose nothing do not write */
};

/* Why reading stopped: the second figure of kif_stop. */
enum kif_reason {
  KIF_NO_NUMBER = 1,
  KIF_TOO_LARGE = 2,
  KIF_NO_PLACE = 3,
  KIF_NO_KIND = 4,
  KIF_NO_ORIGIN = 5,
  KIF_NO_BREAK = 6,
  KIF_COMMENT_HERE = 7,
  KIF_END_OF_TEXT = 8
};

/* The modes of kif_write_as. */
enum kif_mode {
  KIF_PLAIN = 0,
  KIF_WHOLE = 1,
  KIF_SHARED = 2
};

#ifdef __cplusplus
extern "C" {
#endif

/* How long a buffer must be for the block of a text: 0, that length and the bytes taken; or, in this order,
 *   1, length, 0          where the text is over 65,535 bytes;
 *   2, n, 0               where it is not UTF-8, its first n bytes being well formed;
 *   3, at, 0              where the hand line that begins at byte at cannot be read;
 *   4, length, 0          where the block would be over 65,535 bytes, and this length is needed. */
void kif_measure(const uint8_t *text, size_t text_len, uint64_t *number, uint64_t *first, uint64_t *second);

/* Reads a text into the front of out, which must not overlap it: 0, the bytes taken and the block's length. It measures by itself; or, in
 * this order,
 *   1 to 4                as kif_measure;
 *   5, length, 0          where out is shorter than the length needed;
 *   6, variation, ply     where a variation, counted from 1, has no entry to hang on.
 * Success changes only the block's bytes, 6 sets the whole of out to zero, and the others change nothing in it. With success
 * *lost is how many of the move lines taken have no time because a figure in it is over 255, as in (300:00/5:00:00); with a refusal it is 0. */
void kif_fill(const uint8_t *text, size_t text_len, uint8_t *out, size_t out_len, uint64_t *number, uint64_t *first, uint64_t *second, uint64_t *lost);

/* Where reading a text stops, and why. Nothing is stored, so that 4 and 5 are never given. The number is 0 and the figures are the first byte
 * not taken, the reason, and the place that the rule reached that failed there, and three zeros; or, in this order,
 *   1 to 3                as kif_measure, and four zeros more;
 *   6                     where a variation has no entry to hang on: its number from 1, its ply, the line that it would hang on, the first
 *                         and the last ply of that line, and the first byte of the variation's first move line.
 * Reasons: 1 no number; 2 number too large; 3 no place; 4 no kind; 5 no origin; 6 no line break; 7 a comment out of place; 8 end of text. Of
 * rules that all fail there the one that got further tells, else the one that is tried first. Where all is taken, the first byte not taken
 * and the place reached are the length, and the reason is 8. */
void kif_stop(const uint8_t *text, size_t text_len, uint64_t *number, uint64_t *first, uint64_t *second, uint64_t *third, uint64_t *fourth, uint64_t *fifth, uint64_t *sixth);

/* The line of a place, and its character in that line, both counted from 1: LFs end lines, and characters are counted by the bytes that are not 0x80 to
 * 0xBF.
 * A place past the end is the end. */
void kif_spot(const uint8_t *text, size_t text_len, uint64_t at, uint64_t *line, uint64_t *column);

/* Writes a block's text into the front of out, which must not overlap it: 0, the text's length and how many lines it leaves out; or,
 * in this order,
 *   7, 0, 0               where the slice is not just a sound block;
 *   8, side, kind         where a hand count is over 99: side 0 Black, 1 White, kind 0 to 6;
 *   9, line, entry        where a move cannot be written: a file or rank outside 1 to 9 without 同, or a time after a width of 14;
 *   5, length, 0          where out is shorter than the length needed, which may be over 65,535.
 * Success changes only the text's bytes, and a refusal nothing. */
void kif_write(const uint8_t *block, size_t block_len, uint8_t *out, size_t out_len, uint64_t *number, uint64_t *first, uint64_t *second);

/* Writes a block's text in a mode:
 *   0                     as kif_write, and so for any number but 1 and 2: without 不成, without the hour of what an entry itself took, with
 *                         an hour in every total, and without the lines from the first variation on that starts at ply 0;
 *   1                     losing nothing: kif_fill gives the block back, byte for byte, where each colour follows its ply, the text is within
 *                         65,535 bytes, no move that is written has two variations, and the block is one that was read, or edited by text, or made by
 *                         hand with nothing that no text says; a block of version 2 is given back as version 1;
 *   2                     as 1, and a move from (0,0) with 打, since other programs do not read the (00) of modes 0 and 1. 打 is read as (0,0).
 * 0, the text's length and how many lines it leaves out; or, in this order, 7 as kif_write; in modes 1 and 2
 *   20, line, 0           where that line, a variation, starts at ply 0;
 * then 8, 9 and 5 as kif_write, 9 by the width of what is written in the mode. Success changes only the text's bytes, and a refusal nothing. */
void kif_write_as(const uint8_t *block, size_t block_len, uint64_t mode, uint8_t *out, size_t out_len, uint64_t *number, uint64_t *first, uint64_t *second);

/* Puts the one variation that a text holds, wholly move lines with comments, numbered one by one, into a line of a block, at the ply that
 * its first move is numbered by. The edited block goes into the front of out, which must overlap neither: 0, its length and the new line's number; or, in
 * this order,
 *   7, 0, 0               where the slice is not just a sound block;
 *   10, line, 0           where it has no such line;
 *   11, 0, 0              where the text is not one variation, is over 65,535 bytes or is not UTF-8, or a number in it is not one more
 *                         than the number before it;
 *   12, line, ply         where the ply is 0 or not one of the line's;
 *   13, line, ply         where the block is of version 1 and a variation hangs there already; in one of version 2 the new one is written
 *                         before those that hang there;
 *   4, length, 0          where the block would be over 65,535 bytes, and this length is needed;
 *   5, length, 0          where out is shorter than the length needed.
 * Success changes only the new block's bytes, and a refusal nothing. */
void kif_put_in(const uint8_t *block, size_t block_len, uint64_t line, const uint8_t *text, size_t text_len, uint8_t *out, size_t out_len, uint64_t *number, uint64_t *first, uint64_t *second);

/* Cuts a line from 1 on out of a block, with all that hangs from it. The edited block goes into the front of out, which must not overlap
 * it: 0, its length and how many lines were removed; or, in this order,
 *   7, 0, 0               where the slice is not just a sound block;
 *   10, line, 0           where it has no such line, or the line is 0;
 *   5, length, 0          where out is shorter than the length needed.
 * Success changes only the new block's bytes, and a refusal nothing. */
void kif_cut(const uint8_t *block, size_t block_len, uint64_t line, uint8_t *out, size_t out_len, uint64_t *number, uint64_t *first, uint64_t *second);

/* Restates a block of version 1 as version 2: the same but for its byte 2. It goes into the front of out, which must not overlap it: 0, its
 * length and 0; or, in this order,
 *   7, 0, 0               where the slice is not just a sound block of version 1;
 *   5, length, 0          where out is shorter than the length needed.
 * Success changes only the block's bytes, and a refusal nothing. */
void kif_restate(const uint8_t *block, size_t block_len, uint8_t *out, size_t out_len, uint64_t *number, uint64_t *first, uint64_t *second);

/* The position after an entry of a line: what is played is the entries of its parents before the one that each line hangs on, then its own up to
 * and with this entry, from the record's diagram or from 平手. The sides move in turn, whatever colours the block has; 同 lands where the last move
 * landed; what is no move is passed over. Whether a move is legal is not looked at, but play stops where the piece is not there or not in hand, a place is off the
 * board, a piece of one's own or a king stands where it lands, any piece where it is dropped, a drop or a kind that has no other side promotes, a hand
 * would pass 255, or 同 is first. 0, 100 and the side to move, 0 Black, 1 White, and the first 100 bytes of out, which must not overlap
 * the block, are the position as a block has it: 16, 1, the side to move, 0, 81 cells, 14 hand counts, 0; or, in this order,
 *   7, 0, 0               where the slice is not just a sound block;
 *   10, line, 0           where it has no such line;
 *   15, preset, 0         where it has no diagram and another preset than 平手;
 *   16, line, entry       where the line has no such entry;
 *   17, line, entry       where play stopped: the line and the entry of the move that cannot be played, which may be a parent's;
 *   5, 100, 0             where out is shorter than 100 bytes.
 * Entry 0 of line 0 is the start. Success changes only the 100 bytes, and a refusal nothing. */
void kif_position(const uint8_t *block, size_t block_len, uint64_t line, uint64_t entry, uint8_t *out, size_t out_len, uint64_t *number, uint64_t *first, uint64_t *second);

/* Whether the slice is just a sound block. */
bool kif_sound(const uint8_t *block, size_t block_len);

/* Look-ups of texts: 0, the text's offset in the block and its length; or 7, 0, 0 where the block is not sound; or 10, k, 0 where it has no
 * such comment or header entry. */
void kif_comment(const uint8_t *block, size_t block_len, uint64_t k, uint64_t *number, uint64_t *first, uint64_t *second);
void kif_key(const uint8_t *block, size_t block_len, uint64_t k, uint64_t *number, uint64_t *first, uint64_t *second);
void kif_value(const uint8_t *block, size_t block_len, uint64_t k, uint64_t *number, uint64_t *first, uint64_t *second);

/* How many lines a block has, line 0 among them: 0, that number and 0; or 7, 0, 0 where it is not sound. */
void kif_lines(const uint8_t *block, size_t block_len, uint64_t *number, uint64_t *first, uint64_t *second);

/* Of line k: 0, the ply that it starts at and how many entries it has; and 0, the line that it hangs on, which is 0 for line 0, and 0. Or 7, 0, 0
 * where the block is not sound; or 10, k, 0 where it has no such line. */
void kif_line(const uint8_t *block, size_t block_len, uint64_t k, uint64_t *number, uint64_t *first, uint64_t *second);
void kif_parent(const uint8_t *block, size_t block_len, uint64_t k, uint64_t *number, uint64_t *first, uint64_t *second);

/* An entry of a line, both counted from 0: 0, the offset of its 20 bytes in the block and 20; or, in this order,
 *   7, 0, 0               where the slice is not just a sound block;
 *   10, line, 0           where it has no such line;
 *   16, line, entry       where the line has no such entry. */
void kif_entry(const uint8_t *block, size_t block_len, uint64_t line, uint64_t entry, uint64_t *number, uint64_t *first, uint64_t *second);

#ifdef __cplusplus
}
#endif

#endif
