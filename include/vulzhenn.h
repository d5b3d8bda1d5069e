/* Vulzhenn: decides a quantified Boolean formula in narrowed QDIMACS, writes the rows that bear the answer out, and judges such rows.
 *
 * Link with what `pkg-config --cflags --libs vulzhenn` says of an installed copy, or with target/staticlib/libdoor.a, which `tests/library door` proves and
 * writes for x86-64 Linux. It uses memcpy, memmove and memset, and nothing else of the C library. What each function returns and leaves is defined in
 * crates/door/specs and proved for every input.
 */
#ifndef VULZHENN_H
#define VULZHENN_H

#include <stddef.h>
#include <stdint.h>

/* The witness file, in which rows are sent: byte 0 is a bit map, and after it come only the fields whose bit stands, in this order, numbers of two
 * bytes low byte first.
 *
 *     bit 0 (weight 1)    the claim, 1 byte: 0 or 1
 *     bit 1 (weight 2)    the number of unknowns, 2 bytes; the number of clauses, 2 bytes
 *     bit 2 (weight 4)    the count of universal rows, 2 bytes: 1 to 256; then 16 bytes a row
 *     bit 3 (weight 8)    the same for existential rows
 *     bit 4 (weight 16)   rounds, 2 bytes
 *
 * Bits 5 to 7 are 0, and nothing follows the last field, so the longest file has 8,204 bytes. Bit k of a row, byte k div 8 and weight 2^(k mod 8), is the
 * value of the k-th unknown of that kind, from 0. crates/witness reads and writes such files.
 */

#ifdef __cplusplus
extern "C" {
#endif

/* The work area has exactly this many bytes. */
#define VULZHENN_WORK 65536

/* A text has at most this many bytes. */
#define VULZHENN_TEXT 65536

/* The bytes of stack that a call needs at most, rounded up: a thread that calls has this much left. */
#define VULZHENN_STACK 262144

/* Answers. Undecided is said of the run, not of the formula: another run may settle it with fewer rows, as those of vulzhenn_study. */
#define VULZHENN_FALSE 0
#define VULZHENN_TRUE 1
#define VULZHENN_SPENT 2               /* undecided: the limit's rounds were made; never with a limit from 256 on */
#define VULZHENN_NO_ROOM_UNIVERSAL 3   /* undecided: a round's new universal rows did not fit into 256 */
#define VULZHENN_NO_ROOM_EXISTENTIAL 4 /* undecided: a round's new existential rows did not fit into 256 */

/* Refusals: 100 plus the number of the cause. The text's causes come first, in the order of reading; then 5, then 6. */
#define VULZHENN_REFUSED 100
#define VULZHENN_WORK_LENGTH 105    /* the work area has not 65,536 bytes */
#define VULZHENN_LIMIT_ZERO 106     /* the limit is 0 */
#define VULZHENN_TEXT_LENGTH 109    /* the text has over 65,536 bytes */
#define VULZHENN_LINE_SHAPE 110     /* a line of no shape allowed at its place, no p line, or the last line end is missing */
#define VULZHENN_OUT_OF_RANGE 111   /* V, C or a name is out of range */
#define VULZHENN_BOUND_TWICE 112    /* a name is bound twice */
#define VULZHENN_NOT_BOUND 113      /* not returned: a name in a clause that no block binds is existential in front of everything */
#define VULZHENN_COUNTS 114         /* over 128 names, over 8,192 entries, or not as many clauses as C says */

/* Decides the formula of a text within a limit of rounds, with no preferences and 256 rows a side of its own.
 *
 * text, text_length   the text's bytes; they are read only
 * work, work_length   the work area, of VULZHENN_WORK bytes, with any content
 * limit               the most rounds, from 1; the program vulzhenn takes 1,000
 *
 * The limit bounds rounds, not time. Most formulas are decided in milliseconds, but one round can take for ever: parity formulas of 60 unknowns in
 * one block take from a second upwards, and a dozen unknowns more ten times as long or longer. A call cannot be broken off, so a caller that needs a
 * timeout gives the call a process of its own and ends that.
 *
 * Returns one of the answers 0 to 4, and the work area is zero; or one of the refusals 105, 106, 109 to 112 and 114, and the work area is as it
 * was found. No other number is returned, and no other byte is written.
 *
 * Neither pointer is null, also where its length is 0; each points to as many bytes as its length says, and the work area shares no byte with the
 * text.
 *
 * Nothing is kept between calls, and nothing is allocated: calls on different threads with different work areas are independent. They may
 * share a text.
 */
uint32_t vulzhenn_decide(const uint8_t *text, size_t text_length, uint8_t *work, size_t work_length, uint32_t limit);

/* Decides the formula of a text by a study: up to four runs with other settings, 256 rows a side each, one after the other, until one answers true or
 * false. It decides most formulas that one run leaves undecided for want of rows.
 *
 * text, text_length   the text's bytes; they are read only
 * work, work_length   the work area, of VULZHENN_WORK bytes, with any content
 *
 * Returns one of the answers 0 to 4, the last run's if none gives a verdict, or one of the refusals 105, 109 to 112 and 114, as vulzhenn_decide does, and
 * what is said there of time, pointers, threads and the work area holds here too. A call needs VULZHENN_STACK bytes of stack at most.
 */
uint32_t vulzhenn_study(const uint8_t *text, size_t text_length, uint8_t *work, size_t work_length);

/* A witness file that vulzhenn_witness writes has at most this many bytes. */
#define VULZHENN_WITNESS 4106

/* A witness file that is accepted has at most this many bytes. */
#define VULZHENN_WITNESS_READ 8204

/* The text is decided with no preferences, 256 rows a side and a limit of 1,000 rounds, and the witness file of the side that settled it is put at the start of
 * out: the claim, the number of unknowns and of clauses, the side's rows, the rounds. vulzhenn_judge accepts it on that text.
 *
 * text, text_length   the text's bytes; they are read only
 * out, out_length     room for the file; VULZHENN_WITNESS bytes are always enough
 * work, work_length   the work area, of VULZHENN_WORK bytes, with any content
 *
 * Returns the file's length, and what lies past it in out is as it was; or 0, and out is as it was: the formula is undecided, the text is refused, the file does
 * not fit, or the work area has not VULZHENN_WORK bytes. Which one it is vulzhenn_decide tells. The work area is zero after a text that is taken, unless
 * it has another length, and as it was found otherwise. No pointer is null, and no two areas share a byte. A call needs VULZHENN_STACK bytes of stack at most.
 */
size_t vulzhenn_witness(const uint8_t *text, size_t text_length, uint8_t *out, size_t out_length, uint8_t *work, size_t work_length);

/* What vulzhenn_judge returns besides a refusal. */
#define VULZHENN_NOT_BORNE_OUT 0
#define VULZHENN_ACCEPTED 1
#define VULZHENN_OTHER_FORMULA 2

/* Judges a witness file about a text: whether the rows of its claim's side bear the claim out.
 *
 * text, text_length         the text's bytes
 * witness, witness_length   the file's bytes
 * work, work_length         the work area, of VULZHENN_WORK bytes, with any content
 *
 * Returns VULZHENN_ACCEPTED only if the text's formula has the value that the file claims; VULZHENN_NOT_BORNE_OUT; VULZHENN_OTHER_FORMULA if the file has sizes
 * that are not the formula's, when it is not judged; or 100 plus the number of a refusal: those of the text, then of the file 17 (a map with bit 5, 6 or
 * 7), 18 (it is empty, stops short or goes on), 7 (the claim is above 1), 4 (a count of 0 or over 256); VULZHENN_OTHER_FORMULA comes here; then 7 (there is no
 * claim), 4 (no rows of the claim's side), 5 (the work area's length), and 8 (a bit beyond a row's unknowns). The work area is zero after 0 and 1, and as it was found otherwise. No pointer is null, and
 * the work area shares no byte with the others. A call needs VULZHENN_STACK bytes of stack at most.
 */
uint32_t vulzhenn_judge(const uint8_t *text, size_t text_length, const uint8_t *witness, size_t witness_length, uint8_t *work, size_t work_length);

/* The number of this interface. A library with another number than VULZHENN_VERSION is not the one of this header. */
#define VULZHENN_VERSION 3

uint32_t vulzhenn_version(void);

#ifdef __cplusplus
}
#endif

#endif
