/* polashvek.h: may a copied sequencer run be released?
 *
 * One call answers whether a listing includes a recipe. The caller lends the bytes of a recipe's
 * parcel followed at once by a listing's, and a buffer; the answer is one line of text.
 *
 *     included W V M..    yes: the listing includes the recipe. W and V are the corner (all roots,
 *                         row 0), then for each recipe row, in order, the listing row that it maps to
 *     absent W V          no: W subtrees of recipe row V are the highest and widest left corner found
 *     refused N P         no answer: refusal number N at place P (docs/REFUSALS.md)
 *
 * The line is ASCII: one word, decimal numbers without leading zeros, single spaces, and one newline
 * at its end, which counts. It is not ended by a zero byte.
 *
 * To link, on x86-64: cc host.c $(pkg-config --cflags --libs polashvek)
 */
#ifndef POLASHVEK_H
#define POLASHVEK_H

#include <stddef.h>
#include <stdint.h>

#ifdef __cplusplus
extern "C" {
#endif

/* The fewest bytes an answer buffer may have: as many as the longest line has, so that no line is
 * ever cut. A shorter buffer gets 0 back and is not written to, whatever the input. */
#define POLASHVEK_ANSWER_BYTES 1295

/* Two parcels never have more bytes than this: 20 + 6 * 256 for a recipe's, 20 + 6 * 4096 for a
 * listing's. A host that reads a file need read no more than one byte beyond it: every longer input
 * has the same line as its first 26,153 bytes. */
#define POLASHVEK_INPUT_BYTES 26152

/* polashvek_answer: the answer line of an input.
 *
 * Gives the length of the line, newline included, at most POLASHVEK_ANSWER_BYTES. The line then
 * stands in answer[0] up to that length; every later byte of the buffer is as it was.
 * Gives 0 where answer_length is under POLASHVEK_ANSWER_BYTES (refusal number 19, which is tested
 * first); the buffer is then not written to. 0 is given for no other reason.
 *
 * The input is only read, in full or in part, and every byte sequence is a good argument: damaged,
 * empty or endless input gets a `refused` line. Places in a `refused` line count from input[0].
 *
 * What is proved of this function, for every input and every buffer: the answer, every byte of the
 * buffer afterwards, that it reads and writes nothing else, and that it returns. What cannot be
 * proved is what the caller does. The caller owes:
 *
 *   - input points to input_length bytes that can be read, and answer to answer_length bytes that
 *     can be read and written, for the whole call;
 *   - the two do not overlap, in no byte;
 *   - no other thread writes the input, or reads or writes the buffer, during the call;
 *   - neither length is over PTRDIFF_MAX (no object is);
 *   - a null pointer is given only with length 0. Length 0 with any pointer, null too, is in order:
 *     an empty input is `refused 11 0`, an empty buffer gets 0 back.
 *
 * The call keeps nothing after it returns, holds no state between calls, takes no memory from the
 * heap, makes no system call, and may be made from several threads at once, each with its own
 * buffer. Its working room is on the stack of the calling thread, under 80 KiB as measured.
 */
size_t polashvek_answer(const uint8_t *input, size_t input_length, uint8_t *answer, size_t answer_length);

#ifdef __cplusplus
}
#endif

#endif
