/* The planning engine behind one call: from the bytes of the forms to the bytes of the answer. */
#ifndef GEZWAPHIMO_H
#define GEZWAPHIMO_H

#include <stddef.h>
#include <stdint.h>

#ifdef __cplusplus
extern "C" {
#endif

/* The buffer is shorter than the answer; it holds what it held. No other negative number is answered. */
#define GEZWAPHIMO_BUFFER_TOO_SHORT (-14)

/*
 * Answers `forms_length` bytes of forms, and writes the answer from `answer[0]` on: the sheet of the plan that the
 * forms make, or the one line `(refused n layer k)` of a text that is refused, which is an answer like any other.
 *
 * Returns the count of bytes written, or GEZWAPHIMO_BUFFER_TOO_SHORT exactly where the answer is longer than
 * `answer_length`. Bytes past the count are not changed. No byte of `forms` is changed.
 *
 * Both pointers are valid for their lengths, also where a length is 0, and the two do not overlap. An answer has at most
 * 205,200 bytes, and one of 65,536 bytes has been enough for every plan that was tried.
 *
 * Threads: the call keeps nothing between two calls and allocates nothing, so that any number of threads can make it at
 * the same time. Stack: see docs/EMBEDDING.md for what a call was measured to need; give a thread 1 MiB.
 */
int64_t gezwaphimo_answer(const uint8_t *forms, size_t forms_length, uint8_t *answer, size_t answer_length);

#ifdef __cplusplus
}
#endif

#endif
