/* The condition board from C or C++: link libboard.a, which examples/run.sh makes of the crate board_c.

   A pointer and the length behind it are one array of the caller's: the pointer must not be null, also at length 0, and that many bytes
   must be there to be read, or written at `out`. `out` must not overlap another array of the call. The functions keep nothing from one
   call to the next, allocate nothing, and may run on several threads at once. */
#ifndef BOARD_H
#define BOARD_H

#include <stddef.h>
#include <stdint.h>

/* A net has n contexts, 1 to 48, with capacities 1 to 255, and r relations, 0 to 96. */
#define BOARD_MOST_CONTEXTS 48
#define BOARD_MOST_RELATIONS 96

/* A relation is three bytes: its kind, then the contexts a and b. */
#define BOARD_RELATION_SIZE 3
#define BOARD_EXCLUDES 1 /* neither while the other is active */
#define BOARD_CAUSES 2   /* a causes b */
#define BOARD_IMPLIES 3  /* a implies b */
#define BOARD_REQUIRES 4 /* a requires b */
#define BOARD_SUGGESTS 5 /* a suggests b: going on, a asks b on, and goes on even where b cannot; going off, a leaves b as it is */

/* A call is three bytes: which call, then the context in two bytes, low byte first; undo and settle do not read those two. */
#define BOARD_CALL_SIZE 3
#define BOARD_ACTIVATE 0
#define BOARD_DEACTIVATE 1
#define BOARD_UNDO 2   /* takes back the last open request */
#define BOARD_SETTLE 3 /* what is open can no longer be undone */

/* An answer is five bytes: 0 or the refusal, then the firings, then the forced ones among them, in two bytes each, low byte first. A forced
   firing lowers a context because one that it implies or requires is not active. A refused request tells both numbers as well. */
#define BOARD_ANSWER_SIZE 5

/* The refusals. Of several reasons the first that applies is given. */
#define BOARD_SHORT_IMAGE 1       /* the image is too short to have a trailer */
#define BOARD_OTHER_EDITION 2     /* the edition is not 1 */
#define BOARD_WRONG_SIZES 3       /* n is not 1 to 48, r is above 96, or the relation bytes are not whole triples */
#define BOARD_WRONG_LAYOUT 4      /* a distance or the length does not follow from the trailer */
#define BOARD_ZERO_CAPACITY 5     /* a capacity is 0 */
#define BOARD_WRONG_RELATION 6    /* a relation's kind is not 1 to 5, an end is no context, or both ends are the same */
#define BOARD_REPEATED_RELATION 7 /* a relation repeats an earlier one */
#define BOARD_SHORT_OUTPUT 8      /* the output is too short for the image */
#define BOARD_WRONG_RECORDS 9     /* the records are not those of the net that the relations compose */
#define BOARD_NO_SUCH_CONTEXT 10  /* there is no such context */
#define BOARD_STEP_LIMIT_MET 11   /* 4,096 transitions fired and one could still fire */
#define BOARD_TOKENS_LEFT 12      /* something that was asked for could not be done and is left */
#define BOARD_NOTHING_OPEN 13     /* nothing is open to be undone */
#define BOARD_ALREADY_OFF 14      /* the context to be deactivated is not active; tested straight after 10 */
#define BOARD_NOT_RAISED 15       /* the context to be activated is no higher than before: a suggestion swallowed what was asked for; tested after 12 */

/* Lengths in bytes. An image has n + 3r + 49t + 8, where t is 2n plus the relations that are no exclusions; a list has 2 + n + 3r. */
#define BOARD_SHORTEST_IMAGE 107 /* n = 1, r = 0 */
#define BOARD_LONGEST_IMAGE 9752 /* n = 48, r = 96, no exclusion */
#define BOARD_LONGEST_LIST 338   /* n = 48, r = 96 */
#define BOARD_LONGEST_STATE 60   /* 48 counts and three totals of 4 bytes */

#ifdef __cplusplus
extern "C" {
#endif

/* Composes the image of the net with these capacities, a byte for each context, and these relations. Writes the image to the start of out,
   nothing behind it, and returns its length. A value below BOARD_SHORTEST_IMAGE is the refusal, one of 3, 5, 6, 7 and 8; then nothing is
   written. BOARD_LONGEST_IMAGE bytes are room for every image. */
uint64_t board_compose(const uint8_t *capacities, size_t capacities_len, const uint8_t *relations, size_t relations_len, uint8_t *out,
                       size_t out_len);

/* Checks an image, and writes nothing. Returns 0 where it is, byte for byte, the image that its capacities and relations compose; otherwise
   the refusal, 1 to 7 or 9. */
uint32_t board_check(const uint8_t *image, size_t image_len);

/* Lists what an image stands for: writes n, r, the n capacities and the r relations to the start of out. Returns the number of bytes
   written, 2 + n + 3r; for an image that board_check refuses, the refusal; 0 where out is too short. A list that does not fit is not begun. A
   list may be as short as 3 bytes, so a value from 3 to 9 alone does not tell a list from a refusal: check the image first.
   BOARD_LONGEST_LIST bytes are room for every list. */
uint64_t board_list(const uint8_t *image, size_t image_len, uint8_t *out, size_t out_len);

/* Makes a list of calls, one behind the other, on the net freshly loaded from an image. A refused image is the net without contexts, n = 0:
   a request there meets refusal 10, undo 13. Writes to the start of out an answer for each call, then the n counts, a byte each, then the
   totals of granted, refused and undone in 4 bytes each, low byte first. Returns the number of bytes written, 5 for each call + n + 12.
   Returns 0 with nothing written where the calls are not whole triples, one begins with a byte above 3, or out is too short; the refusal of
   a single call is no reason. 5 * (calls_len / 3) + BOARD_LONGEST_STATE bytes are always room enough. */
uint64_t board_run(const uint8_t *image, size_t image_len, const uint8_t *calls, size_t calls_len, uint8_t *out, size_t out_len);

#ifdef __cplusplus
}
#endif

#endif
