/*
 * The rig from C: one session file in, its listing out.
 *
 * docs/SESSION_FILE.md has the format of both, docs/REFUSALS.md the refusals. Link
 * target/staticlib/libsession.a, which `./build` writes. It allocates nothing, keeps nothing between
 * calls and calls no function of the C library but memset.
 */
#ifndef RIG_H
#define RIG_H

#include <stddef.h>
#include <stdint.h>

/* The least memory for a listing, in bytes. No listing fills it. */
#define RIG_LISTING_BYTES 65536u

/* An answer from here on is this plus the number of a refusal. */
#define RIG_REFUSED 100000u

/* The refusals of a whole session. */
#define RIG_FILE_SIZE 14u     /* the size of the file, or its count, is out of bounds */
#define RIG_CONTENTS 15u      /* the contents do not fit the file */
#define RIG_BODY 16u          /* a field of a body is malformed, missing or surplus */
#define RIG_SHORT_LISTING 17u /* listing_length is below RIG_LISTING_BYTES */

/*
 * Plays the session in the file_length bytes at file, on a fresh book and an empty board.
 *
 * Accepted: the listing stands from listing[0] on and its number of bytes is returned; the bytes
 * behind it keep what they had. Refused: RIG_REFUSED plus the number is returned, and every byte at
 * listing keeps what it had. A short listing is refused before the file is looked at.
 *
 * Both pointers must be valid for their lengths and not NULL, also where a length is 0, and the two
 * must not overlap. Calls from several threads at once are fine if their listings do not overlap.
 */
uint32_t rig_session(const uint8_t *file, size_t file_length, uint8_t *listing, size_t listing_length);

#endif
