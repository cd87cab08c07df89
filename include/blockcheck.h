/* The verdicts on the blocks of a program, for C and C++. docs/FORMATS.md has the two texts and the meaning of each number. */
#ifndef BLOCKCHECK_H
#define BLOCKCHECK_H

#include <stddef.h>
#include <stdint.h>

#ifdef __cplusplus
extern "C" {
#endif

/* One verdict is this many numbers: block, kind, place, i, j, least cycle. */
enum { BLOCKCHECK_VERDICT = 6 };

/* Room that always suffices: the count, and a verdict for each of sixteen blocks. */
enum { BLOCKCHECK_ROOM = 1 + 16 * BLOCKCHECK_VERDICT };

/* What a verdict is: its second number. */
enum blockcheck_kind {
    BLOCKCHECK_KEPT = 0,
    BLOCKCHECK_FLOW = 1,
    BLOCKCHECK_ANTI = 2,
    BLOCKCHECK_OUTPUT = 3,
    BLOCKCHECK_MEMORY = 4,
    BLOCKCHECK_UNPLACED = 5
};

/* Its third number: a register, or one of these. */
enum blockcheck_place {
    BLOCKCHECK_R0 = 0,
    BLOCKCHECK_RR0 = 32,
    BLOCKCHECK_P0 = 64,
    BLOCKCHECK_RP0 = 96,
    BLOCKCHECK_WHOLE_MEMORY = 128,
    BLOCKCHECK_NO_PLACE = 129
};

/* Answers 0, and room[0] is then how many verdicts follow it; or the number of a refusal, or 255 where memory has run
   out, and room is then left as it was. The texts and the room must not overlap. */
uint32_t blockcheck_verdicts(const uint8_t *description, size_t description_length,
                             const uint8_t *program, size_t program_length,
                             uint32_t *room, size_t room_length);

#ifdef __cplusplus
}
#endif

#endif
