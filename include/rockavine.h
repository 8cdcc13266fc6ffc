/* Rockavine: nroff source to pages for a line printer, called from C99 or C++.
 *
 * A caller owns three pieces of memory: a record, a store of ROCKAVINE_STORE_SIZE bytes, and room for output. There is
 * no heap, no global state and no input or output behind it, so sessions that share no memory do not affect each other.
 *
 *     static rockavine_record record;
 *     static uint8_t store[ROCKAVINE_STORE_SIZE];
 *     rockavine_start(&record);
 *
 * Then, until the answer is ROCKAVINE_DONE or ROCKAVINE_REFUSED:
 *
 *     answer = rockavine_call(&record, store, sizeof store, block, length, last, out, room, &reply);
 *
 * Write out the first reply.written bytes of out. Lend the next block from the first byte not taken on: reply.taken says
 * how many were. last is not 0 if no byte follows the block, and then stays so. examples/loader.c is a whole program. */
#ifndef ROCKAVINE_H
#define ROCKAVINE_H

#include <stddef.h>
#include <stdint.h>

#ifdef __cplusplus
extern "C" {
#endif

#define ROCKAVINE_VERSION 1u
#define ROCKAVINE_STORE_SIZE 8192u
#define ROCKAVINE_RECORD_SIZE 12276u
#define ROCKAVINE_RECORD_ALIGNMENT 4u
#define ROCKAVINE_WORDS 68

typedef enum rockavine_answer {
    ROCKAVINE_NEEDS_INPUT = 0, /* the whole block is taken: lend the next one */
    ROCKAVINE_NEEDS_ROOM = 1,  /* the room is full: lend more, with the bytes not taken */
    ROCKAVINE_DONE = 2,        /* all pages are written */
    ROCKAVINE_REFUSED = 3      /* the document breaks a rule; number 1: the record or the store breaks a limit */
} rockavine_answer;

typedef struct rockavine_reply {
    size_t taken;   /* bytes of the block, from its start */
    size_t written; /* bytes of the room, from its start; those behind are as they were */
    uint8_t number; /* of the refusal, 1 to 12; else 0 */
    uint32_t line;  /* source line of the refusal; 0 if there is none, or its number is 1 */
} rockavine_reply;

/* What is kept between two calls. It may be copied, moved and stored by its bytes. Its members are not for the caller.
 * Any bytes make a record: one that breaks a limit is refused with number 1 and is not changed, nor is the store. */
typedef struct rockavine_record {
    int32_t words[ROCKAVINE_WORDS];
    int32_t values[64];
    int32_t steps[64];
    uint16_t ends[221];
    uint16_t lengths[64];
    uint8_t gathered[512];
    uint8_t cells[512];
    uint8_t row[872];
    uint8_t arena[8704];
    uint8_t text_firsts[64];
    uint8_t text_seconds[64];
    uint8_t kinds[64];
    uint8_t firsts[64];
    uint8_t seconds[64];
    uint8_t unused[2];
} rockavine_record;

struct rockavine_record_aligned {
    char first;
    rockavine_record record;
};

/* These do not compile where the record has another size or alignment. */
typedef char rockavine_record_has_its_size[sizeof(rockavine_record) == ROCKAVINE_RECORD_SIZE ? 1 : -1];
typedef char rockavine_record_has_its_alignment
    [offsetof(struct rockavine_record_aligned, record) == ROCKAVINE_RECORD_ALIGNMENT ? 1 : -1];

/* The version of the library that is linked; ROCKAVINE_VERSION is that of this header. */
uint32_t rockavine_version(void);

/* The two functions on the parts of a record are for those below. A part may be lent once in a call. */
void rockavine_start_parts(int32_t words[ROCKAVINE_WORDS], uint8_t gathered[512], uint8_t cells[512], uint8_t row[872],
                           uint8_t arena[8704], uint16_t ends[221], uint8_t text_firsts[64], uint8_t text_seconds[64],
                           uint8_t kinds[64], uint16_t lengths[64], uint8_t firsts[64], uint8_t seconds[64],
                           int32_t values[64], int32_t steps[64]);

uint32_t rockavine_call_parts(int32_t words[ROCKAVINE_WORDS], uint8_t gathered[512], uint8_t cells[512],
                              uint8_t row[872], uint8_t arena[8704], uint16_t ends[221], uint8_t text_firsts[64],
                              uint8_t text_seconds[64], uint8_t kinds[64], uint16_t lengths[64], uint8_t firsts[64],
                              uint8_t seconds[64], int32_t values[64], int32_t steps[64], uint8_t *store,
                              size_t store_length, const uint8_t *block, size_t block_length, uint8_t last,
                              uint8_t *out, size_t room, size_t *taken, size_t *written, uint8_t *number,
                              uint32_t *line);

/* The record of a session that begins. What it held does not matter, nor does what the store holds. */
static inline void rockavine_start(rockavine_record *record)
{
    record->unused[0] = 0;
    record->unused[1] = 0;
    rockavine_start_parts(record->words, record->gathered, record->cells, record->row, record->arena, record->ends,
                          record->text_firsts, record->text_seconds, record->kinds, record->lengths, record->firsts,
                          record->seconds, record->values, record->steps);
}

/* One call. What is lent is used until it returns and no longer. The record, the store, the block, the room and the
 * reply must not overlap. A block or a room of length 0 may be NULL. The store and the record belong together: lend
 * the store that the call before was lent. After DONE or REFUSED each further call gives the same answer. */
static inline rockavine_answer rockavine_call(rockavine_record *record, uint8_t *store, size_t store_length,
                                              const uint8_t *block, size_t block_length, int last, uint8_t *out,
                                              size_t room, rockavine_reply *reply)
{
    /* The library asks for an address even where nothing lies behind it. */
    uint8_t no_store = 0;
    uint8_t no_block = 0;
    uint8_t no_room = 0;
    if (store == NULL && store_length == 0) {
        store = &no_store;
    }
    if (block == NULL && block_length == 0) {
        block = &no_block;
    }
    if (out == NULL && room == 0) {
        out = &no_room;
    }
    return (rockavine_answer)rockavine_call_parts(
        record->words, record->gathered, record->cells, record->row, record->arena, record->ends, record->text_firsts,
        record->text_seconds, record->kinds, record->lengths, record->firsts, record->seconds, record->values,
        record->steps, store, store_length, block, block_length, (uint8_t)(last != 0), out, room, &reply->taken,
        &reply->written, &reply->number, &reply->line);
}

#ifdef __cplusplus
}
#endif

#endif
