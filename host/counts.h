/* The counts of a graph block, and the block of version 1, which has none. The tests make
 * their graphs with these. */
#ifndef LEAFGRAPH_COUNTS_H
#define LEAFGRAPH_COUNTS_H

#include <stddef.h>
#include <stdint.h>

/* The number of slots of which the header speaks, and where one's record begins. */
static inline size_t slots_of(const uint8_t *block) {
    return block[6] + 256U * block[7];
}

static inline size_t record_of(size_t slot) {
    return 24 + 48 * slot;
}

static inline void put_count(uint8_t *block, size_t slot, unsigned count) {
    block[record_of(slot) + 40] = count & 255U;
    block[record_of(slot) + 41] = (count >> 8) & 255U;
}

/* How many of the places from this one on name the slot. */
static inline unsigned naming(const uint8_t *places, unsigned number, size_t slot) {
    unsigned place, count = 0;
    for (place = 0; place < number; place++) {
        count += places[2 * place] + 256U * places[2 * place + 1] == slot ? 1 : 0;
    }
    return count;
}

/* Writes the true count of each slot. No more outputs and inputs than there is room for
 * may be there; else the block need not be sound. */
static inline void put_counts(uint8_t *block) {
    const size_t slots = slots_of(block);
    size_t slot, reader;
    for (slot = 0; slot < slots; slot++) {
        unsigned count = naming(block + 10, block[8], slot);
        for (reader = 0; reader < slots; reader++) {
            const uint8_t *record = block + record_of(reader);
            count += naming(record + 4, record[2], slot);
        }
        put_count(block, slot, count);
    }
}

/* Makes the block what it is in version 1: there each count is two zero bytes. */
static inline void make_version_1(uint8_t *block) {
    size_t slot;
    block[4] = 1;
    for (slot = 0; slot < slots_of(block); slot++) {
        put_count(block, slot, 0);
    }
}

#endif
