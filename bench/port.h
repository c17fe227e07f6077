/* The plain port's own calls, for a driver that makes one call at a time. */
#ifndef PORT_H
#define PORT_H

#include <stddef.h>
#include <stdint.h>

#define MOST_RANKS 1024
#define MOST_ELEMENTS 256

enum place {
    IDLE, W1, W2, W3, W4, W5, W6, W7, W8, W9,
    U1, U2, U3, U4, U5, U6, U7, U8, U9, U10,
    R1, R2, R3, R4, R5, R6, R7, WRITER, READER
};

struct record {
    uint8_t place;
    uint8_t level;
    uint64_t home;
    uint64_t number;
    uint16_t counter;
};

struct lock {
    uint32_t ranks, elements, levels, spacing, counters;
    uint64_t reader_threshold, writer_threshold, level_threshold[5];
    uint16_t parent[MOST_ELEMENTS + 1];     /* of element k; 0 for element 1 */
    uint16_t rank_element[MOST_RANKS + 1];  /* of rank p */
    struct record records[MOST_RANKS + 1];  /* of rank p */
    uint64_t words[(MOST_RANKS + MOST_ELEMENTS + 1) * 5]; /* five to a home, home 0 unused */
};

/* Lays a lock out for a plan. */
void port_layout(struct lock *lock, const uint8_t *plan);

/* One call: the first letter of the answer, or the number of the refusal. */
uint8_t port_call(struct lock *lock, uint8_t letter, uint32_t rank);

#endif
