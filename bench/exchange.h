/* A call and the place for its answer, as the static library of the crate treelock_c takes them. */
#ifndef EXCHANGE_H
#define EXCHANGE_H

#include <stddef.h>
#include <stdint.h>

struct exchange {
    uint8_t letter; /* 'W', 'R', 'S' or 'L' */
    uint8_t answer; /* the first letter of the answer, or the number of the refusal */
    uint16_t rank;
};

/* Runs a job: the plan as the front part of an order, H to G, then the calls of the table. Answers 0, the number by
   which the plan is refused, or 255 if there is no memory left. */

/* the proved one */
uint8_t treelock_run(const uint8_t *plan, size_t plan_length, struct exchange *table, size_t length);

/* the plain port, which takes lawful plans only */
uint8_t port_run(const uint8_t *plan, size_t plan_length, struct exchange *table, size_t length);

#endif
