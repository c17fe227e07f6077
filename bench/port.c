/* The lock once more in plain C, to measure the proved one against: the same table of places with the same refusals,
   written as one would write it by hand, with one switch for a step. It reads the plan and trusts it. */
#include "exchange.h"
#include "port.h"

#include <stdlib.h>
#include <string.h>

enum { NEXT, STATUS, TAIL, ARRIVE, DEPART };

#define WRITE_BIT ((uint64_t)1 << 62)
#define WAIT ((uint64_t)1 << 32)
#define PARENT (WAIT + 1)
#define MODE (WAIT + 2)

static uint32_t pair(const uint8_t *at) { return (uint32_t)at[0] << 8 | at[1]; }

void port_layout(struct lock *l, const uint8_t *plan)
{
    memset(l, 0, sizeof *l);
    l->ranks = pair(plan + 1);
    l->elements = pair(plan + 3);
    l->levels = plan[5];
    l->spacing = pair(plan + 6);
    l->reader_threshold = (uint64_t)pair(plan + 8) << 16 | pair(plan + 10);
    l->writer_threshold = pair(plan + 12);
    for (int i = 2; i <= 4; i++)
        l->level_threshold[i] = pair(plan + 14 + 2 * (i - 2));
    l->counters = (l->ranks + l->spacing - 1) / l->spacing;
    const uint8_t *at = plan + 20;
    for (uint32_t k = 2; k <= l->elements; k++, at += 3)
        l->parent[k] = pair(at + 1);
    for (uint32_t p = 1; p <= l->ranks; p++, at += 3)
        l->rank_element[p] = pair(at + 1);
}

static uint64_t *word(struct lock *l, uint64_t home, int offset) { return &l->words[home * 5 + offset]; }

static uint32_t element_at(const struct lock *l, uint32_t rank, uint32_t level)
{
    uint32_t element = l->rank_element[rank];
    for (uint32_t i = l->levels; i > level; i--)
        element = l->parent[element];
    return element;
}

static uint64_t queue_of(const struct lock *l, uint32_t rank, uint32_t level)
{
    return l->ranks + element_at(l, rank, level);
}

static uint64_t node_of(const struct lock *l, uint32_t rank, uint32_t level)
{
    return level < l->levels ? queue_of(l, rank, level + 1) : rank;
}

static uint64_t counter_home(const struct lock *l, uint32_t counter) { return (uint64_t)counter * l->spacing + 1; }

static uint64_t own_counter(const struct lock *l, uint32_t rank)
{
    return counter_home(l, (rank - 1) / l->spacing);
}

/* whether the fields that a place uses are in range */
static int is_spoiled(const struct lock *l, const struct record *r)
{
    switch (r->place) {
    case W1: case W2: case W3: case W5: case W6: case U8: case U10:
        return r->level < 1 || r->level > l->levels;
    case U1: case U2:
        return r->level < 2 || r->level > l->levels;
    case W4: case U3: case U9:
        return r->level < 1 || r->level > l->levels || r->home < 1 || r->home > l->ranks + l->elements;
    case W7: case W8: case W9: case U6: case U7:
        return r->counter >= l->counters;
    default:
        return r->place > READER;
    }
}

static void stand(struct record *r, uint8_t place, uint8_t level, uint64_t home, uint64_t number, uint16_t counter)
{
    r->place = place;
    r->level = level;
    r->home = home;
    r->number = number;
    r->counter = counter;
}

static uint8_t moved(struct record *r, uint8_t place, uint8_t level, uint64_t home, uint64_t number, uint16_t counter)
{
    stand(r, place, level, home, number, counter);
    return 'm';
}

static uint8_t level_done(const struct lock *l, struct record *r, uint8_t level)
{
    if (level < l->levels)
        return moved(r, U8, level + 1, 0, 0, 0);
    stand(r, IDLE, 0, 0, 0, 0);
    return 'f';
}

static uint8_t entered(struct record *r, uint8_t place)
{
    stand(r, place, 0, 0, 0, 0);
    return 'e';
}

static uint8_t waiting(struct record *r, uint8_t place, uint8_t level, uint16_t counter)
{
    stand(r, place, level, 0, 0, counter);
    return 'w';
}

static uint64_t add(uint64_t *at, uint64_t by)
{
    uint64_t old = *at;
    *at = old + by;
    return old;
}

static uint64_t swap(uint64_t *at, uint64_t by)
{
    uint64_t old = *at;
    *at = by;
    return old;
}

static uint8_t step(struct lock *l, struct record *r, uint32_t rank)
{
    uint8_t i = r->level;
    uint16_t k = r->counter;
    uint64_t n = r->number, old;
    switch (r->place) {
    case W1:
        *word(l, node_of(l, rank, i), NEXT) = 0;
        return moved(r, W2, i, 0, 0, 0);
    case W2:
        *word(l, node_of(l, rank, i), STATUS) = WAIT;
        return moved(r, W3, i, 0, 0, 0);
    case W3:
        old = swap(word(l, queue_of(l, rank, i), TAIL), node_of(l, rank, i));
        return old == 0 ? moved(r, W6, i, 0, 0, 0) : moved(r, W4, i, old, 0, 0);
    case W4:
        *word(l, r->home, NEXT) = node_of(l, rank, i);
        return moved(r, W5, i, 0, 0, 0);
    case W5:
        old = *word(l, node_of(l, rank, i), STATUS);
        if (old == WAIT)
            return waiting(r, W5, i, 0);
        if ((old == PARENT && i >= 2) || (old == MODE && i == 1))
            return moved(r, W6, i, 0, 0, 0);
        return old <= 1000 ? entered(r, WRITER) : 7;
    case W6:
        *word(l, node_of(l, rank, i), STATUS) = 0;
        return i >= 2 ? moved(r, W1, i - 1, 0, 0, 0) : moved(r, W7, 0, 0, 0, 0);
    case W7:
        add(word(l, counter_home(l, k), ARRIVE), WRITE_BIT);
        return k + 1u < l->counters ? moved(r, W7, 0, 0, 0, k + 1) : moved(r, W8, 0, 0, 0, 0);
    case W8:
        return moved(r, W9, 0, 0, *word(l, counter_home(l, k), ARRIVE), k);
    case W9:
        if (n != WRITE_BIT + *word(l, counter_home(l, k), DEPART))
            return waiting(r, W8, 0, k);
        return k + 1u < l->counters ? moved(r, W8, 0, 0, 0, k + 1) : entered(r, WRITER);
    case U1:
        return moved(r, U2, i, 0, *word(l, node_of(l, rank, i), STATUS), 0);
    case U2:
        old = *word(l, node_of(l, rank, i), NEXT);
        if (old != 0 && n < l->level_threshold[i])
            return moved(r, U3, i, old, n + 1, 0);
        return i > 2 ? moved(r, U1, i - 1, 0, 0, 0) : moved(r, U4, 0, 0, 0, 0);
    case U3:
        *word(l, r->home, STATUS) = n;
        return level_done(l, r, i);
    case U4:
        return moved(r, U5, 0, 0, *word(l, node_of(l, rank, 1), STATUS), 0);
    case U5:
        old = *word(l, node_of(l, rank, 1), NEXT);
        return old != 0 && n < l->writer_threshold - 1 ? moved(r, U3, 1, old, n + 1, 0) : moved(r, U6, 0, 0, 0, 0);
    case U6:
        return moved(r, U7, 0, 0, swap(word(l, counter_home(l, k), DEPART), 0), k);
    case U7:
        add(word(l, counter_home(l, k), ARRIVE), -(WRITE_BIT + n));
        return k + 1u < l->counters ? moved(r, U6, 0, 0, 0, k + 1) : moved(r, U8, 1, 0, 0, 0);
    case U8:
        old = *word(l, node_of(l, rank, i), NEXT);
        return old != 0 ? moved(r, U9, i, old, 0, 0) : moved(r, U10, i, 0, 0, 0);
    case U9:
        *word(l, r->home, STATUS) = i == 1 ? MODE : PARENT;
        return level_done(l, r, i);
    case U10: {
        uint64_t *tail = word(l, queue_of(l, rank, i), TAIL), node = node_of(l, rank, i);
        if (*tail != node)
            return waiting(r, U8, i, 0);
        *tail = 0;
        return level_done(l, r, i);
    }
    case R1:
        old = add(word(l, own_counter(l, rank), ARRIVE), 1);
        return old < l->reader_threshold ? entered(r, READER) : moved(r, R2, 0, 0, 0, 0);
    case R2:
        add(word(l, own_counter(l, rank), ARRIVE), -(uint64_t)1);
        return moved(r, R3, 0, 0, 0, 0);
    case R3:
        old = *word(l, own_counter(l, rank), ARRIVE);
        if (old < l->reader_threshold)
            return moved(r, R1, 0, 0, 0, 0);
        return old >= WRITE_BIT ? waiting(r, R3, 0, 0) : moved(r, R4, 0, 0, 0, 0);
    case R4:
        return *word(l, l->ranks + 1, TAIL) == 0 ? moved(r, R5, 0, 0, 0, 0) : waiting(r, R3, 0, 0);
    case R5:
        return moved(r, R6, 0, 0, swap(word(l, own_counter(l, rank), DEPART), 0), 0);
    case R6:
        add(word(l, own_counter(l, rank), ARRIVE), -n);
        return moved(r, R3, 0, 0, 0, 0);
    case R7:
        add(word(l, own_counter(l, rank), DEPART), 1);
        stand(r, IDLE, 0, 0, 0, 0);
        return 'f';
    default:
        return 9;
    }
}

static uint8_t ask(struct record *r, uint8_t place, uint8_t level)
{
    if (r->place != IDLE)
        return 8;
    stand(r, place, level, 0, 0, 0);
    return 'a';
}

static uint8_t leave(const struct lock *l, struct record *r)
{
    if (r->place == READER)
        stand(r, R7, 0, 0, 0, 0);
    else if (r->place != WRITER)
        return 10;
    else if (l->levels >= 2)
        stand(r, U1, l->levels, 0, 0, 0);
    else
        stand(r, U4, 0, 0, 0, 0);
    return 'l';
}

uint8_t port_call(struct lock *l, uint8_t letter, uint32_t rank)
{
    if (letter != 'W' && letter != 'R' && letter != 'S' && letter != 'L')
        return 14;
    if (rank < 1 || rank > l->ranks)
        return 6;
    struct record *r = &l->records[rank];
    if (is_spoiled(l, r))
        return 7;
    switch (letter) {
    case 'W':
        return ask(r, W1, l->levels);
    case 'R':
        return ask(r, R1, 0);
    case 'S':
        return step(l, r, rank);
    default:
        return leave(l, r);
    }
}

uint8_t port_run(const uint8_t *plan, size_t plan_length, struct exchange *table, size_t length)
{
    (void)plan_length;
    struct lock *l = malloc(sizeof *l);
    if (l == NULL)
        return 255;
    port_layout(l, plan);
    for (size_t j = 0; j < length; j++)
        table[j].answer = port_call(l, table[j].letter, table[j].rank);
    free(l);
    return 0;
}
