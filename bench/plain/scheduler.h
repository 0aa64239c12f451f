/* A plain C Elastic Round Robin that works in place, order layer and store layer: the baseline of the bench. plain.c has it inlined, inplace.c puts it
 * behind the calls of the library's header. */

#include <stdbool.h>
#include <stddef.h>
#include <stdint.h>
#include <string.h>

enum {
    FLOWS = 32,
    MAX_WEIGHT = 16,
    MAX_SIZE = 256,
    QUEUE = 8,
    STORE = 65536,
    OUTGOING = 256,
    NO_FLOW = 255,
};

enum refusal {
    ACCEPTED = 0,
    BAD_FLOW = 1,
    BAD_WEIGHT = 2,
    OPEN_ALREADY = 3,
    NOT_OPEN = 4,
    BAD_SIZE = 5,
    QUEUE_FULL = 6,
    SHORT_OUTGOING = 7,
    BAD_STORE = 8,
    SHORT_LIST = 9,
};

/* ---- Order layer ---- */

/* The queue is a ring whose places are the slots of the store. */
struct flow {
    uint8_t weight; /* 0 if not open */
    uint8_t surplus;
    uint8_t head;
    uint8_t waiting;
    uint16_t size[QUEUE];
};

struct scheduler {
    struct flow flow[FLOWS];
    uint8_t line[FLOWS]; /* a ring */
    uint8_t line_head;
    uint8_t line_length;
    uint8_t visits_left;
    uint8_t mark;
    uint8_t running_mark;
    uint8_t turn_flow; /* NO_FLOW if no turn is open */
    uint16_t allowance;
    uint16_t sent;
};

struct departure {
    uint8_t flow;
    uint8_t slot;
    uint8_t mark;
    uint16_t size;
    uint16_t allowance;
};

static void reset(struct scheduler *s)
{
    memset(s, 0, sizeof *s);
    s->turn_flow = NO_FLOW;
}

static enum refusal open_flow(struct scheduler *s, size_t flow, size_t weight)
{
    if (flow >= FLOWS)
        return BAD_FLOW;
    if (weight == 0 || weight > MAX_WEIGHT)
        return BAD_WEIGHT;
    if (s->flow[flow].weight != 0)
        return OPEN_ALREADY;
    s->flow[flow].weight = (uint8_t)weight;
    return ACCEPTED;
}

static void join_line(struct scheduler *s, size_t flow)
{
    s->line[(s->line_head + s->line_length) % FLOWS] = (uint8_t)flow;
    s->line_length++;
}

/* Sets *slot if accepted. */
static enum refusal offer(struct scheduler *s, size_t flow, size_t size, unsigned *slot)
{
    if (flow >= FLOWS)
        return BAD_FLOW;
    struct flow *f = &s->flow[flow];
    if (f->weight == 0)
        return NOT_OPEN;
    if (size == 0 || size > MAX_SIZE)
        return BAD_SIZE;
    if (f->waiting == QUEUE)
        return QUEUE_FULL;
    /* A flow out of line has surplus 0 already; the turn's flow has packets waiting. */
    if (f->waiting == 0)
        join_line(s, flow);
    *slot = (unsigned)(f->head + f->waiting) % QUEUE;
    f->size[*slot] = (uint16_t)size;
    f->waiting++;
    return ACCEPTED;
}

static bool begin_turn(struct scheduler *s)
{
    if (s->line_length == 0)
        return false;
    if (s->visits_left == 0) {
        s->mark = s->running_mark;
        s->running_mark = 0;
        s->visits_left = s->line_length;
    }
    s->turn_flow = s->line[s->line_head];
    s->line_head = (uint8_t)((s->line_head + 1) % FLOWS);
    s->line_length--;

    struct flow *f = &s->flow[s->turn_flow];
    s->allowance = (uint16_t)(f->weight * (1 + s->mark) - f->surplus);
    s->sent = 0;
    f->surplus = 0;
    return true;
}

static void end_turn(struct scheduler *s, struct flow *f)
{
    int excess = s->sent - s->allowance;
    /* Divides only when the running mark rises. */
    if (excess > s->running_mark * f->weight)
        s->running_mark = (uint8_t)((excess + f->weight - 1) / f->weight);
    if (f->waiting > 0) {
        f->surplus = (uint8_t)excess;
        join_line(s, s->turn_flow);
    }
    s->visits_left--;
    s->turn_flow = NO_FLOW;
}

/* False if idle. */
static bool depart(struct scheduler *s, struct departure *d)
{
    if (s->turn_flow == NO_FLOW && !begin_turn(s))
        return false;

    struct flow *f = &s->flow[s->turn_flow];
    d->flow = s->turn_flow;
    d->slot = f->head;
    d->mark = s->mark;
    d->size = f->size[f->head];
    d->allowance = s->allowance;

    f->head = (uint8_t)((f->head + 1) % QUEUE);
    f->waiting--;
    s->sent = (uint16_t)(s->sent + d->size);
    if (s->sent >= s->allowance || f->waiting == 0)
        end_turn(s, f);
    return true;
}

static enum refusal burst(struct scheduler *s, size_t asked, uint8_t *list, size_t length,
                          size_t *made)
{
    struct departure d;
    if (length < asked)
        return SHORT_LIST;
    for (*made = 0; *made < asked && depart(s, &d); ++*made)
        list[*made] = d.flow;
    return ACCEPTED;
}

/* ---- Store layer ---- */

static size_t slot_start(unsigned flow, unsigned slot)
{
    return 2048u * flow + 256u * slot;
}

/* Sets *slot if accepted. */
static enum refusal store_offer(struct scheduler *s, uint8_t *store, size_t store_length, size_t flow,
                                const uint8_t *packet, size_t length, unsigned *slot)
{
    if (store_length != STORE)
        return BAD_STORE;
    enum refusal refusal = offer(s, flow, length, slot);
    if (refusal == ACCEPTED)
        memcpy(store + slot_start((unsigned)flow, *slot), packet, length);
    return refusal;
}

/* Sets *departed to false if idle. */
static enum refusal store_depart(struct scheduler *s, const uint8_t *store, size_t store_length,
                                 uint8_t *outgoing, size_t outgoing_length, struct departure *d,
                                 bool *departed)
{
    if (store_length != STORE)
        return BAD_STORE;
    if (outgoing_length < OUTGOING)
        return SHORT_OUTGOING;
    *departed = depart(s, d);
    if (*departed)
        memcpy(outgoing, store + slot_start(d->flow, d->slot), d->size);
    return ACCEPTED;
}
