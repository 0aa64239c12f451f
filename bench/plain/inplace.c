/* The calls of the library's header over the plain C scheduler, in place, in a file of its own that no caller inlines.
 *
 * A state here is larger than HB_STATE_SIZE, and all zeros is none: a caller has room for PLAIN_STATE bytes (inplace.h), and resets a state first. */

#include "inplace.h"

#include "scheduler.h"

_Static_assert(sizeof(struct scheduler) <= PLAIN_STATE, "a plain state has room");
_Static_assert(_Alignof(struct scheduler) <= PLAIN_ALIGNMENT, "a plain state is aligned");

static hb_reply answered(enum refusal refusal)
{
    return (hb_reply){.kind = refusal == ACCEPTED ? HB_DONE : HB_REFUSED, .refusal = (uint16_t)refusal};
}

/* The slot of a refused packet is 0. */
static hb_reply placed(enum refusal refusal, unsigned slot)
{
    hb_reply reply = answered(refusal);
    reply.slot = (uint16_t)slot;
    return reply;
}

static hb_reply departed(bool left, const struct departure *d)
{
    if (!left)
        return (hb_reply){.kind = HB_IDLE};
    return (hb_reply){
        .kind = HB_DEPARTURE,
        .flow = d->flow,
        .size = d->size,
        .mark = d->mark,
        .allowance = d->allowance,
        .slot = d->slot,
    };
}

/* ---- Packet sizes only ---- */

void hb_reset(hb_scheduler *s)
{
    reset((struct scheduler *)s);
}

hb_reply hb_open(hb_scheduler *s, size_t flow, size_t weight)
{
    return answered(open_flow((struct scheduler *)s, flow, weight));
}

hb_reply hb_offer(hb_scheduler *s, size_t flow, size_t size)
{
    unsigned slot = 0;
    enum refusal refusal = offer((struct scheduler *)s, flow, size, &slot);
    return placed(refusal, slot);
}

hb_reply hb_depart(hb_scheduler *s)
{
    struct departure d;
    bool left = depart((struct scheduler *)s, &d);
    return departed(left, &d);
}

hb_reply hb_burst(hb_scheduler *s, size_t n, uint8_t *list, size_t list_length)
{
    size_t made;
    enum refusal refusal = burst((struct scheduler *)s, n, list, list_length, &made);
    if (refusal != ACCEPTED)
        return answered(refusal);
    return (hb_reply){.kind = HB_COUNT, .count = (uint16_t)made};
}

/* ---- Packet bytes, in a store ---- */

void hb_site_reset(hb_site *s)
{
    reset((struct scheduler *)s);
}

hb_reply hb_site_open(hb_site *s, size_t flow, size_t weight)
{
    return answered(open_flow((struct scheduler *)s, flow, weight));
}

hb_reply hb_site_offer(hb_site *s, size_t flow, const uint8_t *packet, size_t packet_length, uint8_t *store, size_t store_length)
{
    unsigned slot = 0;
    enum refusal refusal = store_offer((struct scheduler *)s, store, store_length, flow, packet, packet_length, &slot);
    return placed(refusal, slot);
}

hb_reply hb_site_depart(hb_site *s, const uint8_t *store, size_t store_length, uint8_t *outgoing, size_t outgoing_length)
{
    struct departure d;
    bool left = false;
    enum refusal refusal = store_depart((struct scheduler *)s, store, store_length, outgoing, outgoing_length, &d, &left);
    return refusal == ACCEPTED ? departed(left, &d) : answered(refusal);
}
