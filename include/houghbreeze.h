/* Houghbreeze: a packet chooser by weighted Elastic Round Robin, proved. docs/FIRMWARE.md tells how to build the archive, what is proved, and what these
 * declarations and the firmware must be trusted for.
 *
 * Two layers, two types. An hb_scheduler knows packet sizes only. An hb_site also moves packet bytes, in a store of its own that the firmware lends to
 * each call. C refuses to pass the one for the other.
 *
 * A state that is all zeros is a new scheduler or a new site: `static hb_site site;` or `hb_site site = {{0}};` is enough. Nothing is kept between calls
 * but what lies in the state and the store; there is no heap, and nothing to free.
 *
 * The firmware's duty, which no call can check:
 *   - Pointers are valid for the whole call: a state for its size, a buffer for the length passed with it. A buffer of length 0 may be a null pointer.
 *     States and buffers may lie at any address: their alignment is 1.
 *   - State, store and buffers lie apart: no two of them overlap.
 *   - One call at a time on one state. States that lie apart may be used by several threads at once.
 *   - A state is all zeros, or what hb_reset, hb_site_reset or an earlier call left; the firmware writes nothing in it, unless it makes all of it zeros.
 *   - One store goes with one site, from the site's first packet on: nothing else writes in it. An old copy of a site is not used again.
 * All else is checked: any numbers and any lengths are taken, and what is bad is refused with a number; a refusal changes nothing. */
#ifndef HOUGHBREEZE_H
#define HOUGHBREEZE_H

#include <stddef.h>
#include <stdint.h>

#ifdef __cplusplus
extern "C" {
#endif

/* ---- Limits ---- */

#define HB_FLOWS 32            /* flow numbers are 0 to 31 */
#define HB_WEIGHT_MAX 16       /* weights are 1 to 16 */
#define HB_PACKET_MAX 256      /* packets have 1 to 256 bytes */
#define HB_WAITING_MAX 8       /* packets of one flow that wait */
#define HB_STORE_SIZE 65536    /* a store has exactly so many bytes */
#define HB_OUTGOING_MIN 256    /* an outgoing buffer has at least so many */

/* A state's size in bytes, and its alignment. */
#define HB_STATE_SIZE 428
#define HB_STATE_ALIGNMENT 1

/* ---- What a call says ---- */

/* A reply's kind. */
#define HB_DONE 0              /* open, offer */
#define HB_DEPARTURE 1         /* a departure: flow, size, mark, allowance, slot */
#define HB_IDLE 2              /* a departure call when nothing waits */
#define HB_REFUSED 3           /* refusal tells why */
#define HB_COUNT 4             /* burst: count */

/* A refusal's number. Where several apply, the first of the call's list is given. */
#define HB_NO_SUCH_FLOW 1      /* the flow number is above 31 */
#define HB_BAD_WEIGHT 2        /* the weight is 0 or above 16 */
#define HB_OPEN_ALREADY 3      /* the flow is open already */
#define HB_NOT_OPEN 4          /* the flow is not open */
#define HB_BAD_SIZE 5          /* the size is 0 or above 256 */
#define HB_QUEUE_FULL 6        /* 8 packets of the flow wait */
#define HB_OUTGOING_SHORT 7    /* the outgoing buffer is shorter than 256 */
#define HB_STORE_WRONG 8       /* the store's length is not 65,536 */
#define HB_LIST_SHORT 9        /* the list is shorter than the number asked for */

/* A reply. What its kind does not have is 0; `later` is 0, and has room for numbers that later versions tell. */
typedef struct hb_reply {
    uint16_t kind;
    uint16_t refusal;
    uint16_t flow;             /* the flow whose packet departs */
    uint16_t size;             /* the packet's size in bytes */
    uint16_t mark;             /* the round's mark */
    uint16_t allowance;        /* the turn's allowance */
    uint16_t count;            /* how many departures a burst made */
    uint16_t slot;             /* the packet's slot in its flow, 0 to 7: of a departure, and of an accepted offer */
    uint16_t later[8];
} hb_reply;

/* ---- Packet sizes only ---- */

typedef struct hb_scheduler {
    unsigned char opaque[HB_STATE_SIZE];
} hb_scheduler;

/* No flow open, nothing waits. Any bytes may lie in *s before. */
void hb_reset(hb_scheduler *s);

/* Opens a flow with a weight. Refusals: 1, 2, 3. */
hb_reply hb_open(hb_scheduler *s, size_t flow, size_t weight);

/* A packet of this size joins the flow's queue. Refusals: 1, 4, 5, 6. */
hb_reply hb_offer(hb_scheduler *s, size_t flow, size_t size);

/* The packet that goes next leaves its queue; or idle. Never refused. */
hb_reply hb_depart(hb_scheduler *s);

/* Up to n departures; their flow numbers go into the list from its start, a byte each. Refusal: 9. */
hb_reply hb_burst(hb_scheduler *s, size_t n, uint8_t *list, size_t list_length);

/* ---- Packet bytes, in a store ---- */

typedef struct hb_site {
    unsigned char opaque[HB_STATE_SIZE];
} hb_site;

/* No flow open, nothing waits. Any bytes may lie in *s before. The store stays as it is. */
void hb_site_reset(hb_site *s);

/* Opens a flow with a weight. Refusals: 1, 2, 3. */
hb_reply hb_site_open(hb_site *s, size_t flow, size_t weight);

/* A packet joins the flow's queue, and its bytes are written in the store. Refusals: 8, 1, 4, 5, 6. */
hb_reply hb_site_offer(hb_site *s, size_t flow, const uint8_t *packet, size_t packet_length, uint8_t *store, size_t store_length);

/* The packet that goes next leaves, its bytes copied to the start of the outgoing buffer, of which the rest stays as it is; or idle. Refusals: 8, 7. */
hb_reply hb_site_depart(hb_site *s, const uint8_t *store, size_t store_length, uint8_t *outgoing, size_t outgoing_length);

#ifdef __cplusplus
}
#endif

#endif
