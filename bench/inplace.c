/* The bench's loops over the calls of the library's header, as firmware makes them: nothing is inlined. plain/README.md defines the loops, and each
 * prints the checksum that it does there. Linked once with the archive and once with plain/inplace.c. */

#include <stdio.h>
#include <stdlib.h>
#include <string.h>

#include "plain/inplace.h"

/* Room for the larger of the two sides' states, so that a copy costs the same on both. */
union scheduler {
    hb_scheduler scheduler;
    _Alignas(PLAIN_ALIGNMENT) unsigned char room[PLAIN_STATE];
};

union site {
    hb_site site;
    _Alignas(PLAIN_ALIGNMENT) unsigned char room[PLAIN_STATE];
};

static uint32_t checksum;

static void fold(uint32_t value)
{
    checksum = (checksum * 31 + value) % 1000003;
}

enum { IDLE = 7777 };

/* A departure, or idle. */
static void fold_departure(const hb_reply *reply)
{
    if (reply->kind == HB_IDLE) {
        fold(IDLE);
        return;
    }
    fold(reply->flow);
    fold(reply->size);
    fold(reply->mark);
    fold(reply->allowance);
}

static size_t mixed_size(uint64_t number)
{
    return (size_t)(1 + number * 37 % 256);
}

static void open_flows(hb_scheduler *s, size_t flows)
{
    hb_reset(s);
    for (size_t f = 0; f < flows; f++)
        hb_open(s, f, 1 + f % 4);
}

/* One offer and one departure, over and over. */
static void pairs(size_t flows, uint64_t n)
{
    union scheduler s;
    hb_reply reply;
    open_flows(&s.scheduler, flows);
    for (size_t f = 0; f < flows; f++) {
        hb_offer(&s.scheduler, f, mixed_size(f));
        hb_offer(&s.scheduler, f, mixed_size(f));
    }
    for (uint64_t i = 0; i < n; i++) {
        reply = hb_offer(&s.scheduler, i % flows, mixed_size(i));
        fold(reply.refusal);
        reply = hb_depart(&s.scheduler);
        fold_departure(&reply);
    }
}

/* A burst of 100 from one full state, over and over, on a copy. With `asked` 0 only the copy and an empty burst are left. */
static void again(size_t asked, uint64_t n)
{
    static union scheduler full, s;
    uint8_t list[100] = {0};
    open_flows(&full.scheduler, HB_FLOWS);
    for (size_t k = 0; k < HB_FLOWS * HB_WAITING_MAX; k++)
        hb_offer(&full.scheduler, k / HB_WAITING_MAX, mixed_size(k));
    for (uint64_t i = 0; i < n; i++) {
        s = full;
        hb_reply reply = hb_burst(&s.scheduler, asked, list, sizeof list);
        fold(reply.count);
        fold(list[sizeof list - 1]);
    }
}

/* One packet into the store and one out of it, over and over. */
static void store_pairs(size_t length, uint64_t n)
{
    static uint8_t store[HB_STORE_SIZE];
    union site s;
    hb_reply reply;
    uint8_t outgoing[HB_OUTGOING_MIN] = {0};
    uint8_t packet[HB_PACKET_MAX];
    hb_site_reset(&s.site);
    for (size_t f = 0; f < 4; f++)
        hb_site_open(&s.site, f, 1);
    for (size_t j = 0; j < length; j++)
        packet[j] = (uint8_t)(j * 7);
    for (uint64_t i = 0; i < n; i++) {
        packet[0] = (uint8_t)i;
        packet[length - 1] = (uint8_t)(i + 1);
        reply = hb_site_offer(&s.site, i % 4, packet, length, store, sizeof store);
        fold(reply.refusal);
        reply = hb_site_depart(&s.site, store, sizeof store, outgoing, sizeof outgoing);
        fold_departure(&reply);
        if (reply.kind == HB_DEPARTURE) {
            fold(outgoing[0]);
            fold(outgoing[reply.size - 1]);
        }
    }
}

int main(int argc, char **argv)
{
    const char *mode = argc > 1 ? argv[1] : "";
    size_t first = argc == 4 ? strtoull(argv[2], NULL, 10) : 0;
    uint64_t n = argc > 2 ? strtoull(argv[argc - 1], NULL, 10) : 0;
    if (argc == 4 && strcmp(mode, "pairs") == 0 && first >= 1 && first <= HB_FLOWS)
        pairs(first, n);
    else if (argc == 3 && strcmp(mode, "again") == 0)
        again(100, n);
    else if (argc == 3 && strcmp(mode, "copies") == 0)
        again(0, n);
    else if (argc == 4 && strcmp(mode, "store") == 0 && first >= 1 && first <= HB_PACKET_MAX)
        store_pairs(first, n);
    else {
        fputs("usage: inplace pairs FLOWS N   FLOWS from 1 to 32\n"
              "       inplace again N\n"
              "       inplace copies N        again, with bursts of none\n"
              "       inplace store LEN N     LEN from 1 to 256\n",
              stderr);
        return 2;
    }
    printf("%u\n", checksum);
    return 0;
}
