/* A site box: a lift controller and a mechanic's tablet send up one radio link, and the controller has twice the tablet's share. */
#include <stdio.h>
#include <string.h>

#include "houghbreeze.h"

enum { CONTROLLER = 0, TABLET = 1, STRANGER = 7 };

static hb_site site;                 /* all zeros: a new site */
static uint8_t store[HB_STORE_SIZE]; /* the packets' bytes, for this site alone */

static void offer(size_t flow, const char *text)
{
    hb_reply reply = hb_site_offer(&site, flow, (const uint8_t *)text, strlen(text), store, sizeof store);
    if (reply.kind == HB_REFUSED)
        printf("flow %zu offers %zu bytes: refused with %d\n", flow, strlen(text), reply.refusal);
}

int main(void)
{
    uint8_t outgoing[HB_OUTGOING_MIN];
    hb_site_open(&site, CONTROLLER, 2);
    hb_site_open(&site, TABLET, 1);

    offer(CONTROLLER, "door closed, floor 3");
    offer(CONTROLLER, "moving up");
    offer(CONTROLLER, "brake test passed, 41 ms, next due in 30 days");
    offer(TABLET, "show me the last faults");
    offer(TABLET, "hold the lift at floor 5");
    offer(STRANGER, "let me in"); /* never opened */
    offer(TABLET, "");            /* a packet has at least one byte */

    for (;;) {
        hb_reply reply = hb_site_depart(&site, store, sizeof store, outgoing, sizeof outgoing);
        if (reply.kind != HB_DEPARTURE)
            break;
        printf("flow %d sends %2d bytes: %.*s\n", reply.flow, reply.size, reply.size, (const char *)outgoing);
    }
    puts("idle");
    return 0;
}
