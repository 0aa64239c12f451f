/* The calls with no C library and no start-up files: both layers, from the first instruction on. Exit status: 0 every reply is right; else which is not. */
#include "houghbreeze.h"

/* The system starts a program with its stack aligned and nothing to return to. */
__asm__(".globl _start\n"
        "_start:\n"
        "    xorl %ebp, %ebp\n"
        "    call run\n"
        "    movl %eax, %edi\n"
        "    movl $60, %eax\n" /* exit */
        "    syscall\n");

static hb_scheduler scheduler;
static hb_site site;
static uint8_t store[HB_STORE_SIZE], outgoing[HB_OUTGOING_MIN], list[4];
static const uint8_t packet[3] = {3, 1, 2};

int run(void)
{
    if (hb_open(&scheduler, 5, 16).kind != HB_DONE)
        return 1;
    if (hb_offer(&scheduler, 5, HB_PACKET_MAX + 1).refusal != HB_BAD_SIZE)
        return 2;
    if (hb_offer(&scheduler, 5, HB_PACKET_MAX).kind != HB_DONE || hb_offer(&scheduler, 5, 1).slot != 1)
        return 3;
    if (hb_depart(&scheduler).size != HB_PACKET_MAX)
        return 4;
    if (hb_burst(&scheduler, 4, list, 4).count != 1 || list[0] != 5 || list[1] != 0)
        return 5;
    if (hb_burst(&scheduler, 0, NULL, 0).kind != HB_COUNT || hb_burst(&scheduler, 1, NULL, 0).refusal != HB_LIST_SHORT)
        return 6;
    hb_reset(&scheduler);
    if (hb_depart(&scheduler).kind != HB_IDLE)
        return 7;

    if (hb_site_open(&site, 31, 1).kind != HB_DONE)
        return 8;
    if (hb_site_offer(&site, 31, packet, 3, store, HB_STORE_SIZE).kind != HB_DONE || store[2048 * 31 + 2] != 2)
        return 9;
    if (hb_site_offer(&site, 31, NULL, 0, store, HB_STORE_SIZE).refusal != HB_BAD_SIZE || hb_site_offer(&site, 31, packet, 3, NULL, 0).refusal != HB_STORE_WRONG)
        return 10;
    if (hb_site_depart(&site, NULL, 0, NULL, 0).refusal != HB_STORE_WRONG || hb_site_depart(&site, store, HB_STORE_SIZE, NULL, 0).refusal != HB_OUTGOING_SHORT)
        return 11;
    if (hb_site_depart(&site, store, HB_STORE_SIZE, outgoing, HB_OUTGOING_MIN).flow != 31 || outgoing[0] != 3 || outgoing[3] != 0)
        return 12;
    hb_site_reset(&site);
    return hb_site_open(&site, 31, 1).kind == HB_DONE ? 0 : 13;
}
