/* Measures the stack that each call takes, and fails where it is more than the documents promise. */
#include "nedrulov.h"

#include <pthread.h>
#include <stdio.h>
#include <stdlib.h>
#include <string.h>

#define STACK_BYTES (1 << 20)
#define PAINT 0xA5

static uint8_t archive[1 << 20];
static uint8_t out[1 << 20];
static size_t length;
static nedrulov_ledger ledger;
static nedrulov_posted posted;
static int64_t cells[NEDRULOV_CELLS];
static volatile uint64_t seen;

static const uint8_t *entry(void) { return archive + 8 + 8 * archive[4]; }

static void *nothing(void *unused) { return unused; }
static void *fresh(void *unused) { ledger = nedrulov_fresh(true); return unused; }
static void *post(void *unused) { seen = nedrulov_post(&ledger, entry(), 32).number; return unused; }
static void *by_value(void *unused) { posted = nedrulov_post_by_value(ledger, entry(), 32); return unused; }
static void *closing(void *unused)
{
    uint8_t close_day[32] = {8, 0, 0, 0, 0xEA, 0x07, 4, 1};
    seen = nedrulov_post(&ledger, close_day, 32).number;
    return unused;
}
static void *panel(void *unused) { seen = nedrulov_panel(ledger).number; return unused; }
static void *partners(void *unused) { seen = nedrulov_partners(ledger, 0, 1).number; return unused; }
static void *measuring(void *unused) { seen = nedrulov_measurement_day(ledger, 2026, 12); return unused; }
static void *holiday(void *unused)
{
    uint8_t christmas[32] = {11, 0, 0, 0, 0xEA, 0x07, 4, 2, 0xEA, 0x07, 0, 0, 12, 0, 0, 0, 25, 0, 0, 0};
    seen = nedrulov_post(&ledger, christmas, 32).number;
    return unused;
}
/* A letter, and the one that fits it, so that gas moves. */
static void *notices(void *unused)
{
    for (int account = 0; account < 2; account++)
        ledger.accounts[account] = (nedrulov_account){.opened = true, .bank = 1, .step = {1, 1, 0, 0}, .capacity = {1, 1}};
    uint8_t gives[32] = {12, 0, 1, 0, 0xEA, 0x07, 4, 2, 1, 0, 0, 0};
    uint8_t takes[32] = {12, 1, 0, 1, 0xEA, 0x07, 4, 2, 1, 0, 0, 0};
    seen = nedrulov_post(&ledger, gives, 32).number + nedrulov_post(&ledger, takes, 32).number;
    return unused;
}
static void *check(void *unused) { seen = nedrulov_check(archive, length).number; return unused; }
static void *place(void *unused) { seen = nedrulov_place(archive, length, 3).start; return unused; }
static void *write(void *unused)
{
    seen = nedrulov_write(true, entry(), length - 8 - 8 * archive[4], out, sizeof out).number;
    return unused;
}
static void *figures(void *unused) { seen = nedrulov_figures(archive, length).number; return unused; }
static void *sheet(void *unused) { seen = nedrulov_year_sheet(archive, length, 2026, cells, NEDRULOV_CELLS); return unused; }

static void *back_cast(void *unused)
{
    nedrulov_load_curve curve = {52000, 6175, 65};
    seen = nedrulov_back_cast(curve, 31.7).quantity;
    return unused;
}

/* The bytes of a painted stack that a thread has written to. */
static size_t used(void *(*call)(void *))
{
    uint8_t *stack = aligned_alloc(4096, STACK_BYTES);
    memset(stack, PAINT, STACK_BYTES);
    pthread_attr_t attributes;
    pthread_t thread;
    pthread_attr_init(&attributes);
    pthread_attr_setstack(&attributes, stack, STACK_BYTES);
    pthread_create(&thread, &attributes, call, NULL);
    pthread_join(thread, NULL);
    size_t low = 0;
    while (low < STACK_BYTES && stack[low] == PAINT)
        low++;
    free(stack);
    return STACK_BYTES - low;
}

int main(int argc, char **argv)
{
    static const struct {
        const char *name;
        void *(*call)(void *);
    } calls[] = {
        {"fresh", fresh}, {"post", post}, {"post (closing)", closing}, {"post (holiday)", holiday},
        {"post (notices)", notices}, {"post_by_value", by_value}, {"panel", panel},
        {"check", check}, {"place", place}, {"write", write}, {"figures", figures}, {"year_sheet", sheet},
        {"back_cast", back_cast}, {"measurement_day", measuring}, {"partners", partners},
    };
    const size_t promised = 64 * 1024;
    if (argc != 2)
        return 2;
    FILE *file = fopen(argv[1], "rb");
    if (!file)
        return 2;
    length = fread(archive, 1, sizeof archive, file);
    fclose(file);
    size_t bare = used(nothing);
    int over = 0;
    for (size_t i = 0; i < sizeof calls / sizeof calls[0]; i++) {
        /* Sixteen open accounts, so that every one takes its place. */
        if (calls[i].call == partners)
            for (int account = 0; account < NEDRULOV_ACCOUNTS; account++)
                ledger.accounts[account] = (nedrulov_account){.opened = true, .bank = 1, .step = {1, 1, 0, 0}, .capacity = {1, 1}};
        size_t bytes = used(calls[i].call) - bare;
        printf("stack: %-15s %6zu bytes\n", calls[i].name, bytes);
        if (bytes > promised)
            over++;
    }
    printf("stack: %d calls above %zu bytes\n", over, promised);
    return over == 0 ? 0 : 1;
}
