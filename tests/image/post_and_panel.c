/*
 * A box that posts and shows the panel, and nothing else: it calls two functions of the library. Its entries, 32 bytes each, come
 * from standard input; its line is the panel program's, without an archive. Its ledger lies in storage that is all zeros, as an
 * old fresh one is.
 */
#include "nedrulov.h"

#include <inttypes.h>
#include <stdio.h>

static nedrulov_ledger ledger;

int main(void)
{
    uint8_t entry[NEDRULOV_ENTRY_BYTES];
    uint64_t accepted = 0;
    uint64_t refused = 0;
    nedrulov_panel_answer panel;
    while (fread(entry, sizeof entry, 1, stdin) == 1) {
        uint64_t number = nedrulov_post(&ledger, entry, sizeof entry).number;
        accepted += number == NEDRULOV_ACCEPTED;
        refused += number != NEDRULOV_ACCEPTED;
    }
    panel = nedrulov_panel(ledger);
    printf("%" PRIu64 " %" PRIu64 " %" PRId64 "\n", accepted, refused, panel.figure);
    return panel.number != NEDRULOV_ACCEPTED;
}
