/*
 * Holds nedrulov_back_cast to the table of back-casts, given as an argument; and a 31 to raising no invalid exception, by which a
 * caller that has unmasked it would be killed.
 */
#include "nedrulov.h"

#include <fenv.h>
#include <inttypes.h>
#include <stdio.h>
#include <string.h>

/* A line of the table: the bits of four doubles, and what they are answered. */
struct row {
    uint64_t base, slope, turning, temperature, number, quantity;
};

/* Of the lines so far: how many failed, how many of their 31 had to raise nothing, and how many were answered 0, 31 and 32. */
struct seen {
    int count, failures, quiet, met[3];
};

static double of_bits(uint64_t bits)
{
    double value;
    memcpy(&value, &bits, sizeof value);
    return value;
}

/* A signalling not-a-number raises the exception by being looked at, whoever does it. */
static int signalling(uint64_t bits)
{
    uint64_t fraction = bits & 0xfffffffffffff;
    return (bits >> 52 & 0x7ff) == 0x7ff && fraction != 0 && fraction >> 51 == 0;
}

static int read_row(const char *line, struct row *row)
{
    return sscanf(line, "%" SCNx64 " %" SCNx64 " %" SCNx64 " %" SCNx64 " %" SCNu64 " %" SCNu64, &row->base, &row->slope,
                  &row->turning, &row->temperature, &row->number, &row->quantity) == 6;
}

static void hold(const char *line, const struct row *row, struct seen *seen)
{
    nedrulov_load_curve curve = {of_bits(row->base), of_bits(row->slope), of_bits(row->turning)};
    feclearexcept(FE_ALL_EXCEPT);
    nedrulov_back_cast_answer answer = nedrulov_back_cast(curve, of_bits(row->temperature));
    int invalid = fetestexcept(FE_INVALID);
    int may = signalling(row->base) || signalling(row->slope) || signalling(row->turning) || signalling(row->temperature);
    int quiet = answer.number == NEDRULOV_NOT_FINITE && !may;
    if (answer.number != row->number || answer.quantity != row->quantity) {
        seen->failures++;
        printf("back-cast: line %d gives %" PRIu64 " %" PRIu64 ": %s", seen->count, answer.number, answer.quantity, line);
    }
    if (quiet && invalid) {
        seen->failures++;
        printf("back-cast: line %d raises the invalid exception: %s", seen->count, line);
    }
    seen->quiet += quiet;
    seen->met[0] += answer.number == NEDRULOV_ACCEPTED;
    seen->met[1] += answer.number == NEDRULOV_NOT_FINITE;
    seen->met[2] += answer.number == NEDRULOV_LOAD_RANGE;
}

int main(int argc, char **argv)
{
    if (argc != 2)
        return 2;
    FILE *file = fopen(argv[1], "r");
    if (!file)
        return 2;
    char line[256];
    struct row row;
    struct seen seen = {0, 0, 0, {0, 0, 0}};
    while (fgets(line, sizeof line, file)) {
        seen.count++;
        if (read_row(line, &row)) {
            hold(line, &row, &seen);
        } else {
            seen.failures++;
            printf("back-cast: line %d is no case: %s", seen.count, line);
        }
    }
    fclose(file);
    printf("back-cast: %d cases (%d accepted, %d with 31, %d with 32; %d held to raise nothing), %d failures\n", seen.count,
           seen.met[0], seen.met[1], seen.met[2], seen.quiet, seen.failures);
    return seen.failures == 0 && seen.quiet > 0 && seen.met[0] > 0 && seen.met[1] > 0 && seen.met[2] > 0 ? 0 : 1;
}
