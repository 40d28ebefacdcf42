/* Prints the header's constants, and every number of each call's answer to the sheet on standard
 * input, which is written from its worths too; then the recorded sets, the printed sale, the
 * written sheet, and a trial sheet of the same size. */
#include <stdio.h>

#include "hokewhuni.h"

/* Prints the entries of an array. */
#define PRINT_EACH(array) \
    for (size_t at = 0; at < sizeof(array) / sizeof(array)[0]; at++) { \
        printf(" %u", (unsigned)(array)[at]); \
    }

/* One byte less than the shortest sheet has. */
#define TOO_SHORT 19

/* The number of a trial sheet, less the length of the sheet, and its top. */
#define NUMBER 40000
#define TOP 300

static uint8_t record[HOKEWHUNI_RECORD_BYTES];

static void print_sheet(const uint8_t *sheet, size_t length)
{
    hokewhuni_field field = hokewhuni_read_field(sheet, length, 13);
    hokewhuni_read read = hokewhuni_read_sheet(sheet, length);
    hokewhuni_worths worths = hokewhuni_read_worths(sheet, length);
    printf(" %zu %u %zu\n", field.next, field.number, field.value);
    printf(" %u %u %u %u\n", read.number, read.place, read.buyers, read.lots);
    printf(" %u %u %u %u", worths.number, worths.place, worths.buyers, worths.lots);
    PRINT_EACH(worths.worths)
    printf("\n");
}

static void print_sale(const hokewhuni_sale *sale)
{
    printf(" %u %u %u %u %u\n", sale->number, sale->place, sale->buyers, sale->lots, sale->rounds);
    PRINT_EACH(sale->prices)
    printf("\n");
    PRINT_EACH(sale->owners)
    PRINT_EACH(sale->discounts)
    PRINT_EACH(sale->payments)
    printf("\n");
}

static void print_demand(const uint8_t *sheet, size_t length, const uint16_t prices[96])
{
    hokewhuni_demand demand = hokewhuni_buyer_demand(sheet, length, 2, prices);
    printf(" %u %u %u %u\n", demand.number, demand.place, demand.bundles, demand.keen);
}

static void print_settled(const uint8_t *sheet, size_t length, const uint16_t prices[96])
{
    hokewhuni_settled settled = hokewhuni_settled_at(sheet, length, prices);
    printf(" %u %u %u\n", settled.number, settled.place, settled.settled);
}

static void print_direct(const uint8_t *sheet, size_t length)
{
    hokewhuni_direct direct = hokewhuni_direct_way(sheet, length);
    printf(" %u %u %u\n", direct.number, direct.place, direct.total);
    PRINT_EACH(direct.owners)
    PRINT_EACH(direct.payments)
    printf("\n");
}

/* Prints the recorded sets and the printed sale. */
static void print_record(const uint8_t *sheet, size_t length, uint32_t rounds)
{
    uint8_t out[HOKEWHUNI_PRINT_BYTES];
    size_t printed = hokewhuni_print_sale(sheet, length, record, sizeof record, out, sizeof out);
    for (uint32_t round = 0; round < rounds; round++) {
        printf(" %u", record[round]);
    }
    printf("\n");
    fwrite(out, 1, printed, stdout);
}

static size_t print_wrote(hokewhuni_wrote wrote)
{
    printf(" %u %u %u\n", wrote.number, wrote.place, wrote.length);
    return wrote.length;
}

/* Writes the sheet's worths, which are none if it is refused, into a buffer that is too short and
 * into one that is not. */
static void print_written(const uint8_t *sheet, size_t length)
{
    hokewhuni_worths read = hokewhuni_read_worths(sheet, length);
    uint8_t out[HOKEWHUNI_SHEET_BYTES];
    uint32_t list[90];
    size_t count = 0;
    for (unsigned buyer = 0; buyer < read.buyers; buyer++) {
        for (unsigned bundle = 1; bundle < 1u << read.lots; bundle++) {
            list[count++] = read.worths[16 * buyer + bundle];
        }
    }
    print_wrote(hokewhuni_write_sheet(read.buyers, read.lots, list, count, out, TOO_SHORT));
    size_t written = print_wrote(
        hokewhuni_write_sheet(read.buyers, read.lots, list, count, out, sizeof out));
    fwrite(out, 1, written, stdout);
}

/* Draws a sheet for as many buyers and lots, which are none if it is refused, into a buffer that is
 * too short and into one that is not. */
static void print_trial(const uint8_t *sheet, size_t length)
{
    hokewhuni_read read = hokewhuni_read_sheet(sheet, length);
    uint16_t number = (uint16_t)(NUMBER + length);
    uint8_t out[HOKEWHUNI_SHEET_BYTES];
    print_wrote(hokewhuni_trial_sheet(number, read.buyers, read.lots, TOP, out, TOO_SHORT));
    size_t written = print_wrote(
        hokewhuni_trial_sheet(number, read.buyers, read.lots, TOP, out, sizeof out));
    fwrite(out, 1, written, stdout);
}

int main(void)
{
    static const uint16_t zeros[96];
    uint8_t sheet[HOKEWHUNI_SHEET_BYTES];
    size_t length = fread(sheet, 1, sizeof sheet, stdin);
    hokewhuni_sale sale = hokewhuni_run_sale(sheet, length, record, sizeof record);
    printf(" %d %d %d\n", HOKEWHUNI_SHEET_BYTES, HOKEWHUNI_RECORD_BYTES, HOKEWHUNI_PRINT_BYTES);
    print_sheet(sheet, length);
    print_sale(&sale);
    print_demand(sheet, length, zeros);
    print_demand(sheet, length, sale.prices);
    print_settled(sheet, length, zeros);
    print_settled(sheet, length, sale.prices);
    print_direct(sheet, length);
    print_record(sheet, length, sale.rounds);
    print_written(sheet, length);
    print_trial(sheet, length);
    return fclose(stdout);
}
