/* Runs the sale of a lot sheet and prints its rounds, owners and payments, what the direct way says
 * of them, a demand answer, whether zero prices and the last ones are settled, whether the sheet is
 * the same if it is written from its worths, and last the printed sale. The sheet is the file
 * named, or standard input if none is:
 *
 *     cc -std=c11 -Iinclude examples/office.c target/staticlib/libhokewhuni.a -o office
 *     ./office examples/example.sheet
 *
 * In an installed folder the library is lib/libhokewhuni.a.
 */
#include <stdio.h>
#include <stdlib.h>
#include <string.h>

#include "hokewhuni.h"

/* Room for the set of each round. */
static uint8_t record[HOKEWHUNI_RECORD_BYTES];

/* Prints the sets of the rounds in the record, owners, discounts and payments. */
static void print_settled(const hokewhuni_sale *sale)
{
    printf("rounds: %u\n", (unsigned)sale->rounds);
    printf("sets:");
    for (uint32_t round = 0; round < sale->rounds; round++) {
        printf(" %u", (unsigned)record[round]);
    }
    printf("\n");
    for (unsigned lot = 1; lot <= sale->lots; lot++) {
        printf("lot %u: owner %u\n", lot, (unsigned)sale->owners[lot - 1]);
    }
    for (unsigned buyer = 1; buyer <= sale->buyers; buyer++) {
        printf("buyer %u: discount %u, payment %u\n", buyer, (unsigned)sale->discounts[buyer - 1],
               (unsigned)sale->payments[buyer - 1]);
    }
}

/* Prints the direct way's total, and whether owners and payments are those of the sale. */
static void print_direct(const hokewhuni_direct *direct, const hokewhuni_sale *sale)
{
    bool alike = memcmp(direct->owners, sale->owners, sizeof sale->owners) == 0
                 && memcmp(direct->payments, sale->payments, sizeof sale->payments) == 0;
    printf("direct way: total %u, owners and payments %s\n", (unsigned)direct->total,
           alike ? "alike" : "different");
}

/* Prints the bundles that a buyer demands. */
static void print_demand(const hokewhuni_demand *demand, unsigned buyer)
{
    printf("buyer %u demands bundles", buyer);
    for (unsigned bundle = 0; bundle < 16; bundle++) {
        if (demand->bundles >> bundle & 1) {
            printf(" %u", bundle);
        }
    }
    printf(" and is %s\n", demand->keen ? "keen" : "not keen");
}

/* Prints whether some prices, which are named, are settled. */
static void print_prices(const char *name, const hokewhuni_settled *answer)
{
    printf("%s prices are %s\n", name, answer->settled ? "settled" : "not settled");
}

/* Writes a sheet from the worths that it is read as, and prints whether its bytes are the same. */
static void print_written(const uint8_t *sheet, size_t length)
{
    hokewhuni_worths read = hokewhuni_read_worths(sheet, length);
    uint32_t list[6 * 15]; /* 15 bundles for each of 6 buyers are the most */
    size_t count = 0;
    for (unsigned buyer = 1; buyer <= read.buyers; buyer++) {
        for (unsigned bundle = 1; bundle < 1u << read.lots; bundle++) {
            list[count++] = read.worths[16 * (buyer - 1) + bundle];
        }
    }
    uint8_t out[HOKEWHUNI_SHEET_BYTES];
    hokewhuni_wrote wrote =
        hokewhuni_write_sheet(read.buyers, read.lots, list, count, out, sizeof out);
    bool same = wrote.length == length && memcmp(out, sheet, length) == 0;
    printf("written: %u bytes, %s\n", (unsigned)wrote.length, same ? "the same" : "others");
}

/* Runs the sale and prints what comes of it. */
static void sell(const uint8_t *sheet, size_t length)
{
    static const uint16_t zeros[96];
    uint8_t out[HOKEWHUNI_PRINT_BYTES];
    hokewhuni_sale sale = hokewhuni_run_sale(sheet, length, record, sizeof record);
    if (sale.number != 0) {
        printf("refused: number %u, place %u\n", (unsigned)sale.number, (unsigned)sale.place);
    } else {
        hokewhuni_direct direct = hokewhuni_direct_way(sheet, length);
        hokewhuni_demand demand = hokewhuni_buyer_demand(sheet, length, 1, sale.prices);
        hokewhuni_settled first = hokewhuni_settled_at(sheet, length, zeros);
        hokewhuni_settled last = hokewhuni_settled_at(sheet, length, sale.prices);
        print_settled(&sale);
        print_direct(&direct, &sale);
        print_demand(&demand, 1);
        print_prices("zero", &first);
        print_prices("last", &last);
        print_written(sheet, length);
    }
    size_t printed =
        hokewhuni_print_sale(sheet, length, record, sizeof record, out, sizeof out);
    fwrite(out, 1, printed, stdout);
}

int main(int count, char **arguments)
{
    uint8_t sheet[HOKEWHUNI_SHEET_BYTES];
    FILE *file = stdin;
    if (count > 2) {
        fprintf(stderr, "usage: office [FILE]\n");
        return EXIT_FAILURE;
    }
    if (count == 2 && (file = fopen(arguments[1], "rb")) == NULL) {
        perror(arguments[1]);
        return EXIT_FAILURE;
    }
    size_t length = fread(sheet, 1, sizeof sheet, file);
    if (ferror(file)) {
        perror("reading the sheet");
        return EXIT_FAILURE;
    }
    if (file != stdin) {
        fclose(file);
    }
    sell(sheet, length);
    if (fclose(stdout) != 0) {
        perror("printing");
        return EXIT_FAILURE;
    }
    return EXIT_SUCCESS;
}
