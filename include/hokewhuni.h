/* Lot sheets and their ascending sale, for C and C++ on x86-64:
 *
 *     cc -std=c11 -Iinclude examples/office.c target/staticlib/libhokewhuni.a -o office
 *
 * after `tools/staticlib`; in an installed folder the library is lib/libhokewhuni.a.
 *
 * A sheet is any bytes. Its numbers of buyers and lots are called m and n below; a bundle's number
 * is the sum of 2^(j - 1) over its lots j, and 0 is the empty bundle. A table has 96 entries: that
 * of buyer i and bundle S stands at 16 * (i - 1) + S. Entries for absent buyers, absent bundles and
 * the empty bundle are 0 in answers, and never read in prices that are lent.
 *
 * Each call puts questions to the sheet. At the first no it refuses: `number` is the question's,
 * `place` is the offset of the first faulty field or line end with 6, 7 and 8, else 0, and every
 * other number of the answer is 0. `number` and `place` are 0 if every question gets a yes.
 *
 *      1  fewer than 13 bytes
 *      2  the first line is not two good fields and a line end at offset 12
 *      3  the number of buyers is not 1 to 6
 *      4  the number of lots is not 1 to 4
 *      5  the length is not 13 + m * (6 * (2^n - 1) + 1)
 *      6  a later field or line end is not good
 *      7  a worth is above 9,999
 *      8  a bundle of two or more lots is worth less than the same with one lot fewer
 *      9  only of a sale: the record has fewer bytes than the sum, over buyers, of the worth of all
 *         lots together
 *     10  only of a demand answer: the buyer asked about is not 1 to m
 *     11  only of writing: `out` has fewer than 13 + m * (6 * (2^n - 1) + 1) bytes
 *
 * Writing puts questions 3, 4, 5, 7, 8 and 11, in this order, to the numbers of buyers and lots and
 * the list of worths that it is given. `place` is always 0 then, and question 5 is another:
 *
 *      5  the list has not m * (2^n - 1) numbers
 *
 * A trial sheet, which is drawn and then written, has questions 3, 4, 7 and 11 put, in this order,
 * to the numbers that it is made of. `place` is always 0 here too, and question 7 is another:
 *
 *      7  the top is above 9,999
 *
 * What a caller has to keep to:
 *
 * - Every pointer is valid for its length: `sheet` and `worths` for reading, `record` and `out` for
 *   reading and writing, `prices` for 96 numbers. The length of `worths` counts numbers, all others
 *   count bytes.
 * - No pointer is null, not even with length 0; it need not point to anything then.
 * - While a call runs, `record` and `out` overlap neither each other nor anything else that is
 *   lent, and nothing else writes to what is lent, or reads `record` or `out`.
 *
 * Nothing else is asked of the caller. A call writes to `record` and `out` alone and keeps nothing,
 * so that calls may run at once on several threads.
 */
#ifndef HOKEWHUNI_H
#define HOKEWHUNI_H

#include <stdbool.h>
#include <stddef.h>
#include <stdint.h>

/* No sheet of this many bytes or more is accepted: a longer file may be cut here, and gets the same
 * refusal. So this many bytes have room for every sheet that is written, of which the longest has
 * 559: 11 is not answered then. */
#define HOKEWHUNI_SHEET_BYTES 560

/* A record of this many bytes is long enough for every sheet: 9 is not answered then. */
#define HOKEWHUNI_RECORD_BYTES 59994

/* This many bytes have room for every printed sale. */
#define HOKEWHUNI_PRINT_BYTES 227

#ifdef __cplusplus
extern "C" {
#endif

/* One field. */
typedef struct {
    size_t next;    /* the next column */
    uint8_t number; /* 0, or 6 if the field is faulty */
    size_t value;   /* the field's number; of a faulty field, its offset */
} hokewhuni_field;

/* The size of a sheet. */
typedef struct {
    uint8_t number;
    uint32_t place;
    uint8_t buyers;
    uint8_t lots;
} hokewhuni_read;

/* The same with its table of worths. */
typedef struct {
    uint8_t number;
    uint32_t place;
    uint8_t buyers;
    uint8_t lots;
    uint16_t worths[96];
} hokewhuni_worths;

/* What one buyer demands. */
typedef struct {
    uint8_t number;
    uint32_t place;
    uint16_t bundles; /* the sum of 2^S over the bundles S of greatest payoff */
    bool keen;        /* whether that payoff is above 0; false in a refusal */
} hokewhuni_demand;

/* Whether prices are settled. */
typedef struct {
    uint8_t number;
    uint32_t place;
    bool settled; /* false in a refusal */
} hokewhuni_settled;

/* A settled sale. */
typedef struct {
    uint8_t number;
    uint32_t place;
    uint8_t buyers;
    uint8_t lots;
    uint32_t rounds;       /* as many as bytes recorded */
    uint16_t prices[96];   /* the last prices, a table */
    uint8_t owners[4];     /* of lots 1 to 4: a buyer, or 0 for unsold */
    uint32_t discounts[6]; /* of buyers 1 to 6 */
    uint32_t payments[6];  /* of buyers 1 to 6: price of its bundle less discount */
} hokewhuni_sale;

/* What the direct way answers. */
typedef struct {
    uint8_t number;
    uint32_t place;
    uint32_t total; /* the greatest total worth of an allocation */
    uint8_t owners[4];
    uint32_t payments[6];
} hokewhuni_direct;

/* A written sheet. */
typedef struct {
    uint8_t number;
    uint32_t place;  /* always 0 */
    uint32_t length; /* of the sheet, in bytes */
} hokewhuni_wrote;

/* Reads the six columns of a sheet from offset `at`, any offset: a number right-justified after
 * blanks. The next column is at + 6, also after a fault. With fewer than six bytes left the field
 * is a fault, and the next column is sheet_length. No question is asked. */
hokewhuni_field hokewhuni_read_field(const uint8_t *sheet, size_t sheet_length, size_t at);

/* Asks questions 1 to 8, and answers the numbers of buyers and lots. */
hokewhuni_read hokewhuni_read_sheet(const uint8_t *sheet, size_t sheet_length);

/* Asks questions 1 to 8, and answers the numbers of buyers and lots, and the worths. */
hokewhuni_worths hokewhuni_read_worths(const uint8_t *sheet, size_t sheet_length);

/* Asks questions 1 to 8 and 10, and answers what a buyer demands at a table of prices, whatever
 * they are. */
hokewhuni_demand hokewhuni_buyer_demand(const uint8_t *sheet, size_t sheet_length, uint32_t buyer,
                                        const uint16_t prices[96]);

/* Asks questions 1 to 8, and answers whether a table of prices, whatever they are, is settled, that
 * is, a universal competitive equilibrium: in the economy of all buyers, and in that of all but
 * one, for each one, some allocation brings the greatest sum of prices and gives every buyer there
 * a bundle that it demands. The last prices of a sale are settled, and none before them are. */
hokewhuni_settled hokewhuni_settled_at(const uint8_t *sheet, size_t sheet_length,
                                       const uint16_t prices[96]);

/* Asks questions 1 to 9, runs the sale by rounds, and answers it settled. The number of each
 * round's set, the sum of 2^(i - 1) over its buyers i, is the next byte of the record. Bytes after
 * the last round keep their values; with a refusal all bytes do. */
hokewhuni_sale hokewhuni_run_sale(const uint8_t *sheet, size_t sheet_length, uint8_t *record,
                                  size_t record_length);

/* Asks questions 1 to 8, and answers owners and payments reckoned from the worths alone. They are
 * those of hokewhuni_run_sale wherever that settles the sheet; it may refuse one for its record (9)
 * that is answered here. */
hokewhuni_direct hokewhuni_direct_way(const uint8_t *sheet, size_t sheet_length);

/* Runs the sale as hokewhuni_run_sale does, its record too, and writes what is printed of it to the
 * front of `out`. Answers the length of that, and the bytes of `out` after it keep their values; or
 * answers 0 where it has no room, and all bytes of `out` keep their values. Numbers stand in fields
 * of six columns, and lines end with byte 10. Of a settled sale: a line of 0, buyers, lots, rounds;
 * for each lot a line of lot and owner; for each buyer a line of buyer, price of its bundle,
 * discount, payment. Of a refusal: one line of number and place, 13 bytes. */
size_t hokewhuni_print_sale(const uint8_t *sheet, size_t sheet_length, uint8_t *record,
                            size_t record_length, uint8_t *out, size_t out_length);

/* Asks questions 3, 4, 5, 7, 8 and 11, writes a sheet to the front of `out`, and answers its
 * length. Bytes of `out` after it keep their values; with a refusal all bytes do. `worths` is one
 * list in the sheet's order: what bundles 1 to 2^n - 1 are worth to buyer 1, then to buyer 2, and
 * so on. hokewhuni_read_worths answers the same worths of what is written; and an accepted sheet,
 * read by it and written from its worths in this order, has the same bytes again. */
hokewhuni_wrote hokewhuni_write_sheet(uint32_t buyers, uint32_t lots, const uint32_t *worths,
                                      size_t worths_length, uint8_t *out, size_t out_length);

/* Asks questions 3, 4, 7 and 11, writes a trial sheet to the front of `out`, and answers its
 * length. Bytes of `out` after it keep their values; with a refusal all bytes do. Whoever is told
 * sheet number, buyers, lots and top makes the same sheet again, byte for byte. The worths are
 * drawn in the sheet's order by Marsaglia's xorwow (Xorshift RNGs, 2003), which each call starts
 * anew: 100 draws for each one of the sheet number are thrown away, and then each worth is the
 * greatest with one lot fewer, plus the remainder of the next draw by top + 1; or 9,999 if that is
 * less. hokewhuni_read_worths answers these worths of what is written. */
hokewhuni_wrote hokewhuni_trial_sheet(uint16_t number, uint32_t buyers, uint32_t lots, uint32_t top,
                                      uint8_t *out, size_t out_length);

#ifdef __cplusplus
}
#endif

#endif
