/*
 * kitesettee.h: option quotes that cannot be silently wrong, for C and C++.
 *
 * Link with crates/host/out/libhost.a, which `rt lib` in crates/host writes (x86-64 Linux; it needs memcpy and memset at most, and no other library):
 *
 *     cc -I hosts/c desk.c crates/host/out/libhost.a -o desk
 *
 * Every function answers every input, not-a-number and infinity included: it returns 0 and writes its values, or it returns one number of
 * the refusals below, writes 0 in place of each value, and leaves the other memory it was lent as it was. The functions are proved equal,
 * bit for bit, to the definitions in crates/NAME/specs; what each promises stands in crates/host/src/lib.rt.
 *
 * What a caller owes, since C cannot say it:
 *   - Of a `bool` (one byte), 0 and 1 are the only values. Any other byte is undefined behaviour; in C, `x != 0` makes one.
 *   - A pointer is not null and is aligned, also where its length is 0. Behind it stand as many entries as the length after it says, or as
 *     the array's brackets say, and they have been written before.
 *   - Memory that a call may write (a pointer without `const`) overlaps with nothing else that the call is passed, and nobody else reads
 *     or writes it during the call.
 *   - The processor rounds to nearest and keeps subnormal numbers, as it does at a program's start. Linking with -ffast-math changes that.
 * The functions keep no state and allocate nothing, so that any number of threads may call them. Measured, a call needs less than 64 KiB of stack.
 *
 * A not-a-number result may have any sign and payload. In a value passed in, every not-a-number is the same.
 */
#ifndef KITESETTEE_H
#define KITESETTEE_H

#include <stdbool.h>
#include <stddef.h>
#include <stdint.h>

#ifdef __cplusplus
extern "C" {
#endif

/* Sizes of what is lent. The cell of row i (an expiry) and column j (a strike) stands at KITE_STRIKES * i + j. */
#define KITE_QUOTES 1024   /* least entries of each quote column */
#define KITE_STRIKES 64    /* entries of a strike axis, and of a row of the grid */
#define KITE_EXPIRIES 32   /* entries of an expiry axis */
#define KITE_CELLS 2048    /* entries of a grid and of its counts */

/* The refusals, in checking order: a call stops at the first of its checks that holds. 14 is not in use: no solved volatility is out of range. */
enum kite_refusal {
    KITE_DONE = 0,
    KITE_SHORT_COLUMN = 1,       /* a lent quote column has fewer than 1,024 entries */
    KITE_OUT_OF_BOUNDS = 2,      /* a book's record out of bounds; over 1,024 quotes kept, or one out of range; more than 64 strikes or 32 expiries */
    KITE_BOOK_CLOSED = 3,        /* the book has heard 60,000 offers */
    KITE_BOOK_FULL = 4,          /* the book has kept 1,024 quotes */
    KITE_PRICE = 5,              /* a market price is not finite or not above 0 */
    KITE_SPOT = 6,               /* a spot is not in 0.000001 to 1,000,000,000 */
    KITE_STRIKE = 7,             /* a strike is not in that same range */
    KITE_EXPIRY = 8,             /* an expiry, in years, is not in 0.000001 to 100 */
    KITE_RATE = 9,               /* a rate is not in -1 to 1 */
    KITE_VOLATILITY = 10,        /* a volatility is not in 0.000001 to 10 */
    KITE_SOLVER_NOT_FINITE = 11, /* a price minus the market price is not finite in the solver; no call here gives it */
    KITE_NOT_BRACKETED = 12,     /* no volatility in 0.000001 to 10 gives the market price: both ends miss it on one side */
    KITE_NO_CONVERGENCE = 13,    /* the solver has used 50 rounds */
    KITE_SHORT_BUFFER = 15,      /* a surface buffer is short: see the sizes above */
    KITE_TOO_MANY_STRIKES = 16,  /* the strike axis would have more than 64 values */
    KITE_TOO_MANY_EXPIRIES = 17, /* the expiry axis would have more than 32 values */
    KITE_NO_SURFACE = 18,        /* no strikes or no expiries, or an axis not finite and strictly ascending */
    KITE_STRIKE_READ = 19,       /* a strike read is not-a-number or outside the strike axis */
    KITE_EXPIRY_READ = 20,       /* an expiry read is not-a-number or outside the expiry axis, or a cell that the read uses is a gap */
    KITE_MALFORMED = 21          /* a line of the program, or a solver state that cannot be used: no function here gives it */
};

/* A refusal in words: what to show beside its number. "done" of 0; of a number that is none of the refusals, "unknown refusal". */
static inline const char *kite_words(uint64_t number)
{
    switch (number) {
    case 0: return "done";
    case 1: return "a quote column has fewer than 1,024 entries";
    case 2: return "too many quotes, strikes or expiries, a kept quote out of range, or a book's record out of bounds";
    case 3: return "the book has heard 60,000 offers";
    case 4: return "the book has kept 1,024 quotes";
    case 5: return "the market price is not finite or not above 0";
    case 6: return "the spot is not in 0.000001 to 1,000,000,000";
    case 7: return "the strike is not in 0.000001 to 1,000,000,000";
    case 8: return "the expiry is not in 0.000001 to 100 years";
    case 9: return "the rate is not in -1 to 1";
    case 10: return "the volatility is not in 0.000001 to 10";
    case 11: return "a price minus the market price is not finite";
    case 12: return "no volatility in 0.000001 to 10 gives the market price";
    case 13: return "the solver has used 50 rounds";
    case 15: return "a surface buffer is short";
    case 16: return "the strike axis would have more than 64 values";
    case 17: return "the expiry axis would have more than 32 values";
    case 18: return "the surface is empty, or an axis is not finite and strictly ascending";
    case 19: return "the strike read is outside the surface";
    case 20: return "the expiry read is outside the surface, or the surface has a gap there";
    case 21: return "a malformed line, or a solver state that cannot be used";
    default: return "unknown refusal";
    }
}

/* ---- the normal distribution, and what it is made of. Not-a-number gives not-a-number. No refusals. */

/* The square root, correctly rounded. Below 0, not-a-number; -0.0 gives -0.0. */
double kite_sqrt(double x);

/* e to the x. Above 709 infinity, below -745 0.0; in between above 0.0, and subnormal from about -708.4 down. */
double kite_exp(double x);

/* The natural logarithm. Of 0 minus infinity, below 0 not-a-number. */
double kite_ln(double x);

/* The complementary error function. */
double kite_erfc(double x);

/* The density of the normal distribution, and the distribution itself. */
double kite_pdf(double x);
double kite_cdf(double x);

/* ---- an option: Black and Scholes 1973. Expiry and rate are in years, the volatility is a year's (0.2 for 20 %). */

/*
 * Writes the price. Refusals: 6 spot, 7 strike, 8 expiry, 9 rate, 10 volatility; *price is then 0.0.
 * Far out of the money, where -d1 of a call or d2 of a put is above about 37.5, the normal distribution is subnormal, a multiple of 2^-1074: the price may
 * come out below 0.0, by some (spot + discounted strike) times 5e-324. Above 38.6 it is 0.0.
 */
uint64_t kite_bsm_price(bool put, double spot, double strike, double expiry, double rate, double volatility, double *price);

/* Writes delta, gamma, theta, vega, rho, vanna, volga; theta and rho a year. Refusals: 6 to 10, as above; seven times 0.0 then. */
uint64_t kite_bsm_greeks(bool put, double spot, double strike, double expiry, double rate, double volatility, double greeks[7]);

/*
 * The volatility that gives a market price, by Brent's method between 0.000001 and 10. Writes to values the volatility, its error (its price
 * minus the market's), the opposing point c and c's error, and to *evaluations how many prices were computed. Volatility and c lie in
 * 0.000001 to 10. The evidence is exact: the error is below 0.000001, or volatility and c lie within 0.00000101 of each other and their
 * prices bracket the market's.
 * Refusals: 5 market price, 6 spot, 7 strike, 8 expiry, 9 rate, with 0 evaluations; 12 and 13 from the solver, with the evaluations made.
 * values is then four times 0.0. (11 is checked too and never holds: the model's prices are finite.)
 */
uint64_t kite_implied_volatility(bool put, double market, double spot, double strike, double expiry, double rate, double values[4], uint64_t *evaluations);

/* ---- a whole tray */

/*
 * Opens a fresh book on spot and rate, offers it the list in order, and builds the surface of what was kept: the morning load in one call.
 *
 * Offers and answers are rows of fixed length, one row after the other without a gap, so that `bool kinds[n][2]` or n times two bools in
 * one block will do; a slice's length counts its rows. The list is as long as the shortest of these four:
 *
 *     kinds[i]     read     whether offer i is a price (false: it is a volatility), and whether of a put (else of a call; ignored of a volatility)
 *     figures[i]   read     its strike, its expiry and its value: the market price, or the volatility
 *     numbers[i]   written  0 where it was accepted, else its refusal (1, 3, 4, 5, 7, 8, 10, or 12 and 13 from its solver); its evaluations
 *     evidence[i]  written  its volatility, the error there, the point c and the error there
 *
 * A price that 1, 3 and 4 let through is answered as kite_implied_volatility answers it, evidence included. An accepted volatility is its own
 * answer: the three figures after it are 0.0, with 0 evaluations. A refused offer's evidence is four times 0.0; its evaluations are those that
 * its solver made, if any.
 *
 * Written too: to the columns strikes, expiries and volatilities (at least 1,024 entries each) the accepted quotes in order, nothing past
 * them; to totals kept, refused, heard and evaluations, where kept + refused = heard; the surface and lengths as kite_build does.
 *
 * Returns 0, or one number. The opening's are 6 (spot) and 9 (rate): totals and lengths are then 0, and nothing else is touched. The
 * build's are 1, 15, 16 and 17: the offers were heard all the same, numbers, evidence, columns and totals are as above, lengths are 0 and
 * the four surface buffers as they were. (Under 1, a short column, each offer was answered 1 and not counted.)
 *
 * C before C23 does not turn rows into const ones by itself: pass (const bool (*)[2])kinds where kinds is not const, and figures so.
 */
uint64_t kite_quote_tray(double spot, double rate,
                         const bool (*kinds)[2], size_t kinds_len, const double (*figures)[3], size_t figures_len,
                         uint64_t (*numbers)[2], size_t numbers_len, double (*evidence)[4], size_t evidence_len,
                         double *strikes, size_t strikes_len, double *expiries, size_t expiries_len, double *volatilities, size_t volatilities_len,
                         double *strike_axis, size_t strike_axis_len, double *expiry_axis, size_t expiry_axis_len,
                         double *grid, size_t grid_len, uint64_t *counts, size_t counts_len,
                         uint64_t totals[4], uint64_t lengths[2]);

/* ---- a surface */

/*
 * The surface of the first `count` quotes of three columns (at least 1,024 entries each). Values of an axis that lie under 1e-12 apart from
 * the last one kept are one. Writes the two axes in ascending order, of each cell in use its quotes' mean (a cell with no quotes takes the
 * nearest one with quotes to its left in the row, else to its right) and their number, nothing else; and to lengths the number of strikes
 * and of expiries. No quotes give an empty surface.
 * Refusals: 1 a short column, 2 count above 1,024 or a kept entry out of the ranges of 7, 8 and 10, 15 a short buffer, 16 more than 64
 * strikes, 17 more than 32 expiries. lengths is then 0 and 0.
 */
uint64_t kite_build(const double *strikes, size_t strikes_len, const double *expiries, size_t expiries_len, const double *volatilities, size_t volatilities_len,
                    uint64_t count,
                    double *strike_axis, size_t strike_axis_len, double *expiry_axis, size_t expiry_axis_len,
                    double *grid, size_t grid_len, uint64_t *counts, size_t counts_len,
                    uint64_t lengths[2]);

/*
 * Fills the gaps (not-a-number) of any grid: each row from the left and then from the right, then each column so. What has no neighbour
 * stays a gap. Refusals: 2 more than 64 strikes or 32 expiries, 15 a grid of fewer than 2,048 entries.
 */
uint64_t kite_fill_gaps(double *grid, size_t grid_len, uint64_t strikes, uint64_t expiries);

/*
 * Writes the volatility at a strike and an expiry, by bilinear interpolation. Refusals: 2 more than 64 strikes or 32 expiries, 15 a short
 * buffer, 18 no surface, 19 strike, 20 expiry or a gap; *volatility is then 0.0.
 */
uint64_t kite_interpolate(const double *strike_axis, size_t strike_axis_len, const double *expiry_axis, size_t expiry_axis_len,
                          const double *grid, size_t grid_len, uint64_t strikes, uint64_t expiries, double strike, double expiry, double *volatility);

/* The same at the middle strike, that at index strikes / 2, wherever the spot is. Refusals: 2, 15, 18 and 20, as above. */
uint64_t kite_middle_strike(const double *strike_axis, size_t strike_axis_len, const double *expiry_axis, size_t expiry_axis_len,
                            const double *grid, size_t grid_len, uint64_t strikes, uint64_t expiries, double expiry, double *volatility);

/*
 * The same at the strike nearest a book's spot: the one whose difference from it, as a double, has the least magnitude, the lower one on a tie.
 * The book is its record: the spot and the rate that it was opened on, and the totals that kite_quote_tray wrote. Writes to values the strike that was
 * read at, one of the axis also where the spot lies outside, and the volatility there.
 * Refusals: first 2 of the record (kept above 1,024, kept + refused not equal to heard, heard above 60,000, evaluations above 52 times heard,
 * spot or rate out of the ranges of 6 and 9), then 2, 15, 18 and 20, as above; values is then twice 0.0.
 */
uint64_t kite_at_the_money(double spot, double rate, const uint64_t totals[4],
                           const double *strike_axis, size_t strike_axis_len, const double *expiry_axis, size_t expiry_axis_len,
                           const double *grid, size_t grid_len, uint64_t strikes, uint64_t expiries, double expiry, double values[2]);

#ifdef __cplusplus
}
#endif

#endif
