/* Sukoreta: Graver bases of integer lattices up to symmetry, as calls on bytes and on lent numbers.
 *
 * docs/SPECIFICATION.md has the three services (sections 3 to 5), the format of order files (8) and the texts of
 * answers (9). The first calls below take an order file and an answer area; the lent calls, which take numbers, come
 * after them. Each pointer must be good for its length, a null pointer for the length 0, and the two slices must not
 * overlap. Nothing else is asked: any bytes and any lengths may be sent.
 *
 *   #include "sukoreta.h"
 *
 *   uint8_t answer[SUKORETA_ANSWER_LIMIT];
 *   int64_t r = sukoreta_list(order, order_length, answer, sizeof answer);
 *   if (r >= 0)
 *       fwrite(answer, 1, (size_t)r, stdout);
 *   else
 *       printf("refused: %d at %lld\n", SUKORETA_NUMBER(r), (long long)SUKORETA_PLACE(r));
 *
 * Returned is
 *   r >= 0  the length of the text, which stands at the start of the answer area; behind it the area holds zeros.
 *           An area of exactly that length is enough. The text is no C string: no zero byte ends it.
 *   r < 0   -(32 * place + number) of a refusal; the whole area holds zeros. An answer that is longer than the area
 *           is refused with 6 at 0, that is -6, after every other test.
 *
 * Refusals. 1 to 6 are met byte by byte from the file's start, then the others line by line down this table, for each
 * number at the lowest place first. All counting starts at 0.
 *
 *   number  met when                                                               place
 *   order file
 *    1      a command's operands run past the end; or a command is due at the end  its offset; or the length
 *    2      the byte where a command is due is none of 00 to 07                    its offset
 *    3      the command may not stand there                                        its offset
 *    4      something follows END                                                  the offset behind END
 *   sizes
 *    5      n is not 1 to 16                                                       0
 *    6      a 65th GENERATOR, a 9th EXCHANGE or a 129th ROW                        its offset
 *           the first IMAGE behind more than 16 generators                         its offset
 *           the answer is longer than the answer area; tested last                 0
 *   generators
 *    7      an entry is past +-4,000                                               generator * n + cell
 *    8      a generator is zero                                                    generator
 *   exchanges
 *    9      a sequence is no permutation of 1 to n                                 exchange
 *   10      the group has more than 1,152 members                                  0
 *   11      an exchange of the generator is no generator and no negative of one;   generator
 *           not tested of a bare order, one with IMAGEs
 *   23      a coefficient of an image is past +-1,000,000, or the combination      exchange * m + generator
 *           is not the image; of a bare order alone, with m generators
 *   completion (list, split)
 *   12      a nonzero remainder has an entry past +-4,000                          sums tried, this one counted
 *   13      a row is to be stored and 128 are stored                               sums tried, this one counted
 *   split
 *   14      an entry of the vector is past +-1,000,000                             cell
 *   15      the vector is not in the lattice                                       0
 *   16      there are more than 64 pieces                                          0
 *   check
 *   17      a row is zero, has an entry past +-4,000 or is not its greatest image  row
 *   18      the row before it does not precede the row, equal rows included        row
 *   19      a coefficient is past +-1,000,000, or the combination is not the row   row
 *   20      the remainder of a generator is not zero                               generator
 *   21      the remainder of a sum is not zero                                     sums tried, this one counted
 *   22      an image of a different row is below the row                           row
 */
#ifndef SUKORETA_H
#define SUKORETA_H

#include <stddef.h>
#include <stdint.h>

#ifdef __cplusplus
extern "C" {
#endif

/* No text is longer: an answer area of this length always has room. */
#define SUKORETA_ANSWER_LIMIT 12320

/* The answer to a longer order file is the answer to this many of its first bytes: it is refused. */
#define SUKORETA_ORDER_LIMIT 65536

/* The number and the place of a refusal, from a negative result. */
#define SUKORETA_NUMBER(result) ((int)(-(result) % 32))
#define SUKORETA_PLACE(result) (-(result) / 32)

/* ---- order files */

/* List: the Graver basis of the generators' lattice, one row for each orbit.
 *   MOVES rows g k sums, a line for each row, END
 */
int64_t sukoreta_list(const uint8_t *order, size_t order_length, uint8_t *answer, size_t answer_length);

/* Split: a vector as a sum of images of the list's rows.
 *   SPLIT pieces, a line "row position sign count" for each piece, END
 */
int64_t sukoreta_split(const uint8_t *order, size_t order_length, uint8_t *answer, size_t answer_length);

/* Check: whether a brought list is whole.
 *   PASSED rows sums
 */
int64_t sukoreta_check(const uint8_t *order, size_t order_length, uint8_t *answer, size_t answer_length);

/* The length of the longest text, as it is proved: SUKORETA_ANSWER_LIMIT. */
size_t sukoreta_answer_limit(void);

/* ---- lent calls
 *
 * The same services on numbers and areas that the caller lends (specification, 1.1). A slice is a pointer and a number
 * of elements, not of bytes; a null pointer is good for 0 elements. No slice that is written may overlap another one.
 * Nothing else is asked: any n, any sizes and any numbers may be sent. What is only read is never changed.
 *
 *   n             the cells of a vector, 1 to 16
 *   generators    n to a row, at most 64 rows
 *   exchanges     n to a row, at most 8 rows; each row the cells 1 to n in some sequence
 *   images        none, or, of a bare order, m for each exchange and generator, where m, the number of generators, is
 *                 at most 16: number (x * m + q) * m + i is how often generator i is taken in the image of generator q
 *                 by exchange x
 *   vector        exactly n numbers
 *   rows          n to a row, at most 128 rows: the list brought to Check
 *   coefficients  of Check: one for each brought row and each generator, of which there are m: number r * m + q is for
 *                 row r and generator q. Of List with coefficients, written: m for each row of the list area, however
 *                 many these are
 *   list          written: n to a row, any number of rows, of which 128 are in use
 *   group         written: n to a row, any number of rows, of which 1,152 are in use
 *   pieces        written: 4 to a row, any number of rows
 *   counts        written: 4 numbers or more for List, with coefficients or not, 5 for Split, 2 for Check
 *
 * Returned is
 *   r >= 0  accepted: the rows of the list, the pieces, or the brought rows. Each written area holds, from its start on
 *             list    the rows of the list, sorted by degree
 *             group   the sequences of the group, ascending; a position is an index into these rows
 *             coefficients  of List with coefficients: number r * m + q is how often generator q is taken in row r of
 *                     the list; the row is the combination of the generators with its m numbers. The rows and counts
 *                     are those of List, and Check passes the rows with these coefficients and the same order
 *             pieces  for each piece its row in the list, its position, its sign (1 or -1) and its count
 *             counts  List   rows, g, k, sums; with coefficients the same
 *                     Split  pieces, rows, g, k, sums
 *                     Check  rows, sums
 *           and zeros behind that. g is the number of members of the group, k that of the rows stored, sums that of
 *           the sums tried.
 *   r < 0   -(32 * place + number) of a refusal; every written area holds zeros alone, the counts too. The refusals are
 *           those above from 5 on, with these rows instead: 6 at 0 is met by any size that is not as said here, and by
 *           a counts area with fewer numbers after every other test; 10 where the group has more members than rows of
 *           its area; 13 where the list rows in use are taken, at 0 before the first sum; 16 where there are more
 *           pieces than rows of their area. List with coefficients takes no images: any are 6 at 0. It alone has
 *             24    after 12 and 13: a row is to be stored and a coefficient of it is past +-1,000,000; the place is
 *                   the number of sums tried, this one counted
 *
 * Stack: a lent call takes about 252,000 bytes, a session 142,000, List with coefficients 325,000, a call on an order
 * file up to 365,000.
 * No memory is allocated, and nothing is kept from one call to the next: calls in several threads need no lock.
 */
int64_t sukoreta_lent_list(size_t n, const int32_t *generators, size_t generators_length, const uint8_t *exchanges,
                           size_t exchanges_length, const int64_t *images, size_t images_length, int32_t *list,
                           size_t list_length, uint8_t *group, size_t group_length, uint64_t *counts,
                           size_t counts_length);

int64_t sukoreta_lent_list_with_coefficients(size_t n, const int32_t *generators, size_t generators_length,
                                             const uint8_t *exchanges, size_t exchanges_length,
                                             const int64_t *images, size_t images_length, int32_t *list,
                                             size_t list_length, uint8_t *group, size_t group_length,
                                             int64_t *coefficients, size_t coefficients_length, uint64_t *counts,
                                             size_t counts_length);

int64_t sukoreta_lent_split(size_t n, const int32_t *generators, size_t generators_length, const uint8_t *exchanges,
                            size_t exchanges_length, const int64_t *images, size_t images_length,
                            const int32_t *vector, size_t vector_length, int32_t *list, size_t list_length,
                            uint8_t *group, size_t group_length, int32_t *pieces, size_t pieces_length,
                            uint64_t *counts, size_t counts_length);

int64_t sukoreta_lent_check(size_t n, const int32_t *generators, size_t generators_length, const uint8_t *exchanges,
                            size_t exchanges_length, const int64_t *images, size_t images_length,
                            const int32_t *rows, size_t rows_length, const int64_t *coefficients,
                            size_t coefficients_length, uint8_t *group, size_t group_length, uint64_t *counts,
                            size_t counts_length);

/* Session: List for two orders with equal n and equal exchanges, on one group table, a sum at a time. Slices are lent
 * as above; other than there are
 *
 *   list          exactly 128 rows, of which order 0 has the first 64 and order 1 the rest
 *   steps         any number of bytes: 0 or 1 names an order and tries one sum for it. For an order that is finished or
 *                 refused a step changes nothing, and neither does any other byte
 *   counts        written: 10 numbers or more
 *
 * An order is finished at once when its last sum is tried, and one without generators before the first step. Whichever
 * way the steps are mixed, a finished or refused order has the list, the counts and the refusal that List gives it with
 * 64 list rows, but for the refusals below, and the generators and images of the other order change none of them. One
 * order may be bare and the other not.
 *
 * Returned is
 *   r >= 0  the number of finished orders, 0, 1 or 2; refusals are in the counts area. It holds five numbers for order
 *           0, then five for order 1, and zeros behind them:
 *             0, rows, g, k, sums     finished: the order's 64 rows hold its list, and zeros behind it
 *             1, sums, 0, 0, 0        unfinished: it had sums left when the steps ended; sums are those tried. The
 *                                     order's 64 rows hold zeros
 *             2, number, place, 0, 0  refused: the order's 64 rows hold zeros
 *           The group area holds the sequences of the group, or, if both orders are refused, zeros alone.
 *   r = -6  the counts area has fewer than 10 numbers, tested after everything else; every written area holds zeros.
 *
 * An order meets the refusals of List on its own, and with the other these:
 *    5      before all others, of both orders: n is not the same                   0
 *    6      then, of both orders: the list area does not have 128 * n numbers,     0
 *           whether or not n is 1 to 16
 *    9      after 9 of its own, and before 10: the exchanges are not those of      the first exchange that differs
 *           the other order, in their sequence and number by number; where one
 *           order has no more numbers, the first that it lacks differs
 */
int64_t sukoreta_lent_session(size_t n0, const int32_t *generators0, size_t generators0_length,
                              const uint8_t *exchanges0, size_t exchanges0_length, const int64_t *images0,
                              size_t images0_length, size_t n1, const int32_t *generators1,
                              size_t generators1_length, const uint8_t *exchanges1, size_t exchanges1_length,
                              const int64_t *images1, size_t images1_length, int32_t *list, size_t list_length,
                              uint8_t *group, size_t group_length, const uint8_t *steps, size_t steps_length,
                              uint64_t *counts, size_t counts_length);

/* Window: List for an order, and then a run of records, each of which adds an image of the list to a table of entries
 * from 0 to 1,000,000. A window holds the last `width` records, or all while fewer have come, and the tables that they
 * ended in; the starting table is in none. Slices are lent as above; other than there are
 *
 *   start         exactly n numbers: the starting table
 *   width         the most records of a window, 1 to 256
 *   cell          the chosen cell, 1 to n
 *   records       3 to a record, any number of records: a row of the list, a position and a sign (1 or -1)
 *   answers       written: n + 3 to a row, as many rows as records or more
 *   counts        written: 5 numbers or more
 *
 * Returned is
 *   r >= 0  the number of records. The list and group areas hold what List leaves there. The answers area holds a row
 *           for each record: the table that it ended in, the smallest and the largest value of the chosen cell in the
 *           window's tables, and how many different rows of the list, by their numbers, the window's records name. The
 *           counts area holds records, rows, g, k, sums. Behind that each area holds zeros.
 *   r < 0   -(32 * place + number) of a refusal. After 25 the answers area holds the rows of the records before it, and
 *           zeros behind them; every other written area, and after any other refusal this one too, holds zeros alone.
 *
 * An order meets the refusals of List, and then come these:
 *    6      width or cell is not as said here, or the size of start, records or    0
 *           answers
 *   14      an entry of start is not 0 to 1,000,000                                cell, counted from 0
 *   25      a record names no image, since its row, its position or its sign is    record
 *           none, or makes an entry of the table that is not 0 to 1,000,000; at
 *           the place 2^58 or later, which no memory holds, 6 at 0 instead
 *    6      the counts area has fewer than 5 numbers, and nothing else is met      0
 */
int64_t sukoreta_lent_window(size_t n, const int32_t *generators, size_t generators_length, const uint8_t *exchanges,
                             size_t exchanges_length, const int64_t *images, size_t images_length,
                             const int32_t *start, size_t start_length, size_t width, size_t cell,
                             const int32_t *records, size_t records_length, int32_t *list, size_t list_length,
                             uint8_t *group, size_t group_length, int32_t *answers, size_t answers_length,
                             uint64_t *counts, size_t counts_length);

/* Plan: List for an order, and then the cheapest plan that images of the list lead to. A plan has n entries, each from 0
 * to the upper bound of its cell; its cost is the sum of cost times entry. A step adds the image that keeps the bounds
 * and lowers the cost most, once; of equals the first by row, by position, and + before -. Slices are lent as above;
 * other than there are
 *
 *   start         exactly n numbers: the starting plan
 *   upper         exactly n numbers: the upper bound of each cell, 0 to 1,000,000
 *   costs         exactly n numbers: the cost of each cell, within +-1,000
 *   budget        the most steps, 0 to 100,000
 *   plan          written: exactly n numbers
 *   counts        written: 7 numbers or more
 *
 * Returned is
 *   r >= 0  the number of steps taken. The list and group areas hold what List leaves there, the plan area the plan that
 *           was reached: within its bounds, and the start plus a vector of the lattice. The counts area holds steps, 1
 *           or 0, the distance bound, rows, g, k, sums. 1 says that no such plan is cheaper, and the distance bound is
 *           then 0; 0 says that the budget is spent and that an image is left that lowers the cost: then some such plan
 *           is cheaper, but none by more than the distance bound. Behind that each area holds zeros.
 *   r < 0   -(32 * place + number) of a refusal. Every written area holds zeros alone.
 *
 * Where two calls have the same order, start and upper, and costs that differ in one cell by d, and both counts areas
 * say 1, the costs of the two plans, each by its own call's costs, differ by at most |d| times the upper bound of that
 * cell.
 *
 * An order meets the refusals of List, and then come these:
 *    6      budget is not as said here, or the size of start, upper, costs or      0
 *           plan
 *   26      an upper bound is not 0 to 1,000,000, or an entry of start is not 0    cell, counted from 0
 *           to its upper bound
 *   27      a cost is past +-1,000                                                 cell, counted from 0
 *    6      the counts area has fewer than 7 numbers, and nothing else is met      0
 */
int64_t sukoreta_lent_plan(size_t n, const int32_t *generators, size_t generators_length, const uint8_t *exchanges,
                           size_t exchanges_length, const int64_t *images, size_t images_length, const int32_t *start,
                           size_t start_length, const int32_t *upper, size_t upper_length, const int32_t *costs,
                           size_t costs_length, size_t budget, int32_t *list, size_t list_length, uint8_t *group,
                           size_t group_length, int32_t *plan, size_t plan_length, uint64_t *counts,
                           size_t counts_length);

#ifdef __cplusplus
}
#endif

#endif
