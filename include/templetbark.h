/* The C surface of Templetbark, the task planner of the set-top box reference design.
 *
 * Link target/staticlib/libtempletbark.a, which is x86-64 code for the System V calling convention and
 * for no other processor or convention:
 *
 *     cc -std=c99 -Iinclude program.c target/staticlib/libtempletbark.a -o program
 *
 * The library keeps no state, allocates nothing, and may be called from several threads at once. It
 * calls two functions of the C library, memcpy and memset, and nothing else outside itself. Every call
 * ends. 4,096 bytes of stack are enough for each, what memcpy and memset take in glibc included;
 * tb_plan takes the most, 3,912 bytes, the return addresses among them. No bound on a call's time is
 * proved. The longest that a search for slow tables found is 0.03 seconds of processor time, of tb_plan
 * on a server's Xeon for a table of 32 rows, in an archive of the same steps that an older kit made;
 * there may be slower ones.
 *
 * A call lends slices: a pointer and a length. Every length counts elements, 32-bit numbers or bytes.
 * An operation reads and writes within the lent slices only, and never writes one that is const here.
 *
 *
 * The slices
 *
 *   table    a task table: for each row C, D, T, S and M in ticks. A job of the row runs for at most
 *            C, is due D after its release, and the row's next release is T later or more. D may be
 *            less than T, the same, or more. C, D and T are from 1 to 1,000,000. S and M are the start
 *            and the length of the row's middle region: a job executes S ticks before it, and once it
 *            has executed a tick of it, it is not preempted before the region's end, when it has
 *            executed S + M. The end is below C. A row without such a region has 0 and 0; in any
 *            other M is 1 or more. The table has n rows, 1 to 32.
 *   plan     for each row of the table, in the same order, a rank and a length. The ranks are the
 *            numbers from 1 to n in any order, and rank 1 goes first; the length is that of the final
 *            region, the last ticks of C, in which a job is not preempted either. It is at least 1 and
 *            at most C - (S + M).
 *   planned  what tb_plan writes: rank, length and response of each row, in the table's order. The
 *            response is the longest that a job of the row takes from release to finish.
 *   jobs     a job list: for each job its row, its release and its run. The row is an index into the
 *            table, the release a tick from 0 to 1,000,000, the run a number of ticks from 1 to the
 *            row's C. There may be no job, and there are at most 4,096. None is released before a job
 *            that is listed ahead of it, nor less than T after another of its row.
 *   text     a sheet in ASCII. It begins with a line `tick N`: a tick takes N microseconds, 1 to
 *            1,000. Each further line, 1 to 32 of them, is `task C D T`, or `task C D T S M` for a
 *            task with a middle region, in microseconds. Each number is from 1 to 1,000,000,000, and
 *            S may also be 0. Single spaces part the words, no number begins with 0 but an S of 0,
 *            and each line has a line feed at its end, the last one too. The longest sheet has 1,930
 *            bytes.
 *
 *
 * The refusals
 *
 * An operation makes the checks named beside it, in that order, and answers with the first that hits.
 * A call that is refused leaves every slice as it was.
 *
 *   9  TB_NOT_A_SHEET. The text is no sheet.
 *      Place: how many of its first bytes are also the first bytes of some sheet.
 *   1  TB_NOT_ROWS. The numbers make no whole rows, of five in a table and of three in a planned
 *      table, no row at all, or more than 32.
 *      Place: 0.
 *   3  TB_OUT_OF_RANGE. A number of the table is not what it may be: a C, D or T is 0 or above
 *      1,000,000; an S is above 1,000,000, or above 0 where M is 0; an M is above 0 and S + M is C or
 *      more.
 *      Place: its index, the least if there are several.
 *   6  TB_NOT_A_PLAN. The plan is not one for this table.
 *      Place: TB_WRONG_SIZE, 32, if it has more or fewer than 2n numbers. Otherwise the first row whose
 *      rank is not from 1 to n or is that of a row before it, or whose length is not from 1 to
 *      C - (S + M).
 *   7  TB_NOT_JOBS. The numbers make no whole jobs of three, or more than 4,096.
 *      Place: 0.
 *   8  TB_BAD_JOB. A job is not what is asked of one above, by its own numbers or beside a job ahead
 *      of it.
 *      Place: the index of the first such job; where two jobs clash it is the later one.
 *   2  TB_NO_ROOM. The answer does not fit into the output.
 *      Place: 0.
 *   4  TB_NO_BUSY_PERIOD. The table has no busy period, or one of more than 1,000,000 ticks.
 *      Place: 0.
 *   5  TB_NO_PLAN. No ranks with any lengths keep all deadlines.
 *      Place: 0.
 *
 *
 * What C cannot check, and the caller answers for
 *
 *   - Each pointer is valid for its whole length: readable, and writable where it is not const. It is
 *     aligned for its element. With length 0 it is never followed and may be null.
 *   - A slice that is written overlaps no other slice of the same call.
 *   - Nothing else writes a lent slice, or reads one that is written, until the call returns.
 */
#ifndef TEMPLETBARK_H
#define TEMPLETBARK_H

#include <stddef.h>
#include <stdint.h>

#ifdef __cplusplus
extern "C" {
#endif

/* The version of this surface; it rises with every change that a caller can see. */
#define TB_SURFACE 3

/* What an answer's number says. */
enum {
    TB_GIVEN = 0,
    TB_NOT_ROWS = 1,
    TB_NO_ROOM = 2,
    TB_OUT_OF_RANGE = 3,
    TB_NO_BUSY_PERIOD = 4,
    TB_NO_PLAN = 5,
    TB_NOT_A_PLAN = 6,
    TB_NOT_JOBS = 7,
    TB_BAD_JOB = 8,
    TB_NOT_A_SHEET = 9
};

/* The place of TB_NOT_A_PLAN for a plan of the wrong size. */
#define TB_WRONG_SIZE 32

/* How many numbers each has. */
#define TB_ROW_WIDTH 5             /* a row of a table: C, D, T, S, M */
#define TB_PLAN_WIDTH 2            /* a row of a plan: rank, length */
#define TB_PLANNED_WIDTH 3         /* a row of a planned table: rank, length, response */
#define TB_TIMES_WIDTH 1           /* a row of what tb_times writes: response */
#define TB_JOB_WIDTH 3             /* a job: row, release, run */

/* The limits. An output of the size named here has room for every answer. */
#define TB_MOST_ROWS 32
#define TB_MOST_NUMBER 1000000     /* of a table, of a release, and of ticks in a busy period */
#define TB_MOST_TABLE_NUMBERS (TB_MOST_ROWS * TB_ROW_WIDTH)
#define TB_MOST_PLAN_NUMBERS (TB_MOST_ROWS * TB_PLAN_WIDTH)
#define TB_MOST_PLANNED_NUMBERS (TB_MOST_ROWS * TB_PLANNED_WIDTH)
#define TB_MOST_TIMES_NUMBERS (TB_MOST_ROWS * TB_TIMES_WIDTH)
#define TB_MOST_JOBS 4096
#define TB_MOST_JOB_NUMBERS (TB_MOST_JOBS * TB_JOB_WIDTH)
#define TB_MOST_SHEET_BYTES 1930
#define TB_MOST_PRINTED_BYTES 1950

/* An answer, given or refused. */
typedef struct {
    uint32_t number; /* TB_GIVEN, or the number of the refusal. */
    uint32_t place;  /* The refusal's place. 0 where the answer is given. */
    uint64_t value;  /* Said of each operation. 0 on a refusal. */
} tb_answer;

/* Chooses ranks and lengths for a table, and works out the responses.
 * Refusals, in order: 1, 3, 2, 4, 5.
 * Given: out[0 .. 3n) is the planned table, the rest of out is unchanged, value is 3n. */
tb_answer tb_plan(const uint32_t *table, size_t table_len, uint32_t *out, size_t out_len);

/* Works out the responses under a plan, which need not keep the deadlines.
 * Refusals, in order: 1, 3, 6, 2, 4.
 * Given: out[0 .. n) holds one response a row, each from C to 1,000,000, the rest of out is
 * unchanged, value is n. */
tb_answer tb_times(const uint32_t *table, size_t table_len, const uint32_t *plan, size_t plan_len,
                   uint32_t *out, size_t out_len);

/* Judges a plan: does the response of every row keep within its D?
 * Refusals, in order: 1, 3, 6, 4.
 * Given: value is 1 for yes and 0 for no. */
tb_answer tb_verdict(const uint32_t *table, size_t table_len, const uint32_t *plan, size_t plan_len);

/* Runs a job list as the kernel would. The table may be without a busy period, and the plan need not
 * keep the deadlines.
 * Refusals, in order: 1, 3, 6, 7, 8, 2.
 * Given: out[0 .. jobs) holds for each job the tick behind the last one that it runs in, the rest of
 * out is unchanged, value is the number of jobs. For an empty list nothing is written. */
tb_answer tb_play(const uint32_t *table, size_t table_len, const uint32_t *plan, size_t plan_len,
                  const uint32_t *jobs, size_t jobs_len, uint32_t *out, size_t out_len);

/* Reads a sheet into a table, in whole ticks: C rounded up, D and T rounded down, so that neither of
 * these grows. A D or T of less than one tick is 0 in the table, and so refused with 3. S is rounded
 * down and the region's end, S + M, up, so that all ticks that the region touches are in it; a line
 * without a region gives 0 and 0.
 * Refusals, in order: 9, 3, 2. The index of 3 is the number's in the table that the sheet would give.
 * Given: out[0 .. 5n) is the table, the rest of out is unchanged, value is 5n. */
tb_answer tb_sheet(const uint8_t *text, size_t text_len, uint32_t *out, size_t out_len);

/* Writes a planned table as text: `plan n`, then `row i rank r length q response R` for each row i
 * from 0 on. A line feed ends each of these lines, and no byte 0 ends the text. Takes any 32-bit
 * numbers.
 * Refusals, in order: 1, 2.
 * Given: buf[0 .. value) is the text, the rest of buf is unchanged; value is never 0, and never
 * above 1,950. */
tb_answer tb_print(const uint32_t *planned, size_t planned_len, uint8_t *buf, size_t buf_len);

/* What tb_print answers for the same planned table and a buffer of buf_len bytes; it writes nothing.
 * Refusals, in order: 1, 2.
 * Given: value is the number of bytes that tb_print writes. */
tb_answer tb_fit(const uint32_t *planned, size_t planned_len, size_t buf_len);

#ifdef __cplusplus
}
#endif

#endif
