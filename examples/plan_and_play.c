/* Plans a table of two tasks, prints the plan, and plays one run under it. */
#include <stdio.h>

#include "templetbark.h"

enum { ROWS = 2, JOBS = 2 };
enum { TABLE = TB_ROW_WIDTH * ROWS, PLAN = TB_PLAN_WIDTH * ROWS, PLANNED = TB_PLANNED_WIDTH * ROWS };
enum { JOB_LIST = TB_JOB_WIDTH * JOBS };

static int refused(const char *operation, tb_answer answer)
{
    if (answer.number != TB_GIVEN)
        printf("%s refused %u %u\n", operation, (unsigned)answer.number, (unsigned)answer.place);
    return answer.number != TB_GIVEN;
}

int main(void)
{
    /* C, D, T in ticks, then start and length of the middle region: the second task has one. */
    const uint32_t table[TABLE] = {2, 5, 5, 0, 0, 4, 7, 7, 0, 2};
    uint32_t planned[PLANNED];
    if (refused("plan", tb_plan(table, TABLE, planned, PLANNED)))
        return 1;

    uint8_t text[TB_MOST_PRINTED_BYTES];
    tb_answer printed = tb_print(planned, PLANNED, text, sizeof text);
    if (refused("print", printed))
        return 1;
    fwrite(text, 1, (size_t)printed.value, stdout);

    /* The plan's rank and length columns are what play takes. */
    uint32_t plan[PLAN];
    for (size_t row = 0; row < ROWS; row++) {
        plan[TB_PLAN_WIDTH * row] = planned[TB_PLANNED_WIDTH * row];
        plan[TB_PLAN_WIDTH * row + 1] = planned[TB_PLANNED_WIDTH * row + 1];
    }

    /* Row, release, run: the second task begins alone, the first arrives in its final region. */
    const uint32_t jobs[JOB_LIST] = {1, 0, 4, 0, 3, 2};
    uint32_t finishes[JOBS];
    if (refused("play", tb_play(table, TABLE, plan, PLAN, jobs, JOB_LIST, finishes, JOBS)))
        return 1;
    for (size_t job = 0; job < JOBS; job++)
        printf("job of row %u released at %u finishes at %u\n", (unsigned)jobs[TB_JOB_WIDTH * job],
               (unsigned)jobs[TB_JOB_WIDTH * job + 1], (unsigned)finishes[job]);
    return 0;
}
