/* Calls the library on slices that end at an unreadable page and on a stack of the size that the
 * header names, as another process asks over a pipe.
 *
 * The archive is x86-64 code and the tests run on any machine, so the tests ask and this program
 * calls. Nothing is judged here: the answer and every lent slice, as the call left them, go back
 * to be compared. An empty slice is lent by turns as the unreadable page and as a null pointer. With
 * any word behind its name the program calls on its own stack: the literal search needs more.
 *
 * A request is 64-bit words (operation, times to call, number, slices, then each slice's bytes)
 * and the slices themselves. A reply is 64-bit words (refusal, place, value, whether the bytes
 * before each slice are as they were, nanoseconds of processor time of all calls) and the slices
 * again.
 */
#include <stddef.h>
#include <stdint.h>

#include "templetbark.h"

/* The benchmark links each library a second time, 16 bytes further on. */
#ifdef SHIFTED
__asm__(".text\n\t.balign 16\n\t.skip 16, 0x90");
#endif

/* Of the C library, declared here since its headers may be those of another processor. */
extern void *mmap(void *address, size_t length, int protection, int flags, int file, long offset);
extern int mprotect(void *address, size_t length, int protection);
extern long read(int file, void *bytes, size_t length);
extern long write(int file, const void *bytes, size_t length);
extern int clock_gettime(int clock, int64_t time[2]);
extern void _exit(int status) __attribute__((noreturn));

enum { ROOMS = 4, MARGIN = 64, FILLER = 0xA5 };
enum { UNREADABLE = 0, READ_WRITE = 3, PRIVATE_ANONYMOUS = 0x22, PROCESSOR_TIME = 2 };
static const size_t ROOM = 1 << 20, GUARD = 1 << 16, STACK = 4096;

enum { PLAN, TIMES, VERDICT, PLAY, SHEET, PRINT, FIT };

/* A slice, the end that it is laid against, and the pointer that is passed for it. */
typedef struct {
    uint8_t *start, *end, *passed;
    size_t bytes;
} lent;

/* Reads or writes all of it; ends the program with the pipe. */
static void take(void *bytes, size_t length)
{
    for (uint8_t *next = bytes, *end = next + length; next != end;) {
        long moved = read(0, next, (size_t)(end - next));
        if (moved <= 0)
            _exit(0);
        next += moved;
    }
}

static void give(const void *bytes, size_t length)
{
    for (const uint8_t *next = bytes, *end = next + length; next != end;) {
        long moved = write(1, next, (size_t)(end - next));
        if (moved <= 0)
            _exit(3);
        next += moved;
    }
}

/* The end of so many bytes that lie between two unreadable pages. */
static uint8_t *room_end(size_t bytes)
{
    uint8_t *room = mmap(0, GUARD + bytes + GUARD, UNREADABLE, PRIVATE_ANONYMOUS, -1, 0);
    if (room == (uint8_t *)-1 || mprotect(room + GUARD, bytes, READ_WRITE) != 0)
        _exit(2);
    return room + GUARD + bytes;
}

static tb_answer call(uint64_t operation, const lent *s, uint64_t number)
{
#define NUMBERS(i) (uint32_t *)(void *)s[i].passed, s[i].bytes / 4
#define BYTES(i) s[i].passed, s[i].bytes
    switch (operation) {
    case PLAN: return tb_plan(NUMBERS(0), NUMBERS(1));
    case TIMES: return tb_times(NUMBERS(0), NUMBERS(1), NUMBERS(2));
    case VERDICT: return tb_verdict(NUMBERS(0), NUMBERS(1));
    case PLAY: return tb_play(NUMBERS(0), NUMBERS(1), NUMBERS(2), NUMBERS(3));
    case SHEET: return tb_sheet(BYTES(0), NUMBERS(1));
    case PRINT: return tb_print(NUMBERS(0), BYTES(1));
    case FIT: return tb_fit(NUMBERS(0), number);
    }
    _exit(4);
}

/* The call that is asked for, outside the stack that it is made on. */
static struct { uint64_t operation, times, number; lent slices[ROOMS]; tb_answer answer; } asked;

static void call_asked(void)
{
    for (uint64_t i = 0; i < asked.times; i++)
        asked.answer = call(asked.operation, asked.slices, asked.number);
}

/* Makes the call on the stack that ends at `end`, STACK bytes above an unreadable page. */
static void call_on(uint8_t *end)
{
    void (*called)(void) = call_asked;
    __asm__ volatile("movq %%rsp, %%rbx\n\tmovq %0, %%rsp\n\tcallq *%1\n\tmovq %%rbx, %%rsp"
                     : "+a"(end), "+d"(called)
                     :
                     : "rbx", "rcx", "rsi", "rdi", "r8", "r9", "r10", "r11", "memory", "cc", "xmm0", "xmm1", "xmm2",
                       "xmm3", "xmm4", "xmm5", "xmm6", "xmm7", "xmm8", "xmm9", "xmm10", "xmm11", "xmm12", "xmm13",
                       "xmm14", "xmm15");
}

static uint64_t now(void)
{
    int64_t time[2];
    clock_gettime(PROCESSOR_TIME, time);
    return (uint64_t)time[0] * 1000000000u + (uint64_t)time[1];
}

/* Lays a slice of so many bytes against its end, behind a margin of filler. */
static void lend(lent *slice, size_t bytes, int null_if_empty)
{
    if (bytes > ROOM - MARGIN)
        _exit(5);
    slice->bytes = bytes;
    slice->start = slice->end - bytes;
    slice->passed = bytes == 0 && null_if_empty ? 0 : slice->start;
    for (int i = 1; i <= MARGIN; i++)
        slice->start[-i] = FILLER;
}

static int margin_kept(const lent *slice)
{
    int kept = 1;
    for (int i = 1; i <= MARGIN; i++)
        kept &= slice->start[-i] == FILLER;
    return kept;
}

int main(int words, char **word)
{
    (void)word;
    lent *slices = asked.slices;
    for (int i = 0; i < ROOMS; i++)
        slices[i].end = room_end(ROOM);
    uint8_t *stack = room_end(STACK);
    for (int turn = 0;; turn ^= 1) {
        struct { uint64_t operation, times, number, slices; } request;
        take(&request, sizeof request);
        if (request.slices > ROOMS)
            _exit(6);
        for (uint64_t i = 0; i < request.slices; i++) {
            uint64_t bytes;
            take(&bytes, sizeof bytes);
            lend(&slices[i], bytes, turn);
        }
        for (uint64_t i = 0; i < request.slices; i++)
            take(slices[i].start, slices[i].bytes);

        asked.operation = request.operation;
        asked.times = request.times;
        asked.number = request.number;
        uint64_t began = now();
        if (words > 1)
            call_asked();
        else
            call_on(stack);
        uint64_t nanoseconds = now() - began;

        uint64_t kept = 1;
        for (uint64_t i = 0; i < request.slices; i++)
            kept &= (uint64_t)margin_kept(&slices[i]);
        uint64_t reply[5] = {asked.answer.number, asked.answer.place, asked.answer.value, kept, nanoseconds};
        give(reply, sizeof reply);
        for (uint64_t i = 0; i < request.slices; i++)
            give(slices[i].start, slices[i].bytes);
    }
}
