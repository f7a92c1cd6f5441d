/* Measures the stack that each function of the board needs, on the largest image, a small one and a refused one, with long lists of calls.
   A call runs on a stack of its own that is filled with one byte: all from the lowest byte that changed was used, the return address
   included. Link it with -z now: the first call through a lazily bound name would use the stack as well. */
#include "board.h"

#include <stdio.h>
#include <string.h>

#define STACK_SIZE 262144
#define CALLS 1000
#define RING 17

typedef void (*function)(void);

static unsigned char stack[STACK_SIZE] __attribute__((aligned(16)));
static uint8_t image[BOARD_LONGEST_IMAGE], output[CALLS * BOARD_ANSWER_SIZE + BOARD_LONGEST_STATE];
static uint8_t capacities[BOARD_MOST_CONTEXTS], relations[BOARD_MOST_RELATIONS * BOARD_RELATION_SIZE], calls[CALLS * BOARD_CALL_SIZE];
static size_t n, r, length;

static size_t most_compose, most_check, most_list, most_run;
static int seen[BOARD_NOT_RAISED + 1];

/* Calls f on its own stack with up to three arrays. */
static uint64_t on_stack(function f, const void *a, size_t a_len, const void *b, size_t b_len, void *c, size_t c_len)
{
    register void *fifth __asm__("r8") = c;
    register size_t sixth __asm__("r9") = c_len;
    uint64_t value;

    __asm__ volatile("movq %%rsp, %%rbx\n\t"
                     "movq %[top], %%rsp\n\t"
                     "call *%[f]\n\t"
                     "movq %%rbx, %%rsp"
                     : "=&a"(value), "+D"(a), "+S"(a_len), "+d"(b), "+c"(b_len), "+r"(fifth), "+r"(sixth)
                     : [top] "r"(stack + STACK_SIZE), [f] "r"(f)
                     : "rbx", "r10", "r11", "cc", "memory", "xmm0", "xmm1", "xmm2", "xmm3", "xmm4", "xmm5", "xmm6", "xmm7", "xmm8", "xmm9",
                       "xmm10", "xmm11", "xmm12", "xmm13", "xmm14", "xmm15");
    return value;
}

/* Calls f twice, over two fillings, since a byte may be written as it was. Keeps the most bytes used; the value is f's. */
static uint64_t measure(size_t *most, function f, const void *a, size_t a_len, const void *b, size_t b_len, void *c, size_t c_len)
{
    static const unsigned char fillings[] = {0xa5, 0x5a};
    uint64_t value = 0;
    size_t i, low;

    for (i = 0; i < sizeof fillings; i++) {
        memset(stack, fillings[i], sizeof stack);
        value = on_stack(f, a, a_len, b, b_len, c, c_len);
        for (low = 0; stack[low] == fillings[i]; low++)
            ;
        if (*most < STACK_SIZE - low)
            *most = STACK_SIZE - low;
    }
    return value;
}

static void relate(uint8_t kind, size_t a, size_t b)
{
    relations[BOARD_RELATION_SIZE * r] = kind;
    relations[BOARD_RELATION_SIZE * r + 1] = (uint8_t)a;
    relations[BOARD_RELATION_SIZE * r + 2] = (uint8_t)b;
    r++;
}

/* 48 contexts, each related to the next ones by causes, implies, requires and suggests in turn: 96 relations. */
static void largest_net(void)
{
    size_t a, apart;

    n = BOARD_MOST_CONTEXTS;
    r = 0;
    for (apart = 1; r < BOARD_MOST_RELATIONS; apart++)
        for (a = 0; a + apart < n && r < BOARD_MOST_RELATIONS; a++)
            relate((uint8_t)(BOARD_CAUSES + r % 4), a, a + apart);
}

/* A ring in which each context implies the next: a step that meets its limit. */
static void ring_net(void)
{
    size_t a;

    n = RING;
    r = 0;
    for (a = 0; a < n; a++)
        relate(BOARD_IMPLIES, a, (a + 1) % n);
}

/* All calls, over all contexts from the last to the first and one that is not there. */
static void fill_calls(void)
{
    static const uint8_t in_turn[] = {BOARD_ACTIVATE, BOARD_ACTIVATE,   BOARD_ACTIVATE, BOARD_UNDO,
                                      BOARD_ACTIVATE, BOARD_DEACTIVATE, BOARD_UNDO};
    size_t i;

    for (i = 0; i < CALLS; i++) {
        calls[BOARD_CALL_SIZE * i] = i % 50 == 49 ? BOARD_SETTLE : in_turn[i % sizeof in_turn];
        calls[BOARD_CALL_SIZE * i + 1] = (uint8_t)(BOARD_MOST_CONTEXTS - i % (BOARD_MOST_CONTEXTS + 1));
        calls[BOARD_CALL_SIZE * i + 2] = 0;
    }
}

static int run(void)
{
    uint64_t written = measure(&most_run, (function)board_run, image, length, calls, sizeof calls, output, sizeof output);
    size_t i;

    for (i = 0; i < CALLS; i++)
        seen[output[BOARD_ANSWER_SIZE * i]] = 1;
    return written == CALLS * BOARD_ANSWER_SIZE + n + 12;
}

/* Whether all functions do what they are to do on the net. */
static int measure_net(void)
{
    memset(capacities, 255, sizeof capacities);
    length = measure(&most_compose, (function)board_compose, capacities, n, relations, BOARD_RELATION_SIZE * r, image, sizeof image);
    return length == n + 3 * r + 49 * (2 * n + r) + 8
        && (uint32_t)measure(&most_check, (function)board_check, image, length, NULL, 0, NULL, 0) == 0
        && measure(&most_list, (function)board_list, image, length, output, sizeof output, NULL, 0) == 2 + n + 3 * r
        && run();
}

/* The same for an image without bytes. */
static int measure_refused(void)
{
    n = r = length = 0;
    return measure(&most_compose, (function)board_compose, capacities, 0, relations, 0, image, sizeof image) == BOARD_WRONG_SIZES
        && (uint32_t)measure(&most_check, (function)board_check, image, 0, NULL, 0, NULL, 0) == BOARD_SHORT_IMAGE
        && measure(&most_list, (function)board_list, image, 0, output, sizeof output, NULL, 0) == BOARD_SHORT_IMAGE
        && run();
}

int main(void)
{
    int ok;

    fill_calls();
    largest_net();
    ok = measure_net();
    ring_net();
    ok = ok && measure_net();
    ok = ok && measure_refused();
    ok = ok && seen[0] && seen[BOARD_NO_SUCH_CONTEXT] && seen[BOARD_STEP_LIMIT_MET] && seen[BOARD_TOKENS_LEFT] && seen[BOARD_NOTHING_OPEN]
        && seen[BOARD_ALREADY_OFF] && seen[BOARD_NOT_RAISED];
    if (!ok) {
        fprintf(stderr, "stack: unexpected answers\n");
        return 1;
    }
    printf("board_compose %lu bytes\n", (unsigned long)most_compose);
    printf("board_check %lu bytes\n", (unsigned long)most_check);
    printf("board_list %lu bytes\n", (unsigned long)most_list);
    printf("board_run %lu bytes\n", (unsigned long)most_run);
    return 0;
}
