/* The six conditions of a repair bench: composes their net, checks and lists its image, and makes calls on it.
   Returns 1 where something is not as expected. */
#include "board.h"

#include <stdio.h>
#include <string.h>

enum { DUMPED, RESET, POWERED, SOAK, BATTERYOUT, LOGGING, CONTEXTS };

static const char *const names[CONTEXTS] = {"DUMPED", "RESET", "POWERED", "SOAK", "BATTERYOUT", "LOGGING"};

static const char *const kinds[] = {"", "excludes", "causes", "implies", "requires", "suggests"};

static const char *const verbs[] = {"activate", "deactivate", "undo", "settle"};

static const uint8_t capacities[CONTEXTS] = {1, 255, 255, 255, 255, 255};

static const uint8_t relations[] = {
    BOARD_REQUIRES, RESET, DUMPED,
    BOARD_IMPLIES, SOAK, POWERED,
    BOARD_EXCLUDES, POWERED, BATTERYOUT,
    BOARD_REQUIRES, BATTERYOUT, DUMPED,
    BOARD_CAUSES, SOAK, LOGGING,
};

static const uint8_t calls[] = {
    BOARD_ACTIVATE, DUMPED, 0,
    BOARD_ACTIVATE, BATTERYOUT, 0,
    BOARD_ACTIVATE, SOAK, 0,
    BOARD_DEACTIVATE, DUMPED, 0,
    BOARD_UNDO, 0, 0,
    BOARD_UNDO, 0, 0,
    BOARD_SETTLE, 0, 0,
    BOARD_UNDO, 0, 0,
    BOARD_DEACTIVATE, LOGGING, 0,
};

#define CALLS (sizeof calls / BOARD_CALL_SIZE)

/* What the calls are to give: an answer each, then the counts and the totals. */
static const uint8_t expected[] = {
    0, 1, 0, 0, 0,
    0, 1, 0, 0, 0,
    BOARD_TOKENS_LEFT, 2, 0, 0, 0,
    0, 2, 0, 1, 0,
    0, 0, 0, 0, 0,
    0, 0, 0, 0, 0,
    0, 0, 0, 0, 0,
    BOARD_NOTHING_OPEN, 0, 0, 0, 0,
    BOARD_ALREADY_OFF, 0, 0, 0, 0,
    1, 0, 0, 0, 0, 0,
    3, 0, 0, 0,
    3, 0, 0, 0,
    2, 0, 0, 0,
};

static uint8_t image[BOARD_LONGEST_IMAGE];
static uint8_t list[BOARD_LONGEST_LIST];
static uint8_t report[CALLS * BOARD_ANSWER_SIZE + BOARD_LONGEST_STATE];

static int unexpected(const char *what, uint64_t value)
{
    fprintf(stderr, "unexpected: %s, %llu\n", what, (unsigned long long)value);
    return 1;
}

static unsigned pair(const uint8_t *bytes)
{
    return bytes[0] + 256u * bytes[1];
}

static unsigned long total(const uint8_t *bytes)
{
    return pair(bytes) + 65536ul * pair(bytes + 2);
}

/* A list: n, r, the capacities, the relations. */
static void print_list(void)
{
    unsigned n = list[0], r = list[1], i;
    const uint8_t *relation = list + 2 + n;

    printf("contexts: %u\n", n);
    for (i = 0; i < n; i++)
        printf("  %u %s, capacity %u\n", i, names[i], list[2 + i]);
    printf("relations: %u\n", r);
    for (i = 0; i < r; i++, relation += BOARD_RELATION_SIZE)
        printf("  %s %s %s\n", names[relation[1]], kinds[relation[0]], names[relation[2]]);
}

/* A call, its answer, and each active context with its count. */
static void print_call(const uint8_t *call, const uint8_t *answer, const uint8_t *counts)
{
    unsigned c, active = 0;

    printf("  %s", verbs[call[0]]);
    if (call[0] <= BOARD_DEACTIVATE)
        printf(" %s", names[pair(call + 1)]);
    if (answer[0] == 0)
        printf(": granted");
    else
        printf(": refused %u", answer[0]);
    printf(", firings %u, forced %u", pair(answer + 1), pair(answer + 3));
    for (c = 0; c < CONTEXTS; c++)
        if (counts[c] > 0)
            printf("%s %s %u", active++ == 0 ? ";" : ",", names[c], counts[c]);
    printf("%s\n", active == 0 ? "; none active" : "");
}

int main(void)
{
    uint64_t length, written;
    uint32_t refusal;
    size_t done, answered;

    length = board_compose(capacities, sizeof capacities, relations, sizeof relations, image, sizeof image);
    if (length != 813)
        return unexpected("the image's length or the refusal", length);
    refusal = board_check(image, length);
    if (refusal != 0)
        return unexpected("the image is refused", refusal);
    printf("image: %llu bytes, accepted\n", (unsigned long long)length);

    written = board_list(image, length, list, sizeof list);
    if (written != 2 + sizeof capacities + sizeof relations)
        return unexpected("the list's length", written);
    if (list[0] != CONTEXTS || list[1] != sizeof relations / BOARD_RELATION_SIZE)
        return unexpected("the list's contexts", list[0]);
    if (memcmp(list + 2, capacities, sizeof capacities) != 0)
        return unexpected("the list's capacities", written);
    if (memcmp(list + 2 + CONTEXTS, relations, sizeof relations) != 0)
        return unexpected("the list's relations", written);
    print_list();

    /* The counts follow the last answer. To see them after each call, the list is run up to that call. */
    printf("calls: %u\n", (unsigned)CALLS);
    for (done = 1; done <= CALLS; done++) {
        answered = BOARD_ANSWER_SIZE * done;
        written = board_run(image, length, calls, BOARD_CALL_SIZE * done, report, sizeof report);
        if (written != answered + CONTEXTS + 12 || memcmp(report, expected, answered) != 0)
            return unexpected("the answers", written);
        print_call(calls + BOARD_CALL_SIZE * (done - 1), report + answered - BOARD_ANSWER_SIZE, report + answered);
    }
    if (written != sizeof expected || memcmp(report, expected, sizeof expected) != 0)
        return unexpected("the counts or totals", written);
    printf("totals: granted %lu, refused %lu, undone %lu\n", total(report + written - 12), total(report + written - 8),
           total(report + written - 4));

    /* The byte behind the relations is the first record's priority. */
    image[sizeof capacities + sizeof relations] ^= 1;
    refusal = board_check(image, length);
    if (refusal != BOARD_WRONG_RECORDS)
        return unexpected("the damaged image's refusal", refusal);
    printf("damaged image: refused %lu\n", (unsigned long)refusal);
    return 0;
}
