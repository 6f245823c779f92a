/* Spacings over link/gateway.h alone: what opens a dispatcher with some, what is refused and at which place, and what comes too soon. Prints how many
 * facts it held. */
#include "gateway.h"

#include <stdbool.h>
#include <stdio.h>
#include <stdlib.h>
#include <string.h>

/* Task 5, which is done 9 ticks after a release that is taken at once, and task 6. */
#define TASK_5 1, 5, 9, 0, 2, 0, 0, 0, 3, 0, 0, 0, 4, 0, 0, 0
#define TASK_6 1, 6, 8, 1, 2, 0, 0, 0, 3, 0, 0, 0, 4, 0, 0, 0
#define SPACING(task, ticks) 3, task, (ticks) & 255, (ticks) >> 8 & 255, (ticks) >> 16 & 255, (ticks) >> 24

static unsigned long held;

static void hold(bool good, const char *what)
{
    if (!good) {
        printf("%s\n", what);
        exit(1);
    }
    held++;
}

/* The opening is refused by the number, at the place, and the memory is as it was. */
static void refused(const uint8_t *entries, size_t length, uint8_t number, size_t at, const char *what)
{
    static gateway_dispatcher d, before;
    size_t place = 77;
    memset(&d, 0x5A, sizeof d);
    before = d;
    hold(gateway_open(entries, length, &d, &place) == number && place == at && memcmp(&d, &before, sizeof d) == 0, what);
}

static void refusals(void)
{
    static const uint8_t cut[] = {TASK_5, 3, 5, 1, 0, 0};
    static const uint8_t unknown[] = {TASK_5, SPACING(5, 1), SPACING(6, 0)};
    static const uint8_t no_task[] = {TASK_5, SPACING(255, 1)};
    static const uint8_t first[] = {SPACING(5, 1), TASK_5};
    static const uint8_t nothing[] = {TASK_5, SPACING(5, 0)};
    static const uint8_t longer[] = {TASK_5, TASK_6, SPACING(6, 1000000001)};
    static const uint8_t second[] = {TASK_5, TASK_6, SPACING(5, 7), SPACING(6, 7), SPACING(5, 7)};
    static const uint8_t behind[] = {TASK_5, SPACING(5, 7), TASK_5};
    static const uint8_t release[] = {TASK_5, SPACING(5, 7), 2, 5, 0, 0, 0, 0, 0, 0, 0, 0};
    refused(cut, sizeof cut, GATEWAY_CUT_SHORT, 16, "a spacing cut short");
    refused(unknown, sizeof unknown, GATEWAY_RELEASE_OF_NO_TASK, 22, "a spacing of an unknown task");
    refused(no_task, sizeof no_task, GATEWAY_RELEASE_OF_NO_TASK, 16, "a spacing of a number that no task has");
    refused(first, sizeof first, GATEWAY_RELEASE_OF_NO_TASK, 0, "a spacing before its task");
    refused(nothing, sizeof nothing, GATEWAY_BAD_SPACING, 16, "a spacing of 0");
    refused(longer, sizeof longer, GATEWAY_BAD_SPACING, 32, "a spacing over 1,000,000,000");
    refused(second, sizeof second, GATEWAY_BAD_SPACING, 44, "a second spacing");
    refused(behind, sizeof behind, GATEWAY_TASK_AFTER_RELEASE, 22, "a task after a spacing, which is asked before its number");
    refused(release, sizeof release, GATEWAY_OTHER_KIND, 22, "a release at opening");
}

/* The longest opening: 32 tasks and 32 spacings, and one more is a second one. */
static void longest(void)
{
    static const uint8_t task[] = {TASK_5}, spacing[] = {SPACING(5, 1000000000)};
    static uint8_t entries[GATEWAY_LONGEST_OPENING + sizeof spacing];
    static gateway_dispatcher d;
    size_t place;
    for (uint8_t n = 0; n < 32; n++) {
        uint8_t *t = entries + (size_t)16 * n, *s = entries + 512 + (size_t)6 * n;
        memcpy(t, task, sizeof task);
        memcpy(s, spacing, sizeof spacing);
        t[1] = s[1] = n;
    }
    memcpy(entries + GATEWAY_LONGEST_OPENING, spacing, sizeof spacing);
    hold(gateway_open(entries, GATEWAY_LONGEST_OPENING, &d, &place) == GATEWAY_SERVED, "the longest opening is refused");
    hold(gateway_spacing(&d, 0) == 1000000000 && gateway_spacing(&d, 31) == 1000000000 && gateway_spacing(&d, 32) == 0, "other spacings are kept");
    refused(entries, sizeof entries, GATEWAY_BAD_SPACING, GATEWAY_LONGEST_OPENING, "one spacing more than there are tasks");
}

static uint32_t skipped_at(gateway_dispatcher *d, uint64_t time, uint32_t set)
{
    gateway_answer answer;
    hold(gateway_instant(d, time, set, &answer) == GATEWAY_SERVED, "an instant is refused");
    return answer.skipped;
}

/* One that is taken counts as the last and one that is skipped does not; a tick sooner than the spacing is skipped, and exactly one spacing later passes. */
static void edge(void)
{
    static const uint8_t entries[] = {TASK_5, TASK_6, SPACING(5, 20)};
    static const uint64_t dues[] = {2, 5, 9};
    const uint32_t five = UINT32_C(1) << 5, six = UINT32_C(1) << 6;
    gateway_dispatcher d;
    size_t place;
    hold(gateway_open(entries, sizeof entries, &d, &place) == GATEWAY_SERVED, "a spacing is refused");
    hold(gateway_spacing(&d, 5) == 20 && gateway_spacing(&d, 6) == 0, "other spacings are kept");
    hold(skipped_at(&d, 0, five) == 0, "the first release is skipped");
    for (size_t i = 0; i < sizeof dues / sizeof *dues; i++) {
        hold(skipped_at(&d, dues[i], 0) == 0, "nothing is skipped");
    }
    hold(skipped_at(&d, 19, five) == five, "a release a tick sooner than the spacing is not skipped");
    hold(skipped_at(&d, 20, five) == 0, "a release exactly one spacing later is skipped");
    hold(skipped_at(&d, 21, five | six) == five, "while a job is pending too, and of the task with a spacing alone");
}

/* One that waits is the last, by the time at which it came. */
static void waiting(void)
{
    static const uint8_t entries[] = {TASK_5, SPACING(5, 8)};
    static const uint64_t dues[] = {2, 5};
    const uint32_t five = UINT32_C(1) << 5;
    gateway_dispatcher d;
    gateway_view view;
    size_t place;
    hold(gateway_open(entries, sizeof entries, &d, &place) == GATEWAY_SERVED, "a spacing is refused");
    skipped_at(&d, 0, five);
    for (size_t i = 0; i < sizeof dues / sizeof *dues; i++) {
        skipped_at(&d, dues[i], 0);
    }
    hold(skipped_at(&d, 7, five) == five, "a release that could wait comes too soon and is not skipped");
    hold(skipped_at(&d, 8, five) == 0, "a release exactly one spacing later does not wait");
    /* at 9 the first job is done and the one of 8 taken: the last one is that of 8 */
    hold(skipped_at(&d, 9, five) == five, "a release after one that waited is measured from another time");
    gateway_now(&d, &view);
    hold(view.pending == five && view.waiting == 0, "the one that waited is not taken");
}

int main(void)
{
    refusals();
    longest();
    edge();
    waiting();
    printf("%lu facts of spacings\n", held);
    return 0;
}
