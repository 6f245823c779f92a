/* A driver as one would write it: it keeps one dispatcher for each core and calls it at every release and at every due time. It looks first, programs the
 * core's hardware by what it is shown, and then commits.
 *
 *     driver TASKS < RELEASES
 *
 * TASKS is a file with the task entries of every core, and the spacings behind them (./gateway input makes it of a plan without releases). A line of RELEASES
 * is `CORE TIME TASK`, a release, or `CORE TIME mark TASK VALUE`, a mark call; the times do not fall. What occurs is printed as `gateway` prints it, with the
 * core in front. It goes on for ever: late in its count a core goes on with a new dispatcher at an idle moment, and where none comes in time its releases are
 * held back until there is one. The status is 2 where what it reads is rubbish, and 1 where the dispatcher refuses it. */
#include "gateway.h"

#include <errno.h>
#include <inttypes.h>
#include <stdbool.h>
#include <stdio.h>
#include <stdlib.h>
#include <string.h>

enum { CORES = 64, TASKS = 32, MOST_ENTRIES = GATEWAY_LONGEST_OPENING + 16, LINE = 128, MOST_WORDS = 6 };

/* A core that is idle after half of the ticks that it can count counts anew. */
static const uint64_t ENOUGH = GATEWAY_LAST_TICK / 2;

/* Of the driver's own clock: so that no sum of ticks runs over. */
static const uint64_t MOST_TIME = UINT64_MAX / 2;

typedef struct {
    gateway_dispatcher dispatcher;
    bool is_open, is_due;
    uint64_t due;             /* the next due time, in ticks of the driver's clock */
    uint64_t base;            /* the tick of the driver's clock that is tick 0 of the dispatcher */
    unsigned long held[TASKS]; /* releases of each task that are to be handed in */
    bool has_last[TASKS];      /* a release of the task was handed in and not skipped */
    uint64_t last[TASKS];      /* the last of them, in ticks of the driver's clock */
    gateway_view programmed;   /* what the core's hardware was told to do */
} core_state;

typedef struct {
    bool is_there, is_mark;
    unsigned core, task, mark;
    uint64_t time;
} event;

static core_state cores[CORES];
static gateway_dispatcher opened; /* a core begins with a copy of it */
static unsigned long line_number;

static void fail(const char *what)
{
    fprintf(stderr, "driver: %s\n", what);
    exit(2);
}

static void fail_line(const char *what)
{
    fprintf(stderr, "driver: line %lu: %s\n", line_number, what);
    exit(2);
}

/* ---- What it prints */

static void print_task(uint8_t task)
{
    if (task == GATEWAY_NO_TASK) {
        printf(" -");
    } else {
        printf(" %u", task);
    }
}

static void print_interval(unsigned number, uint64_t base, const gateway_interval *i)
{
    printf("%u I %" PRIu64 " %" PRIu64 " %u", number, base + i->begin, base + i->end, i->half);
    print_task(i->task);
    printf(" %u", i->work);
    print_task(i->copied_out);
    print_task(i->chosen);
    printf(" %u", i->fate);
    print_task(i->promoted);
    printf("\n");
}

/* In the order in which things occur: the job done, an interval that ended before the releases, those skipped, an interval that ended after them. A
 * release that waits is told when its job is done. */
static void print_answer(unsigned number, uint64_t base, uint64_t now, const gateway_answer *a)
{
    if (a->done) {
        printf("%u J %u %" PRIu64 " %" PRIu64 " %" PRIu64 " %u\n", number, a->job.task, base + a->job.release, base + a->job.start,
               base + a->job.completion, a->job.blocked);
    }
    if (a->closed == GATEWAY_CLOSED_BEFORE_RELEASES) {
        print_interval(number, base, &a->interval);
    }
    for (unsigned task = 0; task < TASKS; task++) {
        if (a->skipped >> task & 1) {
            printf("%u S %u %" PRIu64 "\n", number, task, now);
        }
    }
    if (a->closed == GATEWAY_CLOSED_AFTER_RELEASES) {
        print_interval(number, base, &a->interval);
    }
}

/* ---- A core */

/* With no due time nothing is pending and nothing waits, and a new dispatcher can take over, which is told the marks: at once those that were set, and at once
 * those that were taken away. Of the last releases it knows nothing: see too_soon. */
static void count_anew(core_state *core, uint64_t now)
{
    gateway_view old, fresh;
    gateway_now(&core->dispatcher, &old);
    gateway_now(&opened, &fresh);
    core->dispatcher = opened;
    core->base = now;
    gateway_marks(&core->dispatcher, old.marked & ~fresh.marked, 1);
    gateway_marks(&core->dispatcher, fresh.marked & ~old.marked, 0);
}

/* One release of each task that has some, as a set. */
static uint32_t hand_in(core_state *core)
{
    uint32_t set = 0;
    for (unsigned task = 0; task < TASKS; task++) {
        if (core->held[task] > 0) {
            core->held[task]--;
            set |= UINT32_C(1) << task;
        }
    }
    return set;
}

/* The releases of a set that come sooner than the spacing after one that a dispatcher before this one had; of its own it knows. */
static uint32_t too_soon(const core_state *core, uint32_t set, uint64_t now)
{
    uint32_t soon = 0;
    for (unsigned task = 0; task < TASKS; task++) {
        bool was_before = core->has_last[task] && core->last[task] < core->base;
        if (set >> task & 1 && was_before && now - core->last[task] < gateway_spacing(&opened, (uint8_t)task)) {
            soon |= UINT32_C(1) << task;
        }
    }
    return soon;
}

static void note_last(core_state *core, uint32_t set, uint64_t now)
{
    for (unsigned task = 0; task < TASKS; task++) {
        if (set >> task & 1) {
            core->has_last[task] = true;
            core->last[task] = now;
        }
    }
}

static bool holds(const core_state *core)
{
    for (unsigned task = 0; task < TASKS; task++) {
        if (core->held[task] > 0) {
            return true;
        }
    }
    return false;
}

/* What a core's engine and processor are to do, before the dispatcher goes on. Here it is kept; link/hardware.c has the commands that follow from what was
 * programmed before and this, and hardware that carries them out. */
static void program(core_state *core, const gateway_view *next)
{
    core->programmed = *next;
}

/* What the dispatcher counts is what the hardware was told. */
static void hold_programmed(const core_state *core)
{
    gateway_view now;
    gateway_now(&core->dispatcher, &now);
    const gateway_view *p = &core->programmed;
    if (now.begin != p->begin || now.processor_until != p->processor_until || now.copy_in_until != p->copy_in_until ||
        now.copy_out_until != p->copy_out_until || now.work != p->work || now.processor != p->processor || now.copy_in != p->copy_in ||
        now.copy_out != p->copy_out || now.half != p->half) {
        fail("the dispatcher goes on with something else than the hardware was told");
    }
}

/* Looks first, programs the hardware, and then commits. No other call of this driver comes between: one that has several threads looks again where its
 * commit is refused by GATEWAY_OLD_TICKET. */
static uint8_t look_and_commit(core_state *core, uint64_t tick, uint32_t set, gateway_answer *answer)
{
    gateway_view next;
    uint64_t ticket = 0;
    uint8_t refused = gateway_enquire(&core->dispatcher, tick, set, answer, &next, &ticket);
    if (refused != GATEWAY_SERVED) {
        return refused;
    }
    program(core, &next);
    refused = gateway_commit(&core->dispatcher, ticket, tick, set, answer);
    hold_programmed(core);
    return refused;
}

/* One call. Where the count is over nothing is handed in, and what is due goes on. */
static void instant(unsigned number, core_state *core, uint64_t now)
{
    uint64_t tick = now - core->base;
    uint32_t set = tick > GATEWAY_LAST_TICK ? 0 : hand_in(core), soon = too_soon(core, set, now);
    gateway_answer answer = {0};
    uint8_t refused = look_and_commit(core, tick, set & ~soon, &answer);
    if (refused != GATEWAY_SERVED) {
        fprintf(stderr, "driver: core %u, tick %" PRIu64 ": %s (refusal %u)\n", number, now, gateway_refusal_text(refused), refused);
        exit(1);
    }
    answer.skipped |= soon;
    note_last(core, set & ~answer.skipped, now);
    print_answer(number, core->base, now, &answer);
    core->is_due = answer.is_due;
    core->due = core->base + answer.due;
    /* a second release of a task has a tick of its own, also where the first was skipped and nothing is due */
    if (tick < GATEWAY_LAST_TICK && holds(core) && (!core->is_due || now + 1 < core->due)) {
        core->is_due = true;
        core->due = now + 1;
    }
}

static void call(unsigned number, uint64_t now)
{
    core_state *core = &cores[number];
    do {
        if (!core->is_due && now - core->base > ENOUGH) {
            count_anew(core, now);
        }
        instant(number, core, now);
    } while (!core->is_due && holds(core)); /* the idle moment for which they were held back */
}

/* ---- What it reads */

/* False where a word is no number; one that is too large is the largest that there is. */
static bool read_number(const char *word, uint64_t *value)
{
    *value = 0;
    for (const char *c = word; *c != '\0'; c++) {
        if (*c < '0' || *c > '9') {
            return false;
        }
        uint64_t digit = (uint64_t)(*c - '0');
        *value = *value > (UINT64_MAX - digit) / 10 ? UINT64_MAX : *value * 10 + digit;
    }
    return true;
}

static event read_event(char **words, unsigned count)
{
    event e = {0};
    e.is_there = true;
    e.is_mark = count == 5 && strcmp(words[2], "mark") == 0;
    uint64_t core = 0, time = 0, task = 0, mark = 0;
    if ((count != 3 && !e.is_mark) || !read_number(words[0], &core) || !read_number(words[1], &time) ||
        !read_number(words[e.is_mark ? 3 : 2], &task) || (e.is_mark && !read_number(words[4], &mark))) {
        fail_line("neither CORE TIME TASK nor CORE TIME mark TASK VALUE");
    }
    if (core >= CORES) {
        fail_line("there are cores 0 to 63");
    }
    if (time > MOST_TIME) {
        fail_line("a time over 9223372036854775807");
    }
    if (task >= TASKS) {
        fail_line("there are tasks 0 to 31");
    }
    if (mark > 1) {
        fail_line("a mark is 0 or 1");
    }
    e.core = (unsigned)core;
    e.time = time;
    e.task = (unsigned)task;
    e.mark = (unsigned)mark;
    return e;
}

/* A line without its end, with a zero behind it; false at the end. A zero in it is a byte as others, and belongs to no word. */
static bool next_line(char *line)
{
    size_t length = 0;
    int c = getchar();
    if (c == EOF) {
        if (ferror(stdin)) {
            fail("the releases cannot be read");
        }
        return false;
    }
    line_number++;
    for (; c != EOF && c != '\n'; c = getchar()) {
        if (length == LINE - 1) {
            fail_line("it is too long");
        }
        line[length++] = c == '\0' ? '?' : (char)c;
    }
    line[length] = '\0';
    return true;
}

static event next_event(void)
{
    char line[LINE];
    while (next_line(line)) {
        char *words[MOST_WORDS];
        unsigned count = 0;
        for (char *word = strtok(line, " \t\r"); word != NULL && count < MOST_WORDS; word = strtok(NULL, " \t\r")) {
            words[count++] = word;
        }
        if (count > 0) {
            return read_event(words, count);
        }
    }
    event none = {0};
    return none;
}

static void take(const event *e)
{
    core_state *core = &cores[e->core];
    if (!core->is_open) {
        core->is_open = true;
        core->dispatcher = opened;
    }
    if (!e->is_mark) {
        core->held[e->task]++;
        return;
    }
    uint8_t refused = core->held[e->task] > 0 ? GATEWAY_TASK_BUSY : gateway_mark(&core->dispatcher, (uint8_t)e->task, (uint8_t)e->mark);
    if (refused != GATEWAY_SERVED) {
        fprintf(stderr, "driver: core %u, tick %" PRIu64 ": the mark of task %u: %s (refusal %u)\n", e->core, e->time, e->task,
                gateway_refusal_text(refused), refused);
    }
}

static void open_tasks(const char *path)
{
    static uint8_t entries[MOST_ENTRIES];
    FILE *file = fopen(path, "rb");
    size_t length = file == NULL ? 0 : fread(entries, 1, sizeof entries, file);
    if (file == NULL || ferror(file)) {
        fprintf(stderr, "driver: %s: %s\n", path, strerror(errno));
        exit(2);
    }
    fclose(file);
    size_t place = 0;
    uint8_t refused = gateway_open(entries, length, &opened, &place);
    if (refused != GATEWAY_SERVED) {
        fprintf(stderr, "driver: the tasks: %s (refusal %u)", gateway_refusal_text(refused), refused);
        if (refused != GATEWAY_NO_ENTRY) {
            fprintf(stderr, " at byte %zu", place);
        }
        fprintf(stderr, "\n");
        exit(1);
    }
}

/* The next tick on which a core is due or has a release; false where there is none. */
static bool next_tick(const event *e, uint64_t *now)
{
    bool found = e->is_there;
    *now = e->time;
    for (unsigned number = 0; number < CORES; number++) {
        if (cores[number].is_due && (!found || cores[number].due < *now)) {
            found = true;
            *now = cores[number].due;
        }
    }
    return found;
}

int main(int argc, char **argv)
{
    if (argc != 2) {
        fail("usage: driver TASKS < RELEASES");
    }
    open_tasks(argv[1]);
    uint64_t last = 0, now = 0;
    event e = next_event();
    while (next_tick(&e, &now)) {
        if (now < last) {
            fail_line("the times fall");
        }
        last = now;
        bool has_release[CORES] = {false};
        for (; e.is_there && e.time == now; e = next_event()) {
            take(&e);
            has_release[e.core] = has_release[e.core] || !e.is_mark;
        }
        for (unsigned number = 0; number < CORES; number++) {
            bool is_now = cores[number].is_due && cores[number].due == now;
            bool is_over = cores[number].is_due && now - cores[number].base > GATEWAY_LAST_TICK; /* its releases are held back */
            if (is_now || (has_release[number] && !is_over)) {
                call(number, now);
            }
        }
    }
    if (fflush(stdout) != 0 || ferror(stdout)) {
        fail("what occurs cannot be printed");
    }
    return 0;
}
