/* A model of a core's hardware, an engine that copies, a processor and a local memory in two halves, and a driver that commands it by link/gateway.h
 * alone: by the view before each call and the one that an enquiry shows, before it commits. Every command is checked, and after each call every phase is
 * held to the dispatcher's.
 *
 *     hardware ROUNDS SEED             random rounds; status 0 with no fault, 1 at the first one
 *     hardware ROUNDS SEED COMMAND     the same, with one command left out: copy-in, break-off, copy-out, run, copy-in-and-run, or `again`, the commands
 *                                      by which a copy is broken off and the same task's copy begins again in one instant */
#include "gateway.h"

#include <inttypes.h>
#include <stdbool.h>
#include <stdio.h>
#include <stdlib.h>
#include <string.h>

enum { TASKS = 32, LEFT_OUT_AT = 20 };

/* ---- The hardware */

typedef enum { NOTHING, PARTLY, LOADED, EXECUTED } content;
typedef enum { RESTS, COPIES_IN, COPIES_OUT, RUNS } doing;

typedef struct {
    content is;
    unsigned task;
} memory_half;

typedef struct {
    doing what;
    unsigned task, half;
    uint64_t until;
} unit;

typedef struct {
    memory_half halves[2];
    unit engine, processor;
    uint64_t now, start[TASKS]; /* the ticks on which the runs began */
    bool has_completed;         /* a copy-out ended now: of this task */
    unsigned completed;
} hardware;

typedef struct {
    uint32_t copy_in, execution, copy_out;
} lengths;

static hardware core;
static lengths length_of[TASKS];
static unsigned long copies_in, broken_off, begun_again, thrown_out, promoted, jobs, came_too_soon, looked_again;

static void must(bool good, const char *what)
{
    if (!good) {
        printf("fault at tick %" PRIu64 ": %s\n", core.now, what);
        exit(1);
    }
}

static void begin(unit *u, doing what, unsigned task, unsigned half, uint32_t length)
{
    u->what = what;
    u->task = task;
    u->half = half;
    u->until = core.now + length;
}

static void fill(unsigned half, content is, unsigned task)
{
    core.halves[half].is = is;
    core.halves[half].task = task;
}

static bool holds(unsigned half, content is, unsigned task)
{
    return core.halves[half].is == is && core.halves[half].task == task;
}

static bool uses(const unit *u, unsigned half)
{
    return u->what != RESTS && u->half == half;
}

static void command_copy_in(unsigned task, unsigned half)
{
    must(core.engine.what == RESTS, "a copy-in while the engine is at work");
    must(!uses(&core.processor, half), "a copy into the half that the processor uses");
    must(core.halves[half].is != EXECUTED, "a copy over a job that is not copied out");
    fill(half, PARTLY, task);
    begin(&core.engine, COPIES_IN, task, half, length_of[task].copy_in);
    copies_in++;
}

static void command_break_off(unsigned task, unsigned half)
{
    must(core.engine.what == COPIES_IN && core.engine.task == task && core.engine.half == half, "a copy is broken off that is not under way");
    fill(half, NOTHING, task);
    core.engine.what = RESTS;
    broken_off++;
}

static void command_copy_out(unsigned task, unsigned half)
{
    must(core.engine.what == RESTS, "a copy-out while the engine is at work");
    must(!uses(&core.processor, half), "a copy out of the half that the processor uses");
    must(holds(half, EXECUTED, task), "a copy-out of a task that was not executed in this half");
    begin(&core.engine, COPIES_OUT, task, half, length_of[task].copy_out);
}

static void command_run(unsigned task, unsigned half)
{
    must(core.processor.what == RESTS, "a run while the processor is at work");
    must(!uses(&core.engine, half), "a run in the half that the engine uses");
    must(holds(half, LOADED, task), "a run of a task that is not in its half");
    fill(half, PARTLY, task);
    begin(&core.processor, RUNS, task, half, length_of[task].execution);
    core.start[task] = core.now;
}

static void command_copy_in_and_run(unsigned task, unsigned half)
{
    must(core.processor.what == RESTS, "a copy-in by the processor while it is at work");
    must(!uses(&core.engine, half), "a copy by the processor into the half that the engine uses");
    must(core.halves[half].is != EXECUTED, "a copy by the processor over a job that is not copied out");
    thrown_out += core.halves[half].is == LOADED;
    fill(half, PARTLY, task);
    begin(&core.processor, COPIES_IN, task, half, length_of[task].copy_in);
    promoted++;
}

/* What was copied in and is not run in the interval that begins is of no use. */
static void drop_loaded(void)
{
    for (unsigned half = 0; half < 2; half++) {
        if (core.halves[half].is == LOADED) {
            core.halves[half].is = NOTHING;
            thrown_out++;
        }
    }
}

static void engine_ends(void)
{
    unit *u = &core.engine;
    if (u->what == COPIES_IN) {
        fill(u->half, LOADED, u->task);
    } else {
        fill(u->half, NOTHING, u->task);
        core.has_completed = true;
        core.completed = u->task;
    }
    u->what = RESTS;
}

static void processor_ends(void)
{
    unit *u = &core.processor;
    if (u->what == COPIES_IN) {
        begin(u, RUNS, u->task, u->half, length_of[u->task].execution);
        core.start[u->task] = core.now;
    } else {
        fill(u->half, EXECUTED, u->task);
        u->what = RESTS;
    }
}

/* The clock goes on to a tick, and what ends then ends. */
static void pass(uint64_t tick)
{
    must(core.engine.what == RESTS || core.engine.until >= tick, "the driver missed the end of the engine's copy");
    must(core.processor.what == RESTS || core.processor.until >= tick, "the driver missed the end of the processor's phase");
    core.now = tick;
    core.has_completed = false;
    if (core.engine.what != RESTS && core.engine.until == tick) {
        engine_ends();
    }
    if (core.processor.what != RESTS && core.processor.until == tick) {
        processor_ends();
    }
}

/* ---- The driver */

typedef enum { NONE, COPY_IN, BREAK_OFF, COPY_OUT, RUN, COPY_IN_AND_RUN, AGAIN } command;

static command left_out;
static unsigned long met; /* commands of the kind that is left out */

static bool gives(command c)
{
    return c != left_out || ++met != LEFT_OUT_AT;
}

/* As link/gateway.h has it. */
static void command_hardware(const gateway_view *b, const gateway_view *a, uint64_t t)
{
    bool begins = a->is_open && !(b->is_open && b->begin == a->begin);
    bool goes_on = b->copy_in == a->copy_in && b->copy_in_until == a->copy_in_until;
    bool breaks = b->copy_in != GATEWAY_NO_TASK && b->copy_in_until > t && !goes_on;
    bool copies = a->copy_in != GATEWAY_NO_TASK && !goes_on;
    bool again = breaks && copies && b->copy_in == a->copy_in;
    begun_again += again;
    if (again && !gives(AGAIN)) {
        breaks = copies = false;
    }
    if (breaks && gives(BREAK_OFF)) {
        command_break_off(b->copy_in, 1u - b->half);
    }
    if (begins && a->copy_out != GATEWAY_NO_TASK && gives(COPY_OUT)) {
        command_copy_out(a->copy_out, 1u - a->half);
    }
    if (copies && gives(COPY_IN)) {
        command_copy_in(a->copy_in, 1u - a->half);
    }
    if (begins && a->work == GATEWAY_EXECUTE && gives(RUN)) {
        command_run(a->processor, a->half);
    }
    if (begins && a->work == GATEWAY_COPY_IN_AND_EXECUTE && gives(COPY_IN_AND_RUN)) {
        command_copy_in_and_run(a->processor, a->half);
    }
    if (begins) {
        drop_loaded();
    }
}

static bool agrees(const unit *u, bool is_under_way, uint8_t task, uint64_t until)
{
    return is_under_way ? task == u->task && until == u->until : task == GATEWAY_NO_TASK && until == 0;
}

/* What the hardware does is what the dispatcher counts, to the tick. */
static void compare(const gateway_view *v, const gateway_answer *answer)
{
    must(agrees(&core.engine, core.engine.what == COPIES_IN, v->copy_in, v->copy_in_until), "another copy-in than the dispatcher counts");
    must(agrees(&core.engine, core.engine.what == COPIES_OUT, v->copy_out, v->copy_out_until), "another copy-out than the dispatcher counts");
    must(agrees(&core.processor, core.processor.what != RESTS, v->processor, v->processor_until), "another run than the dispatcher counts");
    must(core.has_completed == (answer->done == 1), "a job is done in the hardware or in the dispatcher alone");
    if (answer->done) {
        const gateway_job *job = &answer->job;
        must(job->task == core.completed && job->completion == core.now && job->start == core.start[job->task], "another job than the dispatcher tells");
        jobs++;
    }
}

/* ---- The releases, by the spacings */

static uint32_t spacing_of[TASKS]; /* 0: none */
static uint64_t last_of[TASKS];    /* the last release of a task that was not skipped */
static uint32_t released;          /* the tasks that have one */

/* A release is skipped if it comes sooner than the spacing after the last one, or if another one of its task goes on waiting; and only then. */
static void compare_skipped(const gateway_view *before, const gateway_answer *answer, uint32_t set)
{
    uint32_t done = answer->done ? UINT32_C(1) << answer->job.task : 0;
    uint32_t soon = 0;
    for (unsigned task = 0; task < TASKS; task++) {
        if ((set & released) >> task & 1 && core.now - last_of[task] < spacing_of[task]) {
            soon |= UINT32_C(1) << task;
            came_too_soon++;
        }
    }
    must(answer->skipped == (soon | (set & before->waiting & ~done)), "other releases are skipped than those that come too soon or find one waiting");
    for (unsigned task = 0; task < TASKS; task++) {
        if ((set & ~answer->skipped) >> task & 1) {
            last_of[task] = core.now;
        }
    }
    released |= set & ~answer->skipped;
}

/* ---- Random rounds */

static uint64_t state;

static uint32_t below(uint32_t most)
{
    state ^= state << 13;
    state ^= state >> 7;
    state ^= state << 17;
    return (uint32_t)((state >> 11) % most);
}

/* Task entries of some tasks, with priorities in any order, all different or few that many share; their set. */
static uint32_t make_tasks(uint8_t *entries, unsigned count, uint32_t longest)
{
    uint32_t set = 0;
    uint8_t *e = entries;
    unsigned step = 2 * below(64) + 1;
    unsigned levels = below(3) == 0 ? 256 : 1 + below(4);
    for (unsigned i = 0; i < count; i++, e += 16) {
        unsigned task = i;
        const uint32_t length[3] = {1 + below(longest), 1 + below(longest), 1 + below(longest)};
        e[0] = 1;
        e[1] = (uint8_t)task;
        e[2] = (uint8_t)(task * step % 256 % levels); /* of 256 all are different: the step is odd */
        e[3] = (uint8_t)below(2);
        for (unsigned byte = 0; byte < 12; byte++) {
            e[4 + byte] = (uint8_t)(length[byte / 4] >> 8 * (byte % 4));
        }
        length_of[task].copy_in = length[0];
        length_of[task].execution = length[1];
        length_of[task].copy_out = length[2];
        set |= UINT32_C(1) << task;
    }
    return set;
}

/* Behind them spacings of some of the tasks; their length. */
static size_t make_spacings(uint8_t *entries, unsigned count, uint32_t longest)
{
    uint8_t *e = entries;
    memset(spacing_of, 0, sizeof spacing_of);
    if (below(2) == 0) {
        return 0;
    }
    for (unsigned task = 0; task < count; task++) {
        if (below(3) > 0) {
            uint32_t ticks = spacing_of[task] = 1 + below(8 * longest);
            e[0] = 3;
            e[1] = (uint8_t)task;
            for (unsigned byte = 0; byte < 4; byte++) {
                e[2 + byte] = (uint8_t)(ticks >> 8 * byte);
            }
            e += 6;
        }
    }
    return (size_t)(e - entries);
}

/* What an instant would do, with nothing of the dispatcher changed; its ticket. */
static uint64_t look(const gateway_dispatcher *d, uint64_t now, uint32_t set, gateway_answer *answer, gateway_view *next)
{
    gateway_dispatcher before = *d;
    uint64_t ticket;
    memset(answer, 0, sizeof *answer);
    memset(next, 0, sizeof *next);
    must(gateway_enquire(d, now, set, answer, next, &ticket) == GATEWAY_SERVED, "an enquiry is refused");
    must(memcmp(d, &before, sizeof before) == 0, "an enquiry has changed the dispatcher");
    return ticket;
}

/* A mark call on some task or on several, refused where one is busy; whether it was served. */
static bool change_marks(gateway_dispatcher *d, unsigned count)
{
    unsigned task = below(count);
    uint8_t mark = (uint8_t)below(2);
    if (below(2) == 0) {
        return gateway_mark(d, (uint8_t)task, mark) == GATEWAY_SERVED;
    }
    gateway_view view;
    gateway_now(d, &view);
    uint32_t named = below(UINT32_MAX) & (UINT32_MAX >> (32 - count)), busy = view.pending | view.waiting;
    uint8_t number = gateway_marks(d, named, mark);
    must(number == ((named & busy) != 0 ? GATEWAY_TASK_BUSY : GATEWAY_SERVED), "marks are refused where no task is busy, or served where one is");
    return number == GATEWAY_SERVED;
}

/* The commit of what was shown and commanded: it tells what the enquiry told, and what goes on is what it showed. */
static void commit(gateway_dispatcher *d, uint64_t ticket, uint64_t now, uint32_t set, const gateway_answer *shown, const gateway_view *next)
{
    gateway_answer answer;
    gateway_view after;
    memset(&answer, 0, sizeof answer);
    memset(&after, 0, sizeof after);
    must(gateway_commit(d, ticket, now, set, &answer) == GATEWAY_SERVED, "a commit is refused");
    gateway_now(d, &after);
    must(memcmp(&answer, shown, sizeof answer) == 0 && memcmp(&after, next, sizeof after) == 0, "a commit does something else than its enquiry showed");
}

/* One instant, looked at, commanded and committed; whether there is a due time, and when. Where a mark changes after the look, the ticket is old, and it looks
 * again. */
static bool call(gateway_dispatcher *d, unsigned count, uint64_t now, uint32_t set, uint32_t *owed, uint64_t *due)
{
    gateway_view before, after;
    gateway_answer answer;
    gateway_now(d, &before);
    pass(now);
    uint64_t ticket = look(d, now, set, &answer, &after);
    if (below(4) == 0 && change_marks(d, count)) {
        gateway_answer none;
        must(gateway_commit(d, ticket, now, set, &none) == GATEWAY_OLD_TICKET, "a commit by an old ticket is not refused by 20");
        ticket = look(d, now, set, &answer, &after);
        looked_again++;
    }
    command_hardware(&before, &after, now);
    commit(d, ticket, now, set, &answer, &after);
    compare(&after, &answer);
    compare_skipped(&before, &answer, set);
    for (uint32_t rest = set & ~answer.skipped; rest != 0; rest &= rest - 1) {
        ++*owed;
    }
    *owed -= answer.done;
    *due = answer.due;
    return answer.is_due == 1;
}

/* One round: releases at random ticks, with mark calls between them, until nothing is due. */
static void play(void)
{
    static uint8_t entries[GATEWAY_LONGEST_OPENING];
    static gateway_dispatcher d;
    unsigned count = 1 + below(8) + (below(8) == 0 ? 24u : 0u);
    uint32_t longest = below(16) == 0 ? 1000000 : 2 + below(8);
    uint32_t all = make_tasks(entries, count, longest);
    size_t tasks = (size_t)16 * count, length = tasks + make_spacings(entries + tasks, count, longest);
    uint32_t left = 20 + below(100), owed = 0, gap = 1 + below(3 * longest);
    uint64_t next = below(gap), due = 0;
    size_t place;
    bool is_due = false;
    memset(&core, 0, sizeof core);
    released = 0;
    must(gateway_open(entries, length, &d, &place) == GATEWAY_SERVED, "the tasks are refused");
    while (left > 0 || is_due) {
        bool releases = left > 0 && (!is_due || next <= due);
        uint64_t now = releases ? next : due;
        uint32_t set = releases ? all & (UINT32_C(1) << below(count) | (below(4) == 0 ? below(UINT32_MAX) : 0)) : 0;
        if (releases) {
            left--;
            next += 1 + below(gap);
        }
        is_due = call(&d, count, now, set, &owed, &due);
    }
    must(owed == 0, "a release that was taken or waited came to no job");
}

static command by_name(const char *name)
{
    static const char *const names[] = {"", "copy-in", "break-off", "copy-out", "run", "copy-in-and-run", "again"};
    for (int i = COPY_IN; i <= AGAIN; i++) {
        if (strcmp(name, names[i]) == 0) {
            return (command)i;
        }
    }
    return NONE;
}

int main(int argc, char **argv)
{
    long rounds = argc < 3 ? 0 : strtol(argv[1], NULL, 10);
    left_out = argc < 4 ? NONE : by_name(argv[3]);
    if (rounds <= 0 || argc > 4 || (argc == 4 && left_out == NONE)) {
        fprintf(stderr, "usage: hardware ROUNDS SEED [copy-in | break-off | copy-out | run | copy-in-and-run | again]\n");
        return 2;
    }
    state = strtoull(argv[2], NULL, 10) * 2 + 88172645463325253u;
    for (long round = 0; round < rounds; round++) {
        play();
    }
    printf("%ld rounds: %lu copy-ins, %lu broken off, %lu of them begun again at once, %lu thrown out, %lu by the processor, %lu jobs, %lu releases too "
           "soon, %lu times looked again, no fault\n",
           rounds, copies_in, broken_off, begun_again, thrown_out, promoted, jobs, came_too_soon, looked_again);
    return 0;
}
