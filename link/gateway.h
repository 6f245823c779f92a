/* The gateway's dispatcher for C: the record of a whole file, the reading of a stored record, the waveform of a whole file, and a dispatcher by
 * instants. Link with libgateway.a, for x86-64. docs/DRIVER.md is the page for those who write a driver. */
#ifndef GATEWAY_H
#define GATEWAY_H

#include <stddef.h>
#include <stdint.h>
#include <string.h>

/* Of this header, the library, the pkg-config file and the Rust package: it stands here, and the others are held to it. */
#define GATEWAY_VERSION "0.8.0"

/* It has enquiries and commits by tickets: gateway_enquire, gateway_commit. */
#define GATEWAY_TICKETS 1

/* It has marks for a set of tasks: gateway_marks. */
#define GATEWAY_MARKS 1

#ifdef __cplusplus
extern "C" {
#endif

/* ---- Names for what the numbers mean. */

#define GATEWAY_NO_TASK UINT8_C(255)

/* The last tick at which a release is taken: GATEWAY_PAST_LAST_TICK behind it. */
#define GATEWAY_LAST_TICK UINT64_C(1000000000)

/* The most bytes that open a dispatcher: of 32 tasks an entry of 16 bytes and a spacing of 6 each. */
#define GATEWAY_LONGEST_OPENING 704

/* What a call answers: served, or the refusal. */
enum {
    GATEWAY_SERVED = 0,
    GATEWAY_CUT_SHORT = 1,
    GATEWAY_OTHER_KIND = 2,
    GATEWAY_TASK_AFTER_RELEASE = 3, /* or a spacing after one, or a task after a spacing */
    GATEWAY_BAD_TASK = 4,
    GATEWAY_SAME_PRIORITY = 5, /* no longer answered: tasks may have one priority. The number is kept free */
    GATEWAY_BAD_MARK = 6,
    GATEWAY_BAD_LENGTH = 7,
    GATEWAY_RELEASE_OF_NO_TASK = 8, /* or a spacing */
    GATEWAY_RELEASE_NOT_AFTER = 9,
    GATEWAY_PAST_LAST_TICK = 10,
    GATEWAY_TOO_MANY_RELEASES = 11,
    GATEWAY_NO_ENTRY = 12,
    GATEWAY_TOO_SHORT = 13,
    GATEWAY_INSTANT_NOT_AFTER = 14,
    GATEWAY_DUE_TIME_MISSED = 15,
    GATEWAY_UNKNOWN_TASK = 16,
    GATEWAY_TASK_BUSY = 17,
    GATEWAY_NO_LIST = 18,
    GATEWAY_BAD_SPACING = 19,
    GATEWAY_OLD_TICKET = 20
};

/* `work` of an interval and of a view. */
enum { GATEWAY_IDLE = 0, GATEWAY_EXECUTE = 1, GATEWAY_COPY_IN_AND_EXECUTE = 2 };

/* `fate` of an interval's copy-in. */
enum { GATEWAY_NO_COPY_IN = 0, GATEWAY_COPIED_IN = 1, GATEWAY_CANCELLED = 2, GATEWAY_THROWN_OUT = 3 };

/* `closed` of an answer: whether an interval ended, and on which side of the instant's releases. */
enum { GATEWAY_NONE_CLOSED = 0, GATEWAY_CLOSED_BEFORE_RELEASES = 1, GATEWAY_CLOSED_AFTER_RELEASES = 2 };

/* A refusal in words. */
static inline const char *gateway_refusal_text(uint8_t number)
{
    switch (number) {
    case GATEWAY_SERVED: return "it is not refused";
    case GATEWAY_CUT_SHORT: return "an entry is cut short";
    case GATEWAY_OTHER_KIND: return "an entry of a kind that does not belong there";
    case GATEWAY_TASK_AFTER_RELEASE: return "a task or a spacing after a release, or a task after a spacing";
    case GATEWAY_BAD_TASK: return "a task number over 31 or given before";
    case GATEWAY_SAME_PRIORITY: return "a priority given before, which is no longer refused";
    case GATEWAY_BAD_MARK: return "a mark over 1";
    case GATEWAY_BAD_LENGTH: return "a length outside 1 to 1,000,000";
    case GATEWAY_RELEASE_OF_NO_TASK: return "a release or a spacing of a task that is not in the table";
    case GATEWAY_RELEASE_NOT_AFTER: return "a release that is not after the one before";
    case GATEWAY_PAST_LAST_TICK: return "a release time over 1,000,000,000";
    case GATEWAY_TOO_MANY_RELEASES: return "a 4,097th release";
    case GATEWAY_NO_ENTRY: return "there is no entry";
    case GATEWAY_TOO_SHORT: return "the slice that is lent is too short";
    case GATEWAY_INSTANT_NOT_AFTER: return "an instant that is not after the last";
    case GATEWAY_DUE_TIME_MISSED: return "a phase ends before the instant";
    case GATEWAY_UNKNOWN_TASK: return "a task that is not in the table";
    case GATEWAY_TASK_BUSY: return "a mark change while a job is pending or a release waits";
    case GATEWAY_NO_LIST: return "no list of releases of these tasks makes this record";
    case GATEWAY_BAD_SPACING: return "a spacing outside 1 to 1,000,000,000, or a second one for a task";
    case GATEWAY_OLD_TICKET: return "a ticket that is not the present one";
    default: return "no refusal has this number";
    }
}

/* ---- The record of a whole file, the reading of one, and the waveform of a whole file.
 *
 * Each writes what was asked for into the front of `out`.
 *
 * It answers 0 where that was written; *told is then its length, and what stands behind it in `out` is as it was.
 * It answers 13 where `out` is too short; *told is then the length needed.
 * It answers another number where what it was handed is refused; *told is then the place of the refused entry, or 0 where
 * the refusal has no place. docs/FORMATS.md lists the numbers. On a refusal, 13 among them, `out` is as it was.
 *
 * Nothing is asked of the bytes. Each pointer points to as many bytes as the length behind it says, and `told` to a size_t;
 * none is null, not even at length 0, and neither `out` nor `told` overlaps another of them. */

/* The record of an input: what happens as its releases are served, entry by entry. */
uint8_t gateway_record(const uint8_t *input, size_t input_length, uint8_t *out, size_t out_length, size_t *told);

/* The release entries that made a record, from the task entries, with the spacings behind them, and the record: the only list that yields these
 * bytes, or the answer 18 where none does. The entries in `tasks` are checked first; the place of a refused one counts from the start of
 * `tasks`, that of an entry of the record from the start of `record`. A list takes at most 40,960 bytes. */
uint8_t gateway_read(const uint8_t *tasks, size_t tasks_length, const uint8_t *record, size_t record_length, uint8_t *out,
                     size_t out_length, size_t *told);

/* The waveform of an input, a value change dump (IEEE 1364) for a viewer of waves: the task on the processor, the tasks that the copy engine
 * copies in and out, and the processor's half, at every tick of the run. docs/WAVEFORM.md names the waves. Nothing as long as a dump is
 * kept: the run is made once for the length, and once more where `out` has room for it. */
uint8_t gateway_waveform(const uint8_t *input, size_t input_length, uint8_t *out, size_t out_length, size_t *told);

/* ---- The dispatcher by instants: one for each core.
 *
 * A dispatcher is plain memory with no pointer in it: it is kept, copied and moved freely. Nothing is asked of what it holds: memory that
 * no call made gets an answer too. Each call answers 0, or the number of a refusal (docs/FORMATS.md lists them); one that is refused leaves
 * *d and *answer as they were. The pointers are not null, and what they point to does not overlap. Calls on one dispatcher come one after
 * the other; calls on different ones may run at once, and so may enquiries and views of one dispatcher, which only read it, as long as no other
 * call on it runs beside them. */

/* The ticket, 7 times, of each task its last release and the release that waits, 8 sets, three lengths and the spacing of each task, 9 codes, of each task its
 * priority and the blocked intervals of its job. There is no gap between them. */
typedef struct {
    uint64_t ticket, times[7], release[32], waits[32];
    uint32_t sets[8], columns[128];
    uint8_t codes[9], priority[32], blocked[32], unused[7];
} gateway_dispatcher;

/* A job that is done. `release` is the time at which its release was handed in, also where that waited; `blocked` counts intervals from its taking. */
typedef struct {
    uint64_t release, start, completion;
    uint8_t task, blocked, unused[6];
} gateway_job;

/* GATEWAY_NO_TASK is nobody: of `task`, the processor's, `copied_out`, `chosen` and `promoted`. `work` is 0 idle, 1 execute, 2 copy in and execute;
 * `fate`, that of the copy-in, 0 none, 1 done, 2 cancelled under way, 3 done and then thrown out. */
typedef struct {
    uint64_t begin, end;
    uint8_t half, task, work, copied_out, chosen, fate, promoted, unused;
} gateway_interval;

/* What an instant tells, and what an enquiry tells of one. Where `done`, `closed` or `is_due` is 0, `job`, `interval` or `due` is as it was. */
typedef struct {
    uint64_t due;
    uint32_t skipped; /* the set of tasks whose release was skipped now, since it came too soon or one of theirs waits: bit n stands for task n */
    uint8_t done;     /* 1: job is filled in */
    uint8_t closed;   /* 0 none; interval is filled in: 1 it ended before the releases, 2 after them */
    uint8_t is_due;   /* 1: due is the next due time */
    uint8_t unused;
    gateway_job job;
    gateway_interval interval;
} gateway_answer;

/* The library tells an answer as so many numbers: gateway_put_answer puts them into their places. */
#define GATEWAY_ANSWER_WORDS 19

/* What goes on now: what the processor and the engine do, with whom and until when. Where nobody is named the end is 0; where no interval is open
 * `begin` is 0 and `work` idle. `half` is the processor's, 0 before the first interval, and the engine has the other one. */
typedef struct {
    uint64_t begin;                                          /* of the open interval */
    uint64_t processor_until, copy_in_until, copy_out_until; /* the end of the phase under way */
    uint32_t pending, waiting, marked;                       /* sets of tasks: with a job, with a release that waits, latency-sensitive */
    uint8_t is_open;                                         /* 1: an interval is open */
    uint8_t work;                                            /* of the open interval */
    uint8_t processor;                                       /* the task on the processor, from the interval's begin until its work has ended */
    uint8_t copy_in, copy_out;                               /* the task being copied in and out by the engine */
    uint8_t half;
} gateway_view;

#if defined(__cplusplus)
#define GATEWAY_ASSERT(fact, text) static_assert(fact, text)
#elif __STDC_VERSION__ >= 201112L
#define GATEWAY_ASSERT(fact, text) _Static_assert(fact, text)
#else
#define GATEWAY_ASSERT(fact, text) extern int gateway_assertion[(fact) ? 1 : -1]
#endif
GATEWAY_ASSERT(sizeof(gateway_dispatcher) == 1200, "a dispatcher has no gap");
GATEWAY_ASSERT(offsetof(gateway_dispatcher, sets) == 576 && offsetof(gateway_dispatcher, codes) == 1120, "a dispatcher's arrays stand one behind the other");
GATEWAY_ASSERT(sizeof(gateway_answer) == 72, "an answer has no gap");
/* A view is lent as 4 ticks, 3 sets and 6 bytes, each kind one behind the other: a copy would take as long as the call. */
GATEWAY_ASSERT(offsetof(gateway_view, copy_out_until) == 24 && offsetof(gateway_view, pending) == 32, "a view's ticks have no gap");
GATEWAY_ASSERT(offsetof(gateway_view, marked) == 40 && offsetof(gateway_view, is_open) == 44, "a view's sets have no gap");
GATEWAY_ASSERT(offsetof(gateway_view, half) == 49 && sizeof(gateway_view) == 56, "a view's bytes have no gap");

/* What is exported lends each array of a dispatcher by itself. The functions below find them. The names carry the version of the layout, of what a
 * dispatcher keeps and what an answer tells: a program with the header of another layout is not linked. */
uint8_t gateway_open_v5(const uint8_t *entries, size_t length, uint64_t *times, uint32_t *sets, uint8_t *codes, uint8_t *priority,
                        uint32_t *columns, uint64_t *release, uint8_t *blocked, uint64_t *waits, uint64_t *ticket, size_t *place);
uint8_t gateway_instant_v5(uint64_t time, uint32_t set, uint64_t *times, uint32_t *sets, uint8_t *codes, uint64_t *told,
                           const uint8_t *priority, const uint32_t *columns, uint64_t *release, uint8_t *blocked, uint64_t *waits,
                           uint64_t *ticket);
uint8_t gateway_commit_v5(uint64_t time, uint32_t set, uint64_t *times, uint32_t *sets, uint8_t *codes, uint64_t *told,
                          const uint8_t *priority, const uint32_t *columns, uint64_t *release, uint8_t *blocked, uint64_t *waits,
                          uint64_t *ticket, uint64_t given);
uint8_t gateway_enquire_v5(uint64_t time, uint32_t set, const uint64_t *times, const uint32_t *sets, const uint8_t *codes, uint64_t *told,
                           const uint8_t *priority, const uint32_t *columns, const uint64_t *release, const uint8_t *blocked,
                           const uint64_t *waits, const uint64_t *ticket, uint64_t *given, uint64_t *ticks, uint32_t *tasks, uint8_t *units);
uint8_t gateway_mark_v5(uint32_t *sets, uint64_t *ticket, uint8_t task, uint8_t mark);
uint8_t gateway_marks_v5(uint32_t *sets, uint64_t *ticket, uint32_t set, uint8_t mark);
uint64_t gateway_longest_interval_v5(const uint32_t *sets, const uint32_t *columns);
uint64_t gateway_completes_after_v5(const uint32_t *sets, const uint32_t *columns, uint8_t task, uint32_t h);
void gateway_now_v5(const uint64_t *times, const uint32_t *sets, const uint8_t *codes, uint64_t *ticks, uint32_t *tasks, uint8_t *units);

/* Opens a dispatcher from `length` bytes: task entries, and behind them the spacings, where tasks have some. *place is the place of the entry that is
 * refused, and 0 where there is none. */
static inline uint8_t gateway_open(const uint8_t *entries, size_t length, gateway_dispatcher *d, size_t *place)
{
    uint8_t number = gateway_open_v5(entries, length, d->times, d->sets, d->codes, d->priority, d->columns, d->release, d->blocked, d->waits, &d->ticket,
                                     place);
    if (number == 0) {
        memset(d->unused, 0, sizeof d->unused); /* so that every byte of it is written, and two can be compared */
    }
    return number;
}

/* What is told put into the places of an answer. */
static inline void gateway_put_answer(const uint64_t *told, gateway_answer *answer)
{
    answer->skipped = (uint32_t)told[1];
    answer->done = (uint8_t)told[2];
    answer->closed = (uint8_t)told[3];
    answer->is_due = (uint8_t)told[4];
    if (answer->is_due) {
        answer->due = told[0];
    }
    if (answer->done) {
        gateway_job job = {told[5], told[6], told[7], (uint8_t)told[8], (uint8_t)told[9], {0}};
        answer->job = job;
    }
    if (answer->closed) {
        /* nobody is told as a number whose lowest byte is GATEWAY_NO_TASK */
        gateway_interval interval = {told[10],          told[11],          (uint8_t)told[12], (uint8_t)told[13], (uint8_t)told[14],
                                     (uint8_t)told[15], (uint8_t)told[16], (uint8_t)told[17], (uint8_t)told[18], 0};
        answer->interval = interval;
    }
}

/* An instant: the releases of the set at the time. It is to be called at every release and at every due time: 15 otherwise. Of a task that has a
 * pending job one release waits, and is taken at the instant at which that job is done, before the releases of that instant. Of a task with a spacing
 * a release that comes sooner than that after the last one taken or set waiting is skipped before anything else is asked of it.
 *
 * Phases are counted from the time that is handed in and not from the call: a task's lengths must include how late the driver may be. Ticks are
 * counted from the opening, and releases behind GATEWAY_LAST_TICK are refused; an empty set is served at any time, so that one empty call far in the future
 * ends the count. A new dispatcher can take over only where nothing is due. So a driver chooses its tick long enough, and late in a count it holds
 * releases back until then, as link/driver.c does. A new one knows no last release: whether the first one of a task that has a spacing comes too soon
 * after one that its predecessor served is for the driver to say (gateway_spacing).
 *
 * It is an enquiry and its commit in one, and served it raises the ticket by one. */
static inline uint8_t gateway_instant(gateway_dispatcher *d, uint64_t time, uint32_t set, gateway_answer *answer)
{
    uint64_t told[GATEWAY_ANSWER_WORDS];
    uint8_t number =
        gateway_instant_v5(time, set, d->times, d->sets, d->codes, told, d->priority, d->columns, d->release, d->blocked, d->waits, &d->ticket);
    if (number == 0) {
        gateway_put_answer(told, answer);
    }
    return number;
}

/* Look first, then act. An enquiry answers what an instant with this time and set would: its refusals, or what would occur, with *next what would go on
 * after it, as gateway_now would show it then, and *ticket the present ticket. Nothing changes: *d is only read, so that several enquiries of one dispatcher
 * may run at once; one that is refused leaves *answer, *next and *ticket as they were. A driver programs its hardware by *next, and then commits. */
static inline uint8_t gateway_enquire(const gateway_dispatcher *d, uint64_t time, uint32_t set, gateway_answer *answer, gateway_view *next, uint64_t *ticket)
{
    uint64_t told[GATEWAY_ANSWER_WORDS];
    uint8_t number = gateway_enquire_v5(time, set, d->times, d->sets, d->codes, told, d->priority, d->columns, d->release, d->blocked, d->waits,
                                        &d->ticket, ticket, &next->begin, &next->pending, &next->is_open);
    if (number == 0) {
        gateway_put_answer(told, answer);
    }
    return number;
}

/* Does what an enquiry with this time and set showed, by the ticket that it gave: 20 where another commit, instant or mark call was served since then, and
 * otherwise exactly the instant, its refusals too. The ticket is the number of commits and mark calls that were served since the opening, instants among the
 * commits, modulo 2 to the 64th: so long it tells one state of the dispatcher from every other. With another time or set it does what that instant would. */
static inline uint8_t gateway_commit(gateway_dispatcher *d, uint64_t ticket, uint64_t time, uint32_t set, gateway_answer *answer)
{
    uint64_t told[GATEWAY_ANSWER_WORDS];
    uint8_t number =
        gateway_commit_v5(time, set, d->times, d->sets, d->codes, told, d->priority, d->columns, d->release, d->blocked, d->waits, &d->ticket, ticket);
    if (number == 0) {
        gateway_put_answer(told, answer);
    }
    return number;
}

/* The spacing of a task, 0 where it has none or is not in the table. */
static inline uint32_t gateway_spacing(const gateway_dispatcher *d, uint8_t task)
{
    return task < 32 ? d->columns[96 + task] : 0;
}

/* Changes a task's mark from now on, while it has no pending job and no release that waits: 1 latency-sensitive, 0 not. Served, it raises the ticket by
 * one: what was shown before can no longer be committed. */
static inline uint8_t gateway_mark(gateway_dispatcher *d, uint8_t task, uint8_t mark)
{
    return gateway_mark_v5(d->sets, &d->ticket, task, mark);
}

/* Changes the marks of all tasks of a set at once, from now on: 16 where the set names a task that is not in the table, 6 where the mark is over 1, 17 where
 * one of the tasks has a pending job or a release that waits, in this order, and then none changes. Otherwise it is as if each were changed by itself, in any
 * order, but that the ticket rises by one; also where the set is empty. */
static inline uint8_t gateway_marks(gateway_dispatcher *d, uint32_t set, uint8_t mark)
{
    return gateway_marks_v5(d->sets, &d->ticket, set, mark);
}

/* What goes on now. A driver commands its hardware by the views before and after a call: `b` and `a`, and `t` the time of the call. It has both before it
 * commits: the first of gateway_now, the second of the enquiry. In this order:
 *
 *     begins = a.is_open && !(b.is_open && b.begin == a.begin);
 *     goes_on = b.copy_in == a.copy_in && b.copy_in_until == a.copy_in_until;
 *     if (b.copy_in != GATEWAY_NO_TASK && b.copy_in_until > t && !goes_on) break off the copy-in of b.copy_in into half 1 - b.half
 *     if (begins && a.copy_out != GATEWAY_NO_TASK)                         copy a.copy_out out of half 1 - a.half, until a.copy_out_until
 *     if (a.copy_in != GATEWAY_NO_TASK && !goes_on)                        copy a.copy_in into half 1 - a.half, until a.copy_in_until
 *     if (begins && a.work == GATEWAY_EXECUTE)                             run a.processor in half a.half, until a.processor_until
 *     if (begins && a.work == GATEWAY_COPY_IN_AND_EXECUTE)                 the processor copies a.processor into half a.half and then runs it
 *
 * The end of a copy tells it from another one of the same task: in one instant a copy can be broken off and the same task's copy begin again. The
 * processor's own copy-in ends at a.processor_until, and a view from then on has the end of the run. What was copied in and is not run in the interval that
 * begins next was thrown out: nothing is to be done, and it is copied in again. Copies out and runs are never broken off. link/hardware.c does all
 * this and checks it. */
static inline void gateway_now(const gateway_dispatcher *d, gateway_view *view)
{
    gateway_now_v5(d->times, d->sets, d->codes, &view->begin, &view->pending, &view->is_open);
}

/* A figure to plan on. No interval lasts longer than this many ticks: the larger of the table's greatest L + C and the sum of its greatest L and its
 * greatest U. */
static inline uint64_t gateway_longest_interval(const gateway_dispatcher *d)
{
    return gateway_longest_interval_v5(d->sets, d->columns);
}

/* And a job of the task is done at most this many ticks after it was taken, where h other jobs that are not lower in priority execute between its taking and
 * its own execution: h + 3 such intervals, h + 2 for a task that is latency-sensitive, as it is marked now, and its own U. A release that waits is taken at
 * the instant at which its task's job is done. Of a number that is no task of the table the answer means nothing. */
static inline uint64_t gateway_completes_after(const gateway_dispatcher *d, uint8_t task, uint32_t h)
{
    return gateway_completes_after_v5(d->sets, d->columns, task, h);
}

#ifdef __cplusplus
}
#endif

#endif
