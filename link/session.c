/* What the program `session` does, over link/gateway.h alone: its input is 4 bytes, lowest first, with the length of the opening bytes; the opening
 * bytes; then call entries. It shows each call and its answer, and is compared with the simulator. */
#include "gateway.h"

#include <stdio.h>
#include <stdlib.h>
#include <string.h>

/* The kinds of call entries. */
enum { INSTANT = 64, MARK = 65, ENQUIRY = 66, COMMIT = 67, MARKS = 68 };

static uint64_t number_at(const uint8_t *bytes, int count)
{
    uint64_t value = 0;
    for (int i = count; i > 0; i--) {
        value = value << 8 | bytes[i - 1];
    }
    return value;
}

static void print_task(uint8_t task)
{
    if (task == 255) {
        printf(" -");
    } else {
        printf(" %u", task);
    }
}

/* What occurs: the job and the interval, then a line of a letter, the skipped set and the due time, which is left open. */
static void print_occurred(const gateway_answer *a, char letter)
{
    if (a->done) {
        printf("J %u %llu %llu %llu %u\n", a->job.task, (unsigned long long)a->job.release, (unsigned long long)a->job.start,
               (unsigned long long)a->job.completion, a->job.blocked);
    }
    if (a->closed) {
        const gateway_interval *i = &a->interval;
        printf("I %llu %llu %u", (unsigned long long)i->begin, (unsigned long long)i->end, i->half);
        print_task(i->task);
        printf(" %u", i->work);
        print_task(i->copied_out);
        print_task(i->chosen);
        printf(" %u", i->fate);
        print_task(i->promoted);
        printf("\n");
    }
    printf("%c %lu", letter, (unsigned long)a->skipped);
    if (a->is_due) {
        printf(" %llu", (unsigned long long)a->due);
    } else {
        printf(" -");
    }
}

/* A refused call is to leave everything as it was, and an enquiry the dispatcher: they are held to a copy. */
static void hold(const void *now, const void *before, size_t size)
{
    if (memcmp(now, before, size) != 0) {
        printf("a refused call or an enquiry has changed memory\n");
    }
}

/* An instant, or where a ticket is lent a commit. */
static void instant(gateway_dispatcher *d, gateway_answer *a, const uint64_t *ticket, uint64_t time, uint32_t set)
{
    gateway_dispatcher d_before = *d;
    gateway_answer a_before;
    memcpy(&a_before, a, sizeof a_before);
    uint8_t refused = ticket == NULL ? gateway_instant(d, time, set, a) : gateway_commit(d, *ticket, time, set, a);
    if (refused == 0) {
        print_occurred(a, 'A');
        printf("\n");
        return;
    }
    printf("R %u\n", refused);
    hold(d, &d_before, sizeof d_before);
    hold(a, &a_before, sizeof a_before);
}

/* What an enquiry fills in. Memory that no call wrote is the same in two of them. */
typedef struct {
    gateway_answer answer;
    gateway_view next;
    uint64_t ticket;
} shown;

static void fill(shown *s)
{
    memset(s, 0xA5, sizeof *s);
}

/* A commit in a copy of the dispatcher does what an enquiry showed, and raises the ticket by one. */
static void hold_to_commit(const gateway_dispatcher *d, uint64_t time, uint32_t set, const shown *enquired)
{
    gateway_dispatcher moved = *d;
    shown done;
    fill(&done);
    done.ticket = enquired->ticket;
    if (gateway_commit(&moved, enquired->ticket, time, set, &done.answer) != 0 || moved.ticket != enquired->ticket + 1) {
        printf("a commit with the ticket of an enquiry is refused, or raises the ticket by another number\n");
    }
    gateway_now(&moved, &done.next);
    if (memcmp(&done, enquired, sizeof done) != 0) {
        printf("a commit does something else than its enquiry showed\n");
    }
}

static void enquiry(const gateway_dispatcher *d, uint64_t time, uint32_t set)
{
    gateway_dispatcher before = *d;
    shown untouched, s;
    fill(&untouched);
    fill(&s);
    uint8_t refused = gateway_enquire(d, time, set, &s.answer, &s.next, &s.ticket);
    hold(d, &before, sizeof before);
    if (refused == 0) {
        print_occurred(&s.answer, 'E');
        printf(" %llu\n", (unsigned long long)s.ticket);
        hold_to_commit(d, time, set, &s);
        return;
    }
    printf("R %u\n", refused);
    hold(&s, &untouched, sizeof s);
}

/* A served mark call changes the marks of its tasks and the ticket, and nothing else. */
static void hold_marks(gateway_dispatcher before, const gateway_dispatcher *d, uint32_t set, uint8_t value)
{
    gateway_view b, a;
    gateway_now(&before, &b);
    gateway_now(d, &a);
    if (a.marked != (value == 1 ? b.marked | set : b.marked & ~set)) {
        printf("a mark call leaves other marks\n");
    }
    before.ticket++;
    memcpy(before.sets, d->sets, sizeof before.sets[0]); /* the marks are the first of the sets */
    if (memcmp(&before, d, sizeof before) != 0) {
        printf("a mark call has changed something else than marks\n");
    }
}

/* What a mark call answered, for the tasks of a set. */
static void marked(const gateway_dispatcher *before, const gateway_dispatcher *d, uint32_t set, uint8_t value, uint8_t refused)
{
    if (refused == 0) {
        printf("M\n");
        hold_marks(*before, d, set, value);
        return;
    }
    printf("R %u\n", refused);
    hold(d, before, sizeof *before);
}

static void mark(gateway_dispatcher *d, uint8_t task, uint8_t value)
{
    gateway_dispatcher before = *d;
    uint8_t refused = gateway_mark(d, task, value);
    marked(&before, d, UINT32_C(1) << (task & 31), value, refused);
}

static void marks(gateway_dispatcher *d, uint32_t set, uint8_t value)
{
    gateway_dispatcher before = *d;
    uint8_t refused = gateway_marks(d, set, value);
    marked(&before, d, set, value, refused);
}

/* The length of a call entry by its kind; 0 of another kind. */
static size_t size_of(uint8_t kind)
{
    switch (kind) {
    case INSTANT:
    case ENQUIRY: return 13;
    case MARK: return 3;
    case COMMIT: return 21;
    case MARKS: return 6;
    default: return 0;
    }
}

/* One call, by its entry. */
static void call(gateway_dispatcher *d, gateway_answer *answer, const uint8_t *entry)
{
    uint64_t ticket;
    switch (entry[0]) {
    case INSTANT: instant(d, answer, NULL, number_at(entry + 1, 8), (uint32_t)number_at(entry + 9, 4)); break;
    case MARK: mark(d, entry[1], entry[2]); break;
    case MARKS: marks(d, (uint32_t)number_at(entry + 1, 4), entry[5]); break;
    case ENQUIRY: enquiry(d, number_at(entry + 1, 8), (uint32_t)number_at(entry + 9, 4)); break;
    default:
        ticket = number_at(entry + 1, 8);
        instant(d, answer, &ticket, number_at(entry + 9, 8), (uint32_t)number_at(entry + 17, 4));
    }
}

/* The calls, each answered by a copy of the dispatcher in another place: it is plain memory. */
static void calls(gateway_dispatcher *d, const uint8_t *input, size_t length)
{
    gateway_answer answer;
    memset(&answer, 0xA5, sizeof answer);
    for (size_t at = 0; at < length;) {
        gateway_dispatcher moved = *d;
        size_t size = size_of(input[at]);
        if (size == 0 || size > length - at) {
            printf("X\n");
            return;
        }
        call(&moved, &answer, input + at);
        *d = moved;
        at += size;
    }
}

/* All of standard input, and its length; NULL where it cannot be had. */
static uint8_t *read_all(size_t *length)
{
    size_t room = 1 << 16, got;
    uint8_t *input = malloc(room);
    *length = 0;
    while (input != NULL && (got = fread(input + *length, 1, room - *length, stdin)) > 0) {
        *length += got;
        if (*length == room) {
            uint8_t *longer = realloc(input, room *= 2);
            if (longer == NULL) {
                free(input);
            }
            input = longer;
        }
    }
    if (input != NULL && ferror(stdin)) {
        free(input);
        input = NULL;
    }
    return input;
}

int main(void)
{
    size_t length;
    uint8_t *input = read_all(&length);
    if (input == NULL) {
        perror("the input");
        return 2;
    }
    uint64_t opening = length < 4 ? 0 : number_at(input, 4);
    if (length < 4 || length - 4 < opening) {
        printf("X\n");
        free(input);
        return 0;
    }
    gateway_dispatcher d, before;
    memset(&d, 0x5A, sizeof d);
    before = d;
    size_t place = 77;
    uint8_t refused = gateway_open(input + 4, opening, &d, &place);
    if (refused == 0) {
        printf("O\n");
        calls(&d, input + 4 + opening, length - 4 - opening);
    } else {
        printf("R %u %zu\n", refused, place);
        hold(&d, &before, sizeof before);
    }
    free(input);
    return 0;
}
