/* Calls on memory that no call made: any bytes get an answer and no fault, the same one from the same bytes, nothing beside what is lent changes, a
 * refused call and an enquiry change nothing, and a commit does what its enquiry showed. Prints how many calls were served. */
#include "gateway.h"

#include <stdio.h>
#include <stdlib.h>
#include <string.h>

static uint64_t state = 88172645463325252u;

static uint64_t random_word(void)
{
    state ^= state << 13;
    state ^= state >> 7;
    state ^= state << 17;
    return state;
}

/* Mostly small numbers, since states of large ones are refused at once. */
static void fill(void *memory, size_t size)
{
    uint8_t *bytes = memory;
    unsigned mask = random_word() % 3 ? 0x07 : 0xFF;
    for (size_t i = 0; i < size; i++) {
        bytes[i] = (uint8_t)(random_word() & mask);
    }
}

typedef struct {
    uint8_t before[64];
    gateway_dispatcher d;
    uint8_t between[64];
    gateway_answer answer;
    uint8_t behind[64];
    gateway_view view;
    uint64_t ticket;
    uint8_t last[64];
} memory;

static void hold(int good, const char *what)
{
    if (!good) {
        printf("%s\n", what);
        exit(1);
    }
}

/* The kinds of calls that are made in turn. */
enum { MARK, INSTANT, ENQUIRY, COMMIT, MARKS, KINDS };

/* What goes on, and then an instant, an enquiry, a commit by the ticket that is there or by another one, or a mark of a task or of a set. */
static uint8_t call(memory *m, int kind, uint64_t time, uint32_t set)
{
    if (kind == ENQUIRY) {
        return gateway_enquire(&m->d, time, set, &m->answer, &m->view, &m->ticket);
    }
    gateway_now(&m->d, &m->view);
    switch (kind) {
    case MARK: return gateway_mark(&m->d, (uint8_t)time, (uint8_t)set);
    case MARKS: return gateway_marks(&m->d, set, (uint8_t)(time % 3));
    case INSTANT: return gateway_instant(&m->d, time, set, &m->answer);
    default: return gateway_commit(&m->d, m->ticket, time, set, &m->answer);
    }
}

/* Marks for a set are refused by 16 or 6, or by 17 where one of the tasks has a pending job or a release that waits; else the set is marked or not. */
static void hold_marks(const memory *one, const memory *first, uint32_t set, uint8_t mark, uint8_t number)
{
    const uint32_t *sets = first->d.sets; /* marked, pending, .., present, waiting */
    uint8_t expected = (set & ~sets[4]) != 0 ? 16 : mark > 1 ? 6 : (set & (sets[1] | sets[5])) != 0 ? 17 : 0;
    hold(number == expected, "marks for a set are refused by another number");
    hold(number != 0 || one->d.sets[0] == (mark == 1 ? sets[0] | set : sets[0] & ~set), "marks for a set leave other marks");
}

/* What an enquiry shows is what a commit by its ticket does, and it changes no byte of the dispatcher. */
static void hold_enquiry(const memory *enquired, const memory *first, uint64_t time, uint32_t set)
{
    static memory committed;
    memcpy(&committed, first, sizeof committed);
    hold(memcmp(&enquired->d, &first->d, sizeof first->d) == 0, "an enquiry has changed the dispatcher");
    hold(enquired->ticket == first->d.ticket, "an enquiry gives another ticket than the present one");
    hold(gateway_commit(&committed.d, enquired->ticket, time, set, &committed.answer) == 0, "a commit is refused of which an enquiry was served");
    gateway_now(&committed.d, &committed.view);
    hold(memcmp(&committed.answer, &enquired->answer, sizeof committed.answer) == 0 && memcmp(&committed.view, &enquired->view, sizeof committed.view) == 0,
         "a commit does something else than its enquiry showed");
}

/* Opened over any two memories, a dispatcher has the same bytes. */
static void open_over_any(void)
{
    static const uint8_t entries[22] = {1, 5, 9, 1, 2, 0, 0, 0, 3, 0, 0, 0, 4, 0, 0, 0, 3, 5, 7, 0, 0, 0};
    static gateway_dispatcher one, other;
    size_t place;
    memset(&one, 0x5A, sizeof one);
    memset(&other, 0xA5, sizeof other);
    hold(gateway_open(entries, sizeof entries, &one, &place) == GATEWAY_SERVED &&
             gateway_open(entries, sizeof entries, &other, &place) == GATEWAY_SERVED,
         "a task with a spacing is refused");
    hold(memcmp(&one, &other, sizeof one) == 0, "a byte of an opened dispatcher is not written");
}

int main(void)
{
    static memory first, one, other;
    open_over_any();
    unsigned long served[KINDS] = {0}, all = 0;
    for (int round = 0; round < 200000; round++) {
        fill(&first, sizeof first);
        int kind = round % KINDS;
        first.ticket = random_word() % 3 ? first.d.ticket : first.ticket;
        uint64_t shift = random_word() % 64;
        uint64_t time = random_word() >> shift;
        uint32_t set = (uint32_t)random_word() & first.d.sets[4]; /* of the tasks that there are */
        set = random_word() % 2 ? 0 : set;
        memcpy(&one, &first, sizeof first);
        memcpy(&other, &first, sizeof first);
        uint8_t number = call(&one, kind, time, set);
        hold(number == call(&other, kind, time, set) && memcmp(&one, &other, sizeof one) == 0, "the same bytes get two answers");
        hold(memcmp(one.before, first.before, 64) == 0 && memcmp(one.between, first.between, 64) == 0 && memcmp(one.behind, first.behind, 64) == 0 &&
                 memcmp(one.last, first.last, 64) == 0,
             "memory beside the dispatcher, the answer and the view has changed");
        hold(number == 0 || (memcmp(&one, &first, offsetof(memory, view)) == 0 && one.ticket == first.ticket), "a refused call or a view has changed memory");
        hold(number == 0 || number == 6 || number == 10 || (number >= 14 && number <= 17) || number == 20, "a number that there is not");
        hold(number != 20 || (kind == COMMIT && first.ticket != first.d.ticket), "a ticket is refused that is the present one");
        if (kind == MARKS) {
            hold_marks(&one, &first, set, (uint8_t)(time % 3), number);
        }
        if (kind == ENQUIRY && number == 0) {
            hold_enquiry(&one, &first, time, set);
        } else if (kind == ENQUIRY) {
            hold(memcmp(&one, &first, sizeof one) == 0, "a refused enquiry has changed memory");
        } else {
            hold(one.d.ticket == first.d.ticket + (number == 0), "a served call does not raise the ticket by one, or a refused one does");
            hold(one.view.is_open <= 1 && one.view.half <= 1 && one.view.pending == first.d.sets[1], "a view that no memory has");
        }
        served[kind] += number == 0;
    }
    for (int kind = 0; kind < KINDS; kind++) {
        hold(served[kind] > 250, "few calls of a kind are served");
        all += served[kind];
    }
    printf("%lu of 200000 served, %lu of them enquiries and %lu commits\n", all, served[ENQUIRY], served[COMMIT]);
    return 0;
}
