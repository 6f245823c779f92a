/* Enquiries and commits over link/gateway.h alone: what counts in the ticket, what is refused and in which order, and that a commit does what its enquiry
 * showed. Prints how many facts it held. */
#include "gateway.h"

#include <stdbool.h>
#include <stdio.h>
#include <stdlib.h>
#include <string.h>

#if !defined(GATEWAY_TICKETS) || !defined(GATEWAY_MARKS)
#error "the header has no tickets, or no marks for sets"
#endif

/* Task 5, which is done 9 ticks after a release that is taken at once, and task 6. */
#define TASK_5 1, 5, 9, 0, 2, 0, 0, 0, 3, 0, 0, 0, 4, 0, 0, 0
#define TASK_6 1, 6, 8, 1, 2, 0, 0, 0, 3, 0, 0, 0, 4, 0, 0, 0

static const uint32_t five = UINT32_C(1) << 5, six = UINT32_C(1) << 6, unknown = UINT32_C(1) << 7;
static unsigned long held;

static void hold(bool good, const char *what)
{
    if (!good) {
        printf("%s\n", what);
        exit(1);
    }
    held++;
}

static gateway_dispatcher opened(void)
{
    static const uint8_t entries[] = {TASK_5, TASK_6};
    gateway_dispatcher d;
    size_t place;
    memset(&d, 0x5A, sizeof d);
    hold(gateway_open(entries, sizeof entries, &d, &place) == GATEWAY_SERVED, "the tasks are refused");
    return d;
}

/* What an enquiry and a commit fill in. */
typedef struct {
    gateway_answer answer;
    gateway_view next;
    uint64_t ticket;
} shown;

static shown nothing(void)
{
    shown s;
    memset(&s, 0xA5, sizeof s);
    return s;
}

/* An enquiry answers the number; it leaves the dispatcher as it was, and where it is refused what it would fill in too. */
static shown look(const gateway_dispatcher *d, uint64_t time, uint32_t set, uint8_t number, const char *what)
{
    gateway_dispatcher before = *d;
    shown s = nothing(), untouched = nothing();
    hold(gateway_enquire(d, time, set, &s.answer, &s.next, &s.ticket) == number, what);
    hold(memcmp(d, &before, sizeof before) == 0, "an enquiry has changed the dispatcher");
    hold(number == GATEWAY_SERVED || memcmp(&s, &untouched, sizeof s) == 0, "a refused enquiry has changed memory");
    return s;
}

/* A commit answers the number; where it is refused nothing changes, and served it raises the ticket by one. */
static shown commit(gateway_dispatcher *d, uint64_t ticket, uint64_t time, uint32_t set, uint8_t number, const char *what)
{
    gateway_dispatcher before = *d;
    shown s = nothing(), untouched = nothing();
    hold(gateway_commit(d, ticket, time, set, &s.answer) == number, what);
    if (number == GATEWAY_SERVED) {
        gateway_now(d, &s.next);
        s.ticket = ticket;
        hold(d->ticket == before.ticket + 1, "a served commit raises the ticket by another number");
    } else {
        hold(memcmp(d, &before, sizeof before) == 0 && memcmp(&s, &untouched, sizeof s) == 0, "a refused commit has changed memory");
    }
    return s;
}

/* A release, looked at and committed on each due time until nothing is due. */
static void look_and_commit(void)
{
    gateway_dispatcher d = opened(), by_instants = opened();
    uint64_t time = 0;
    uint32_t set = five | six;
    for (bool is_due = true; is_due; set = 0) {
        shown enquired = look(&d, time, set, GATEWAY_SERVED, "an enquiry is refused"), old = nothing();
        shown again = look(&d, time, set, GATEWAY_SERVED, "a second enquiry is refused");
        hold(memcmp(&again, &enquired, sizeof again) == 0, "two enquiries show two things");
        shown done = commit(&d, enquired.ticket, time, set, GATEWAY_SERVED, "a commit by the ticket of its enquiry is refused");
        hold(memcmp(&done, &enquired, sizeof done) == 0, "a commit does something else than its enquiry showed");
        hold(gateway_instant(&by_instants, time, set, &old.answer) == GATEWAY_SERVED && memcmp(&old.answer, &done.answer, sizeof old.answer) == 0 &&
                 memcmp(&by_instants, &d, sizeof d) == 0,
             "an instant is something else than an enquiry and its commit");
        commit(&d, enquired.ticket, time + 1, 0, GATEWAY_OLD_TICKET, "a ticket is served twice");
        is_due = done.answer.is_due;
        time = done.answer.due;
    }
    hold(d.ticket > 6, "few instants were due");
}

/* 0 at opening; what is served raises it by one, and what is refused leaves it. */
static void counting(void)
{
    gateway_dispatcher d = opened();
    gateway_answer answer;
    hold(look(&d, 0, five, GATEWAY_SERVED, "an enquiry is refused").ticket == 0, "the first ticket is not 0");
    hold(gateway_instant(&d, 0, five, &answer) == GATEWAY_SERVED && d.ticket == 1, "an instant does not raise the ticket by one");
    hold(gateway_instant(&d, 0, 0, &answer) == GATEWAY_INSTANT_NOT_AFTER && d.ticket == 1, "a refused instant raises the ticket");
    hold(gateway_mark(&d, 6, 1) == GATEWAY_SERVED && d.ticket == 2, "a mark call does not raise the ticket by one, also where the mark stays");
    hold(gateway_mark(&d, 5, 1) == GATEWAY_TASK_BUSY && d.ticket == 2, "a refused mark call raises the ticket");
    hold(gateway_mark(&d, 6, 2) == GATEWAY_BAD_MARK && d.ticket == 2, "a refused mark call raises the ticket");
    hold(look(&d, 2, 0, GATEWAY_SERVED, "an enquiry is refused").ticket == 2, "an enquiry gives another ticket than the present one");
    commit(&d, 2, 2, 0, GATEWAY_SERVED, "a commit is refused");
    hold(d.ticket == 3, "a commit does not raise the ticket by one");
}

/* A call for a set counts once, also where it is empty. */
static void marks(void)
{
    gateway_dispatcher d = opened();
    gateway_answer answer;
    hold(gateway_marks(&d, five | six, 0) == GATEWAY_SERVED && d.ticket == 1, "marks for two tasks do not raise the ticket by one");
    hold(gateway_marks(&d, 0, 1) == GATEWAY_SERVED && d.ticket == 2, "marks for no task do not raise the ticket by one");
    hold(gateway_marks(&d, 0, 2) == GATEWAY_BAD_MARK && d.ticket == 2, "a bad mark for no task is served, or raises the ticket");
    hold(gateway_instant(&d, 0, five, &answer) == GATEWAY_SERVED, "an instant is refused");
    gateway_dispatcher before = d;
    hold(gateway_marks(&d, five | six, 1) == GATEWAY_TASK_BUSY, "marks change while one of the tasks has a job");
    hold(gateway_marks(&d, five | six, 2) == GATEWAY_BAD_MARK, "17 comes before 6");
    hold(gateway_marks(&d, five | unknown, 2) == GATEWAY_UNKNOWN_TASK, "6 comes before 16");
    hold(memcmp(&d, &before, sizeof d) == 0, "a refused call has changed the dispatcher");
    hold(gateway_marks(&d, six, 1) == GATEWAY_SERVED && d.ticket == 4, "the marks of a task that is free are refused");
    gateway_dispatcher single = before;
    hold(gateway_mark(&single, 6, 1) == GATEWAY_SERVED && memcmp(&single, &d, sizeof d) == 0, "marks for one task are something else than its mark");
    d.ticket = UINT64_MAX;
    hold(gateway_marks(&d, six, 0) == GATEWAY_SERVED && d.ticket == 0, "marks behind the last ticket");
}

/* A mark call makes a ticket old. */
static void marked_between(void)
{
    gateway_dispatcher d = opened();
    shown enquired = look(&d, 0, five, GATEWAY_SERVED, "an enquiry is refused");
    hold(gateway_mark(&d, 6, 0) == GATEWAY_SERVED, "a mark is refused");
    commit(&d, enquired.ticket, 0, five, GATEWAY_OLD_TICKET, "a ticket from before a mark call is served");
    shown again = look(&d, 0, five, GATEWAY_SERVED, "an enquiry is refused");
    hold(again.next.marked == 0 && enquired.next.marked == six, "an enquiry shows other marks");
    commit(&d, again.ticket, 0, five, GATEWAY_SERVED, "a commit is refused");
}

/* 20 before all that refuses an instant, which an enquiry has too. */
static void order(void)
{
    static const struct {
        uint64_t time;
        uint32_t set;
        uint8_t number;
    } cases[] = {{1, UINT32_C(1) << 7, GATEWAY_UNKNOWN_TASK},
                 {GATEWAY_LAST_TICK + 1, UINT32_C(1) << 5, GATEWAY_PAST_LAST_TICK},
                 {0, 0, GATEWAY_INSTANT_NOT_AFTER},
                 {3, 0, GATEWAY_DUE_TIME_MISSED}};
    static const uint64_t others[] = {0, 2, UINT64_C(1) << 32 | 1, UINT64_MAX};
    gateway_dispatcher d = opened();
    commit(&d, 0, 0, five, GATEWAY_SERVED, "a commit is refused");
    for (size_t i = 0; i < sizeof cases / sizeof *cases; i++) {
        look(&d, cases[i].time, cases[i].set, cases[i].number, "an enquiry is refused by another number");
        commit(&d, 1, cases[i].time, cases[i].set, cases[i].number, "a commit is refused by another number");
        for (size_t k = 0; k < sizeof others / sizeof *others; k++) {
            commit(&d, others[k], cases[i].time, cases[i].set, GATEWAY_OLD_TICKET, "20 is not the first refusal of a commit");
        }
    }
    commit(&d, 0, 2, unknown, GATEWAY_OLD_TICKET, "16 comes before 20");
    hold(strcmp(gateway_refusal_text(GATEWAY_OLD_TICKET), gateway_refusal_text(21)) != 0, "20 has no words");
}

/* Behind the last ticket comes 0: a dispatcher is plain memory, and one can be at any ticket. */
static void wrapping(void)
{
    gateway_dispatcher d = opened();
    d.ticket = UINT64_MAX;
    hold(look(&d, 0, five, GATEWAY_SERVED, "an enquiry is refused").ticket == UINT64_MAX, "the last ticket is not given");
    commit(&d, 0, 0, five, GATEWAY_OLD_TICKET, "a ticket to come is served");
    commit(&d, UINT64_MAX, 0, five, GATEWAY_SERVED, "the last ticket is refused");
    hold(d.ticket == 0, "behind the last ticket comes another than 0");
    commit(&d, UINT64_MAX, 2, 0, GATEWAY_OLD_TICKET, "the last ticket is served twice");
    commit(&d, 0, 2, 0, GATEWAY_SERVED, "the ticket behind the last is refused");
    d.ticket = UINT64_MAX;
    hold(gateway_mark(&d, 6, 0) == GATEWAY_SERVED && d.ticket == 0, "a mark call behind the last ticket");
}

/* With another time or set a commit does what that instant would. */
static void another_instant(void)
{
    gateway_dispatcher d = opened(), by_instants = opened();
    shown other = nothing();
    shown enquired = look(&d, 0, five, GATEWAY_SERVED, "an enquiry is refused");
    shown done = commit(&d, enquired.ticket, 4, six, GATEWAY_SERVED, "a commit with another time and set is refused");
    hold(gateway_instant(&by_instants, 4, six, &other.answer) == GATEWAY_SERVED && memcmp(&by_instants, &d, sizeof d) == 0 &&
             memcmp(&other.answer, &done.answer, sizeof done.answer) == 0,
         "a commit with another time and set does something else than that instant");
}

int main(void)
{
    look_and_commit();
    counting();
    marks();
    marked_between();
    order();
    wrapping();
    another_instant();
    printf("%lu facts of tickets\n", held);
    return 0;
}
