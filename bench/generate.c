/* Inputs for the time measurements, always the same for the same arguments.
 *
 *   generate a CALLS           Table A, that many sends and receives
 *   generate wide CALLS        15 senders, each into 8 queues
 *   generate priority CALLS    the same, with a priority in each line 01: no sender's row is its place
 *   generate plan TABLES       the largest tables: 8 queues with 4,096 messages each
 *   generate slots TABLES      small tables that rule 6 refuses
 *   generate bad LINES         lines that are no frame
 *   generate calls SENDERS HISTORY KIND COUNT
 *       a queue with that many senders (0: Table A), a history of calls, then COUNT calls of
 *       one KIND: send, both (each message sent and received: COUNT of either) or gap
 *
 * Built by: gcc -O2 generate.c -o generate
 */

#include <stdint.h>
#include <stdio.h>
#include <stdlib.h>
#include <string.h>

enum { MOST_TASKS = 16 };

typedef struct {
    unsigned tasks, senders, queues;
    uint64_t period[MOST_TASKS], deadline[MOST_TASKS];
    /* Whether a line 01 has its sixth byte, the priority. */
    int by_priority;
    unsigned priority[MOST_TASKS];
} Table;

static uint64_t chance_state = 1;

static uint64_t chance(void)
{
    chance_state = chance_state * UINT64_C(6364136223846793005) + UINT64_C(1442695040888963407);
    return chance_state >> 33;
}

/* ---- tables: the senders come first, the receiver is the last row ---- */

static Table make_table(unsigned senders, unsigned queues, const uint64_t *period, const uint64_t *deadline)
{
    Table t = { .tasks = senders + 1, .senders = senders, .queues = queues };
    memcpy(t.period, period, t.tasks * sizeof *period);
    memcpy(t.deadline, deadline, t.tasks * sizeof *deadline);
    return t;
}

static Table table_a(void)
{
    const uint64_t period[] = { 5, 7, 10 };
    return make_table(2, 1, period, period);
}

static Table table_wide(void)
{
    const uint64_t period[] = { 5, 6, 8, 10, 12, 15, 20, 24, 30, 40, 60, 120, 5, 8, 12, 10 };
    const uint64_t deadline[] = { 5, 6, 7, 10, 12, 15, 11, 24, 30, 13, 20, 40, 3, 8, 5, 10 };
    return make_table(15, 8, period, deadline);
}

/* Priorities rise with the rows, two rows having the same: the later pairs go first. */
static Table table_by_priority(void)
{
    Table t = table_wide();
    t.by_priority = 1;
    for (unsigned i = 0; i < t.tasks; i++)
        t.priority[i] = 17 * (i / 2);
    return t;
}

static Table table_of_senders(unsigned senders)
{
    uint64_t period[MOST_TASKS];
    for (unsigned i = 0; i < MOST_TASKS; i++)
        period[i] = 10;
    return make_table(senders, 1, period, period);
}

static void write_tasks(const Table *t)
{
    for (unsigned i = 0; i < t->tasks; i++) {
        printf("01%04x%04x", (unsigned)t->period[i], (unsigned)t->deadline[i]);
        if (t->by_priority)
            printf("%02x", t->priority[i]);
        putchar('\n');
    }
}

static void write_table(const Table *t)
{
    write_tasks(t);
    for (unsigned q = 0; q < t->queues; q++)
        printf("02%02x%04x\n", t->senders, (1u << t->senders) - 1);
    puts("03");
}

/* ---- calls ---- */

typedef enum { TRAFFIC, SEND, BOTH, GAP } Kind;

static uint64_t deadlines_up_to(const Table *t, uint64_t tick)
{
    uint64_t sum = 0;
    for (unsigned i = 0; i < t->senders; i++)
        if (tick >= t->deadline[i])
            sum += (tick - t->deadline[i]) / t->period[i] + 1;
    return sum;
}

static void write_send(unsigned queue, unsigned task, uint64_t tick)
{
    printf("04%02x%02x%010llx", queue, task, (unsigned long long)tick);
    for (int i = 0; i < 6; i++)
        printf("%08x", (unsigned)chance());
    putchar('\n');
}

static void write_receive(unsigned queue, uint64_t tick)
{
    printf("05%02x%010llx\n", queue, (unsigned long long)tick);
}

/* Calls from a tick on; gives back the tick after the last call. TRAFFIC has silent jobs and
 * reads each window until it is empty; the others have neither. */
static uint64_t write_calls(const Table *t, uint64_t tick, Kind kind, uint64_t count)
{
    uint64_t receiver_period = t->period[t->senders];
    uint64_t sends = 0, receives = 0;
    for (;; tick++) {
        uint64_t window = 0;
        if (tick > 0 && tick % receiver_period == 0 && kind != SEND)
            window = deadlines_up_to(t, tick) - deadlines_up_to(t, tick - receiver_period) + (kind == TRAFFIC);
        for (unsigned q = 0; q < t->queues; q++) {
            for (uint64_t i = 0; i < window; i++) {
                if (kind == TRAFFIC ? sends + receives == count : receives == count)
                    break;
                write_receive(q, tick);
                receives++;
            }
            for (unsigned i = 0; i < t->senders && kind != GAP; i++) {
                if (tick % t->period[i] != 0 || (kind == TRAFFIC && chance() % 8 == 0))
                    continue;
                if (kind == TRAFFIC ? sends + receives == count : sends == count)
                    break;
                write_send(q, i, tick);
                sends++;
            }
        }
        int sends_done = kind == GAP || sends == count;
        int receives_done = kind == SEND || receives == count;
        if (kind == TRAFFIC ? sends + receives == count : sends_done && receives_done)
            return tick + 1;
    }
}

static void write_traffic(Table t, uint64_t calls)
{
    write_table(&t);
    write_calls(&t, 0, TRAFFIC, calls);
}

static void write_call_input(unsigned senders, uint64_t history, const char *kind, uint64_t count)
{
    Table t = senders == 0 ? table_a() : table_of_senders(senders);
    write_table(&t);
    uint64_t tick = history == 0 ? 0 : write_calls(&t, 0, TRAFFIC, history);
    /* The next common release of Table A, so that no job of the history is in the way. */
    tick = (tick + 139) / 70 * 70;
    if (count > 0)
        write_calls(&t, tick, strcmp(kind, "send") == 0 ? SEND : strcmp(kind, "both") == 0 ? BOTH : GAP, count);
}

/* ---- planning ---- */

/* 15 senders with 4,096 messages in 4,096 ticks. Seven queues need about 100 slots each. The
 * last one, with a slow receiver, passes the limit, so that the table is refused only after
 * all the work and the next one can be planned in the same run. */
static void write_largest(uint64_t tables)
{
    const uint64_t period[] = { 4, 4, 8, 8, 8, 16, 32, 64, 128, 256, 512, 1024, 2048, 4096, 4096, 16 };
    uint64_t deadline[MOST_TASKS];
    for (unsigned i = 0; i < MOST_TASKS; i++)
        deadline[i] = period[i] < 60 ? period[i] : 60;
    Table t = make_table(15, 8, period, deadline);
    for (uint64_t n = 0; n < tables; n++) {
        write_tasks(&t);
        for (unsigned q = 0; q < 7; q++)
            puts("020f7fff");
        puts("020b7fff");
        puts("03");
    }
}

/* A sender in each tick and a receiver R/D need R + D slots. */
static void write_over_slots(uint64_t tables)
{
    for (uint64_t n = 0; n < tables; n++) {
        unsigned period = 513 + (unsigned)(chance() % 64);
        printf("0100010001\n01%04x%04x\n02010001\n03\n", period, 512 + (unsigned)(chance() % 2));
    }
}

/* ---- lines that are no frame ---- */

static void write_bad(uint64_t lines)
{
    static const char *const bad[] = {
        "", "0", "03 ", " 03", "03\r", "0300", "0A", "010005000", "01000500050", "0100050G05",
        "050000000000", "0500000000000000", "0500000000000A", "06", "ff00", "040000000000",
        "0400000000000000000000000000000000000000000000000000000000000000000000000000000000000000000000000000000",
        "040000000000000362310000000000000000000000000000000000000000000g",
        "05000000000000", "0400010000000003623100000000000000000000000000000000000000000000"
    };
    for (uint64_t n = 0; n < lines; n++)
        puts(bad[chance() % (sizeof bad / sizeof *bad)]);
}

int main(int count, char **word)
{
    static char buffer[1 << 16];
    setvbuf(stdout, buffer, _IOFBF, sizeof buffer);
    const char *kind = count > 1 ? word[1] : "";
    uint64_t amount = count > 2 ? strtoull(word[2], NULL, 10) : 0;
    if (count == 3 && strcmp(kind, "a") == 0) {
        write_traffic(table_a(), amount);
    } else if (count == 3 && strcmp(kind, "wide") == 0) {
        write_traffic(table_wide(), amount);
    } else if (count == 3 && strcmp(kind, "priority") == 0) {
        write_traffic(table_by_priority(), amount);
    } else if (count == 3 && strcmp(kind, "plan") == 0) {
        write_largest(amount);
    } else if (count == 3 && strcmp(kind, "slots") == 0) {
        write_over_slots(amount);
    } else if (count == 3 && strcmp(kind, "bad") == 0) {
        write_bad(amount);
    } else if (count == 6 && strcmp(kind, "calls") == 0) {
        write_call_input((unsigned)amount, strtoull(word[3], NULL, 10), word[4], strtoull(word[5], NULL, 10));
    } else {
        fputs("generate: a | wide | priority | plan | slots | bad NUMBER, or calls SENDERS HISTORY KIND COUNT\n", stderr);
        return 2;
    }
    return fflush(stdout) == 0 ? 0 : 1;
}
