/* The console of document 01, with the priorities of request b, in C and written for speed
 * alone: the yardstick for the time of other consoles.
 *
 * State is changed in place, nothing is allocated, a line is used where it was read, input and
 * output go through blocks of 64 KiB, and the answers of a block are out before the next read.
 * Two digits become a byte, and a byte two digits, by one look into a table; a digit that is
 * none marks the whole line, which is tested once. Division by a period is a multiplication.
 * The window of a receiver's job is reckoned once, and a gap's sender is looked up in a list
 * that planning leaves. Planning puts the senders of a queue into the order of their messages
 * at one deadline, so that a send compares places and neither priorities nor rows. Numbers
 * follow equations 1 and 2 of the source document.
 *
 * Built by: gcc -O3 console.c -o console
 */

#include <stdbool.h>
#include <stdint.h>
#include <string.h>
#include <unistd.h>

enum {
    MOST_TASKS = 16,
    MOST_QUEUES = 8,
    MOST_PERIOD = 60000,
    MOST_HYPERPERIOD = 10000000,
    MOST_MESSAGES = 4096,
    MOST_SLOTS = 1024,
    PAYLOAD = 24,
    SEND = 8 + PAYLOAD,
    RECEIVE = 7,
    MOST_DIGITS = 100,
    BLOCK = 65536,
    LONGEST_ANSWER = 64,
    NO_FRAME = 0xf0
};

#define LAST_TICK UINT64_C(1000000000000)

/* Division of x by d as a multiplication by 2^63 / d, rounded up, which is right where x * d is
 * below 2^63: ticks have 40 bits and periods 16, numbers have 44 bits and sizes 13. */
typedef struct {
    uint64_t magic;
} Divisor;

typedef struct {
    uint64_t period, deadline;
    unsigned priority;
    Divisor by;
} Task;

/* A sender as its queue counts it; `ahead` is its period less its deadline. */
typedef struct {
    Divisor by;
    uint64_t ahead;
    unsigned row;
} Sender;

typedef struct {
    unsigned receiver, mask;
    /* Filled by planning: the senders in the order of their messages at one deadline, the place
     * of each row among them, the messages of a hyperperiod, and the row of each of them, number
     * n at (n - 1) mod messages. */
    unsigned senders;
    Sender sender[MOST_TASKS];
    unsigned char at[MOST_TASKS];
    uint64_t messages, size, place;
    Divisor by_messages, by_size;
    unsigned char row[MOST_MESSAGES];
    /* The running state: the job after the last one that sent, by task; the number after the
     * last one read; and the receiver's job whose window is known, with its ends. */
    uint64_t sent[MOST_TASKS], reading;
    uint64_t job, first, last;
} Queue;

/* Number 0 means never written. */
typedef struct {
    uint64_t number;
    unsigned char payload[PAYLOAD];
} Slot;

static Task task[MOST_TASKS];
static Queue queue[MOST_QUEUES];
static unsigned tasks, queues;
static bool running;
static uint64_t now;
static Slot slot[MOST_SLOTS];

static unsigned char out[BLOCK];
static size_t out_used;

/* ---- numbers ---- */

static Divisor divisor(uint64_t d)
{
    return (Divisor){ (UINT64_C(1) << 63) / d + 1 };
}

static inline uint64_t quotient(uint64_t x, Divisor by)
{
    return (uint64_t)((unsigned __int128)x * by.magic >> 63);
}

/* Jobs of a sender with their deadline at tick t or before: to add the period less the
 * deadline, and not 1 after a subtraction, is right before the first deadline too. */
static inline uint64_t count(const Sender *s, uint64_t t)
{
    return quotient(t + s->ahead, s->by);
}

/* Equation 1. */
static inline uint64_t up_to(const Queue *q, uint64_t t)
{
    uint64_t sum = 0;
    for (unsigned s = 0; s < q->senders; s++)
        sum += count(&q->sender[s], t);
    return sum;
}

/* Equation 2: deadlines up to this job's, for senders behind this one only those before it. */
static inline uint64_t number_of(const Queue *q, unsigned at, uint64_t deadline)
{
    uint64_t sum = 0;
    for (unsigned s = 0; s < q->senders; s++)
        sum += count(&q->sender[s], deadline - (s > at));
    return sum;
}

/* ---- planning ---- */

static uint32_t common_divisor(uint32_t a, uint32_t b)
{
    while (b != 0) {
        uint32_t rest = a % b;
        a = b;
        b = rest;
    }
    return a;
}

/* The common multiple of the queue's periods, or 0 if it is over the limit. */
static uint64_t hyperperiod_of(const Queue *q)
{
    uint64_t multiple = task[q->receiver].period;
    for (unsigned left = q->mask; left != 0; left &= left - 1) {
        uint64_t period = task[__builtin_ctz(left)].period;
        multiple *= period / common_divisor((uint32_t)multiple, (uint32_t)period);
        if (multiple > MOST_HYPERPERIOD)
            return 0;
    }
    return multiple;
}

/* The higher priority goes first; rows come in rising order, so a row goes behind those of its
 * own priority. */
static void set_senders(Queue *q)
{
    q->senders = 0;
    for (unsigned left = q->mask; left != 0; left &= left - 1) {
        unsigned row = (unsigned)__builtin_ctz(left);
        const Task *a = &task[row];
        unsigned s = q->senders++;
        for (; s > 0 && task[q->sender[s - 1].row].priority < a->priority; s--)
            q->sender[s] = q->sender[s - 1];
        q->sender[s] = (Sender){ a->by, a->period - a->deadline, row };
    }
    for (unsigned s = 0; s < q->senders; s++)
        q->at[q->sender[s].row] = (unsigned char)s;
}

/* The most that a message's number is ahead of the messages outdated at its job's release, or
 * 0 if it is over `most`. The second hyperperiod stands for all: in it no release comes before
 * the receiver's first deadline, and the later ones are the same but for the shift. Successive
 * releases often look at the same job of the receiver, so what it outdates is kept. */
static uint64_t least_slots(Queue *q, uint64_t hyperperiod, uint64_t most)
{
    const Task *r = &task[q->receiver];
    uint64_t least = 0;
    for (unsigned s = 0; s < q->senders; s++) {
        const Task *a = &task[q->sender[s].row];
        uint64_t ended = UINT64_MAX, outdated = 0;
        for (uint64_t t = hyperperiod; t < 2 * hyperperiod; t += a->period) {
            uint64_t number = number_of(q, s, t + a->deadline);
            uint64_t job = quotient(t - r->deadline, r->by);
            if (job != ended) {
                ended = job;
                outdated = up_to(q, job * r->period);
            }
            q->row[number - q->messages - 1] = (unsigned char)q->sender[s].row;
            if (number - outdated > least) {
                least = number - outdated;
                if (least > most)
                    return 0;
            }
        }
    }
    return least;
}

/* 0 if the table is taken, else the refusal and the row it names. */
static unsigned plan(unsigned *row)
{
    uint64_t hyperperiod[MOST_QUEUES];
    *row = 0;
    if (tasks == 0 || queues == 0)
        return 1;
    for (unsigned i = 0; i < tasks; i++) {
        *row = i;
        if (task[i].period < 1 || task[i].period > MOST_PERIOD)
            return 2;
        if (task[i].deadline < 1 || task[i].deadline > task[i].period)
            return 2;
    }
    for (unsigned i = 0; i < queues; i++) {
        *row = i;
        if (queue[i].receiver >= tasks || queue[i].mask == 0 || queue[i].mask >> tasks != 0)
            return 3;
    }
    for (unsigned i = 0; i < queues; i++) {
        Queue *q = &queue[i];
        *row = i;
        hyperperiod[i] = hyperperiod_of(q);
        if (hyperperiod[i] == 0)
            return 4;
        q->messages = 0;
        for (unsigned left = q->mask; left != 0; left &= left - 1)
            q->messages += (uint32_t)hyperperiod[i] / (uint32_t)task[__builtin_ctz(left)].period;
        if (q->messages > MOST_MESSAGES)
            return 5;
    }
    *row = 0;
    for (unsigned i = 0; i < tasks; i++)
        task[i].by = divisor(task[i].period);
    uint64_t place = 0;
    for (unsigned i = 0; i < queues; i++) {
        Queue *q = &queue[i];
        set_senders(q);
        q->size = least_slots(q, hyperperiod[i], MOST_SLOTS - place);
        if (q->size == 0)
            return 6;
        q->place = place;
        place += q->size;
    }
    for (unsigned i = 0; i < queues; i++) {
        queue[i].by_size = divisor(queue[i].size);
        queue[i].by_messages = divisor(queue[i].messages);
        queue[i].first = 1;
    }
    return 0;
}

/* ---- digits ---- */

/* Both are filled by `fill`: the byte of two digits, by their two characters as they lie in
 * memory, or BAD if one of them is no lower-case digit; and the two digits of a byte. */
enum { BAD = 0x100 };
static uint16_t byte_of[65536];
static unsigned char pair_of[256][2];

static inline uint16_t two(const unsigned char *at)
{
    uint16_t characters;
    memcpy(&characters, at, 2);
    return characters;
}

static void fill(void)
{
    static const char digit[] = "0123456789abcdef";
    for (unsigned i = 0; i < 65536; i++)
        byte_of[i] = BAD;
    for (unsigned i = 0; i < 256; i++) {
        pair_of[i][0] = (unsigned char)digit[i >> 4];
        pair_of[i][1] = (unsigned char)digit[i & 15];
        byte_of[two(pair_of[i])] = (uint16_t)i;
    }
}

/* The bytes of a line of 2 * n characters in frame; false if one is no digit. */
static inline bool decode(const unsigned char *line, size_t n, unsigned char *frame)
{
    unsigned all = 0;
    for (size_t i = 0; i < n; i++) {
        unsigned byte = byte_of[two(line + 2 * i)];
        all |= byte;
        frame[i] = (unsigned char)byte;
    }
    return all < BAD;
}

static inline uint64_t number_in(const unsigned char *bytes, int length)
{
    uint64_t value = 0;
    for (int i = 0; i < length; i++)
        value = value << 8 | bytes[i];
    return value;
}

/* ---- answers ---- */

static inline void put(unsigned char *to, unsigned byte)
{
    memcpy(to, pair_of[byte], 2);
}

static inline void put_number(unsigned char *to, uint64_t value, int bytes)
{
    for (int i = 0; i < bytes; i++)
        put(to + 2 * i, value >> 8 * (bytes - 1 - i) & 255);
}

static inline void end_line(unsigned char *to, size_t digits)
{
    to[digits] = '\n';
    out_used += digits + 1;
}

static void put_refusal(unsigned char *to, unsigned rule, unsigned row)
{
    put(to, 0x7f);
    put(to + 2, rule);
    put(to + 4, row);
    end_line(to, 6);
}

static bool flush_out(void)
{
    size_t done = 0;
    while (done < out_used) {
        ssize_t wrote = write(1, out + done, out_used - done);
        if (wrote <= 0)
            return false;
        done += (size_t)wrote;
    }
    out_used = 0;
    return true;
}

/* ---- calls: each writes its answer to `to`; a result is 0, or a refusal still to be written ---- */

static void start(unsigned char *to)
{
    unsigned row;
    unsigned refusal = plan(&row);
    if (refusal != 0) {
        tasks = queues = 0;
        put_refusal(to, refusal, row);
        return;
    }
    running = true;
    put(to, 0x81);
    for (unsigned i = 0; i < queues; i++)
        put_number(to + 2 + 4 * i, queue[i].size, 2);
    end_line(to, 2 + 4 * queues);
}

/* A send whose frame is of the right length. */
static unsigned send_message(unsigned char *to, const unsigned char *frame)
{
    uint64_t tick = number_in(frame + 3, 5);
    unsigned row = frame[2];
    if (frame[1] >= queues || row >= tasks || !(queue[frame[1]].mask >> row & 1))
        return 9;
    Queue *q = &queue[frame[1]];
    uint64_t job = quotient(tick, task[row].by);
    uint64_t deadline = job * task[row].period + task[row].deadline;
    if (tick > LAST_TICK || deadline > LAST_TICK)
        return 11;
    if (tick < now)
        return 10;
    if (tick >= deadline)
        return 12;
    if (q->sent[row] > job)
        return 13;
    q->sent[row] = job + 1;
    now = tick;
    uint64_t number = number_of(q, q->at[row], deadline);
    uint64_t place = number - quotient(number, q->by_size) * q->size;
    Slot *target = &slot[q->place + place];
    target->number = number;
    memcpy(target->payload, frame + 8, PAYLOAD);
    put(to, 0x84);
    put_number(to + 2, number, 6);
    put_number(to + 14, place, 2);
    end_line(to, 18);
    return 0;
}

static unsigned receive(unsigned char *to, const unsigned char *frame)
{
    uint64_t tick = number_in(frame + 2, 5);
    if (frame[1] >= queues)
        return 9;
    Queue *q = &queue[frame[1]];
    const Task *r = &task[q->receiver];
    if (tick > LAST_TICK)
        return 11;
    if (tick < now)
        return 10;
    uint64_t job = quotient(tick, r->by);
    uint64_t release = job * r->period;
    if (tick >= release + r->deadline)
        return 12;
    now = tick;
    if (job != q->job) {
        /* Ticks do not fall, so this job comes after the known one. */
        q->first = (job == q->job + 1 ? q->last : up_to(q, release - r->period)) + 1;
        q->last = up_to(q, release);
        q->job = job;
    }
    uint64_t number = q->reading > q->first ? q->reading : q->first;
    if (number > q->last) {
        put(to, 0x87);
        end_line(to, 2);
        return 0;
    }
    q->reading = number + 1;
    const Slot *source = &slot[q->place + number - quotient(number, q->by_size) * q->size];
    put_number(to + 2, number, 6);
    if (source->number == number) {
        put(to, 0x85);
        for (unsigned i = 0; i < PAYLOAD; i++)
            put(to + 14 + 2 * i, source->payload[i]);
        end_line(to, 14 + 2 * PAYLOAD);
    } else {
        uint64_t n = number - 1;
        put(to, 0x86);
        put(to + 14, q->row[n - quotient(n, q->by_messages) * q->messages]);
        end_line(to, 16);
    }
    return 0;
}

/* ---- lines ---- */

/* Takes a line that holds so many bytes; 01 and 02 answer nothing. A line is told by its first
 * two digits and its length before the rest of its digits are looked at. */
static unsigned take(unsigned char *to, const unsigned char *line, size_t length)
{
    unsigned char frame[MOST_DIGITS / 2];
    switch (line[1]) {
    case '5':
        if (length != RECEIVE || !running || !decode(line, RECEIVE, frame))
            return NO_FRAME;
        return receive(to, frame);
    case '4':
        if (length < 8 || !running || !decode(line, length, frame))
            return NO_FRAME;
        return length == SEND ? send_message(to, frame) : 14;
    case '1':
        if ((length != 5 && length != 6) || running || tasks == MOST_TASKS || !decode(line, length, frame))
            return NO_FRAME;
        task[tasks].period = number_in(frame + 1, 2);
        task[tasks].deadline = number_in(frame + 3, 2);
        task[tasks].priority = length == 6 ? frame[5] : 0;
        tasks++;
        return 0;
    case '2':
        if (length != 4 || running || queues == MOST_QUEUES || !decode(line, 4, frame))
            return NO_FRAME;
        queue[queues].receiver = frame[1];
        queue[queues].mask = (unsigned)number_in(frame + 2, 2);
        queues++;
        return 0;
    case '3':
        if (length != 1 || running)
            return NO_FRAME;
        start(to);
        return 0;
    default:
        return NO_FRAME;
    }
}

/* Where the next answer goes; NULL if what is there could not be written. */
static inline unsigned char *room(void)
{
    if (BLOCK - out_used < LONGEST_ANSWER && !flush_out())
        return NULL;
    return out + out_used;
}

static inline bool answer(const unsigned char *line, size_t digits)
{
    unsigned char *to = room();
    if (to == NULL)
        return false;
    unsigned refusal = NO_FRAME;
    if (digits >= 2 && digits <= MOST_DIGITS && digits % 2 == 0 && line[0] == '0')
        refusal = take(to, line, digits / 2);
    if (refusal == NO_FRAME) {
        memcpy(to, "7ff000\n", 7);
        out_used += 7;
    } else if (refusal != 0)
        put_refusal(to, refusal, 0);
    return true;
}

/* The first line feed from a place on, looked for eight bytes at a time; `end` if there is
 * none. In x a byte is 0 where a line feed stands, and `zero` marks the first such byte by its
 * lowest bit. */
static inline const unsigned char *line_feed(const unsigned char *at, const unsigned char *end)
{
    const uint64_t ones = UINT64_C(0x0101010101010101);
    for (; end - at >= 8; at += 8) {
        uint64_t x = 0;
        for (int i = 0; i < 8; i++)
            x |= (uint64_t)at[i] << 8 * i;
        x ^= ones * '\n';
        uint64_t zero = (x - ones) & ~x & ones << 7;
        if (zero != 0)
            return at + __builtin_ctzll(zero) / 8;
    }
    while (at < end && *at != '\n')
        at++;
    return at;
}

/* The two lines of a running console are known by their first digits and their lengths: where
 * all before the line feed in its place are digits, it is the first one, and the search for it
 * is saved. The bytes used, 0 if it is another line. */
static inline size_t quick(const unsigned char *line, const unsigned char *end, unsigned char *to)
{
    if (end - line <= 2 * SEND || line[0] != '0')
        return 0;
    unsigned char frame[SEND];
    unsigned refusal;
    size_t digits;
    if (line[1] == '4' && line[2 * SEND] == '\n') {
        digits = 2 * SEND;
        if (!decode(line, SEND, frame))
            return 0;
        refusal = send_message(to, frame);
    } else if (line[1] == '5' && line[2 * RECEIVE] == '\n') {
        digits = 2 * RECEIVE;
        if (!decode(line, RECEIVE, frame))
            return 0;
        refusal = receive(to, frame);
    } else
        return 0;
    if (refusal != 0)
        put_refusal(to, refusal, 0);
    return digits + 1;
}

/* Answers the whole lines before `end`; the start of the one that has not ended, NULL if an
 * answer could not be written. `scan`: no line feed comes before it. */
static const unsigned char *answer_all(const unsigned char *line, const unsigned char *scan, const unsigned char *end)
{
    for (;;) {
        if (running) {
            unsigned char *to = room();
            if (to == NULL)
                return NULL;
            size_t used = quick(line, end, to);
            if (used != 0) {
                line = scan = line + used;
                continue;
            }
        }
        const unsigned char *feed = line_feed(scan, end);
        if (feed == end)
            return line;
        if (!answer(line, (size_t)(feed - line)))
            return NULL;
        line = scan = feed + 1;
    }
}

int main(void)
{
    /* A line that began in the block before lies in front of the new block. Of a line over
     * the limit a part is enough: it stays over the limit. */
    enum { KEPT = MOST_DIGITS + 2 };
    static unsigned char in[KEPT + BLOCK];
    size_t kept = 0;
    fill();
    for (;;) {
        ssize_t got = read(0, in + KEPT, BLOCK);
        if (got <= 0)
            break;
        const unsigned char *end = in + KEPT + got;
        const unsigned char *line = answer_all(in + KEPT - kept, in + KEPT, end);
        if (line == NULL)
            return 1;
        kept = (size_t)(end - line);
        if (kept > KEPT) {
            kept = KEPT;
            line = end - KEPT;
        }
        memmove(in + KEPT - kept, line, kept);
        if (!flush_out())
            return 1;
    }
    if (kept > 0 && !answer(in + KEPT - kept, kept))
        return 1;
    return flush_out() ? 0 : 1;
}
