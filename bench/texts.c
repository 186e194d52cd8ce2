/* AADL texts for the time measurements, always the same for the same arguments.
 *
 *   texts ordinary BYTES   a package of so many bytes: probes with data types, properties, comments and subprograms, and one
 *                          process with six threads and two queues; it gives a table
 *   texts KIND             one of the worst texts, of 262,144 bytes; all are read to their end and judged, sound or not
 *   texts kinds            the kinds, a line each
 *
 * Built by: gcc -O2 texts.c -o texts
 */

#include <stdarg.h>
#include <stdint.h>
#include <stdio.h>
#include <stdlib.h>
#include <string.h>

enum { MOST_BYTES = 262144, SPARE = 4096 };

static char text[MOST_BYTES + SPARE];
static size_t length, limit = MOST_BYTES;

static void put(const char *form, ...)
{
    va_list values;
    va_start(values, form);
    length += (size_t)vsnprintf(text + length, sizeof text - length, form, values);
    va_end(values);
    if (length >= sizeof text) {
        fputs("texts: a piece is too long\n", stderr);
        exit(1);
    }
}

/* Whether a piece of so many bytes and what closes the text still find room. */
static int room(size_t piece, size_t closing)
{
    return length + piece + closing <= limit;
}

static void put_repeated(const char *piece, size_t closing)
{
    while (room(strlen(piece), closing))
        put("%s", piece);
}

/* ---- parts that most of the worst texts have: a type with an output and an input, a process with two threads ---- */

static const char plain_type[] = "thread s features o:out data port{Timing=>Delayed;};i:in data port;end s;\n";
static const char outside_type[] = "thread r extends outside end r;\n";
static const char process_end[] = "end p.i;\n";

static void put_two_threads(const char *sender, const char *receiver)
{
    put("process implementation p.i\nsubcomponents\na:thread %s{Period=>4 ms;};\nb:thread %s{Period=>8 ms;};\nconnections\n",
        sender, receiver);
}

static void put_small_process(void)
{
    put_two_threads("s", "s");
    put("port a.o->b.i;\n%s", process_end);
}

enum { SMALL = 200 }; /* more than what put_small_process writes */

/* ---- the ordinary text ---- */

static void put_probe(unsigned n)
{
    static const char *const place[] = { "by the window", "in the bean pot", "behind the shutter", "on the bench" };
    put("  -- Probe %u stands %s; page %u of the booklet shows how to fix it.\n", n, place[n % 4], 10 + n % 50);
    put("  data Reading_%u\n  properties\n    Data_Size => 24 Bytes;\n  end Reading_%u;\n\n", n, n);
    put("  thread Probe_%u extends Base_Probe\n  features\n", n);
    put("    reading: out event data port Reading_%u {Timing => Delayed;};\n", n);
    put("    setting: in data port Reading_%u;\n    store: requires data access Reading_%u;\n", n, n);
    put("  properties\n    Dispatch_Protocol => Periodic;\n    Deadline => %u ms;\n    Priority => %u;\n", 20 + n % 20, n % 256);
    put("    Source_Text => (\"probe_%u.c\", \"common.c\");\n  end Probe_%u;\n\n", n, n);
    put("  thread implementation Probe_%u.Impl\n  properties\n    Period => 40 ms;\n", n);
    put("    Compute_Execution_Time => %u us .. %u us;  -- as measured\n", 100 + n % 100, 300 + n % 100);
    put("    Kit::Colours => [line => (%u, 0, 255); marks => (\"dot\", \"cross\");];\n  end Probe_%u.Impl;\n\n", n % 256, n);
    put("  subprogram Draw_%u\n  features\n    value: in parameter Reading_%u;\n", n, n);
    put("  properties\n    Source_Stack_Size => 4 KByte;\n  end Draw_%u;\n\n", n);
}

static void put_ordinary_process(void)
{
    put("  process implementation Logger.Desk\n  subcomponents\n");
    for (unsigned n = 0; n < 5; n++)
        put("    probe_%u: thread Probe_%u.Impl;\n", n, n);
    put("    page: thread Chart {Period => 80 ms;};\n  connections\n");
    for (unsigned n = 0; n < 5; n++)
        put("    drawn_%u: port probe_%u.reading -> page.%s;\n", n, n, n < 3 ? "curve" : "marks");
    put("  end Logger.Desk;\n");
}

static void write_ordinary(void)
{
    const size_t closing = 1200; /* more than the process and the package's end */
    put("package School::Kit\npublic\n  with Base_Types;\n\n  thread Base_Probe\n  end Base_Probe;\n\n");
    put("  thread Chart\n  features\n    curve: in event data port;\n    marks: in event data port;\n  end Chart;\n\n");
    for (unsigned n = 0; n < 5 || room(1000, closing); n++)
        put_probe(n);
    put_ordinary_process();
    put("end School::Kit;\n--");
    while (room(2, 0))
        put("%c", length % 80 == 79 ? ' ' : '-');
    put("\n");
}

/* ---- the worst ones: names ---- */

static void put_alike_types(unsigned beginning)
{
    char name[SPARE / 4];
    put("%s", plain_type);
    for (unsigned n = 0; room(2 * (beginning + 8) + 14, SMALL); n++) {
        snprintf(name, sizeof name, "%0*u", (int)beginning + 6, n);
        name[0] = 'k';
        put("thread %s end %s;\n", name, name);
    }
    put_small_process();
}

static void write_beginnings(void) { put_alike_types(60); }

static void write_long_names(void) { put_alike_types(500); }

static void write_types(void)
{
    put("%s", plain_type);
    for (unsigned n = 0; room(32, SMALL); n++)
        put("thread k%u end k%u;\n", n, n);
    put_small_process();
}

/* Each thread asks for its properties along 8 types. */
static void write_chains(void)
{
    put("%s", plain_type);
    unsigned types = 0;
    for (; room(40, MOST_BYTES / 2); types++)
        put("thread k%u extends k%u end k%u;\n", types, types + 1, types);
    put("process implementation p.i\nsubcomponents\n");
    for (unsigned n = 0; room(40, 40); n++)
        put("t%u:thread k%u{Period=>9 ms;};\n", n, n * 7919 % types);
    put("connections none;\n%s", process_end);
}

/* Eight types, each with many ports, and connections that ask for those of the eighth. */
static void write_ports(void)
{
    enum { TYPES = 8, PORTS = 600, SENDERS = 10 };
    put("%s", plain_type);
    for (unsigned t = 0; t < TYPES; t++) {
        put("thread w%u ", t);
        if (t + 1 < TYPES)
            put("extends w%u ", t + 1);
        put("features\n");
        for (unsigned n = 0; n < PORTS; n++)
            put("q%u_%u:in out data port;\n", t, n);
        put("end w%u;\n", t);
    }
    put("process implementation p.i\nsubcomponents\n");
    for (unsigned n = 0; n < SENDERS; n++)
        put("t%u:thread w0{Period=>9 ms;};\n", n);
    put("connections\n");
    for (unsigned n = 0; n < SENDERS * PORTS && room(32, sizeof process_end); n++)
        put("port t%u.q7_%u->>t0.q7_%u;\n", n / PORTS, n * 7 % PORTS, n % PORTS);
    put("%s", process_end);
}

/* ---- the worst ones: connections ---- */

static void write_connections(void)
{
    put("%s%s", plain_type, outside_type);
    put_two_threads("s", "r");
    for (unsigned n = 0; room(24, sizeof process_end); n++)
        put("port a.o->b.i%u;\n", n);
    put("%s", process_end);
}

static void write_alike(void)
{
    put("%s", plain_type);
    put_two_threads("s", "s");
    put_repeated("port a.o->b.i;", sizeof process_end);
    put("%s", process_end);
}

static void write_threads(void)
{
    put("%sprocess implementation p.i\nsubcomponents\n", plain_type);
    unsigned threads = 0;
    for (; room(40, MOST_BYTES / 2); threads++)
        put("t%u:thread s{Period=>9 ms;};\n", threads);
    put("connections\n");
    for (unsigned n = 0; room(32, sizeof process_end); n++)
        put("c%u:port t%u.o->t%u.i;\n", n, n % threads, (n * 104729 + n / threads) % threads);
    put("%s", process_end);
}

static void write_unknown(void)
{
    put("%s", plain_type);
    put_two_threads("s", "s");
    for (unsigned n = 0; room(32, sizeof process_end); n++)
        put("port x%u.o->y%u.i;\n", n, n);
    put("%s", process_end);
}

/* ---- the worst ones: names that a dictionary by hash is late to tell apart ----
 *
 * The reader's dictionary (crates/index) is a tree over the bits of a hash, the lowest first, and the hash (crates/keys) is two lanes
 * that are squared with each number. Names whose hashes begin with the same bits are found by trying: these have as many bits alike
 * as about a second of it gives. */

#define PRIME UINT64_C(2147483647)
#define LOW_FACTOR UINT64_C(742938285)
#define HIGH_FACTOR UINT64_C(950706376)
enum { ALIKE_BITS = 11, BEHIND = 5, NAME = 1 + BEHIND }; /* a letter that begins no reserved word, and letters and digits */
enum { A_TYPE = 2, A_CONNECTION = 7 }; /* sorts of keys */

typedef struct {
    uint64_t low, high;
} Lanes;

static uint64_t turned(uint64_t own, uint64_t other, uint64_t n, uint64_t factor)
{
    uint64_t more = other + n % PRIME, x = (own * factor + more + 1) % PRIME;
    return (x * x + more) % PRIME;
}

static Lanes stirred(Lanes l, uint64_t n)
{
    return (Lanes){ turned(l.low, l.high, n, LOW_FACTOR), turned(l.high, l.low, n, HIGH_FACTOR) };
}

static Lanes named(Lanes l, const char *name)
{
    for (; *name; name++)
        l = stirred(l, (unsigned char)*name);
    return stirred(l, 0);
}

/* The lanes of a key before its first name. */
static Lanes begun(uint64_t sort, uint64_t within)
{
    return stirred(stirred((Lanes){ 0, 0 }, sort), within);
}

/* Tries all names in their order. */
typedef struct {
    Lanes before[NAME + 1]; /* the lanes before each byte of the name */
    unsigned place[NAME], ends; /* which letter stands at each place; how many names end where this one does */
    char name[NAME + 1];
} Search;

static const char *letters_at(unsigned at) { return at == 0 ? "qxyz" : "abcdefghijklmnopqrstuvwxyz0123456789"; }

static void spell_from(Search *s, unsigned at)
{
    for (; at < NAME; at++) {
        s->name[at] = letters_at(at)[s->place[at]];
        s->before[at + 1] = stirred(s->before[at], (unsigned char)s->name[at]);
    }
}

static void begin_search(Search *s, Lanes before, unsigned ends)
{
    memset(s, 0, sizeof *s);
    s->before[0] = before;
    s->ends = ends;
    spell_from(s, 0);
}

/* The next name whose hash has only zeros as its low bits. */
static void next_alike(Search *s)
{
    for (;;) {
        unsigned at = NAME - 1;
        while (letters_at(at)[++s->place[at]] == 0) {
            s->place[at] = 0;
            if (at-- == 0) {
                fputs("texts: too few names are alike\n", stderr);
                exit(1);
            }
        }
        spell_from(s, at);
        Lanes l = s->before[NAME];
        for (unsigned i = 0; i < s->ends; i++)
            l = stirred(l, 0);
        if ((l.low + PRIME * l.high) % (1 << ALIKE_BITS) == 0)
            return;
    }
}

/* A key's names that are none stand at the text's first byte: a blank, so that nothing is spelled there. */
static void write_colliding_types(void)
{
    Search s;
    put("\n%s", plain_type);
    begin_search(&s, begun(A_TYPE, 0), 3);
    while (room(2 * NAME + 14, SMALL)) {
        next_alike(&s);
        put("thread %s end %s;\n", s.name, s.name);
    }
    put_small_process();
}

static void write_colliding_ports(void)
{
    Search s;
    put("%s%s", plain_type, outside_type);
    begin_search(&s, named(named(begun(A_CONNECTION, length), "a"), "b"), 1);
    put_two_threads("s", "r");
    while (room(NAME + 14, sizeof process_end)) {
        next_alike(&s);
        put("port a.o->b.%s;\n", s.name);
    }
    put("%s", process_end);
}

/* ---- the worst ones: values, words, signs ---- */

/* One declaration that holds the same piece as often as it goes, and a small process. */
static void write_filled(const char *before, const char *piece, const char *behind)
{
    put("%s%s", plain_type, before);
    put_repeated(piece, SMALL + strlen(behind));
    put("%s", behind);
    put_small_process();
}

static void write_deep(void) { write_filled("thread x properties\n", "y=>([a=>([a=>([a=>([a=>1;]);]);]);]);", "end x;\n"); }

static void write_brackets(void) { write_filled("thread x properties\n", "y=>(((((((())))))));", "end x;\n"); }

static void write_list(void) { write_filled("thread x properties\ny=>(1", ",1", ");end x;\n"); }

static void write_tiny(void) { write_filled("", "data d end d;", ""); }

static void write_tiny_threads(void)
{
    put("%sprocess implementation p.i\nsubcomponents\n", plain_type);
    put_repeated("a:thread s;", 40);
    put("connections none;\n%s", process_end);
}

static void write_associations(void) { write_filled("thread x properties\n", "Period=>1 ms;", "end x;\n"); }

static void write_sections(void) { write_filled("thread x\n", "properties Period=>1 ms;modes ", "end x;\n"); }

static void write_annexes(void) { write_filled("system x\n", "{**", "\nend x;\n"); }

static void write_closed(void) { write_filled("system x\n", "{****}", "\nend x;\n"); }

static void write_quotes(void) { write_filled("system x\n", "\"\n", "end x;\n"); }

static void write_quotes_in_line(void) { write_filled("system x\n", "\"\"a", "\nend x;\n"); }

static void write_only_quotes(void) { write_filled("system x\n", "\"", "\nend x;\n"); }

static void write_reaching(void) { write_filled("process x\n", "Period=>", "\nend x;\n"); }

static void write_reached(void) { write_filled("process x\n", "Period=>", "applies;end x;\n"); }

static void write_comments(void) { write_filled("", "--\n", ""); }

static void write_blanks(void) { write_filled("", " ", ""); }

static void write_signs(void) { write_filled("system x\n", "<-+=", "\nend x;\n"); }

static void write_word(void) { write_filled("system x ", "x", " end x;\n"); }

static void write_digits(void) { write_filled("thread x properties Period=>9", "9", ".0 sec;end x;\n"); }

static void write_priority(void) { write_filled("thread x properties Priority=>0", "0", "255;end x;\n"); }

static void write_path(void) { write_filled("package p properties p", "::p", "=>1;\nend p;\n"); }

typedef struct {
    const char *name, *what;
    void (*write)(void);
} Kind;

static const Kind kinds[] = {
    { "beginnings", "types, names of 66 bytes that differ late", write_beginnings },
    { "long-names", "types, names of 506 bytes that differ late", write_long_names },
    { "types", "types with short names", write_types },
    { "chains", "threads whose types extend the next ones", write_chains },
    { "ports", "ports of the eighth type, asked for", write_ports },
    { "connections", "connections of two threads, a port each", write_connections },
    { "alike", "the same connection again and again", write_alike },
    { "threads", "threads, and named connections of them", write_threads },
    { "unknown", "connections of unknown threads", write_unknown },
    { "colliding-types", "types whose hashes begin alike", write_colliding_types },
    { "colliding-ports", "connections whose hashes begin alike", write_colliding_ports },
    { "deep", "lists in records, depth 8", write_deep },
    { "brackets", "brackets, depth 8", write_brackets },
    { "list", "one list", write_list },
    { "tiny", "tiny data types", write_tiny },
    { "tiny-threads", "threads with one name", write_tiny_threads },
    { "associations", "one property again and again", write_associations },
    { "sections", "sections of one type", write_sections },
    { "annexes", "annexes that nothing closes", write_annexes },
    { "closed", "annexes that are closed at once", write_closed },
    { "quotes", "a quote in each line", write_quotes },
    { "quotes-in-line", "quotes in one line", write_quotes_in_line },
    { "only-quotes", "nothing but quotes in one line", write_only_quotes },
    { "reaching", "Period in a process, nothing applies", write_reaching },
    { "reached", "Period in a process, and it applies", write_reached },
    { "comments", "empty comments", write_comments },
    { "blanks", "blanks", write_blanks },
    { "signs", "signs that nearly are longer", write_signs },
    { "word", "one word", write_word },
    { "digits", "one time", write_digits },
    { "priority", "one priority", write_priority },
    { "path", "one property's name", write_path },
};
enum { KINDS = sizeof kinds / sizeof *kinds };

static int finish(void)
{
    while (length < limit)
        put("\n");
    if (length != limit) {
        fprintf(stderr, "texts: %zu bytes in place of %zu\n", length, limit);
        return 1;
    }
    return fwrite(text, 1, length, stdout) == length && fflush(stdout) == 0 ? 0 : 1;
}

int main(int count, char **word)
{
    if (count == 3 && strcmp(word[1], "ordinary") == 0) {
        limit = strtoull(word[2], NULL, 10);
        if (limit >= 8192 && limit <= MOST_BYTES) {
            write_ordinary();
            return finish();
        }
    }
    if (count == 2 && strcmp(word[1], "kinds") == 0) {
        for (unsigned i = 0; i < KINDS; i++)
            printf("%s %s\n", kinds[i].name, kinds[i].what);
        return 0;
    }
    for (unsigned i = 0; count == 2 && i < KINDS; i++)
        if (strcmp(word[1], kinds[i].name) == 0) {
            kinds[i].write();
            return finish();
        }
    fputs("texts: ordinary BYTES (8192 to 262144), kinds, or one of the kinds\n", stderr);
    return 2;
}
