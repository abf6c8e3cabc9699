/*
 * harness.c: calls the planner from C and checks what each call answers and leaves against planner.h, document 01 and
 * requests of document 02: E1 (a refusal as one English line), E2 (the beacon takes its time too), E3 (surveyed trees), E4
 * (exchange times from a table), E5 (tries that may fail).
 *
 *     harness ROWS.TXT SEED CALLS
 *
 * 1. The rows of the file, as the commissioning laptop's program would plan them. Standard output has what program
 *    'plan' of document 01 prints for that file, and nothing else; all other output goes to standard error.
 * 2. CALLS rows of noise from a generator that starts with SEED. The same SEED makes the same calls again.
 * 3. Pointers that are NULL, or that point to memory nobody may touch, each beside length 0.
 * 4. The deepest rows, in a thread with little stack.
 * 5. Refusals that are given by number and place.
 * 6. Surveyed trees: P2 as a list, noise, NULL, the longest chain in a thread with little stack.
 * 7. The table of exchange times, and numbers outside it.
 * 8. Rows under 13 names and trees with LOSS whose answers are known.
 *
 * In the first four parts, the sixth and the eighth each row or list is also put into words, and the words are read
 * back.
 *
 * The library is not built with the sanitizers. So that a byte read or written outside is seen nevertheless, names,
 * row, text and line each lie in memory of their own between two pages that nobody may touch, close against one of
 * them.
 *
 * The exit status is 0 where all is well, 1 where something is not (the report names it), 2 where the file cannot be
 * read or memory is short.
 */
#define _DEFAULT_SOURCE
#include "planner.h"

#include <inttypes.h>
#include <pthread.h>
#include <signal.h>
#include <stdbool.h>
#include <stdio.h>
#include <stdlib.h>
#include <string.h>
#include <sys/mman.h>
#include <unistd.h>

#define NAMES "BO SO H NR NE OWN SINK BURST RATE HEAD DATA ACK"
#define LOSS_NAMES NAMES " LOSS"
#define COLUMNS 13 /* with LOSS */
#define HEADER "KIND DEPTH RATE BURST SLOTS FRAMES LATENCY BUFFER DELAY\n"
#define PLANNED_LINE "The row is planned."

#define LONGEST_FILE 65536 /* number 9 of document 01: the program takes no more */
#define LONGEST_NOISE 16384
#define LONGEST_TREE_LOAN 49000 /* a little more than the longest text of a tree */
#define LONGEST_LOAN 4600 /* a little more than the longest text */
#define LONGEST_LINE 400  /* more than the longest line */
#define WATCH_SECONDS 60  /* "every call returns": so long we wait for it */

/* Bytes that somebody else holds. */
struct slice {
    const uint8_t *at;
    size_t length;
};

/* Bytes that are handed over as names or as a row. */
struct input {
    uint8_t bytes[LONGEST_FILE];
    size_t length;
};

/* Memory between two pages that nobody may touch. */
struct region {
    const char *name;
    uint8_t *bytes;
    size_t size;
};

/* Column by column, the ranges of document 01 and that of LOSS. */
static const struct {
    unsigned low, high;
} ranges[COLUMNS] = {{0, 14},  {0, 14},   {0, 12},  {0, 7},   {0, 7}, {0, 1}, {0, 12},
                     {1, 255}, {1, 4095}, {5, 126}, {1, 122}, {0, 1}, {0, 7}};

static const planner_answer too_short = {.number = 8, .place = 0, .length = 0};

static uint64_t seed;
static size_t page;
static struct region names_region = {.name = "the names"}, row_region = {.name = "the row"},
                     text_region = {.name = "the text"}, line_region = {.name = "the line"},
                     reason_region = {.name = "the line that is read"};

/* What is being called at the moment, for the report. */
static struct {
    const char *part;
    uint64_t call;
    struct slice names, row, line;
    size_t text_length, line_length;
    planner_answer check, plan, explain;
    planner_refusal asked, read;
    uint32_t beside[7]; /* in parts 6 and 8, where the list is reported as the row: BO SO HEAD DATA ACK SINK LOSS */
} now = {.part = "start"};

/* How often planner_plan_row and planner_explain_row gave each number, and how many lines were read. */
static uint64_t answered[9], explained[9], lines_read;

/* ---- The report of a failure. It is also written from a signal handler, so it uses nothing but write. ---- */

static char report[10 * LONGEST_FILE];
static size_t report_length;

static void say_byte(char byte)
{
    if (report_length < sizeof report)
        report[report_length++] = byte;
}

static void say(const char *text)
{
    while (*text != '\0')
        say_byte(*text++);
}

static void say_number(uint64_t number)
{
    if (number >= 10)
        say_number(number / 10);
    say_byte((char)('0' + number % 10));
}

/* Printable characters as they are, all others and the backslash as \xHH. */
static void say_escaped(struct slice bytes)
{
    static const char digits[] = "0123456789abcdef";
    say_byte('"');
    for (size_t i = 0; i < bytes.length; i++) {
        uint8_t byte = bytes.at[i];
        if (byte >= 0x20 && byte < 0x7f && byte != '\\' && byte != '"') {
            say_byte((char)byte);
        } else {
            say("\\x");
            say_byte(digits[byte >> 4]);
            say_byte(digits[byte & 15]);
        }
    }
    say_byte('"');
}

static void say_answer(const char *name, planner_answer answer)
{
    say(name);
    say(": number ");
    say_number(answer.number);
    say(", place ");
    say_number(answer.place);
    say(", length ");
    say_number(answer.length);
    say("\n");
}

static void say_refusal(const char *name, planner_refusal refusal)
{
    say(name);
    say(": number ");
    say_number(refusal.number);
    say(", place ");
    say_number(refusal.place);
    say("\n");
}

static void send_report(void)
{
    size_t sent = 0;
    while (sent < report_length) {
        ssize_t n = write(STDERR_FILENO, report + sent, report_length - sent);
        if (n <= 0)
            return;
        sent += (size_t)n;
    }
}

/* Behind "FAILED: " and what failed: the call, so that it can be made again. */
static void report_call(void)
{
    say("\npart: ");
    say(now.part);
    say("\nseed: ");
    say_number(seed);
    say("\ncall: ");
    say_number(now.call);
    say("\nnames: ");
    say_escaped(now.names);
    say("\nrow: ");
    say_escaped(now.row);
    say("\nlength of text: ");
    say_number(now.text_length);
    say("\nlength of line: ");
    say_number(now.line_length);
    say("\nlatest line to be read: ");
    say_escaped(now.line);
    say("\n");
    say_answer("planner_check_row, latest answer", now.check);
    say_answer("planner_plan_row, latest answer", now.plan);
    say_answer("planner_explain_row or planner_explain_refusal, latest answer", now.explain);
    say_refusal("planner_explain_refusal, latest call", now.asked);
    say_refusal("planner_read_reason, latest answer", now.read);
    say("beside a list:");
    for (size_t i = 0; i < sizeof now.beside / sizeof now.beside[0]; i++) {
        say(" ");
        say_number(now.beside[i]);
    }
    say("\n");
    send_report();
}

static _Noreturn void fail(const char *what)
{
    fflush(stdout);
    say("FAILED: ");
    say(what);
    report_call();
    _exit(1);
}

static void require(bool holds, const char *what)
{
    if (!holds)
        fail(what);
}

/* For what is not the library's fault: no memory, no file. */
static _Noreturn void stop(const char *what)
{
    perror(what);
    exit(2);
}

/* ---- Memory between guard pages ---- */

static void protect(const struct region *region, int how)
{
    if (mprotect(region->bytes, region->size, how) != 0)
        stop("mprotect");
}

static void make_region(struct region *region, size_t size)
{
    uint8_t *all;
    region->size = (size + page - 1) / page * page;
    all = mmap(NULL, region->size + 2 * page, PROT_NONE, MAP_PRIVATE | MAP_ANONYMOUS, -1, 0);
    if (all == MAP_FAILED)
        stop("mmap");
    region->bytes = all + page;
    protect(region, PROT_READ | PROT_WRITE);
}

/* Where so many bytes lie: right behind the guard page in front, or right before the one at the end. */
static uint8_t *spot(const struct region *region, size_t length, bool in_front)
{
    return in_front ? region->bytes : region->bytes + (region->size - length);
}

/* Memory for a thread's stack; the fence is moved up to the bytes that are to be free (parts 4 and 6). */
static struct region stack_region = {.name = "the thread's stack"};

/* Memory for a tree's text (part 6). */
static struct region tree_region = {.name = "the tree's text"};

/* ---- Faults and calls that do not return ---- */

static const char *place_of_fault(const struct region *region, uintptr_t address)
{
    uintptr_t start = (uintptr_t)region->bytes;
    if (address < start - page || address >= start + region->size + page)
        return NULL;
    if (address < start)
        return ", before ";
    return address < start + region->size ? ", inside " : ", behind ";
}

static const char *name_of_signal(int number)
{
    switch (number) {
    case SIGALRM:
        return "a call did not return in time (SIGALRM)";
    case SIGABRT:
        return "the program was aborted (SIGABRT)";
    case SIGILL:
        return "an instruction that there is not (SIGILL)";
    case SIGFPE:
        return "a fault in arithmetic (SIGFPE)";
    default:
        return "memory was touched that may not be (SIGSEGV, SIGBUS)";
    }
}

static void on_signal(int number, siginfo_t *info, void *context)
{
    const struct region *regions[] = {&names_region,  &row_region,   &text_region, &line_region,
                                      &reason_region, &stack_region, &tree_region};
    (void)context;
    say("FAILED: ");
    say(name_of_signal(number));
    for (size_t i = 0; i < sizeof regions / sizeof regions[0] && (number == SIGSEGV || number == SIGBUS); i++) {
        const char *place = place_of_fault(regions[i], (uintptr_t)info->si_addr);
        if (place != NULL) {
            say(place);
            say(regions[i]->name);
        }
    }
    report_call();
    _exit(1);
}

/* A handler needs a stack of its own where the thread's is used up. The sanitizers bring one; else this is taken. */
static void have_signal_stack(uint8_t *bytes, size_t size)
{
    stack_t stack;
    if (sigaltstack(NULL, &stack) == 0 && (stack.ss_flags & SS_DISABLE) == 0)
        return;
    stack.ss_sp = bytes;
    stack.ss_size = size;
    stack.ss_flags = 0;
    if (sigaltstack(&stack, NULL) != 0)
        stop("sigaltstack");
}

static void catch_signals(void)
{
    static uint8_t signal_stack[65536];
    static const int numbers[] = {SIGSEGV, SIGBUS, SIGILL, SIGFPE, SIGABRT, SIGALRM};
    struct sigaction action;
    memset(&action, 0, sizeof action);
    action.sa_sigaction = on_signal;
    action.sa_flags = SA_SIGINFO | SA_ONSTACK;
    sigemptyset(&action.sa_mask);
    have_signal_stack(signal_stack, sizeof signal_stack);
    for (size_t i = 0; i < sizeof numbers / sizeof numbers[0]; i++)
        if (sigaction(numbers[i], &action, NULL) != 0)
            stop("sigaction");
}

/* ---- What an answer must look like ---- */

static bool same_answer(planner_answer a, planner_answer b)
{
    return a.number == b.number && a.place == b.place && a.length == b.length;
}

static bool names_are(const char *line)
{
    return now.names.length == strlen(line) && memcmp(now.names.at, line, strlen(line)) == 0;
}

/* The columns that the names name; none where they are wrong. */
static size_t columns_named(void)
{
    return names_are(NAMES) ? COLUMNS - 1 : names_are(LOSS_NAMES) ? COLUMNS : 0;
}

static bool place_fits(planner_answer a)
{
    switch (a.number) {
    case 2:
        return a.place >= 1 && a.place <= columns_named() + 1;
    case 3:
        return a.place >= 1 && a.place <= columns_named();
    case 4:
        return a.place == 2 || a.place == 4 || a.place == 5 || a.place == 7 || a.place == 11 ||
               (a.place == COLUMNS && columns_named() == COLUMNS);
    case 7:
        return a.place <= 12;
    default:
        return a.place == 0;
    }
}

static void check_answer(planner_answer a)
{
    require(a.number <= 8, "a number above 8");
    require(place_fits(a), "a place that does not fit the number");
    require((a.length > 0) == (a.number == 0), "a length with a refusal, or no length with a plan");
    require(a.length <= PLANNER_LONGEST_TEXT, "a length above PLANNER_LONGEST_TEXT");
}

/* What planner_plan_row has to answer where planner_check_row answered this. */
static planner_answer with_loan(planner_answer check, size_t text_length)
{
    return check.number == 0 && check.length > text_length ? too_short : check;
}

/* How often planner_plan_row has answered this: planned with LOSS above 0; else refused with this number and place. */
static struct {
    const char *name;
    uint64_t count;
} of_loss[] = {{"planned", 0}, {"2 13 under 12 names", 0}, {"2 13 under 13 names", 0},
               {"2 14", 0},    {"3 13", 0},                {"4 13", 0}};

#define OF_LOSS (sizeof of_loss / sizeof of_loss[0])

/* A planned row under 13 names ends with LOSS, which is one digit. */
static void count_loss(planner_answer a)
{
    bool named = columns_named() == COLUMNS;
    if (a.number == 0 && named && now.row.at[now.row.length - 1] != '0')
        of_loss[0].count++;
    else if (a.number == 2 && a.place == 13)
        of_loss[named ? 2 : 1].count++;
    else if (a.number == 2 && a.place == 14)
        of_loss[3].count++;
    else if (a.number == 3 && a.place == 13)
        of_loss[4].count++;
    else if (a.number == 4 && a.place == 13)
        of_loss[5].count++;
}

/* Both functions of the library that plan, with all that can be said of the answers alone. */
static planner_answer check_row(const uint8_t *names, size_t names_length, const uint8_t *row, size_t row_length)
{
    alarm(WATCH_SECONDS);
    now.check = planner_check_row(names, names_length, row, row_length);
    check_answer(now.check);
    require(now.check.number != 8, "number 8 from planner_check_row");
    require((now.check.number == 1) == (columns_named() == 0),
            "number 1 with the right names, or another with wrong ones");
    return now.check;
}

static planner_answer plan_row(const uint8_t *names, size_t names_length, const uint8_t *row, size_t row_length,
                               uint8_t *text, size_t text_length)
{
    alarm(WATCH_SECONDS);
    now.text_length = text_length;
    now.plan = planner_plan_row(names, names_length, row, row_length, text, text_length);
    check_answer(now.plan);
    require(now.plan.length <= text_length, "a length above the lent one");
    require(same_answer(now.plan, with_loan(now.check, text_length)),
            "planner_check_row and planner_plan_row do not agree");
    answered[now.plan.number]++;
    count_loss(now.plan);
    return now.plan;
}

/* ---- What a line must say: request E1 of document 02 ---- */

/* The line of a refusal that number and place alone determine; NULL for every other number and place. */
static const char *fixed_line(uint32_t number, uint32_t place)
{
    if (place == 0 && number == 1)
        return "The line of names differs or is missing.";
    if (place == 0 && number == 8)
        return "The lent buffer is shorter than the text to be written.";
    if (place == 0 && number == 9)
        return "The input is over 65,536 bytes.";
    return NULL;
}

static void read_reason(const uint8_t *line, size_t line_length, planner_refusal expected)
{
    now.read = planner_read_reason(line, line_length);
    require(now.read.number == expected.number && now.read.place == expected.place,
            "not the refusal that the line gives the reason of");
    lines_read++;
}

/* A line of printable bytes that ends with its period, and says what was answered: that it is planned, or a reason from which number and
 * place are had again. What words it has for them is the second implementation's to know (tests/compare). */
static void check_line(const uint8_t *line, size_t length, planner_answer a, const char *planned)
{
    require(length > 0 && length <= PLANNER_LONGEST_REASON, "a line longer than PLANNER_LONGEST_REASON, or none");
    for (size_t i = 0; i < length; i++)
        require(line[i] >= 32 && line[i] <= 126, "a byte in a line that cannot be printed");
    require(line[length - 1] == '.', "a line without its period");
    if (a.number == 0)
        require(length == strlen(planned) && memcmp(line, planned, length) == 0, "not the line that is due");
    read_reason(line, length, (planner_refusal){a.number, a.place});
}

/* The line of the row that was planned last; the time that was set for that call goes on. */
static planner_answer explain_row(const uint8_t *names, size_t names_length, const uint8_t *row, size_t row_length,
                                  uint8_t *line, size_t line_length)
{
    now.line_length = line_length;
    now.explain = planner_explain_row(names, names_length, row, row_length, line, line_length);
    require(now.explain.length <= line_length, "a length above the lent one");
    if (now.explain.number == 8) {
        require(same_answer(now.explain, too_short), "a place or a length with number 8");
        require(line_length < PLANNER_LONGEST_REASON, "PLANNER_LONGEST_REASON bytes are not enough");
    } else {
        require(now.explain.number == now.check.number && now.explain.place == now.check.place,
                "planner_check_row and planner_explain_row do not agree");
        check_line(line, (size_t)now.explain.length, now.check, PLANNED_LINE);
    }
    explained[now.explain.number]++;
    return now.explain;
}

/* ---- What a text must look like, and what must be unchanged ---- */

static void check_text(const uint8_t *text, size_t length)
{
    size_t header = strlen(HEADER), last;
    require(length > header && memcmp(text, HEADER, header) == 0, "the text does not begin with the header line");
    require(text[length - 1] == '\n', "the text does not end with a line feed");
    for (size_t i = 0; i < length; i++)
        require(text[i] == '\n' || (text[i] >= 0x20 && text[i] < 0x7f), "a byte in the text that is no text");
    for (last = length - 1; text[last - 1] != '\n'; last--)
        continue;
    require(text[last] == 'S' && text[last + 1] == ' ', "the text's last line is not the sink's");
}

/*
 * Lent memory is filled with one of these two beforehand. Where one has a byte the other has that byte's complement, so
 * that a byte written by mistake differs from at least one of them.
 */
static uint8_t *filling[2];

static void make_fillings(size_t size)
{
    filling[0] = malloc(size);
    filling[1] = malloc(size);
    if (filling[0] == NULL || filling[1] == NULL)
        stop("malloc");
    for (size_t i = 0; i < size; i++) {
        filling[0][i] = (uint8_t)(i * 37 + 11 + i / 256);
        filling[1][i] = (uint8_t)~filling[0][i];
    }
}

/* ---- The generator of noise ---- */

static uint64_t generator;

static uint64_t draw(void)
{
    uint64_t z = generator += UINT64_C(0x9e3779b97f4a7c15);
    z = (z ^ (z >> 30)) * UINT64_C(0xbf58476d1ce4e5b9);
    z = (z ^ (z >> 27)) * UINT64_C(0x94d049bb133111eb);
    return z ^ (z >> 31);
}

static size_t below(size_t limit)
{
    return (size_t)(draw() % limit);
}

static unsigned between(unsigned low, unsigned high)
{
    return low + (unsigned)below(high - low + 1);
}

static uint8_t draw_byte(void)
{
    static const char usual[] = "0123456789 ";
    return below(2) == 0 ? (uint8_t)usual[below(11)] : (uint8_t)below(256);
}

static void set_input(struct input *input, const void *bytes, size_t length)
{
    memcpy(input->bytes, bytes, length);
    input->length = length;
}

static void random_bytes(struct input *input, size_t length)
{
    for (size_t i = 0; i < length; i++)
        input->bytes[i] = (uint8_t)below(256);
    input->length = length;
}

static void digits_and_spaces(struct input *input, size_t length)
{
    for (size_t i = 0; i < length; i++)
        input->bytes[i] = below(3) == 0 ? ' ' : (uint8_t)('0' + below(10));
    input->length = length;
}

/* Bytes from 'from' on are moved to 'to'; the length follows. */
static void move_tail(struct input *input, size_t from, size_t to)
{
    memmove(input->bytes + to, input->bytes + from, input->length - from);
    input->length = input->length - from + to;
}

static void mutate(struct input *input)
{
    size_t at = below(input->length + 1), end = at + below(input->length - at + 1);
    switch (below(5)) {
    case 0: /* a byte changed */
        if (at < input->length)
            input->bytes[at] = draw_byte();
        break;
    case 1: /* a byte inserted */
        move_tail(input, at, at + 1);
        input->bytes[at] = draw_byte();
        break;
    case 2: /* a byte removed */
        if (at < input->length)
            move_tail(input, at + 1, at);
        break;
    case 3: /* cut off */
        input->length = at;
        break;
    default: /* the bytes from at to end doubled */
        move_tail(input, at, end);
        break;
    }
}

static void mutate_some(struct input *input)
{
    for (size_t n = 1 + below(3); n > 0; n--)
        if (2 * input->length < sizeof input->bytes)
            mutate(input);
}

/* The values that are put into a row: 12, or 13 with LOSS. */
static size_t drawn_columns = COLUMNS - 1;

static void add_value(struct input *row, unsigned value)
{
    int n = snprintf((char *)row->bytes + row->length, 16, row->length > 0 ? " %u" : "%u", value);
    row->length += (size_t)n;
}

static void write_settings(struct input *row, const unsigned *v)
{
    row->length = 0;
    for (size_t i = 0; i < drawn_columns; i++)
        add_value(row, v[i]);
}

/* Values within their ranges or at most one step outside: numbers 3 to 7, most of the time. */
static void any_settings(struct input *row)
{
    unsigned v[COLUMNS];
    for (size_t i = 0; i < drawn_columns; i++)
        v[i] = between(ranges[i].low, ranges[i].high);
    if (below(4) == 0) {
        size_t i = below(drawn_columns);
        v[i] = below(2) == 0 || ranges[i].low == 0 ? ranges[i].high + 1 : ranges[i].low - 1;
    }
    write_settings(row, v);
}

/* The smallest e with 2^e routers or more: so much has BO to be above SO (number 6 of document 01). */
static unsigned orders_apart(unsigned depth, unsigned children)
{
    unsigned routers = 1, level = 1, e = 0;
    for (unsigned i = 0; i < depth && routers < 20000; i++) {
        level *= children;
        routers += level;
    }
    while ((1u << e) < routers)
        e++;
    return e;
}

/* Values that pass the checks up to number 6, and often number 7 as well. */
static void likely_settings(struct input *row)
{
    unsigned v[COLUMNS], apart;
    do {
        v[2] = below(3) == 0 ? between(0, 12) : between(0, 4);
        v[3] = v[2] == 0 ? 0 : between(1, below(2) == 0 ? 2 : 7);
        apart = orders_apart(v[2], v[3]);
    } while (apart > 14);
    v[0] = between(apart, 14);
    v[1] = below(2) == 0 ? v[0] - apart : between(0, v[0] - apart);
    v[4] = between(0, below(2) == 0 ? 7 - v[3] : 7 - v[3] > 2 ? 2 : 7 - v[3]);
    v[5] = v[4] == 0 ? 1 : between(0, 1);
    v[6] = v[3] >= 2 ? between(0, v[2]) : 0;
    v[7] = between(1, 255);
    v[8] = below(4) == 0 ? between(1, 4095) : between(1, 4);
    v[9] = below(2) == 0 ? between(5, 20) : between(5, 126);
    v[10] = v[9] > 5 ? between(1, 127 - v[9]) : between(1, 122);
    v[11] = between(0, 1);
    v[12] = v[11] == 0 && below(8) > 0 ? 0 : between(0, 7);
    write_settings(row, v);
}

/* The file, and the line of it around some byte: further rows to start from. */
static uint8_t file_bytes[LONGEST_FILE + 1];
static size_t file_length;

static void line_of_file(struct input *row)
{
    size_t start, end;
    row->length = 0;
    if (file_length == 0)
        return;
    start = end = below(file_length);
    while (start > 0 && file_bytes[start - 1] != '\n')
        start--;
    while (end < file_length && end < start + LONGEST_NOISE / 2 && file_bytes[end] != '\n')
        end++;
    if (end > start)
        set_input(row, file_bytes + start, end - start);
}

static void good_row(struct input *row)
{
    if (below(4) > 0) {
        likely_settings(row);
        return;
    }
    line_of_file(row);
    if (drawn_columns == COLUMNS)
        add_value(row, between(0, 7));
}

/* Long rows: a good one with much behind it, one that repeats itself, or nothing but noise. */
static void long_row(struct input *row)
{
    size_t length = LONGEST_NOISE / 2 + below(LONGEST_NOISE / 2), kind = below(4);
    good_row(row);
    if (kind == 0) {
        digits_and_spaces(row, length);
    } else if (kind == 1) {
        random_bytes(row, length);
    } else if (kind == 2) {
        for (; row->length < length; row->length++)
            row->bytes[row->length] = ' ';
    } else {
        size_t first = row->length;
        row->bytes[first] = below(2) == 0 ? ' ' : '0';
        for (row->length = first + 1; row->length < length; row->length++)
            row->bytes[row->length] = row->bytes[row->length - first - 1];
    }
}

static void noise_row(struct input *row)
{
    switch (below(16)) {
    case 0:
        random_bytes(row, below(below(2) == 0 ? 8 : 200));
        break;
    case 1:
        digits_and_spaces(row, below(80));
        break;
    case 2:
        long_row(row);
        break;
    case 3:
    case 4:
    case 5:
        any_settings(row);
        break;
    case 6:
    case 7:
    case 8:
    case 9:
        good_row(row);
        mutate_some(row);
        break;
    default:
        good_row(row);
        break;
    }
}

/* The row that is drawn next mostly has as many values as there are names. */
static void noise_names(struct input *names)
{
    size_t kind = below(32);
    bool with_loss = below(2) == 0;
    const char *line = with_loss ? LOSS_NAMES : NAMES;
    drawn_columns = with_loss != (below(16) == 0) ? COLUMNS : COLUMNS - 1;
    set_input(names, line, strlen(line));
    if (kind == 0)
        names->length = 0;
    else if (kind == 1)
        random_bytes(names, below(100));
    else if (kind <= 4)
        mutate_some(names);
}

/* ---- A call between guard pages, made twice ---- */

static struct input names_input, row_input, line_input;

/* What the calls gave. */
struct outcome {
    planner_answer check, plan, explain;
    uint8_t text[PLANNER_LONGEST_TEXT];
    uint8_t line[PLANNER_LONGEST_REASON];
};

/* Copies the input to its region and takes away the right to write there. */
static const uint8_t *hand_over(const struct region *region, const struct input *input, bool in_front)
{
    uint8_t *at = spot(region, input->length, in_front);
    protect(region, PROT_READ | PROT_WRITE);
    memcpy(at, input->bytes, input->length);
    protect(region, PROT_READ);
    return at;
}

/* The whole region has its filling but for the text: nothing was written before the text nor behind it. */
static void check_rest(const struct region *region, const uint8_t *text, size_t length, const uint8_t *fill)
{
    size_t before = (size_t)(text - region->bytes), behind = before + length;
    require(memcmp(region->bytes, fill, before) == 0, "a byte before the lent memory was changed");
    require(memcmp(region->bytes + behind, fill + behind, region->size - behind) == 0,
            length > 0 ? "a byte behind the text was changed" : "a byte was changed although no text was due");
}

/* The row's line: in the longest room that a line needs, in its own length, and in one byte less or in none. */
static void explain_between_guards(const uint8_t *names, const uint8_t *row, bool in_front, const uint8_t *fill,
                                   struct outcome *outcome)
{
    size_t rooms[3] = {PLANNER_LONGEST_REASON, 0, 0};
    for (size_t i = 0; i < 3; i++) {
        uint8_t *line = spot(&line_region, rooms[i], in_front);
        memcpy(line_region.bytes, fill, line_region.size);
        explain_row(names, names_input.length, row, row_input.length, line, rooms[i]);
        check_rest(&line_region, line, (size_t)now.explain.length, fill);
        if (i == 0) {
            outcome->explain = now.explain;
            memcpy(outcome->line, line, (size_t)now.explain.length);
            rooms[1] = (size_t)now.explain.length;
            rooms[2] = below(4) == 0 ? 0 : rooms[1] - 1;
        }
        require(same_answer(now.explain, i < 2 ? outcome->explain : too_short), "another answer for another room");
    }
}

/* One call. Each of the lowest three bits of sides says of names, row and text or line whether it lies in front. */
static void call_between_guards(unsigned sides, const uint8_t *fill, size_t text_length, struct outcome *outcome)
{
    const uint8_t *names = hand_over(&names_region, &names_input, (sides & 1) != 0);
    const uint8_t *row = hand_over(&row_region, &row_input, (sides & 2) != 0);
    uint8_t *text = spot(&text_region, text_length, (sides & 4) != 0);
    memcpy(text_region.bytes, fill, text_region.size);
    outcome->check = check_row(names, names_input.length, row, row_input.length);
    outcome->plan = plan_row(names, names_input.length, row, row_input.length, text, text_length);
    check_rest(&text_region, text, (size_t)outcome->plan.length, fill);
    if (outcome->plan.number == 0)
        check_text(text, (size_t)outcome->plan.length);
    memcpy(outcome->text, text, (size_t)outcome->plan.length);
    explain_between_guards(names, row, (sides & 4) != 0, fill, outcome);
    require(memcmp(names, names_input.bytes, names_input.length) == 0, "the names were changed");
    require(memcmp(row, row_input.bytes, row_input.length) == 0, "the row was changed");
}

/* Reads line_input between guard pages. */
static void read_between_guards(bool in_front, planner_refusal expected)
{
    uint8_t *line = spot(&reason_region, line_input.length, in_front);
    memcpy(line, line_input.bytes, line_input.length);
    now.line = (struct slice){line_input.bytes, line_input.length};
    read_reason(line, line_input.length, expected);
    require(memcmp(line, line_input.bytes, line_input.length) == 0, "the line was changed");
}

/* Puts a digit in front of the last number in line_input. */
static void lengthen_last_number(uint8_t digit)
{
    size_t start = line_input.length;
    while (start > 0 && (line_input.bytes[start - 1] < '0' || line_input.bytes[start - 1] > '9'))
        start--;
    while (start > 0 && line_input.bytes[start - 1] >= '0' && line_input.bytes[start - 1] <= '9')
        start--;
    move_tail(&line_input, start, start + 1);
    line_input.bytes[start] = digit;
}

/*
 * Changes line_input, the line of a row, in one of six ways. True where it still gives the reason of the same refusal:
 * in numbers 3 to 7 the last number is a value, which may be any, but without a leading zero. A front of a line is no
 * reason, nor is a line with more behind it, since the last byte of each is its only period.
 */
static bool damage_line(uint32_t number, size_t way)
{
    bool has_values = number >= 3 && number <= 7;
    if (way == 0 && has_values)
        lengthen_last_number((uint8_t)('1' + below(9)));
    else if (way == 1 && has_values)
        lengthen_last_number('0');
    else if (way == 2)
        line_input.bytes[line_input.length++] = draw_byte();
    else if (way == 3)
        line_input.bytes[below(line_input.length)] |= 0x80;
    else if (way == 4)
        line_input.length = below(line_input.length);
    else
        line_input.length--;
    return way == 0 && has_values;
}

/* The line of the row is read back, and then after a change, and so is the row itself, which is no line. */
static void read_lines(const struct outcome *outcome, bool in_front)
{
    planner_refusal refusal = {outcome->explain.number, outcome->explain.place}, none = {0, 0};
    set_input(&line_input, outcome->line, (size_t)outcome->explain.length);
    read_between_guards(in_front, refusal);
    if (damage_line(refusal.number, below(6)))
        read_between_guards(in_front, refusal);
    else
        read_between_guards(in_front, none);
    set_input(&line_input, row_input.bytes, row_input.length);
    read_between_guards(in_front, none);
}

/* The same call twice: the second time at the other guard pages, and with the other filling. */
static void call_twice(unsigned sides, size_t text_length)
{
    static struct outcome first, second;
    now.names = (struct slice){names_input.bytes, names_input.length};
    now.row = (struct slice){row_input.bytes, row_input.length};
    now.text_length = text_length;
    call_between_guards(sides, filling[0], text_length, &first);
    call_between_guards(sides ^ 7, filling[1], text_length, &second);
    require(same_answer(first.check, second.check), "planner_check_row answered the same call in two ways");
    require(same_answer(first.plan, second.plan), "planner_plan_row answered the same call in two ways");
    require(memcmp(first.text, second.text, (size_t)first.plan.length) == 0, "the same call gave two texts");
    require(same_answer(first.explain, second.explain), "planner_explain_row answered the same call in two ways");
    require(memcmp(first.line, second.line, (size_t)first.explain.length) == 0, "the same call gave two lines");
    read_lines(&first, (sides & 4) != 0);
}

/* ---- Part 1: the rows of the file ---- */

static uint8_t first_text[PLANNER_LONGEST_TEXT];

/* Lends exactly so many bytes, allocated for this one call; the text is also put to first_text where it is planned. */
static void lend(struct slice names, struct slice row, size_t length, planner_answer expected)
{
    uint8_t *text = malloc(length);
    if (text == NULL && length > 0)
        stop("malloc");
    if (length > 0)
        memcpy(text, filling[0], length);
    plan_row(names.at, names.length, row.at, row.length, text, length);
    require(same_answer(now.plan, expected), "not the answer that was expected");
    if (now.plan.number == 0) {
        check_text(text, (size_t)now.plan.length);
        memcpy(first_text, text, (size_t)now.plan.length);
    }
    for (size_t i = (size_t)now.plan.length; i < length; i++)
        require(text[i] == filling[0][i], "a byte that is not of the text was changed");
    free(text);
}

/* A planned row: exactly the text's length, one byte less, some more. The text is printed. */
static void planned_row(struct slice names, struct slice row, planner_answer planned)
{
    static uint8_t printed[PLANNER_LONGEST_TEXT];
    size_t length = (size_t)planned.length;
    lend(names, row, length, planned);
    memcpy(printed, first_text, length);
    fwrite(printed, 1, length, stdout);
    lend(names, row, length - 1, too_short);
    lend(names, row, length + 100, planned);
    require(memcmp(printed, first_text, length) == 0, "a longer buffer gave another text");
}

static void row_of_file(struct slice names, struct slice row)
{
    planner_answer a;
    now.call++;
    now.names = names;
    now.row = row;
    a = check_row(names.at, names.length, row.at, row.length);
    if (a.number == 0) {
        planned_row(names, row, a);
    } else {
        printf("R %" PRIu32 " %" PRIu32 "\n", a.number, a.place);
        lend(names, row, PLANNER_LONGEST_TEXT, a);
        lend(names, row, 0, a);
    }
    set_input(&names_input, names.at, names.length);
    set_input(&row_input, row.at, row.length);
    for (unsigned sides = 0; sides < 8; sides++) {
        call_twice(sides, (size_t)a.length);
        call_twice(sides, (size_t)(a.length > 0 ? a.length - 1 : 1));
        call_twice(sides, LONGEST_LOAN);
    }
}

/* The line that starts there, without its line feed. */
static struct slice line_at(size_t start)
{
    const uint8_t *feed = memchr(file_bytes + start, '\n', file_length - start);
    size_t end = feed != NULL ? (size_t)(feed - file_bytes) : file_length;
    return (struct slice){file_bytes + start, end - start};
}

/* Document 01: after number 1 or 9 one line is all; an empty rest after a line feed is no row. */
static void rows_of_file(void)
{
    struct slice names = line_at(0), row;
    now.part = "1, rows of the file";
    now.names = names;
    if (file_length > LONGEST_FILE) {
        puts("R 9 0");
    } else if (check_row(names.at, names.length, NULL, 0).number == 1) {
        puts("R 1 0");
    } else {
        for (size_t at = names.length + 1; at < file_length; at += row.length + 1) {
            row = line_at(at);
            row_of_file(names, row);
        }
    }
    if (fflush(stdout) != 0)
        stop("standard output");
}

/* ---- Part 2: noise ---- */

/* Any length; or, as often, none or one about the text's own, where a mistake by one shows. */
static size_t noise_length(void)
{
    planner_answer a;
    size_t kind = below(8);
    if (kind < 4)
        return below(LONGEST_LOAN + 1);
    if (kind == 4)
        return 0;
    a = planner_check_row(names_input.bytes, names_input.length, row_input.bytes, row_input.length);
    if (a.number != 0 || a.length > LONGEST_LOAN)
        return below(LONGEST_LOAN + 1);
    return (size_t)(kind == 5 ? a.length : kind == 6 ? a.length - 1 : a.length + below(4));
}

static void noise(uint64_t calls)
{
    now.part = "2, noise";
    for (now.call = 1; now.call <= calls; now.call++) {
        noise_names(&names_input);
        noise_row(&row_input);
        now.names = (struct slice){names_input.bytes, names_input.length};
        now.row = (struct slice){row_input.bytes, row_input.length};
        call_twice((unsigned)below(8), noise_length());
    }
    for (size_t number = 0; number <= 8 && calls >= 10000; number++)
        require(answered[number] > 0 && explained[number] > 0,
                "a number that so much noise should have met was never answered");
    for (size_t i = 0; i < OF_LOSS && calls >= 10000; i++)
        require(of_loss[i].count > 0, "an answer about LOSS that so much noise should have met was never given");
}

/* ---- Part 3: nothing handed over ---- */

/* A thing handed over as it should be (0); or with length 0 as NULL (1) or as a pointer that may not be used (2). */
static struct slice thing(unsigned way, const void *bytes, size_t length)
{
    struct slice given = {bytes, length}, null = {NULL, 0}, guard = {text_region.bytes + text_region.size, 0};
    return way == 0 ? given : way == 1 ? null : guard;
}

/* No names: 1. A row without values: 2, place 1. No room for a text: 8. The first that applies; for a line, 8 first. */
static planner_answer answer_to_nothing(unsigned names, unsigned row, unsigned text)
{
    planner_answer a = {0, 0, now.check.length};
    if (names != 0)
        a = (planner_answer){1, 0, 0};
    else if (row != 0)
        a = (planner_answer){2, 1, 0};
    else if (text != 0)
        a = (planner_answer){8, 0, 0};
    return a;
}

static void hand_over_nothing(unsigned names_way, unsigned row_way, unsigned text_way)
{
    static const char example[] = "8 4 1 2 1 0 0 1 1 19 7 0";
    static uint8_t text[PLANNER_LONGEST_TEXT], line[PLANNER_LONGEST_REASON];
    struct slice lent = thing(text_way, text, sizeof text), lent_line = thing(text_way, line, sizeof line);
    now.call++;
    now.names = thing(names_way, NAMES, strlen(NAMES));
    now.row = thing(row_way, example, strlen(example));
    memcpy(text, filling[0], sizeof text);
    check_row(now.names.at, now.names.length, now.row.at, now.row.length);
    require(same_answer(now.check, answer_to_nothing(names_way, row_way, 0)), "not the answer that planner.h names");
    plan_row(now.names.at, now.names.length, now.row.at, now.row.length, (uint8_t *)(uintptr_t)lent.at, lent.length);
    require(same_answer(now.plan, answer_to_nothing(names_way, row_way, text_way)),
            "not the answer that planner.h names");
    require(memcmp(text + now.plan.length, filling[0] + now.plan.length, sizeof text - now.plan.length) == 0,
            "a byte that is not of the text was changed");
    memcpy(line, filling[0], sizeof line);
    explain_row(now.names.at, now.names.length, now.row.at, now.row.length, (uint8_t *)(uintptr_t)lent_line.at,
                lent_line.length);
    require((now.explain.number == 8) == (text_way != 0), "not the answer that planner.h names");
    require(memcmp(line + now.explain.length, filling[0] + now.explain.length, sizeof line - now.explain.length) == 0,
            "a byte that is not of the line was changed");
}

/* No line to read is no reason. No room for the line of a refusal: 8, but only where it has one. */
static void hand_over_no_line(unsigned way)
{
    struct slice nothing = thing(way, NULL, 0);
    now.call++;
    now.line = nothing;
    read_reason(nothing.at, nothing.length, (planner_refusal){0, 0});
    for (uint32_t number = 0; number <= 20; number++) {
        planner_answer none = {0, 0, 0};
        now.asked = (planner_refusal){number, 0};
        now.explain = planner_explain_refusal(number, 0, (uint8_t *)(uintptr_t)nothing.at, nothing.length);
        require(same_answer(now.explain, fixed_line(number, 0) != NULL ? too_short : none),
                "not the answer that planner.h names");
    }
}

static void nothing_handed_over(void)
{
    now.part = "3, NULL and pointers that may not be used, beside length 0";
    now.call = 0;
    for (unsigned way = 0; way < 27; way++)
        hand_over_nothing(way % 3, way / 3 % 3, way / 9);
    hand_over_no_line(1);
    hand_over_no_line(2);
}

/* ---- Part 4: little stack ---- */

/*
 * planner.h: 16 KB of stack are free at the call. A thread whose whole stack has 16 KB cannot be had with the address
 * sanitizer: it raises any smaller size to 128 KB and what it needs itself, without saying so. So the thread gets more,
 * and once it runs, all of its stack that is more than 16 KB below its own frame is made inaccessible (the fence).
 * Only whole pages can be, so up to one page more than 16 KB stays free. Therefore the free part is filled beforehand,
 * and afterwards the lowest changed byte says how much was used: it must be 16 KB or less. For trees (part 6) it is
 * more than 16 KB.
 */
#define FREE_STACK 16384
#define MORE_STACK (31 * FREE_STACK) /* for the thread, beside what is free at the call */
#define STACK_FILL 0xa5
#define KEPT_STACK 1024 /* not filled: the filling function's own frame lies there */
#define DEEP_ROWS 5
#define DEEP_CALLS 6000

static struct deep_row {
    const char *names;
    char row[64];
    planner_answer expected, explained;
    uint8_t text[PLANNER_LONGEST_TEXT];
    uint8_t line[PLANNER_LONGEST_REASON];
} deep_rows[DEEP_ROWS];

static uint8_t deep_text[PLANNER_LONGEST_TEXT], deep_line[PLANNER_LONGEST_REASON];
static const char *deep_failure;
static size_t deep_allowed, deep_free, deep_used;
static void (*deep_work)(void);

static void name_deep_row(const struct deep_row *deep)
{
    now.names = (struct slice){(const uint8_t *)deep->names, strlen(deep->names)};
    now.row = (struct slice){(const uint8_t *)deep->row, strlen(deep->row)};
}

static planner_answer check_deep_row(const struct deep_row *deep)
{
    name_deep_row(deep);
    return check_row(now.names.at, now.names.length, now.row.at, now.row.length);
}

/*
 * With NR 2 the rates about double with each depth, and number 7 ends it. The least load goes deepest: one frame an
 * interval from each router, no end nodes, the shortest frames.
 */
static void find_deepest(struct deep_row *deep)
{
    for (int depth = 12; depth > 0; depth--)
        for (int sink = depth; sink > 0; sink--)
            for (int order = 0; order < 14; order++) {
                snprintf(deep->row, sizeof deep->row, "14 %d %d 2 0 1 %d 255 1 5 1 0", order, depth, sink);
                if (check_deep_row(deep).number == 0)
                    return;
            }
    fail("no row with a sink below the root is planned");
}

/* The same call with all the stack of the main thread says what to expect. */
static void expect_of(struct deep_row *deep, uint32_t number, uint32_t place)
{
    check_deep_row(deep);
    require(now.check.number == number && now.check.place == place, "a deep row is not answered as document 01 has it");
    deep->expected =
        plan_row(now.names.at, now.names.length, now.row.at, now.row.length, deep->text, sizeof deep->text);
    deep->explained =
        explain_row(now.names.at, now.names.length, now.row.at, now.row.length, deep->line, sizeof deep->line);
}

static void make_deep_rows(void)
{
    for (size_t i = 0; i < DEEP_ROWS; i++)
        deep_rows[i].names = i < 4 ? NAMES : LOSS_NAMES;
    snprintf(deep_rows[0].row, sizeof deep_rows[0].row, "14 10 12 1 6 1 0 255 3 5 1 0");
    find_deepest(&deep_rows[1]);
    snprintf(deep_rows[2].row, sizeof deep_rows[2].row, "14 1 12 2 0 1 12 255 1 5 1 0");
    snprintf(deep_rows[3].row, sizeof deep_rows[3].row, "14 6 7 2 1 0 7 1 1 55 1 1");
    snprintf(deep_rows[4].row, sizeof deep_rows[4].row, "14 10 12 1 6 1 0 255 3 5 1 1 7");
    expect_of(&deep_rows[0], 0, 0);
    expect_of(&deep_rows[1], 0, 0);
    expect_of(&deep_rows[2], 7, 0);
    expect_of(&deep_rows[3], 7, 6);
    expect_of(&deep_rows[4], 0, 0);
}

/* Answers the lowest byte that is free. */
static uint8_t *raise_fence(const uint8_t *frame)
{
    size_t above = (size_t)(stack_region.bytes + stack_region.size - frame);
    size_t fenced = (stack_region.size - above - deep_allowed) / page * page;
    if (above + deep_allowed > stack_region.size || mprotect(stack_region.bytes, fenced, PROT_NONE) != 0)
        stop("the thread's stack");
    return stack_region.bytes + fenced;
}

/* These two touch the stack below the frames in use, and so call nothing. */
static void fill_stack(volatile uint8_t *low, const volatile uint8_t *high)
{
    while (low < high)
        *low++ = STACK_FILL;
}

static const volatile uint8_t *lowest_changed(const volatile uint8_t *low, const volatile uint8_t *high)
{
    while (low < high && *low == STACK_FILL)
        low++;
    return low;
}

static void call_deep(const struct deep_row *deep)
{
    planner_answer a;
    name_deep_row(deep);
    a = planner_plan_row(now.names.at, now.names.length, now.row.at, now.row.length, deep_text, sizeof deep_text);
    now.plan = a;
    if (!same_answer(a, deep->expected) || memcmp(deep_text, deep->text, (size_t)a.length) != 0)
        deep_failure = "with little stack the answer or the text is another";
    else
        answered[a.number]++;
}

/* The row's line, what is read from it, and the line of a refusal that is given by its number. */
static void explain_deep(const struct deep_row *deep)
{
    planner_answer a =
        planner_explain_row(now.names.at, now.names.length, now.row.at, now.row.length, deep_line, sizeof deep_line);
    now.explain = a;
    if (!same_answer(a, deep->explained) || memcmp(deep_line, deep->line, (size_t)a.length) != 0)
        deep_failure = "with little stack the answer or the line is another";
    else
        explained[a.number]++;
    now.read = planner_read_reason(deep_line, (size_t)a.length);
    if (now.read.number != a.number || now.read.place != a.place)
        deep_failure = "with little stack another refusal is read";
    if (planner_explain_refusal(8, 0, deep_line, sizeof deep_line).length != strlen(fixed_line(8, 0)))
        deep_failure = "with little stack the line of number 8 is another";
}

static void call_deep_rows(void)
{
    for (now.call = 1; now.call <= DEEP_CALLS && deep_failure == NULL; now.call++) {
        call_deep(&deep_rows[now.call % DEEP_ROWS]);
        explain_deep(&deep_rows[now.call % DEEP_ROWS]);
    }
}

static void *deep_calls(void *unused)
{
    uint8_t *frame = __builtin_frame_address(0), *low = raise_fence(frame);
    fill_stack(low, frame - KEPT_STACK);
    deep_work();
    deep_free = (size_t)(frame - low);
    deep_used = (size_t)(frame - lowest_changed(low, frame));
    protect(&stack_region, PROT_READ | PROT_WRITE);
    return unused;
}

/* The thread needs a stack for signals too, where the sanitizers do not bring one. */
static void *deep_thread(void *unused)
{
    static uint8_t signal_stack[65536];
    have_signal_stack(signal_stack, sizeof signal_stack);
    return deep_calls(unused);
}

/* Makes these calls in a thread in which so many bytes of stack are free. */
static void with_stack(void (*work)(void), size_t allowed)
{
    pthread_t thread;
    pthread_attr_t how;
    deep_work = work;
    deep_allowed = allowed;
    make_region(&stack_region, allowed + MORE_STACK);
    alarm(WATCH_SECONDS);
    if (pthread_attr_init(&how) != 0 || pthread_attr_setstack(&how, stack_region.bytes, stack_region.size) != 0 ||
        pthread_create(&thread, &how, deep_thread, NULL) != 0 || pthread_join(thread, NULL) != 0)
        stop("thread");
    pthread_attr_destroy(&how);
    if (deep_failure != NULL)
        fail(deep_failure);
    require(deep_used <= allowed, "more stack was used than planner.h says");
    fprintf(stderr, "stack: a thread with a stack of %zu bytes, all but %zu below its frame fenced off\n",
            stack_region.size, deep_free);
    fprintf(stderr, "stack: %zu bytes were used, %zu are allowed\n", deep_used, allowed);
}

static void little_stack(void)
{
    now.part = "4, little stack";
    now.call = 0;
    make_deep_rows();
    with_stack(call_deep_rows, FREE_STACK);
    fprintf(stderr, "stack: %d calls; the rows:\n", DEEP_CALLS);
    for (size_t i = 0; i < DEEP_ROWS; i++)
        fprintf(stderr, "stack:   %s: number %" PRIu32 ", place %" PRIu32 "\n", deep_rows[i].row,
                deep_rows[i].expected.number, deep_rows[i].expected.place);
}

/* ---- Part 5: refusals by number and place ---- */

static void explain_refusal(planner_refusal asked, size_t room, bool in_front, const uint8_t *fill)
{
    const char *words = fixed_line(asked.number, asked.place);
    planner_answer expected = {0, 0, words != NULL ? strlen(words) : 0};
    uint8_t *line = spot(&line_region, room, in_front);
    now.call++;
    now.asked = asked;
    now.line_length = room;
    memcpy(line_region.bytes, fill, line_region.size);
    now.explain = planner_explain_refusal(asked.number, asked.place, line, room);
    require(same_answer(now.explain, room < expected.length ? too_short : expected),
            "not the answer that planner.h names");
    require(now.explain.length == 0 || memcmp(line, words, strlen(words)) == 0, "not the line that is due");
    check_rest(&line_region, line, (size_t)now.explain.length, fill);
}

/* Every length from 0 on where there is a line, else some, at both guard pages and with both fillings. */
static void every_room(planner_refusal asked)
{
    size_t step = fixed_line(asked.number, asked.place) != NULL ? 1 : PLANNER_LONGEST_REASON / 4;
    alarm(WATCH_SECONDS);
    for (size_t room = 0; room <= PLANNER_LONGEST_REASON; room += step)
        for (unsigned way = 0; way < 4; way++)
            explain_refusal(asked, room, (way & 1) != 0, filling[way / 2]);
}

static void refusals(void)
{
    static const uint32_t large[] = {99, 255, 256, 257, 264, 65537, 0x80000001, 0xffffffff};
    now.part = "5, refusals by number and place";
    now.call = 0;
    for (uint32_t number = 0; number <= 20; number++) {
        for (uint32_t place = 0; place <= 20; place++)
            every_room((planner_refusal){number, place});
        for (size_t i = 0; i < sizeof large / sizeof large[0]; i++) {
            every_room((planner_refusal){number, large[i]});
            every_room((planner_refusal){large[i], number});
        }
    }
    for (uint32_t number = 1; number <= 9; number++)
        if (fixed_line(number, 0) != NULL) {
            set_input(&line_input, fixed_line(number, 0), strlen(fixed_line(number, 0)));
            read_between_guards(number % 2 == 0, (planner_refusal){number, 0});
        }
}

/* ---- Part 6: surveyed trees, request E3 of document 02 ---- */

#define LIST_NAMES "NODE PARENT BURST RATE\n"
#define TREE_HEADER "KIND DEPTH RATE BURST SLOTS FRAMES LATENCY BUFFER DELAY ROUTE\n"
#define MOST_NODES 254
#define TREE_STACK 131072 /* what planner.h says of the entries for trees */
#define TREE_CALLS 200

#define BESIDE                                                                                                         \
    now.beside[0], now.beside[1], now.beside[2], now.beside[3], now.beside[4], now.beside[5], now.beside[6]

static uint64_t tree_answered[11];

static void set_beside(uint32_t bo, uint32_t so, uint32_t head, uint32_t data, uint32_t ack, uint32_t sink,
                       uint32_t loss)
{
    uint32_t values[7] = {bo, so, head, data, ack, sink, loss};
    memcpy(now.beside, values, sizeof values);
}

static void check_tree_answer(planner_answer a)
{
    bool fits = a.place == 0;
    if (a.number == 3)
        fits = a.place == 1 || a.place == 2 || (a.place >= 10 && a.place <= 13);
    else if (a.number == 4)
        fits = a.place == 2 || a.place == 11 || a.place == 13;
    else if (a.number == 5 || a.number == 7)
        fits = a.place >= 1 && a.place <= MOST_NODES;
    else if (a.number == 10)
        fits = a.place <= MOST_NODES + 1;
    require(a.number <= 10 && a.number != 1 && a.number != 2 && a.number != 9, "a number that no tree gets");
    require(fits, "a place that does not fit the number");
    require((a.length > 0) == (a.number == 0), "a length with a refusal, or no length with a plan");
    require(a.length <= PLANNER_LONGEST_TREE_TEXT, "a length above PLANNER_LONGEST_TREE_TEXT");
}

/* A header line and a line for each node of row_input, which has one more for its names. */
static void check_tree_text(const uint8_t *text, size_t length)
{
    size_t header = strlen(TREE_HEADER), lines = 0, nodes = row_input.bytes[row_input.length - 1] != '\n';
    require(length > header && memcmp(text, TREE_HEADER, header) == 0, "the text does not begin with the header line");
    require(text[length - 1] == '\n', "the text does not end with a line feed");
    for (size_t i = 0; i < length; i++)
        lines += text[i] == '\n';
    for (size_t i = 0; i < row_input.length; i++)
        nodes += row_input.bytes[i] == '\n';
    require(lines == nodes, "not a line for each node");
}

/* The list's line: in the longest room that a line needs, in its own length, and in one byte less. */
static void explain_tree_between_guards(const uint8_t *nodes, bool in_front, const uint8_t *fill)
{
    size_t rooms[3] = {PLANNER_LONGEST_REASON, 0, 0};
    for (size_t i = 0; i < 3; i++) {
        uint8_t *line = spot(&line_region, rooms[i], in_front);
        now.line_length = rooms[i];
        memcpy(line_region.bytes, fill, line_region.size);
        now.explain = planner_explain_tree(nodes, row_input.length, BESIDE, line, rooms[i]);
        check_rest(&line_region, line, (size_t)now.explain.length, fill);
        if (i == 2) {
            require(same_answer(now.explain, too_short), "a line in too little room");
            return;
        }
        require(now.explain.number == now.check.number && now.explain.place == now.check.place,
                "planner_check_tree and planner_explain_tree do not agree");
        check_line(line, (size_t)now.explain.length, now.check, "The tree is planned.");
        rooms[1] = (size_t)now.explain.length;
        rooms[2] = rooms[1] - 1;
    }
}

/* The three entries on row_input, which is the list. The two lowest bits of sides say what lies in front. */
static void call_tree_between_guards(unsigned sides, const uint8_t *fill, size_t text_length)
{
    const uint8_t *nodes = hand_over(&row_region, &row_input, (sides & 1) != 0);
    uint8_t *text = spot(&tree_region, text_length, (sides & 2) != 0);
    alarm(WATCH_SECONDS);
    now.row = (struct slice){row_input.bytes, row_input.length};
    now.text_length = text_length;
    memcpy(tree_region.bytes, fill, tree_region.size);
    now.check = planner_check_tree(nodes, row_input.length, BESIDE);
    check_tree_answer(now.check);
    require(now.check.number != 8, "number 8 from planner_check_tree");
    now.plan = planner_plan_tree(nodes, row_input.length, BESIDE, text, text_length);
    require(same_answer(now.plan, with_loan(now.check, text_length)),
            "planner_check_tree and planner_plan_tree do not agree");
    check_rest(&tree_region, text, (size_t)now.plan.length, fill);
    if (now.plan.number == 0)
        check_tree_text(text, (size_t)now.plan.length);
    tree_answered[now.plan.number]++;
    explain_tree_between_guards(nodes, (sides & 2) != 0, fill);
    require(memcmp(nodes, row_input.bytes, row_input.length) == 0, "the list was changed");
}

/* The same calls twice: the second time at the other guard pages, and with the other filling. */
static void call_tree_twice(unsigned sides, size_t text_length)
{
    static uint8_t first[PLANNER_LONGEST_TREE_TEXT];
    planner_answer check, plan;
    call_tree_between_guards(sides, filling[0], text_length);
    check = now.check;
    plan = now.plan;
    memcpy(first, spot(&tree_region, text_length, (sides & 2) != 0), (size_t)plan.length);
    call_tree_between_guards(sides ^ 3, filling[1], text_length);
    require(same_answer(check, now.check) && same_answer(plan, now.plan), "the same call was answered in two ways");
    require(memcmp(first, spot(&tree_region, text_length, (sides & 2) == 0), (size_t)plan.length) == 0,
            "the same call gave two texts");
}

/* P2 of document 01 as a list; its text is known to the byte. */
static void second_plan(void)
{
    static const char list[] = LIST_NAMES "1 0 0 0\n2 1 0 0\n3 1 0 0\n4 1 1 1\n5 2 1 1\n6 3 1 1\n";
    static const char text[] = TREE_HEADER "D 0 2 1226616 1 9 245032 7 381323 381323\n"
                                           "S 1 3 2207472 0 0 0 9 0 0\n"
                                           "U 1 1 490792 1 9 245032 3 299565 680888\n"
                                           "E 1 1 245760 1 9 245032 2 272339 653662\n"
                                           "E 2 1 245760 1 9 245032 2 272339 272339\n"
                                           "E 2 1 245760 1 9 245032 2 272339 953227\n";
    set_input(&row_input, list, strlen(list));
    set_beside(8, 4, 19, 7, 0, 2, 0);
    for (size_t length = 0; length <= strlen(text) + 8; length++) {
        call_tree_twice((unsigned)length, length);
        require(now.check.length == strlen(text), "not the length of P2 as a list");
    }
    call_tree_between_guards(0, filling[0], strlen(text));
    require(memcmp(spot(&tree_region, strlen(text), false), text, strlen(text)) == 0, "not the text of P2 as a list");
}

static void add_node(struct input *list, unsigned node, unsigned parent, unsigned burst, unsigned rate)
{
    int n = snprintf((char *)list->bytes + list->length, 64, "%u %u %u %u\n", node, parent, burst, rate);
    list->length += (size_t)n;
}

/* A chain, a star or any tree, in which some nodes sense. */
static void likely_list(struct input *list)
{
    unsigned count = 1 + (unsigned)below(below(4) == 0 ? MOST_NODES + 1 : 12), kind = (unsigned)below(4);
    unsigned sparse = 1 + (unsigned)below(8), most = below(3) == 0 ? 255 : 1;
    set_input(list, LIST_NAMES, strlen(LIST_NAMES));
    for (unsigned node = 1; node <= count; node++) {
        unsigned parent = node == 1 ? 0 : kind == 0 ? node - 1 : kind == 1 ? 1 : between(1, node - 1);
        bool senses = below(sparse) == 0;
        add_node(list, node, parent, senses ? between(1, 255) : 0, senses ? between(1, most) : 0);
    }
    if (below(4) == 0)
        list->length--;
}

static void noise_list(struct input *list)
{
    size_t kind = below(16);
    if (kind == 0) {
        random_bytes(list, below(200));
    } else if (kind == 1) {
        long_row(list);
    } else {
        likely_list(list);
        if (kind <= 5)
            mutate_some(list);
    }
}

/* Settings and sinks that mostly fit; else one of them is anything. */
static void noise_beside(void)
{
    uint32_t so = between(0, 9), head = between(5, 60), ack = between(0, 1);
    uint32_t loss = ack == 0 && below(8) > 0 ? 0 : between(0, 7);
    set_beside(between(so, 14), so, head, between(1, 127 - head), ack, below(2) == 0 ? 1 : between(1, 12), loss);
    if (below(4) == 0)
        now.beside[below(7)] = below(2) == 0 ? (uint32_t)draw() : between(0, 300);
}

static void tree_noise(uint64_t calls)
{
    static const unsigned numbers[] = {0, 3, 4, 5, 6, 7, 8, 10};
    for (now.call = 1; now.call <= calls; now.call++) {
        size_t kind = below(4), length;
        noise_list(&row_input);
        noise_beside();
        length = (size_t)planner_check_tree(row_input.bytes, row_input.length, BESIDE).length;
        length = kind == 0 ? below(LONGEST_TREE_LOAN) : kind == 1 && length > 0 ? length - 1 : length + below(3);
        call_tree_twice((unsigned)below(4), length);
    }
    for (size_t i = 0; i < sizeof numbers / sizeof numbers[0] && calls >= 10000; i++)
        require(tree_answered[numbers[i]] > 0, "a number that so much noise should have met was never answered");
}

/* No list: its names are missing. No room for a text or a line: 8. As NULL, or as a pointer that may not be used. */
static void no_tree(unsigned way)
{
    struct slice none = thing(way, NULL, 0);
    uint8_t *nowhere = (uint8_t *)(uintptr_t)none.at;
    planner_answer names = {10, 0, 0};
    set_input(&row_input, LIST_NAMES "1 0 0 0", strlen(LIST_NAMES "1 0 0 0"));
    set_beside(8, 4, 19, 7, 0, 1, 0);
    require(same_answer(planner_check_tree(none.at, 0, BESIDE), names), "no list is not refused for its names");
    require(same_answer(planner_plan_tree(none.at, 0, BESIDE, nowhere, 0), names), "10 does not come before 8");
    require(same_answer(planner_explain_tree(none.at, 0, BESIDE, nowhere, 0), too_short), "a line without room");
    require(same_answer(planner_plan_tree(row_input.bytes, row_input.length, BESIDE, nowhere, 0), too_short),
            "a text without room");
}

/* A chain of all nodes that a list may have, its sink at each end of it. */
static void call_deep_trees(void)
{
    for (now.call = 1; now.call <= TREE_CALLS; now.call++) {
        now.beside[5] = now.call % 2 == 0 ? 1 : MOST_NODES - 1;
        now.check = planner_check_tree(row_input.bytes, row_input.length, BESIDE);
        now.plan = planner_plan_tree(row_input.bytes, row_input.length, BESIDE, tree_region.bytes, tree_region.size);
        now.explain = planner_explain_tree(row_input.bytes, row_input.length, BESIDE, deep_line, sizeof deep_line);
        if (now.check.number != 0 || !same_answer(now.check, now.plan) || now.explain.number != 0)
            deep_failure = "with little stack the longest chain is not planned";
    }
}

static void trees(uint64_t calls)
{
    now.part = "6, surveyed trees";
    now.call = 0;
    second_plan();
    tree_noise(calls);
    no_tree(1);
    no_tree(2);
    set_input(&row_input, LIST_NAMES, strlen(LIST_NAMES));
    for (unsigned node = 1; node <= MOST_NODES; node++)
        add_node(&row_input, node, node - 1, 255, 1);
    set_beside(14, 6, 5, 1, 0, 1, 0);
    with_stack(call_deep_trees, TREE_STACK);
    fprintf(stderr, "trees: answers by number");
    for (size_t number = 0; number <= 10; number++)
        fprintf(stderr, "%s %zu: %" PRIu64, number > 0 ? "," : "", number, tree_answered[number]);
    fprintf(stderr, "\n");
}

/* ---- All of it ---- */

static uint64_t number_from(const char *text)
{
    char *end;
    uint64_t number = strtoull(text, &end, 10);
    if (*text < '0' || *text > '9' || *end != '\0') {
        fprintf(stderr, "%s: not a number\n", text);
        exit(2);
    }
    return number;
}

static void read_file(const char *name)
{
    FILE *file = fopen(name, "rb");
    if (file == NULL)
        stop(name);
    file_length = fread(file_bytes, 1, sizeof file_bytes, file);
    if (ferror(file))
        stop(name);
    fclose(file);
}

static void summary(void)
{
    uint64_t calls = 0;
    for (size_t number = 0; number <= 8; number++)
        calls += answered[number];
    fprintf(stderr, "summary: seed %" PRIu64 ", calls %" PRIu64 ", planned %" PRIu64 ", refused by number", seed, calls,
            answered[0]);
    for (size_t number = 1; number <= 8; number++)
        fprintf(stderr, "%s %zu: %" PRIu64, number > 1 ? "," : "", number, answered[number]);
    fprintf(stderr, "\nsummary: lines read %" PRIu64 ", lines put by number", lines_read);
    for (size_t number = 0; number <= 8; number++)
        fprintf(stderr, "%s %zu: %" PRIu64, number > 0 ? "," : "", number, explained[number]);
    fprintf(stderr, "\nsummary: of LOSS");
    for (size_t i = 0; i < OF_LOSS; i++)
        fprintf(stderr, "%s %s: %" PRIu64, i > 0 ? "," : "", of_loss[i].name, of_loss[i].count);
    fprintf(stderr, "\n");
}

/* ---- Part 7: the table of exchange times, request E4 of document 02 ---- */

/* Document 01's X: 12 + 2M symbols, 34 more if acknowledged, and 12 if M <= 18, else 40. 0 outside M 6 to 127 and ACK 0 and 1. */
static uint32_t exchange_expected(uint32_t octets, uint32_t ack)
{
    if (octets < 6 || octets > 127 || ack > 1)
        return 0;
    return 12 + 2 * octets + (ack == 1 ? 34 : 0) + (octets <= 18 ? 12 : 40);
}

/* Every M of 9 bits with every ACK to 3, and numbers at the edges of 32 bits. */
static void exchanges(void)
{
    static const uint32_t far[] = {1u << 16, (1u << 16) + 26, 1u << 31, (1u << 31) + 26, UINT32_MAX - 1, UINT32_MAX};
    uint32_t octets, ack;
    size_t i;
    for (octets = 0; octets < 512; octets++)
        for (ack = 0; ack < 4; ack++)
            if (planner_exchange_time(octets, ack) != exchange_expected(octets, ack))
                fail("an exchange time differs");
    for (i = 0; i < sizeof far / sizeof far[0]; i++)
        if (planner_exchange_time(far[i], 0) != 0 || planner_exchange_time(26, far[i]) != 0)
            fail("an exchange time beyond the table");
}

/* ---- Part 8: tries that may fail, request E5 of document 02 ---- */

#define ACKNOWLEDGED "8 4 1 2 1 0 0 1 1 19 7 1" /* P1 with ACK 1: X is 138 */

/* With LOSS 1 an exchange lasts 138 + 158 = 296 symbols, and a slot of 960 holds 3; with LOSS 7 it lasts 1,244. */
#define LOSS_1_TEXT                                                                                                    \
    HEADER "E 0 1 245760 1 3 245464 2 327384\n"                                                                        \
           "U 1 1 491224 1 3 245464 3 409206\n"                                                                        \
           "S 0 3 1964600 0 0 0 8 736590\n"
#define LOSS_7_TEXT                                                                                                    \
    HEADER "E 0 1 245760 2 1 247004 3 492764\n"                                                                        \
           "U 1 1 492764 2 1 247004 4 739768\n"                                                                        \
           "S 0 3 1972300 0 0 0 9 1232532\n"
/* P1 itself. */
#define LOSS_0_TEXT                                                                                                    \
    HEADER "E 0 1 245760 1 9 245032 2 272339\n"                                                                        \
           "U 1 1 490792 1 9 245032 3 299565\n"                                                                        \
           "S 0 3 1962440 0 0 0 8 571904\n"

/* A row and its answer: its text where it is planned, else number and place. */
static const struct {
    const char *names, *row;
    uint32_t number, place;
    const char *text;
} lossy_rows[] = {
    {NAMES, "8 4 1 2 1 0 0 1 1 19 7 0", 0, 0, LOSS_0_TEXT},
    {LOSS_NAMES, "8 4 1 2 1 0 0 1 1 19 7 0 0", 0, 0, LOSS_0_TEXT},
    {LOSS_NAMES, ACKNOWLEDGED " 1", 0, 0, LOSS_1_TEXT},
    {LOSS_NAMES, ACKNOWLEDGED " 7", 0, 0, LOSS_7_TEXT},
    {NAMES, ACKNOWLEDGED " 1", 2, 13, ""},
    {NAMES, ACKNOWLEDGED " ", 2, 13, ""},
    {LOSS_NAMES, ACKNOWLEDGED, 2, 13, ""},
    {LOSS_NAMES, ACKNOWLEDGED " ", 2, 13, ""},
    {LOSS_NAMES, ACKNOWLEDGED " 07", 2, 13, ""},
    {LOSS_NAMES, ACKNOWLEDGED " x", 2, 13, ""},
    {LOSS_NAMES, ACKNOWLEDGED " 1 ", 2, 14, ""},
    {LOSS_NAMES, ACKNOWLEDGED " 8 1", 2, 14, ""},
    {LOSS_NAMES, ACKNOWLEDGED " 8", 3, 13, ""},
    {LOSS_NAMES, ACKNOWLEDGED " 9999", 3, 13, ""},
    {LOSS_NAMES, "8 4 1 2 1 0 0 1 1 19 7 0 8", 3, 13, ""},
    {LOSS_NAMES, "8 4 1 2 1 0 0 1 1 19 7 0 1", 4, 13, ""},
    {LOSS_NAMES, "8 4 1 2 1 0 0 1 1 19 7 0 7", 4, 13, ""},
    {LOSS_NAMES, "8 4 1 2 1 0 0 1 1 126 2 0 7", 4, 11, ""},
    {LOSS_NAMES " ", ACKNOWLEDGED " 1", 1, 0, ""},
    {NAMES " loss", ACKNOWLEDGED " 1", 1, 0, ""},
};

static void lossy_row(size_t number)
{
    static struct outcome got;
    const char *text = lossy_rows[number].text;
    size_t length = strlen(text);
    planner_answer expected = {lossy_rows[number].number, lossy_rows[number].place, length};
    set_input(&names_input, lossy_rows[number].names, strlen(lossy_rows[number].names));
    set_input(&row_input, lossy_rows[number].row, strlen(lossy_rows[number].row));
    for (unsigned sides = 0; sides < 8; sides++) {
        call_twice(sides, length);
        require(same_answer(now.check, expected) && same_answer(now.plan, expected), "not the answer that is known");
        call_twice(sides, length > 0 ? length - 1 : 1);
        call_twice(sides, LONGEST_LOAN);
    }
    call_between_guards(0, filling[0], length, &got);
    require(memcmp(got.text, text, length) == 0, "not the text that is known");
}

/* The same of P1 as a list, with these settings beside it. */
#define ROUTER_1 "U 1 1 491224 1 3 245464 3 409206 409206\n"
#define NEAR_1 "E 1 1 245760 1 3 245464 2 327384 327384\n"
#define FAR_1 "E 2 1 245760 1 3 245464 2 327384 736590\n"
#define ROUTER_7 "U 1 1 492764 2 1 247004 4 739768 739768\n"
#define NEAR_7 "E 1 1 245760 2 1 247004 3 492764 492764\n"
#define FAR_7 "E 2 1 245760 2 1 247004 3 492764 1232532\n"

static const struct {
    uint32_t head, data, ack, loss;
    uint32_t number, place;
    const char *text;
} lossy_trees[] = {
    {19, 7, 1, 1, 0, 0, TREE_HEADER "S 0 3 1964600 0 0 0 8 0 0\n" ROUTER_1 ROUTER_1 NEAR_1 FAR_1 FAR_1},
    {19, 7, 1, 7, 0, 0, TREE_HEADER "S 0 3 1972300 0 0 0 9 0 0\n" ROUTER_7 ROUTER_7 NEAR_7 FAR_7 FAR_7},
    {19, 7, 1, 8, 3, 13, ""},
    {19, 7, 0, 8, 3, 13, ""},
    {19, 7, 1, UINT32_MAX, 3, 13, ""},
    {19, 7, 1, (1u << 31) + 1, 3, 13, ""},
    {19, 7, 1, 257, 3, 13, ""},
    {19, 7, 2, 8, 3, 12, ""},
    {19, 7, 0, 1, 4, 13, ""},
    {19, 7, 0, 7, 4, 13, ""},
    {126, 2, 0, 7, 4, 11, ""},
};

static void lossy_tree(size_t number)
{
    static const char list[] = LIST_NAMES "1 0 0 0\n2 1 0 0\n3 1 0 0\n4 1 1 1\n5 2 1 1\n6 3 1 1\n";
    const char *text = lossy_trees[number].text;
    size_t length = strlen(text);
    planner_answer expected = {lossy_trees[number].number, lossy_trees[number].place, length};
    set_input(&row_input, list, strlen(list));
    set_beside(8, 4, lossy_trees[number].head, lossy_trees[number].data, lossy_trees[number].ack, 1,
               lossy_trees[number].loss);
    for (unsigned sides = 0; sides < 4; sides++) {
        call_tree_twice(sides, length);
        require(same_answer(now.check, expected) && same_answer(now.plan, expected), "not the answer that is known");
        call_tree_twice(sides, length > 0 ? length - 1 : 1);
        call_tree_twice(sides, LONGEST_TREE_LOAN);
    }
    call_tree_between_guards(0, filling[0], length);
    require(memcmp(spot(&tree_region, length, false), text, length) == 0, "not the text that is known");
}

static void failed_tries(void)
{
    now.part = "8, tries that may fail";
    now.call = 0;
    for (size_t i = 0; i < sizeof lossy_rows / sizeof lossy_rows[0]; i++, now.call++)
        lossy_row(i);
    for (size_t i = 0; i < sizeof lossy_trees / sizeof lossy_trees[0]; i++, now.call++)
        lossy_tree(i);
    fprintf(stderr, "failed tries: %" PRIu64 " rows and lists answered as is known\n", now.call);
}

int main(int argc, char **argv)
{
    uint64_t calls;
    if (argc != 4) {
        fprintf(stderr, "usage: harness ROWS.TXT SEED CALLS\n");
        return 2;
    }
    seed = number_from(argv[2]);
    calls = number_from(argv[3]);
    generator = seed;
    page = (size_t)sysconf(_SC_PAGESIZE);
    read_file(argv[1]);
    fprintf(stderr, "seed %" PRIu64 ", %" PRIu64 " calls of noise\n", seed, calls);
    make_region(&names_region, LONGEST_FILE);
    make_region(&row_region, LONGEST_FILE);
    make_region(&text_region, LONGEST_LOAN);
    make_region(&line_region, LONGEST_LINE);
    make_region(&reason_region, LONGEST_FILE);
    make_region(&tree_region, LONGEST_TREE_LOAN);
    make_fillings(tree_region.size);
    catch_signals();
    rows_of_file();
    noise(calls);
    nothing_handed_over();
    little_stack();
    refusals();
    trees(calls / 10);
    exchanges();
    failed_tries();
    summary();
    return 0;
}
