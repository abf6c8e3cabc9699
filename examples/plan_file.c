/*
 * plan_file.c: plans the rows of a file as a commissioning laptop would, and shows what a valve's timer is to be set to.
 *
 *     plan_file ROWS.TXT
 *
 * The file has the line of names and then a row of settings on each line. For each row it prints the queue size of every kind of node
 * and the longest delay to the sink in milliseconds, or why the row was refused. The exit status is 0 where every row was planned, 1
 * where one was refused, 2 where the file could not be read or memory was short.
 */
#include "planner.h"

#include <inttypes.h>
#include <stdio.h>
#include <stdlib.h>
#include <string.h>

/* One line of a plan, as its text has it. */
struct figures {
    char kind;
    uint64_t depth, rate, burst, slots, frames, latency, buffer, delay;
};

static int read_figures(const char *line, struct figures *f)
{
    return sscanf(line,
                  "%c %" SCNu64 " %" SCNu64 " %" SCNu64 " %" SCNu64 " %" SCNu64 " %" SCNu64 " %" SCNu64 " %" SCNu64, &f->kind,
                  &f->depth, &f->rate, &f->burst, &f->slots, &f->frames, &f->latency, &f->buffer, &f->delay) == 9;
}

/* A symbol is 16 microseconds. A timer that is too short is the fault to avoid, so the rest is rounded up. */
static uint64_t milliseconds(uint64_t symbols)
{
    return symbols / 125 * 2 + (symbols % 125 * 2 + 124) / 125;
}

/* Shows a plan's text, line by line behind the header line. */
static void show_plan(char *text)
{
    char *line = strchr(text, '\n');
    while (line != NULL && line[1] != '\0') {
        struct figures f;
        line++;
        if (read_figures(line, &f)) {
            if (f.kind == 'E')
                printf("  end nodes: queue of %" PRIu64 " frames, slots each: %" PRIu64 "\n", f.buffer, f.slots);
            else if (f.kind == 'U')
                printf("  routers at depth %" PRIu64 ": queue of %" PRIu64 " frames upward, slots each: %" PRIu64 "\n", f.depth, f.buffer,
                       f.slots);
            else if (f.kind == 'D')
                printf("  router at depth %" PRIu64 " with the sink below it: queue of %" PRIu64
                       " frames downward, slots: %" PRIu64 "\n",
                       f.depth, f.buffer, f.slots);
            else
                printf("  longest delay to the sink: %" PRIu64 " symbols, %" PRIu64 " ms\n", f.delay, milliseconds(f.delay));
        }
        line = strchr(line, '\n');
    }
}

/* Says in English why a row was refused. */
static void show_reason(const char *names, size_t names_length, const char *row, size_t row_length)
{
    uint8_t line[PLANNER_LONGEST_REASON];
    planner_answer a =
        planner_explain_row((const uint8_t *)names, names_length, (const uint8_t *)row, row_length, line, sizeof line);
    printf("  refused with number %" PRIu32 ", place %" PRIu32 ": %.*s\n", a.number, a.place, (int)a.length, (const char *)line);
}

/* Plans one row; answers whether it was planned. The first call says how long the text is, the second writes it. */
static int plan_row(const char *names, size_t names_length, const char *row, size_t row_length)
{
    planner_answer a = planner_check_row((const uint8_t *)names, names_length, (const uint8_t *)row, row_length);
    char *text;
    printf("%.*s\n", (int)row_length, row);
    if (a.number != 0) {
        show_reason(names, names_length, row, row_length);
        return 0;
    }
    text = malloc(a.length + 1);
    if (text == NULL) {
        fprintf(stderr, "no memory for a plan of %" PRIu64 " bytes\n", a.length);
        exit(2);
    }
    planner_plan_row((const uint8_t *)names, names_length, (const uint8_t *)row, row_length, (uint8_t *)text, a.length);
    text[a.length] = '\0';
    show_plan(text);
    free(text);
    return 1;
}

/* Plans every line behind the first, which has the names. A line ends with a line feed; the last may lack it. */
static int plan_rows(const char *data, size_t length)
{
    int all_planned = 1;
    size_t at = 0, names_length = 0;
    int line = 0;
    while (at < length || line == 0) {
        const char *feed = memchr(data + at, '\n', length - at);
        size_t end = feed != NULL ? (size_t)(feed - data) : length;
        if (line == 0)
            names_length = end;
        else if (!plan_row(data, names_length, data + at, end - at))
            all_planned = 0;
        line++;
        at = feed != NULL ? end + 1 : length;
    }
    return all_planned;
}

int main(int argc, char **argv)
{
    static char data[1 << 20];
    FILE *file;
    size_t length;
    if (argc != 2) {
        fprintf(stderr, "usage: plan_file ROWS.TXT\n");
        return 2;
    }
    file = fopen(argv[1], "rb");
    if (file == NULL) {
        perror(argv[1]);
        return 2;
    }
    length = fread(data, 1, sizeof data, file);
    if (ferror(file) || !feof(file)) {
        fprintf(stderr, "%s: cannot be read, or over a megabyte\n", argv[1]);
        return 2;
    }
    fclose(file);
    return plan_rows(data, length) ? EXIT_SUCCESS : EXIT_FAILURE;
}
