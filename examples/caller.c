/* The worked circuit of document 01 from C: plans, opens, gives the sections and finishes, then
 * prints what the program `setup` prints for it.
 *
 *   cc -I include examples/caller.c target/staticlib/libkinchoyu.a -o caller
 */
#include <inttypes.h>
#include <stdio.h>
#include <stdlib.h>

#include "kinchoyu.h"

#define WORDS(array) (sizeof(array) / sizeof((array)[0]))

/* A buffer and how many words it has. One of no words may be NULL. */
struct buffer {
    uint64_t *words;
    size_t length;
};

static struct buffer buffer(uint64_t length)
{
    struct buffer made = {length > 0 ? calloc(length, sizeof(uint64_t)) : NULL, length};
    if (length > 0 && made.words == NULL) {
        exit(2);
    }
    return made;
}

/* Ends the program where a call is turned down. */
static void accepted(const char *call, uint64_t number)
{
    if (number != 0) {
        printf("%s: refused %" PRIu64 ": %s\n", call, number, kinchoyu_refusal_text(number));
        exit(1);
    }
}

/* The circuit. Parameters: N, C, A, S, V, mode, W, share flag. */
static const uint64_t parameters[] = {2, 2, 1, 0, 2, 0, 0, 0};
static const uint64_t gates[] = {0, 2, 1, 1, 0, 0};
static const uint64_t rows[] = {0, 1, 5, 1, 0};
/* One cell, the other three, and finishing, as a list of calls: kind, number of words, words. */
static const uint64_t list[] = {
    KINCHOYU_CELLS, 1, 0,
    KINCHOYU_CELLS, 3, 1, 1, KINCHOYU_PLACEHOLDER,
    KINCHOYU_FINISH, 0,
};

/* Opens the columns, gives the rows, then the cells in two pieces and finishing as one list. */
static void give(struct buffer plan, struct buffer constants, struct buffer copies)
{
    struct buffer state = buffer(KINCHOYU_STATE_WORDS);
    struct buffer scratch = buffer(2 * parameters[4]), tables = buffer(0);
    accepted("open", kinchoyu_open(plan.words, plan.length, state.words, state.length,
                                   constants.words, constants.length, copies.words, copies.length,
                                   scratch.words, scratch.length, tables.words, tables.length));
    accepted("rows", kinchoyu_rows(state.words, state.length, rows, WORDS(rows),
                                   constants.words, constants.length));
    uint64_t numbers[3];
    accepted("calls", kinchoyu_calls(state.words, state.length, list, WORDS(list), numbers, WORDS(numbers),
                                     constants.words, constants.length, copies.words, copies.length,
                                     scratch.words, scratch.length, tables.words, tables.length));
    for (size_t i = 0; i < WORDS(numbers); i++) {
        accepted("a call of the list", numbers[i]);
    }
    free(state.words);
    free(scratch.words);
    free(tables.words);
}

static void print_columns(const char *name, struct buffer columns)
{
    const uint64_t n = parameters[0];
    for (uint64_t c = 0; c < columns.length / n; c++) {
        printf("%s %" PRIu64, name, c);
        for (uint64_t r = 0; r < n; r++) {
            printf(" %" PRIu64, columns.words[c * n + r]);
        }
        printf("\n");
    }
}

static void print_path(struct buffer plan, uint64_t gate)
{
    uint64_t path[3]; /* bits, length, and 1 where the gate has no selector */
    accepted("path", kinchoyu_path(plan.words, plan.length, gate, path, WORDS(path)));
    if (path[2] == 1) {
        printf("path %" PRIu64 " none\n", gate);
        return;
    }
    printf("path %" PRIu64 "%s", gate, path[1] > 0 ? " " : "");
    for (uint64_t i = 0; i < path[1]; i++) {
        printf("%d", (int)(path[0] >> i & 1));
    }
    printf("\n");
}

int main(void)
{
    struct buffer plan = buffer(KINCHOYU_PLAN_WORDS);
    accepted("plan", kinchoyu_plan(parameters, WORDS(parameters), gates, WORDS(gates),
                                   plan.words, plan.length));
    uint64_t stats[3], id[2];
    accepted("stats", kinchoyu_stats(plan.words, plan.length, stats, WORDS(stats)));
    accepted("table_id", kinchoyu_table_id(plan.words, plan.length, id, WORDS(id)));

    /* K + S constant columns and C copy columns of N words */
    struct buffer constants = buffer((stats[1] + parameters[3]) * parameters[0]);
    struct buffer copies = buffer(parameters[1] * parameters[0]);
    give(plan, constants, copies);

    printf("plan %" PRIu64 " %" PRIu64 " %" PRIu64 "\n", stats[0], stats[1], stats[2]);
    for (uint64_t gate = 0; gate < WORDS(gates) / 3; gate++) {
        print_path(plan, gate);
    }
    print_columns("constant", constants);
    print_columns("copy", copies);
    printf("ids");
    if (id[0] == 1) {
        printf(" %" PRIu64, id[1]);
    }
    printf("\n");
    free(plan.words);
    free(constants.words);
    free(copies.words);
    return 0;
}
