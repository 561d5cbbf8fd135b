/* What the header promises beside the proofs: its macros are what the functions answer; NULL may be
 * passed with length 0 wherever a pointer is; paths, representatives, rows of a kind 2 gate and padding
 * write what it says and nothing else; every call runs in a thread with the stack that the header
 * names.
 *
 *   calls [BYTES]     the thread's stack; KINCHOYU_STACK_BYTES if not given
 */
#include <pthread.h>
#include <stdio.h>
#include <stdlib.h>
#include <string.h>

#include "kinchoyu.h"

#define WORDS(array) (sizeof(array) / sizeof((array)[0]))
#define PLAN plan, KINCHOYU_PLAN_WORDS
#define STATE state, KINCHOYU_STATE_WORDS

static unsigned made;

/* Ends the program where a call answers another number. */
static void answers(uint64_t wanted, uint64_t number, int line)
{
    made++;
    if (number != wanted) {
        fprintf(stderr, "calls.c:%d: %d (%s), and not %d\n", line, (int)number,
                kinchoyu_refusal_text(number), (int)wanted);
        exit(1);
    }
}
#define ANSWERS(wanted, call) answers(wanted, call, __LINE__)

static void header(void)
{
    char version[32];
    snprintf(version, sizeof version, "%d.%d.%d", KINCHOYU_VERSION_MAJOR, KINCHOYU_VERSION_MINOR,
             KINCHOYU_VERSION_PATCH);
    if (strcmp(version, KINCHOYU_VERSION) != 0) {
        fprintf(stderr, "%s is version %s too\n", KINCHOYU_VERSION, version);
        exit(1);
    }
    ANSWERS(KINCHOYU_PLAN_WORDS, kinchoyu_plan_words());
    ANSWERS(KINCHOYU_STATE_WORDS, kinchoyu_state_words());
}

static uint64_t plan[KINCHOYU_PLAN_WORDS], state[KINCHOYU_STATE_WORDS], out[3];

/* A circuit of one cell, with no constants, variables and tables: most of its buffers are empty. */
static void null_where_the_length_is_0(void)
{
    static const uint64_t parameters[] = {1, 1, 0, 0, 0, 0, 0, 0}, gates[] = {1, 0, 0};
    static const uint64_t row[] = {0, 0}, cell[] = {KINCHOYU_PLACEHOLDER};
    static const uint64_t listing[] = {8, 1, 1, 0, 0, 0, 0, 0, 0, /* parameters */
                                       1, 1, 0, 0, 1, 0, 0, 0,     /* gates, rows, S words */
                                       1, KINCHOYU_PLACEHOLDER, 0}; /* cells, tables */
    static const uint64_t finish[] = {KINCHOYU_FINISH, 0};
    uint64_t copies[1], number[1];

    /* nothing but NULL */
    ANSWERS(20, kinchoyu_plan(NULL, 0, NULL, 0, NULL, 0));
    ANSWERS(19, kinchoyu_path(NULL, 0, 0, NULL, 0));
    ANSWERS(19, kinchoyu_table_id(NULL, 0, NULL, 0));
    ANSWERS(19, kinchoyu_stats(NULL, 0, NULL, 0));
    ANSWERS(10, kinchoyu_label(1, 1, 0, NULL, 0));
    ANSWERS(10, kinchoyu_representatives(1, 1, NULL, 0));
    ANSWERS(19, kinchoyu_open(NULL, 0, NULL, 0, NULL, 0, NULL, 0, NULL, 0, NULL, 0));
    ANSWERS(19, kinchoyu_rows(NULL, 0, NULL, 0, NULL, 0));
    ANSWERS(19, kinchoyu_s_words(NULL, 0, NULL, 0, NULL, 0));
    ANSWERS(19, kinchoyu_cells(NULL, 0, NULL, 0, NULL, 0, NULL, 0));
    ANSWERS(19, kinchoyu_tables(NULL, 0, NULL, 0, NULL, 0));
    ANSWERS(19, kinchoyu_finish(NULL, 0, NULL, 0, NULL, 0));
    ANSWERS(0, kinchoyu_calls(NULL, 0, NULL, 0, NULL, 0, NULL, 0, NULL, 0, NULL, 0, NULL, 0));
    ANSWERS(20, kinchoyu_run(NULL, 0, NULL, 0, NULL, 0, NULL, 0, NULL, 0, NULL, 0));
    ANSWERS(20, kinchoyu_pad(NULL, 0, NULL, 0, NULL, 0));

    /* NULL for each buffer that may be empty, in accepted calls; for the others, 10 */
    ANSWERS(10, kinchoyu_plan(parameters, 8, gates, 3, NULL, 0));
    ANSWERS(3, kinchoyu_plan(parameters, 8, NULL, 0, PLAN));
    ANSWERS(0, kinchoyu_plan(parameters, 8, gates, 3, PLAN));
    ANSWERS(10, kinchoyu_path(PLAN, 0, NULL, 0));
    ANSWERS(10, kinchoyu_path(PLAN, 0, out, 2));
    ANSWERS(0, kinchoyu_path(PLAN, 0, out, 3));
    ANSWERS(10, kinchoyu_table_id(PLAN, NULL, 0));
    ANSWERS(10, kinchoyu_stats(PLAN, NULL, 0));
    ANSWERS(10, kinchoyu_open(PLAN, NULL, 0, NULL, 0, copies, 1, NULL, 0, NULL, 0));
    ANSWERS(10, kinchoyu_open(PLAN, STATE, NULL, 0, NULL, 0, NULL, 0, NULL, 0));
    ANSWERS(0, kinchoyu_open(PLAN, STATE, NULL, 0, copies, 1, NULL, 0, NULL, 0));
    ANSWERS(0, kinchoyu_rows(STATE, NULL, 0, NULL, 0));
    ANSWERS(0, kinchoyu_rows(STATE, row, 2, NULL, 0));
    ANSWERS(0, kinchoyu_s_words(STATE, NULL, 0, NULL, 0));
    ANSWERS(10, kinchoyu_cells(STATE, cell, 1, NULL, 0, NULL, 0));
    ANSWERS(0, kinchoyu_cells(STATE, NULL, 0, copies, 1, NULL, 0));
    ANSWERS(0, kinchoyu_cells(STATE, cell, 1, copies, 1, NULL, 0));
    ANSWERS(0, kinchoyu_tables(STATE, NULL, 0, NULL, 0));
    ANSWERS(10, kinchoyu_finish(STATE, NULL, 0, NULL, 0));
    ANSWERS(0, kinchoyu_calls(STATE, NULL, 0, NULL, 0, NULL, 0, copies, 1, NULL, 0, NULL, 0));
    ANSWERS(10, kinchoyu_calls(STATE, finish, 2, NULL, 0, NULL, 0, copies, 1, NULL, 0, NULL, 0));
    ANSWERS(0, kinchoyu_calls(STATE, finish, 2, number, 1, NULL, 0, copies, 1, NULL, 0, NULL, 0));
    ANSWERS(0, number[0]);
    ANSWERS(10, kinchoyu_run(listing, WORDS(listing), NULL, 0, NULL, 0, copies, 1, NULL, 0, NULL, 0));
    ANSWERS(10, kinchoyu_run(listing, WORDS(listing), PLAN, NULL, 0, NULL, 0, NULL, 0, NULL, 0));
    ANSWERS(0, kinchoyu_run(listing, WORDS(listing), PLAN, NULL, 0, copies, 1, NULL, 0, NULL, 0));
    ANSWERS(10, kinchoyu_pad(listing, WORDS(listing), NULL, 0, number, 1));
    ANSWERS(0, number[0]);
    ANSWERS(10, kinchoyu_pad(listing, WORDS(listing), NULL, 0, NULL, 0));
}

#define JUNK UINT64_C(77)

/* Ends the program unless every word from a place on is junk. */
static void junk(const uint64_t *words, size_t from, size_t length, int line)
{
    for (size_t i = from; i < length; i++) {
        answers(JUNK, words[i], line);
    }
}

/* A path's number and three words, in results of every length: nothing is written where it is less
 * than three, and nothing beyond. */
static void path_is(uint64_t number, uint64_t gate, uint64_t bits, uint64_t length, uint64_t unselected,
                    int line)
{
    const uint64_t wanted[] = {bits, length, unselected};
    uint64_t path[5];
    for (size_t room = 0; room <= WORDS(path); room++) {
        const size_t written = room < 3 ? 0 : 3;
        for (size_t i = 0; i < WORDS(path); i++) {
            path[i] = JUNK;
        }
        answers(written == 0 ? 10 : number, kinchoyu_path(PLAN, gate, path, room), line);
        for (size_t i = 0; i < written; i++) {
            answers(wanted[i], path[i], line);
        }
        junk(path, written, WORDS(path), line);
    }
}
#define PATH_IS(number, gate, bits, length, unselected) \
    path_is(number, gate, bits, length, unselected, __LINE__)

/* A path, an empty one, no selector, and a gate that is not listed. */
static void paths(void)
{
    static const uint64_t parameters[] = {4, 1, 0, 0, 0, 0, 0, 0};
    static const uint64_t middle[] = {0, 2, 0, 2, 0, 0, 1, 0, 0}, one_placed[] = {0, 64, 0, 2, 0, 0};
    static const uint64_t lone[][3] = {{1, 0, 0}, {2, 0, 0}};
    uint64_t path[] = {JUNK, JUNK, JUNK, JUNK};

    ANSWERS(0, kinchoyu_plan(parameters, 8, middle, WORDS(middle), PLAN));
    PATH_IS(0, 0, 1, 1, 0);
    PATH_IS(0, 1, 0, 0, 1);
    PATH_IS(0, 2, 0, 1, 0);
    PATH_IS(12, 3, 0, 0, 0);
    ANSWERS(0, kinchoyu_plan(parameters, 8, one_placed, WORDS(one_placed), PLAN));
    PATH_IS(0, 0, 0, 0, 0);
    PATH_IS(0, 1, 0, 0, 1);
    for (size_t i = 0; i < WORDS(lone); i++) {
        ANSWERS(0, kinchoyu_plan(parameters, 8, lone[i], 3, PLAN));
        PATH_IS(0, 0, 0, 0, 0);
        PATH_IS(12, 1, 0, 0, 0);
    }
    /* a plan that is none: 19 before 10, and zeros where there is room */
    ANSWERS(19, kinchoyu_path(plan, 0, 0, path, 2));
    junk(path, 0, WORDS(path), __LINE__);
    ANSWERS(19, kinchoyu_path(plan, 0, 0, path, 4));
    for (size_t i = 0; i < 3; i++) {
        ANSWERS(0, path[i]);
    }
    junk(path, 3, WORDS(path), __LINE__);
}

/* The number and the words of representatives, in results of every length: nothing is written where
 * it is less than all of them, and nothing beyond. */
static void representatives_are(uint64_t number, uint64_t n, uint64_t c, const uint64_t *wanted, int line)
{
    uint64_t words[KINCHOYU_REPRESENTATIVES_WORDS + 3], left[WORDS(words)];
    for (size_t room = 0; room <= WORDS(words); room++) {
        const int enough = room >= KINCHOYU_REPRESENTATIVES_WORDS;
        for (size_t i = 0; i < WORDS(words); i++) {
            words[i] = left[i] = JUNK;
        }
        if (enough) {
            memcpy(left, wanted, KINCHOYU_REPRESENTATIVES_WORDS * sizeof *left);
        }
        answers(enough ? number : 10, kinchoyu_representatives(n, c, words, room), line);
        answers(0, (uint64_t)(memcmp(words, left, sizeof left) != 0), line);
    }
}
#define REPRESENTATIVES_ARE(number, n, c, wanted) representatives_are(number, n, c, wanted, __LINE__)

/* Values from word 0, powers from word 64, and how many powers were taken. */
static void representatives(void)
{
    static const uint64_t one[KINCHOYU_REPRESENTATIVES_WORDS] = {1, [64] = 1};
    static const uint64_t five[KINCHOYU_REPRESENTATIVES_WORDS] = {
        1, 7, 11, 13, 14, [64] = 1, 49, 121, 169, 196, [128] = 4};
    static const uint64_t zeros[KINCHOYU_REPRESENTATIVES_WORDS];
    uint64_t words[KINCHOYU_REPRESENTATIVES_WORDS];

    REPRESENTATIVES_ARE(0, 65536, 1, one);
    REPRESENTATIVES_ARE(0, 2, 5, five);
    REPRESENTATIVES_ARE(1, 3, 5, zeros);
    REPRESENTATIVES_ARE(1, 2, 65, zeros);
    /* 23 are kept beside column 0; 56 is passed over, and its power counted */
    ANSWERS(0, kinchoyu_representatives(64, 24, words, WORDS(words)));
    ANSWERS(57, words[23]);
    ANSWERS(24, words[128]);
}

#define ROWS(...) \
    (const uint64_t[]){__VA_ARGS__}, WORDS(((const uint64_t[]){__VA_ARGS__})), constants, WORDS(constants)

/* Rows of a gate of kind 2: refused with 23, after 12, unless the all-0 path is a kind 1 gate's; a
 * refused call writes nothing, and without such a row finishing is refused. */
static void marker_rows(void)
{
    static const uint64_t parameters[] = {2, 1, 1, 0, 0, 0, 0, 0}, tall[] = {4, 1, 1, 0, 0, 0, 0, 0};
    static const uint64_t barred[] = {0, 2, 1, 2, 0, 0}, allowed[] = {0, 2, 1, 2, 0, 0, 1, 0, 0};
    static const uint64_t cells[] = {KINCHOYU_PLACEHOLDER, KINCHOYU_PLACEHOLDER};
    /* two evaluated gates, a kind 1 gate on another path than the all-0 one, a kind 2 gate */
    static const uint64_t listing[] = {8, 4, 1, 0, 0, 0, 0, 0, 0, 4, 0, 1, 0, 0, 1, 0, 1, 0, 0, 2, 0, 0,
                                       4, 0, 0, 1, 0, 2, 0, 3, 0, 0, 4, KINCHOYU_PLACEHOLDER,
                                       KINCHOYU_PLACEHOLDER, KINCHOYU_PLACEHOLDER, KINCHOYU_PLACEHOLDER, 0};
    uint64_t before[WORDS(state)], constants[9], copies[4], padded[2 * WORDS(listing)], count[1] = {JUNK};

    ANSWERS(0, kinchoyu_plan(parameters, 8, barred, WORDS(barred), PLAN));
    ANSWERS(0, kinchoyu_open(PLAN, STATE, constants, 2, copies, 2, NULL, 0, NULL, 0));
    memcpy(before, state, sizeof state);
    for (size_t i = 0; i < WORDS(constants); i++) {
        constants[i] = JUNK;
    }
    ANSWERS(23, kinchoyu_rows(STATE, ROWS(1, 0)));
    ANSWERS(12, kinchoyu_rows(STATE, ROWS(1, 1, 5)));
    ANSWERS(12, kinchoyu_rows(STATE, ROWS(1)));
    ANSWERS(23, kinchoyu_rows(STATE, ROWS(0, 1, 5, 1, 0)));
    ANSWERS(23, kinchoyu_rows(STATE, ROWS(1, 0, 0, 1, KINCHOYU_P)));
    ANSWERS(11, kinchoyu_rows(STATE, ROWS(0, 1, KINCHOYU_P, 1, 0)));
    ANSWERS(10, kinchoyu_rows(STATE, cells, 2, constants, 1));
    ANSWERS(0, (uint64_t)(memcmp(before, state, sizeof state) != 0));
    junk(constants, 0, WORDS(constants), __LINE__);
    ANSWERS(0, kinchoyu_rows(STATE, ROWS(0, 0, 0, 0)));
    ANSWERS(23, kinchoyu_rows(STATE, ROWS(1, 0)));
    ANSWERS(0, kinchoyu_cells(STATE, cells, 2, copies, 2, NULL, 0));
    ANSWERS(17, kinchoyu_finish(STATE, copies, 2, NULL, 0));

    ANSWERS(0, kinchoyu_plan(tall, 8, allowed, WORDS(allowed), PLAN));
    ANSWERS(0, kinchoyu_open(PLAN, STATE, constants, 8, copies, 4, NULL, 0, NULL, 0));
    ANSWERS(0, kinchoyu_rows(STATE, ROWS(1, 0, 0, 1, 5, 2, 0)));

    ANSWERS(23, kinchoyu_run(listing, WORDS(listing), PLAN, constants, 9, copies, 4, NULL, 0, NULL, 0));
    ANSWERS(0, plan[0]);
    ANSWERS(23, kinchoyu_pad(listing, WORDS(listing), padded, WORDS(padded), count, 1));
    ANSWERS(0, count[0]);
}

/* The worked circuit with three rows of columns and one row: to four rows, and no word beyond. */
static void padding(void)
{
    static const uint64_t listing[] = {8, 3, 1, 1, 1, 2, 0, 0, 0,       /* parameters */
                                       2, 0, 2, 1, 1, 0, 0, 1, 0, 1, 5, /* gates, rows */
                                       3, 6, 7, 8, 3, 0, 1, 1, 0};      /* S words, cells, tables */
    static const uint64_t wanted[] = {8, 4, 1, 1, 1, 2, 0, 0, 0,
                                      2, 0, 2, 1, 1, 0, 0, 4, 0, 1, 5, 1, 0, 1, 0, 1, 0,
                                      4, 6, 7, 8, 0, 4, 0, 1, 1, KINCHOYU_PLACEHOLDER, 0};
    uint64_t padded[WORDS(wanted) + 3], count[2], constants[12], copies[4], scratch[4];
    uint64_t unmarked[WORDS(listing)];
    memcpy(unmarked, listing, sizeof listing);
    unmarked[13] = 2; /* no gate of kind 1 */

    for (size_t i = 0; i < WORDS(padded); i++) {
        padded[i] = JUNK;
    }
    count[0] = count[1] = JUNK;
    /* refused: the result is as it was, and the count 0 */
    ANSWERS(21, kinchoyu_pad(unmarked, WORDS(unmarked), padded, WORDS(padded), count, 2));
    ANSWERS(0, count[0]);
    count[0] = JUNK;
    ANSWERS(10, kinchoyu_pad(listing, WORDS(listing), padded, WORDS(wanted) - 1, count, 2));
    ANSWERS(0, count[0]);
    count[0] = JUNK;
    ANSWERS(21, kinchoyu_pad(unmarked, WORDS(unmarked), padded, WORDS(padded), NULL, 0));
    ANSWERS(10, kinchoyu_pad(listing, WORDS(listing), padded, WORDS(padded), count, 0));
    junk(padded, 0, WORDS(padded), __LINE__);
    junk(count, 0, 2, __LINE__);

    /* just long enough, then longer */
    for (size_t more = 0; more <= 3; more += 3) {
        ANSWERS(0, kinchoyu_pad(listing, WORDS(listing), padded, WORDS(wanted) + more, count, 2));
        ANSWERS(WORDS(wanted), count[0]);
        ANSWERS(0, (uint64_t)(memcmp(padded, wanted, sizeof wanted) != 0));
        junk(padded, WORDS(wanted), WORDS(padded), __LINE__);
        junk(count, 1, 2, __LINE__);
    }
    ANSWERS(0, kinchoyu_run(padded, count[0], PLAN, constants, 12, copies, 4, scratch, 4, NULL, 0));
}

/* A plan that nobody planned: a tree as deep as its nodes allow, each fork's right child a leaf. */
static void deepest(uint64_t made_up[KINCHOYU_PLAN_WORDS])
{
    uint64_t *nodes = made_up + 393;
    memset(nodes, 0, 766 * sizeof *nodes);
    for (uint64_t i = 0; i < 127; i++) {
        nodes[3 * i] = i + 1;
        nodes[3 * i + 1] = 254 - i;
    }
    for (uint64_t i = 127; i < 255; i++) {
        nodes[3 * i + 2] = i - 127;
    }
    made_up[1158] = 255;
}

#define N 256
#define C 2
#define COLUMNS \
    constants, WORDS(constants), copies, WORDS(copies), scratch, WORDS(scratch), tables, WORDS(tables)

/* Every call: 128 gates, S words, tables in mode 4. */
static void every_call(uint64_t first_degree, uint64_t step)
{
    static uint64_t constants[48 * N], copies[C * N], scratch[2 * N], tables[2 * N], numbers[5];
    static uint64_t gates[3 * KINCHOYU_MOST_GATES], rows[2 * N], s_words[N], cells[C * N];
    /* the words of the sections, with a count before each; those of the calls, with two */
    static uint64_t listing[8 + WORDS(gates) + WORDS(rows) + WORDS(s_words) + WORDS(cells) + 3 + 6];
    static uint64_t list[WORDS(rows) + WORDS(s_words) + WORDS(cells) + 3 + 10];
    static const uint64_t parameters[] = {N, C, 16, 1, N, 4, 1, 1}, table[] = {1, 1, 9};
    static const uint64_t marker[] = {1, 0, 0};
    static uint64_t padded[2 * WORDS(listing)], found[KINCHOYU_REPRESENTATIVES_WORDS];
    const struct {
        const uint64_t *words;
        size_t length;
        uint64_t count;
    } sections[] = {
        {parameters, WORDS(parameters), WORDS(parameters)},
        {gates, WORDS(gates), KINCHOYU_MOST_GATES},
        {rows, WORDS(rows), N},
        {s_words, WORDS(s_words), N},
        {cells, WORDS(cells), C * N},
        {table, WORDS(table), 1},
    };
    size_t place = 0, listed = 0;
    for (uint64_t i = 0; i < KINCHOYU_MOST_GATES; i++) {
        gates[3 * i] = 0;
        /* the first one's degree makes room for so many */
        gates[3 * i + 1] = i == 0 ? 17 : 1 + (first_degree + i * step) % 8;
        gates[3 * i + 2] = i % 3;
    }
    for (uint64_t i = 0; i < N; i++) {
        rows[2 * i] = i % KINCHOYU_MOST_GATES;
        s_words[i] = i;
        cells[i] = i;
        cells[N + i] = N - 1 - i;
    }
    for (size_t i = 0; i < WORDS(sections); i++) {
        listing[place++] = sections[i].count;
        memcpy(listing + place, sections[i].words, sections[i].length * sizeof *listing);
        place += sections[i].length;
        if (i >= 2) {
            list[listed++] = i - 1;
            list[listed++] = sections[i].length;
            memcpy(list + listed, sections[i].words, sections[i].length * sizeof *list);
            listed += sections[i].length;
        }
    }
    list[listed++] = KINCHOYU_FINISH;
    list[listed++] = 0;

    ANSWERS(0, kinchoyu_run(listing, place, PLAN, COLUMNS));
    ANSWERS(21, kinchoyu_pad(listing, place, padded, WORDS(padded), out, 1));
    memcpy(listing + 10 + WORDS(gates) - 3, marker, sizeof marker);
    ANSWERS(0, kinchoyu_pad(listing, place, padded, WORDS(padded), out, 1));
    memset(plan, 0, sizeof plan);
    ANSWERS(0, kinchoyu_plan(parameters, 8, gates, WORDS(gates), PLAN));
    ANSWERS(0, kinchoyu_path(PLAN, 127, out, 3));
    ANSWERS(0, kinchoyu_table_id(PLAN, out, 3));
    ANSWERS(0, kinchoyu_stats(PLAN, out, 3));
    ANSWERS(0, kinchoyu_label(N, 64, 64 * N - 1, out, 3));
    ANSWERS(0, kinchoyu_representatives(N, 64, found, WORDS(found)));
    ANSWERS(0, kinchoyu_open(PLAN, STATE, COLUMNS));
    ANSWERS(0, kinchoyu_calls(STATE, list, listed, numbers, 5, COLUMNS));
    for (size_t i = 0; i < WORDS(numbers); i++) {
        ANSWERS(0, numbers[i]);
    }
    ANSWERS(0, kinchoyu_open(PLAN, STATE, COLUMNS));
    ANSWERS(0, kinchoyu_rows(STATE, rows, WORDS(rows), constants, WORDS(constants)));
    ANSWERS(0, kinchoyu_s_words(STATE, s_words, N, constants, WORDS(constants)));
    ANSWERS(0, kinchoyu_cells(STATE, cells, C * N, copies, WORDS(copies), scratch, WORDS(scratch)));
    ANSWERS(0, kinchoyu_tables(STATE, table, 3, tables, WORDS(tables)));

    /* the same calls with the deepest tree */
    deepest(state);
    ANSWERS(19, kinchoyu_rows(STATE, rows, WORDS(rows), constants, WORDS(constants)));
    ANSWERS(19, kinchoyu_s_words(STATE, s_words, N, constants, WORDS(constants)));
    ANSWERS(19, kinchoyu_cells(STATE, cells, C * N, copies, WORDS(copies), scratch, WORDS(scratch)));
    ANSWERS(19, kinchoyu_tables(STATE, table, 3, tables, WORDS(tables)));
    ANSWERS(19, kinchoyu_finish(STATE, copies, WORDS(copies), scratch, WORDS(scratch)));
    ANSWERS(0, kinchoyu_calls(STATE, list, listed, numbers, 5, COLUMNS));
    ANSWERS(19, numbers[4]);
    deepest(plan);
    ANSWERS(19, kinchoyu_path(PLAN, 127, out, 3));
    ANSWERS(19, kinchoyu_table_id(PLAN, out, 3));
    ANSWERS(19, kinchoyu_stats(PLAN, out, 3));
    ANSWERS(19, kinchoyu_open(PLAN, STATE, COLUMNS));
}

static void *in_a_thread(void *nothing)
{
    header();
    null_where_the_length_is_0();
    paths();
    representatives();
    marker_rows();
    padding();
    for (uint64_t step = 0; step < 8; step++) {
        for (uint64_t first = 0; first < 8; first++) {
            every_call(first, step);
        }
    }
    return nothing;
}

int main(int count, char **arguments)
{
    size_t bytes = count > 1 ? strtoul(arguments[1], NULL, 10) : KINCHOYU_STACK_BYTES;
    pthread_attr_t attributes;
    pthread_t thread;
    if (pthread_attr_init(&attributes) != 0 || pthread_attr_setstacksize(&attributes, bytes) != 0 ||
        pthread_create(&thread, &attributes, in_a_thread, NULL) != 0 || pthread_join(thread, NULL) != 0) {
        fprintf(stderr, "no thread with a stack of %zu bytes\n", bytes);
        return 2;
    }
    printf("%u calls, in a thread with a stack of %zu KiB\n", made, bytes / 1024);
    return 0;
}
