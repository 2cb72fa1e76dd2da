/* Prints for each exported call how many bytes of stack it takes: the call runs on a thread whose stack is painted before, and what a thread
 * without a call takes is left out. Standard input is a trace with a header. */
#define _GNU_SOURCE
#include "kiqsaryn.h"
#include <pthread.h>
#include <stdio.h>
#include <stdlib.h>
#include <string.h>

enum { STACK = 1 << 20, PAINT = 0xA5, ROWS = 4096, PROCESSES = KIQSARYN_PROCESSES, SPACE = 64, MAPS = 4 * SPACE * (PROCESSES + 1), TEXT = 1 << 16, SECOND = 7,
       SESSION = 2, LIST = 1 << 8 };

static uint8_t text[TEXT], out[TEXT];
static size_t text_len;
static uint32_t rows[6 * ROWS], maps[MAPS], pieces[3 * ROWS], of_rows[ROWS], list[LIST];
static uint16_t counts[ROWS * PROCESSES];
static uint64_t parts[3 * ROWS];
static uint32_t n;

/* A second file for the trace, with SECOND rows of processes that have none there. */
static const uint8_t second[] = "21,write,1,0,9,\r\n21,send,,,,65535\r\n20,recv,,,,65535\r\n20,wait,,,,65535\r\n20,read,1,0,9,\r\n"
                                "20,barrier,,,,7\r\n21,barrier,,,,7\r\n";

/* A call that refuses goes less deep than one that does its work. */
static void expect(int works) {
    if (!works) exit(2);
}

static void none(void) {}

static void check_trace(void) {
    uint64_t answer = kiqsaryn_check_trace(text, text_len, 1, 1, ROWS, PROCESSES, TEXT, rows, 6 * ROWS, counts, ROWS * PROCESSES);
    expect(0 < answer && answer <= ROWS);
    n = (uint32_t)answer;
}

static void judge(void) {
    uint64_t answer = kiqsaryn_judge(text, text_len, 1, 1, ROWS, PROCESSES, TEXT, rows, 6 * ROWS, counts, ROWS * PROCESSES);
    expect(kiqsaryn_judged_refusal(answer) == 0);
}

static void report(void) { expect(kiqsaryn_report(text, text_len, out, sizeof out) > 0); }

static void write_rows(void) {
    uint64_t answer = kiqsaryn_write(rows, 6 * ROWS, n, 1, PROCESSES, out, sizeof out, 0);
    expect(0 < answer && answer <= sizeof out);
}

static void fill_counts(void) { expect(kiqsaryn_fill_counts(rows, 6 * ROWS, n, PROCESSES, counts, ROWS * PROCESSES) == 0); }

static void verdict(void) { expect(kiqsaryn_verdict(rows, 6 * ROWS, n, PROCESSES, 1, counts, ROWS * PROCESSES) == 0); }

/* Nobody closes or opens the file of the trace: under session its pairs race. */
static void list_races(void) {
    uint64_t answer = kiqsaryn_list_races(text, text_len, 1, SESSION, ROWS, PROCESSES, TEXT, rows, 6 * ROWS, counts, ROWS * PROCESSES, list, LIST);
    expect(kiqsaryn_listed_pairs(answer) > 0);
}

static void races(void) {
    uint64_t answer = kiqsaryn_races(rows, 6 * ROWS, n, PROCESSES, SESSION, counts, ROWS * PROCESSES, list, LIST);
    expect(kiqsaryn_listed_pairs(answer) > 0);
}

static void read_file(void) { expect(kiqsaryn_read_file(text, text_len, 1, ROWS, PROCESSES, rows, 6 * ROWS) == n); }

static void join(void) {
    uint64_t answer = kiqsaryn_join(text, text_len, 1, second, sizeof second - 1, 0, 1, ROWS, PROCESSES, rows, 6 * ROWS, counts,
                                    ROWS * PROCESSES, parts, 3 * ROWS);
    expect(kiqsaryn_joined_rows(answer) == n + SECOND);
}

static void make(void) { expect(kiqsaryn_make(1, PROCESSES, 1, SPACE, maps, MAPS) == 0); }

static void replay(void) {
    expect(kiqsaryn_replay(1, PROCESSES, 1, SPACE, maps, MAPS, rows, 6 * ROWS, 0, n, of_rows, ROWS, pieces, 3 * ROWS) == n);
}

static void step(void) { expect(kiqsaryn_step(1, PROCESSES, 1, SPACE, maps, MAPS, 0, 0, 1, 5, 7, n + 1, pieces, 3 * ROWS) > 0); }

static void make_plain(void) { expect(kiqsaryn_make_plain(PROCESSES, 1, SPACE, maps, MAPS) == 0); }

static void replay_plain(void) {
    expect(kiqsaryn_replay_plain(PROCESSES, 1, SPACE, maps, MAPS, rows, 6 * ROWS, 0, n, of_rows, ROWS, pieces, 3 * ROWS) == n);
}

static void step_plain(void) { expect(kiqsaryn_step_plain(PROCESSES, 1, SPACE, maps, MAPS, 0, 0, 1, 5, 7, n + 1, pieces, 3 * ROWS) > 0); }

static void lookup(void) { expect(kiqsaryn_looked_number(kiqsaryn_lookup(maps, 4 * SPACE, 5)) > 0); }

static const struct {
    const char *name;
    void (*call)(void);
} calls[] = {{"none", none}, {"check_trace", check_trace}, {"judge", judge}, {"report", report}, {"write", write_rows},
             {"fill_counts", fill_counts}, {"verdict", verdict}, {"list_races", list_races}, {"races", races}, {"read_file", read_file},
             {"make", make}, {"replay", replay}, {"step", step}, {"make_plain", make_plain}, {"replay_plain", replay_plain},
             {"step_plain", step_plain}, {"lookup", lookup}, {"join", join}};

static void *run(void *call) {
    (*(void (**)(void))call)();
    return NULL;
}

/* The bytes of a painted stack that a thread with this call has changed, from the lowest on. */
static size_t taken(void (*call)(void)) {
    uint8_t *stack = aligned_alloc(4096, STACK);
    pthread_attr_t attributes;
    pthread_t thread;
    memset(stack, PAINT, STACK);
    pthread_attr_init(&attributes);
    pthread_attr_setstack(&attributes, stack, STACK);
    if (pthread_create(&thread, &attributes, run, &call) != 0 || pthread_join(thread, NULL) != 0) exit(1);
    size_t i = 0;
    while (i < STACK && stack[i] == PAINT) i++;
    free(stack);
    return STACK - i;
}

int main(void) {
    text_len = fread(text, 1, sizeof text, stdin);
    size_t own = taken(none);
    for (size_t k = 1; k < sizeof calls / sizeof *calls; k++) printf("%s %zu\n", calls[k].name, taken(calls[k].call) - own);
    return 0;
}
