/* Trace B with a wait through the library for C: in one call, with and without the wait, then from its text to the verdicts, its rows written as
 * text again, its read replayed on a machine for session and on the plain file, and bytes looked up in their maps. Then every race of rows that
 * nothing orders, listed; and the same rows as trace B's, as two controllers record them, joined. */
#include "kiqsaryn.h"
#include <stdio.h>
#include <string.h>

enum { ROWS = 16, PROCESSES = 2, SPACE = 4, TEXT = 256, TOO_SHORT = 100 };

static const char *const names[4] = {"posix", "commit", "session", "mpiio"};

static void print_judged(const char *name, uint64_t judged) {
    if (kiqsaryn_judged_refusal(judged))
        printf("%s: refused %u at %u\n", name, (unsigned)kiqsaryn_judged_refusal(judged), (unsigned)kiqsaryn_judged_place(judged));
    else if (kiqsaryn_judged_later(judged))
        printf("%s: %u rows, race %u %u\n", name, (unsigned)kiqsaryn_judged_rows(judged), (unsigned)kiqsaryn_judged_earlier(judged),
               (unsigned)kiqsaryn_judged_later(judged));
    else
        printf("%s: %u rows, free\n", name, (unsigned)kiqsaryn_judged_rows(judged));
}

/* Writes rows as text with a header into a slice of this length, and says whether it is the text that they were read from. */
static void print_written(const uint32_t *rows, uint32_t n, size_t out_len, const char *text) {
    uint8_t out[TEXT];
    uint64_t written = kiqsaryn_write(rows, 6 * ROWS, n, 1, PROCESSES, out, out_len, 0);
    if (written >> 32)
        printf("written into a slice of %u: refused %u at %u\n", (unsigned)out_len, (unsigned)(written >> 32), (unsigned)written);
    else
        printf("written into a slice of %u: %u bytes, %s\n", (unsigned)out_len, (unsigned)written,
               written == strlen(text) && memcmp(out, text, strlen(text)) == 0 ? "the text that was read" : "another text");
}

static void print_join(const char *name, uint64_t joined) {
    if (kiqsaryn_joined_refusal(joined))
        printf("joined, %s: refused %u at %u of file %u\n", name, (unsigned)kiqsaryn_joined_refusal(joined),
               (unsigned)kiqsaryn_joined_place(joined), (unsigned)kiqsaryn_joined_file(joined));
    else if (kiqsaryn_joined_later(joined))
        printf("joined, %s: %u rows, race %u %u\n", name, (unsigned)kiqsaryn_joined_rows(joined), (unsigned)kiqsaryn_joined_earlier(joined),
               (unsigned)kiqsaryn_joined_later(joined));
    else
        printf("joined, %s: %u rows, free\n", name, (unsigned)kiqsaryn_joined_rows(joined));
}

/* Joins two files, of which the first has a header, under a model, and prints the answer and the records of an accepted join. */
static void join_files(const char *name, const char *first, const char *second, uint32_t model) {
    uint32_t rows[6 * ROWS];
    uint16_t counts[ROWS * PROCESSES];
    uint64_t parts[3 * ROWS];
    const char *files[] = {first, second};
    uint64_t joined = kiqsaryn_join((const uint8_t *)first, strlen(first), 1, (const uint8_t *)second, strlen(second), 0, model, ROWS, PROCESSES,
                                    rows, 6 * ROWS, counts, ROWS * PROCESSES, parts, 3 * ROWS);
    print_join(name, joined);
    for (const uint64_t *part = parts; part < parts + 3 * kiqsaryn_joined_rows(joined); part += 3)
        printf("  file %u: %.*s\n", (unsigned)part[0], (int)(part[2] - part[1]), files[part[0] - 1] + part[1]);
}

/* The same rows as two controllers record them: process 0 in the first file, and process 1 in the second. */
static int join_two(void) {
    const char *first = "process,kind,file,offset,length,message\r\n0,write,1,0,10,\r\n0,commit,1,,,\r\n0,send,,,,7\r\n";
    const char *second = "1,recv,,,,7\r\n1,wait,,,,7\r\n1,read,1,5,10,\r\n";
    uint32_t rows[6 * ROWS];
    uint64_t read = kiqsaryn_read_file((const uint8_t *)second, strlen(second), 0, ROWS, PROCESSES, rows, 6 * ROWS);
    if (read >> 32)
        return 2;
    printf("second file: %u rows\n", (unsigned)read);
    join_files(names[1], first, second, 1);
    join_files(names[2], first, second, 2);
    join_files("a wait for a message that nobody sends", first, "1,recv,,,,8\r\n1,wait,,,,8\r\n", 1);
    join_files("a wait for a message that is not posted", first, "1,wait,,,,7\r\n", 1);
    join_files("a record of five fields", first, "1,recv,,,,7\r\n1,read,1,5,10\r\n", 1);
    return 0;
}

/* Goes over all bytes of a map, from each to the next that has another row number or another mark, and prints what they have. */
static void print_map(const char *name, const uint32_t *map, size_t map_len) {
    uint32_t byte = 0;
    while (byte < UINT32_MAX) {
        uint64_t looked = kiqsaryn_lookup(map, map_len, byte);
        if (kiqsaryn_looked_refusal(looked)) {
            printf("%s: refused %u\n", name, (unsigned)kiqsaryn_looked_refusal(looked));
            return;
        }
        printf("%s: from %u up to %u row %u, mark %u\n", name, (unsigned)byte, (unsigned)kiqsaryn_looked_next(looked),
               (unsigned)kiqsaryn_looked_number(looked), (unsigned)kiqsaryn_looked_mark(looked));
        byte = kiqsaryn_looked_next(looked);
    }
}

/* Prints the plain file's map, the view of process 0 on a machine, and what a lookup answers to numbers that are no map. */
static void look_up(const uint32_t *map, const uint32_t *maps) {
    print_map("plain file", map, 4 * SPACE);
    print_map("process 0", maps + 4 * SPACE, 4 * SPACE);
    print_map("three numbers", map, 3);
    printf("byte %u: refused %u\n", (unsigned)UINT32_MAX, (unsigned)kiqsaryn_looked_refusal(kiqsaryn_lookup(map, 4 * SPACE, UINT32_MAX)));
}

/* Prints what a listing has answered, and the pairs that it has put into a list of this length. */
static void print_listed(uint64_t listed, const uint32_t *list, size_t list_len) {
    if (kiqsaryn_listed_refusal(listed))
        printf("a list of %u: refused %u at %u\n", (unsigned)list_len, (unsigned)kiqsaryn_listed_refusal(listed),
               (unsigned)kiqsaryn_listed_place(listed));
    else
        printf("a list of %u: %u races\n", (unsigned)list_len, (unsigned)kiqsaryn_listed_pairs(listed));
    for (const uint32_t *pair = list; pair < list + KIQSARYN_PAIR * kiqsaryn_listed_pairs(listed); pair += KIQSARYN_PAIR)
        printf("  rows %u and %u\n", (unsigned)pair[0], (unsigned)pair[1]);
}

/* Two processes write and read bytes of one file without a message. Lists the races under commit: from the text into a list that is too short by one
 * number and into one that is just long enough, and from the rows that were read into one that is long enough for any four rows. */
static void list_every_race(void) {
    const char *text = "0,write,1,0,10,\r\n1,write,1,5,10,\r\n0,read,1,0,20,\r\n1,read,1,0,20,\r\n";
    uint32_t rows[6 * ROWS], list[KIQSARYN_PAIR * 6];
    uint16_t counts[ROWS * PROCESSES];
    for (size_t list_len = KIQSARYN_PAIR * 3 - 1; list_len <= KIQSARYN_PAIR * 3; list_len++)
        print_listed(kiqsaryn_list_races((const uint8_t *)text, strlen(text), 0, 1, ROWS, PROCESSES, SIZE_MAX, rows, 6 * ROWS, counts,
                                         ROWS * PROCESSES, list, list_len),
                     list, list_len);
    size_t any = kiqsaryn_list_len(4);
    print_listed(kiqsaryn_races(rows, 6 * ROWS, 4, PROCESSES, 1, counts, ROWS * PROCESSES, list, any), list, any);
}

int main(void) {
    const char *text = "process,kind,file,offset,length,message\r\n"
                       "0,write,1,0,10,\r\n0,commit,1,,,\r\n0,send,,,,7\r\n1,recv,,,,7\r\n1,wait,,,,7\r\n1,read,1,5,10,\r\n";
    const char *without_wait = "process,kind,file,offset,length,message\r\n"
                               "0,write,1,0,10,\r\n0,commit,1,,,\r\n0,send,,,,7\r\n1,recv,,,,7\r\n1,read,1,5,10,\r\n";
    uint32_t rows[6 * ROWS], seen[ROWS], maps[4 * SPACE * (PROCESSES + 1)], map[4 * SPACE], pieces[3 * 8];
    uint16_t counts[ROWS * PROCESSES];

    for (uint32_t model = 1; model < 3; model++)
        print_judged(names[model], kiqsaryn_judge((const uint8_t *)text, strlen(text), 1, model, ROWS, PROCESSES, SIZE_MAX, rows, 6 * ROWS,
                                                  counts, ROWS * PROCESSES));
    print_judged("commit, without the wait", kiqsaryn_judge((const uint8_t *)without_wait, strlen(without_wait), 1, 1, ROWS, PROCESSES, SIZE_MAX,
                                                            rows, 6 * ROWS, counts, ROWS * PROCESSES));
    print_judged("header word 0", kiqsaryn_judge((const uint8_t *)text, strlen(text), 0, 1, ROWS, PROCESSES, SIZE_MAX, rows, 6 * ROWS, counts,
                                                 ROWS * PROCESSES));

    uint64_t checked =
        kiqsaryn_check_trace((const uint8_t *)text, strlen(text), 1, 1, ROWS, PROCESSES, SIZE_MAX, rows, 6 * ROWS, counts, ROWS * PROCESSES);
    if (checked >> 32) {
        printf("refused %u at %u\n", (unsigned)(checked >> 32), (unsigned)checked);
        return 2;
    }
    uint32_t n = (uint32_t)checked;
    printf("%u rows\n", (unsigned)n);
    for (uint32_t model = 0; model < 4; model++) {
        uint64_t found = kiqsaryn_verdict(rows, 6 * ROWS, n, PROCESSES, model, counts, ROWS * PROCESSES);
        if (found == 0)
            printf("%s free\n", names[model]);
        else if ((uint32_t)found == 0)
            return 2;
        else
            printf("%s race %u %u\n", names[model], (unsigned)(found >> 32), (unsigned)found);
    }
    print_written(rows, n, TEXT, text);
    print_written(rows, n, TOO_SHORT, text);
    if (kiqsaryn_make(2, PROCESSES, 1, SPACE, maps, 4 * SPACE * (PROCESSES + 1)) || kiqsaryn_make_plain(PROCESSES, 1, SPACE, map, 4 * SPACE))
        return 2;
    if (kiqsaryn_replay(2, PROCESSES, 1, SPACE, maps, 4 * SPACE * (PROCESSES + 1), rows, 6 * ROWS, 0, n, seen, ROWS, pieces, 24) != n)
        return 2;
    for (uint32_t i = 0; i < seen[5]; i++)
        printf("session: %u bytes from %u are of row %u\n", (unsigned)pieces[3 * i + 1], (unsigned)pieces[3 * i], (unsigned)pieces[3 * i + 2]);
    if (kiqsaryn_replay_plain(PROCESSES, 1, SPACE, map, 4 * SPACE, rows, 6 * ROWS, 0, n, seen, ROWS, pieces, 24) != n)
        return 2;
    for (uint32_t i = 0; i < seen[5]; i++)
        printf("plain: %u bytes from %u are of row %u\n", (unsigned)pieces[3 * i + 1], (unsigned)pieces[3 * i], (unsigned)pieces[3 * i + 2]);
    look_up(map, maps);
    list_every_race();
    return join_two();
}
