/* The proved library for C. Link crates/kiqsaryn/out/libkiqsaryn.a, which `rt lib` in crates/kiqsaryn writes.
 *
 * Every call is total: it ends for all numbers and for all lengths of slices, and reads and writes nothing outside them. A slice is a pointer
 * and then how many elements it has; the pointer must not be null and must be aligned, also where the length is 0, and a slice lent for
 * writing must not overlap another one of the call. The contracts stand in crates/kiqsaryn/src/lib.rt.
 *
 * Stack: kiqsaryn_check_trace, kiqsaryn_judge, kiqsaryn_list_races, kiqsaryn_report and kiqsaryn_write take up to 200 KB of stack, for tables by
 * message and by barrier; kiqsaryn_fill_counts, kiqsaryn_verdict and kiqsaryn_races up to 18 KB, for tables of earlier rows; kiqsaryn_join up to
 * 270 KB, for all; every other call less than 4 KB. There is no heap and no state between calls.
 *
 * Models: 0 POSIX, 1 commit, 2 session, 3 MPI-IO. Kinds: 0 read, 1 write, 2 commit, 3 open, 4 close, 5 sync, 6 send, 7 recv, 8 wait, 9 barrier.
 * A recv posts a receive, before or behind the send of its message, and gives no order by itself; the receive is over at its wait, and the send
 * happens before the wait. A barrier row's message field holds the barrier's number, which has nothing to do with a message of that number; each row
 * of a barrier happens before every row behind a row of that barrier in any process. A row is six numbers: process, kind, file, offset, length,
 * message. A race is two: the earlier row's number, the later row's. A piece is three: start, length, row number (0 for unwritten bytes). A run is
 * four: start, length, row number, mark (1 while unpublished).
 *
 * Refusals, the first question that is answered No:
 *   1 slices long enough          7 six fields                      13 lawful state
 *   2 limits                      8 a known kind                    14 row number 1 to 4,096
 *   3 header word 0 or 1          9 used fields filled, others not  15 a read, write, commit, open, close, sync of this file
 *   4 record well formed         10 numbers plain and in range      16 every map fits its space
 *   5 the header's six names     11 offset + length                 17 the pieces fit the answer slice
 *   6 row and byte limit         12 sends and recvs in order        18 the text fits its slice from its place on
 * then 21 waits in order, which is asked behind 12, and 22 barriers in order, once every row has passed the others; and of a join: 19 no process has
 * rows in both files, 20 a next row can be taken; and last, of a list of races: 23 the list is long enough for every race.
 *
 * 12: a send's message is unsent so far and not posted by this process, and a recv's is not posted so far and not sent by this process. 21: a
 * wait's message was posted earlier by this process, sent earlier, and not yet waited for. 22: no process repeats a barrier's number, none goes on
 * from a barrier before every process that has a row in the trace has arrived there, and no barrier is unfinished at the trace's end. Its place is
 * the first row that repeats or goes on, and without one the last row.
 */
#ifndef KIQSARYN_H
#define KIQSARYN_H

#include <stddef.h>
#include <stdint.h>

/* The largest process limit: question 2 of a call, and question 13 of a state, take 1 to KIQSARYN_PROCESSES. */
#define KIQSARYN_PROCESSES 48

#ifdef __cplusplus
extern "C" {
#endif

/* Reads a trace into `rows`, six numbers each. `header` is 1 where the first record is the header and 0 where it is row 1; no byte past
 * `byte_limit` is looked at (SIZE_MAX for none). The answer is the row count, below 2^32, or a refusal's number times 2^32 plus the record's
 * place (0 for the header, rows from 1). `rows` takes 6 * row_limit numbers and `counts` row_limit * process_limit. Refusals 1 to 3 keep both;
 * any other fills them with 0; an accepted trace clears what lies behind its rows, and the counts. */
uint64_t kiqsaryn_check_trace(const uint8_t *text, size_t text_len, uint32_t header, uint32_t model, uint32_t row_limit, uint32_t process_limit,
                              size_t byte_limit, uint32_t *rows, size_t rows_len, uint16_t *counts, size_t counts_len);

/* The whole call on a trace: reads and refuses as kiqsaryn_check_trace does, and fills the counts of an accepted trace and judges it under the
 * model. The answer is four words of 16 bits. Of an accepted trace, from the lowest: the row count, the later and the earlier row of the first
 * race, both 0 for free, and 0. Of a refusal: its place in the lowest, its number in the highest, and 0 between. */
uint64_t kiqsaryn_judge(const uint8_t *text, size_t text_len, uint32_t header, uint32_t model, uint32_t row_limit, uint32_t process_limit,
                        size_t byte_limit, uint32_t *rows, size_t rows_len, uint16_t *counts, size_t counts_len);

/* The parts of that answer: the number of a refusal, 0 for none, and its place; else the row count, and the rows of the first race, both 0 for
 * free. A part that the answer does not have is 0. */
static inline uint32_t kiqsaryn_judged_refusal(uint64_t judged) {
    return (uint32_t)(judged >> 48);
}
static inline uint32_t kiqsaryn_judged_place(uint64_t judged) {
    return judged >> 48 ? (uint32_t)(judged & 0xffff) : 0;
}
static inline uint32_t kiqsaryn_judged_rows(uint64_t judged) {
    return judged >> 48 ? 0 : (uint32_t)(judged & 0xffff);
}
static inline uint32_t kiqsaryn_judged_earlier(uint64_t judged) {
    return (uint32_t)(judged >> 32 & 0xffff);
}
static inline uint32_t kiqsaryn_judged_later(uint64_t judged) {
    return (uint32_t)(judged >> 16 & 0xffff);
}

/* Fills the happens-before counts of the first n rows, process_limit each: how many rows of each process happen before the row or are it.
 * The answer is 0, or the number of a refusal, which changes nothing: 1 where `rows` has fewer than 6 * n numbers or `counts` fewer than
 * n * process_limit, 2 for more than 4,096 rows or a process limit that is not 1 to KIQSARYN_PROCESSES, 10 for a row whose process is not below
 * the limit. */
uint32_t kiqsaryn_fill_counts(const uint32_t *rows, size_t rows_len, uint32_t n, uint32_t process_limit, uint16_t *counts, size_t counts_len);

/* The verdict on the first n rows under a model, with the counts filled on the way. The answer is 0 for free; for the first race the earlier
 * row's number times 2^32 plus the later row's, which is at least 2; and for a refusal its number times 2^32, with nothing changed: 1, 2 and 10
 * as for the counts, and 2 also for a model that is not 0 to 3. */
uint64_t kiqsaryn_verdict(const uint32_t *rows, size_t rows_len, uint32_t n, uint32_t process_limit, uint32_t model, uint16_t *counts,
                          size_t counts_len);

/* How many numbers the list takes for a race. */
#define KIQSARYN_PAIR 2

/* Reads, refuses and fills rows and counts as kiqsaryn_judge does, and puts every race under the model into `list`: each once, by its later row and
 * then by its earlier row, two numbers each, the earlier row's first. Behind the pairs the list keeps its numbers. The answer is the number of
 * pairs, below 2^32, or a refusal's number times 2^32 plus the record's place. 23 comes last, with place 0, where the list is too short for all
 * pairs: it keeps the list, and the rows and counts that were read. Any other refusal keeps the list too.
 *
 * The same rows in another order that keeps the rows of each process in order, each wait after its send, and every process at its barriers until all
 * have arrived, have the same races, whichever row of a pair now stands first. A trace that is free under session is free under MPI-IO, and under
 * commit where each close is a commit instead; one that is free under any model is free under POSIX. */
uint64_t kiqsaryn_list_races(const uint8_t *text, size_t text_len, uint32_t header, uint32_t model, uint32_t row_limit, uint32_t process_limit,
                             size_t byte_limit, uint32_t *rows, size_t rows_len, uint16_t *counts, size_t counts_len, uint32_t *list,
                             size_t list_len);

/* Puts every race of the first n rows under a model into `list`, as kiqsaryn_list_races does, with the counts filled on the way. The answer is the
 * number of pairs, or a refusal's number times 2^32: 1, 2 and 10 as for the verdict, with nothing changed, and last 23, which keeps the list
 * alone. */
uint64_t kiqsaryn_races(const uint32_t *rows, size_t rows_len, uint32_t n, uint32_t process_limit, uint32_t model, uint16_t *counts,
                        size_t counts_len, uint32_t *list, size_t list_len);

/* The parts of both answers: the number of a refusal, 0 for none, and its place; else the number of pairs. A part that the answer does not have is
 * 0. */
static inline uint32_t kiqsaryn_listed_refusal(uint64_t listed) {
    return (uint32_t)(listed >> 32);
}
static inline uint32_t kiqsaryn_listed_place(uint64_t listed) {
    return listed >> 32 ? (uint32_t)listed : 0;
}
static inline uint32_t kiqsaryn_listed_pairs(uint64_t listed) {
    return listed >> 32 ? 0 : (uint32_t)listed;
}

/* How many numbers a list must have to be long enough for the races of so many rows, at most 4,096, whatever these are. */
static inline size_t kiqsaryn_list_len(uint32_t rows) {
    return rows ? (size_t)rows * (rows - 1) : 0;
}

/* What the program verdict prints of a trace with header, put at the front of a slice of 256 bytes or more. The answer is its length, and 0
 * for a shorter slice. */
size_t kiqsaryn_report(const uint8_t *text, size_t text_len, uint8_t *out, size_t out_len);

/* Writes the first n rows as plain RFC 4180 text into `out` from index `place` on, behind the line process,kind,file,offset,length,message where
 * `header` is 1. No field is quoted, fields that a kind does not use are empty, and every record ends in CR LF; kiqsaryn_check_trace reads the
 * same rows again under the same header word and process limit. The answer is the text's length, below 2^32 (at most 41 bytes for the header
 * and 36 for each row), or a refusal's number times 2^32 plus the row's number (0 for none). The first No decides: 1 where `rows` has fewer
 * than 6 * n numbers, 2 for more than 4,096 rows or a process limit that is not 1 to KIQSARYN_PROCESSES, 3; then row by row 8, 9 for an unused
 * field that is not 0, 10, 11, 12 and 21; then 22 of all rows; and 18 where `place` lies past the end of `out` or too few bytes follow it. Bytes
 * before the place and behind the text keep their values, and a refusal changes nothing. */
uint64_t kiqsaryn_write(const uint32_t *rows, size_t rows_len, uint32_t n, uint32_t header, uint32_t process_limit, uint8_t *out,
                        size_t out_len, size_t place);

/* Reads one file of a join by itself into `rows`, six numbers each. It asks as kiqsaryn_check_trace does, without a byte limit and without the
 * questions 12, 21 and 22, since a message may be sent in the other file and a barrier finished there. The answer is the row count, below 2^32, or a
 * refusal's number times 2^32 plus the record's place. `rows` takes 6 * row_limit numbers. Refusals 1 to 3 keep it; later ones fill it with 0; an
 * accepted file clears what lies behind its rows. */
uint64_t kiqsaryn_read_file(const uint8_t *text, size_t text_len, uint32_t header, uint32_t row_limit, uint32_t process_limit, uint32_t *rows,
                            size_t rows_len);

/* Joins the files of two controllers into one trace, fills its counts and judges it under the model. The next record comes from the first file,
 * unless that file is at its end or its next row is held back: it is a wait whose message no joined row has sent, or its process has a joined row
 * of a barrier at which not every process with a row in either file has one. Then it comes from the second on the same condition. The verdict is
 * free exactly where that on every other allowed merging of the two files is.
 *
 * `rows` takes 6 * row_limit numbers, `counts` row_limit * process_limit, and `parts` 3 * row_limit: for each joined row the file that holds its
 * record, 1 or 2, where the record starts in that file, and where it ends, before its line end. Behind the joined rows an accepted join clears
 * all three. The first No decides: 1 to 3 (1 also of `parts`, 3 of both header words); 4 to 11 of the first file, then of the second; 19 where
 * a process has rows in both; then of each joined row 6, 12 and 21, or 20 where both next rows are held back, or one is and the other file is at its
 * end; and 22 behind the last joined row. Refusals 1 to 3 keep the three slices; any other fills them with 0.
 *
 * The answer is four words of 16 bits. Of an accepted join, from the lowest: the row count, the later and the earlier row of the first race,
 * both 0 for free, and 0. Of a refusal: its place, the file whose place it is (0 for the place of a joined row, and for none), 0, and its
 * number. */
uint64_t kiqsaryn_join(const uint8_t *first, size_t first_len, uint32_t first_header, const uint8_t *second, size_t second_len,
                       uint32_t second_header, uint32_t model, uint32_t row_limit, uint32_t process_limit, uint32_t *rows, size_t rows_len,
                       uint16_t *counts, size_t counts_len, uint64_t *parts, size_t parts_len);

/* The parts of that answer: the number of a refusal, 0 for none, its place and its file; else the row count, and the rows of the first race, both
 * 0 for free. A part that the answer does not have is 0. */
static inline uint32_t kiqsaryn_joined_refusal(uint64_t joined) {
    return (uint32_t)(joined >> 48);
}
static inline uint32_t kiqsaryn_joined_place(uint64_t joined) {
    return joined >> 48 ? (uint32_t)(joined & 0xffff) : 0;
}
static inline uint32_t kiqsaryn_joined_file(uint64_t joined) {
    return joined >> 48 ? (uint32_t)(joined >> 16 & 0xffff) : 0;
}
static inline uint32_t kiqsaryn_joined_rows(uint64_t joined) {
    return joined >> 48 ? 0 : (uint32_t)(joined & 0xffff);
}
static inline uint32_t kiqsaryn_joined_earlier(uint64_t joined) {
    return joined >> 48 ? 0 : (uint32_t)(joined >> 32 & 0xffff);
}
static inline uint32_t kiqsaryn_joined_later(uint64_t joined) {
    return joined >> 48 ? 0 : (uint32_t)(joined >> 16 & 0xffff);
}

/* Makes a machine over 4 * map_space * (process_limit + 1) numbers, or a plain file over 4 * map_space: 0 everywhere in its maps; what lies
 * behind them is not touched. The answer is 0, or the number of a refusal (1, 2 or 10), which changes nothing. */
uint32_t kiqsaryn_make(uint32_t model, uint32_t process_limit, uint32_t file, uint32_t map_space, uint32_t *maps, size_t maps_len);
uint32_t kiqsaryn_make_plain(uint32_t process_limit, uint32_t file, uint32_t map_space, uint32_t *map, size_t map_len);

/* Puts a row to a machine or a plain file under a row number. The answer is the count of a read's pieces, below 2^32, which stand at the front
 * of `out`; 0 for any other row; or a refusal's number (13, 15, 14, 10, 11, 16 or 17) times 2^32, which changes nothing. */
uint64_t kiqsaryn_step(uint32_t model, uint32_t process_limit, uint32_t file, uint32_t map_space, uint32_t *maps, size_t maps_len,
                       uint32_t process, uint32_t kind, uint32_t row_file, uint32_t offset, uint32_t size, uint32_t number, uint32_t *out,
                       size_t out_len);
uint64_t kiqsaryn_step_plain(uint32_t process_limit, uint32_t file, uint32_t map_space, uint32_t *map, size_t map_len, uint32_t process,
                             uint32_t kind, uint32_t row_file, uint32_t offset, uint32_t size, uint32_t number, uint32_t *out, size_t out_len);

/* Puts the rows behind the first ones, up to row n, to a machine or a plain file, each that names its file, under its number in the trace.
 * counts[k] gets the count of pieces of row k + 1, and `out` the pieces of all reads one after the other. The answer is how many rows it has
 * gone through, those first ones included, plus 2^32 times the number of the refusal that ended it before the next row, 0 for none. Then the
 * state and the slices are as the rows before it left them, and it can be taken up again from there. 1: `rows` has fewer than 6 * n numbers or
 * `counts` fewer than n; 13: the state is not lawful. */
uint64_t kiqsaryn_replay(uint32_t model, uint32_t process_limit, uint32_t file, uint32_t map_space, uint32_t *maps, size_t maps_len,
                         const uint32_t *rows, size_t rows_len, uint32_t first, uint32_t n, uint32_t *counts, size_t counts_len, uint32_t *out,
                         size_t out_len);
uint64_t kiqsaryn_replay_plain(uint32_t process_limit, uint32_t file, uint32_t map_space, uint32_t *map, size_t map_len, const uint32_t *rows,
                               size_t rows_len, uint32_t first, uint32_t n, uint32_t *counts, size_t counts_len, uint32_t *out, size_t out_len);

/* Looks a byte up in a map. `map` is the 4 * map_space numbers of one map: a plain file has one, and a machine the published map and then one for
 * each process. The answer is the first byte behind it that has another row number or another mark, 4,294,967,295 where none has, plus 2^32 times
 * its mark plus 2^34 times its row number (both are 0 for an unwritten byte). Or it is a refusal's number times 2^48: 13 for a map that is not
 * lawful, also for a slice whose length is no multiple of 4; 11 for byte 4,294,967,295, where a range of length 1 ends past the offset range. */
uint64_t kiqsaryn_lookup(const uint32_t *map, size_t map_len, uint32_t byte);

/* The parts of that answer: the number of a refusal, 0 for none; else the row number and the mark of the byte, and the next byte that has others. A
 * part that the answer does not have is 0. */
static inline uint32_t kiqsaryn_looked_refusal(uint64_t looked) {
    return (uint32_t)(looked >> 48);
}
static inline uint32_t kiqsaryn_looked_number(uint64_t looked) {
    return (uint32_t)(looked >> 34 & 0x3fff);
}
static inline uint32_t kiqsaryn_looked_mark(uint64_t looked) {
    return (uint32_t)(looked >> 32 & 3);
}
static inline uint32_t kiqsaryn_looked_next(uint64_t looked) {
    return (uint32_t)looked;
}

#ifdef __cplusplus
}
#endif

#endif
