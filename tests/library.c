/* Tests of libdrain that no file can show: where the members of an answer lie, arguments that are refused, memory that is
 * refused at each call of malloc and realloc, what is left allocated, and calls of several threads at once; with those
 * of library_calls.c and library_dem.c. tests/library.sh builds them with -Wl,--wrap=malloc,--wrap=realloc,--wrap=free, so
 * library.c sees each such call of the library.
 *
 * Usage: library SIDE DIRECTORY TILE NAME LINE    (an audit of these files answers LINE; DIRECTORY has no ranks, so the
 * check that is tried takes con for them)
 *
 * It prints a line for each test that failed, and in its last line 'N passed, M failed'. */
#define _GNU_SOURCE
#include <pthread.h>
#include <stdarg.h>
#include <stdio.h>
#include <stdlib.h>
#include <string.h>
#include <sys/mman.h>

#include "library.h"

void *__real_malloc(size_t);
void *__real_realloc(void *, size_t);
void __real_free(void *);

/* Of this thread: calls that ask for memory, those that are still granted (negative: all), whether later ones are
 * granted again, blocks that are held, and the largest that was asked for. */
static __thread long calls, granted = -1, held;
static __thread size_t largest;
static __thread int only_one;

static int is_granted(size_t size) {
    calls++;
    if (size > largest)
        largest = size;
    if (granted < 0)
        return 1;
    if (granted == 0) {
        if (only_one)
            granted = -1;
        return 0;
    }
    granted--;
    return 1;
}

void *__wrap_malloc(size_t size) {
    void *at = is_granted(size) ? __real_malloc(size) : NULL;
    held += at != NULL;
    return at;
}

void *__wrap_realloc(void *old, size_t size) {
    void *at = is_granted(size) ? __real_realloc(old, size) : NULL;
    held += !old && at;
    return at;
}

void __wrap_free(void *at) {
    held -= at != NULL;
    __real_free(at);
}

static int passed, failed;

void judge(int is_right, const char *format, ...) {
    va_list words;
    if (is_right) {
        passed++;
        return;
    }
    failed++;
    printf("FAILED ");
    va_start(words, format);
    vprintf(format, words);
    va_end(words);
    printf("\n");
}

/* An answer whose members were 0xff before a call. */
drain_answer unwritten(void) {
    drain_answer answer;
    memset(&answer, 0xff, sizeof answer);
    return answer;
}

/* Whether the answer has this status, this line and zeros behind it. */
int says(const drain_answer *answer, uint32_t status, const char *line) {
    size_t length = strlen(line);
    if (answer->status != status || length > 160 || memcmp(answer->line, line, length))
        return 0;
    for (size_t i = length; i < DRAIN_LINE_SIZE; i++)
        if (answer->line[i])
            return 0;
    return 1;
}

static drain_bytes read_file(const char *directory, const char *name) {
    static char path[4096];
    snprintf(path, sizeof path, "%s%s%s", directory, *directory ? "/" : "", name);
    FILE *file = fopen(path, "rb");
    if (!file) {
        perror(path);
        exit(4);
    }
    size_t room = 1 << 20;
    char *bytes = __real_malloc(room);
    size_t length = fread(bytes, 1, room, file);
    fclose(file);
    return drain_bytes_of(bytes, length);
}

uint32_t side;
drain_tile tile;
drain_audit_rasters rasters;
const uint8_t no_sinks[] = "";

/* One audit that is refused, with zero in the numbers of a rejection. */
static void judge_refused(const char *name, uint32_t its_side, const drain_tile *tiles, size_t count, const char *sinks, const drain_audit_rasters *given, const char *line) {
    drain_answer answer = unwritten();
    long before = held;
    uint32_t status = drain_audit(its_side, tiles, count, (const uint8_t *)sinks, strlen(sinks), given, &answer);
    judge(status == DRAIN_REFUSED && says(&answer, DRAIN_REFUSED, line) && !answer.rule && !answer.row && !answer.col && held == before, "%s: status %u: %.164s", name, status, answer.line);
}

static void test_refusals(void) {
    drain_bytes none = drain_bytes_of(NULL, 0);
    drain_tile changed = tile;
    drain_tile twice[] = {tile, tile};
    drain_audit_rasters others;
    judge(none.at && !none.length && !none.missing, "no bytes have an address");
    drain_bytes five = drain_bytes_of(NULL, 5), two = drain_bytes_of(no_sinks, 2);
    judge(five.at && !five.length && five.missing == 5, "missing bytes: %zu, and %zu missing", five.length, five.missing);
    judge(two.at == no_sinks && two.length == 2 && !two.missing, "two bytes: %zu, and %zu missing", two.length, two.missing);
    judge_refused("side 0", 0, &tile, 1, "", &rasters, "refused BadSide");
    judge_refused("side 1", 1, &tile, 1, "", &rasters, "refused BadSide");
    judge_refused("the greatest side", UINT32_MAX, &tile, 1, "", &rasters, "refused BadSide");
    judge_refused("no tiles", side, &tile, 0, "", &rasters, "refused NoTiles");
    judge_refused("a tile twice", side, twice, 2, "", &rasters, "refused RepeatedTile N36W085.hgt");
    changed.name = none;
    judge_refused("a tile without a name", side, &changed, 1, "", &rasters, "refused BadName 0");
    changed = tile;
    changed.samples = none;
    judge_refused("a tile without samples", side, &changed, 1, "", &rasters, "refused BadTileLength N36W085.hgt");
    changed = tile;
    changed.samples.length--;
    judge_refused("a tile that is a byte short", side, &changed, 1, "", &rasters, "refused BadTileLength N36W085.hgt");
    others = rasters;
    others.dir.header = none;
    judge_refused("a header without bytes", side, &tile, 1, "", &others, "refused BadHeader dir MissingKey NROWS");
    others = rasters;
    others.con.header = others.con.pixels;
    judge_refused("pixels for a header", side, &tile, 1, "", &others, "refused BadHeader con MissingKey NROWS");
    others = rasters;
    others.bas.pixels = none;
    judge_refused("a raster without pixels", side, &tile, 1, "", &others, "refused RasterShort bas");
    others = rasters;
    others.acc.pixels.length--;
    judge_refused("a raster that is a byte short", side, &tile, 1, "", &others, "refused RasterShort acc");
    judge_refused("a sink that is no cell", side, &tile, 1, "x", &rasters, "refused BadSinkLine 1");
    judge_refused("a sink off the mosaic", side, &tile, 1, "1 1\n51 0\n", &rasters, "refused SinkNotData 2");
}

/* An audit of some rasters, with NULL for the others. */
uint32_t audit_only(uint32_t judged, const drain_audit_rasters *given, drain_answer *answer) {
    drain_raster null = {drain_bytes_of(NULL, 5), drain_bytes_of(NULL, 5)};
    drain_audit_rasters some = {given->con, judged & 2 ? given->dir : null, judged & 4 ? given->acc : null, judged & 8 ? given->bas : null};
    return drain_audit_only(side, &tile, 1, no_sinks, 0, &some, judged, answer);
}

/* The calls that are tried with memory refused and in threads. */
enum { AUDIT, CHECK, AUDIT_CON, AUDIT_WAYS, EXPLAIN, DERIVE, OVER_DEM, CALLS = OVER_DEM + 4 };
static const char *const call_names[CALLS] = {"audit", "check", "audit of con", "audit of con and dir", "explanation", "derivation", "audit of one raster", "check of one raster", "explanation over one raster", "derivation over one raster"};
static uint32_t (*const over_dem[])(drain_answer *) = {audit_samples, check_samples, explain_samples, derive_samples};

/* One of them, of the files. The check takes con for ranks, so its answer is that of a poor certificate. */
static uint32_t call(int which, drain_answer *answer) {
    drain_check_rasters checked = {rasters.con, rasters.dir, rasters.acc, rasters.bas, rasters.con};
    drain_faults faults;
    uint8_t map[MAP_LENGTH];
    uint32_t acc[MAP_LENGTH], bas[MAP_LENGTH], rnk[MAP_LENGTH];
    *answer = unwritten();
    if (which >= OVER_DEM)
        return over_dem[which - OVER_DEM](answer);
    switch (which) {
    case DERIVE:
        return drain_derive(side, &tile, 1, &rasters.dir, acc, MAP_LENGTH, bas, MAP_LENGTH, rnk, MAP_LENGTH, answer);
    case EXPLAIN:
        return drain_explain(side, &tile, 1, no_sinks, 0, &rasters, DRAIN_ALL, map, sizeof map, &faults, answer);
    case CHECK:
        return drain_check(side, &tile, 1, no_sinks, 0, &checked, answer);
    case AUDIT_CON:
        return audit_only(DRAIN_CON, &rasters, answer);
    case AUDIT_WAYS:
        return audit_only(DRAIN_CON_DIR, &rasters, answer);
    default:
        return drain_audit(side, &tile, 1, no_sinks, 0, &rasters, answer);
    }
}

/* The places and sizes that drain_answer_layout is proved to give. */
_Static_assert(offsetof(drain_answer, status) == 0 && offsetof(drain_answer, rule) == 4, "status and rule");
_Static_assert(offsetof(drain_answer, row) == 8 && offsetof(drain_answer, col) == 12, "row and col");
_Static_assert(offsetof(drain_answer, line) == 16 && DRAIN_LINE_SIZE == 164 && sizeof(drain_answer) == 180, "the line");

/* And of faults drain_faults_layout. */
_Static_assert(offsetof(drain_fault_cells, cells) == 0 && offsetof(drain_fault_cells, row) == 4, "cells and row");
_Static_assert(offsetof(drain_fault_cells, col) == 8 && sizeof(drain_faults) == 180, "col and the size");

/* A spacing lies as given.rt has it. */
_Static_assert(offsetof(drain_spacing, width) == 0 && offsetof(drain_spacing, height) == 4, "width and height");
_Static_assert(offsetof(drain_spacing, widths) == 8 && sizeof(drain_spacing) == 32, "the text of widths");

/* Whether all of these bytes are this one. */
int are_all(const void *bytes, size_t length, uint8_t byte) {
    for (size_t i = 0; i < length; i++)
        if (((const uint8_t *)bytes)[i] != byte)
            return 0;
    return 1;
}

/* The library writes the members where drain.h has them, and not behind the answer. */
static void test_layout(void) {
    struct {
        drain_answer answer;
        uint8_t behind[64];
    } room;
    memset(&room, 0x5a, sizeof room);
    size_t size = drain_answer_layout(&room.answer);
    judge(size == 180, "the size of an answer: %zu", size);
    judge(room.answer.status == 0 && room.answer.rule == 4 && room.answer.row == 8 && room.answer.col == 12, "places: status %u, rule %u, row %u, col %u", room.answer.status,
          room.answer.rule, room.answer.row, room.answer.col);
    judge(are_all(room.answer.line, 164, 255) && are_all(room.behind, sizeof room.behind, 0x5a), "the line of an answer, and what lies behind it");
    struct {
        drain_faults faults;
        uint8_t behind[64];
    } faults;
    memset(&faults, 0x5a, sizeof faults);
    size = drain_faults_layout(&faults.faults);
    int are_right = size == 180 && are_all(faults.behind, sizeof faults.behind, 0x5a);
    for (uint32_t i = 0; i < 15; i++)
        are_right &= faults.faults.rules[i].cells == 12 * i && faults.faults.rules[i].row == 12 * i + 4 && faults.faults.rules[i].col == 12 * i + 8;
    judge(are_right, "the places of faults, the size %zu, and what lies behind them", size);
    call(AUDIT, &room.answer);
    judge(are_all(room.behind, sizeof room.behind, 0x5a), "an audit writes behind its answer");
}

/* The rasters, but acc counts one cell too many at row 3, column 7. By rule 13 that cell is wrong, and no earlier one: it
 * flows south. */
drain_audit_rasters with_wrong_count(void) {
    drain_audit_rasters others = rasters;
    uint8_t *pixels = __real_malloc(rasters.acc.pixels.length);
    memcpy(pixels, rasters.acc.pixels.at, rasters.acc.pixels.length);
    pixels[4 * (3 * side + 7)]++;
    others.acc.pixels.at = pixels;
    return others;
}

static void test_rejection(void) {
    drain_audit_rasters others = with_wrong_count();
    drain_answer answer = unwritten();
    uint32_t status = drain_audit(side, &tile, 1, no_sinks, 0, &others, &answer);
    judge(status == 1 && says(&answer, 1, "rejected rule=13 Accumulation row=3 col=7") && answer.rule == 13 && answer.row == 3 && answer.col == 7,
          "a wrong count: status %u, rule %u, row %u, col %u: %.164s", answer.status, answer.rule, answer.row, answer.col, answer.line);
}

/* NULL for bytes that should be there, in each place of an audit and of a check. */
static void test_null(void) {
    drain_bytes null = drain_bytes_of(NULL, 5);
    drain_tile tiles[] = {tile, tile};
    drain_check_rasters checked = {rasters.con, rasters.dir, rasters.acc, rasters.bas, rasters.con};
    drain_bytes *places[] = {&tiles[0].name, &tiles[0].samples, &tiles[1].name, &tiles[1].samples, &checked.con.header, &checked.con.pixels, &checked.dir.header, &checked.dir.pixels,
                             &checked.acc.header, &checked.acc.pixels, &checked.bas.header, &checked.bas.pixels, &checked.rnk.header, &checked.rnk.pixels};
    for (size_t i = 0; i < sizeof places / sizeof *places; i++) {
        drain_bytes had = *places[i];
        drain_answer answer = unwritten();
        *places[i] = null;
        uint32_t status = drain_check(side, tiles, 2, no_sinks, 0, &checked, &answer);
        judge(status == 2 && says(&answer, 2, "refused NullBytes") && !answer.rule && !answer.row && !answer.col, "NULL in place %zu of a check: status %u: %.164s", i, status, answer.line);
        drain_audit_rasters audited = {checked.con, checked.dir, checked.acc, checked.bas};
        if (i < 12)
            judge_refused("NULL for bytes", side, tiles, 2, "", &audited, "refused NullBytes");
        *places[i] = had;
    }
}

/* Headers before a page that can't be read: one that fills the limit, and those of 65,537 bytes and of 5 GB, which differ
 * in what lies on that page alone. Each raster's is tried over the tile and over one raster, and that one's too. */
static void test_long_headers(void) {
    const size_t readable = 17 * 4096, most = 65537, five_gb = (size_t)5 << 30;
    uint8_t *start = mmap(NULL, readable + five_gb, PROT_NONE, MAP_PRIVATE | MAP_ANONYMOUS | MAP_NORESERVE, -1, 0);
    if (start == MAP_FAILED || mprotect(start, readable, PROT_READ | PROT_WRITE)) {
        perror("5 GB of addresses");
        exit(4);
    }
    uint8_t *header = start + readable - most;
    char text[DRAIN_HEADER_SIZE];
    drain_audit_rasters others = rasters;
    drain_raster dem = dem_of_samples(text), *each[] = {&others.con, &others.dir, &others.acc, &others.bas, &dem};
    const char *lines[] = {"refused BadHeader con TooLong", "refused BadHeader dir TooLong", "refused BadHeader acc TooLong", "refused BadHeader bas TooLong", "refused BadHeader dem TooLong"};
    const size_t lengths[] = {most - 1, most, five_gb};
    for (int i = 0; i < 9; i++) {
        drain_bytes *given = &each[i % 5]->header, had = *given;
        memset(header, '\n', most);
        memcpy(header, had.at, had.length);
        for (int j = 0; j < 3; j++) {
            drain_answer answer = unwritten();
            *given = drain_bytes_of(header, lengths[j]);
            largest = 0;
            uint32_t status = i < 4 ? drain_audit(side, &tile, 1, no_sinks, 0, &others, &answer) : drain_audit_dem(&dem, no_sinks, 0, &others, &answer);
            judge(j ? status == 2 && says(&answer, 2, lines[i % 5]) : !status, "a header of %zu bytes: status %u: %.164s", lengths[j], status, answer.line);
            judge(!j || largest == most, "a block of %zu bytes for a header", largest);
        }
        *given = had;
    }
    munmap(start, readable + five_gb);
}

/* Headers of the most rows and columns, and 18 bytes of elevations: these are too short, and no call asks for much memory. */
static void test_large_headers(void) {
    static const char text[] = "NROWS 28801\nNCOLS 28801\nNBITS 16\nULXMAP 0\nULYMAP 0\nXDIM 1\nYDIM 1\n";
    drain_raster dem = {drain_bytes_of(text, strlen(text)), drain_bytes_of(text, 18)}, none = {dem.header, drain_bytes_of(NULL, 0)};
    drain_audit_rasters four = {none, none, none, none};
    drain_check_rasters five = {none, none, none, none, none};
    drain_faults faults;
    uint8_t map[1];
    uint32_t numbers[3];
    for (int i = 0; i < 5; i++) {
        drain_answer answer = unwritten();
        largest = 0;
        uint32_t status = i == 0   ? drain_audit_dem(&dem, no_sinks, 0, &four, &answer)
                          : i == 1 ? drain_audit_only_dem(&dem, no_sinks, 0, &four, DRAIN_CON, &answer)
                          : i == 2 ? drain_check_dem(&dem, no_sinks, 0, &five, &answer)
                          : i == 3 ? drain_explain_dem(&dem, no_sinks, 0, &four, DRAIN_ALL, map, 1, &faults, &answer)
                                   : drain_derive_dem(&dem, &none, numbers, 1, numbers + 1, 1, numbers + 2, 1, &answer);
        judge(status == 2 && says(&answer, 2, "refused RasterShort dem") && largest < 1 << 20, "large headers, call %d: a block of %zu bytes, status %u: %.164s", i, largest, status, answer.line);
    }
}

/* Refuses each request for memory of a call: alone, and with every later one. The answer is out of memory, or, where the
 * library does without, the same as with it. Nothing is left allocated. */
static void test_memory(int which) {
    drain_answer right, answer;
    const char *name = call_names[which];
    long before = held, wants = 0;
    calls = 0;
    call(which, &right);
    long requests = calls;
    judge(held == before, "%s: %ld blocks are left", name, held - before);
    judge(requests > 5, "%s: %ld requests for memory", name, requests);
    for (int alone = 0; alone < 2; alone++)
        for (long at = 0; at < requests; at++) {
            only_one = alone;
            granted = at;
            call(which, &answer);
            granted = -1;
            int failed_well = says(&answer, DRAIN_FAILED, "failed OutOfMemory") && !answer.rule && !answer.row && !answer.col;
            wants += failed_well;
            judge((failed_well || !memcmp(&answer, &right, sizeof right)) && held == before, "%s: request %ld refused%s: status %u: %.164s; %ld blocks are left", name, at,
                  alone ? "" : " and all later ones", answer.status, answer.line, held - before);
        }
    judge(wants > 5, "%s: out of memory in %ld answers", name, wants);
    call(which, &answer);
    judge(!memcmp(&answer, &right, sizeof right), "%s: another answer after refusals", name);
}

enum { THREADS = 4, ROUNDS = 50 };

/* Whether each of some calls gives the same answer. */
static void *repeat(void *right) {
    long same = 0;
    for (int i = 0; i < ROUNDS; i++) {
        drain_answer answer;
        call(i % CALLS, &answer);
        same += !memcmp(&answer, &((drain_answer *)right)[i % CALLS], sizeof answer);
    }
    return (void *)same;
}

static void test_threads(void) {
    drain_answer right[CALLS];
    pthread_t threads[THREADS];
    for (int i = 0; i < CALLS; i++)
        call(i, &right[i]);
    for (int i = 0; i < THREADS; i++)
        if (pthread_create(&threads[i], NULL, repeat, right))
            exit(4);
    for (int i = 0; i < THREADS; i++) {
        void *same;
        pthread_join(threads[i], &same);
        judge((long)same == ROUNDS, "thread %d: %ld of %d answers are right", i, (long)same, ROUNDS);
    }
}

int main(int argc, char **argv) {
    drain_answer answer;
    if (argc != 6)
        return 2;
    side = (uint32_t)strtoul(argv[1], NULL, 10);
    tile.name = drain_bytes_of(argv[4], strlen(argv[4]));
    tile.samples = read_file("", argv[3]);
    drain_raster *each[] = {&rasters.con, &rasters.dir, &rasters.acc, &rasters.bas};
    const char *names[][2] = {{"con.hdr", "con.bil"}, {"dir.hdr", "dir.bil"}, {"acc.hdr", "acc.bil"}, {"bas.hdr", "bas.bil"}};
    for (int i = 0; i < 4; i++) {
        each[i]->header = read_file(argv[2], names[i][0]);
        each[i]->pixels = read_file(argv[2], names[i][1]);
    }
    judge(!call(AUDIT, &answer) && says(&answer, DRAIN_ACCEPTED, argv[5]) && !answer.rule && !answer.row && !answer.col, "the audit: %.164s", answer.line);
    judge(call(CHECK, &answer) == DRAIN_REJECTED && answer.status == DRAIN_REJECTED && answer.rule, "the check: %.164s", answer.line);
    test_layout();
    test_rejection();
    test_choices(argv[5]);
    test_spacings(argv[5]);
    test_calls();
    test_refused_spacings();
    test_explanation(argv[5]);
    test_derivation(argv[5]);
    test_version();
    test_arrays(argv[5]);
    test_kinds();
    test_headers();
    test_dem(argv[5]);
    test_request_layout();
    test_requests(argv[5]);
    test_refusals();
    test_null();
    test_long_headers();
    test_large_headers();
    for (int i = 0; i < CALLS; i++)
        test_memory(i);
    test_threads();
    printf("%d passed, %d failed\n", passed, failed);
    return failed > 0;
}
