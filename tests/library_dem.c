/* Tests of the calls of libdrain over one raster of elevations: small rasters whose lines were worked out by hand from the
 * rules, refusals, and the files with the tile's samples as such a raster. library.c runs them. */
#define _GNU_SOURCE
#include <string.h>

#include "library.h"

enum { MOST_CELLS = 9 };

/* A raster of elevations with its products, in this order: the bits of its pixels, with a sign or not, and its NODATA line;
 * the same of con; the numbers; the list of sinks; the line that an audit and a check answer; and the map of an explanation,
 * 0 at each cell if none is given. At no cell does more than one rule fail. */
typedef struct {
    const char *name;
    uint32_t rows, cols;
    uint32_t bits;
    int is_signed;
    const char *nodata;
    uint32_t con_bits;
    const char *con_nodata;
    int64_t z[MOST_CELLS], con[MOST_CELLS];
    uint32_t dir[MOST_CELLS], acc[MOST_CELLS], bas[MOST_CELLS], rnk[MOST_CELLS];
    const char *sinks, *line;
    uint8_t map[MOST_CELLS];
} worked;

#define NO_RANK UINT32_MAX
#define PEAK 4294967295
#define TO_EAST {0, 0, 0, 0, 1, 0, 0, 0, 0}, {1, 1, 1, 1, 1, 2, 1, 1, 1}, {1, 2, 3, 4, 5, 5, 6, 7, 8}, {0, 0, 0, 0, 1, 0, 0, 0, 0}
#define TO_CENTRE {2, 4, 8, 1, 0, 16, 128, 64, 32}, {1, 1, 1, 1, 9, 1, 1, 1, 1}, {1, 1, 1, 1, 1, 1, 1, 1, 1}, {1, 1, 1, 1, 0, 1, 1, 1, 1}
#define FALL "a slope of 32 bits", 2, 3, 32, 1, "", 32, "", {100002, 100001, 100000, 100002, 100001, 100000}, {100002, 100001, 100000, 100002, 100001, 100000}
#define SPLIT 1, 3, 16, 1, "NODATA -9999\n", 16
#define SPLIT_NUMBERS {-32768, -9999, 0}, {-32768, -9999, 0}, {0, 255, 0}, {1, 0, 1}, {1, 0, 2}, {0, NO_RANK, 0}

static const worked worked_dems[] = {
    {"a pit of 8 bits", 3, 3, 8, 0, "", 16, "", {5, 5, 5, 5, 1, 5, 5, 5, 5}, {5, 5, 5, 5, 5, 5, 5, 5, 5}, TO_EAST, "", "accepted rows=3 cols=3 data=9 raised=1 outlets=8", {0}},
    {"a pit that is listed", 3, 3, 8, 0, "", 16, "", {5, 5, 5, 5, 1, 5, 5, 5, 5}, {5, 5, 5, 5, 1, 5, 5, 5, 5}, TO_CENTRE, "1 1\n", "accepted rows=3 cols=3 data=9 raised=0 outlets=1", {0}},
    {"a pit that isn't filled", 3, 3, 8, 0, "", 16, "", {5, 5, 5, 5, 1, 5, 5, 5, 5}, {5, 5, 5, 5, 1, 5, 5, 5, 5}, TO_CENTRE, "", "rejected rule=12 FlatStep row=1 col=1", {[4] = 12}},
    {"a sink off the raster", 3, 3, 8, 0, "", 16, "", {5, 5, 5, 5, 1, 5, 5, 5, 5}, {5, 5, 5, 5, 1, 5, 5, 5, 5}, TO_CENTRE, "1 1\n3 0\n", "refused SinkNotData 2", {0}},
    {FALL, {1, 1, 0, 1, 1, 0}, {1, 2, 3, 1, 2, 3}, {1, 1, 1, 2, 2, 2}, {2, 1, 0, 2, 1, 0}, "", "accepted rows=2 cols=3 data=6 raised=0 outlets=2", {0}},
    {FALL, {1, 1, 0, 1, 1, 0}, {1, 2, 3, 1, 2, 4}, {1, 1, 1, 2, 2, 2}, {2, 1, 0, 2, 1, 0}, "", "rejected rule=13 Accumulation row=1 col=2", {[5] = 13}},
    {"a void between two cells", SPLIT, "NODATA -9999\n", SPLIT_NUMBERS, "", "accepted rows=1 cols=3 data=2 raised=0 outlets=2", {[1] = 255}},
    {"con without a no-data number", SPLIT, "", SPLIT_NUMBERS, "", "rejected rule=2 Missing row=0 col=0", {2, 1}},
    {"a sink in a void", SPLIT, "NODATA -9999\n", SPLIT_NUMBERS, "0 1\n", "refused SinkNotData 1", {0}},
    {"a peak of 32 bits without a sign", 3, 3, 32, 0, "", 32, "NODATA -1\n", {0, 0, 0, 0, PEAK, 0, 0, 0, 0}, {0, 0, 0, 0, PEAK, 0, 0, 0, 0}, TO_EAST, "", "accepted rows=3 cols=3 data=9 raised=0 outlets=8", {0}},
    {"a peak that falls aslant", 3, 3, 32, 0, "", 32, "NODATA -1\n", {0, 0, 0, 0, PEAK, 0, 0, 0, 0}, {0, 0, 0, 0, PEAK, 0, 0, 0, 0},
     {0, 0, 0, 0, 2, 0, 0, 0, 0}, {1, 1, 1, 1, 1, 1, 1, 1, 2}, {1, 2, 3, 4, 8, 5, 6, 7, 8}, {0, 0, 0, 0, 1, 0, 0, 0, 0}, "", "rejected rule=10 Slope row=1 col=1", {[4] = 10}},
};

/* A set in memory: headers and pixels. */
typedef struct {
    char texts[6][256];
    uint8_t pixels[6][4 * MOST_CELLS];
    drain_raster dem;
    drain_check_rasters rasters;
    size_t cells;
} dem_set;

static uint64_t number_at(const int64_t *heights, const uint32_t *numbers, size_t at) {
    return heights ? (uint64_t)heights[at] : numbers[at];
}

/* One raster of a set, its numbers with the low byte first. */
static drain_raster put_raster(dem_set *set, int which, const worked *row, uint32_t bits, int is_signed, const char *nodata, const int64_t *heights, const uint32_t *numbers) {
    uint32_t size = bits / 8, cells = row->rows * row->cols;
    drain_raster raster;
    snprintf(set->texts[which], sizeof set->texts[which], "NROWS %u\nNCOLS %u\nNBITS %u\nPIXELTYPE %s\nULXMAP 500000\nULYMAP 4000000\nXDIM 30\nYDIM 30\n%s", row->rows, row->cols, bits,
             is_signed ? "SIGNEDINT" : "UNSIGNEDINT", nodata);
    for (uint32_t i = 0; i < size * cells; i++)
        set->pixels[which][i] = (uint8_t)(number_at(heights, numbers, i / size) >> 8 * (i % size));
    raster.header = drain_bytes_of(set->texts[which], strlen(set->texts[which]));
    raster.pixels = drain_bytes_of(set->pixels[which], size * cells);
    return raster;
}

static void put_set(dem_set *set, const worked *row) {
    set->cells = row->rows * row->cols;
    set->dem = put_raster(set, 0, row, row->bits, row->is_signed, row->nodata, row->z, NULL);
    set->rasters.con = put_raster(set, 1, row, row->con_bits, row->con_bits == 16 || row->is_signed, row->con_nodata, row->con, NULL);
    set->rasters.dir = put_raster(set, 2, row, 8, 0, "", NULL, row->dir);
    set->rasters.acc = put_raster(set, 3, row, 32, 0, "", NULL, row->acc);
    set->rasters.bas = put_raster(set, 4, row, 32, 0, "", NULL, row->bas);
    set->rasters.rnk = put_raster(set, 5, row, 32, 0, "", NULL, row->rnk);
}

/* Memory for what is written beside an answer, with one number more than cells. */
typedef struct {
    uint8_t map[MOST_CELLS + 1];
    drain_faults faults;
    uint32_t acc[MOST_CELLS + 1], bas[MOST_CELLS + 1], rnk[MOST_CELLS + 1];
} written;

static written unwritten_rasters(void) {
    written room;
    memset(&room, 0x5a, sizeof room);
    return room;
}

/* Whether it is as it was before a call. */
static int is_unwritten(const written *room) {
    return are_all(room, sizeof *room, 0x5a);
}

static uint32_t explain_set(const dem_set *set, const char *sinks, uint32_t choice, size_t length, written *room, drain_answer *answer) {
    drain_audit_rasters audited = {set->rasters.con, set->rasters.dir, set->rasters.acc, set->rasters.bas};
    return drain_explain_dem(&set->dem, (const uint8_t *)sinks, strlen(sinks), &audited, choice, room->map, length, &room->faults, answer);
}

static uint32_t derive_set(const dem_set *set, written *room, drain_answer *answer) {
    return drain_derive_dem(&set->dem, &set->rasters.dir, room->acc, set->cells, room->bas, set->cells, room->rnk, set->cells, answer);
}

/* An audit, an audit of all four, an explanation and a check of a set answer this line, with these numbers. */
static void judge_set(const char *name, const dem_set *set, const char *sinks, const char *line) {
    drain_audit_rasters audited = {set->rasters.con, set->rasters.dir, set->rasters.acc, set->rasters.bas};
    static const char *const calls[] = {"an audit", "an audit of all", "an explanation", "a check"};
    drain_answer answers[] = {unwritten(), unwritten(), unwritten(), unwritten()};
    written room = unwritten_rasters();
    uint32_t status = *line == 'a' ? 0 : strncmp(line, "rejected", 8) ? 2 : 1, rule = 0, row = 0, col = 0;
    char words[32];
    sscanf(line, "rejected rule=%u %31s row=%u col=%u", &rule, words, &row, &col);
    uint32_t came[] = {drain_audit_dem(&set->dem, (const uint8_t *)sinks, strlen(sinks), &audited, &answers[0]),
                       drain_audit_only_dem(&set->dem, (const uint8_t *)sinks, strlen(sinks), &audited, DRAIN_ALL, &answers[1]),
                       explain_set(set, sinks, DRAIN_ALL, set->cells, &room, &answers[2]),
                       drain_check_dem(&set->dem, (const uint8_t *)sinks, strlen(sinks), &set->rasters, &answers[3])};
    for (int i = 0; i < 4; i++)
        judge(came[i] == status && says(&answers[i], status, line) && answers[i].rule == rule && answers[i].row == row && answers[i].col == col, "%s, %s: status %u, rule %u, row %u, col %u: %.164s",
              calls[i], name, came[i], answers[i].rule, answers[i].row, answers[i].col, answers[i].line);
    judge(status != 2 || is_unwritten(&room), "%s: a map or faults are written without a verdict", name);
}

/* What an explanation writes of a set, if it isn't refused: the map, and of each rule the cells that have its number there. */
static void test_worked_map(const dem_set *set, const worked *row) {
    written room = unwritten_rasters();
    drain_answer answer;
    drain_faults faults = {{{0}}};
    if (explain_set(set, row->sinks, DRAIN_ALL, set->cells, &room, &answer) == 2)
        return;
    for (uint32_t i = (uint32_t)set->cells; i-- > 0;)
        if (row->map[i] && row->map[i] != 255) {
            drain_fault_cells *rule = &faults.rules[row->map[i] - 1];
            *rule = (drain_fault_cells){rule->cells + 1, i / row->cols, i % row->cols};
        }
    judge(!memcmp(room.map, row->map, set->cells) && room.map[set->cells] == 0x5a, "%s: the map", row->name);
    judge(!memcmp(&room.faults, &faults, sizeof faults), "%s: faults", row->name);
}

/* What follows from the directions of a set, whatever its other rasters and sinks are: its labels and ranks, and its counts
 * if they are right. */
static void test_worked_derivation(const dem_set *set, const worked *row) {
    written room = unwritten_rasters();
    drain_answer answer = unwritten();
    char line[64];
    size_t size = 4 * set->cells;
    snprintf(line, sizeof line, "derived rows=%u cols=%u", row->rows, row->cols);
    judge(!derive_set(set, &room, &answer) && says(&answer, 0, line) && !answer.rule && !answer.row && !answer.col, "%s: a derivation: %.164s", row->name, answer.line);
    judge(strstr(row->line, "Accumulation") || !memcmp(room.acc, row->acc, size), "%s: counts", row->name);
    judge(!memcmp(room.bas, row->bas, size) && !memcmp(room.rnk, row->rnk, size), "%s: labels and ranks", row->name);
    judge(room.acc[set->cells] == 0x5a5a5a5a && room.bas[set->cells] == 0x5a5a5a5a && room.rnk[set->cells] == 0x5a5a5a5a, "%s: what lies behind", row->name);
}

static void test_worked_dems(void) {
    for (size_t i = 0; i < sizeof worked_dems / sizeof *worked_dems; i++) {
        dem_set set;
        put_set(&set, &worked_dems[i]);
        judge_set(worked_dems[i].name, &set, worked_dems[i].sinks, worked_dems[i].line);
        test_worked_map(&set, &worked_dems[i]);
        test_worked_derivation(&set, &worked_dems[i]);
    }
}

/* Nothing is written for a map of another length or another choice, nor where nothing follows: a ring, dir in another place,
 * a dem that is a byte short, and memory of another length. */
static void test_dem_unwritten(void) {
    static const char far[] = "NROWS 2\nNCOLS 3\nNBITS 8\nULXMAP 500031\nULYMAP 4000000\nXDIM 30\nYDIM 30\n";
    static const size_t lengths[] = {0, 5, 7};
    written room = unwritten_rasters();
    dem_set set;
    put_set(&set, &worked_dems[4]);
    for (size_t i = 0; i < sizeof lengths / sizeof *lengths; i++) {
        drain_answer answer = unwritten();
        judge(explain_set(&set, "", DRAIN_ALL, lengths[i], &room, &answer) == 2 && says(&answer, 2, "refused BadMapLength"), "a map of %zu bytes: %.164s", lengths[i], answer.line);
        size_t counts[] = {6, 6, 6};
        counts[i] = lengths[i];
        uint32_t status = drain_derive_dem(&set.dem, &set.rasters.dir, room.acc, counts[0], room.bas, counts[1], room.rnk, counts[2], &answer);
        judge(status == 2 && says(&answer, 2, "refused BadRasterLength"), "a raster of %zu numbers: %.164s", lengths[i], answer.line);
    }
    drain_answer answer = unwritten();
    judge(explain_set(&set, "", 12, 6, &room, &answer) == 2 && says(&answer, 2, "refused BadChoice"), "an explanation of acc and bas: %.164s", answer.line);
    set.pixels[2][5] = 16;
    judge(derive_set(&set, &room, &answer) == 1 && says(&answer, 1, "rejected NoEnd row=1 col=0") && !answer.rule && answer.row == 1, "a ring of directions: %.164s", answer.line);
    set.rasters.dir.header = drain_bytes_of(far, strlen(far));
    judge(derive_set(&set, &room, &answer) == 2 && says(&answer, 2, "refused Misplaced dir"), "dir in another place: %.164s", answer.line);
    set.dem.pixels.length--;
    judge(derive_set(&set, &room, &answer) == 2 && says(&answer, 2, "refused Misplaced dir"), "dir in another place, and a short dem: %.164s", answer.line);
    put_set(&set, &worked_dems[4]);
    set.dem.pixels.length--;
    judge(derive_set(&set, &room, &answer) == 2 && says(&answer, 2, "refused RasterShort dem"), "a short dem: %.164s", answer.line);
    judge(is_unwritten(&room), "something is written where nothing follows");
}

/* Some rasters of a wrong count, with NULL for the others: it is seen exactly where acc is judged, con alone counts no
 * outlets, and other numbers are refused. */
static void test_dem_choices(void) {
    static const struct {
        uint32_t choice;
        const char *line;
    } choices[] = {
        {DRAIN_CON, "accepted rows=2 cols=3 data=6 raised=0"},
        {DRAIN_CON_DIR, "accepted rows=2 cols=3 data=6 raised=0 outlets=2"},
        {DRAIN_CON_DIR_ACC, "rejected rule=13 Accumulation row=1 col=2"},
        {DRAIN_CON_DIR_BAS, "accepted rows=2 cols=3 data=6 raised=0 outlets=2"},
        {DRAIN_ALL, "rejected rule=13 Accumulation row=1 col=2"},
        {5, "refused BadChoice"},
    };
    drain_raster null = {drain_bytes_of(NULL, 5), drain_bytes_of(NULL, 5)};
    dem_set set;
    put_set(&set, &worked_dems[5]);
    for (size_t i = 0; i < sizeof choices / sizeof *choices; i++) {
        uint32_t choice = choices[i].choice, status = *choices[i].line == 'a' ? 0 : choice == 5 ? 2 : 1;
        drain_audit_rasters some = {set.rasters.con, choice & 2 ? set.rasters.dir : null, choice & 4 ? set.rasters.acc : null, choice & 8 ? set.rasters.bas : null};
        drain_answer answer = unwritten();
        judge(drain_audit_only_dem(&set.dem, no_sinks, 0, &some, choice, &answer) == status && says(&answer, status, choices[i].line), "choice %u over one raster: %.164s", choice, answer.line);
    }
}

/* These bytes, none where they are NULL. */
static drain_bytes bytes_of(const char *text) {
    return drain_bytes_of(text, text ? strlen(text) : 0);
}

/* Refusals in their order: the one that is named, with what a later one would name. */
static void test_dem_refusals(void) {
    static const char place[] = "NROWS 2\nNCOLS 3\nNBITS 32\nPIXELTYPE SIGNEDINT\n";
    static const char unplaced[] = "NROWS 2\nNCOLS 3\nNBITS 32\nPIXELTYPE SIGNEDINT\nULYMAP 4000000\nXDIM 30\nYDIM 30\n";
    static const char sizeless[] = "NROWS 2\nNCOLS 3\nNBITS 32\nPIXELTYPE SIGNEDINT\nULXMAP 500000\nULYMAP 4000000\nXDIM 0\nYDIM 30\n";
    static const char near[] = "NROWS 2\nNCOLS 3\nNBITS 32\nPIXELTYPE SIGNEDINT\nULXMAP 500000.3\nULYMAP 4000000\nXDIM 30.1\nYDIM 30\n";
    static const char far[] = "NROWS 2\nNCOLS 3\nNBITS 32\nPIXELTYPE SIGNEDINT\nULXMAP 500000.300000001\nULYMAP 4000000\nXDIM 30\nYDIM 30\n";
    static const char wide[] = "NROWS 2\nNCOLS 3\nNBITS 32\nPIXELTYPE SIGNEDINT\nULXMAP 500000\nULYMAP 4000000\nXDIM 30.100000001\nYDIM 30\n";
    dem_set right, set;
    put_set(&right, &worked_dems[4]);
    const struct {
        const char *line;
        drain_bytes dem_header, dem_pixels, con_header, con_pixels;
    } refused[] = {
        {"refused BadHeader dem MissingKey NROWS", bytes_of(NULL), right.dem.pixels, bytes_of(sizeless), right.rasters.con.pixels},
        {"refused BadHeader dem MissingKey ULXMAP", bytes_of(unplaced), bytes_of(NULL), bytes_of(unplaced), bytes_of(NULL)},
        {"refused BadPixelSize dem", bytes_of(sizeless), bytes_of(NULL), bytes_of(unplaced), bytes_of(NULL)},
        {"refused BadHeader con MissingKey ULXMAP", right.dem.header, bytes_of(NULL), bytes_of(place), bytes_of(NULL)},
        {"refused Misplaced con", right.dem.header, bytes_of(NULL), bytes_of(far), bytes_of(NULL)},
        {"refused Misplaced con", right.dem.header, right.dem.pixels, bytes_of(wide), right.rasters.con.pixels},
        {"refused RasterShort dem", right.dem.header, bytes_of(NULL), right.rasters.con.header, bytes_of(NULL)},
        {"refused RasterShort con", right.dem.header, right.dem.pixels, right.rasters.con.header, bytes_of(NULL)},
        {"accepted rows=2 cols=3 data=6 raised=0 outlets=2", right.dem.header, right.dem.pixels, bytes_of(near), right.rasters.con.pixels},
    };
    for (size_t i = 0; i < sizeof refused / sizeof *refused; i++) {
        put_set(&set, &worked_dems[4]);
        set.dem = (drain_raster){refused[i].dem_header, refused[i].dem_pixels};
        set.rasters.con = (drain_raster){refused[i].con_header, refused[i].con_pixels};
        judge_set("headers and pixels of dem and con", &set, "", refused[i].line);
    }
    put_set(&set, &worked_dems[4]);
    set.dem.pixels.length--;
    judge_set("dem a byte short", &set, "", "refused RasterShort dem");
    set.rasters.dir.header = bytes_of(near + 8);
    judge_set("a short dem and dir without rows", &set, "", "refused BadHeader dir MissingKey NROWS");
    put_set(&set, &worked_dems[4]);
    set.dem.header.length -= strlen("YDIM 30\n");
    judge_set("dem.hdr without its last line", &set, "", "refused BadHeader dem MissingKey YDIM");
}

/* NULL for bytes that should be there, in each place. */
static void test_dem_null(void) {
    dem_set set;
    put_set(&set, &worked_dems[4]);
    drain_bytes *places[] = {&set.dem.header, &set.dem.pixels, &set.rasters.con.header, &set.rasters.con.pixels, &set.rasters.dir.header, &set.rasters.dir.pixels, &set.rasters.acc.header, &set.rasters.acc.pixels,
                             &set.rasters.bas.header, &set.rasters.bas.pixels};
    for (size_t i = 0; i < sizeof places / sizeof *places; i++) {
        drain_bytes had = *places[i];
        *places[i] = drain_bytes_of(NULL, 5);
        judge_set("NULL for bytes", &set, "", "refused NullBytes");
        written room = unwritten_rasters();
        drain_answer answer = unwritten();
        uint32_t status = derive_set(&set, &room, &answer);
        int is_read = i < 2 || i == 4 || i == 5;
        judge(is_read ? status == 2 && says(&answer, 2, "refused NullBytes") && is_unwritten(&room) : !status, "NULL in place %zu of a derivation: %.164s", i, answer.line);
        *places[i] = had;
    }
    set.rasters.rnk.pixels = drain_bytes_of(NULL, 5);
    drain_answer answer = unwritten();
    judge(drain_check_dem(&set.dem, no_sinks, 0, &set.rasters, &answer) == 2 && says(&answer, 2, "refused NullBytes"), "NULL for ranks: %.164s", answer.line);
}

drain_raster dem_of_samples(char text[DRAIN_HEADER_SIZE]) {
    drain_array samples = {tile.samples.at, side, side, 16, 1, 1, -32768};
    return drain_raster_of(&samples, side, -85, 37, text);
}

uint32_t audit_samples(drain_answer *answer) {
    char text[DRAIN_HEADER_SIZE];
    drain_raster dem = dem_of_samples(text);
    return drain_audit_dem(&dem, no_sinks, 0, &rasters, answer);
}

uint32_t check_samples(drain_answer *answer) {
    char text[DRAIN_HEADER_SIZE];
    drain_check_rasters checked = {rasters.con, rasters.dir, rasters.acc, rasters.bas, rasters.con};
    drain_raster dem = dem_of_samples(text);
    return drain_check_dem(&dem, no_sinks, 0, &checked, answer);
}

uint32_t explain_samples(drain_answer *answer) {
    char text[DRAIN_HEADER_SIZE];
    uint8_t map[MAP_LENGTH];
    drain_faults faults;
    drain_raster dem = dem_of_samples(text);
    return drain_explain_dem(&dem, no_sinks, 0, &rasters, DRAIN_ALL, map, sizeof map, &faults, answer);
}

uint32_t derive_samples(drain_answer *answer) {
    char text[DRAIN_HEADER_SIZE];
    uint32_t acc[MAP_LENGTH], bas[MAP_LENGTH], rnk[MAP_LENGTH];
    drain_raster dem = dem_of_samples(text);
    return drain_derive_dem(&dem, &rasters.dir, acc, MAP_LENGTH, bas, MAP_LENGTH, rnk, MAP_LENGTH, answer);
}

/* The tile's samples as one raster: the line is that of the tile. */
void test_dem(const char *line) {
    drain_answer answer = unwritten();
    judge(!audit_samples(&answer) && says(&answer, 0, line), "samples as one raster: %.164s", answer.line);
    test_worked_dems();
    test_dem_unwritten();
    test_dem_choices();
    test_dem_refusals();
    test_dem_null();
}
