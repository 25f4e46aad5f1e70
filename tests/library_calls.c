/* Tests of the calls of libdrain beside audit and check: audits of some rasters, explanations, what is derived, and the
 * version. library.c runs them. */
#define _GNU_SOURCE
#include <limits.h>
#include <string.h>

#include "library.h"

/* Each choice of rasters accepts the files, with this line; con alone counts no outlets. A wrong count is seen exactly where
 * acc is judged, and NULL only in the place of a judged raster. Other numbers are refused, and nothing is read for them. */
void test_choices(const char *line) {
    static const uint32_t choices[] = {DRAIN_CON, DRAIN_CON_DIR, DRAIN_CON_DIR_ACC, DRAIN_CON_DIR_BAS, DRAIN_ALL};
    static const uint32_t others[] = {0, 2, 5, 9, 13, 14, 16, 31, UINT32_MAX};
    drain_audit_rasters wrong = with_wrong_count(), none = {drain_no_raster(), drain_no_raster(), drain_no_raster(), drain_no_raster()};
    const char *outlets = strstr(line, " outlets=");
    for (size_t i = 0; i < sizeof choices / sizeof *choices; i++) {
        uint32_t choice = choices[i];
        drain_answer answer = unwritten();
        char accepted[164] = "";
        memcpy(accepted, line, choice == DRAIN_CON ? (size_t)(outlets - line) : strlen(line));
        uint32_t status = audit_only(choice, &rasters, &answer);
        judge(!status && says(&answer, 0, accepted) && !answer.rule && !answer.row && !answer.col, "choice %u: status %u: %.164s", choice, status, answer.line);
        status = audit_only(choice, &wrong, &answer);
        if (choice & 4)
            judge(status == 1 && says(&answer, 1, "rejected rule=13 Accumulation row=3 col=7") && answer.rule == 13 && answer.row == 3 && answer.col == 7, "choice %u of a wrong count: %.164s", choice, answer.line);
        else
            judge(!status && says(&answer, 0, accepted), "choice %u beside a wrong count: %.164s", choice, answer.line);
        drain_audit_rasters missing = rasters;
        (choice & 8 ? &missing.bas : choice & 4 ? &missing.acc : choice & 2 ? &missing.dir : &missing.con)->pixels = drain_bytes_of(NULL, 1);
        judge(audit_only(choice, &missing, &answer) == 2 && says(&answer, 2, "refused NullBytes"), "choice %u of NULL: %.164s", choice, answer.line);
    }
    for (size_t i = 0; i < sizeof others / sizeof *others; i++) {
        drain_answer answer = unwritten();
        uint32_t status = drain_audit_only(side, &tile, 1, no_sinks, 0, &none, others[i], &answer);
        judge(status == 2 && says(&answer, 2, "refused BadChoice") && !answer.rule && !answer.row && !answer.col, "choice %u: status %u: %.164s", others[i], status, answer.line);
    }
}

/* On square cells of any size the answer is that of an audit; on others a way is too flat. A text by row has to have a line
 * for each of the 51 rows. */
void test_spacings(const char *line) {
    static const char bad[] = "1 1\n1 0\n";
    char rows[51 * 4];
    for (size_t i = 0; i < 51; i++)
        memcpy(rows + 4 * i, "7 7\n", 4);
    const struct {
        const char *name;
        drain_spacing spacing;
        uint32_t status;
        const char *line;
    } cases[] = {
        {"cells of 1 by 1", drain_cells(1, 1), 0, line},
        {"cells of 7 by 7", drain_cells(7, 7), 0, line},
        {"rows of 7 by 7", drain_widths(rows, sizeof rows), 0, line},
        {"50 rows", drain_widths(rows, sizeof rows - 4), 2, "refused SpacingRows 50"},
        {"a bad row", drain_widths(bad, sizeof bad - 1), 2, "refused BadSpacingLine 2"},
        {"no width", drain_cells(0, 1), 2, "refused BadChoice"},
        {"a width past 2^30", drain_cells(1073741825, 1), 2, "refused BadChoice"},
        {"no height", drain_cells(1, 0), 2, "refused BadChoice"},
        {"a height past 2^30", drain_cells(1, 1073741825), 2, "refused BadChoice"},
    };
    for (size_t i = 0; i < sizeof cases / sizeof *cases; i++) {
        drain_answer answer = unwritten();
        uint32_t status = drain_audit_only_spaced(side, &tile, 1, no_sinks, 0, &cases[i].spacing, &rasters, DRAIN_ALL, &answer);
        judge(status == cases[i].status && says(&answer, status, cases[i].line), "%s: status %u: %.164s", cases[i].name, status, answer.line);
    }
    drain_spacing wide = drain_cells(2, 1);
    drain_answer answer = unwritten(), explained = unwritten();
    drain_faults faults;
    uint8_t map[MAP_LENGTH];
    uint32_t status = drain_audit_only_spaced(side, &tile, 1, no_sinks, 0, &wide, &rasters, DRAIN_ALL, &answer);
    judge(status == 1 && answer.rule == 10, "cells of 2 by 1: status %u: %.164s", status, answer.line);
    status = drain_explain_spaced(side, &tile, 1, no_sinks, 0, &wide, &rasters, DRAIN_ALL, map, sizeof map, &faults, &explained);
    judge(status == 1 && !strcmp(answer.line, explained.line) && faults.rules[9].row == answer.row && faults.rules[9].col == answer.col, "cells of 2 by 1 explained: %.164s", explained.line);
}

/* Nine cells whose ways all lead to the middle one, a listed sink: so on cells of 1 by 2, as on square ones. On cells of 2 by 1
 * the corners in the east fall more steeply along their column. Without the sink the middle cell has no way out. */
static const uint8_t well[5][9] = {{9, 9, 9, 9, 1, 5, 9, 9, 9}, {2, 4, 8, 1, 0, 16, 128, 64, 32}, {1, 1, 1, 1, 9, 1, 1, 1, 1}, {1, 1, 1, 1, 1, 1, 1, 1, 1}, {1, 1, 1, 1, 0, 1, 1, 1, 1}};
static const uint8_t well_samples[] = {0, 9, 0, 9, 0, 9, 0, 9, 0, 1, 0, 5, 0, 9, 0, 9, 0, 9};
static const char well_header[] = "NROWS 3\nNCOLS 3\nNBITS 8\nULXMAP 0\nULYMAP 1\nXDIM 0.5\nYDIM 0.5\n";

static drain_raster well_raster(int which) {
    drain_raster raster = {drain_bytes_of(well_header, strlen(well_header)), drain_bytes_of(well[which], 9)};
    return raster;
}

/* What calls write beside an answer. */
typedef struct {
    uint8_t map[9];
    drain_faults faults;
    uint32_t acc[9], bas[9], rnk[9];
} well_written;

/* The calls over tiles, each of which has one over a raster of elevations. */
enum { WELL_AUDIT, WELL_CHECK, WELL_ONLY, WELL_EXPLAIN, WELL_ONLY_SPACED, WELL_EXPLAIN_SPACED, WELL_DERIVE, WELL_CALLS };

/* One of them about the well: all rasters, or in the calls that have a choice con, dir and bas. */
static uint32_t ask_of_well(int which, int over_dem, const char *list, const drain_spacing *spacing, well_written *to, drain_answer *answer) {
    drain_tile well_tile = {drain_bytes_of("N00E000.hgt", 11), drain_bytes_of(well_samples, sizeof well_samples)};
    drain_raster dem = well_raster(0), dir = well_raster(1);
    drain_audit_rasters all = {.con = dem, .dir = dir, .acc = well_raster(2), .bas = well_raster(3)};
    drain_audit_rasters some = {.con = dem, .dir = dir, .acc = drain_no_raster(), .bas = well_raster(3)};
    drain_check_rasters ranked = {.con = dem, .dir = dir, .acc = all.acc, .bas = all.bas, .rnk = well_raster(4)};
    const uint8_t *sinks = (const uint8_t *)list;
    size_t length = strlen(list);
    switch (2 * which + over_dem) {
    case 2 * WELL_AUDIT:
        return drain_audit(3, &well_tile, 1, sinks, length, &all, answer);
    case 2 * WELL_AUDIT + 1:
        return drain_audit_dem(&dem, sinks, length, &all, answer);
    case 2 * WELL_CHECK:
        return drain_check(3, &well_tile, 1, sinks, length, &ranked, answer);
    case 2 * WELL_CHECK + 1:
        return drain_check_dem(&dem, sinks, length, &ranked, answer);
    case 2 * WELL_ONLY:
        return drain_audit_only(3, &well_tile, 1, sinks, length, &some, DRAIN_CON_DIR_BAS, answer);
    case 2 * WELL_ONLY + 1:
        return drain_audit_only_dem(&dem, sinks, length, &some, DRAIN_CON_DIR_BAS, answer);
    case 2 * WELL_EXPLAIN:
        return drain_explain(3, &well_tile, 1, sinks, length, &some, DRAIN_CON_DIR_BAS, to->map, 9, &to->faults, answer);
    case 2 * WELL_EXPLAIN + 1:
        return drain_explain_dem(&dem, sinks, length, &some, DRAIN_CON_DIR_BAS, to->map, 9, &to->faults, answer);
    case 2 * WELL_ONLY_SPACED:
        return drain_audit_only_spaced(3, &well_tile, 1, sinks, length, spacing, &some, DRAIN_CON_DIR_BAS, answer);
    case 2 * WELL_ONLY_SPACED + 1:
        return drain_audit_only_dem_spaced(&dem, sinks, length, spacing, &some, DRAIN_CON_DIR_BAS, answer);
    case 2 * WELL_EXPLAIN_SPACED:
        return drain_explain_spaced(3, &well_tile, 1, sinks, length, spacing, &some, DRAIN_CON_DIR_BAS, to->map, 9, &to->faults, answer);
    case 2 * WELL_EXPLAIN_SPACED + 1:
        return drain_explain_dem_spaced(&dem, sinks, length, spacing, &some, DRAIN_CON_DIR_BAS, to->map, 9, &to->faults, answer);
    case 2 * WELL_DERIVE:
        return drain_derive(3, &well_tile, 1, &dir, to->acc, 9, to->bas, 9, to->rnk, 9, answer);
    default:
        return drain_derive_dem(&dem, &dir, to->acc, 9, to->bas, 9, to->rnk, 9, answer);
    }
}

/* The line about the well where this many of the corners in the east are wrong: the last one alone, or both. */
static const char *well_line(int which, int corners, int has_sink) {
    if (which == WELL_DERIVE)
        return "derived rows=3 cols=3";
    if (corners == 2)
        return "rejected rule=10 Slope row=0 col=2";
    if (!has_sink)
        return "rejected rule=12 FlatStep row=1 col=1";
    return corners ? "rejected rule=10 Slope row=2 col=2" : "accepted rows=3 cols=3 data=9 raised=0 outlets=1";
}

/* Whether a call has written what it has to beside its answer. */
static int is_well_written(int which, int corners, int has_sink, const well_written *to) {
    drain_faults faults = {{{0}}};
    uint8_t map[9] = {[2] = corners == 2 ? 10 : 0, [4] = has_sink ? 0 : 12, [8] = corners ? 10 : 0};
    if (corners)
        faults.rules[9] = (drain_fault_cells){(uint32_t)corners, corners == 2 ? 0 : 2, 2};
    if (!has_sink)
        faults.rules[11] = (drain_fault_cells){1, 1, 1};
    if (which == WELL_EXPLAIN || which == WELL_EXPLAIN_SPACED)
        return !memcmp(to->map, map, sizeof map) && !memcmp(&to->faults, &faults, sizeof faults);
    if (which == WELL_DERIVE)
        for (int cell = 0; cell < 9; cell++)
            if (to->acc[cell] != well[2][cell] || to->bas[cell] != well[3][cell] || to->rnk[cell] != well[4][cell])
                return 0;
    return 1;
}

/* Each call of drain.h: what it answers and writes of the well, with its sink and without, on each spacing that it takes. */
void test_calls(void) {
    static const char narrow[] = "1 2\n1 2\n1 2\n", wide[] = "2 1\n2 1\n2 1\n", last[] = "1 2\n1 2\n2 1\n";
    const struct {
        const char *name;
        drain_spacing spacing;
        int corners;
    } spacings[] = {
        {"cells of 1 by 2", drain_cells(1, 2), 0},
        {"rows of 1 by 2", drain_widths(narrow, strlen(narrow)), 0},
        {"cells of 2 by 1", drain_cells(2, 1), 2},
        {"rows of 2 by 1", drain_widths(wide, strlen(wide)), 2},
        {"a last row of 2 by 1", drain_widths(last, strlen(last)), 1},
    };
    for (int call = 0; call < 4 * WELL_CALLS; call++) {
        int which = call / 4, over_dem = call / 2 % 2, has_sink = call % 2, is_spaced = which == WELL_ONLY_SPACED || which == WELL_EXPLAIN_SPACED;
        for (size_t i = 0; i < (is_spaced ? sizeof spacings / sizeof *spacings : 1); i++) {
            drain_answer answer = unwritten();
            well_written to;
            const char *line = well_line(which, spacings[i].corners, has_sink);
            uint32_t right = strstr(line, "rejected") != NULL, status = ask_of_well(which, over_dem, has_sink ? "1 1\n" : "", &spacings[i].spacing, &to, &answer);
            judge(status == right && says(&answer, right, line) && is_well_written(which, spacings[i].corners, has_sink, &to), "call %d%s, %d sinks, %s: status %u: %.164s", which,
                  over_dem ? " over a dem" : "", has_sink, spacings[i].name, status, answer.line);
        }
    }
}

/* Numbers and a text of widths at once are no spacing, also where the address of the text was NULL, nor is a text of more than 2^21
 * bytes. A text alone whose address was NULL is missing bytes, and one without bytes has no rows. Refused calls write their answer
 * alone. */
void test_refused_spacings(void) {
    static const char rows[] = "1 1\n1 1\n1 1\n";
    const struct {
        const char *name;
        uint32_t width, height;
        drain_bytes widths;
        const char *line;
    } cases[] = {
        {"1 by 1 and rows", 1, 1, drain_bytes_of(rows, strlen(rows)), "refused BadChoice"},
        {"2 by 1 and rows", 2, 1, drain_bytes_of(rows, strlen(rows)), "refused BadChoice"},
        {"1 by 1 and one byte", 1, 1, drain_bytes_of(rows, 1), "refused BadChoice"},
        {"1 by 1 and missing rows", 1, 1, drain_bytes_of(NULL, 12), "refused BadChoice"},
        {"1 by 0 and rows", 1, 0, drain_bytes_of(rows, strlen(rows)), "refused BadChoice"},
        {"0 by 1 and missing rows", 0, 1, drain_bytes_of(NULL, 1), "refused BadChoice"},
        {"missing rows", 0, 0, drain_bytes_of(NULL, 12), "refused NullBytes"},
        {"a missing byte", 0, 0, drain_bytes_of(NULL, 1), "refused NullBytes"},
        {"no rows", 0, 0, drain_bytes_of(rows, 0), "refused SpacingRows 0"},
        {"NULL for no rows", 0, 0, drain_bytes_of(NULL, 0), "refused SpacingRows 0"},
    };
    well_written untouched;
    memset(&untouched, 0x5a, sizeof untouched);
    for (size_t i = 0; i < 4 * (sizeof cases / sizeof *cases); i++) {
        drain_spacing spacing = {cases[i / 4].width, cases[i / 4].height, cases[i / 4].widths};
        drain_answer answer = unwritten();
        well_written to = untouched;
        uint32_t status = ask_of_well(i & 1 ? WELL_EXPLAIN_SPACED : WELL_ONLY_SPACED, i >> 1 & 1, "1 1\n", &spacing, &to, &answer);
        judge(status == 2 && says(&answer, 2, cases[i / 4].line) && !memcmp(&to, &untouched, sizeof to), "%s, call %zu: status %u: %.164s", cases[i / 4].name, i % 4, status, answer.line);
    }
    static char text[(1 << 21) + 1];
    memset(text, '\n', sizeof text);
    memcpy(text, rows, strlen(rows));
    for (int more = 0; more < 2; more++)
        for (int i = 0; i < 4; i++) {
            drain_spacing spacing = drain_widths(text, (1 << 21) + (size_t)more);
            drain_answer answer = unwritten();
            well_written to;
            uint32_t status = ask_of_well(i & 1 ? WELL_EXPLAIN_SPACED : WELL_ONLY_SPACED, i >> 1, "1 1\n", &spacing, &to, &answer);
            judge(status == 2 * (uint32_t)more && says(&answer, status, more ? "refused BadChoice" : well_line(WELL_ONLY_SPACED, 0, 1)), "%d bytes more than 2^21, call %d: %.164s", more, i, answer.line);
        }
}

/* acc counts one cell too many at row 3, column 7, so that cell is wrong by rule 13, and so is the one to which it flows, south of
 * it; no other is. The map has a byte for each cell, and nothing is written where its memory has another length, where the
 * inputs are refused, or for a number that names no choice. */
void test_explanation(const char *line) {
    static const size_t lengths[] = {0, 1, MAP_LENGTH - 1, MAP_LENGTH + 1};
    drain_audit_rasters wrong = with_wrong_count();
    drain_faults faults, none, before;
    drain_answer answer = unwritten();
    uint8_t map[MAP_LENGTH + 1], untouched[MAP_LENGTH + 1];
    memset(&none, 0, sizeof none);
    memset(&before, 0x5a, sizeof before);
    memset(untouched, 0x5a, sizeof untouched);
    memset(map, 0x5a, sizeof map);
    uint32_t status = drain_explain(side, &tile, 1, no_sinks, 0, &rasters, DRAIN_ALL, map, MAP_LENGTH, &faults, &answer);
    judge(!status && says(&answer, 0, line), "a right set explained: status %u: %.164s", status, answer.line);
    judge(!memcmp(&faults, &none, sizeof none) && are_all(map, MAP_LENGTH, 0) && map[MAP_LENGTH] == 0x5a, "faults or a map of a right set");
    status = drain_explain(side, &tile, 1, no_sinks, 0, &wrong, DRAIN_ALL, map, MAP_LENGTH, &faults, &answer);
    judge(status == 1 && says(&answer, 1, "rejected rule=13 Accumulation row=3 col=7") && answer.rule == 13 && answer.row == 3 && answer.col == 7, "a wrong count explained: status %u: %.164s", status, answer.line);
    judge(faults.rules[12].cells == 2 && faults.rules[12].row == 3 && faults.rules[12].col == 7, "rule 13: %u cells, row %u, col %u", faults.rules[12].cells, faults.rules[12].row, faults.rules[12].col);
    memset(&faults.rules[12], 0, sizeof faults.rules[12]);
    judge(!memcmp(&faults, &none, sizeof none), "faults of other rules");
    judge(map[3 * 51 + 7] == 13 && map[4 * 51 + 7] == 13, "the map at the wrong cells: %u, %u", map[3 * 51 + 7], map[4 * 51 + 7]);
    map[3 * 51 + 7] = map[4 * 51 + 7] = 0;
    judge(are_all(map, MAP_LENGTH, 0), "the map at the other cells");
    wrong.acc = drain_no_raster();
    status = drain_explain(side, &tile, 1, no_sinks, 0, &wrong, DRAIN_CON_DIR_BAS, map, MAP_LENGTH, &faults, &answer);
    judge(!status && !memcmp(&faults, &none, sizeof none), "an explanation without acc: status %u: %.164s", status, answer.line);
    memcpy(map, untouched, sizeof map);
    faults = before;
    for (size_t i = 0; i < sizeof lengths / sizeof *lengths; i++) {
        status = drain_explain(side, &tile, 1, no_sinks, 0, &rasters, DRAIN_ALL, map, lengths[i], &faults, &answer);
        judge(status == 2 && says(&answer, 2, "refused BadMapLength") && !answer.rule && !answer.row && !answer.col, "a map of %zu bytes: status %u: %.164s", lengths[i], status, answer.line);
    }
    status = drain_explain(side, &tile, 1, no_sinks, 0, &rasters, 12, map, MAP_LENGTH, &faults, &answer);
    judge(status == 2 && says(&answer, 2, "refused BadChoice"), "an explanation of acc and bas: %.164s", answer.line);
    status = drain_explain(side - 1, &tile, 1, no_sinks, 0, &rasters, DRAIN_ALL, map, MAP_LENGTH, &faults, &answer);
    judge(status == 2 && says(&answer, 2, "refused WrongShape con"), "an explanation of refused inputs: %.164s", answer.line);
    wrong.con.header = drain_bytes_of(NULL, 1);
    status = drain_explain(side, &tile, 1, no_sinks, 0, &wrong, DRAIN_CON, map, MAP_LENGTH, &faults, &answer);
    judge(status == 2 && says(&answer, 2, "refused NullBytes"), "an explanation of NULL: %.164s", answer.line);
    judge(!memcmp(map, untouched, sizeof map) && !memcmp(&faults, &before, sizeof faults), "a map or faults are written without a verdict");
}

/* acc of the files is right, so that of their directions is the same; and with labels and ranks of their directions a check
 * accepts them, with this line. Where nothing follows nothing is written. */
void test_derivation(const char *line) {
    static const size_t counts[][3] = {{MAP_LENGTH - 1, MAP_LENGTH, MAP_LENGTH}, {MAP_LENGTH, MAP_LENGTH + 1, MAP_LENGTH}, {MAP_LENGTH, MAP_LENGTH, 0}};
    uint32_t acc[MAP_LENGTH + 1], bas[MAP_LENGTH + 1], rnk[MAP_LENGTH + 1], untouched[MAP_LENGTH + 1];
    drain_answer answer = unwritten();
    memset(untouched, 0x5a, sizeof untouched);
    memcpy(acc, untouched, sizeof acc);
    uint32_t status = drain_derive(side, &tile, 1, &rasters.dir, acc, MAP_LENGTH, bas, MAP_LENGTH, rnk, MAP_LENGTH, &answer);
    judge(!status && says(&answer, 0, "derived rows=51 cols=51") && !answer.rule && !answer.row && !answer.col, "a derivation: status %u: %.164s", status, answer.line);
    judge(rasters.acc.pixels.length == 4 * MAP_LENGTH && !memcmp(acc, rasters.acc.pixels.at, 4 * MAP_LENGTH) && acc[MAP_LENGTH] == 0x5a5a5a5a, "counts of directions");
    drain_bytes header = rasters.acc.header;
    header.length = (size_t)((const uint8_t *)memmem(header.at, header.length, "NODATA", 6) - header.at);
    drain_check_rasters checked = {rasters.con, rasters.dir, {header, drain_bytes_of(acc, 4 * MAP_LENGTH)}, {header, drain_bytes_of(bas, 4 * MAP_LENGTH)}, {header, drain_bytes_of(rnk, 4 * MAP_LENGTH)}};
    status = drain_check(side, &tile, 1, no_sinks, 0, &checked, &answer);
    judge(!status && says(&answer, 0, line), "a check of what was derived: status %u: %.164s", status, answer.line);
    memcpy(acc, untouched, sizeof acc);
    memcpy(bas, untouched, sizeof bas);
    memcpy(rnk, untouched, sizeof rnk);
    for (size_t i = 0; i < sizeof counts / sizeof *counts; i++) {
        status = drain_derive(side, &tile, 1, &rasters.dir, acc, counts[i][0], bas, counts[i][1], rnk, counts[i][2], &answer);
        judge(status == 2 && says(&answer, 2, "refused BadRasterLength"), "rasters of %zu, %zu and %zu numbers: %.164s", counts[i][0], counts[i][1], counts[i][2], answer.line);
    }
    uint8_t codes[MAP_LENGTH];
    memset(codes, 3, sizeof codes);
    drain_bytes none = drain_bytes_of(NULL, 0), no_codes = drain_bytes_of(codes, sizeof codes);
    const struct {
        uint32_t status;
        drain_raster dir;
        const char *line;
    } others[] = {
        {1, {rasters.dir.header, no_codes}, "rejected NoEnd row=0 col=0"},
        {2, {none, rasters.dir.pixels}, "refused BadHeader dir MissingKey NROWS"},
        {2, {rasters.dir.header, none}, "refused RasterShort dir"},
        {2, {rasters.dir.header, drain_bytes_of(NULL, 5)}, "refused NullBytes"},
    };
    for (size_t i = 0; i < sizeof others / sizeof *others; i++) {
        status = drain_derive(side, &tile, 1, &others[i].dir, acc, MAP_LENGTH, bas, MAP_LENGTH, rnk, MAP_LENGTH, &answer);
        judge(status == others[i].status && says(&answer, status, others[i].line), "no derivation but %s: status %u: %.164s", others[i].line, status, answer.line);
    }
    status = drain_derive(side - 1, &tile, 1, &rasters.dir, acc, MAP_LENGTH, bas, MAP_LENGTH, rnk, MAP_LENGTH, &answer);
    judge(status == 2 && says(&answer, 2, "refused WrongShape dir"), "directions of another side: status %u: %.164s", status, answer.line);
    judge(!memcmp(acc, untouched, sizeof acc) && !memcmp(bas, untouched, sizeof bas) && !memcmp(rnk, untouched, sizeof rnk), "rasters are written where nothing follows");
}

/* The version: whole with zeros behind it, its first bytes, and none of it. */
void test_version(void) {
    char whole[64], start[6] = "xxxxx";
    memset(whole, 'x', sizeof whole);
    size_t length = drain_version((uint8_t *)whole, sizeof whole);
    judge(length > 5 && length < sizeof whole && are_all(whole + length, sizeof whole - length, 0) && strlen(whole) == length, "a version of %zu bytes: %.64s", length, whole);
    judge(drain_version((uint8_t *)start, 0) == length && !strcmp(start, "xxxxx"), "no byte of the version: %s", start);
    judge(drain_version((uint8_t *)start, 4) == length && !memcmp(start, whole, 4) && !strcmp(start + 4, "x"), "four bytes of the version: %s", start);
}

/* The files as arrays without headers: con as it is and with the high byte first, and rasters of another size. */
void test_arrays(const char *line) {
    uint8_t turned[2 * MAP_LENGTH];
    char texts[5][DRAIN_HEADER_SIZE];
    drain_answer answer = unwritten();
    drain_array con = {rasters.con.pixels.at, 51, 51, 16, 1, 0, -32768};
    drain_array dir = {rasters.dir.pixels.at, 51, 51, 8, 0, 0, 255};
    drain_array acc = {rasters.acc.pixels.at, 51, 51, 32, 0, 0, 0};
    drain_array bas = {rasters.bas.pixels.at, 51, 51, 32, 0, 0, 0};
    drain_array other = {turned, 51, 51, 16, 1, 1, -32768};
    for (size_t i = 0; i < sizeof turned; i++)
        turned[i] = rasters.con.pixels.at[i ^ 1];
    drain_audit_rasters given = {drain_raster_of(&con, side, -85, 37, texts[0]), drain_raster_of(&dir, side, -85, 37, texts[1]), drain_raster_of(&acc, side, -85, 37, texts[2]),
                                 drain_raster_of(&bas, side, -85, 37, texts[3])};
    uint32_t status = drain_audit(side, &tile, 1, no_sinks, 0, &given, &answer);
    judge(!status && says(&answer, 0, line), "arrays: status %u: %.164s", status, answer.line);
    given.con = drain_raster_of(&other, side, -85, 37, texts[4]);
    status = drain_audit(side, &tile, 1, no_sinks, 0, &given, &answer);
    judge(!status && says(&answer, 0, line), "an array with the high byte first: status %u: %.164s", status, answer.line);
    other.rows = 50;
    given.con = drain_raster_of(&other, side, -85, 37, texts[4]);
    judge(drain_audit(side, &tile, 1, no_sinks, 0, &given, &answer) == 2 && says(&answer, 2, "refused WrongShape con"), "an array of 50 rows: %.164s", answer.line);
    given.con = drain_raster_of(&con, side, -84, 37, texts[4]);
    judge(drain_audit(side, &tile, 1, no_sinks, 0, &given, &answer) == 2 && says(&answer, 2, "refused Misplaced con"), "an array elsewhere: %.164s", answer.line);
}

/* Arrays of three numbers in a row or in a column, of each kind, the middle one a void: con is accepted exactly if its numbers, its
 * no-data number and its shape are those of the elevations, whose header is written out here. */
void test_kinds(void) {
    static const struct {
        uint32_t bits;
        int is_signed;
        int64_t numbers[3];
    } kinds[] = {
        {8, 0, {200, 255, 3}}, {8, 1, {-2, -128, 3}}, {16, 0, {65534, 65535, 258}}, {16, 1, {-2, -9999, 258}}, {32, 0, {4294967294, 4294967295, 16909060}}, {32, 1, {-2, -2147483648, 16909060}},
    };
    for (int i = 0; i < 24; i++) {
        uint32_t bits = kinds[i / 4].bits, size = bits / 8, rows = i & 1 ? 3 : 1, cols = 4 - rows;
        int is_signed = kinds[i / 4].is_signed, high_first = i >> 1 & 1;
        uint8_t pixels[12], heights[12];
        char text[DRAIN_HEADER_SIZE], header[256], line[164];
        for (uint32_t at = 0; at < 3; at++)
            for (uint32_t byte = 0; byte < 4; byte++) {
                int64_t number = kinds[i / 4].numbers[at];
                heights[4 * at + byte] = (uint8_t)((at == 1 ? 7 : number) >> 8 * byte);
                if (byte < size)
                    pixels[size * at + (high_first ? size - 1 - byte : byte)] = (uint8_t)(number >> 8 * byte);
            }
        snprintf(header, sizeof header, "BYTEORDER I\nNROWS %u\nNCOLS %u\nNBITS 32\nPIXELTYPE %s\nULXMAP 0\nULYMAP 0\nXDIM 1\nYDIM 1\nNODATA 7\n", rows, cols, is_signed ? "SIGNEDINT" : "UNSIGNEDINT");
        snprintf(line, sizeof line, "accepted rows=%u cols=%u data=2 raised=0", rows, cols);
        drain_array con = {pixels, rows, cols, bits, is_signed, high_first, kinds[i / 4].numbers[1]};
        drain_raster dem = {drain_bytes_of(header, strlen(header)), drain_bytes_of(heights, sizeof heights)};
        drain_audit_rasters given = {drain_raster_of(&con, 2, 0, 0, text), drain_no_raster(), drain_no_raster(), drain_no_raster()};
        drain_answer answer = unwritten();
        uint32_t status = drain_audit_only_dem(&dem, no_sinks, 0, &given, DRAIN_CON, &answer);
        judge(!status && says(&answer, 0, line) && given.con.pixels.length == 3 * size, "an array of %u by %u, %d bits, %s, %s byte first: status %u: %.164s", rows, cols, (int)bits,
              is_signed ? "signed" : "unsigned", high_first ? "high" : "low", status, answer.line);
    }
}

/* Headers of arrays: the longest, cells of each side, and a side that no tile has; and pixels past 2^32 bytes, and none. */
void test_headers(void) {
    char text[DRAIN_HEADER_SIZE];
    drain_array widest = {text, UINT32_MAX, UINT32_MAX, 32, 0, 0, INT64_MIN}, large = {text, 65536, 65537, 32, 1, 1, -1};
    drain_raster raster = drain_raster_of(&widest, 3601, INT_MIN, INT_MIN, text);
    judge(raster.header.length == strlen(text) && strstr(text, "\nNODATA -9223372036854775808\n"), "the longest header: %s", text);
    raster = drain_raster_of(&large, 4, -180, 90, text);
    judge(raster.pixels.length == 17180131328 && strstr(text, "\nXDIM 0.333333333333333\nYDIM 0.333333333333333\n"), "%zu bytes of pixels, and the header %s", raster.pixels.length, text);
    for (uint32_t its_side = 0; its_side < 3; its_side++) {
        raster = drain_raster_of(&large, its_side, 0, 0, text);
        judge(strstr(text, "\nXDIM 1.000000000000000\nYDIM 1.000000000000000\n") != NULL, "side %u: %s", its_side, text);
    }
    drain_audit_rasters others = rasters;
    drain_answer answer = unwritten();
    others.bas = drain_no_raster();
    judge(drain_audit(side, &tile, 1, no_sinks, 0, &others, &answer) == 2 && says(&answer, 2, "refused BadHeader bas MissingKey NROWS"), "no raster: %.164s", answer.line);
    others.bas.header = rasters.bas.header;
    judge(drain_audit(side, &tile, 1, no_sinks, 0, &others, &answer) == 2 && says(&answer, 2, "refused RasterShort bas"), "a header without pixels: %.164s", answer.line);
}
