/* libdrain: whether drainage rasters are correct for the elevations that they were made from: tiles, or one raster.
 *
 * drain_judge, drain_explain_request and drain_derive_request are proved to give the right answer to the bytes they are
 * passed: the contract of drain_NAME is in crates/drain_c/src/exported_NAME.rt. They read memory only: no file, no
 * output, no state between calls. What is inline below is tested, not proved.
 *
 * What is proved holds where the caller keeps the rules below. Nothing checks a caller in C.
 *
 * Bytes. A drain_bytes is an address and a length in bytes. The address is never NULL, also where the length is 0. Make
 *   each by drain_bytes_of(at, length), which takes NULL too. Bytes need no alignment; an array of tiles has that of
 *   drain_tile.
 * Memory. The library reads samples and pixels where they lie, and copies names and headers. Of a header it reads and
 *   copies at most 65,537 bytes. It keeps nothing after it returns. It calls malloc, realloc and free, which align and
 *   behave as the C standard says. An audit takes a byte for each cell, beside some rows, the labels of outlets and the
 *   list of sinks; a check takes those alone; an audit of con alone takes the elevations, con and a flood;
 *   an explanation takes a byte for each cell more; what derives rasters takes 14.
 *   What a call writes (*answer, a map, *faults, rasters, a text) overlaps no other argument, and nothing else writes
 *   to any argument during a call.
 * Threads. Calls may run at the same time, each with an answer of its own. Call no function from a signal handler,
 *   nor in a child that was forked while several threads ran.
 * Machine. x86-64-v2 or newer, Linux. The library doesn't test the processor.
 */
#ifndef DRAIN_H
#define DRAIN_H

#include <stddef.h>
#include <stdint.h>
#include <stdio.h>

#ifdef __cplusplus
extern "C" {
#endif

/* length bytes from at on; at is never NULL. missing: how many bytes there should be, where the address was NULL; else
 * 0. A call with missing bytes is refused: `refused NullBytes`. */
typedef struct drain_bytes {
    const uint8_t *at;
    size_t length;
    size_t missing;
} drain_bytes;

/* A tile. name: its name, as N36W085.hgt, without a path or a zero byte. samples: 2 * side * side bytes, row by row
 * from the north, each row from west to east; a sample is a signed number of 16 bits, high byte first, in metres;
 * -32768 is a void. */
typedef struct drain_tile {
    drain_bytes name, samples;
} drain_tile;

/* A raster. header: the text of an Esri BIL header (.hdr, docs/FORMATS.md). pixels: the bytes that it describes (.bil);
 * 8, 16 or 32 bits each, signed or not; of one raster of elevations, and then of con on it, also floats of single
 * precision (PIXELTYPE FLOAT, NBITS 32). Over tiles the header is in degrees, and rows and columns are those of the
 * mosaic: with a tiles from north to south and b from west to east, a * (side - 1) + 1 and b * (side - 1) + 1. Over one
 * raster of elevations the header is in its unit, and has its rows and columns. */
typedef struct drain_raster {
    drain_bytes header, pixels;
} drain_raster;

/* Conditioned elevation, flow direction, flow accumulation, basin labels, and ranks that show that every path of
 * directions ends. */
typedef struct drain_check_rasters {
    drain_raster con, dir, acc, bas, rnk;
} drain_check_rasters;

/* The statuses: those that the program `drain` exits with. */
enum {
    DRAIN_ACCEPTED = 0, /* of an audit: the rasters are correct; of a check: correct, and the ranks show it; derived */
    DRAIN_REJECTED = 1, /* of an audit: the rasters aren't correct; of a check: or the ranks don't show it */
    DRAIN_REFUSED = 2,  /* no verdict: the side, a name, a header, a length, a seam, the list of sinks, NULL, .. */
    DRAIN_FAILED = 3    /* out of memory; the contracts allow a failed read too, which memory never gives */
};

/* The bytes for a line: at most 160, and zeros behind them. */
enum { DRAIN_LINE_SIZE = 164 };

/* An answer. Every member is written by each call. */
typedef struct drain_answer {
    uint32_t status; /* one of the statuses above */
    uint32_t rule;   /* where a rule fails: its number, 1 to 15 (docs/RULES.md); else 0, also where a path doesn't end
                      * or con alone isn't filled */
    uint32_t row, col; /* of a rejection: the cell's row, from 0 at the north, and column, from the west; else 0 */
    char line[DRAIN_LINE_SIZE]; /* the line that the program `drain` prints, in ASCII, without a line end */
} drain_answer;

/* Which rasters are judged: the sum of theirs. No other sum can be judged. */
enum {
    DRAIN_CON = 1,
    DRAIN_CON_DIR = 3,
    DRAIN_CON_DIR_ACC = 7,
    DRAIN_CON_DIR_BAS = 11,
    DRAIN_ALL = 15,           /* con, dir, acc and bas: an audit */
    DRAIN_ALL_WITH_RANKS = 31 /* and rnk: a check, which accepts if the ranks show that the rasters are correct */
};

/* How far apart cells are, for slopes. width, height: those of all cells, 1 to 2^30 each, in one unit; widths: none.
 * Or both numbers are 0, and widths is a text of lines `WIDTH HEIGHT`, one for each row from the north, of at most 2^21
 * bytes. Make one by drain_cells(width, height) or drain_widths(text, length). */
typedef struct drain_spacing {
    uint32_t width, height;
    drain_bytes widths;
} drain_spacing;

/* What is asked. Make one by drain_no_request() and fill in what is needed.
 *
 * Elevations: tiles, where has_dem is 0, else dem. side: samples along the edge of each tile, 2 to 3601. tiles:
 * tile_count of them, at least 1, each name once, at most 8 by 8 degrees; never NULL, also where tile_count is 0.
 * dem: one raster, its header in any unit, and its pixels: heights, whole numbers or floats in any unit, con's in the
 * same and of the same kind. A cell is void where the pixel is the header's NODATA, or a float that isn't finite; of
 * whole numbers without NODATA no cell is. XDIM and YDIM are above 0, rows and columns at most 28,801 each. A raster
 * lies on it within a hundredth of a pixel at the corner, and drifts by no more than another over all rows and columns.
 * Where dem itself is refused, the answer is `refused BadHeader dem ..`, `refused BadPixelSize dem` or `refused
 * RasterShort dem`.
 *
 * sinks: the text of the list of inland sinks, a line `ROW COL` each, cells of the mosaic or of dem from 0.
 * judged: which rasters are judged; the others aren't read. With another number than those above, or where spacing is
 * none of the above (numbers beside a text, a longer text), the answer is `refused BadChoice`, which comes before
 * `refused NullBytes`. Of a text of widths it may be `refused BadSpacingLine L` or `refused SpacingRows N`. */
typedef struct drain_request {
    uint32_t side, has_dem;
    const drain_tile *tiles;
    size_t tile_count;
    drain_raster dem;
    drain_bytes sinks;
    drain_spacing spacing;
    drain_check_rasters rasters;
    uint32_t judged;
} drain_request;

/* Whether the judged rasters are right: part of a correct set. With status 1 the rule is 0 where a path doesn't end,
 * and of con alone where a cell is below the filled surface.
 * Returns answer->status. */
uint32_t drain_judge(const drain_request *request, drain_answer *answer);

/* The cells at which a rule fails: how many, and the first in row order; of each rule, in the order of their numbers:
 * rules[12] is rule 13. Zeros where there is none, and where a rule isn't tried: rules 6 to 8, and those about a raster
 * that isn't judged. */
typedef struct drain_fault_cells {
    uint32_t cells, row, col;
} drain_fault_cells;

typedef struct drain_faults {
    drain_fault_cells rules[15];
} drain_faults;

/* The answer of drain_judge with what explains it. map: rows * cols bytes, map_length of them, row by row from the
 * north: of each cell the number of the least rule that fails there, else 0, or 255 at a void; what
 * `drain explain --map` writes. With another length, where the inputs aren't refused, the answer is
 * `refused BadMapLength`. With status 2 or 3 neither map nor *faults is written; map is never NULL.
 * Returns answer->status. */
uint32_t drain_explain_request(const drain_request *request, uint8_t *map, size_t map_length, drain_faults *faults,
                               drain_answer *answer);

/* Accumulation, basin labels and ranks that follow from directions: what `drain derive` writes. Of the request only the
 * elevations and rasters.dir are read. acc, bas, rnk: memory for rows * cols numbers each, row by row from the north;
 * ..count of them, and no address is NULL. A void has 0 in acc and bas, and 4294967295 in rnk. With another count,
 * where the inputs aren't refused and every path ends, the answer is `refused BadRasterLength`. With status 0 the line
 * is `derived rows=R cols=C`; with status 1 it is `rejected NoEnd row=R col=C`, the first cell whose path doesn't end.
 * With another status than 0 no number is written.
 * Returns answer->status. */
uint32_t drain_derive_request(const drain_request *request, uint32_t *acc, size_t acc_count, uint32_t *bas,
                              size_t bas_count, uint32_t *rnk, size_t rnk_count, drain_answer *answer);

/* Writes the version of the library, as `drain --version` prints it after the name: two lines, the version and the
 * logic of the toolchain, without a last line end. text is never NULL; as many bytes are written as there is room for,
 * and zeros behind them. Returns how many bytes the version has. */
size_t drain_version(uint8_t *text, size_t room);

/* Writes to each number of an answer its place in the struct, 0, 4, 8 and 12, and 255 to each byte of the line. A
 * caller with a declaration of its own, as in another language, can compare. It writes 180 bytes, the size that it
 * returns. */
size_t drain_answer_layout(drain_answer *answer);

/* The same of faults: for rules[i] the places 12 * i, 12 * i + 4 and 12 * i + 8, and the size 180. And of a request: to
 * each number its place, but 0 to each length and count, and an address to each address; the size is 376. */
size_t drain_faults_layout(drain_faults *faults);
size_t drain_request_layout(drain_request *request);

/* These bytes. NULL with length 0 is no bytes; NULL with another length is refused by the call that is passed it. */
static inline drain_bytes drain_bytes_of(const void *at, size_t length) {
    drain_bytes bytes;
    bytes.at = at ? (const uint8_t *)at : (const uint8_t *)"";
    bytes.length = at ? length : 0;
    bytes.missing = at ? 0 : length;
    return bytes;
}

/* Cells of one width and height, and rows of a text. */
static inline drain_spacing drain_cells(uint32_t width, uint32_t height) {
    drain_spacing spacing;
    spacing.width = width;
    spacing.height = height;
    spacing.widths = drain_bytes_of(NULL, 0);
    return spacing;
}

static inline drain_spacing drain_widths(const void *text, size_t length) {
    drain_spacing spacing = drain_cells(0, 0);
    spacing.widths = drain_bytes_of(text, length);
    return spacing;
}

/* Pixels in memory without a header: whole numbers, rows by columns, row by row from the north, without gaps between
 * rows. bits: 8, 16 or 32. */
typedef struct drain_array {
    const void *pixels;
    uint32_t rows, cols, bits;
    int is_signed, high_byte_first;
    int64_t nodata; /* the no-data number */
} drain_array;

/* The bytes for the text of their header. */
enum { DRAIN_HEADER_SIZE = 400 };

/* These pixels as a raster. Its header is written into text, which has to last as long. west, north: the least
 * longitude and the greatest latitude of the mosaic, in whole degrees; over one raster of elevations the same three for
 * each raster, as 2, 0 and 0. Tested, not proved; the library reads the text. */
static inline drain_raster drain_raster_of(const drain_array *array, uint32_t side, int west, int north,
                                           char text[DRAIN_HEADER_SIZE]) {
    unsigned long long unit = 1000000000000000ull, spacing = unit / (side > 1 ? side - 1 : 1);
    drain_raster raster;
    int length = snprintf(text, DRAIN_HEADER_SIZE,
                          "BYTEORDER %c\nNROWS %lu\nNCOLS %lu\nNBITS %lu\nPIXELTYPE %s\nULXMAP %d\nULYMAP %d\n"
                          "XDIM %llu.%015llu\nYDIM %llu.%015llu\nNODATA %lld\n",
                          array->high_byte_first ? 'M' : 'I', (unsigned long)array->rows, (unsigned long)array->cols,
                          (unsigned long)array->bits, array->is_signed ? "SIGNEDINT" : "UNSIGNEDINT", west, north,
                          spacing / unit, spacing % unit, spacing / unit, spacing % unit, (long long)array->nodata);
    raster.header = drain_bytes_of(text, length < 0 ? 0 : (size_t)length);
    raster.pixels = drain_bytes_of(array->pixels, (size_t)array->rows * array->cols * (array->bits / 8));
    return raster;
}

/* No raster, in the place of one that isn't judged. */
static inline drain_raster drain_no_raster(void) {
    drain_raster raster;
    raster.header = raster.pixels = drain_bytes_of(NULL, 0);
    return raster;
}

/* A request without tiles, rasters and sinks, on square cells, about all four rasters. */
static inline drain_request drain_no_request(void) {
    static const drain_tile no_tile = {{0, 0, 0}, {0, 0, 0}};
    drain_request request;
    request.side = request.has_dem = 0;
    request.tiles = &no_tile;
    request.tile_count = 0;
    request.dem = drain_no_raster();
    request.sinks = drain_bytes_of(NULL, 0);
    request.spacing = drain_cells(1, 1);
    request.rasters.con = request.rasters.dir = request.rasters.acc = drain_no_raster();
    request.rasters.bas = request.rasters.rnk = drain_no_raster();
    request.judged = DRAIN_ALL;
    return request;
}

/* The same with these tiles and this list of sinks, or over one raster of elevations. */
static inline drain_request drain_request_on_tiles(uint32_t side, const drain_tile *tiles, size_t tile_count,
                                                   const uint8_t *sinks, size_t sinks_length) {
    drain_request request = drain_no_request();
    request.side = side;
    request.tiles = tiles;
    request.tile_count = tile_count;
    request.sinks = drain_bytes_of(sinks, sinks_length);
    return request;
}

static inline drain_request drain_request_on_dem(const drain_raster *dem, const uint8_t *sinks, size_t sinks_length) {
    drain_request request = drain_no_request();
    request.has_dem = 1;
    request.dem = *dem;
    request.sinks = drain_bytes_of(sinks, sinks_length);
    return request;
}

/* Calls that fill in a request: with _dem over one raster of elevations, with _spaced over cells as far apart as that
 * says, else over square cells. An audit has the first four rasters. */
typedef struct drain_audit_rasters {
    drain_raster con, dir, acc, bas;
} drain_audit_rasters;

/* The request about some of these; no number of theirs has the ranks. */
static inline drain_request drain_about(drain_request request, const drain_spacing *spacing,
                                        const drain_audit_rasters *rasters, uint32_t judged) {
    request.spacing = *spacing;
    request.rasters.con = rasters->con;
    request.rasters.dir = rasters->dir;
    request.rasters.acc = rasters->acc;
    request.rasters.bas = rasters->bas;
    request.judged = judged <= DRAIN_ALL ? judged : 0;
    return request;
}

static inline uint32_t drain_audit_only_spaced(uint32_t side, const drain_tile *tiles, size_t tile_count,
                                               const uint8_t *sinks, size_t sinks_length, const drain_spacing *spacing,
                                               const drain_audit_rasters *rasters, uint32_t judged,
                                               drain_answer *answer) {
    drain_request request = drain_request_on_tiles(side, tiles, tile_count, sinks, sinks_length);
    request = drain_about(request, spacing, rasters, judged);
    return drain_judge(&request, answer);
}

static inline uint32_t drain_audit_only_dem_spaced(const drain_raster *dem, const uint8_t *sinks, size_t sinks_length,
                                                   const drain_spacing *spacing, const drain_audit_rasters *rasters,
                                                   uint32_t judged, drain_answer *answer) {
    drain_request request = drain_about(drain_request_on_dem(dem, sinks, sinks_length), spacing, rasters, judged);
    return drain_judge(&request, answer);
}

static inline uint32_t drain_audit_only(uint32_t side, const drain_tile *tiles, size_t tile_count,
                                        const uint8_t *sinks, size_t sinks_length, const drain_audit_rasters *rasters,
                                        uint32_t judged, drain_answer *answer) {
    drain_spacing square = drain_cells(1, 1);
    return drain_audit_only_spaced(side, tiles, tile_count, sinks, sinks_length, &square, rasters, judged, answer);
}

static inline uint32_t drain_audit_only_dem(const drain_raster *dem, const uint8_t *sinks, size_t sinks_length,
                                            const drain_audit_rasters *rasters, uint32_t judged, drain_answer *answer) {
    drain_spacing square = drain_cells(1, 1);
    return drain_audit_only_dem_spaced(dem, sinks, sinks_length, &square, rasters, judged, answer);
}

static inline uint32_t drain_audit(uint32_t side, const drain_tile *tiles, size_t tile_count, const uint8_t *sinks,
                                   size_t sinks_length, const drain_audit_rasters *rasters, drain_answer *answer) {
    return drain_audit_only(side, tiles, tile_count, sinks, sinks_length, rasters, DRAIN_ALL, answer);
}

static inline uint32_t drain_audit_dem(const drain_raster *dem, const uint8_t *sinks, size_t sinks_length,
                                       const drain_audit_rasters *rasters, drain_answer *answer) {
    return drain_audit_only_dem(dem, sinks, sinks_length, rasters, DRAIN_ALL, answer);
}

static inline uint32_t drain_check(uint32_t side, const drain_tile *tiles, size_t tile_count, const uint8_t *sinks,
                                   size_t sinks_length, const drain_check_rasters *rasters, drain_answer *answer) {
    drain_request request = drain_request_on_tiles(side, tiles, tile_count, sinks, sinks_length);
    request.rasters = *rasters;
    request.judged = DRAIN_ALL_WITH_RANKS;
    return drain_judge(&request, answer);
}

static inline uint32_t drain_check_dem(const drain_raster *dem, const uint8_t *sinks, size_t sinks_length,
                                       const drain_check_rasters *rasters, drain_answer *answer) {
    drain_request request = drain_request_on_dem(dem, sinks, sinks_length);
    request.rasters = *rasters;
    request.judged = DRAIN_ALL_WITH_RANKS;
    return drain_judge(&request, answer);
}

static inline uint32_t drain_explain_spaced(uint32_t side, const drain_tile *tiles, size_t tile_count,
                                            const uint8_t *sinks, size_t sinks_length, const drain_spacing *spacing,
                                            const drain_audit_rasters *rasters, uint32_t judged, uint8_t *map,
                                            size_t map_length, drain_faults *faults, drain_answer *answer) {
    drain_request request = drain_request_on_tiles(side, tiles, tile_count, sinks, sinks_length);
    request = drain_about(request, spacing, rasters, judged);
    return drain_explain_request(&request, map, map_length, faults, answer);
}

static inline uint32_t drain_explain_dem_spaced(const drain_raster *dem, const uint8_t *sinks, size_t sinks_length,
                                                const drain_spacing *spacing, const drain_audit_rasters *rasters,
                                                uint32_t judged, uint8_t *map, size_t map_length,
                                                drain_faults *faults, drain_answer *answer) {
    drain_request request = drain_about(drain_request_on_dem(dem, sinks, sinks_length), spacing, rasters, judged);
    return drain_explain_request(&request, map, map_length, faults, answer);
}

static inline uint32_t drain_explain(uint32_t side, const drain_tile *tiles, size_t tile_count, const uint8_t *sinks,
                                     size_t sinks_length, const drain_audit_rasters *rasters, uint32_t judged,
                                     uint8_t *map, size_t map_length, drain_faults *faults, drain_answer *answer) {
    drain_spacing square = drain_cells(1, 1);
    return drain_explain_spaced(side, tiles, tile_count, sinks, sinks_length, &square, rasters, judged, map, map_length,
                                faults, answer);
}

static inline uint32_t drain_explain_dem(const drain_raster *dem, const uint8_t *sinks, size_t sinks_length,
                                         const drain_audit_rasters *rasters, uint32_t judged, uint8_t *map,
                                         size_t map_length, drain_faults *faults, drain_answer *answer) {
    drain_spacing square = drain_cells(1, 1);
    return drain_explain_dem_spaced(dem, sinks, sinks_length, &square, rasters, judged, map, map_length, faults,
                                    answer);
}

static inline uint32_t drain_derive(uint32_t side, const drain_tile *tiles, size_t tile_count, const drain_raster *dir,
                                    uint32_t *acc, size_t acc_count, uint32_t *bas, size_t bas_count, uint32_t *rnk,
                                    size_t rnk_count, drain_answer *answer) {
    drain_request request = drain_request_on_tiles(side, tiles, tile_count, NULL, 0);
    request.rasters.dir = *dir;
    return drain_derive_request(&request, acc, acc_count, bas, bas_count, rnk, rnk_count, answer);
}

static inline uint32_t drain_derive_dem(const drain_raster *dem, const drain_raster *dir, uint32_t *acc,
                                        size_t acc_count, uint32_t *bas, size_t bas_count, uint32_t *rnk,
                                        size_t rnk_count, drain_answer *answer) {
    drain_request request = drain_request_on_dem(dem, NULL, 0);
    request.rasters.dir = *dir;
    return drain_derive_request(&request, acc, acc_count, bas, bas_count, rnk, rnk_count, answer);
}

#ifdef __cplusplus
}
#endif

#endif
