/* Tests of requests beside the calls that fill them in: where members lie, which elevations count, ranks that are explained, NULL.
 * library.c runs them. */
#include <stddef.h>
#include <string.h>

#include "library.h"

/* The library writes each number of a request where drain.h has it, over odd bytes, and none behind it. */
void test_request_layout(void) {
    union {
        drain_request request;
        uint8_t bytes[sizeof(drain_request) + 8];
    } odd;
    memset(&odd, 0x5b, sizeof odd);
    size_t size = drain_request_layout(&odd.request);
    const drain_request *it = &odd.request;
    judge(size == sizeof(drain_request) && are_all(odd.bytes + size, 8, 0x5b), "a request of %zu bytes, not %zu", size, sizeof(drain_request));
    judge(it->side == offsetof(drain_request, side) && it->has_dem == offsetof(drain_request, has_dem) && it->judged == offsetof(drain_request, judged), "the numbers of a request: %u, %u, %u", it->side, it->has_dem, it->judged);
    judge(it->spacing.width == offsetof(drain_request, spacing.width) && it->spacing.height == offsetof(drain_request, spacing.height), "those of its spacing: %u, %u", it->spacing.width, it->spacing.height);
    judge(it->tiles != NULL && it->tile_count == 0, "tiles of a request: %zu", it->tile_count);
    const drain_bytes *texts[] = {&it->dem.header, &it->dem.pixels, &it->sinks, &it->spacing.widths, &it->rasters.con.header, &it->rasters.con.pixels, &it->rasters.dir.header, &it->rasters.dir.pixels,
                                  &it->rasters.acc.header, &it->rasters.acc.pixels, &it->rasters.bas.header, &it->rasters.bas.pixels, &it->rasters.rnk.header, &it->rasters.rnk.pixels};
    for (size_t i = 0; i < sizeof texts / sizeof *texts; i++) {
        size_t place = (size_t)((const uint8_t *)&texts[i]->missing - (const uint8_t *)it);
        judge(texts[i]->missing == place && texts[i]->length == 0 && texts[i]->at != NULL, "bytes %zu of a request: %zu missing, %zu long", i, texts[i]->missing, texts[i]->length);
    }
}

/* A request for all rasters of the files. */
static drain_request of_files(void) {
    drain_request request = drain_request_on_tiles(side, &tile, 1, no_sinks, 0);
    request.rasters.con = rasters.con;
    request.rasters.dir = rasters.dir;
    request.rasters.acc = rasters.acc;
    request.rasters.bas = rasters.bas;
    return request;
}

/* The line about a request is this one, from drain_judge and, with a map of zeros, from drain_explain_request. */
static void says_of(const char *name, const drain_request *request, const char *line) {
    drain_answer answer = unwritten(), explained = unwritten();
    drain_faults faults;
    uint8_t map[MAP_LENGTH];
    uint32_t status = strstr(line, "refused") ? 2 : 0;
    memset(map, 0x5b, sizeof map);
    judge(drain_judge(request, &answer) == status && says(&answer, status, line), "%s: %.164s", name, answer.line);
    uint32_t too = drain_explain_request(request, map, sizeof map, &faults, &explained);
    judge(too == status && !memcmp(&answer, &explained, sizeof answer) && are_all(map, sizeof map, status ? 0x5b : 0), "%s explained: %.164s", name, explained.line);
}

/* The files, with ranks of their directions too, are right. Of a request with tiles and a raster the raster counts, whatever has_dem
 * is but 0. NULL is seen wherever bytes are read, and nowhere else; a choice is looked at before it. */
void test_requests(const char *line) {
    uint32_t acc[MAP_LENGTH], bas[MAP_LENGTH], rnk[MAP_LENGTH];
    char text[DRAIN_HEADER_SIZE];
    drain_answer answer = unwritten();
    drain_request files = of_files(), request = files;
    says_of("the files", &files, line);
    judge(!drain_derive_request(&files, acc, MAP_LENGTH, bas, MAP_LENGTH, rnk, MAP_LENGTH, &answer), "a derivation of a request: %.164s", answer.line);
    drain_array ranks = {rnk, 51, 51, 32, 0, 0, 4294967295};
    files.rasters.rnk = drain_raster_of(&ranks, side, -85, 37, text);
    files.judged = DRAIN_ALL_WITH_RANKS;
    says_of("the files with ranks", &files, line);
    static const uint32_t has_dem[] = {1, 2, 255, UINT32_MAX};
    for (size_t i = 0; i < sizeof has_dem / sizeof *has_dem; i++) {
        request = files;
        request.has_dem = has_dem[i];
        says_of("no raster of elevations", &request, "refused BadHeader dem MissingKey NROWS");
    }
    drain_bytes missing = drain_bytes_of(NULL, 3);
    request = files, request.sinks = missing;
    says_of("NULL for sinks", &request, "refused NullBytes");
    request = files, request.rasters.rnk.pixels = missing;
    says_of("NULL for ranks", &request, "refused NullBytes");
    request.judged = DRAIN_ALL;
    says_of("NULL for ranks that aren't judged", &request, line);
    request = files, request.dem.header = missing;
    says_of("NULL for elevations of another kind", &request, line);
    request.has_dem = 1;
    says_of("NULL for elevations", &request, "refused NullBytes");
    request.judged = 30;
    says_of("NULL, and no choice", &request, "refused BadChoice");
    request = files, request.sinks = missing, request.spacing = drain_cells(0, 3), request.judged = 0;
    judge(!drain_derive_request(&request, acc, MAP_LENGTH, bas, MAP_LENGTH, rnk, MAP_LENGTH, &answer), "a derivation beside what isn't read: %.164s", answer.line);
    request.rasters.dir.header = missing;
    judge(drain_derive_request(&request, acc, MAP_LENGTH, bas, MAP_LENGTH, rnk, MAP_LENGTH, &answer) == 2 && says(&answer, 2, "refused NullBytes"), "NULL for directions: %.164s", answer.line);
    request = files, request.tile_count = 0;
    says_of("no tile", &request, "refused NoTiles");
}
