/* What the tests of libdrain share: the files that library.c has read, how it judges, and the tests of library_calls.c,
 * library_dem.c and library_requests.c. */
#ifndef LIBRARY_H
#define LIBRARY_H

#include "drain.h"

/* The cells of the files, whose side is 51. */
enum { MAP_LENGTH = 51 * 51 };

extern uint32_t side;
extern drain_tile tile;
extern drain_audit_rasters rasters;
extern const uint8_t no_sinks[];

void judge(int is_right, const char *format, ...);
drain_answer unwritten(void);
int says(const drain_answer *answer, uint32_t status, const char *line);
int are_all(const void *bytes, size_t length, uint8_t byte);
uint32_t audit_only(uint32_t judged, const drain_audit_rasters *given, drain_answer *answer);
drain_audit_rasters with_wrong_count(void);

/* The tile's samples as one raster of elevations in the tile's place, and calls over it. */
drain_raster dem_of_samples(char text[DRAIN_HEADER_SIZE]);
uint32_t audit_samples(drain_answer *answer);
uint32_t check_samples(drain_answer *answer);
uint32_t explain_samples(drain_answer *answer);
uint32_t derive_samples(drain_answer *answer);

void test_choices(const char *line);
void test_spacings(const char *line);
void test_calls(void);
void test_refused_spacings(void);
void test_explanation(const char *line);
void test_derivation(const char *line);
void test_version(void);
void test_arrays(const char *line);
void test_kinds(void);
void test_headers(void);
void test_dem(const char *line);
void test_request_layout(void);
void test_requests(const char *line);

#endif
