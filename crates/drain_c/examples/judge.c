/* Audits or checks rasters in files by libdrain: prints the line of the answer and ends with its status.
 *
 *   cc -std=c11 -O2 -I INCLUDE judge.c libdrain.a -o judge
 *   judge audit|check SIDE DIRECTORY TILE...
 *
 * DIRECTORY has con.hdr, con.bil and so on, and for a check rnk.hdr and rnk.bil too. It ends with 4 where a file can't
 * be read, and with 2 where the arguments are wrong. */
#include <stdio.h>
#include <stdlib.h>
#include <string.h>

#include "drain.h"

/* The bytes of a file, in memory that is never given back: the process ends soon. */
static drain_bytes read_file(const char *path) {
    FILE *file = fopen(path, "rb");
    unsigned char *bytes = NULL;
    long length = -1;
    if (file && !fseek(file, 0, SEEK_END) && (length = ftell(file)) >= 0 && !fseek(file, 0, SEEK_SET))
        bytes = malloc(length ? (size_t)length : 1);
    if (!bytes || fread(bytes, 1, (size_t)length, file) != (size_t)length) {
        perror(path);
        exit(4);
    }
    fclose(file);
    return drain_bytes_of(bytes, (size_t)length);
}

/* The header and the pixels of one product. */
static drain_raster read_raster(const char *directory, const char *product) {
    char path[4096];
    drain_raster raster;
    snprintf(path, sizeof path, "%s/%s.hdr", directory, product);
    raster.header = read_file(path);
    snprintf(path, sizeof path, "%s/%s.bil", directory, product);
    raster.pixels = read_file(path);
    return raster;
}

/* A tile, named by the last part of its path. */
static drain_tile read_tile(const char *path) {
    const char *slash = strrchr(path, '/');
    const char *name = slash ? slash + 1 : path;
    drain_tile tile = {drain_bytes_of(name, strlen(name)), read_file(path)};
    return tile;
}

int main(int argc, char **argv) {
    if (argc < 5 || (strcmp(argv[1], "audit") && strcmp(argv[1], "check"))) {
        fprintf(stderr, "usage: %s audit|check SIDE DIRECTORY TILE...\n", argv[0]);
        return 2;
    }
    char *end;
    unsigned long long given = strtoull(argv[2], &end, 10);
    if (end == argv[2] || *end || argv[2][0] == '-' || given > UINT32_MAX) {
        fprintf(stderr, "not a side: %s\n", argv[2]);
        return 4;
    }
    uint32_t side = (uint32_t)given;
    const char *directory = argv[3];
    size_t count = (size_t)(argc - 4);
    drain_tile *tiles = malloc(count * sizeof *tiles);
    if (!tiles)
        return 4;
    for (size_t i = 0; i < count; i++)
        tiles[i] = read_tile(argv[4 + i]);

    const uint8_t *sinks = (const uint8_t *)""; /* no inland sinks */
    drain_answer answer;
    if (!strcmp(argv[1], "audit")) {
        drain_audit_rasters rasters = {read_raster(directory, "con"), read_raster(directory, "dir"),
                                       read_raster(directory, "acc"), read_raster(directory, "bas")};
        drain_audit(side, tiles, count, sinks, 0, &rasters, &answer);
    } else {
        drain_check_rasters rasters = {read_raster(directory, "con"), read_raster(directory, "dir"),
                                       read_raster(directory, "acc"), read_raster(directory, "bas"),
                                       read_raster(directory, "rnk")};
        drain_check(side, tiles, count, sinks, 0, &rasters, &answer);
    }
    if (printf("%s\n", answer.line) < 0 || fflush(stdout))
        return 4;
    return (int)answer.status;
}
