/* The encounter in README.md from places on the globe, as a receiver tells them: ownship and aircraft go into the plane round the
 * ownship, which is turned so that its track is a whole degree.
 *
 *     places CONFIGURATION         the report of the moment, whose tracks are those of the plane
 *     places CONFIGURATION true    the bands of tracks, each as true tracks in degrees
 *
 * Where a call answers anything but DAA_OK, that is the program's status. */
#include "daidalus.h"

#include <stdio.h>
#include <stdlib.h>
#include <string.h>

/* 52 N 4 E; 360 knots over ground, 0.3 degrees to the right of true north. */
static const struct daa_place own_place = {.lat = 520000000, .lon = 40000000, .vx = 19, .vy = 3600};

enum { AIRCRAFT = 2 };
static const char names[AIRCRAFT][8] = {"AMBER", "BRAVO"};
static const struct daa_place places[AIRCRAFT] = {
    {.lat = 521328612, .lon = 40822805, .vx = -1350, .vy = 9},
    {.lat = 519951077, .lon = 39676016, .vx = 17, .vy = 3600},
};
static const int32_t heights[AIRCRAFT] = {10000, 10600}, climbs[AIRCRAFT] = {0, -600};

static void check(const char *call, int32_t answer) {
    if (answer == DAA_OK) return;
    fprintf(stderr, "%s answers %d: %s\n", call, (int)answer, daa_text(answer));
    exit(answer);
}

static struct daa_config config_in(const char *name) {
    static uint8_t text[65537]; /* one byte more than a configuration may have */
    FILE *file = fopen(name, "rb");
    size_t size = file ? fread(text, 1, sizeof text, file) : 0;
    if (!file || ferror(file)) {
        perror(name);
        exit(1);
    }
    fclose(file);
    struct daa_config config;
    check("daa_read", daa_read(text, size, &config));
    return config;
}

/* An aircraft in the plane. */
static struct daa_traffic aircraft_at(int place) {
    struct daa_seen seen;
    check("daa_plane", daa_plane(&own_place, &places[place], &seen));
    struct daa_traffic traffic = {
        .x = seen.x, .y = seen.y, .alt = heights[place], .vx = seen.vx, .vy = seen.vy, .vs = climbs[place], .age = 0};
    memcpy(traffic.id, names[place], sizeof traffic.id);
    return traffic;
}

static void print_report(const struct daa_config *config, const struct daa_own *own, const struct daa_traffic *traffic) {
    static uint8_t text[DAA_MOST_TEXT];
    size_t length;
    check("daa_report", daa_report(config, 0, own, traffic, AIRCRAFT, text, sizeof text, &length));
    fwrite(text, 1, length, stdout);
}

/* A track of the plane is a true one once the turn is added. */
static void print_true_bands(const struct daa_config *config, const struct daa_own *own, const struct daa_traffic *traffic, int32_t turn) {
    static struct daa_board board;
    struct daa_band bands[DAA_MOST_VALUES];
    size_t count;
    check("daa_decide", daa_decide(config, 0, own, traffic, AIRCRAFT, &board));
    check("daa_bands", daa_bands(config, 0, &board, DAA_TRACK, bands, DAA_MOST_VALUES, &count));
    for (size_t i = 0; i < count; i++)
        printf("%.4f %.4f %u\n", bands[i].from + turn / 10000.0, bands[i].upto + turn / 10000.0, (unsigned)bands[i].level);
}

int main(int words, char **word) {
    struct daa_course course;
    struct daa_traffic traffic[AIRCRAFT];
    if (words < 2 || words > 3 || (words == 3 && strcmp(word[2], "true"))) return 2;
    struct daa_config config = config_in(word[1]);
    check("daa_plane_own", daa_plane_own(&own_place, &course));
    struct daa_own own = {.x = 0, .y = 0, .alt = 10000, .trk = course.trk, .gs = course.gs, .vs = 0};
    for (int place = 0; place < AIRCRAFT; place++) traffic[place] = aircraft_at(place);
    if (words == 3) print_true_bands(&config, &own, traffic, course.turn);
    else print_report(&config, &own, traffic);
    if (fflush(stdout) || ferror(stdout)) {
        perror("standard output");
        return 1;
    }
    return 0;
}
