/* One moment of the encounter in README.md, from C: its alerts, bands and resolutions, in the lines of the report.
 *
 *     one_moment CONFIGURATION           asks for each answer by itself
 *     one_moment CONFIGURATION report    asks for the whole text
 *
 * Where a call answers anything but DAA_OK, that is the program's status. */
#include "daidalus.h"

#include <stdio.h>
#include <stdlib.h>
#include <string.h>

static const struct daa_own own = {.x = 0, .y = 0, .alt = 10000, .trk = 0, .gs = 3600, .vs = 0};

static const struct daa_traffic traffic[] = {
    {.id = "AMBER", .x = 3000, .y = 8000, .alt = 10000, .vx = -1350, .vy = 0, .vs = 0, .age = 0},
    {.id = "BRAVO", .x = -1200, .y = -300, .alt = 10600, .vx = 0, .vy = 3600, .vs = -600, .age = 0},
};

enum { AIRCRAFT = sizeof traffic / sizeof *traffic };

static void check(const char *call, int32_t answer) {
    if (answer == DAA_OK) return;
    fprintf(stderr, "%s answers %d: %s\n", call, (int)answer, daa_text(answer));
    exit(answer);
}

static struct daa_config config_in(const char *name) {
    static uint8_t text[65537]; /* one byte more than a configuration may have */
    FILE *file = fopen(name, "rb");
    size_t size = file ? fread(text, 1, sizeof text, file) : 0;
    if (!file || ferror(file)) {
        perror(name);
        exit(1);
    }
    fclose(file);
    struct daa_config config;
    check("daa_read", daa_read(text, size, &config));
    return config;
}

static void print_alert(const struct daa_config *config, const struct daa_traffic *aircraft) {
    struct daa_alert_answer alert;
    check("daa_alert", daa_alert(config, &own, aircraft, &alert));
    printf("now %.8s %u\n", aircraft->id, (unsigned)alert.now);
    printf("alert %.8s %u ", aircraft->id, (unsigned)alert.level);
    if (alert.level) printf("%d\n", (int)alert.first);
    else printf("-\n");
}

static void print_bands(const struct daa_config *config, const struct daa_board *board, int32_t kind, const char *name) {
    struct daa_band bands[512];
    size_t count;
    check("daa_bands", daa_bands(config, 0, board, kind, bands, 512, &count));
    for (size_t i = 0; i < count; i++)
        printf("%s %d %d %u\n", name, (int)bands[i].from, (int)bands[i].upto, (unsigned)bands[i].level);
}

static void print_side(const struct daa_config *config, const struct daa_board *board, int32_t kind, int32_t side) {
    struct daa_resolution_answer to;
    check("daa_resolution", daa_resolution(config, 0, &own, board, kind, side, &to));
    if (to.what == 0) printf("keep");
    else if (to.what == 1) printf("%d", (int)to.value);
    else printf("none");
}

static void print_answers(const struct daa_config *config) {
    static const char *const names[] = {[DAA_TRACK] = "track", [DAA_SPEED] = "gs", [DAA_CLIMB] = "vs", [DAA_HEIGHT] = "alt"};
    struct daa_board board;
    check("daa_decide", daa_decide(config, 0, &own, traffic, AIRCRAFT, &board));
    printf("moment 0\n");
    for (int i = 0; i < AIRCRAFT; i++) print_alert(config, &traffic[i]);
    for (int kind = DAA_TRACK; kind <= DAA_HEIGHT; kind++) print_bands(config, &board, kind, names[kind]);
    for (int kind = DAA_TRACK; kind <= DAA_HEIGHT; kind++) {
        printf("resolve %s %s ", names[kind], kind == DAA_TRACK ? "left" : "down");
        print_side(config, &board, kind, DAA_LOWER);
        printf(" %s ", kind == DAA_TRACK ? "right" : "up");
        print_side(config, &board, kind, DAA_UPPER);
        printf("\n");
    }
    printf("done 0\n");
}

static void print_report(const struct daa_config *config) {
    static uint8_t text[130176];
    size_t length;
    check("daa_report", daa_report(config, 0, &own, traffic, AIRCRAFT, text, sizeof text, &length));
    fwrite(text, 1, length, stdout);
}

int main(int words, char **word) {
    if (words != 2 && !(words == 3 && strcmp(word[2], "report") == 0)) {
        fprintf(stderr, "usage: one_moment CONFIGURATION [report]\n");
        return 2;
    }
    if (daa_version() != DAA_VERSION) {
        fprintf(stderr, "the archive is of version %d, and this program of version %d\n", (int)daa_version(), DAA_VERSION);
        return 1;
    }
    struct daa_config config = config_in(word[1]);
    words == 2 ? print_answers(&config) : print_report(&config);
    if (fflush(stdout) || ferror(stdout)) {
        perror("standard output");
        return 1;
    }
}
