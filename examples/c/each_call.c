/* Every call of daidalus.h, made once, on the first moment of state lines that come on standard input.
 *
 *     each_call CONFIGURATION < STATES
 *
 * Prints each candidate with its level, and the moment's report twice: put together of the answers, and by daa_report.
 * Where a call answers what it should not, the program ends with status 1. */
#include "daidalus.h"

#include <stdio.h>
#include <stdlib.h>
#include <string.h>

static const char *const kinds[] = {"", "track", "gs", "vs", "alt"};

static void must(int32_t answer, const char *call) {
    if (answer == DAA_OK) return;
    fprintf(stderr, "%s answers %d\n", call, (int)answer);
    exit(1);
}

/* Reads the next line, without its line feed, and of one that has more than room bytes only so many: the call refuses them as
 * it does the whole. Fills in how many there are; a byte 0 is one of them. Returns whether there is a line. */
static int read_line(uint8_t *line, size_t room, size_t *size) {
    int byte;
    *size = 0;
    while ((byte = getchar()) != EOF && byte != '\n')
        if (*size < room) line[(*size)++] = (uint8_t)byte;
    return byte == '\n' || *size > 0;
}

/* Reads lines up to the end of the first moment. */
static void read_moment(struct daa_lines *lines) {
    uint8_t line[256]; /* one byte more than a line may have */
    size_t size;
    while (read_line(line, sizeof line, &size)) {
        int32_t answer = daa_line(line, size, lines);
        if (answer == DAA_MOMENT_ENDED) return;
        must(answer, "daa_line");
    }
    must(14, "daa_line");
}

static void print_candidates(const struct daa_config *config, uint32_t time, const struct daa_board *board) {
    static uint8_t levels[1897];
    size_t count;
    must(daa_levels(config, time, board, levels, sizeof levels, &count), "daa_levels");
    for (uint32_t i = 0; i < count; i++) {
        struct daa_candidate_answer to;
        must(daa_candidate(config, i, &to), "daa_candidate");
        printf("candidate %d %d %d\n", (int)to.kind, (int)to.value, (int)levels[i]);
    }
}

static void print_alerts(const struct daa_config *config, const struct daa_lines *moment) {
    for (size_t i = 0; i < moment->count; i++) {
        struct daa_alert_answer alert;
        must(daa_alert(config, &moment->own, &moment->traffic[i], &alert), "daa_alert");
        printf("now %.8s %u\nalert %.8s %u ", moment->traffic[i].id, (unsigned)alert.now, moment->traffic[i].id, (unsigned)alert.level);
        if (alert.level) printf("%d\n", (int)alert.first);
        else printf("-\n");
    }
}

static void print_bands(const struct daa_config *config, uint32_t time, const struct daa_board *board) {
    for (int32_t kind = DAA_TRACK; kind <= DAA_HEIGHT; kind++) {
        struct daa_band bands[512];
        size_t count;
        must(daa_bands(config, time, board, kind, bands, 512, &count), "daa_bands");
        for (size_t i = 0; i < count; i++)
            printf("%s %d %d %u\n", kinds[kind], (int)bands[i].from, (int)bands[i].upto, (unsigned)bands[i].level);
    }
}

static void print_side(const char *word, struct daa_resolution_answer to) {
    if (to.what == 0) printf(" %s keep", word);
    else if (to.what == 1) printf(" %s %d", word, (int)to.value);
    else printf(" %s none", word);
}

static void print_resolutions(const struct daa_config *config, const struct daa_lines *moment, const struct daa_board *board) {
    for (int32_t kind = DAA_TRACK; kind <= DAA_HEIGHT; kind++) {
        struct daa_resolution_answer lower, upper;
        must(daa_resolution(config, moment->time, &moment->own, board, kind, DAA_LOWER, &lower), "daa_resolution");
        must(daa_resolution(config, moment->time, &moment->own, board, kind, DAA_UPPER, &upper), "daa_resolution");
        printf("resolve %s", kinds[kind]);
        print_side(kind == DAA_TRACK ? "left" : "down", lower);
        print_side(kind == DAA_TRACK ? "right" : "up", upper);
        printf("\n");
    }
}

/* For how long the present flight may be kept before a manoeuvre of each kind, where the configuration asks for it and the
 * present flight is not open. */
static void print_last_times(const struct daa_config *config, const struct daa_lines *moment, const struct daa_board *board) {
    for (int32_t kind = DAA_TRACK; kind <= DAA_HEIGHT; kind++) {
        struct daa_resolution_answer to;
        struct daa_last_answer last;
        must(daa_resolution(config, moment->time, &moment->own, board, kind, DAA_LOWER, &to), "daa_resolution");
        if (!config->last_times || to.what == 0) continue;
        must(daa_last(config, &moment->own, moment->traffic, moment->count, kind, &last), "daa_last");
        if (last.found) printf("last %s %u\n", kinds[kind], (unsigned)last.after);
        else printf("last %s none\n", kinds[kind]);
    }
}

static int is_same(const struct daa_recovery_answer *one, const struct daa_recovery_answer *other) {
    return one->found == other->found && one->after == other->after && one->value == other->value;
}

/* The recovery of a kind is that of a side. */
static void ask_of_sides(const struct daa_config *config, const struct daa_lines *moment, int32_t kind, const struct daa_recovery_answer *to) {
    struct daa_recovery_answer lower, upper;
    must(daa_recovery_side(config, &moment->own, moment->traffic, moment->count, kind, DAA_LOWER, &lower), "daa_recovery_side");
    must(daa_recovery_side(config, &moment->own, moment->traffic, moment->count, kind, DAA_UPPER, &upper), "daa_recovery_side");
    if (!is_same(to, &lower) && !is_same(to, &upper)) exit(1);
}

/* The recoveries of the kinds that have no open value on either side, where the configuration asks for them. */
static void print_recoveries(const struct daa_config *config, const struct daa_lines *moment, const struct daa_board *board) {
    for (int32_t kind = DAA_TRACK; kind <= DAA_HEIGHT; kind++) {
        struct daa_resolution_answer lower, upper;
        struct daa_recovery_answer to;
        must(daa_resolution(config, moment->time, &moment->own, board, kind, DAA_LOWER, &lower), "daa_resolution");
        must(daa_resolution(config, moment->time, &moment->own, board, kind, DAA_UPPER, &upper), "daa_resolution");
        if (!config->recovery || lower.what != 2 || upper.what != 2) continue;
        must(daa_recovery(config, &moment->own, moment->traffic, moment->count, kind, &to), "daa_recovery");
        ask_of_sides(config, moment, kind, &to);
        if (to.found) printf("recover %s %u %d\n", kinds[kind], (unsigned)to.after, (int)to.value);
        else printf("recover %s none\n", kinds[kind]);
    }
}

static struct daa_config config_in(const char *name) {
    static uint8_t text[65537];
    struct daa_config config;
    FILE *file = fopen(name, "rb");
    if (!file) {
        perror(name);
        exit(1);
    }
    size_t size = fread(text, 1, sizeof text, file);
    if (ferror(file)) {
        perror(name);
        exit(1);
    }
    fclose(file);
    must(daa_read(text, size, &config), "daa_read");
    return config;
}

/* The level of each candidate's value is that of the candidate, and some aircraft meets it at that level. */
static void ask_of_values(const struct daa_config *config, const struct daa_lines *moment, const struct daa_board *board) {
    static uint8_t levels[DAA_MOST_CANDIDATES];
    size_t count;
    must(daa_levels(config, moment->time, board, levels, sizeof levels, &count), "daa_levels");
    for (uint32_t index = 0; index < count; index++) {
        struct daa_candidate_answer to;
        uint32_t level;
        uint64_t places = 0;
        must(daa_candidate(config, index, &to), "daa_candidate");
        must(daa_value_level(config, &moment->own, moment->traffic, moment->count, to.kind, to.value, &level), "daa_value_level");
        if (level) must(daa_closers(config, &moment->own, moment->traffic, moment->count, to.kind, to.value, level, level, &places), "daa_closers");
        if (level != levels[index] || !places != !level) exit(1);
    }
}

/* One of one, not held: an alert is shown as it is. The preferred side is taken if it has a value. */
static void show_at_once(const struct daa_config *config, const struct daa_lines *moment, const struct daa_board *board) {
    const struct daa_steady_rule rule = {1, 1, 0};
    for (uint64_t place = 0; place < moment->count; place++) {
        struct daa_steady_state state = {{0}, {0}, 0, 0};
        struct daa_alert_answer alert;
        uint32_t shown;
        must(daa_alert(config, &moment->own, &moment->traffic[place], &alert), "daa_alert");
        must(daa_steady(&rule, moment->time, (int32_t)alert.level, &state, &shown), "daa_steady");
        if (shown != alert.level) exit(1);
    }
    for (int32_t kind = DAA_TRACK; kind <= DAA_HEIGHT; kind++) {
        struct daa_side_state state = {0, 0, 0};
        struct daa_resolution_answer lower, upper;
        int32_t shown;
        must(daa_resolution(config, moment->time, &moment->own, board, kind, DAA_LOWER, &lower), "daa_resolution");
        must(daa_resolution(config, moment->time, &moment->own, board, kind, DAA_UPPER, &upper), "daa_resolution");
        must(daa_steady_side(10, moment->time, lower.what, upper.what, DAA_UPPER, &state, &shown), "daa_steady_side");
        if (shown != (upper.what == 1 ? DAA_UPPER : lower.what == 1 ? DAA_LOWER : -1)) exit(1);
    }
}

/* A state that is flown for no time stays as it is. */
static void fly_nowhere(const struct daa_lines *moment) {
    struct daa_traffic traffic;
    struct daa_own own;
    must(daa_fly_own(&moment->own, 1000, 1000, 0, &own), "daa_fly_own");
    must(daa_fly(&moment->traffic[0], 1000, 1000, 0, &traffic), "daa_fly");
    if (memcmp(&own, &moment->own, sizeof own) || memcmp(&traffic, &moment->traffic[0], sizeof traffic)) exit(1);
}

/* An ownship that flies north needs no turn of the plane, and is seen from itself at 0 0. */
static void see_itself(void) {
    const struct daa_place place = {.lat = 520000000, .lon = 40000000, .vx = 0, .vy = 3600};
    struct daa_course course;
    struct daa_seen seen;
    must(daa_plane_own(&place, &course), "daa_plane_own");
    must(daa_plane(&place, &place, &seen), "daa_plane");
    if (course.trk || course.gs != 3600 || course.turn || seen.x || seen.y || seen.vx || seen.vy != 3600) exit(1);
}

/* The board of half the aircraft, to which that of the others is joined. */
static void decide_in_halves(const struct daa_config *config, const struct daa_lines *moment, struct daa_board *board) {
    static struct daa_board more;
    size_t half = moment->count / 2;
    must(daa_decide(config, moment->time, &moment->own, moment->traffic, half, board), "daa_decide");
    must(daa_decide(config, moment->time, &moment->own, &moment->traffic[half], moment->count - half, &more), "daa_decide");
    must(daa_join(config, &more, board), "daa_join");
}

int main(int words, char **word) {
    static struct daa_lines moment;
    static struct daa_board board;
    static uint8_t text[130176];
    struct daa_fault_answer fault;
    size_t length;
    if (words != 2) return 2;
    if (daa_version() != DAA_VERSION) return 1;
    struct daa_config config = config_in(word[1]);
    printf("check %d\n", (int)daa_check(&config));
    read_moment(&moment);
    must(daa_fault(&moment.own, moment.traffic, moment.count, &fault), "daa_fault");
    printf("fault %d %d %d %d %d\n", (int)fault.code, (int)fault.field, (int)fault.least, (int)fault.greatest, (int)fault.place);
    fly_nowhere(&moment);
    see_itself();
    decide_in_halves(&config, &moment, &board);
    ask_of_values(&config, &moment, &board);
    show_at_once(&config, &moment, &board);
    print_candidates(&config, moment.time, &board);
    printf("moment %u\n", (unsigned)moment.time);
    print_alerts(&config, &moment);
    print_bands(&config, moment.time, &board);
    print_resolutions(&config, &moment, &board);
    print_last_times(&config, &moment, &board);
    print_recoveries(&config, &moment, &board);
    printf("done %u\n", (unsigned)moment.time);
    must(daa_report(&config, moment.time, &moment.own, moment.traffic, moment.count, text, sizeof text, &length), "daa_report");
    fwrite(text, 1, length, stdout);
    if (fflush(stdout) || ferror(stdout)) {
        perror("standard output");
        return 1;
    }
    return 0;
}
