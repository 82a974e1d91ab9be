/* A loop at 1 Hz: states as a bus gives them, each with its own time, and the guidance of each second.
 *
 *     feed CONFIGURATION < BUS
 *
 * A line of BUS is one of these, in the units of daidalus.h; T is in seconds, 0 to 4294967295, of a report with up to three
 * decimals:
 *
 *     own T X Y ALT TRK GS VS
 *     traffic T ID X Y ALT VX VY VS
 *     tick T
 *
 * tick stands for the timer: second T begins, and the report of its moment is printed. A bus whose seconds do not begin at 0
 * begins with a tick: before the first one the next second is 0. Ownship and aircraft keep their latest report, and fly straight
 * on from its time to the second that begins: a position fix that comes after its tick serves the next one. An ownship that was
 * silent for more than 3 seconds gives no guidance; an aircraft is dropped above 60 seconds. There may be 256 aircraft: 64 at a
 * time are decided, and their boards joined. What is left out, and why, goes to standard error: an integrator shows it to the
 * crew. No second is answered by an older board. The loop ends with status 1 where the bus cannot be read to its end, or a report
 * not be written. */
#include "daidalus.h"

#include <stdio.h>
#include <stdlib.h>
#include <string.h>

enum { MOST_TRACKS = 256, TOGETHER = DAA_MOST_AIRCRAFT, MOST_AGE = 60999, MOST_OWN_AGE = 3000, MOST_LINE = 256 };

static const char *const kinds[] = {"", "track", "gs", "vs", "alt"};

struct own_report {
    long long time; /* in milliseconds, as all times of reports */
    int known;
    struct daa_own own;
};

struct track {
    long long time;
    struct daa_traffic traffic;
};

struct table {
    long long now; /* the second that began last, -1 before the first */
    struct own_report own;
    struct track tracks[MOST_TRACKS];
    size_t count;
};

/* The states of a second, each as it is then. */
struct picture {
    struct daa_own own;
    struct daa_traffic traffic[MOST_TRACKS];
    size_t count;
};

static void read_config(const char *name, struct daa_config *config) {
    static uint8_t text[65537]; /* one byte more than a configuration may have */
    FILE *file = fopen(name, "rb");
    size_t size = file ? fread(text, 1, sizeof text, file) : 0;
    if (!file || ferror(file)) {
        perror(name);
        exit(1);
    }
    fclose(file);
    int32_t answer = daa_read(text, size, config);
    if (answer != DAA_OK) {
        fprintf(stderr, "%s is refused: %s\n", name, daa_text(answer));
        exit(answer);
    }
}

static struct track *find(struct table *table, const char id[8]) {
    for (size_t i = 0; i < table->count; i++)
        if (memcmp(table->tracks[i].traffic.id, id, 8) == 0) return &table->tracks[i];
    return NULL;
}

static void drop(struct table *table, size_t place) {
    table->count--;
    memmove(&table->tracks[place], &table->tracks[place + 1], (table->count - place) * sizeof table->tracks[0]);
}

/* Whether a report is of a later second than the next: it would stand before all sound ones, and is not taken. It is said. */
static int is_ahead(const struct table *table, const char *name, long long time) {
    if (time / 1000 <= table->now + 1) return 0;
    if (table->now < 0) fprintf(stderr, "before the first second: ");
    else fprintf(stderr, "second %lld: ", table->now);
    fprintf(stderr, "a report of %s is left out: it is of second %lld\n", name, time / 1000);
    return 1;
}

/* How much an aircraft matters to the ownship: the sooner its closest approach, and then the nearer it is. */
struct urgency {
    double approach, distance; /* a time, or far off if the distance grows; and a distance squared */
};

static struct urgency urgency_of(const struct daa_own *own, const struct daa_traffic *traffic) {
    struct daa_own later = *own;
    if (daa_fly_own(own, 0, 36000, 36000, &later) != DAA_OK) later = *own; /* in 36 seconds a speed of 0.1 kt goes 0.001 NM */
    double x = (double)traffic->x - own->x, y = (double)traffic->y - own->y;
    double vx = (double)traffic->vx - (later.x - own->x), vy = (double)traffic->vy - (later.y - own->y);
    double closing = -(x * vx + y * vy), speed = vx * vx + vy * vy;
    struct urgency urgency = {closing > 0 ? closing / speed : 1e30, x * x + y * y};
    return urgency;
}

static int is_more_urgent(struct urgency one, struct urgency other) {
    return one.approach < other.approach || (one.approach == other.approach && one.distance < other.distance);
}

/* The place of the aircraft that matters least. */
static size_t least_urgent(const struct daa_own *own, const struct daa_traffic *traffic, size_t count) {
    size_t least = 0;
    for (size_t i = 1; i < count; i++)
        if (is_more_urgent(urgency_of(own, &traffic[least]), urgency_of(own, &traffic[i]))) least = i;
    return least;
}

/* Makes room for one more aircraft by dropping the one that matters least. Returns whether there is room now: the new one may be
 * the one that is left out. */
static int make_room(struct table *table, const struct track *report) {
    static struct daa_traffic all[MOST_TRACKS + 1];
    size_t least;
    for (size_t i = 0; i < MOST_TRACKS; i++) all[i] = table->tracks[i].traffic;
    all[MOST_TRACKS] = report->traffic;
    least = least_urgent(&table->own.own, all, MOST_TRACKS + 1);
    fprintf(stderr, "second %lld: %.8s is left out: there are more than %d aircraft\n", report->time / 1000, all[least].id, MOST_TRACKS);
    if (least == MOST_TRACKS) return 0;
    drop(table, least);
    return 1;
}

/* The latest report of a name stands. A second one of the same time is another aircraft under that name, or a source that
 * repeats itself: the later line stands, and it is said. */
static void take_traffic(struct table *table, const struct track *report) {
    const struct daa_traffic *new = &report->traffic;
    struct track *old = find(table, new->id);
    if (old && old->time == report->time)
        fprintf(stderr, "second %lld: %.8s was reported twice: its later report stands\n", report->time / 1000, new->id);
    if (old && old->time > report->time) return;
    if (!old && table->count == MOST_TRACKS && !make_room(table, report)) return;
    if (!old) old = &table->tracks[table->count++];
    *old = *report;
}

/* An aircraft is no longer known where it has been silent for more than 60 seconds. (No report is of a second to come.) */
static void drop_silent(struct table *table) {
    for (size_t i = table->count; i-- > 0;) {
        const struct track *it = &table->tracks[i];
        long long age = table->now * 1000 - it->time;
        if (age <= MOST_AGE) continue;
        fprintf(stderr, "second %lld: %.8s is dropped: it was silent for %lld seconds\n", table->now, it->traffic.id, age / 1000);
        drop(table, i);
    }
}

static void say_left_out(long long now, const char id[8], const struct daa_fault_answer *fault) {
    static const char *const fields[] = {"", "x", "y", "alt", "trk", "gs", "vs", "vx", "vy", "age"};
    fprintf(stderr, "second %lld: %.8s is left out: code %d", now, id, (int)fault->code);
    if (fault->field) fprintf(stderr, ", its %s is not in %d..%d", fields[fault->field], (int)fault->least, (int)fault->greatest);
    fprintf(stderr, "\n");
}

/* The ownship of this second, flown straight on from its latest report. Returns whether there is one: else there is no guidance,
 * and it is said why. */
static int make_own(const struct table *table, struct daa_own *own) {
    static const char *const fields[] = {"", "x", "y", "alt", "trk", "gs", "vs"};
    struct daa_fault_answer fault = {0, 0, 0, 0, 0};
    const struct own_report *report = &table->own;
    if (!report->known) {
        fprintf(stderr, "second %lld: no guidance: there is no report of the ownship\n", table->now);
        return 0;
    }
    int32_t answer = daa_fly_own(&report->own, (uint64_t)report->time, (uint64_t)table->now * 1000, MOST_OWN_AGE, own);
    if (answer == DAA_TOO_OLD)
        fprintf(stderr, "second %lld: no guidance: the ownship was silent for %lld seconds\n", table->now, (table->now * 1000 - report->time) / 1000);
    if (answer == DAA_BAD_OWN && daa_fault(&report->own, daa_no_traffic(), 0, &fault) == DAA_OK)
        fprintf(stderr, "second %lld: no guidance: the ownship's %s is not in %d..%d\n", table->now, fields[fault.field],
                (int)fault.least, (int)fault.greatest);
    return answer == DAA_OK;
}

/* The picture of this second, without each aircraft of which something is wrong; it is said what. */
static int make_picture(const struct table *table, struct picture *picture) {
    struct daa_fault_answer fault;
    picture->count = 0;
    if (!make_own(table, &picture->own)) return 0;
    for (size_t i = 0; i < table->count; i++) {
        const struct track *it = &table->tracks[i];
        struct daa_traffic *flown = &picture->traffic[picture->count];
        *flown = it->traffic; /* (as it was reported, where it cannot be flown: then the fault is told of these numbers) */
        int32_t answer = daa_fly(&it->traffic, (uint64_t)it->time, (uint64_t)table->now * 1000, MOST_AGE, flown);
        if (daa_fault(&picture->own, flown, 1, &fault) != DAA_OK) return 0;
        if (answer == DAA_OK && fault.code == DAA_OK) picture->count++;
        else if (fault.code == DAA_BAD_OWN) {
            fprintf(stderr, "second %lld: no guidance: the ownship flies out of its range\n", table->now);
            return 0;
        } else say_left_out(table->now, it->traffic.id, &fault);
    }
    return 1;
}

/* The board of all aircraft: that of the first, joined to those of the others. */
static int32_t decide_all(const struct daa_config *config, uint32_t now, const struct picture *picture, struct daa_board *board) {
    static struct daa_board more;
    size_t first = picture->count < TOGETHER ? picture->count : TOGETHER;
    int32_t answer = daa_decide(config, now, &picture->own, picture->traffic, first, board);
    for (size_t i = TOGETHER; answer == DAA_OK && i < picture->count; i += TOGETHER) {
        size_t count = picture->count - i < TOGETHER ? picture->count - i : TOGETHER;
        answer = daa_decide(config, now, &picture->own, &picture->traffic[i], count, &more);
        if (answer == DAA_OK) answer = daa_join(config, &more, board);
    }
    return answer;
}

static int32_t print_alerts(const struct daa_config *config, const struct picture *picture) {
    for (size_t i = 0; i < picture->count; i++) {
        const struct daa_traffic *it = &picture->traffic[i];
        struct daa_alert_answer alert;
        int32_t answer = daa_alert(config, &picture->own, it, &alert);
        if (answer != DAA_OK) return answer;
        printf("now %.8s %u\nalert %.8s %u ", it->id, (unsigned)alert.now, it->id, (unsigned)alert.level);
        if (alert.level) printf("%d\n", (int)alert.first);
        else printf("-\n");
    }
    return DAA_OK;
}

static int32_t print_bands(const struct daa_config *config, uint32_t now, const struct daa_board *board, int32_t kind) {
    struct daa_band bands[DAA_MOST_VALUES];
    size_t count;
    int32_t answer = daa_bands(config, now, board, kind, bands, DAA_MOST_VALUES, &count);
    for (size_t i = 0; answer == DAA_OK && i < count; i++)
        printf("%s %d %d %u\n", kinds[kind], (int)bands[i].from, (int)bands[i].upto, (unsigned)bands[i].level);
    return answer;
}

static void print_side(const char *word, struct daa_resolution_answer to) {
    if (to.what == 0) printf(" %s keep", word);
    else if (to.what == 1) printf(" %s %d", word, (int)to.value);
    else printf(" %s none", word);
}

/* The answers of each kind on both sides, which the lines after them go by. */
struct answers {
    struct daa_resolution_answer side[5][2];
};

static int32_t print_resolutions(const struct daa_config *config, uint32_t now, const struct picture *picture,
                                 const struct daa_board *board, struct answers *answers) {
    for (int32_t kind = DAA_TRACK; kind <= DAA_HEIGHT; kind++) {
        for (int32_t side = DAA_LOWER; side <= DAA_UPPER; side++) {
            int32_t answer = daa_resolution(config, now, &picture->own, board, kind, side, &answers->side[kind][side]);
            if (answer != DAA_OK) return answer;
        }
        printf("resolve %s", kinds[kind]);
        print_side(kind == DAA_TRACK ? "left" : "down", answers->side[kind][DAA_LOWER]);
        print_side(kind == DAA_TRACK ? "right" : "up", answers->side[kind][DAA_UPPER]);
        printf("\n");
    }
    return DAA_OK;
}

/* Leaves the 64 aircraft that matter most: last times and recoveries are searched for over no more. Where others are left out it
 * is said. */
static void keep_urgent(long long now, struct picture *picture) {
    if (picture->count > TOGETHER)
        fprintf(stderr, "second %lld: last times and recoveries are those of the %d most urgent of %zu aircraft\n", now, TOGETHER, picture->count);
    while (picture->count > TOGETHER) {
        size_t least = least_urgent(&picture->own, picture->traffic, picture->count);
        picture->count--;
        memmove(&picture->traffic[least], &picture->traffic[least + 1], (picture->count - least) * sizeof picture->traffic[0]);
    }
}

/* The last times of a moment whose present flight is not open, where the configuration asks for them. */
static int32_t print_last_times(const struct daa_config *config, const struct picture *picture, const struct answers *answers) {
    for (int32_t kind = DAA_TRACK; kind <= DAA_HEIGHT; kind++) {
        struct daa_last_answer last;
        if (!config->last_times || answers->side[kind][DAA_LOWER].what == 0) continue;
        int32_t answer = daa_last(config, &picture->own, picture->traffic, picture->count, kind, &last);
        if (answer != DAA_OK) return answer;
        if (last.found) printf("last %s %u\n", kinds[kind], (unsigned)last.after);
        else printf("last %s none\n", kinds[kind]);
    }
    return DAA_OK;
}

/* The recoveries of the kinds that have no open value on either side, where the configuration asks for them. */
static int32_t print_recoveries(const struct daa_config *config, const struct picture *picture, const struct answers *answers) {
    for (int32_t kind = DAA_TRACK; kind <= DAA_HEIGHT; kind++) {
        struct daa_recovery_answer to;
        if (!config->recovery || answers->side[kind][DAA_LOWER].what != 2 || answers->side[kind][DAA_UPPER].what != 2) continue;
        int32_t answer = daa_recovery(config, &picture->own, picture->traffic, picture->count, kind, &to);
        if (answer != DAA_OK) return answer;
        if (to.found) printf("recover %s %u %d\n", kinds[kind], (unsigned)to.after, (int)to.value);
        else printf("recover %s none\n", kinds[kind]);
    }
    return DAA_OK;
}

/* Prints the report of a second: the bytes are those that the program writes of it, unless there are more than 64 aircraft, of
 * which the program takes none. Nothing is printed before the board is decided. */
static int32_t print_report(const struct daa_config *config, uint32_t now, struct picture *picture) {
    static struct daa_board board;
    static struct answers answers;
    int32_t answer = decide_all(config, now, picture, &board);
    if (answer != DAA_OK) return answer;
    printf("moment %u\n", (unsigned)now);
    answer = print_alerts(config, picture);
    for (int32_t kind = DAA_TRACK; answer == DAA_OK && kind <= DAA_HEIGHT; kind++) answer = print_bands(config, now, &board, kind);
    if (answer == DAA_OK) answer = print_resolutions(config, now, picture, &board, &answers);
    if (config->last_times || config->recovery) keep_urgent(now, picture);
    if (answer == DAA_OK) answer = print_last_times(config, picture, &answers);
    if (answer == DAA_OK) answer = print_recoveries(config, picture, &answers);
    if (answer == DAA_OK) printf("done %u\n", (unsigned)now);
    return answer;
}

static void decide(const struct daa_config *config, struct table *table, long long now) {
    static struct picture picture;
    table->now = now;
    drop_silent(table);
    if (!make_picture(table, &picture)) return;
    int32_t answer = print_report(config, (uint32_t)now, &picture);
    if (answer != DAA_OK) fprintf(stderr, "second %lld: no guidance: %s\n", now, daa_text(answer));
    if (fflush(stdout) || ferror(stdout)) {
        fprintf(stderr, "second %lld: its report cannot be written\n", now);
        exit(1);
    }
}

/* Reads a word as a whole number; one that long long cannot hold becomes its least or greatest. Returns whether it is one. */
static int read_number(const char *word, long long *number) {
    char *end;
    *number = strtoll(word, &end, 10);
    return *end == 0;
}

/* Reads a word as a time in seconds with up to three decimals, as milliseconds. Returns whether it is one. */
static int read_time(const char *word, long long *time) {
    char *end;
    long long seconds = strtoll(word, &end, 10), part = 0;
    if (seconds < 0 || seconds > UINT32_MAX || end == word) return 0;
    if (*end == '.') {
        long long unit = 100;
        for (end++; *end >= '0' && *end <= '9' && unit > 0; end++, unit /= 10) part += (*end - '0') * unit;
    }
    *time = seconds * 1000 + part;
    return *end == 0;
}

/* Reads six words as the numbers of a state; one that int32_t cannot hold becomes its least or greatest: daa_fault names it. */
static int read_state(char *const *words, int32_t *state) {
    for (int i = 0; i < 6; i++) {
        long long number;
        if (!read_number(words[i], &number)) return 0;
        state[i] = number < INT32_MIN ? INT32_MIN : number > INT32_MAX ? INT32_MAX : (int32_t)number;
    }
    return 1;
}

/* Begins a second. One that is not later than the last does not begin: reports of the last would be of a second to come. */
static void take_tick(const struct daa_config *config, struct table *table, long long time) {
    if (time > table->now) decide(config, table, time);
    else fprintf(stderr, "second %lld: a tick is left out: it is of second %lld\n", table->now, time);
}

/* Takes one line of the bus. Returns whether it has the form of one. */
static int take_line(const struct daa_config *config, struct table *table, const char *line) {
    char copy[MOST_LINE], *words[10]; /* one word more than a line may have */
    int32_t state[6];
    long long time;
    int count = 0;
    for (char *word = strtok(strcpy(copy, line), " \t\r\n"); word && count < 10; word = strtok(NULL, " \t\r\n"))
        words[count++] = word;
    if (count < 2 || !read_time(words[1], &time)) return 0;
    if (strcmp(words[0], "own") == 0 && count == 8 && read_state(words + 2, state)) {
        if (is_ahead(table, "the ownship", time)) return 1;
        if (table->own.known && table->own.time > time) return 1;
        table->own = (struct own_report){time, 1, {state[0], state[1], state[2], state[3], state[4], state[5]}};
        return 1;
    }
    if (strcmp(words[0], "traffic") == 0 && count == 9 && strlen(words[2]) <= DAA_MOST_ID && read_state(words + 3, state)) {
        if (is_ahead(table, words[2], time)) return 1;
        struct track track = {time, {{0}, state[0], state[1], state[2], state[3], state[4], state[5], 0}};
        memcpy(track.traffic.id, words[2], strlen(words[2]));
        take_traffic(table, &track);
        return 1;
    }
    if (strcmp(words[0], "tick") == 0 && count == 2 && time % 1000 == 0) {
        take_tick(config, table, time / 1000);
        return 1;
    }
    return 0;
}

/* Reads the next line to its end, and keeps its first bytes, without its line feed. Returns how many bytes it has, also where
 * they are too many, or -1 where there is no line. */
static long long read_line(char line[MOST_LINE]) {
    long long size = 0;
    int byte;
    for (; (byte = getchar()) != EOF && byte != '\n'; size++)
        if (size < MOST_LINE - 1) line[size] = (char)byte;
    if (byte == EOF && (size == 0 || ferror(stdin))) return -1;
    line[size < MOST_LINE ? size : MOST_LINE - 1] = 0;
    return size;
}

int main(int words, char **word) {
    static struct table table = {.now = -1};
    struct daa_config config;
    char line[MOST_LINE];
    long long size;
    if (words != 2) {
        fprintf(stderr, "usage: feed CONFIGURATION < BUS\n");
        return 2;
    }
    if (daa_version() != DAA_VERSION) {
        fprintf(stderr, "the archive is of version %d, and this program of version %d\n", (int)daa_version(), DAA_VERSION);
        return 1;
    }
    read_config(word[1], &config);
    while ((size = read_line(line)) >= 0)
        if (size >= MOST_LINE) fprintf(stderr, "a line of the bus is too long\n");
        else if (strlen(line) != (size_t)size || !take_line(&config, &table, line)) fprintf(stderr, "not a line of the bus: %s\n", line);
    if (ferror(stdin)) fprintf(stderr, "the bus cannot be read to its end\n");
    return ferror(stdin) ? 1 : 0;
}
