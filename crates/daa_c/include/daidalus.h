/* The detect-and-avoid engine for C and C++: alerts, bands, resolutions, last times and recoveries of a moment, and its report.
 *
 * There is no handle and no global state. A caller keeps plain numbers in structs of its own: a configuration
 * (struct daa_config, filled in by hand or by daa_read) and a moment's board of levels (struct daa_board, filled in by
 * daa_decide). Each call answers from its arguments alone, so calls may run in parallel in threads of the caller.
 * No call starts a thread, waits, prints, or keeps a pointer after it returns. Only daa_read takes memory (malloc), and
 * frees it before it returns; it stands in an archive of its own, libdaa_toml.a, and the others in libdaa_c.a, which asks
 * for no allocator.
 *
 * Stack, as the machine code has it: daa_decide and daa_report take less than 212 KB, the others but daa_read less than 72 KB.
 * As measured, daa_read takes up to 1600 KB of stack, on 64-bit ARM 2600, where a text is made to nest as deep as TOML's
 * reader goes; of a usual configuration less than 16 KB. So read texts that others may have written in a thread with 4 MB.
 *
 * Each call but daa_line and daa_version returns DAA_OK, or another number of the list below; then it has filled in
 * nothing. Every number is checked, also those of a configuration, so no number passed in makes a call undefined; but not
 * those of struct daa_lines, which daa_line alone fills in, from zeros on. Where several numbers apply, a call answers the
 * first in the order: the configuration's, the states', DAA_BAD_KIND, DAA_BAD_SIDE, DAA_BAD_BOARD, DAA_DAMAGED_BOARD,
 * DAA_OTHER_TIME, DAA_OTHER_OWN, and then the others. daa_text tells what a number means.
 *
 * Places, velocities and times, which nothing can check: x and y are in one plane for ownship and traffic, with one origin that
 * the caller chooses near them, x to the east and y to true north. Tracks and velocities are over ground, in that plane, and
 * not headings or airspeeds. Altitudes are all of one kind. All states are of one instant (daa_fly), but for the ages of
 * aircraft. A candidate flight begins at once: a turn or a change of speed after the first second, a change of altitude within
 * it. What a crew or an autopilot waits comes on top. A level's alert time and its lookahead may differ: then a level may alert
 * that does not cover the present flight on a board, or the other way round.
 *
 * Time, measured and not proved, with one thread of a processor of 2.5 GHz: daa_decide takes 10 microseconds where some
 * aircraft are near by, and 8 to 20 milliseconds in the longest moments that a search found; daa_recovery of all kinds up to
 * 0.2 seconds, and daa_last 0.9; the others less than 0.2 milliseconds. Nothing ends a call early.
 *
 * The caller must ensure, since nothing checks it: each pointer is valid for what it points to, or for the length that
 * follows it, also of length 0, and is not null (daa_no_traffic gives one for no aircraft); what a call fills in overlaps no
 * other argument of the call, and no other thread reads or writes it at the time; and no other thread writes what a call reads
 * while the call runs. */
#ifndef DAIDALUS_H
#define DAIDALUS_H

#include <stddef.h>
#include <stdint.h>

#ifdef __cplusplus
extern "C" {
#endif

/* Who drops an answer takes what was not filled in for guidance: a compiler that can warn of it does. */
#if defined(__GNUC__) || defined(__clang__)
#define DAA_MUST_USE __attribute__((warn_unused_result))
#else
#define DAA_MUST_USE
#endif

/* The version of this header: major * 10000 + minor * 100 + patch; daa_version() tells that of the archive. */
#define DAA_VERSION 30300

/* Limits. */
#define DAA_MOST_AIRCRAFT 64     /* of a moment */
#define DAA_MOST_ID 8            /* bytes of an identifier */
#define DAA_MOST_LEVELS 4        /* of a configuration */
#define DAA_MOST_VALUES 512      /* of a kind */
#define DAA_MOST_CANDIDATES 1897 /* of a configuration */
#define DAA_MOST_TEXT 130176     /* bytes of a moment's text */

/* What calls return. 1 to 8 are the faults of a configuration; for numbers alone only 6 to 8 are returned. */
enum {
    DAA_OK = 0,
    DAA_CONFIG_TOO_LONG = 1,     /* the text has more than 65536 bytes */
    DAA_CONFIG_NOT_TOML = 2,     /* the text is no document of TOML */
    DAA_CONFIG_UNKNOWN_KEY = 3,
    DAA_CONFIG_MISSING_KEY = 4,
    DAA_CONFIG_NOT_NUMBER = 5,   /* a value is no whole number, or no table */
    DAA_CONFIG_OUT_OF_RANGE = 6, /* a number is out of its range, min is above max, track_step does not divide 360, or a level
                                    has two models */
    DAA_CONFIG_LEVELS = 7,       /* the count of levels is not 1 to 4, or resolve is above it */
    DAA_CONFIG_TOO_MANY = 8,     /* a kind has more than 512 candidates */
    DAA_BAD_OWN = 16,            /* a number of the ownship is out of its range */
    DAA_BAD_TRAFFIC = 17,        /* a number of an aircraft is out of its range */
    DAA_TOO_MANY = 18,           /* there are more than 64 aircraft */
    DAA_SHORT = 19,              /* the caller's buffer is too short */
    DAA_NO_MEMORY = 20,          /* there is no memory; only daa_read returns it */
    DAA_BAD_ID = 21,             /* an aircraft's identifier is not allowed */
    DAA_SAME_ID = 22,            /* two aircraft have one identifier */
    DAA_BAD_KIND = 23,           /* the kind is none of daa_kind */
    DAA_BAD_SIDE = 24,           /* the side is none of daa_side */
    DAA_BAD_INDEX = 25,          /* the configuration has no candidate at the index */
    DAA_NOT_ASKED = 26,          /* the configuration does not ask for it */
    DAA_BAD_BOARD = 27,          /* the board is none that daa_decide filled in under the configuration */
    DAA_OTHER_OWN = 28,          /* the board is of another ownship */
    DAA_OTHER_TIME = 29,         /* the board is of another time */
    DAA_DAMAGED_BOARD = 30,      /* the board has not the sum of its masks: it was changed, or copied while it was filled in */
    DAA_TOO_OLD = 31,            /* the report is older than the caller allows, or 61 seconds old */
    DAA_AHEAD = 32,              /* the report is of a time more than a second ahead */
    DAA_BAD_RULE = 33,           /* m is not 1 to n, or n is above 16 */
    DAA_BAD_LEVEL = 34,          /* the level is none of an alert, or the levels are none of the configuration */
    DAA_NOT_LATER = 35,          /* the time is not after that of the moment before */
    DAA_BAD_VALUE = 36,          /* no flight of the kind goes to the value */
    DAA_TOO_FAR = 37             /* the aircraft is more than 100 NM away */
};

/* What a candidate changes. DAA_HOLD is the present flight, which is of no kind. */
enum daa_kind {
    DAA_HOLD = 0,
    DAA_TRACK = 1,  /* degrees clockwise from north */
    DAA_SPEED = 2,  /* ground speed, 0.1 kt */
    DAA_CLIMB = 3,  /* vertical speed, ft/min */
    DAA_HEIGHT = 4  /* altitude, ft */
};

/* The sides of a kind. */
enum daa_side {
    DAA_LOWER = 0, /* to the left, slower, or lower; also the present value, and a turn by no degree */
    DAA_UPPER = 1  /* to the right, faster, or higher; also a turn by 180 degrees */
};

/* The values min, min + step and so on up to max that a kind's candidates go to, at most 512, and by how much a second may
 * change the present value, in the kind's unit (of altitudes in ft/min): rate is 1 to 10000. min is not above max. */
struct daa_grid {
    int64_t min, max, step, rate;
};

/* An alert level. dthr in 0.001 NM (1 to 10000), zthr in ft (0 to 10000), tthr and tcoa in seconds (0 to 120): the well-clear
 * volume. lookahead and alert in seconds (1 to 180): how far ahead candidates and the present flight are tested. The time of
 * the horizontal test is modified tau if tcpa, tau and tep are 0. With one of them 1 it is the time to the closest approach
 * (tcpa), tau itself (tau), or the time to the entry point (tep), until the distance is dthr. Each is 0 or 1, and at most one
 * is 1; else the code is DAA_CONFIG_OUT_OF_RANGE. */
struct daa_level {
    int64_t dthr, zthr, tthr, tcoa, lookahead, alert, tcpa, tau, tep;
};

/* A configuration: the numbers of a text, under the names of its keys and in their units.
 * resolve: the least level (1 to count) that closes a candidate that is covered at it.
 * turn_rate in degrees a second (1 to 30), track_step in degrees (1 to 90, a divisor of 360).
 * gs in 0.1 kt (0 to 10000, step 1 to 10000), vs in ft/min (-10000 to 10000, step 1 to 20000), alt in ft (-2000 to 60000,
 * step 1 to 62000).
 * recovery: 0 if no recovery is asked for, else hdist in 0.001 NM (1 to 10000) and vdist in ft (0 to 10000) are the
 * cylinder that a recovery stays out of. nearest: 1 if of the values that are clear again soonest the one nearest to the
 * present value is named (a track by the angle of the turn; of two as near the right or the greater one), 0 if the least is.
 * last_times: 1 if the last times to manoeuvre are asked for, else 0.
 * count: how many levels there are, 1 to 4; level[0] is level 1. Elements of level from count on are not read. */
struct daa_config {
    int64_t resolve, turn_rate, track_step;
    struct daa_grid gs, vs, alt;
    uint64_t recovery;
    int64_t hdist, vdist, nearest;
    int64_t last_times;
    uint64_t count;
    struct daa_level level[4];
};

/* The ownship: x east and y north in 0.001 NM (-200000 to 200000), alt in ft (-2000 to 60000), trk in degrees clockwise
 * from north (0 to 359), gs in 0.1 kt (0 to 10000), vs in ft/min (-10000 to 10000). */
struct daa_own {
    int32_t x, y, alt, trk, gs, vs;
};

/* An aircraft. id: its identifier, 1 to 8 bytes, each an ASCII letter or digit, '_' or '-'; it ends at the first byte 0, or
 * with the eighth. x, y, alt and vs as above, vx east and vy north in 0.1 kt (-10000 to 10000), and the age of its report
 * in seconds (0 to 60). */
struct daa_traffic {
    char id[8];
    int32_t x, y, alt, vx, vy, vs;
    uint32_t age;
};

/* A pointer to pass, with the length 0, where there are no aircraft: a pointer may not be null. */
static inline const struct daa_traffic *daa_no_traffic(void) {
    static const struct daa_traffic none = {{0}, 0, 0, 0, 0, 0, 0, 0};
    return &none;
}

/* now: the greatest level whose volume is violated now, or 0. level: the greatest level that alerts, or 0; both are at most
 * the configuration's count of levels (1 to 4). first: the first second of the present flight, counted from 0 (so 0 to 179),
 * in which it violates that level's volume, or -1 if level is 0. */
struct daa_alert_answer {
    uint32_t now, level;
    int64_t first;
};

/* Numbers of a state, as struct daa_fault_answer names them. */
enum daa_field {
    DAA_EAST = 1,           /* x */
    DAA_NORTH = 2,          /* y */
    DAA_ALTITUDE = 3,       /* alt */
    DAA_TRK = 4,            /* trk */
    DAA_GROUND_SPEED = 5,   /* gs */
    DAA_VERTICAL_SPEED = 6, /* vs */
    DAA_SPEED_EAST = 7,     /* vx */
    DAA_SPEED_NORTH = 8,    /* vy */
    DAA_AGE = 9             /* age */
};

/* What is wrong with a state. code: DAA_OK if nothing is, DAA_TOO_MANY, DAA_BAD_ID, DAA_BAD_OWN, DAA_BAD_TRAFFIC or
 * DAA_SAME_ID. place: which aircraft it is, counted from 0 (after DAA_SAME_ID the later of the two), or 0 if it is none.
 * field: which number (enum daa_field) is out of its range from least to greatest, after DAA_BAD_OWN and DAA_BAD_TRAFFIC; all
 * three are 0 after the others. */
struct daa_fault_answer {
    int32_t code, field, least, greatest;
    uint64_t place;
};

/* The levels at which each candidate is covered in a moment: bit l - 1 of mask[i] means level l of the candidate at
 * index i of the whole list; all other bits are 0. mark: the numbers of the configuration under which daa_decide made the
 * board, in the order of its struct without recovery and count, and 0 in the place of each that does not count. own, time: the
 * ownship and the time that daa_decide was given. sum: that of the candidates' masks: from 1 on, each in turn is added to
 * 16777619 times the sum so far, modulo 2^32, so that another number in the place of one mask makes another sum.
 * The calls that take a board answer DAA_BAD_BOARD where its mark is not that of the configuration that they are given, or
 * where another bit of a mask is 1, so a board of zeros is never answered; DAA_DAMAGED_BOARD where its sum is another;
 * DAA_OTHER_TIME where the caller asks for another time; and daa_resolution DAA_OTHER_OWN where the caller's ownship is
 * another. Nothing marks the aircraft. */
struct daa_board {
    uint8_t mask[2048];
    int64_t mark[55];
    struct daa_own own;
    uint32_t time, sum;
};

/* A candidate: its kind, and the value that it goes to, in the kind's unit; 0 if the kind is DAA_HOLD. */
struct daa_candidate_answer {
    int32_t kind, value;
};

/* A stretch of a kind's rising values, from one up to another, that all show the same level: 0 where none is met, else 1 to
 * the configuration's count of levels. */
struct daa_band {
    int32_t from, upto;
    uint32_t level;
};

/* The answer on a side of a kind. what: 0 if the present flight may be kept, 1 if value is the nearest open one, 2 if
 * there is none; value is 0 unless what is 1. */
struct daa_resolution_answer {
    int32_t what, value;
};

/* The recovery of a kind, or that on one side of it. found: 1, and then after (seconds, 1 to 179) is the least time from which
 * on some value violates no level from resolve up, while it stays out of the cylinder from now on, and value the least that
 * does so, or with nearest the one nearest to the present value, in the kind's unit; or 0 if there is none, and after and
 * value are 0. */
struct daa_recovery_answer {
    int32_t found;
    uint32_t after;
    int32_t value;
};

/* The last time of a kind. found: 1, and then after (seconds, 0 to 179, below the greatest lookahead of the levels from
 * resolve up) is the greatest number of seconds for which the present flight may be kept so that some candidate of the kind
 * that begins then is open; or 0 if there is none, and after is 0. Read it where the present flight is not open: then after
 * 0 stands for a manoeuvre that must begin now. Where it is open, a small number or none does not say that one is due. An
 * earlier start need not be open. */
struct daa_last_answer {
    int32_t found;
    uint32_t after;
};

/* When an alert is shown: a level counts if at least m of the last n moments with the aircraft had it or a greater one, and is
 * shown then and for hold seconds after. m is 1 to n, n at most 16, hold any number. */
struct daa_steady_rule {
    uint32_t m, n, hold;
};

/* What is kept of an aircraft from one moment to the next. All zeros: nothing. recent: the levels of its last moments, the latest
 * first. ends[l - 1]: the first second at which level l is no longer shown. gone: the first second at which the aircraft is
 * forgotten where it is absent. next: the first second that is taken. */
struct daa_steady_state {
    uint8_t recent[16];
    uint64_t ends[4];
    uint64_t gone, next;
};

/* What is kept of a kind's side from one moment to the next. All zeros: nothing. side: 0 for none, else 1 more than its number
 * (enum daa_side). until: the first second at which another side may take its place. next: the first second that is taken. */
struct daa_side_state {
    uint32_t side;
    uint64_t until, next;
};

/* State lines of formats 1 and 2, as docs/FORMATS.md has them, so far. All zeros: none, and the lines that come are in format 1.
 * format: 2 if they are in format 2, else they are in format 1. last: the time of the last ended moment, if ended is not 0.
 * opened: not 0 while a moment is open. Then time is its time in seconds, own its ownship if owned is not 0, and the first
 * count elements of traffic are its aircraft. After the line that ends a moment these stay as they were, until the next
 * begins. */
struct daa_lines {
    uint32_t format, ended, last, opened, time, owned;
    struct daa_own own;
    uint64_t count;
    struct daa_traffic traffic[64];
};

/* An aircraft on the globe, by WGS 84: latitude north and longitude east in ten-millionths of a degree (lat -800000000 to
 * 800000000, lon -1800000000 to 1800000000), and its velocity over ground, vx east and vy north, in 0.1 kt (-10000 to 10000;
 * of an ownship at most 10000 in all). */
struct daa_place {
    int32_t lat, lon, vx, vy;
};

/* An ownship in the plane round it, where it is at 0 0. trk, gs: as in struct daa_own. turn: by how much the plane's north is
 * turned to the right of true north, in 0.0001 degree (at most half a degree and a little, to either side), so that the track
 * is a whole degree. A track of the plane (in a band, a resolution, a recovery) is a true track once the turn is added. */
struct daa_course {
    int32_t trk, gs, turn;
};

/* An aircraft in that plane: x, y, vx and vy as in struct daa_traffic. */
struct daa_seen {
    int32_t x, y, vx, vy;
};

/* What daa_line returns where the line ended the moment. */
enum { DAA_MOMENT_ENDED = -1 };

/* The version of the archive: DAA_VERSION of the header that it was made with. */
int32_t daa_version(void);

/* What an answer means, as a sentence without a full stop. */
static inline const char *daa_text(int32_t answer) {
    switch (answer) {
    case DAA_MOMENT_ENDED: return "the line ended the moment";
    case DAA_OK: return "nothing is wrong";
    case DAA_CONFIG_TOO_LONG: return "the configuration has more than 65536 bytes";
    case DAA_CONFIG_NOT_TOML: return "the configuration is no document of TOML";
    case DAA_CONFIG_UNKNOWN_KEY: return "the configuration has a key that is not known";
    case DAA_CONFIG_MISSING_KEY: return "the configuration lacks a key";
    case DAA_CONFIG_NOT_NUMBER: return "a value of the configuration is no whole number, or no table";
    case DAA_CONFIG_OUT_OF_RANGE:
        return "a number of the configuration is out of its range, min is above max, track_step does not divide 360, or a "
               "level has two models";
    case DAA_CONFIG_LEVELS: return "the configuration has no level or more than four, or resolve is above their number";
    case DAA_CONFIG_TOO_MANY: return "a kind has more than 512 candidates";
    case DAA_BAD_OWN: return "the ownship is out of range";
    case DAA_BAD_TRAFFIC: return "an aircraft is out of range";
    case DAA_TOO_MANY: return "there are more than 64 aircraft";
    case DAA_SHORT: return "the buffer is too short";
    case DAA_NO_MEMORY: return "there is no memory";
    case DAA_BAD_ID: return "an identifier is not 1 to 8 letters, digits, _ and -";
    case DAA_SAME_ID: return "two aircraft have one identifier";
    case DAA_BAD_KIND: return "the kind is none of track, gs, vs and alt";
    case DAA_BAD_SIDE: return "there is no such side";
    case DAA_BAD_INDEX: return "the configuration has no candidate at the index";
    case DAA_NOT_ASKED: return "the configuration does not ask for it";
    case DAA_BAD_BOARD: return "the board was not decided under this configuration";
    case DAA_OTHER_OWN: return "the board is of another ownship";
    case DAA_OTHER_TIME: return "the board is of another time";
    case DAA_DAMAGED_BOARD: return "the board was changed, or copied while it was filled in";
    case DAA_TOO_OLD: return "the report is too old";
    case DAA_AHEAD: return "the report is of a time more than a second ahead";
    case DAA_BAD_RULE: return "m is not 1 to n, or n is above 16";
    case DAA_BAD_LEVEL: return "the level is none of an alert, or the levels are none of the configuration";
    case DAA_NOT_LATER: return "the time is not after that of the moment before";
    case DAA_BAD_VALUE: return "no flight of the kind goes to the value";
    case DAA_TOO_FAR: return "the aircraft is more than 100 nautical miles away";
    default: return "the answer is none of daidalus.h";
    }
}

/* ---- a configuration */

/* Fills in the numbers of a configuration's text of TOML, of size bytes. The numbers are then in their ranges. Elements of
 * level from count on are unchanged, and so are hdist, vdist and nearest if no recovery is asked for. last_times is 0 if the
 * text does not have it. */
DAA_MUST_USE
int32_t daa_read(const uint8_t *text, size_t size, struct daa_config *config);

/* Whether a configuration is accepted: DAA_OK; DAA_CONFIG_LEVELS if count is above 4; or else the first that applies of
 * DAA_CONFIG_OUT_OF_RANGE, DAA_CONFIG_LEVELS and DAA_CONFIG_TOO_MANY. Every call below that takes a configuration returns
 * these too. */
DAA_MUST_USE
int32_t daa_check(const struct daa_config *config);

/* The candidate at an index of the configuration's whole list: the present flight at 0, then the tracks, ground speeds,
 * vertical speeds and altitudes, each rising. Else DAA_BAD_INDEX. A list has at most 1897. */
DAA_MUST_USE
int32_t daa_candidate(const struct daa_config *config, uint32_t index, struct daa_candidate_answer *out);

/* ---- states */

/* Fills in what is wrong with an ownship and aircraft, or that nothing is; it returns DAA_OK either way. It reports
 * the first that is wrong in the order: DAA_TOO_MANY; DAA_BAD_ID of the first aircraft of which it is so; DAA_BAD_OWN; then
 * the aircraft by their places, of each DAA_BAD_TRAFFIC before DAA_SAME_ID. Of several numbers of a state it is the first in
 * the order of the struct. Every call below that takes a picture returns these codes in this order. */
DAA_MUST_USE
int32_t daa_fault(const struct daa_own *own, const struct daa_traffic *traffic, size_t count, struct daa_fault_answer *out);

/* Takes the next state line, of size bytes and without its line feed, in format 1 or 2: `format 3`, in which reports have
 * bounds, has the fault 6, since the structs of a state have no room for bounds. DAA_OK where it was taken, DAA_MOMENT_ENDED where it
 * also ended the moment; or, and then lines is unchanged, the number of its fault as `refused` lines of a report have it, 1
 * to 13 (docs/FORMATS.md). A moment that is still open at the end of the input has the fault 14. */
DAA_MUST_USE
int32_t daa_line(const uint8_t *line, size_t size, struct daa_lines *lines);

/* Fills in an aircraft as it is at the time now, from a report that was true at another time, both in milliseconds of one
 * clock: its age in whole seconds, over which the engine flies it straight on, and its numbers flown straight on over what is
 * left, less than a second, each to the nearest whole number. A report of a time ahead, by a second at most, is flown back, and
 * its age is 0. The age in the report itself is not read. DAA_TOO_OLD if the report is older than `most` milliseconds, or 61
 * seconds old; DAA_AHEAD if it is of a time more than a second ahead; before these DAA_BAD_ID and DAA_BAD_TRAFFIC. What is
 * filled in may be out of range where the aircraft flies out of it: daa_fault tells. */
DAA_MUST_USE
int32_t daa_fly(const struct daa_traffic *traffic, uint64_t at, uint64_t now, uint32_t most, struct daa_traffic *out);

/* Fills in the ownship as it is at the time now, from a report of another time: flown straight on along its track over all of
 * its age, since the engine takes an ownship as it is. The answers are those of daa_fly, with DAA_BAD_OWN. */
DAA_MUST_USE
int32_t daa_fly_own(const struct daa_own *own, uint64_t at, uint64_t now, uint32_t most, struct daa_own *out);

/* Fills in the track and the ground speed of an ownship in the plane round it, and by how much that plane is turned. An ownship
 * that stands still has track 0 and no turn. DAA_BAD_OWN if a number is out of its range. */
DAA_MUST_USE
int32_t daa_plane_own(const struct daa_place *own, struct daa_course *out);

/* Fills in an aircraft in the plane round an ownship. The plane's distances and directions from the ownship are those of the
 * ellipsoid, off by at most 0.001 NM with the rounding (tested, not proved); the aircraft's velocity is turned by how much the two
 * meridians converge. DAA_BAD_OWN, DAA_BAD_TRAFFIC if a number is out of its range, also a speed on an axis of the plane;
 * DAA_TOO_FAR if the aircraft is more than 100 NM away. All aircraft of a moment are put into the plane of one ownship's report;
 * then daa_fly and daa_fly_own fly them to one time. */
DAA_MUST_USE
int32_t daa_plane(const struct daa_place *own, const struct daa_place *aircraft, struct daa_seen *out);

/* ---- a moment */

/* Fills in the alert of one aircraft. Of the states' codes it answers the first of DAA_BAD_OWN, DAA_BAD_ID and
 * DAA_BAD_TRAFFIC. */
DAA_MUST_USE
int32_t daa_alert(const struct daa_config *config, const struct daa_own *own, const struct daa_traffic *traffic,
                  struct daa_alert_answer *out);

/* Fills in the board of a moment: at which levels each candidate flight meets some aircraft. time is the caller's number of the
 * moment, its second or a sequence: the calls that take the board ask for it again, so that no board of an earlier moment is
 * answered. */
DAA_MUST_USE
int32_t daa_decide(const struct daa_config *config, uint32_t time, const struct daa_own *own, const struct daa_traffic *traffic,
                   size_t count, struct daa_board *board);

/* Adds to a board the levels of another one of the same configuration, time and ownship: then it is the board of the aircraft
 * of both together, however many these are. So a moment may have more than 64 aircraft: decide 64 at a time, and join the
 * boards. DAA_BAD_BOARD and DAA_DAMAGED_BOARD are of either board. */
DAA_MUST_USE
int32_t daa_join(const struct daa_config *config, const struct daa_board *more, struct daa_board *board);

/* Fills in the level of each candidate on a board, 0 to the configuration's count of levels (so at most 4), in the
 * order of the whole list, and how many there are. DAA_SHORT if room is less, and only there; 1897 elements are always enough.
 * Elements from count on are unchanged. */
DAA_MUST_USE
int32_t daa_levels(const struct daa_config *config, uint32_t time, const struct daa_board *board, uint8_t *levels, size_t room,
                   size_t *count);

/* Fills in the bands of a kind on a board, in the rising order of the values, those of level 0 too, and how many there are.
 * DAA_SHORT if room is less than the values of the kind, and only there; 512 elements are always enough. Elements past the
 * bands are unchanged. */
DAA_MUST_USE
int32_t daa_bands(const struct daa_config *config, uint32_t time, const struct daa_board *board, int32_t kind,
                  struct daa_band *bands, size_t room, size_t *count);

/* Fills in the answer on a side of a kind: keep, the nearest open value, or that there is none. The ownship is that of
 * the board's moment; of the states' codes the call answers DAA_BAD_OWN alone. */
DAA_MUST_USE
int32_t daa_resolution(const struct daa_config *config, uint32_t time, const struct daa_own *own, const struct daa_board *board,
                       int32_t kind, int32_t side, struct daa_resolution_answer *out);

/* Fills in the recovery of a kind in a moment, under a configuration that asks for one; else DAA_NOT_ASKED. */
DAA_MUST_USE
int32_t daa_recovery(const struct daa_config *config, const struct daa_own *own, const struct daa_traffic *traffic,
                     size_t count, int32_t kind, struct daa_recovery_answer *out);

/* Fills in the recovery on a side of a kind: the soonest of the values on that side of the present one, which is left or down
 * itself. The sides are those of daa_resolution: a track is to the right if it is 1 to 180 degrees to the right, else to the
 * left. The answer of daa_recovery is that of one of the two sides. */
DAA_MUST_USE
int32_t daa_recovery_side(const struct daa_config *config, const struct daa_own *own, const struct daa_traffic *traffic,
                          size_t count, int32_t kind, int32_t side, struct daa_recovery_answer *out);

/* Fills in the last time of a kind in a moment, under a configuration that asks for last times; else DAA_NOT_ASKED. It answers
 * whether or not the present flight is open; a report has the last times only where it is not. */
DAA_MUST_USE
int32_t daa_last(const struct daa_config *config, const struct daa_own *own, const struct daa_traffic *traffic, size_t count,
                 int32_t kind, struct daa_last_answer *out);

/* Fills in the text of a moment as the program's report has it, and how many bytes it has; time is in seconds. DAA_SHORT if
 * room is less, and only then; 130176 bytes are always enough. Bytes past the text are unchanged: none ends it. */
DAA_MUST_USE
int32_t daa_report(const struct daa_config *config, uint32_t time, const struct daa_own *own, const struct daa_traffic *traffic,
                   size_t count, uint8_t *text, size_t room, size_t *length);

/* ---- flights to any value */

/* Fills in the set of the aircraft, bit p (1 << p) for traffic[p], that the flight to a value of a kind meets at some level from
 * least up to greatest, each 1 to the configuration's count of levels: within that level's lookahead it violates the level's
 * volume round the aircraft. From resolve up to count these are the aircraft that close it. The value may be any that the kind
 * can have, and need not be a candidate of the configuration: a track of 0 to 359 degrees, a ground speed of 0 to 10000, a
 * vertical speed of -10000 to 10000, an altitude of -2000 to 60000. DAA_HOLD with the value 0 is the present flight. After the
 * states' codes it answers DAA_BAD_VALUE, also where the kind is none, and DAA_BAD_LEVEL. */
DAA_MUST_USE
int32_t daa_closers(const struct daa_config *config, const struct daa_own *own, const struct daa_traffic *traffic, size_t count,
                    int32_t kind, int32_t value, uint32_t least, uint32_t greatest, uint64_t *places);

/* Fills in the level of the flight to a value of a kind, as above any that the kind can have: the greatest at which it meets some
 * aircraft, or 0. Of a candidate it is the level that daa_levels fills in. */
DAA_MUST_USE
int32_t daa_value_level(const struct daa_config *config, const struct daa_own *own, const struct daa_traffic *traffic, size_t count,
                        int32_t kind, int32_t value, uint32_t *level);

/* ---- from one moment to the next */

/* The level of a moment that has not the aircraft. */
enum { DAA_ABSENT = -1 };

/* Takes the alert level of an aircraft in a moment (level of struct daa_alert_answer, 0 to 4), or DAA_ABSENT if the moment has not
 * the aircraft, and fills in the level to be shown: the greatest that is shown by the rule, or 0. state is the caller's, one for
 * each aircraft, all zeros at first; call it once in each moment. time is the moment's second: times rise, and to begin anew the
 * caller sets state to zeros. An aircraft that is absent keeps its levels, which are shown as long as they would be; once more
 * than hold seconds have passed since the last moment that had it, it is forgotten, and begins anew if it comes back.
 * DAA_BAD_RULE, else DAA_BAD_LEVEL, else DAA_NOT_LATER; then state is unchanged too. */
DAA_MUST_USE
int32_t daa_steady(const struct daa_steady_rule *rule, uint32_t time, int32_t level, struct daa_steady_state *state,
                   uint32_t *shown);

/* Takes what the answers on the two sides of a kind are in a moment (lower and upper: `what` of each struct daa_resolution_answer),
 * and which side is preferred (enum daa_side), and fills in the side whose value is to be shown, or -1. A side that was taken stays
 * for so many seconds, unless its answer is 2, that there is none. After these seconds, or where no side was taken, it is the
 * preferred one if that has a value, else the other one if that has. While the present flight may be kept no side is shown, and the
 * one that was taken stays for its seconds. state and time are as above. DAA_BAD_SIDE, else DAA_NOT_LATER; then
 * state is unchanged too. */
DAA_MUST_USE
int32_t daa_steady_side(uint32_t seconds, uint32_t time, int32_t lower, int32_t upper, int32_t preferred,
                        struct daa_side_state *state, int32_t *shown);

#ifdef __cplusplus
}
#endif

#endif
