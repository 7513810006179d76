/* The handlebar guide and the line it keeps: the calls of libdoor.a.
 *
 * A guide's state lives in two arrays that the caller lends, `words` and `numbers`, of at least CITTUMAY_WORDS
 * and CITTUMAY_NUMBERS elements; what lies behind these is neither read nor written. Beside them the caller
 * lends the crumb buffer `crumbs` (three floats a crumb: east, north and along, in metres; room for 8 to 4,096
 * crumbs) and the buffer `line` of the loaded course (three floats a point, at most 2,048 points; one point is
 * enough where no course is used). The same arrays are lent to every call, and only the calls write to them.
 *
 * An array is a pointer and a count of elements. The pointer is not null, also where the count is 0, and an
 * array that a call may write to overlaps nothing else that is lent to it.
 *
 * Every call but cittumay_thin returns 0 where it was taken, else the number of the question that refused it
 * (CITTUMAY_NO_..). A refusal changes nothing: neither the arrays nor what the pointers to answers point to; only
 * where a part of a buffer is returned, by cittumay_crumbs and cittumay_course, its length becomes 0.
 *
 * A flag that comes in is a uint8_t, anything but 0 meaning yes; one that goes out is 0 or 1. Places come in as
 * latitude and longitude in 1e-7 degree, times in milliseconds. Bearings and headings are 4096ths of a turn. */
#ifndef CITTUMAY_H
#define CITTUMAY_H

#include <stddef.h>
#include <stdint.h>

#ifdef __cplusplus
extern "C" {
#endif

/* How many elements the arrays need. */
#define CITTUMAY_WORDS 45
#define CITTUMAY_NUMBERS 110
#define CITTUMAY_REBUILD_WORDS 7
#define CITTUMAY_GUIDE 10

/* The questions, by the number of a refusal. Which are put to a call is said at the call, first no wins. */
enum {
    CITTUMAY_TAKEN = 0,
    /* The crumb buffer is a multiple of 3 long, and has room for 8 to 4,096 crumbs. */
    CITTUMAY_NO_BUFFER = 1,
    /* A latitude is within 900,000,000 of 0. */
    CITTUMAY_NO_LATITUDE = 2,
    /* A longitude is within 1,800,000,000 of 0. */
    CITTUMAY_NO_LONGITUDE = 3,
    /* The line is a multiple of 3 long, has room for at most 2,048 points, and for all that are given. */
    CITTUMAY_NO_LINE = 4,
    /* An entry of the ride log uses at most 4 samples. */
    CITTUMAY_NO_COUNT = 5,
    /* The file has 1 to 682 whole records. */
    CITTUMAY_NO_FILE = 6,
    /* The file's chain stays in the file, and reaches no record twice. */
    CITTUMAY_NO_CHAIN = 7,
    /* An entry's kind is 1 to 7. */
    CITTUMAY_NO_KIND = 8,
    /* cittumay_thin: the buffer is a multiple of 3 long, with room for 3 to 4,096 crumbs, no more are given than
     * that, and the tolerance is 0 or more. */
    CITTUMAY_NO_THINNING = 9,
    /* The arrays hold a guide's state whose counts fit the buffers lent, and whose numbers are those of a ride;
     * or a rebuild's; or a guide's. */
    CITTUMAY_NO_STATE = 10
};

/* What a fix changed. */
enum {
    CITTUMAY_NOTHING = 0,
    /* Following started by itself. */
    CITTUMAY_FOLLOWING = 1,
    /* Left the line while following, or still off the breadcrumb a while later. */
    CITTUMAY_OFF_TRACK = 2,
    /* Back on the line. */
    CITTUMAY_ON_TRACK = 3,
    /* So far off the line that following stopped. */
    CITTUMAY_DROPPED = 4,
    /* At the start. */
    CITTUMAY_ARRIVED = 5,
    /* At the end of the course. */
    CITTUMAY_COURSE_END = 6
};

/* The modes of a guide: straight to the start; along the followed line; back to it; at the start. */
enum {
    CITTUMAY_MODE_DIRECT = 0,
    CITTUMAY_MODE_TRACK = 1,
    CITTUMAY_MODE_OFF_TRACK = 2,
    CITTUMAY_MODE_ARRIVED = 3
};

/* What stands where in a guide's CITTUMAY_GUIDE words. */
enum {
    CITTUMAY_GUIDE_MODE = 0,
    CITTUMAY_GUIDE_FOLLOWING = 1,
    CITTUMAY_GUIDE_COURSE = 2,
    CITTUMAY_GUIDE_COURSE_NEAR = 3,
    CITTUMAY_GUIDE_DIRECT_M = 4,
    CITTUMAY_GUIDE_TRACK_M = 5,
    CITTUMAY_GUIDE_OFF_M = 6,
    CITTUMAY_GUIDE_BEARING = 7,
    CITTUMAY_GUIDE_HEADING_KNOWN = 8,
    CITTUMAY_GUIDE_HEADING = 9
};

/* ---- the guide made anew */

/* A new guide. Asked: 1, then 10: whether `words` and `numbers` are long enough. */
uint8_t cittumay_new(uint64_t *words, size_t words_len, float *numbers, size_t numbers_len,
                     const float *crumbs, size_t crumbs_len);

/* Forgets the breadcrumb: a new ride starts where its first fix is. Asked: 10. */
uint8_t cittumay_reset(uint64_t *words, size_t words_len, float *numbers, size_t numbers_len);

/* ---- the course */

/* Loads a course, start first, as latitudes and longitudes side by side, as many points as there are of both;
 * fewer than two clear it. It is placed in `line`, at once if the ride has a fix. Asked: 10, 4, then 2 and 3 of
 * each point. */
uint8_t cittumay_set_course(uint64_t *words, size_t words_len, float *numbers, size_t numbers_len,
                            float *line, size_t line_len, const int32_t *lats, size_t lats_len,
                            const int32_t *lons, size_t lons_len);

/* ---- a fix */

/* The ride's position. `event` is what it changed. Asked: 1, 10, 4, 2, 3. */
uint8_t cittumay_observe(uint64_t *words, size_t words_len, float *numbers, size_t numbers_len,
                         float *crumbs, size_t crumbs_len, const float *line, size_t line_len, int32_t lat,
                         int32_t lon, uint64_t now_ms, uint8_t *event);

/* No position is known. Asked: 1, 10, 4. */
uint8_t cittumay_observe_missing(uint64_t *words, size_t words_len, float *numbers, size_t numbers_len,
                                 float *crumbs, size_t crumbs_len, const float *line, size_t line_len,
                                 uint64_t now_ms, uint8_t *event);

/* A fix from before a restart, `at_ms` into the replay: it grows the breadcrumb, but follows nothing. Asked: 1,
 * 10, 2, 3. */
uint8_t cittumay_replay(uint64_t *words, size_t words_len, float *numbers, size_t numbers_len, float *crumbs,
                        size_t crumbs_len, int32_t lat, int32_t lon, uint64_t at_ms);

/* Live fixes follow the replayed ones. Asked: 10. */
uint8_t cittumay_end_replay(uint64_t *words, size_t words_len, float *numbers, size_t numbers_len);

/* ---- what the rider chooses */

/* Whether riding back over the breadcrumb, or along the course, starts following it. Asked: 1, 10. */
uint8_t cittumay_set_auto_follow(uint64_t *words, size_t words_len, float *numbers, size_t numbers_len,
                                 float *crumbs, size_t crumbs_len, uint8_t on);

/* Follows the course while it is near, else the breadcrumb back; or stops following. `done` is 0 where no way
 * back was found, else 1. Asked: 1, 10, 4. */
uint8_t cittumay_set_following(uint64_t *words, size_t words_len, float *numbers, size_t numbers_len,
                               float *crumbs, size_t crumbs_len, const float *line, size_t line_len,
                               uint8_t on, uint64_t now_ms, uint8_t *done);

/* ---- what the guide answers */

/* How many crumbs are held. Asked: 10. */
uint8_t cittumay_len(const uint64_t *words, size_t words_len, const float *numbers, size_t numbers_len,
                     size_t *len);

/* Whether a line is followed, and whether it is the course. Asked: 10. */
uint8_t cittumay_following(const uint64_t *words, size_t words_len, const float *numbers, size_t numbers_len,
                           uint8_t *flag);
uint8_t cittumay_following_course(const uint64_t *words, size_t words_len, const float *numbers,
                                  size_t numbers_len, uint8_t *flag);

/* While the course is followed (`known`), what is ahead of it: its first `count` points in `line`, and then, where
 * `matched`, the point where the rider is. What is not known stays as it was. Asked: 10. */
uint8_t cittumay_course_ahead(const uint64_t *words, size_t words_len, const float *numbers,
                              size_t numbers_len, uint8_t *known, size_t *count, uint8_t *matched, float *east,
                              float *north);

/* The same of the breadcrumb: its first `count` crumbs in `crumbs`, the way home. Asked: 10. */
uint8_t cittumay_route_home(const uint64_t *words, size_t words_len, const float *numbers,
                            size_t numbers_len, uint8_t *known, size_t *count, uint8_t *matched, float *east,
                            float *north);

/* The way the rider is riding, while moving. Asked: 10. */
uint8_t cittumay_heading(const uint64_t *words, size_t words_len, const float *numbers, size_t numbers_len,
                         uint8_t *known, uint16_t *heading);

/* The guide, while the fix is fresh (`shown`). Asked: 10: also whether `guide` has CITTUMAY_GUIDE words. */
uint8_t cittumay_guide(const uint64_t *words, size_t words_len, const float *numbers, size_t numbers_len,
                       uint8_t *shown, uint32_t *guide, size_t guide_len);

/* While the fix is fresh (`known`): metres straight to the ride's start, and back over the track. Asked: 1, 10. */
uint8_t cittumay_way_back(const uint64_t *words, size_t words_len, const float *numbers, size_t numbers_len,
                          const float *crumbs, size_t crumbs_len, uint8_t *known, uint32_t *direct_m,
                          uint32_t *track_m);

/* How many crumbs are held: they are the first 3 * len numbers of `crumbs`, oldest first; 0 on a
 * refusal. Asked: 1, 10. */
uint8_t cittumay_crumbs(const uint64_t *words, size_t words_len, const float *numbers, size_t numbers_len,
                        const float *crumbs, size_t crumbs_len, size_t *len);

/* How many points the placed course has: they are the first 3 * len numbers of `line`, end first; 0 on a
 * refusal. Asked: 10, 4. */
uint8_t cittumay_course(const uint64_t *words, size_t words_len, const float *numbers, size_t numbers_len,
                        const float *line, size_t line_len, size_t *len);

/* The arrow of a guide that cittumay_guide wrote: relative to the heading, or north up without one. Asked: 10. */
uint8_t cittumay_arrow(const uint32_t *guide, size_t guide_len, uint16_t *arrow);

/* ---- the breadcrumb built again from the ride log, after a battery swap */

/* A rebuild of the ride `recovered`, over the slots below `upper`. Its own state lives in `rebuild`, of at least
 * CITTUMAY_REBUILD_WORDS elements. Asked: 10: whether that is long enough. */
uint8_t cittumay_rebuild_new(uint64_t *rebuild, size_t rebuild_len, uint32_t recovered, size_t upper);

/* Looks at up to `budget` slots of the chain file, and replays what they hold. `done` is whether live fixes take
 * over: every slot below `upper` is read, and it is decided whether the ride carries on. Asked: 1, 10, 6, 7, then
 * 8, 5, 2 and 3 of each entry. */
uint8_t cittumay_rebuild_step(uint64_t *rebuild, size_t rebuild_len, uint64_t *words, size_t words_len,
                              float *numbers, size_t numbers_len, float *crumbs, size_t crumbs_len,
                              const uint8_t *file, size_t file_len, size_t upper, size_t budget,
                              uint8_t *done);

/* Whether the next slot is not below `upper`. Asked: 10. */
uint8_t cittumay_rebuild_caught_up(const uint64_t *rebuild, size_t rebuild_len, size_t upper, uint8_t *flag);

/* A live fix, at the time `utc` in ms if that is `known`: where the log did not decide whether the ride carries
 * on, it is decided by that time, and the breadcrumb is reset if not. Asked: 10. */
uint8_t cittumay_rebuild_settle(uint64_t *rebuild, size_t rebuild_len, uint64_t *words, size_t words_len,
                                float *numbers, size_t numbers_len, uint8_t known, uint64_t utc);

/* ---- thinning alone */

/* Thins the first `len` crumbs in place, and returns how many are left: `tolerance` becomes that of the last
 * pass, and `passes` how many were made. A refusal returns 0, writes its number to `refused`, and changes
 * nothing else. Asked: 9. */
size_t cittumay_thin(float *crumbs, size_t crumbs_len, size_t len, float *tolerance, size_t *passes,
                     uint8_t *refused);

#ifdef __cplusplus
}
#endif

#endif
