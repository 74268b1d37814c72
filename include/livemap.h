/* Livemap in a program of one's own: a live map index whose answers, and whose bound on the work of an update, are machine-checked.
 *
 * A map is a block of memory that only the calls here read or write. Its last answer lies in it as text, and is there until the next
 * line or script. Two calls must not have one map at a time; between two calls a map may go to another thread, by a lock or a join.
 * No call may be made from a signal handler, nor in the forked child of a process with threads.
 *
 * The six calls up to the line below are proved, for a caller that keeps to what their comments say of memory; the functions after it
 * are C over them. Memory comes from malloc, realloc and free, or from what the program defines in place of `rattle_alloc`,
 * `rattle_realloc` and `rattle_dealloc`. What a line says and is answered is in the repository's README.md and docs/LANGUAGE.md. */
#ifndef LIVEMAP_H
#define LIVEMAP_H

#include <stdarg.h>
#include <stddef.h>
#include <stdint.h>
#include <stdio.h>
#include <stdlib.h>
#include <string.h>

#ifdef __cplusplus
extern "C" {
#endif

/* A map. */
typedef struct livemap livemap;

/* What became of a line or a script. */
enum {
    LIVEMAP_OK = 0,        /* answered, and nothing refused */
    LIVEMAP_REFUSED = 1,   /* answered, and a line was refused: the map is as it was before that line */
    LIVEMAP_SILENT = 2,    /* the line is empty or a comment, and has no answer */
    LIVEMAP_NO_TEXT = 3,   /* no memory for the text of an answer: the line was executed, and a script stopped behind it */
    LIVEMAP_WORN_OUT = 4,  /* the map had 2^40 lines: nothing was executed */

    /* The functions below the line tell why a line was refused in place of LIVEMAP_REFUSED: by the word behind `no`. */
    LIVEMAP_NONE = 5,        /* no refusal: there is no such point */
    LIVEMAP_BAD_LINE = 16,   /* line: a byte that isn't printable, or more than 256 bytes */
    LIVEMAP_BAD_COMMAND,     /* command */
    LIVEMAP_BAD_FIELDS,      /* fields */
    LIVEMAP_BAD_NAME,        /* name: of other than 1 to 16 ASCII letters, digits, `_` and `-` */
    LIVEMAP_BAD_NUMBER,      /* number */
    LIVEMAP_BAD_RANGE,       /* range: a number past its limits, which are 2^31 - 1 and in version 2 -2^31, or more than 64 asked for */
    LIVEMAP_BAD_ORDER,       /* order: a lower end past its upper end */
    LIVEMAP_NO_LAYER,        /* layer: none of this name */
    LIVEMAP_WRONG_KIND,      /* kind: points for segments, or segments for points */
    LIVEMAP_NO_INDEX,        /* index: the layer lacks the one for this question */
    LIVEMAP_TAKEN,           /* taken: there is a layer of this name, or it has this index */
    LIVEMAP_NO_ROOM,         /* room: there are eight layers */
    LIVEMAP_DUPLICATE,       /* duplicate: the identifier is live */
    LIVEMAP_UNKNOWN,         /* unknown: the identifier isn't live */
    LIVEMAP_FULL,            /* full: the layer has 65,536 items */
    LIVEMAP_NO_MEMORY,       /* memory: the map is as it was */
    LIVEMAP_HAS_LAYERS,      /* version: there is a layer already */
    LIVEMAP_BUILDING         /* building: the index for this question waits for items: livemap_numbers tells for how many */
};

/* The bytes of a map. */
size_t livemap_size(void);

/* Makes a map without layers at `at`, which has livemap_size() bytes and is aligned to 16. It takes no memory and can't fail. */
void livemap_init(livemap *at);

/* Frees what a map owns. The block that it lay in is the caller's again. */
void livemap_drop(livemap *at);

/* Executes a line without its line feed, and keeps its answer. The bytes may be any; `line` isn't null, and isn't kept. */
uint32_t livemap_line(livemap *at, const uint8_t *line, size_t size);

/* Executes the lines of a script, and keeps their answers, one after another. The bytes may be any; `script` isn't null, and isn't kept. */
uint32_t livemap_script(livemap *at, const uint8_t *script, size_t size);

/* Copies the text of the last answer to `out`, as far as it fits, and says how long it is. `out` isn't null, its `room` bytes are
 * initialised, and they lie apart from the map. */
size_t livemap_text(livemap *at, uint8_t *out, size_t room);

/* ---- What follows is C over these calls, and isn't proved. ---- */

/* The indexes of a layer of points. */
enum { LIVEMAP_RANGE = 1, LIVEMAP_NEAR = 2, LIVEMAP_TOP = 4 };

/* A point that was found, and its squared distance: 2^64 - 1 where it is more, as it may be in version 2. */
typedef struct { uint64_t id, distance; } livemap_found;

/* A new map without layers, or NULL where there is no memory. livemap_free frees it. */
static inline livemap *livemap_new(void) {
    livemap *at = (livemap *)malloc(livemap_size());
    if (at) livemap_init(at);
    return at;
}

/* Frees a map that livemap_new made, or does nothing for NULL. */
static inline void livemap_free(livemap *at) {
    if (!at) return;
    livemap_drop(at);
    free(at);
}

/* Why the last line was refused. */
static inline int livemap_why(livemap *at) {
    static const char *const words[] = {"line", "command", "fields", "name", "number", "range", "order", "layer",
                                        "kind", "index", "taken", "room", "duplicate", "unknown", "full", "memory", "version", "building"};
    uint8_t text[16] = {0};
    livemap_text(at, text, sizeof text);
    for (size_t i = 0; i < sizeof words / sizeof *words; i++) {
        size_t size = strlen(words[i]);
        if (memcmp(text + 3, words[i], size) == 0 && (text[3 + size] == ' ' || text[3 + size] == '\n')) return LIVEMAP_BAD_LINE + (int)i;
    }
    return LIVEMAP_REFUSED;
}

/* Executes a line that is written as printf writes it. */
#ifdef __GNUC__
__attribute__((format(printf, 2, 3)))
#endif
static inline int livemap_say(livemap *at, const char *form, ...) {
    char line[288];
    va_list rest;
    va_start(rest, form);
    int size = vsnprintf(line, sizeof line, form, rest);
    va_end(rest);
    if (size < 0) return LIVEMAP_BAD_LINE;
    /* One that doesn't fit is cut, and is refused all the same: it has more than 256 bytes. */
    if ((size_t)size >= sizeof line) size = (int)sizeof line - 1;
    uint32_t status = livemap_line(at, (const uint8_t *)line, (size_t)size);
    return status == LIVEMAP_REFUSED ? livemap_why(at) : (int)status;
}

/* The numbers of the last answer: those that fit, and how many there are. One below 0 is 2^64 more, and one past 2^64 - 1 is that. */
static inline int livemap_numbers(livemap *at, uint64_t *out, size_t room, size_t *count) {
    uint8_t few[512] = {0}, *text = few;
    size_t size = livemap_text(at, few, sizeof few), found = 0;
    if (size > sizeof few) {
        text = (uint8_t *)calloc(size, 1);
        if (!text) return LIVEMAP_NO_TEXT;
        livemap_text(at, text, size);
    }
    uint64_t number = 0;
    int is_negative = 0;
    for (size_t i = 1; i < size; i++) {
        int was_digit = text[i - 1] >= '0' && text[i - 1] <= '9', is_digit = text[i] >= '0' && text[i] <= '9';
        uint64_t digit = (uint64_t)(text[i] - '0');
        if (is_digit && !was_digit) number = digit, is_negative = text[i - 1] == '-';
        else if (is_digit) number = number > (UINT64_MAX - digit) / 10 ? UINT64_MAX : number * 10 + digit;
        if (was_digit && !is_digit && found++ < room) out[found - 1] = is_negative ? 0 - number : number;
    }
    if (text != few) free(text);
    *count = found;
    return LIVEMAP_OK;
}

/* The one number of the answer to a line with this status. */
static inline int livemap_number(livemap *at, int status, uint64_t *number) {
    size_t count;
    return status ? status : livemap_numbers(at, number, 1, &count);
}

/* The numbers of the answer to a line with this status. */
static inline int livemap_listed(livemap *at, int status, uint64_t *out, size_t room, size_t *count) {
    return status ? status : livemap_numbers(at, out, room, count);
}

/* The two numbers of the answer to a line with this status, or LIVEMAP_NONE. */
static inline int livemap_pair(livemap *at, int status, uint64_t pair[2]) {
    size_t count = 0;
    if (!status) status = livemap_numbers(at, pair, 2, &count);
    return !status && count < 2 ? LIVEMAP_NONE : status;
}

/* Chooses version 1 or 2 of what is said to a map without layers. In version 2 coordinates may be negative. */
static inline int livemap_choose_version(livemap *at, int version) {
    return livemap_say(at, "livemap %d", version);
}

/* Makes a layer of points with these indexes, as LIVEMAP_RANGE | LIVEMAP_NEAR. */
static inline int livemap_points(livemap *at, const char *layer, unsigned indexes) {
    return livemap_say(at, "layer %s points%s%s%s", layer, indexes & LIVEMAP_RANGE ? " range" : "", indexes & LIVEMAP_NEAR ? " near" : "",
                       indexes & LIVEMAP_TOP ? " top" : "");
}

/* Gives a layer of points in use a further index: LIVEMAP_RANGE, LIVEMAP_NEAR or LIVEMAP_TOP. It waits for all items, and each update hands it
 * the next four; until it waits for none its questions are LIVEMAP_BUILDING. LIVEMAP_OK, LIVEMAP_NO_LAYER, LIVEMAP_WRONG_KIND of segments,
 * LIVEMAP_TAKEN where the layer has it, and LIVEMAP_BAD_FIELDS of none or several. */
static inline int livemap_add_index(livemap *at, const char *layer, unsigned index) {
    return livemap_say(at, "index %s%s%s%s", layer, index & LIVEMAP_RANGE ? " range" : "", index & LIVEMAP_NEAR ? " near" : "",
                       index & LIVEMAP_TOP ? " top" : "");
}

/* Makes a layer of segments. */
static inline int livemap_segments(livemap *at, const char *layer) {
    return livemap_say(at, "layer %s segments stab", layer);
}

/* Adds a point of a weight. */
static inline int livemap_add_point(livemap *at, const char *layer, uint64_t id, int64_t x, int64_t y, uint32_t weight) {
    return livemap_say(at, "add %s %llu %lld %lld %lu", layer, (unsigned long long)id, (long long)x, (long long)y, (unsigned long)weight);
}

/* Gives a point another place and weight, in one update. It is then the last one. */
static inline int livemap_move_point(livemap *at, const char *layer, uint64_t id, int64_t x, int64_t y, uint32_t weight) {
    return livemap_say(at, "move %s %llu %lld %lld %lu", layer, (unsigned long long)id, (long long)x, (long long)y, (unsigned long)weight);
}

/* Adds the segment from (lo, y) to (hi, y). */
static inline int livemap_add_segment(livemap *at, const char *layer, uint64_t id, int64_t lo, int64_t hi, int64_t y) {
    return livemap_say(at, "seg %s %llu %lld %lld %lld", layer, (unsigned long long)id, (long long)lo, (long long)hi, (long long)y);
}

/* Takes an item out. */
static inline int livemap_remove(livemap *at, const char *layer, uint64_t id) {
    return livemap_say(at, "drop %s %llu", layer, (unsigned long long)id);
}

/* A question about the points of a rectangle, its border too. */
static inline int livemap_in_rectangle(livemap *at, const char *word, const char *layer, int64_t x1, int64_t y1, int64_t x2, int64_t y2) {
    return livemap_say(at, "%s %s %lld %lld %lld %lld", word, layer, (long long)x1, (long long)y1, (long long)x2, (long long)y2);
}

/* How many points are in a rectangle. */
static inline int livemap_count(livemap *at, const char *layer, int64_t x1, int64_t y1, int64_t x2, int64_t y2, uint64_t *count) {
    return livemap_number(at, livemap_in_rectangle(at, "count", layer, x1, y1, x2, y2), count);
}

/* What the points in a rectangle weigh together. */
static inline int livemap_sum(livemap *at, const char *layer, int64_t x1, int64_t y1, int64_t x2, int64_t y2, uint64_t *sum) {
    return livemap_number(at, livemap_in_rectangle(at, "sum", layer, x1, y1, x2, y2), sum);
}

/* The points in a rectangle, ascending: those that fit, and how many there are. */
static inline int livemap_list(livemap *at, const char *layer, int64_t x1, int64_t y1, int64_t x2, int64_t y2, uint64_t *ids, size_t room,
                               size_t *count) {
    return livemap_listed(at, livemap_in_rectangle(at, "list", layer, x1, y1, x2, y2), ids, room, count);
}

/* The point nearest to a place, or LIVEMAP_NONE. */
static inline int livemap_near(livemap *at, const char *layer, int64_t x, int64_t y, livemap_found *found) {
    uint64_t pair[2];
    int status = livemap_pair(at, livemap_say(at, "near %s %lld %lld", layer, (long long)x, (long long)y), pair);
    if (!status) found->id = pair[0], found->distance = pair[1];
    return status;
}

/* The k nearest points, the nearest first, k from 1 to 64: `found` has room for k, and `count` says how many there are. */
static inline int livemap_nearest(livemap *at, const char *layer, uint32_t k, int64_t x, int64_t y, livemap_found *found, size_t *count) {
    uint64_t numbers[128];
    size_t all = 0;
    int status = livemap_listed(at, livemap_say(at, "nearest %s %lu %lld %lld", layer, (unsigned long)k, (long long)x, (long long)y), numbers,
                                128, &all);
    if (status) return status;
    *count = all / 2;
    for (size_t i = 0; i < all / 2; i++) found[i].id = numbers[2 * i], found[i].distance = numbers[2 * i + 1];
    return LIVEMAP_OK;
}

/* The highest point of a strip and its y, or LIVEMAP_NONE. */
static inline int livemap_top(livemap *at, const char *layer, int64_t x1, int64_t x2, uint64_t *id, int64_t *y) {
    uint64_t pair[2];
    int status = livemap_pair(at, livemap_say(at, "top %s %lld %lld", layer, (long long)x1, (long long)x2), pair);
    if (!status) *id = pair[0], *y = (int64_t)pair[1];
    return status;
}

/* The points of a strip that are as high as y, ascending: those that fit, and how many there are. */
static inline int livemap_above(livemap *at, const char *layer, int64_t x1, int64_t x2, int64_t y, uint64_t *ids, size_t room, size_t *count) {
    return livemap_listed(at, livemap_say(at, "above %s %lld %lld %lld", layer, (long long)x1, (long long)x2, (long long)y), ids, room,
                          count);
}

/* The segments over x, ascending: those that fit, and how many there are. */
static inline int livemap_stab(livemap *at, const char *layer, int64_t x, uint64_t *ids, size_t room, size_t *count) {
    return livemap_listed(at, livemap_say(at, "stab %s %lld", layer, (long long)x), ids, room, count);
}

/* How many segments are over x. */
static inline int livemap_stab_count(livemap *at, const char *layer, int64_t x, uint64_t *count) {
    return livemap_number(at, livemap_say(at, "stabcount %s %lld", layer, (long long)x), count);
}

/* The numbers of an item: x, y and weight of a point, lo, hi and y of a segment. */
static inline int livemap_get(livemap *at, const char *layer, uint64_t id, int64_t numbers[3]) {
    uint64_t found[3] = {0, 0, 0};
    size_t count = 0;
    int status = livemap_listed(at, livemap_say(at, "get %s %llu", layer, (unsigned long long)id), found, 3, &count);
    for (size_t i = 0; !status && i < 3; i++) numbers[i] = (int64_t)found[i];
    return status;
}

/* How many items a layer has. */
static inline int livemap_len(livemap *at, const char *layer, uint64_t *count) {
    return livemap_number(at, livemap_say(at, "size %s", layer), count);
}

/* The last k items, the last one first, k from 1 to 64: `ids` has room for k, and `count` says how many there are. */
static inline int livemap_recent(livemap *at, const char *layer, uint32_t k, uint64_t *ids, size_t *count) {
    return livemap_listed(at, livemap_say(at, "recent %s %lu", layer, (unsigned long)k), ids, k, count);
}

#ifdef __cplusplus
}
#endif
#endif
