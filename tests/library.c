/* Tests of the library by C. `library` runs them and tells each in a line, and `library watched` all but one that reads what a map never wrote.
 * `library lines` and `library script` answer the script of standard input, a line or all lines a call. The map has an allocator that fails where
 * it is told to. */
#include "livemap.h"

static int failed;

#define CHECK(is) \
    if (!(is)) failed++, fprintf(stderr, "%s:%d: it isn't so that %s\n", __FILE__, __LINE__, #is)

/* ---- memory ---- */

typedef struct { unsigned char given; void *at; } Block;

/* How many blocks are given out, and before how many more requests one fails: never, where it is negative. */
static long blocks, left = -1;

static int fails(void) {
    return left >= 0 && left-- == 0;
}

Block rattle_alloc(size_t size, size_t align) {
    static _Alignas(16) unsigned char none[16];
    void *at = fails() ? NULL : malloc(size ? size : align);
    blocks += at != NULL;
    return at ? (Block){1, at} : (Block){0, none};
}

Block rattle_realloc(void *old, size_t was, size_t size, size_t align) {
    static _Alignas(16) unsigned char none[16];
    (void)was;
    void *at = fails() ? NULL : realloc(old, size ? size : align);
    return at ? (Block){1, at} : (Block){0, none};
}

void rattle_dealloc(void *at) {
    blocks--;
    free(at);
}

/* ---- a script ---- */

typedef struct { size_t size; char *bytes; } File;

static File read_all(FILE *in) {
    File file = {0, NULL};
    size_t room = 0, more = 1;
    for (; more; file.size += more) {
        if (file.size + 65536 > room) file.bytes = (char *)realloc(file.bytes, room = 2 * room + 65536);
        if (!file.bytes) exit(2);
        more = fread(file.bytes + file.size, 1, room - file.size, in);
    }
    return file;
}

/* Writes the text of the last answer. */
static void write_text(livemap *map) {
    uint8_t none = 0;
    size_t size = livemap_text(map, &none, 0);
    uint8_t *text = (uint8_t *)calloc(size + 1, 1);
    if (!text) exit(2);
    livemap_text(map, text, size);
    fwrite(text, 1, size, stdout);
    free(text);
}

static void answer_lines(livemap *map, const File *script) {
    for (size_t start = 0, end; start < script->size; start = end + 1) {
        for (end = start; end < script->size && script->bytes[end] != '\n'; end++) {}
        if (livemap_line(map, (const uint8_t *)script->bytes + start, end - start) != LIVEMAP_SILENT) write_text(map);
    }
}

static int answer(int at_once) {
    File script = read_all(stdin);
    livemap *map = livemap_new();
    if (!map) return 2;
    if (at_once) livemap_script(map, (const uint8_t *)script.bytes, script.size), write_text(map);
    else answer_lines(map, &script);
    livemap_free(map);
    free(script.bytes);
    return blocks != 0;
}

/* ---- calls ---- */

static void try_points(void) {
    livemap *map = livemap_new();
    uint64_t n = 0, ids[4] = {0}, id = 0;
    int64_t y = 0, numbers[3] = {0};
    size_t count = 9;
    livemap_found found[4];
    CHECK(livemap_points(map, "cars", LIVEMAP_RANGE | LIVEMAP_NEAR | LIVEMAP_TOP) == LIVEMAP_OK);
    CHECK(livemap_near(map, "cars", 1, 1, found) == LIVEMAP_NONE);
    CHECK(livemap_top(map, "cars", 1, 9, &id, &y) == LIVEMAP_NONE);
    CHECK(livemap_list(map, "cars", 0, 0, 9, 9, ids, 4, &count) == LIVEMAP_OK && count == 0);
    CHECK(livemap_add_point(map, "cars", 1, 100, 50, 3) == LIVEMAP_OK);
    CHECK(livemap_add_point(map, "cars", UINT64_MAX, 100, 90, 2) == LIVEMAP_OK);
    CHECK(livemap_count(map, "cars", 0, 0, 400, 70, &n) == LIVEMAP_OK && n == 1);
    CHECK(livemap_sum(map, "cars", 100, 50, 100, 90, &n) == LIVEMAP_OK && n == 5);
    CHECK(livemap_list(map, "cars", 0, 0, 400, 400, ids, 1, &count) == LIVEMAP_OK && count == 2 && ids[0] == 1 && ids[1] == 0);
    CHECK(livemap_near(map, "cars", 90, 90, found) == LIVEMAP_OK && found->id == UINT64_MAX && found->distance == 100);
    CHECK(livemap_nearest(map, "cars", 4, 100, 60, found, &count) == LIVEMAP_OK && count == 2 && found[0].id == 1 && found[1].distance == 900);
    CHECK(livemap_top(map, "cars", 0, 100, &id, &y) == LIVEMAP_OK && id == UINT64_MAX && y == 90);
    CHECK(livemap_above(map, "cars", 0, 400, 50, ids, 4, &count) == LIVEMAP_OK && count == 2 && ids[1] == UINT64_MAX);
    CHECK(livemap_get(map, "cars", 1, numbers) == LIVEMAP_OK && numbers[0] == 100 && numbers[1] == 50 && numbers[2] == 3);
    CHECK(livemap_recent(map, "cars", 1, ids, &count) == LIVEMAP_OK && count == 1 && ids[0] == UINT64_MAX);
    CHECK(livemap_move_point(map, "cars", 1, 90, 91, 4) == LIVEMAP_OK && livemap_move_point(map, "cars", 2, 1, 1, 1) == LIVEMAP_UNKNOWN);
    CHECK(livemap_recent(map, "cars", 1, ids, &count) == LIVEMAP_OK && count == 1 && ids[0] == 1);
    CHECK(livemap_near(map, "cars", 90, 90, found) == LIVEMAP_OK && found->id == 1 && found->distance == 1);
    CHECK(livemap_remove(map, "cars", 1) == LIVEMAP_OK);
    CHECK(livemap_len(map, "cars", &n) == LIVEMAP_OK && n == 1);
    livemap_free(map);
}

/* Coordinates below zero, up to the corners. */
static void try_version_2(void) {
    livemap *map = livemap_new();
    uint64_t id = 0, ids[2] = {0};
    int64_t y = 0, numbers[3] = {0};
    size_t count = 9;
    livemap_found found[1];
    CHECK(livemap_choose_version(map, 3) == LIVEMAP_BAD_RANGE && livemap_choose_version(map, 2) == LIVEMAP_OK);
    CHECK(livemap_points(map, "cars", LIVEMAP_RANGE | LIVEMAP_NEAR | LIVEMAP_TOP) == LIVEMAP_OK);
    CHECK(livemap_choose_version(map, 1) == LIVEMAP_HAS_LAYERS);
    CHECK(livemap_add_point(map, "cars", 1, INT32_MIN, INT32_MIN, 5) == LIVEMAP_OK);
    CHECK(livemap_near(map, "cars", INT32_MAX, INT32_MAX, found) == LIVEMAP_OK && found->id == 1 && found->distance == UINT64_MAX);
    CHECK(livemap_add_point(map, "cars", 2, (int64_t)INT32_MIN - 1, 0, 5) == LIVEMAP_BAD_RANGE);
    CHECK(livemap_move_point(map, "cars", 1, -3, -4, 5) == LIVEMAP_OK);
    CHECK(livemap_near(map, "cars", 0, 0, found) == LIVEMAP_OK && found->id == 1 && found->distance == 25);
    CHECK(livemap_list(map, "cars", -3, -4, -1, -1, ids, 2, &count) == LIVEMAP_OK && count == 1 && ids[0] == 1);
    CHECK(livemap_top(map, "cars", -9, 0, &id, &y) == LIVEMAP_OK && id == 1 && y == -4);
    CHECK(livemap_get(map, "cars", 1, numbers) == LIVEMAP_OK && numbers[0] == -3 && numbers[1] == -4 && numbers[2] == 5);
    livemap_free(map);
}

static void try_segments(void) {
    livemap *map = livemap_new();
    uint64_t n = 0, ids[2] = {0};
    size_t count = 9;
    int64_t numbers[3] = {0};
    CHECK(livemap_segments(map, "roads") == LIVEMAP_OK);
    CHECK(livemap_add_segment(map, "roads", 4, 100, 400, 7) == LIVEMAP_OK);
    CHECK(livemap_stab(map, "roads", 400, ids, 2, &count) == LIVEMAP_OK && count == 1 && ids[0] == 4);
    CHECK(livemap_stab_count(map, "roads", 401, &n) == LIVEMAP_OK && n == 0);
    CHECK(livemap_get(map, "roads", 4, numbers) == LIVEMAP_OK && numbers[0] == 100 && numbers[1] == 400 && numbers[2] == 7);
    livemap_free(map);
}

/* Each cause of a refusal once, but for memory and a layer that is full. */
static void try_refusals(void) {
    static const struct { int status; const char *line; } refused[] = {
        {LIVEMAP_SILENT, ""}, {LIVEMAP_SILENT, " # anything"}, {LIVEMAP_BAD_LINE, "size a\x01"}, {LIVEMAP_BAD_COMMAND, "fly a"},
        {LIVEMAP_BAD_FIELDS, "size"}, {LIVEMAP_BAD_NAME, "size a.b"}, {LIVEMAP_BAD_NUMBER, "get a -1"}, {LIVEMAP_BAD_RANGE, "recent a 65"},
        {LIVEMAP_BAD_ORDER, "top a 2 1"}, {LIVEMAP_NO_LAYER, "size b"}, {LIVEMAP_WRONG_KIND, "stab a 1"}, {LIVEMAP_NO_INDEX, "near a 1 1"},
        {LIVEMAP_TAKEN, "layer a points near"}, {LIVEMAP_DUPLICATE, "add a 1 2 2 2"}, {LIVEMAP_UNKNOWN, "drop a 2"},
        {LIVEMAP_HAS_LAYERS, "livemap 2"}, {LIVEMAP_UNKNOWN, "move a 2 2 2 2"}, {LIVEMAP_OK, "index a near"}, {LIVEMAP_BUILDING, "near a 1 1"},
    };
    livemap *map = livemap_new();
    CHECK(livemap_points(map, "a", LIVEMAP_RANGE) == LIVEMAP_OK && livemap_add_point(map, "a", 1, 1, 1, 1) == LIVEMAP_OK);
    for (size_t i = 0; i < sizeof refused / sizeof *refused; i++) CHECK(livemap_say(map, "%s", refused[i].line) == refused[i].status);
    CHECK(livemap_say(map, "size %0300d", 1) == LIVEMAP_BAD_LINE);
    for (int i = 1; i < 8; i++) CHECK(livemap_say(map, "layer l%d segments stab", i) == LIVEMAP_OK);
    CHECK(livemap_segments(map, "l8") == LIVEMAP_NO_ROOM);
    livemap_free(map);
}

/* A further index waits for all items, and is handed four with each update. */
static void try_late_index(void) {
    livemap *map = livemap_new();
    livemap_found found;
    uint64_t waits = 0;
    size_t count = 0;
    CHECK(livemap_points(map, "a", LIVEMAP_RANGE) == LIVEMAP_OK && livemap_segments(map, "s") == LIVEMAP_OK);
    for (uint32_t i = 1; i <= 10; i++) CHECK(livemap_add_point(map, "a", i, i, i, 1) == LIVEMAP_OK);
    CHECK(livemap_add_index(map, "a", LIVEMAP_NEAR) == LIVEMAP_OK && livemap_near(map, "a", 0, 0, &found) == LIVEMAP_BUILDING);
    CHECK(livemap_numbers(map, &waits, 1, &count) == LIVEMAP_OK && count == 1 && waits == 10);
    CHECK(livemap_remove(map, "a", 1) == LIVEMAP_OK && livemap_near(map, "a", 0, 0, &found) == LIVEMAP_BUILDING);
    CHECK(livemap_numbers(map, &waits, 1, &count) == LIVEMAP_OK && waits == 6);
    CHECK(livemap_add_point(map, "a", 11, 11, 11, 1) == LIVEMAP_OK && livemap_near(map, "a", 0, 0, &found) == LIVEMAP_BUILDING);
    CHECK(livemap_numbers(map, &waits, 1, &count) == LIVEMAP_OK && waits == 3);
    CHECK(livemap_add_point(map, "a", 12, 12, 12, 1) == LIVEMAP_OK);
    CHECK(livemap_near(map, "a", 0, 0, &found) == LIVEMAP_OK && found.id == 2 && found.distance == 8);
    CHECK(livemap_add_index(map, "a", LIVEMAP_NEAR) == LIVEMAP_TAKEN && livemap_add_index(map, "s", LIVEMAP_TOP) == LIVEMAP_WRONG_KIND);
    CHECK(livemap_add_index(map, "b", LIVEMAP_RANGE) == LIVEMAP_NO_LAYER);
    CHECK(livemap_add_index(map, "a", 0) == LIVEMAP_BAD_FIELDS && livemap_add_index(map, "a", LIVEMAP_RANGE | LIVEMAP_TOP) == LIVEMAP_BAD_FIELDS);
    livemap_free(map);
}

static void try_full(void) {
    livemap *map = livemap_new();
    uint64_t n = 0;
    int refused = livemap_points(map, "a", LIVEMAP_RANGE);
    for (uint32_t i = 0; i < 65536; i++) refused |= livemap_add_point(map, "a", i, i, 2 * i, 1);
    CHECK(!refused && livemap_add_point(map, "a", 65536, 1, 1, 1) == LIVEMAP_FULL);
    CHECK(livemap_count(map, "a", 0, 0, 65535, 2000, &n) == LIVEMAP_OK && n == 1001);
    uint64_t *ids = (uint64_t *)calloc(65536, sizeof *ids);
    size_t count = 0;
    CHECK(ids && livemap_list(map, "a", 0, 0, 65535, 131070, ids, 65536, &count) == LIVEMAP_OK && count == 65536 && ids[65535] == 65535);
    free(ids);
    livemap_free(map);
}

/* A text is copied as far as it fits, and told whole. */
static void try_text(void) {
    livemap *map = livemap_new();
    uint8_t out[12] = "............";
    CHECK(livemap_text(map, out, 12) == 0 && out[0] == '.');
    CHECK(livemap_line(map, (const uint8_t *)"size a", 6) == LIVEMAP_REFUSED);
    CHECK(livemap_text(map, out, 4) == 9 && !memcmp(out, "no l.......", 11));
    CHECK(livemap_text(map, out, 12) == 9 && !memcmp(out, "no layer\n...", 12));
    CHECK(livemap_script(map, out, 0) == LIVEMAP_OK && livemap_text(map, out, 12) == 0);
    livemap_free(map);
}

/* Where there is no memory for a text, there is none, and the line was executed. */
static void try_no_text(void) {
    const uint8_t *script = (const uint8_t *)"layer a segments stab\nsize a\n";
    uint64_t n = 0;
    for (int at_once = 0; at_once < 2; at_once++) {
        livemap *map = livemap_new();
        uint8_t out[1];
        left = 0;
        CHECK((at_once ? livemap_script(map, script, 29) : livemap_line(map, script, 21)) == LIVEMAP_NO_TEXT);
        left = -1;
        CHECK(livemap_text(map, out, 1) == 0);
        CHECK(livemap_len(map, "a", &n) == LIVEMAP_OK && n == 0);
        livemap_free(map);
    }
}

/* ---- memory that is refused ---- */

/* A line whose n-th request for memory fails is answered, refused or kept without its text. Said again it is answered as in a map that
 * never lacked memory. */
static void try_no_memory_at(long n) {
    livemap *map = livemap_new();
    uint64_t count = 0;
    int lacked = 0;
    for (uint32_t i = 0; i < 40; i++) {
        left = n;
        int status = i ? livemap_add_point(map, "a", i, i, i, i) : livemap_points(map, "a", LIVEMAP_RANGE | LIVEMAP_NEAR | LIVEMAP_TOP);
        left = -1;
        CHECK(status == LIVEMAP_OK || status == LIVEMAP_NO_MEMORY || status == LIVEMAP_NO_TEXT);
        if (status == LIVEMAP_NO_MEMORY) CHECK(livemap_add_point(map, "a", i, i, i, i) == LIVEMAP_OK);
        lacked += status != LIVEMAP_OK;
    }
    CHECK(n > 0 || lacked);
    CHECK(livemap_len(map, "a", &count) == LIVEMAP_OK && count == 39);
    CHECK(livemap_sum(map, "a", 0, 0, 40, 40, &count) == LIVEMAP_OK && count == 780);
    livemap_free(map);
}

static void try_no_memory(void) {
    for (long n = 0; n < 40; n++) try_no_memory_at(n);
}

/* ---- the last line of a map ---- */

/* Where a map counts its lines: the one word of the block that is their number, each time. No call can count to 2^40 in a test. */
static uint64_t *lines_in(livemap *map) {
    uint64_t *words = (uint64_t *)(void *)map, *found = NULL;
    size_t count = livemap_size() / 8;
    uint8_t *is = (uint8_t *)calloc(count, 1);
    if (!is) exit(2);
    memset(is, 1, count);
    for (uint64_t lines = 1; lines < 1000; lines++) {
        livemap_line(map, (const uint8_t *)"#", 1);
        for (size_t i = 0; i < count; i++) is[i] &= words[i] == lines;
    }
    for (size_t i = 0; i < count; i++) {
        CHECK(!(found && is[i]));
        if (is[i]) found = words + i;
    }
    free(is);
    return found;
}

static void try_worn_out(void) {
    livemap *map = livemap_new();
    uint64_t *lines = lines_in(map), n = 9;
    CHECK(lines);
    if (!lines) return;
    CHECK(livemap_segments(map, "a") == LIVEMAP_OK);
    *lines = ((uint64_t)1 << 40) - 4;
    CHECK(livemap_script(map, (const uint8_t *)"#\n#\n", 4) == LIVEMAP_WORN_OUT);
    CHECK(livemap_script(map, (const uint8_t *)"#\n", 2) == LIVEMAP_OK);
    CHECK(livemap_len(map, "a", &n) == LIVEMAP_OK && n == 0);
    CHECK(livemap_add_segment(map, "a", 1, 2, 3, 4) == LIVEMAP_OK);
    CHECK(livemap_len(map, "a", &n) == LIVEMAP_OK && n == 1);
    CHECK(livemap_remove(map, "a", 1) == LIVEMAP_WORN_OUT && livemap_script(map, (const uint8_t *)"", 0) == LIVEMAP_WORN_OUT);
    /* The last answer is there still. */
    uint8_t text[8] = {0};
    CHECK(livemap_text(map, text, 8) == 7 && !memcmp(text, "size 1\n", 7));
    livemap_free(map);
}

static void try_all(const char *name, void (*test)(void)) {
    int before = failed;
    test();
    CHECK(blocks == 0);
    printf("test c: %s ... %s\n", name, failed == before ? "ok" : "FAILED");
    fflush(stdout);
}

int main(int count, char **words) {
    int watched = count == 2 && !strcmp(words[1], "watched");
    if (count == 2 && !watched) return answer(!strcmp(words[1], "script"));
    try_all("points", try_points);
    try_all("segments", try_segments);
    try_all("version 2", try_version_2);
    try_all("refusals", try_refusals);
    try_all("late_index", try_late_index);
    try_all("full", try_full);
    try_all("text", try_text);
    try_all("no_text", try_no_text);
    try_all("no_memory", try_no_memory);
    if (!watched) try_all("worn_out", try_worn_out);
    return failed != 0;
}
