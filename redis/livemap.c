/* Livemap behind Redis 7.0: a key is a map. Each command says one line of the language, and has the answer as Redis' own replies:
 *
 *     LM.LIVEMAP key V     LM.LAYER key NAME points|segments INDEX..     LM.ADD key NAME ID X Y W     LM.SEG key NAME ID LO HI Y
 *     LM.INDEX key NAME INDEX     LM.MOVE key NAME ID X Y W     LM.DROP key NAME ID
 *     LM.COUNT, LM.SUM, LM.LIST key NAME X1 Y1 X2 Y2     LM.NEAR key NAME X Y     LM.NEAREST key NAME K X Y
 *     LM.TOP key NAME X1 X2     LM.ABOVE key NAME X1 X2 Y     LM.STAB, LM.STABCOUNT key NAME X
 *     LM.GET key NAME ID     LM.SIZE key NAME     LM.RECENT key NAME K     LM.LINE key LINE
 *
 * `ok` is OK, a refusal an error with its words, a number an integer, a list an array, and what `near` and `top` don't find is null.
 * Identifiers and distances past 2^63 - 1 are strings. LM.LINE answers with the text as it is.
 *
 * An update is replicated, and goes into the append-only file, once it is accepted; no refused one does, since a replay may have the
 * memory that it lacked. The lines that chose the version, made the layers and added what is live, a moved point where it is now, are kept
 * beside the map, in order: these are what a dump and a rewritten append-only file have. A further index is written behind the line that
 * made its layer. That they make a map with the same answers is what the map's contract says; but no index waits there, and costs may
 * differ.
 *
 * The few calls of the module API that are used are declared here, since Debian has no header of it. */
#include <stdint.h>
#include <string.h>

#include "livemap.h"

/* ---- Redis ---- */

typedef struct RedisModuleCtx Ctx;
typedef struct RedisModuleString String;
typedef struct RedisModuleKey Key;
typedef struct RedisModuleIO IO;
typedef struct RedisModuleType Type;
typedef struct RedisModuleDict Dict;
typedef struct RedisModuleDictIter DictIter;
typedef struct RedisModuleDigest Digest;
typedef int Command(Ctx *, String **, int);

typedef struct {
    uint64_t version;
    void *(*load)(IO *, int);
    void (*save)(IO *, void *);
    void (*rewrite)(IO *, String *, void *);
    size_t (*memory)(const void *);
    void (*digest)(Digest *, void *);
    void (*release)(void *);
} Methods;

enum { OK = 0, FAILED = 1, READ = 1, WRITE = 2, EMPTY = 0, LOADING = 1 << 13, REPLICATED = 1 << 12 };

#define CALLS(X)                                                                                                                                \
    X(void *, Alloc, (size_t))                                                                                                                  \
    X(void *, TryAlloc, (size_t))                                                                                                               \
    X(void, Free, (void *))                                                                                                                     \
    X(size_t, MallocSize, (void *))                                                                                                             \
    X(void, SetModuleAttribs, (Ctx *, const char *, int, int))                                                                                  \
    X(int, CreateCommand, (Ctx *, const char *, Command *, const char *, int, int, int))                                                        \
    X(Type *, CreateDataType, (Ctx *, const char *, int, Methods *))                                                                            \
    X(void, AutoMemory, (Ctx *))                                                                                                                \
    X(int, GetContextFlags, (Ctx *))                                                                                                            \
    X(void, Log, (Ctx *, const char *, const char *, ...))                                                                                      \
    X(void, LogIOError, (IO *, const char *, const char *, ...))                                                                                \
    X(Key *, OpenKey, (Ctx *, String *, int))                                                                                                   \
    X(int, KeyType, (Key *))                                                                                                                    \
    X(Type *, ModuleTypeGetType, (Key *))                                                                                                       \
    X(void *, ModuleTypeGetValue, (Key *))                                                                                                      \
    X(int, ModuleTypeSetValue, (Key *, Type *, void *))                                                                                         \
    X(const char *, StringPtrLen, (const String *, size_t *))                                                                                   \
    X(int, ReplicateVerbatim, (Ctx *))                                                                                                          \
    X(int, WrongArity, (Ctx *))                                                                                                                 \
    X(int, ReplyWithError, (Ctx *, const char *))                                                                                               \
    X(int, ReplyWithSimpleString, (Ctx *, const char *))                                                                                        \
    X(int, ReplyWithStringBuffer, (Ctx *, const char *, size_t))                                                                                \
    X(int, ReplyWithLongLong, (Ctx *, long long))                                                                                               \
    X(int, ReplyWithArray, (Ctx *, long))                                                                                                       \
    X(int, ReplyWithNull, (Ctx *))                                                                                                              \
    X(void, SaveUnsigned, (IO *, uint64_t))                                                                                                     \
    X(uint64_t, LoadUnsigned, (IO *))                                                                                                           \
    X(void, SaveStringBuffer, (IO *, const char *, size_t))                                                                                     \
    X(char *, LoadStringBuffer, (IO *, size_t *))                                                                                               \
    X(void, EmitAOF, (IO *, const char *, const char *, ...))                                                                                   \
    X(Dict *, CreateDict, (Ctx *))                                                                                                              \
    X(void, FreeDict, (Ctx *, Dict *))                                                                                                          \
    X(uint64_t, DictSize, (Dict *))                                                                                                             \
    X(int, DictSetC, (Dict *, void *, size_t, void *))                                                                                          \
    X(void *, DictGetC, (Dict *, void *, size_t, int *))                                                                                        \
    X(int, DictDelC, (Dict *, void *, size_t, void *))                                                                                          \
    X(DictIter *, DictIteratorStartC, (Dict *, const char *, void *, size_t))                                                                   \
    X(void *, DictNextC, (DictIter *, size_t *, void **))                                                                                       \
    X(void, DictIteratorStop, (DictIter *))

#define DECLARE(result, name, words) static result(*RM_##name) words;
CALLS(DECLARE)

/* ---- the memory of maps, which Redis counts ---- */

/* The bytes of the map that a call is at. Redis may free maps in a thread of its own. */
static _Thread_local size_t *counted;

/* What the library is given: whether there is memory, and where. */
typedef struct { unsigned char given; void *at; } Block;

Block rattle_alloc(size_t size, size_t align) {
    void *at = RM_TryAlloc(size ? size : align);
    static _Alignas(16) unsigned char none[16];
    if (!at) return (Block){0, none};
    *counted += RM_MallocSize(at);
    return (Block){1, at};
}

void rattle_dealloc(void *at) {
    *counted -= RM_MallocSize(at);
    RM_Free(at);
}

Block rattle_realloc(void *at, size_t old, size_t size, size_t align) {
    Block block = rattle_alloc(size, align);
    if (!block.given) return block;
    memcpy(block.at, at, old < size ? old : size);
    rattle_dealloc(at);
    return block;
}

/* ---- a map and the lines that make it ---- */

typedef struct { size_t size; char text[]; } Line;

typedef struct {
    livemap *map;
    size_t bytes; /* of the map */
    size_t kept;  /* of the lines */
    uint64_t next;
    Dict *lines;  /* by their numbers, in order: those that chose the version, made the layers and added what is live */
    Dict *adds;   /* the number of the line that made a layer, and of that which added an item, by layer and identifier */
} Value;

/* The words of a line, at most those of an add. */
enum { WORDS = 6 };
typedef struct { int count; const char *at[WORDS]; size_t size[WORDS]; } Words;

static int is_space(char byte) { return byte == ' ' || byte == '\t'; }

static Words words_of(const char *line, size_t size) {
    Words words = {0};
    if (size && line[size - 1] == '\r') size--;
    for (size_t i = 0; i < size && words.count < WORDS; i++) {
        if (is_space(line[i])) continue;
        size_t start = i;
        while (i < size && !is_space(line[i])) i++;
        words.at[words.count] = line + start;
        words.size[words.count++] = i - start;
    }
    return words;
}

static int is_word(const Words *words, int k, const char *word) {
    return k < words->count && words->size[k] == strlen(word) && !memcmp(words->at[k], word, words->size[k]);
}

static int is_update(const Words *words) {
    static const char *const updates[] = {"livemap", "layer", "index", "add", "seg", "move", "drop"};
    for (size_t i = 0; i < sizeof updates / sizeof *updates; i++) {
        if (is_word(words, 0, updates[i])) return 1;
    }
    return 0;
}

/* A number as a key of a dict, so that these are in its order. */
typedef struct { unsigned char bytes[8]; } Number;

static Number number_key(uint64_t n) {
    Number key;
    for (int i = 0; i < 8; i++) key.bytes[i] = (unsigned char)(n >> (56 - 8 * i));
    return key;
}

/* The layer of an accepted update, and behind it the identifier where there is one, as a key of a dict. */
typedef struct { char bytes[16 + 1 + 8]; size_t size; } Item;

static Item layer_key(const Words *words) {
    Item layer;
    memcpy(layer.bytes, words->at[1], words->size[1]);
    layer.bytes[words->size[1]] = 0;
    layer.size = words->size[1] + 1;
    return layer;
}

static Item item_key(const Words *words) {
    Item item = layer_key(words);
    uint64_t id = 0;
    for (size_t i = 0; i < words->size[2]; i++) id = id * 10 + (uint64_t)(words->at[2][i] - '0');
    Number number = number_key(id);
    memcpy(item.bytes + item.size, number.bytes, 8);
    item.size += 8;
    return item;
}

static void free_value(void *at) {
    Value *value = at;
    void *line;
    DictIter *all = RM_DictIteratorStartC(value->lines, "^", NULL, 0);
    while (RM_DictNextC(all, NULL, &line)) RM_Free(line);
    RM_DictIteratorStop(all);
    RM_FreeDict(NULL, value->lines);
    RM_FreeDict(NULL, value->adds);
    counted = &value->bytes;
    livemap_drop(value->map);
    RM_Free(value->map);
    RM_Free(value);
}

static size_t memory_of(const void *at) {
    const Value *value = at;
    return sizeof *value + livemap_size() + value->bytes + value->kept;
}

/* A map without layers, or NULL where there is no memory. */
static Value *new_value(void) {
    Value *value = RM_Alloc(sizeof *value);
    *value = (Value){.map = RM_Alloc(livemap_size()), .next = 1, .lines = RM_CreateDict(NULL), .adds = RM_CreateDict(NULL)};
    counted = &value->bytes;
    livemap_init(value->map);
    /* Its text keeps the room that it once had. With that of four refusals it has it for the answer to each update, so whether one was
     * accepted is always known. */
    if (livemap_script(value->map, (const uint8_t *)"?\n?\n?\n?\n", 8) == LIVEMAP_REFUSED) return value;
    free_value(value);
    return NULL;
}

/* Keeps an accepted line that chooses the version, makes a layer or adds an item, and of a move the line that would add the point. */
static void keep(Value *value, const Words *words, const char *text, size_t size) {
    size_t from = is_word(words, 0, "move") ? (size_t)(words->at[0] - text) + 4 : 0, front = from ? 3 : 0;
    Line *line = RM_Alloc(sizeof *line + front + size - from);
    line->size = front + size - from;
    memcpy(line->text, "add", front);
    memcpy(line->text + front, text + from, size - from);
    value->kept += RM_MallocSize(line);
    Number number = number_key(value->next);
    RM_DictSetC(value->lines, number.bytes, 8, line);
    if (!is_word(words, 0, "livemap")) {
        Item item = is_word(words, 0, "layer") ? layer_key(words) : item_key(words);
        RM_DictSetC(value->adds, item.bytes, item.size, (void *)(uintptr_t)value->next);
    }
    value->next++;
}

/* Keeps a further index of a layer, behind the line that made the layer. That is written anew by its words, so that it has no more than 256
 * bytes. */
static void keep_index(Value *value, const Words *words) {
    Item layer = layer_key(words);
    Number number = number_key((uint64_t)(uintptr_t)RM_DictGetC(value->adds, layer.bytes, layer.size, NULL));
    void *at = NULL;
    if (RM_DictDelC(value->lines, number.bytes, 8, &at) != OK) return;
    Line *was = at;
    Words all = words_of(was->text, was->size);
    /* The layer lacked one of three indexes, so this is at most the sixth word. */
    all.at[all.count] = words->at[2];
    all.size[all.count++] = words->size[2];
    Line *line = RM_Alloc(sizeof *line + was->size + 1 + words->size[2]);
    line->size = 0;
    for (int i = 0; i < all.count; i++) {
        if (i) line->text[line->size++] = ' ';
        memcpy(line->text + line->size, all.at[i], all.size[i]);
        line->size += all.size[i];
    }
    RM_DictSetC(value->lines, number.bytes, 8, line);
    value->kept += RM_MallocSize(line) - RM_MallocSize(was);
    RM_Free(was);
}

/* Forgets the line that added an item, since it was moved or dropped. */
static void forget(Value *value, const Words *words) {
    Item item = item_key(words);
    void *at = NULL, *line = NULL;
    RM_DictDelC(value->adds, item.bytes, item.size, &at);
    Number number = number_key((uint64_t)(uintptr_t)at);
    if (RM_DictDelC(value->lines, number.bytes, 8, &line) != OK) return;
    value->kept -= RM_MallocSize(line);
    RM_Free(line);
}

/* Executes a line. The answer is in the map. */
static uint32_t execute(Value *value, const char *text, size_t size) {
    counted = &value->bytes;
    uint32_t status = livemap_line(value->map, (const uint8_t *)text, size);
    if (status != LIVEMAP_OK) return status;
    Words words = words_of(text, size);
    if (is_word(&words, 0, "drop") || is_word(&words, 0, "move")) forget(value, &words);
    if (is_word(&words, 0, "index")) keep_index(value, &words);
    else if (is_update(&words) && !is_word(&words, 0, "drop")) keep(value, &words, text, size);
    return status;
}

/* ---- dumps and the append-only file ---- */

static void save(IO *io, void *at) {
    Value *value = at;
    void *found;
    RM_SaveUnsigned(io, RM_DictSize(value->lines));
    DictIter *all = RM_DictIteratorStartC(value->lines, "^", NULL, 0);
    while (RM_DictNextC(all, NULL, &found)) RM_SaveStringBuffer(io, ((Line *)found)->text, ((Line *)found)->size);
    RM_DictIteratorStop(all);
}

static void *load(IO *io, int version) {
    (void)version;
    Value *value = new_value();
    int is_whole = value != NULL;
    for (uint64_t left = RM_LoadUnsigned(io); is_whole && left; left--) {
        size_t size = 0;
        char *text = RM_LoadStringBuffer(io, &size);
        is_whole = text && execute(value, text, size) == LIVEMAP_OK;
        if (!is_whole) RM_LogIOError(io, "warning", "a line of a map is refused: %.*s", (int)size, text ? text : "");
        if (text) RM_Free(text);
    }
    if (is_whole) return value;
    if (value) free_value(value);
    return NULL;
}

static void rewrite(IO *io, String *key, void *at) {
    Value *value = at;
    void *found;
    DictIter *all = RM_DictIteratorStartC(value->lines, "^", NULL, 0);
    while (RM_DictNextC(all, NULL, &found)) RM_EmitAOF(io, "LM.LINE", "sb", key, ((Line *)found)->text, ((Line *)found)->size);
    RM_DictIteratorStop(all);
}

/* ---- commands ---- */

static Type *type;

/* A number, as an integer where it is one of Redis'. */
static void reply_number(Ctx *ctx, const char *text, size_t size) {
    int is_negative = text[0] == '-';
    uint64_t n = 0;
    /* A distance of version 2 may have 65 bits, and 20 digits. */
    for (size_t i = is_negative; i < size && size < 20; i++) n = n * 10 + (uint64_t)(text[i] - '0');
    if (size < 20 && n <= INT64_MAX) RM_ReplyWithLongLong(ctx, is_negative ? -(long long)n : (long long)n);
    else RM_ReplyWithStringBuffer(ctx, text, size);
}

/* The numbers of an answer, each behind a space. */
static void reply_numbers(Ctx *ctx, const char *text, size_t size) {
    long count = 0;
    for (size_t i = 0; i < size; i++) count += text[i] == ' ';
    RM_ReplyWithArray(ctx, count);
    for (size_t i = 0; i < size; i++) {
        if (text[i] != ' ') continue;
        size_t start = i + 1, end = start;
        while (end < size && text[end] != ' ') end++;
        reply_number(ctx, text + start, end - start);
    }
}

/* The answer to a line, which has no line feed any more, as Redis' own reply. */
static int reply_answer(Ctx *ctx, const char *text, size_t size) {
    Words words = words_of(text, size);
    if (is_word(&words, 0, "ok")) return RM_ReplyWithSimpleString(ctx, "OK");
    int one = is_word(&words, 0, "count") || is_word(&words, 0, "sum") || is_word(&words, 0, "stabcount") || is_word(&words, 0, "size");
    if (one) reply_number(ctx, words.at[1], words.size[1]);
    else if (!is_word(&words, 1, "none")) reply_numbers(ctx, text, size);
    else if (is_word(&words, 0, "near") || is_word(&words, 0, "top")) RM_ReplyWithNull(ctx);
    else RM_ReplyWithArray(ctx, 0);
    return OK;
}

/* Replies to the line that was executed, by its status and its text in the map. */
static int reply(Ctx *ctx, Value *value, uint32_t status, int as_text) {
    uint8_t none = 0;
    if (status == LIVEMAP_SILENT) return RM_ReplyWithNull(ctx);
    if (status == LIVEMAP_NO_TEXT) return RM_ReplyWithError(ctx, "ERR no memory");
    if (status == LIVEMAP_WORN_OUT) return RM_ReplyWithError(ctx, "ERR the map had 2^40 lines");
    /* A text has its line feed, in whose place comes the end of a C string. */
    size_t size = livemap_text(value->map, &none, 0) - 1;
    char *text = RM_Alloc(4 + size + 1);
    memset(text, 0, 4 + size + 1);
    memcpy(text, "ERR ", 4);
    livemap_text(value->map, (uint8_t *)text + 4, size);
    if (status == LIVEMAP_REFUSED) RM_ReplyWithError(ctx, text);
    else if (as_text) RM_ReplyWithStringBuffer(ctx, text + 4, size);
    else reply_answer(ctx, text + 4, size);
    RM_Free(text);
    return OK;
}

/* Executes a line on the map of a key, replicates the command where that is an accepted update, and replies. */
static int answer(Ctx *ctx, String *name, int mode, const char *line, size_t size, int as_text) {
    Key *key = RM_OpenKey(ctx, name, mode);
    int is_new = !key || RM_KeyType(key) == EMPTY;
    if (!is_new && RM_ModuleTypeGetType(key) != type) return RM_ReplyWithError(ctx, "WRONGTYPE the key holds no map");
    Value *value = is_new ? new_value() : RM_ModuleTypeGetValue(key);
    if (!value) return RM_ReplyWithError(ctx, "ERR no memory");
    uint32_t status = execute(value, line, size);
    Words words = words_of(line, size);
    int is_accepted = status == LIVEMAP_OK && is_update(&words);
    if (is_accepted) RM_ReplicateVerbatim(ctx);
    if (!is_accepted && mode & WRITE && RM_GetContextFlags(ctx) & (LOADING | REPLICATED)) {
        RM_Log(ctx, "warning", "a replicated update is refused: %.*s", (int)size, line);
    }
    reply(ctx, value, status, as_text);
    if (is_new && is_accepted) RM_ModuleTypeSetValue(key, type, value);
    else if (is_new) free_value(value);
    return OK;
}

/* Says a word of the language and the words behind the key, at most 256 bytes, which else are refused as a line of 257. */
static int say(Ctx *ctx, String **words, int count, const char *word, int mode) {
    RM_AutoMemory(ctx);
    if (count < 3) return RM_WrongArity(ctx);
    char line[257];
    size_t size = strlen(word);
    memcpy(line, word, size);
    for (int i = 2; i < count; i++) {
        size_t more, left = sizeof line - size;
        const char *text = RM_StringPtrLen(words[i], &more);
        if (more == 0 || memchr(text, ' ', more) || memchr(text, '\t', more)) return RM_ReplyWithError(ctx, "ERR no fields");
        line[size] = ' ';
        if (more + 1 >= left) {
            memset(line + size, ' ', left);
            size = sizeof line;
            break;
        }
        memcpy(line + size + 1, text, more);
        size += more + 1;
    }
    return answer(ctx, words[1], mode, line, size, 0);
}

static int line_command(Ctx *ctx, String **words, int count) {
    RM_AutoMemory(ctx);
    if (count != 3) return RM_WrongArity(ctx);
    size_t size;
    const char *line = RM_StringPtrLen(words[2], &size);
    return answer(ctx, words[1], READ | WRITE, line, size, 1);
}

#define SAYS(X)                                                                                                                                 \
    X(livemap, READ | WRITE, "write deny-oom fast") X(layer, READ | WRITE, "write deny-oom fast")                                               \
    X(index, READ | WRITE, "write deny-oom fast") X(add, READ | WRITE, "write deny-oom fast") X(seg, READ | WRITE, "write deny-oom fast")       \
    X(move, READ | WRITE, "write deny-oom fast") X(drop, READ | WRITE, "write fast")                                                            \
    X(count, READ, "readonly fast") X(sum, READ, "readonly fast") X(list, READ, "readonly") X(near, READ, "readonly fast")                      \
    X(nearest, READ, "readonly fast") X(top, READ, "readonly fast") X(above, READ, "readonly") X(stab, READ, "readonly")                        \
    X(stabcount, READ, "readonly fast") X(get, READ, "readonly fast") X(size, READ, "readonly fast") X(recent, READ, "readonly fast")

#define DEFINE(word, mode, flags) \
    static int word##_command(Ctx *ctx, String **words, int count) { return say(ctx, words, count, #word, mode); }
SAYS(DEFINE)

__attribute__((visibility("default"))) int RedisModule_OnLoad(Ctx *ctx) {
    int (*get)(const char *, void *) = *(int (**)(const char *, void *))ctx;
#define GET(result, name, words) \
    if (get("RedisModule_" #name, (void *)&RM_##name) != OK) return FAILED;
    CALLS(GET)
    RM_SetModuleAttribs(ctx, "livemap", 1, 1);
    Methods methods = {.version = 1, .load = load, .save = save, .rewrite = rewrite, .memory = memory_of, .release = free_value};
    type = RM_CreateDataType(ctx, "livemap-1", 0, &methods);
    if (!type) return FAILED;
#define CREATE(word, mode, flags) \
    if (RM_CreateCommand(ctx, "lm." #word, word##_command, flags, 1, 1, 1) != OK) return FAILED;
    SAYS(CREATE)
    return RM_CreateCommand(ctx, "lm.line", line_command, "write deny-oom", 1, 1, 1);
}
