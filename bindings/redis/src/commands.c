/* The table of commands: names, flags, keys, and what COMMAND DOCS returns of them. */
#include "module.h"

#define SKETCH_OF_ANY_KIND 0

/* Arguments, as COMMAND DOCS has them. A list of them ends with END. */

/* clang-format off */
#define ARGUMENT(is, kind, ...) {.name = is, .type = REDISMODULE_ARG_TYPE_##kind, .key_spec_index = -1, __VA_ARGS__}
#define KEY(is, spec) {.name = is, .type = REDISMODULE_ARG_TYPE_KEY, .key_spec_index = spec}
#define KEYS(is, spec) {.name = is, .type = REDISMODULE_ARG_TYPE_KEY, .key_spec_index = spec, .flags = MANY}
#define NUMBER(is) ARGUMENT(is, INTEGER, .token = NULL)
#define FRACTION(is) ARGUMENT(is, DOUBLE, .token = NULL)
#define STRING(is) ARGUMENT(is, STRING, .token = NULL)
#define ITEMS ARGUMENT("item", STRING, .flags = MANY)
#define WORD(is, word) ARGUMENT(is, PURE_TOKEN, .token = word, .flags = MAYBE)
#define OPTION(is, kind, word) ARGUMENT(is, kind, .token = word, .flags = MAYBE)
#define SEED_OPTION ARGUMENT("seed", ONEOF, .flags = MAYBE, .subargs = seeds)
#define END {0}
/* clang-format on */

enum { MANY = REDISMODULE_CMD_ARG_MULTIPLE, MAYBE = REDISMODULE_CMD_ARG_OPTIONAL };

typedef RedisModuleCommandArg Argument;
static Argument just_key[] = {KEY("key", 0), END};
static Argument one_item[] = {KEY("key", 0), STRING("item"), END};
static Argument many_items[] = {KEY("key", 0), ITEMS, END};
static Argument of_lines[] = {KEY("key", 0), STRING("lines"), END};
static Argument pair[] = {STRING("item"), NUMBER("increment"), END};
static Argument pairs[] = {KEY("key", 0), ARGUMENT("item_and_increment", BLOCK, .flags = MANY, .subargs = pair), END};
static Argument after_items[] = {ITEMS, END};
static Argument seeds[] = {ARGUMENT("seed", INTEGER, .token = "SEED"), ARGUMENT("keyed", PURE_TOKEN, .token = "KEYED"), END};
static Argument of_bf_reserve[] = {KEY("key", 0),
                                   FRACTION("error_rate"),
                                   NUMBER("capacity"),
                                   OPTION("expansion", INTEGER, "EXPANSION"),
                                   WORD("nonscaling", "NONSCALING"),
                                   SEED_OPTION,
                                   END};
static Argument of_bf_insert[] = {KEY("key", 0),
                                  OPTION("capacity", INTEGER, "CAPACITY"),
                                  OPTION("error", DOUBLE, "ERROR"),
                                  OPTION("expansion", INTEGER, "EXPANSION"),
                                  WORD("nocreate", "NOCREATE"),
                                  WORD("nonscaling", "NONSCALING"),
                                  SEED_OPTION,
                                  ARGUMENT("items", BLOCK, .token = "ITEMS", .subargs = after_items),
                                  END};
static Argument of_bf_info[] = {KEY("key", 0), ARGUMENT("field", STRING, .flags = MAYBE), END};
static Argument of_scandump[] = {KEY("key", 0), NUMBER("iterator"), END};
static Argument of_loadchunk[] = {KEY("key", 0), NUMBER("iterator"), STRING("data"), END};
static Argument of_initbydim[] = {KEY("key", 0), NUMBER("width"), NUMBER("depth"), SEED_OPTION, END};
static Argument of_initbyprob[] = {KEY("key", 0), FRACTION("error"), FRACTION("probability"), SEED_OPTION, END};
static Argument of_decay[] = {KEY("key", 0), NUMBER("numerator"), NUMBER("denominator"), END};
static Argument of_cms_merge[] = {KEY("destination", 0), NUMBER("numkeys"), KEYS("source", 1),
                                  ARGUMENT("weight", INTEGER, .token = "WEIGHTS", .flags = MAYBE | MANY), END};
static Argument sizes_of_top[] = {NUMBER("width"), NUMBER("depth"), FRACTION("decay"), END};
static Argument of_topk_reserve[] = {KEY("key", 0), NUMBER("k"), ARGUMENT("sizes", BLOCK, .flags = MAYBE, .subargs = sizes_of_top),
                                     END};
static Argument of_topk_list[] = {KEY("key", 0), WORD("withcount", "WITHCOUNT"), END};
static Argument of_freq_reserve[] = {KEY("key", 0), NUMBER("size"), END};
static Argument of_rows[] = {KEY("key", 0), OPTION("threshold", INTEGER, "ABOVE"), OPTION("count", INTEGER, "COUNT"), END};
static Argument of_merge[] = {KEY("destination", 0), KEYS("source", 1), END};
static Argument of_load[] = {KEY("key", 0),
                             STRING("kind"),
                             STRING("image"),
                             OPTION("maxbytes", INTEGER, "MAXBYTES"),
                             OPTION("capacity", INTEGER, "CAPACITY"),
                             OPTION("seed", INTEGER, "SEED"),
                             WORD("replace", "REPLACE"),
                             END};
static Argument of_state[] = {KEY("key", 0), NUMBER("position"), STRING("bytes"), END};

/* What a key of a command is for. */
#define READ_KEY REDISMODULE_CMD_KEY_RO | REDISMODULE_CMD_KEY_ACCESS
#define WRITE_KEY REDISMODULE_CMD_KEY_RW | REDISMODULE_CMD_KEY_UPDATE
#define COUNT_KEY WRITE_KEY | REDISMODULE_CMD_KEY_ACCESS
#define NEW_KEY REDISMODULE_CMD_KEY_OW | REDISMODULE_CMD_KEY_INSERT

/* Each command: its function, its name, the kind of its sketch, what it does with the key, flags, the use of the key, the arity, the
 * arguments, the complexity, and a summary. */
#define COMMANDS(X) \
    X(bf_reserve, "BF.RESERVE", DS_BLOOM, CREATES, "write deny-oom", NEW_KEY, -4, of_bf_reserve, "O(capacity)", \
      "Creates a Bloom filter") \
    X(bf_add, "BF.ADD", DS_BLOOM, WRITES_ANY, "write deny-oom fast", WRITE_KEY, 3, one_item, "O(1)", \
      "Adds an item to a Bloom filter, which is created if there is none") \
    X(bf_madd, "BF.MADD", DS_BLOOM, WRITES_ANY, "write deny-oom fast", WRITE_KEY, -3, many_items, "O(items)", \
      "Adds items to a Bloom filter, which is created if there is none") \
    X(bf_addlines, "BF.ADDLINES", DS_BLOOM, WRITES_ANY, "write deny-oom fast", WRITE_KEY, 3, of_lines, "O(bytes of the lines)", \
      "Adds the lines of a string to a Bloom filter, which is created if there is none") \
    X(bf_insert, "BF.INSERT", DS_BLOOM, WRITES_ANY, "write deny-oom", WRITE_KEY, -4, of_bf_insert, "O(items)", \
      "Adds items to a Bloom filter, which is created with these sizes if there is none") \
    X(bf_exists, "BF.EXISTS", DS_BLOOM, READS_ANY, "readonly fast", READ_KEY, 3, one_item, "O(1)", \
      "Returns whether a Bloom filter contains an item") \
    X(bf_mexists, "BF.MEXISTS", DS_BLOOM, READS_ANY, "readonly fast", READ_KEY, -3, many_items, "O(items)", \
      "Returns whether a Bloom filter contains each item") \
    X(bf_card, "BF.CARD", DS_BLOOM, READS_ANY, "readonly fast", READ_KEY, 2, just_key, "O(1)", \
      "Returns the number of additions that changed a Bloom filter") \
    X(bf_info, "BF.INFO", DS_BLOOM, READS, "readonly fast", READ_KEY, -2, of_bf_info, "O(1)", \
      "Returns the sizes of a Bloom filter") \
    X(bf_scandump, "BF.SCANDUMP", DS_BLOOM, READS, "readonly", READ_KEY, 3, of_scandump, "O(bytes of the filter)", \
      "Returns the next chunk of a Bloom filter") \
    X(bf_loadchunk, "BF.LOADCHUNK", DS_BLOOM, REPLACES, "write deny-oom", NEW_KEY, 4, of_loadchunk, "O(bytes of the filter)", \
      "Loads a chunk of a Bloom filter") \
    X(bf_merge, "BF.MERGE", DS_BLOOM, WRITES_ANY, "write deny-oom", WRITE_KEY, -3, of_merge, "O(bytes of all sources)", \
      "Merges Bloom filters into one") \
    X(cms_initbydim, "CMS.INITBYDIM", DS_COUNT_MIN_U64, CREATES, "write deny-oom", NEW_KEY, -4, of_initbydim, "O(width * depth)", \
      "Creates a Count-Min sketch of these dimensions") \
    X(cms_initbyprob, "CMS.INITBYPROB", DS_COUNT_MIN_U64, CREATES, "write deny-oom", NEW_KEY, -4, of_initbyprob, \
      "O(width * depth)", "Creates a Count-Min sketch for an error and its probability") \
    X(cms_incrby, "CMS.INCRBY", DS_COUNT_MIN_U64, WRITES, "write deny-oom fast", COUNT_KEY, -4, pairs, "O(items)", \
      "Adds to the counts of items in a Count-Min sketch") \
    X(cms_addlines, "CMS.ADDLINES", DS_COUNT_MIN_U64, WRITES, "write deny-oom fast", WRITE_KEY, 3, of_lines, \
      "O(bytes of the lines)", "Adds 1 to the count of each line of a string in a Count-Min sketch") \
    X(cms_query, "CMS.QUERY", DS_COUNT_MIN_U64, READS, "readonly fast", READ_KEY, -3, many_items, "O(items)", \
      "Returns estimates of the counts of items, never below them") \
    X(cms_info, "CMS.INFO", DS_COUNT_MIN_U64, READS, "readonly fast", READ_KEY, 2, just_key, "O(1)", \
      "Returns the dimensions and the total of a Count-Min sketch") \
    X(cms_decay, "CMS.DECAY", DS_COUNT_MIN_U64, WRITES, "write", WRITE_KEY, 4, of_decay, "O(width * depth)", \
      "Multiplies each cell of a Count-Min sketch by a fraction, rounded down") \
    X(cms_halve, "CMS.HALVE", DS_COUNT_MIN_U64, WRITES, "write", WRITE_KEY, 2, just_key, "O(width * depth)", \
      "Halves each cell of a Count-Min sketch, rounded down") \
    X(cms_merge, "CMS.MERGE", DS_COUNT_MIN_U64, WRITES, "write deny-oom getkeys-api", WRITE_KEY, -4, of_cms_merge, \
      "O(sources * width * depth)", "Makes a Count-Min sketch the sum of others, each times its weight") \
    X(topk_reserve, "TOPK.RESERVE", DS_FREQUENT_ITEMS_STRING, CREATES, "write deny-oom", NEW_KEY, -3, of_topk_reserve, "O(k)", \
      "Creates a sketch of frequent items that lists the first k") \
    X(topk_add, "TOPK.ADD", DS_FREQUENT_ITEMS_STRING, WRITES, "write deny-oom fast", WRITE_KEY, -3, many_items, \
      "O(items) amortized", "Adds 1 to the weight of each item") \
    X(topk_incrby, "TOPK.INCRBY", DS_FREQUENT_ITEMS_STRING, WRITES, "write deny-oom fast", WRITE_KEY, -4, pairs, \
      "O(items) amortized, at most O(items * k)", "Adds to the weight of each item") \
    X(topk_query, "TOPK.QUERY", DS_FREQUENT_ITEMS_STRING, READS, "readonly", READ_KEY, -3, many_items, \
      "O(items), and at times O(n) for n counters", "Returns whether each item is one of the first k") \
    X(topk_count, "TOPK.COUNT", DS_FREQUENT_ITEMS_STRING, READS, "readonly fast", READ_KEY, -3, many_items, "O(items)", \
      "Returns estimates of the weights of items") \
    X(topk_list, "TOPK.LIST", DS_FREQUENT_ITEMS_STRING, READS, "readonly", READ_KEY, -2, of_topk_list, \
      "O(n + k log k) for n counters", "Returns the first k items") \
    X(topk_info, "TOPK.INFO", DS_FREQUENT_ITEMS_STRING, READS, "readonly fast", READ_KEY, 2, just_key, "O(1)", \
      "Returns k, and the other arguments of TOPK.RESERVE") \
    X(freq_reserve, "FREQ.RESERVE", DS_FREQUENT_ITEMS_STRING, CREATES, "write deny-oom", NEW_KEY, 3, of_freq_reserve, "O(1)", \
      "Creates a sketch of frequent items, whose table grows to a size") \
    X(freq_add, "FREQ.ADD", DS_FREQUENT_ITEMS_STRING, WRITES, "write deny-oom fast", WRITE_KEY, -3, many_items, \
      "O(items) amortized", "Adds 1 to the weight of each item") \
    X(freq_addlines, "FREQ.ADDLINES", DS_FREQUENT_ITEMS_STRING, WRITES, "write deny-oom fast", WRITE_KEY, 3, of_lines, \
      "O(bytes of the lines) amortized", "Adds 1 to the weight of each line of a string") \
    X(freq_incrby, "FREQ.INCRBY", DS_FREQUENT_ITEMS_STRING, WRITES, "write deny-oom fast", WRITE_KEY, -4, pairs, \
      "O(items) amortized, at most O(items * k)", "Adds to the weight of each item") \
    X(freq_bounds, "FREQ.BOUNDS", DS_FREQUENT_ITEMS_STRING, READS, "readonly fast", READ_KEY, -3, many_items, "O(items)", \
      "Returns a lower and an upper bound of the weight of each item") \
    X(freq_rows, "FREQ.ROWS", DS_FREQUENT_ITEMS_STRING, READS, "readonly", READ_KEY, -2, of_rows, \
      "O(n + m log m) for n counters and m rows", "Returns each item whose weight may exceed a threshold, with bounds") \
    X(freq_info, "FREQ.INFO", DS_FREQUENT_ITEMS_STRING, READS, "readonly fast", READ_KEY, 2, just_key, "O(1)", \
      "Returns the sizes, the total and the error of a sketch of frequent items") \
    X(freq_halve, "FREQ.HALVE", DS_FREQUENT_ITEMS_STRING, WRITES, "write", WRITE_KEY, 2, just_key, "O(n log n) for n counters", \
      "Halves each weight of a sketch of frequent items, rounded down") \
    X(freq_merge, "FREQ.MERGE", DS_FREQUENT_ITEMS_STRING, WRITES_ANY, "write deny-oom", WRITE_KEY, -3, of_merge, \
      "O(counters of all sources)", "Merges sketches of frequent items into one") \
    X(sketch_image, "SKETCH.IMAGE", SKETCH_OF_ANY_KIND, READS, "readonly", READ_KEY, 2, just_key, "O(bytes of the sketch)", \
      "Returns the image of a sketch, for other interfaces of the library") \
    X(sketch_load, "SKETCH.LOAD", SKETCH_OF_ANY_KIND, REPLACES, "write deny-oom", NEW_KEY, -4, of_load, \
      "O(bytes of the image and the sketch)", "Creates a sketch from an image") \
    X(sketch_info, "SKETCH.INFO", SKETCH_OF_ANY_KIND, READS, "readonly", READ_KEY, 2, just_key, "O(n) for n counters, else O(1)", \
      "Returns the kind and the sizes of a sketch, beside the limits") \
    X(sketch_seed, "SKETCH.SEED", SKETCH_OF_ANY_KIND, READS, "readonly admin", READ_KEY, 2, just_key, "O(1)", \
      "Returns the seed of a filter or a Count-Min sketch, a secret") \
    X(sketch_state, "SKETCH.STATE", SKETCH_OF_ANY_KIND, REPLACES, "write deny-oom admin", NEW_KEY, 4, of_state, "O(bytes)", \
      "Takes a sketch with its secrets, for replicas and files of commands")

/* The function of each command that the server calls. */
#define DEFINE(function, name, kind, access, flags, use, arity, arguments, complexity, summary) \
    static int call_##function(RedisModuleCtx *ctx, RedisModuleString **argv, int argc) \
    { \
        Call call = {ctx, argv, argc, NULL, NULL, name, false}; \
        if (open_call(&call, kind, access)) function(&call); \
        close_call(&call); \
        return REDISMODULE_OK; \
    }
COMMANDS(DEFINE)

/* Merges, or returns the keys of the command to the server. A cluster reads keys by positions alone, and not by a number of keys, so
 * the server asks for them. If the number is wrong, the keys are those up to the end, and the command itself returns the error. */
static int call_merge(RedisModuleCtx *ctx, RedisModuleString **argv, int argc)
{
    long long count;
    if (!RedisModule_IsKeysPositionRequest(ctx)) return call_cms_merge(ctx, argv, argc);
    RedisModule_KeyAtPos(ctx, 1);
    if (argc < 3 || RedisModule_StringToLongLong(argv[2], &count) != REDISMODULE_OK) return REDISMODULE_OK;
    for (int i = 3; i < argc && i - 3 < count; i++) RedisModule_KeyAtPos(ctx, i);
    return REDISMODULE_OK;
}

/* A row of the table. */
typedef struct Command {
    RedisModuleCmdFunc call;
    const char *name, *flags;
    uint64_t use;
    int arity;
    Argument *arguments;
    const char *complexity, *summary;
} Command;

#define ROW(function, name, kind, access, flags, use, arity, arguments, complexity, summary) \
    {call_##function, name, flags, use, arity, arguments, complexity, summary},
static const Command commands[] = {COMMANDS(ROW)};

/* Returns the version of the module that a command came with. */
static const char *since(const Command *row)
{
    RedisModuleCmdFunc later[] = {call_bf_merge, call_freq_halve, call_sketch_info};
    bool is_later = row->arguments == of_lines;
    for (size_t i = 0; i < sizeof later / sizeof *later; i++) is_later = is_later || row->call == later[i];
    return is_later ? "0.4.0" : "0.3.0";
}

/* Creates a command. */
static bool create_command(RedisModuleCtx *ctx, const Command *row)
{
    RedisModuleCommandKeySpec keys[3] = {{.flags = row->use,
                                          .begin_search_type = REDISMODULE_KSPEC_BS_INDEX,
                                          .bs.index.pos = 1,
                                          .find_keys_type = REDISMODULE_KSPEC_FK_RANGE,
                                          .fk.range = {0, 1, 0}}};
    RedisModuleCommandInfo info = {.version = REDISMODULE_COMMAND_INFO_VERSION,
                                   .summary = row->summary,
                                   .complexity = row->complexity,
                                   .since = since(row),
                                   .arity = row->arity,
                                   .key_specs = keys,
                                   .args = row->arguments};
    RedisModuleCommand *command;
    if (row->arguments == of_cms_merge || row->arguments == of_merge) {
        keys[1] =
            (RedisModuleCommandKeySpec){.flags = READ_KEY, .begin_search_type = REDISMODULE_KSPEC_BS_INDEX, .bs.index.pos = 2};
        if (row->arguments == of_cms_merge) {
            keys[1].find_keys_type = REDISMODULE_KSPEC_FK_KEYNUM;
            keys[1].fk.keynum.firstkey = 1;
            keys[1].fk.keynum.keystep = 1;
        } else {
            keys[1].find_keys_type = REDISMODULE_KSPEC_FK_RANGE;
            keys[1].fk.range.lastkey = -1;
            keys[1].fk.range.keystep = 1;
        }
    }
    if (RedisModule_CreateCommand(ctx, row->name, row->call != call_cms_merge ? row->call : call_merge, row->flags, 1, 1, 1) !=
        REDISMODULE_OK)
        return false;
    command = RedisModule_GetCommand(ctx, row->name);
    return command != NULL && RedisModule_SetCommandInfo(command, &info) == REDISMODULE_OK;
}

bool create_commands(RedisModuleCtx *ctx)
{
    for (size_t i = 0; i < sizeof commands / sizeof *commands; i++)
        if (!create_command(ctx, &commands[i])) return false;
    return true;
}
