/*
 * JSON that is nested as deep as a stranger likes. Each call that reads JSON takes a text that is nested 32 deep, refuses a deeper one as
 * it refuses what is no JSON, and takes at most 64 KiB of stack for any.
 *
 * A call is made on a thread whose stack was filled before: what isn't as it was has been used.
 */
#define _XOPEN_SOURCE 700
#include "harness.h"

#ifdef _WIN32
/* A thread can't be given a stack there. */
void test_nesting(void) {}
#else
#include <pthread.h>

enum { STACK = 1 << 18, MOST = 1 << 16, FILL = 0x5A, DEEPEST = 32, ROOM = 4 };

static const size_t depths[] = {31, 32, 33, 127, 128, 10000};

#define NO_HASH "0000000000000000000000000000000000000000000000000000000000000000"
#define CHUNK "{\"hash\":\"" NO_HASH "\",\"size\":1}"

/* ---- Texts */

/* What opens each second level, and closes it again. */
static const struct kind {
    const char *name;
    const char *open[2];
    const char *close[2];
} kinds[] = {
    {"arrays", {"[", "["}, {"]", "]"}},
    {"objects", {"{\"a\":", "{\"a\":"}, {"}", "}"}},
    {"arrays and objects", {"[", "{\"a\":"}, {"]", "}"}},
    {"objects and arrays", {"{\"a\":", "["}, {"}", "]"}},
};

/* A text that is nested so deep, between two others of which the first opens so many levels. It is in a block of its own. */
static char *nested(const struct kind *kind, size_t depth, const char *before, size_t opened, const char *after)
{
    char *text = block(strlen(before) + 6 * depth + strlen(after) + 2), *end = text;
    const size_t inner = depth - opened;
    end = stpcpy(end, before);
    for (size_t i = 0; i < inner; i++)
        end = stpcpy(end, kind->open[i % 2]);
    end = stpcpy(end, "0");
    for (size_t i = inner; i-- > 0;)
        end = stpcpy(end, kind->close[i % 2]);
    stpcpy(end, after);
    return text;
}

/* ---- Calls */

static struct {
    const char *text;
    size_t length;
    yurewha_status status;
} call;

static void *nothing(void *none) { return none; }

static void *subtree(void *none)
{
    yurewha_subtree made = {0};
    call.status = yurewha_subtree_from_json(call.text, call.length, &made);
    yurewha_subtree_free(&made);
    return none;
}

static void *session(void *none)
{
    yurewha_session made = {0};
    call.status = yurewha_session_from_json(call.text, call.length, true, &made);
    yurewha_session_free(&made);
    return none;
}

static void *range_proof(void *none)
{
    yurewha_level levels[ROOM];
    yurewha_chunk nodes[ROOM];
    size_t counts[2];
    call.status = yurewha_range_proof_from_json(call.text, call.length, levels, ROOM, nodes, ROOM, &counts[0], &counts[1]);
    return none;
}

/* Where a nested value stands in the text of a call, and the status of a text that isn't too deep, if it doesn't depend on the value. */
static const struct {
    void *(*run)(void *);
    const char *before;
    size_t opened;
    const char *after;
    bool ignored;
    yurewha_status status;
} places[] = {
    {subtree, "", 0, "", false, 0},
    {subtree, "{\"more\":", 1, ",\"at_end\":true,\"at_start\":true,\"levels\":[[0,0]],\"nodes\":[]}", true, YUREWHA_DONE},
    {subtree, "{\"at_end\":true,\"at_start\":true,\"levels\":", 1, ",\"nodes\":[]}", false, 0},
    {subtree, "{\"at_end\":true,\"at_start\":true,\"levels\":[[0,0]],\"nodes\":", 1, "}", false, 0},
    {subtree, "{\"at_end\":true,\"at_start\":true,\"levels\":[[0,1]],\"nodes\":[{\"more\":", 3, "}]}", false, 0},
    {session, "", 0, "", false, 0},
    {session, "{\"more\":", 1, ",\"runs\":[],\"known_hashes\":[]}", true, YUREWHA_DONE},
    {session, "{\"known_hashes\":[],\"runs\":", 1, "}", false, 0},
    {session, "{\"runs\":[],\"known_hashes\":", 1, "}", false, 0},
    {session, "{\"known_hashes\":[],\"runs\":[{\"first\":0,\"end\":1,\"chunks\":", 3, "}]}", false, 0},
    {range_proof, "", 0, "", false, 0},
    {range_proof, "{\"more\":", 1, ",\"chunks\":[" CHUNK "],\"levels\":[]}", true, YUREWHA_DONE},
    {range_proof, "{\"levels\":[],\"chunks\":", 1, "}", false, 0},
    {range_proof, "{\"chunks\":[" CHUNK "],\"levels\":", 1, "}", false, 0},
    {range_proof, "{\"chunks\":[" CHUNK "],\"levels\":[{\"left\":[],\"right\":", 3, "}]}", false, 0},
};

/* ---- The stack */

static unsigned char *stack;

/* How many bytes of stack a call takes, with what its thread takes. The stack is filled again. */
static size_t taken_by(void *(*run)(void *))
{
    pthread_attr_t attributes;
    pthread_t thread;
    if (pthread_attr_init(&attributes) != 0 || pthread_attr_setstack(&attributes, stack, STACK) != 0
        || pthread_create(&thread, &attributes, run, NULL) != 0 || pthread_join(thread, NULL) != 0)
        abort();
    pthread_attr_destroy(&attributes);
    size_t untouched = 0;
    while (untouched < STACK && stack[untouched] == FILL)
        untouched++;
    memset(stack + untouched, FILL, STACK - untouched);
    return STACK - untouched;
}

void test_nesting(void)
{
    if (getenv("YUREWHA_STACKS") != NULL)
        return;
    stack = aligned_alloc(1 << 16, STACK);
    if (stack == NULL)
        abort();
    memset(stack, FILL, STACK);
    taken_by(nothing);
    const size_t by_thread = taken_by(nothing);
    for (size_t place = 0; place < LENGTH(places); place++)
        for (size_t kind = 0; kind < LENGTH(kinds); kind++)
            for (size_t i = 0; i < LENGTH(depths); i++) {
                row("%s, %zu deep, between %s and %s", kinds[kind].name, depths[i], places[place].before, places[place].after);
                char *text = nested(&kinds[kind], depths[i], places[place].before, places[place].opened, places[place].after);
                call.text = text;
                call.length = strlen(text);
                const size_t taken = taken_by(places[place].run);
                EXPECT((call.status == YUREWHA_TEXT) == (depths[i] > DEEPEST));
                EXPECT(call.status != YUREWHA_MEMORY);
                if (places[place].ignored && depths[i] <= DEEPEST)
                    EXPECT(call.status == places[place].status);
                EXPECT(taken <= by_thread + MOST);
                free(text);
            }
    free(stack);
}
#endif
