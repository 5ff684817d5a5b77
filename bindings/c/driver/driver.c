/* Makes the calls of the lines in some files, and compares each answer with the one that the line has:
 *
 *     driver FILE.. [--plain FILE..]
 *
 * A line is the name of a call without `yurewha_`, a word for each argument that the call reads, `->`, and the answer: what the call
 * returns, such as DONE or RULE+5, and after DONE a word for each array or value that it writes. words.c says what a word means.
 *
 * A handle or a hasher is a name, and an array of handles is their names with a comma between two. A room has no word: it is as long as the
 * call says that it has to be. An array whose length has to fit is a number. `NAME=` before a word of an answer keeps what was written;
 * @NAME is then an argument or an answer, and @NAME/A-B a part of it. Arguments with a semicolon between two are joined.
 *
 * `#` begins a comment. A line that begins with `=` begins a test, which has the name behind it, and finds no object of the tests before.
 * A line that begins with a number N is made N times: in time i, {A+B} stands for A + B * i.
 *
 * In files before --plain, these are tried of each line, too, and have to change nothing; of one that is made N times, only the last time:
 *
 *   - each handle that the call reads is an empty one: then the call returns EMPTY_HANDLE. One that it makes may be empty, or own something
 *   - each room has each length from 0 to one more than is needed
 *   - each request for memory is refused, alone and with all requests after it: then the call returns MEMORY
 *
 * After any status but DONE nothing is written, all that can be told of each handle is as before, and the library holds as many blocks; but
 * with ELSEWHERE and TOO_FAR values are written, and are words of the answer, and part_check changes its part. At the end of a test all
 * handles are freed, and it holds none of their blocks. A call that can't be out of memory asks for none, or does without: then its
 * requests aren't refused here. */
#include "driver.h"

#include <ctype.h>
#include <inttypes.h>

#ifdef __cplusplus
#include <type_traits>
static_assert(std::is_trivially_copyable<yurewha_hasher>::value && sizeof(yurewha_hasher) == 2048, "the hasher");
static_assert(std::is_standard_layout<yurewha_chunk>::value && sizeof(yurewha_chunk) == 40, "a chunk");
static_assert(std::is_same<yurewha_status, uint32_t>::value, "a status");
#endif

enum { MOST_WORDS = 16, MOST_CALLS = 256, FILLED = 0xa5, TOLD = 20 };

/* How long a room is of which each length is tried. Of a longer one, some are. */
enum { ALL_ROOMS = 130 };
/* How many requests are refused one by one, and then some: fewer, if the library holds so many blocks that each time takes long. */
enum { ALL_REQUESTS = 300, MANY_BLOCKS = 300, FEW_REQUESTS = 8 };

/* The line that is run. */
static struct {
    const char *file;
    unsigned long number;
    char test[120];
    const struct call *call;
    char *words[MOST_WORDS]; /* of the arguments */
    size_t word_count;
    char *answers[MOST_WORDS];
    size_t answer_count;
    yurewha_status wanted;
    bool is_tried; /* whether all is tried of it that changes nothing */
    struct argument arguments[MOST_ARGUMENTS];
    struct object *objects[MOST_ARGUMENTS];
    struct object *listed[MOST_OBJECTS]; /* the handles of an array */
    uint64_t returned;
    yurewha_status status;
    unsigned long requests;
} line;

static struct {
    bool plain; /* whether only the calls of lines are made from now on */
    unsigned long lines, checks, failures, refused, empty, rooms;
    unsigned long done_of[MOST_CALLS], refused_of[MOST_CALLS], empty_of[MOST_CALLS], changed_of[MOST_CALLS];
} total;

void stop(const char *why, const char *what)
{
    printf("%s:%lu: %s%s\n", line.file, line.number, why, what);
    exit(total.failures != 0 ? 1 : 2);
}

void fail(const char *why, const char *what)
{
    total.failures++;
    stop(why, what);
}

static void expect(bool holds, const char *what)
{
    total.checks++;
    if (!holds && total.failures++ < TOLD)
        printf("%s:%lu: [%s] %s: %s; the status is %" PRIu32 "\n", line.file, line.number, line.test,
               line.call != NULL ? line.call->name : "-", what, line.status);
}

static long live_at_begin;

/* Ends the test before: all its handles are freed. */
static void begin_test(const char *name)
{
    drop_objects();
    expect(live_blocks() == live_at_begin, "all handles are freed, and the library holds more blocks than before the test");
    live_at_begin = live_blocks();
    snprintf(line.test, sizeof line.test, "%s", name);
}

/* ---- The arguments of a line */

static bool is_object(enum role role)
{
    return role == READ || role == CHANGED || role == MADE || role == FREED || role == EMPTIED;
}
static bool is_room(enum role role) { return role == ROOM || role == EXACT || role == FRONT; }
/* Whether the length of an array is tried. */
static bool is_tight(enum role role) { return role == ROOM || role == EXACT; }
static bool is_written(enum role role) { return is_room(role) || role == OUT || role == NEEDED; }
static enum role role_of(size_t i) { return line.call->arguments[i].role; }
static enum type type_of(size_t i) { return line.call->arguments[i].type; }
static bool is_list_of_handles(size_t i) { return role_of(i) == LIST && type_of(i) >= SUBTREE; }

static void set_room(size_t i, size_t count)
{
    free(line.arguments[i].data);
    line.arguments[i].count = count;
    line.arguments[i].data = block(count * sizes[type_of(i)]);
}

static struct argument handles_of(enum type type, const char *names)
{
    struct argument made = {0, NULL, 0};
    for (const char *it = names, *comma; it != NULL && *it != '-'; it = comma != NULL ? comma + 1 : NULL) {
        if (made.count == MOST_OBJECTS)
            stop("too many handles: ", names);
        comma = strchr(it, ',');
        line.listed[made.count++] = object_of(type, it, strcspn(it, ","));
    }
    made.data = block(made.count * sizeof(struct handle));
    return made;
}

static void take_argument(size_t i, char *word)
{
    struct argument *it = &line.arguments[i];
    if (is_object(role_of(i))) {
        line.objects[i] = object_of(type_of(i), word, strlen(word));
        it->data = address(line.objects[i]);
    } else if (is_list_of_handles(i)) {
        *it = handles_of(type_of(i), word);
    } else if (role_of(i) == EXACT || role_of(i) == FRONT) {
        const struct argument count = read_word(NUMBER, word);
        free(count.data);
        set_room(i, (size_t)count.number);
    } else {
        *it = joined(type_of(i), word);
    }
}

static void take_arguments(void)
{
    size_t word = 0;
    memset(line.arguments, 0, sizeof line.arguments);
    memset(line.objects, 0, sizeof line.objects);
    for (size_t i = 0; i < line.call->count; i++) {
        if (role_of(i) == OUT || role_of(i) == NEEDED)
            set_room(i, 1);
        else if (role_of(i) != ROOM && word == line.word_count)
            stop("too few arguments of ", line.call->name);
        else if (role_of(i) != ROOM)
            take_argument(i, line.words[word++]);
    }
    if (word != line.word_count)
        stop("too many arguments of ", line.call->name);
}

static void drop_arguments(void)
{
    for (size_t i = 0; i < line.call->count; i++)
        if (!is_object(role_of(i)))
            free(line.arguments[i].data);
}

/* ---- A call */

static bool is_filled(size_t i, size_t from)
{
    const unsigned char *bytes = (const unsigned char *)line.arguments[i].data;
    for (size_t j = from * sizes[type_of(i)]; j < line.arguments[i].count * sizes[type_of(i)]; j++)
        if (bytes[j] != FILLED)
            return false;
    return true;
}

static void fill(void)
{
    for (size_t i = 0; i < line.call->count; i++) {
        struct argument *it = &line.arguments[i];
        if (is_written(role_of(i)) && it->count != 0)
            memset(it->data, FILLED, it->count * sizes[type_of(i)]);
        for (size_t j = 0; is_list_of_handles(i) && j < it->count; j++)
            ((struct handle *)it->data)[j] = line.listed[j]->handle;
    }
}

/* Whether values are written after a status that isn't DONE. */
static bool writes_values(void) { return line.status == YUREWHA_ELSEWHERE || line.status == YUREWHA_TOO_FAR; }

/* Makes the call, where a request is refused, or all from it on, or none if the number is 0. */
static void make(unsigned long number, bool all_from_there)
{
    fill();
    refuse(number, all_from_there);
    line.returned = line.call->make(line.arguments);
    line.requests = requests();
    line.status = line.call->answer == STATUS ? (yurewha_status)line.returned : YUREWHA_DONE;
    expect(line.call->memory != ASKS_NONE || line.requests == 0, "it asks for memory, and can't be out of memory");
    for (size_t i = 0; i < line.call->count; i++) {
        struct argument *it = &line.arguments[i];
        for (size_t j = 0; is_list_of_handles(i) && j < it->count; j++)
            line.listed[j]->handle = ((struct handle *)it->data)[j];
        if (is_written(role_of(i)) && line.status != YUREWHA_DONE)
            expect((line.status == YUREWHA_ROOM && role_of(i) == NEEDED) || (writes_values() && role_of(i) == OUT) ? !is_filled(i, 0)
                                                                                                                 : is_filled(i, 0),
                   "it writes, and isn't done");
    }
}

/* All that can be told of the objects of the call; or of those alone that it only reads. */
static yurewha_hash told(bool of_all)
{
    yurewha_hasher message;
    yurewha_hash hash;
    refuse(0, false);
    yurewha_hasher_begin_data(&message);
    for (size_t i = 0; i < line.call->count; i++) {
        if (role_of(i) == READ || (of_all && is_object(role_of(i))))
            tell(&message, type_of(i), line.arguments[i].data);
        for (size_t j = 0; is_list_of_handles(i) && j < line.arguments[i].count; j++)
            tell(&message, type_of(i), &line.listed[j]->handle);
    }
    yurewha_hasher_finalize(&message, &hash);
    return hash;
}

static bool is_told(const yurewha_hash *before, bool of_all)
{
    const yurewha_hash now = told(of_all);
    return memcmp(before, &now, sizeof now) == 0;
}

/* ---- What is tried of a line, and changes nothing */

/* Goes on to the next length of a room: to all up to one more than is needed, or to some of them, if these are many. */
static bool next_length(size_t *length, size_t needed)
{
    if (needed <= ALL_ROOMS || *length == 0 || *length == needed)
        ++*length;
    else
        *length = *length < needed / 2 ? needed / 2 : *length < needed - 1 ? needed - 1 : *length + 1;
    return *length <= needed + 1;
}

/* How long the call says that a room has to be. What it says of rooms stands in their order. */
static size_t needed_of(size_t room)
{
    size_t before = 0, i = 0;
    for (size_t j = 0; j < room; j++)
        before += role_of(j) == ROOM;
    while (role_of(i) != NEEDED || before-- > 0)
        i++;
    return *(size_t *)line.arguments[i].data;
}

/* Makes the rooms as long as they have to be. */
static void find_rooms(void)
{
    size_t lengths[MOST_ARGUMENTS] = {0};
    make(0, false);
    for (size_t i = 0; line.status == YUREWHA_ROOM && i < line.call->count; i++)
        lengths[i] = role_of(i) == ROOM ? needed_of(i) : 0;
    for (size_t i = 0; i < line.call->count; i++)
        if (role_of(i) == ROOM)
            set_room(i, lengths[i]);
}

/* Whether the call says of each room how long it has to be, and writes nothing behind that. */
static bool are_rooms_told(const size_t *needed)
{
    bool are = true;
    for (size_t i = 0; i < line.call->count; i++)
        are = are && (role_of(i) != ROOM || needed_of(i) == needed[i])
            && (!is_room(role_of(i)) || line.status != YUREWHA_DONE || is_filled(i, needed[i]));
    return are;
}

/* Makes the call with a room of any length. The others have as many elements as they need, or one more or less. */
static void try_room(size_t i, size_t length, int spare, const size_t *needed)
{
    bool is_short = length < needed[i];
    for (size_t j = 0; j < line.call->count; j++)
        if (j != i && is_room(role_of(j)) && needed[j] != 0) {
            set_room(j, needed[j] + (size_t)spare);
            is_short = is_short || spare < 0;
        }
    set_room(i, length);
    make(0, false);
    total.rooms++;
    if (role_of(i) == EXACT)
        expect(line.status == YUREWHA_ARGUMENTS, "the count doesn't fit, and that isn't told");
    else
        expect(line.status == (is_short ? YUREWHA_ROOM : YUREWHA_DONE) && are_rooms_told(needed), "a room has another length");
}

static void try_rooms(void)
{
    size_t needed[MOST_ARGUMENTS], rooms = 0;
    for (size_t i = 0; i < line.call->count; i++) {
        needed[i] = line.arguments[i].count;
        rooms += is_room(role_of(i));
    }
    for (size_t i = 0; i < line.call->count; i++)
        for (int spare = rooms > 1 ? -1 : 0; is_tight(role_of(i)) && spare <= (rooms > 1); spare++) {
            size_t length = 0;
            do
                if (length != needed[i] || role_of(i) == ROOM)
                    try_room(i, length, spare, needed);
            while (next_length(&length, needed[i]));
        }
    for (size_t i = 0; i < line.call->count; i++)
        if (is_room(role_of(i)))
            set_room(i, needed[i]);
}

/* Makes the call with an empty handle in place of one. The other ones stay as they are. */
static void try_empty(size_t i, struct handle *handle)
{
    const struct handle full = *handle;
    const long live = live_blocks();
    handle->at = NULL;
    const yurewha_hash before = told(true);
    make(0, false);
    total.empty++;
    if (role_of(i) == MADE) {
        expect(line.status == line.wanted, "it is done into a full handle alone");
        free_handle(type_of(i), handle);
    } else {
        total.empty_of[line.call - calls]++;
        expect(line.call->answer != STATUS || line.status == YUREWHA_EMPTY_HANDLE, "a handle is empty, and that isn't told");
    }
    expect(handle->at == NULL && is_told(&before, true), "a handle is empty, and it changes, or another one");
    expect(live_blocks() == live, "a handle is empty, and the number of blocks changes");
    *handle = full;
}

static void try_empties(void)
{
    for (size_t i = 0; i < line.call->count; i++) {
        const bool is_handle = is_object(role_of(i)) && type_of(i) >= SUBTREE;
        if (is_handle && line.objects[i]->handle.at != NULL)
            try_empty(i, &line.objects[i]->handle);
        for (size_t j = 0; is_list_of_handles(i) && j < line.arguments[i].count; j++)
            if (line.listed[j]->handle.at != NULL)
                try_empty(i, &line.listed[j]->handle);
    }
}

/* A session or an index may keep a room that it got before it was refused more, and one without hashes several. They are freed with it. */
static bool may_keep(long blocks)
{
    size_t hashes = 0;
    if (role_of(0) == CHANGED && type_of(0) == SESSION)
        (void)!yurewha_session_num_known_hashes((yurewha_session *)line.arguments[0].data, &hashes);
    else if (role_of(0) == CHANGED && type_of(0) == HASH_INDEX)
        (void)!yurewha_hash_index_len((yurewha_hash_index *)line.arguments[0].data, &hashes);
    else
        return blocks == 0;
    return 0 <= blocks && (blocks <= 1 || hashes == 0);
}

/* Goes on to the next request: the middle one and the last two are tried, if the number of requests is known, and otherwise fewer and
 * fewer. */
static unsigned long next_request(unsigned long number, unsigned long known)
{
    if (number < (live_blocks() > MANY_BLOCKS ? FEW_REQUESTS : ALL_REQUESTS))
        return number + 1;
    if (known == 0)
        return number + number / 4;
    return number < known / 2 ? known / 2 : number < known - 1 ? known - 1 : number + 1;
}

/* Makes the call with a request refused, or all from it on, and tells whether there was such a request. If the call isn't done, nothing has
 * changed. */
static bool is_refused(unsigned long number, bool all_from_there, const yurewha_hash *before)
{
    const long live = live_blocks();
    make(number, all_from_there);
    const bool is = was_refused();
    if (is) {
        total.refused++;
        total.refused_of[line.call - calls]++;
        expect(line.status == YUREWHA_MEMORY || (line.wanted != YUREWHA_DONE && line.status == line.wanted), "a request was refused");
    }
    if (line.status != YUREWHA_DONE) {
        expect(line.call->changes_anyway || may_keep(live_blocks() - live),
               "it isn't done, and the number of blocks changes");
        expect(line.call->changes_anyway || is_told(before, true), "it isn't done, and a handle changes");
    }
    return is;
}

/* Makes the call with one request after the other refused, and at last with none. The number of its requests may be known before. It
 * may fall meanwhile, since a session keeps a greater room that it got before it was refused more. */
static void make_refused(unsigned long known)
{
    const yurewha_hash before = told(true);
    unsigned long number = line.is_tried && line.call->memory != SPARES;
    while (is_refused(number, true, &before) && is_refused(number, false, &before))
        number = next_request(number, known);
}

/* ---- A line */

static void expect_answer(enum type type, const struct argument *found, const char *word)
{
    const char *name = word;
    while (isalnum((unsigned char)*word) || *word == '_')
        word++;
    const bool is_kept = *word == '=' && word > name;
    const char *wanted = is_kept ? word + 1 : name;
    if (is_kept)
        keep(name, (size_t)(word - name), type, found);
    const bool is = *wanted == '@' ? is_kept_as(type, wanted + 1, found) : is_said(type, wanted, found);
    expect(is, "another answer");
    if (!is && total.failures < TOLD) {
        printf("    wanted %s, found ", wanted);
        show(type, found);
        printf("\n");
    }
}

static void expect_answers(void)
{
    size_t word = line.call->answer == STATUS;
    expect(line.status == line.wanted, "another status");
    if (line.call->answer == SIGNED || line.call->answer == COUNT) {
        struct argument found = {0, &line.returned, 1};
        if (strcmp(line.answers[word], "-1") == 0)
            expect(line.returned == UINT64_MAX, "another answer");
        else
            expect_answer(NUMBER, &found, line.answers[word]);
        word++;
    }
    if (line.status != line.wanted || (line.status != YUREWHA_DONE && !writes_values()))
        return;
    total.done_of[line.call - calls] += line.status == YUREWHA_DONE;
    for (size_t i = 0; i < line.call->count; i++)
        if (role_of(i) == OUT || (is_room(role_of(i)) && line.status == YUREWHA_DONE)) {
            if (word == line.answer_count)
                stop("too few answers of ", line.call->name);
            expect_answer(type_of(i), &line.arguments[i], line.answers[word++]);
        } else if (role_of(i) == FREED || (role_of(i) == EMPTIED && line.status == YUREWHA_DONE))
            expect(line.objects[i]->handle.at == NULL, "a freed handle isn't empty");
    if (word != line.answer_count)
        stop("too many answers of ", line.call->name);
}

static bool has_argument(enum role role, enum type from)
{
    bool has = false;
    for (size_t i = 0; i < line.call->count; i++)
        has = has || (role_of(i) == role && type_of(i) >= from);
    return has;
}

/* Makes the call with all that is tried. If it changes no handle, it is made again: one that it makes then owns what it made before. */
static void run_line(void)
{
    take_arguments();
    if (has_argument(ROOM, BYTE))
        find_rooms();
    const yurewha_hash before = told(false), all_before = told(true);
    if (line.is_tried) {
        try_empties();
        if (line.wanted == YUREWHA_DONE)
            try_rooms();
    }
    make_refused(0);
    const long live = live_blocks();
    if (line.is_tried && line.call->memory == REFUSES && !has_argument(CHANGED, BYTE)) {
        make_refused(line.requests);
        expect(live_blocks() == live, "it is made again, and the number of blocks changes");
    }
    expect_answers();
    expect(is_told(&before, false), "what is only read changes");
    total.changed_of[line.call - calls] += !is_told(&all_before, true);
    drop_arguments();
    total.lines++;
}

/* ---- The lines of files */

static yurewha_status status_of(const char *word)
{
    for (size_t i = 0; i < status_count; i++) {
        const size_t length = strlen(statuses[i].name);
        if (strncmp(word, statuses[i].name, length) == 0 && (word[length] == '\0' || word[length] == '+'))
            return statuses[i].status + (yurewha_status)(word[length] == '+' ? strtoul(word + length + 1, NULL, 10) : 0);
    }
    stop("no status: ", word);
}

static const struct call *call_of(const char *name)
{
    for (size_t i = 0; i < call_count; i++)
        if (strcmp(calls[i].name, name) == 0)
            return &calls[i];
    stop("no call: ", name);
}

/* The next word of a text, with a 0 byte at its end, or a null pointer. A word may hold a text between two '. */
static char *next_word(char **text)
{
    char *word = *text + strspn(*text, " \n"), *end = word;
    if (*word == '\0' || (*word == '#' && (word[1] == ' ' || word[1] == '\n' || word[1] == '\0')))
        return NULL;
    while (*end != '\0' && *end != ' ' && *end != '\n')
        end = *end == '\'' && strchr(end + 1, '\'') != NULL ? strchr(end + 1, '\'') + 1 : end + 1;
    *text = end + (*end != '\0');
    *end = '\0';
    return word;
}

static void take_line(char *text, bool is_tried)
{
    bool is_answer = false;
    char *word = next_word(&text);
    if (word == NULL)
        return;
    line.call = call_of(word);
    line.is_tried = is_tried && !total.plain;
    line.word_count = line.answer_count = 0;
    while ((word = next_word(&text)) != NULL) {
        if (line.word_count == MOST_WORDS || line.answer_count == MOST_WORDS)
            stop("too many words: ", word);
        if (strcmp(word, "->") == 0)
            is_answer = true;
        else if (is_answer)
            line.answers[line.answer_count++] = word;
        else
            line.words[line.word_count++] = word;
    }
    if (line.answer_count == 0 && line.call->answer == STATUS)
        stop("no answer of ", line.call->name);
    line.wanted = line.call->answer == STATUS ? status_of(line.answers[0]) : YUREWHA_DONE;
    run_line();
}

/* A line that is made several times: in time i, {A+B} stands for A + B * i. */
static void take_repeated(const char *text)
{
    char *rest = NULL, *made = (char *)block(2 * strlen(text) + 100);
    const uint64_t count = strtoull(text, &rest, 10);
    for (uint64_t i = 0; i < count; i++) {
        char *to = made;
        for (const char *from = rest; *from != '\0'; from++)
            if (*from == '{') {
                char *end = NULL;
                const uint64_t first = strtoull(from + 1, &end, 10), step = strtoull(end + 1, &end, 10);
                to += sprintf(to, "%" PRIu64, first + step * i);
                from = end;
            } else
                *to++ = *from;
        *to = '\0';
        take_line(made, i == count - 1);
    }
    free(made);
}

static char *text_of(const char *name)
{
    FILE *file = fopen(name, "rb");
    if (file == NULL || fseek(file, 0, SEEK_END) != 0)
        stop("can't be read: ", name);
    const size_t size = (size_t)ftell(file);
    char *text = (char *)block(size + 1);
    rewind(file);
    if (fread(text, 1, size, file) != size)
        stop("can't be read: ", name);
    text[size] = '\0';
    fclose(file);
    return text;
}

static void take_file(const char *name)
{
    char *text = text_of(name), *end;
    line.file = name;
    line.number = 0;
    for (char *at = text; *at != '\0'; at = end) {
        end = at + strcspn(at, "\n");
        if (*end != '\0')
            *end++ = '\0';
        line.number++;
        if (*at == '=')
            begin_test(at + 1 + strspn(at + 1, " "));
        else if (isdigit((unsigned char)*at))
            take_repeated(at);
        else
            take_line(at, true);
    }
    begin_test("");
    free(text);
}

/* Each call is made and done by some line, and all that can be tried of it is. */
static void expect_all_calls(void)
{
    for (size_t i = 0; i < call_count; i++) {
        line.call = &calls[i];
        expect(total.done_of[i] != 0, "no line makes this call");
        // What a read changes is the order in which chunks were used, which only shows when some are dropped.
        expect(!has_argument(CHANGED, BYTE) || has_argument(FRONT, BYTE) || total.changed_of[i] != 0, "this call changes nothing");
        expect(calls[i].memory != REFUSES || total.refused_of[i] != 0, "no request of this call was refused");
        expect(total.empty_of[i] != 0 || !(has_argument(READ, SUBTREE) || has_argument(CHANGED, SUBTREE)), "no handle of it was empty");
    }
}

int main(int count, char **names)
{
    if (call_count > MOST_CALLS || count < 2)
        stop("driver FILE.. [--plain FILE..]", "");
    set_allocator();
    for (int i = 1; i < count; i++)
        if (strcmp(names[i], "--plain") == 0)
            total.plain = true;
        else
            take_file(names[i]);
    line.file = "all files";
    expect_all_calls();
    printf("%s: %lu calls by lines, %lu with an empty handle, %lu with another room, %lu with a request refused\n",
           yurewha_processor_level(), total.lines, total.empty, total.rooms, total.refused);
    printf("%lu checks, %lu failed\n", total.checks, total.failures);
    return total.failures != 0;
}
