/* What a word of a line says.
 *
 *     number, truth   decimal digits; 0 or 1
 *     bytes           hex digits; a text between two '; or %A-B, the bytes A up to B of the message whose byte i is i % 251, of hex digits
 *                     again and again, which stand behind a colon, or, behind `:mixed`, of the numbers of SplitMix64 from the seed 0 on
 *     hash            64 hex digits, or sN, the hash of the seed N
 *     key             64 hex digits of its bytes
 *     level           its number of left nodes, a colon and that of right nodes
 *     chunks          p and parts of a pattern; d, the first seed, a comma and the number of chunks; s and seeds, each perhaps with a
 *                     colon and a size; n and nodes, each its hash, a colon and its size; or b and the bytes of each chunk
 *
 * `-` is an empty array. A comma stands between the items of an array; `*N` after one repeats it. After chunks, /A-B takes those from
 * number A up to, but without, number B. By a pattern, the words of chunk i are 1, 2, 3 and 4 times i + 1, of which the last is one
 * more where its character isn't '|', and its size is 7 + 100 * i. By seeds, the size is 100 times the seed, and 0 is the default hash;
 * after d, the size of chunk i is 100 + 977 * i % 9901. tests/vectors/README.md has the same rules.
 *
 * An answer is such a word, or `?` for any answer, `#` and the data hash of bytes or of the text of nodes (each a line of its hash in hex,
 * " : " and its size), or `~` and a word that has the same elements in any order. */
#include "driver.h"

#include <inttypes.h>

const size_t sizes[] = {1, sizeof(bool), 8, sizeof(yurewha_hash), sizeof(yurewha_bytes), sizeof(yurewha_chunk), sizeof(yurewha_level)};

static uint64_t number_of(const char *text)
{
    char *end = NULL;
    const uint64_t number = strtoull(text, &end, 10);
    if (end == text || *text == '-')
        stop("no number: ", text);
    return number;
}

static void read_hex(const char *text, void *to, size_t count)
{
    for (size_t i = 0; i < count; i++) {
        unsigned byte = 0;
        if (sscanf(text + 2 * i, "%2x", &byte) != 1)
            stop("no hex digits: ", text);
        ((unsigned char *)to)[i] = (unsigned char)byte;
    }
}

static yurewha_hash hash_of(const char *text)
{
    yurewha_hash hash;
    if (*text == 's')
        yurewha_random_from_seed(number_of(text + 1), &hash);
    else if (sscanf(text, "%16" SCNx64 "%16" SCNx64 "%16" SCNx64 "%16" SCNx64, &hash.words[0], &hash.words[1], &hash.words[2],
                    &hash.words[3]) != 4)
        stop("no hash: ", text);
    return hash;
}

/* ---- Bytes */

/* The byte at a place of the numbers of SplitMix64, each with its lowest byte first. */
static unsigned char mixed(uint64_t place)
{
    uint64_t number = (place / 8 + 1) * UINT64_C(0x9E3779B97F4A7C15);
    number = (number ^ number >> 30) * UINT64_C(0xBF58476D1CE4E5B9);
    number = (number ^ number >> 27) * UINT64_C(0x94D049BB133111EB);
    return (unsigned char)((number ^ number >> 31) >> place % 8 * 8);
}

/* The bytes of a message from a place on, by the rule behind its colon, or without one. */
static void make_message(const char *rule, size_t length, uint64_t from, unsigned char *to, size_t count)
{
    unsigned char again[64];
    const bool is_mixed = length == 6 && memcmp(rule, ":mixed", length) == 0;
    const size_t period = length / 2;
    if (length > 2 * sizeof again)
        stop("too many bytes: ", rule);
    if (!is_mixed && length != 0)
        read_hex(rule + 1, again, period);
    for (size_t i = 0; i < count; i++)
        to[i] = is_mixed ? mixed(from + i) : length != 0 ? again[(from + i) % period] : (unsigned char)((from + i) % 251);
}

static struct argument bytes_of(const char *text, size_t digits)
{
    struct argument made = {0, NULL, digits / 2};
    if (*text == '\'') {
        made.count = digits - 2;
    } else if (*text == '%') {
        made.number = number_of(text + 1);
        made.count = (size_t)(number_of(strchr(text, '-') + 1) - made.number);
    } else if (*text == '-') {
        made.count = 0;
    }
    made.data = block(made.count);
    if (*text == '\'')
        memcpy(made.data, text + 1, made.count);
    else if (*text == '%')
        make_message(text + strcspn(text, ":,"), digits - (strcspn(text, ":,") < digits ? strcspn(text, ":,") : digits), made.number,
                     (unsigned char *)made.data, made.count);
    else
        read_hex(text, made.data, made.count);
    return made;
}

/* ---- Items */

static yurewha_chunk chunk_of(char rule, const char *text)
{
    yurewha_chunk made = {{{0, 0, 0, 0}}, 0};
    const char *colon = text + strcspn(text, ":,");
    if (rule == 'b') {
        struct argument bytes = bytes_of(text, strcspn(text, ","));
        made.size = bytes.count;
        yurewha_data_hash(bytes.data, bytes.count, &made.hash);
        free(bytes.data);
        return made;
    }
    if (rule == 'n')
        made.hash = hash_of(text);
    else if (number_of(text) != 0)
        yurewha_random_from_seed(number_of(text), &made.hash);
    made.size = *colon == ':' ? number_of(colon + 1) : 100 * number_of(text);
    return made;
}

static yurewha_level level_of(const char *text)
{
    yurewha_level made;
    made.left = (size_t)number_of(text);
    made.right = (size_t)number_of(text + strcspn(text, ":") + 1);
    return made;
}

static void read_item(enum type type, char rule, const char *text, void *to)
{
    if (type == NUMBER)
        *(uint64_t *)to = number_of(text);
    else if (type == TRUTH)
        *(bool *)to = number_of(text) != 0;
    else if (type == HASH)
        *(yurewha_hash *)to = hash_of(text);
    else if (type == KEY)
        read_hex(text, to, sizeof(yurewha_bytes));
    else if (type == LEVEL)
        *(yurewha_level *)to = level_of(text);
    else
        *(yurewha_chunk *)to = chunk_of(rule, text);
}

static size_t repeated(const char *item)
{
    const char *star = strpbrk(item, "*,");
    return star != NULL && *star == '*' ? (size_t)number_of(star + 1) : 1;
}

static const char *next_item(const char *item)
{
    const char *comma = strchr(item, ',');
    return comma != NULL ? comma + 1 : NULL;
}

static struct argument items_of(enum type type, char rule, const char *word)
{
    struct argument made = {0, NULL, 0};
    for (const char *it = word; it != NULL; it = next_item(it))
        made.count += repeated(it);
    char *to = (char *)block(made.count * sizes[type]);
    made.data = to;
    for (const char *it = word; it != NULL; it = next_item(it))
        for (size_t left = repeated(it); left != 0; left--, to += sizes[type])
            read_item(type, rule, it, to);
    return made;
}

/* ---- Chunks */

static yurewha_chunk of_letter(char letter, uint64_t number)
{
    yurewha_chunk made;
    for (uint64_t i = 0; i < 4; i++)
        made.hash.words[i] = (number + 1) * (i + 1);
    made.hash.words[3] += letter != '|';
    made.size = 7 + 100 * number;
    return made;
}

static struct argument of_pattern(const char *word)
{
    struct argument made = {0, NULL, 0};
    for (const char *it = word; it != NULL; it = next_item(it))
        made.count += repeated(it) * strspn(it, ".|");
    yurewha_chunk *chunks = (yurewha_chunk *)block(made.count * sizeof *chunks);
    size_t i = 0;
    for (const char *it = word; it != NULL; it = next_item(it))
        for (size_t left = repeated(it); left != 0; left--)
            for (size_t j = 0; j < strspn(it, ".|"); j++, i++)
                chunks[i] = of_letter(it[j], i);
    made.data = chunks;
    return made;
}

static struct argument drawn(const char *word)
{
    struct argument made = {number_of(word), NULL, (size_t)number_of(word + strcspn(word, ",") + 1)};
    yurewha_chunk *chunks = (yurewha_chunk *)block(made.count * sizeof *chunks);
    for (size_t i = 0; i < made.count; i++) {
        yurewha_random_from_seed(made.number + i, &chunks[i].hash);
        chunks[i].size = 100 + 977 * i % 9901;
    }
    made.data = chunks;
    return made;
}

static struct argument chunks_of(const char *word)
{
    return *word == 'p' ? of_pattern(word + 1) : *word == 'd' ? drawn(word + 1) : items_of(CHUNK, *word, word + 1);
}

struct argument part_of(enum type type, struct argument whole, const char *numbers)
{
    const size_t from = (size_t)number_of(numbers), to = (size_t)number_of(numbers + strcspn(numbers, "-") + 1);
    if (from > to || to > whole.count)
        stop("no such part: ", numbers);
    struct argument made = {0, block((to - from) * sizes[type]), to - from};
    if (to != from)
        memcpy(made.data, (char *)whole.data + from * sizes[type], (to - from) * sizes[type]);
    free(whole.data);
    return made;
}

struct argument read_word(enum type type, const char *word)
{
    const struct argument none = {0, NULL, 0};
    if (strcmp(word, "-") == 0)
        return none;
    struct argument made = type == BYTE ? bytes_of(word, strlen(word)) : type == CHUNK ? chunks_of(word) : items_of(type, 0, word);
    if (type == CHUNK && strchr(word, '/') != NULL)
        made = part_of(type, made, strchr(word, '/') + 1);
    if (type == NUMBER)
        made.number = *(uint64_t *)made.data;
    if (type == TRUTH)
        made.number = *(bool *)made.data;
    return made;
}

/* ---- Answers */

static bool has_hash(enum type type, const struct argument *it, const char *wanted)
{
    enum { LINE = 64 + 3 + 20 + 1 };
    const yurewha_hash hash = hash_of(wanted);
    yurewha_hash found;
    if (type == BYTE) {
        yurewha_data_hash(it->data, it->count, &found);
    } else {
        char *text = (char *)block(LINE * it->count + 1);
        size_t length = 0;
        const yurewha_chunk *nodes = (const yurewha_chunk *)it->data;
        for (size_t i = 0; i < it->count; i++) {
            for (size_t j = 0; j < 4; j++)
                length += (size_t)snprintf(text + length, 17, "%016" PRIx64, nodes[i].hash.words[j]);
            length += (size_t)snprintf(text + length, LINE - 63, " : %" PRIu64 "\n", nodes[i].size);
        }
        yurewha_data_hash(text, length, &found);
        free(text);
    }
    return memcmp(&hash, &found, sizeof hash) == 0;
}

static int by_words(const void *first, const void *second) { return memcmp(first, second, sizeof(yurewha_hash)); }

static bool are_same_hashes(struct argument *wanted, const struct argument *found)
{
    struct argument sorted = {0, block(found->count * sizeof(yurewha_hash)), found->count};
    if (found->count != 0) {
        memcpy(sorted.data, found->data, found->count * sizeof(yurewha_hash));
        qsort(sorted.data, sorted.count, sizeof(yurewha_hash), by_words);
    }
    if (wanted->count != 0)
        qsort(wanted->data, wanted->count, sizeof(yurewha_hash), by_words);
    const bool are = are_same(HASH, wanted, &sorted);
    free(sorted.data);
    return are;
}

bool are_same(enum type type, const struct argument *first, const struct argument *second)
{
    return first->count == second->count && (first->count == 0 || memcmp(first->data, second->data, first->count * sizes[type]) == 0);
}

bool is_said(enum type type, const char *word, const struct argument *found)
{
    if (*word == '?')
        return true;
    if (*word == '#')
        return has_hash(type, found, word + 1);
    struct argument wanted = read_word(type, word + (*word == '~'));
    const bool is = *word == '~' ? are_same_hashes(&wanted, found) : are_same(type, &wanted, found);
    free(wanted.data);
    return is;
}

void show(enum type type, const struct argument *it)
{
    enum { MOST = 200 };
    const unsigned char *bytes = (const unsigned char *)it->data;
    for (size_t i = 0; i < it->count * sizes[type] && i < MOST; i += type == NUMBER ? 8 : 1) {
        if (type == NUMBER)
            printf(" %" PRIu64, ((const uint64_t *)it->data)[i / 8]);
        else if (type == HASH)
            printf("%02x", bytes[i / 8 * 8 + 7 - i % 8]);
        else
            printf("%02x", bytes[i]);
    }
}
