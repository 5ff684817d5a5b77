/* The handles, hashers and chunkers of a test, and the answers that it keeps, by their names. */
#include "driver.h"

static struct object objects[MOST_OBJECTS];
static size_t object_count;

static struct {
    char name[32];
    enum type type;
    struct argument value;
} kept[MOST_OBJECTS];
static size_t kept_count;

struct object *object_of(enum type type, const char *name, size_t length)
{
    struct object *it = objects;
    while (it < objects + object_count && (it->type != type || strlen(it->name) != length || memcmp(it->name, name, length) != 0))
        it++;
    if (it == objects + object_count) {
        if (++object_count > MOST_OBJECTS || length >= sizeof it->name)
            stop("too many objects, or too long a name: ", name);
        memset(it, 0, sizeof *it);
        memcpy(it->name, name, length);
        it->type = type;
    }
    return it;
}

void *address(struct object *it)
{
    if (it->type == HASHER)
        return &it->hasher;
    return it->type == CHUNKER ? (void *)&it->chunker : (void *)&it->handle;
}

void free_handle(enum type type, struct handle *handle)
{
    for (size_t i = 0; i < call_count; i++)
        if (calls[i].arguments[0].role == FREED && calls[i].arguments[0].type == type) {
            struct argument it = {0, handle, 1};
            (void)calls[i].make(&it);
        }
}

/* Where the answer that was kept by a name stands among the kept ones, or behind them. */
static size_t place_of(enum type type, const char *name, size_t length)
{
    size_t i = 0;
    while (i < kept_count && (kept[i].type != type || strlen(kept[i].name) != length || memcmp(kept[i].name, name, length) != 0))
        i++;
    return i;
}

/* A copy of elements, in a block of its own. */
static struct argument copy_of(enum type type, const struct argument *it)
{
    struct argument made = {0, block(it->count * sizes[type]), it->count};
    if (made.count != 0)
        memcpy(made.data, it->data, made.count * sizes[type]);
    return made;
}

void keep(const char *name, size_t length, enum type type, const struct argument *value)
{
    const size_t i = place_of(type, name, length);
    if (i == MOST_OBJECTS || length >= sizeof kept[i].name)
        stop("too many kept answers, or too long a name: ", name);
    if (i < kept_count)
        free(kept[i].value.data);
    kept_count += i == kept_count;
    memset(kept[i].name, 0, sizeof kept[i].name);
    memcpy(kept[i].name, name, length);
    kept[i].type = type;
    kept[i].value = copy_of(type, value);
}

/* The last answer that was kept by a name, or a part of it, in a block of its own. */
static struct argument kept_as(enum type type, const char *name)
{
    const size_t length = strcspn(name, "/;"), i = place_of(type, name, length);
    if (i == kept_count)
        stop("no kept answer ", name);
    struct argument made = copy_of(type, &kept[i].value);
    return name[length] == '/' ? part_of(type, made, name + length + 1) : made;
}

struct argument joined(enum type type, char *word)
{
    char *rest = strchr(word, ';');
    if (rest != NULL && *word != '\'')
        *rest = '\0';
    struct argument first = *word == '@' ? kept_as(type, word + 1) : read_word(type, word);
    if (rest == NULL || *word == '\'')
        return first;
    struct argument second = joined(type, rest + 1);
    struct argument made = {first.number, block((first.count + second.count) * sizes[type]), first.count + second.count};
    if (first.count != 0)
        memcpy(made.data, first.data, first.count * sizes[type]);
    if (second.count != 0)
        memcpy((char *)made.data + first.count * sizes[type], second.data, second.count * sizes[type]);
    free(first.data);
    free(second.data);
    return made;
}

bool is_kept_as(enum type type, const char *name, const struct argument *found)
{
    struct argument wanted = kept_as(type, name);
    const bool is = are_same(type, &wanted, found);
    free(wanted.data);
    return is;
}

void drop_objects(void)
{
    for (size_t i = 0; i < object_count; i++)
        if (objects[i].type >= SUBTREE)
            free_handle(objects[i].type, &objects[i].handle);
    while (kept_count > 0)
        free(kept[--kept_count].value.data);
    object_count = 0;
}
