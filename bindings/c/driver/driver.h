/* What the parts of the driver share. They compile as C11 and as C++17. */
#ifndef DRIVER_H
#define DRIVER_H

#include "yurewha.h"

#include <stdio.h>
#include <stdlib.h>
#include <string.h>

#define LENGTH(array) (sizeof(array) / sizeof *(array))

/* ---- Calls, which calls.c has */

/* What an argument is for. */
enum role {
    GIVEN,   /* a value */
    LIST,    /* an array */
    READ,    /* a handle, a hasher or a chunker that stays as it is */
    CHANGED, /* one that the call changes */
    MADE,    /* one that it makes */
    FREED,   /* a handle that it frees */
    EMPTIED, /* one that it frees if it is done */
    ROOM,    /* an array that it fills; if that is too short, it says how long it has to be */
    EXACT,   /* an array that it fills, and whose length has to fit */
    FRONT,   /* an array of any length, of which it fills the front */
    NEEDED,  /* how long a room has to be */
    OUT      /* a value that it writes */
};

/* Of what type it is, or its elements are. From SUBTREE on, these are handles. */
enum type {
    BYTE,
    TRUTH,
    NUMBER,
    HASH,
    KEY,
    CHUNK,
    LEVEL,
    HASHER,
    CHUNKER,
    SUBTREE,
    SESSION,
    HASH_TREE,
    OPENED_RANGE,
    PART,
    READER,
    HASH_INDEX,
    FILE_HASHER
};

/* What a call returns. */
enum answer { NOTHING, STATUS, SIGNED, COUNT };

/* What a call does if a request for memory is refused. */
enum memory {
    ASKS_NONE, /* it makes no request */
    SPARES,    /* it does without */
    REFUSES    /* it returns MEMORY */
};

enum { MOST_ARGUMENTS = 10 };

/* An argument: a number, or `count` elements at an address. */
struct argument {
    uint64_t number;
    void *data;
    size_t count;
};

struct call {
    const char *name; /* without `yurewha_` */
    uint64_t (*make)(const struct argument *a);
    enum answer answer;
    enum memory memory;
    bool changes_anyway; /* whether it changes its handle whatever it returns */
    size_t count;
    struct {
        enum role role;
        enum type type;
    } arguments[MOST_ARGUMENTS];
};

struct named_status {
    const char *name; /* without YUREWHA_ */
    yurewha_status status;
};

/* A handle of any type. */
struct handle {
    uint8_t *at;
};

extern const struct call calls[];
extern const size_t call_count;
extern const struct named_status statuses[];
extern const size_t status_count;

/* ---- Memory: the functions that the library allocates by, of which a request can be refused */

/* From now on request `number` is refused, or all from it on; none, if it is 0. */
void refuse(unsigned long number, bool all_from_there);
unsigned long requests(void);
bool was_refused(void);
long live_blocks(void);
void set_allocator(void);

/* A block of exactly so many bytes, which free takes; a null pointer for 0 bytes. */
void *block(size_t size);

/* ---- Words: what a line says of values and arrays. words.c says how */

/* How many bytes an element has, for each type before HASHER. */
extern const size_t sizes[];

/* What a word says, as a value or an array in a block of its own. */
struct argument read_word(enum type type, const char *word);

/* The elements from number A up to, but without, number B of the text `A-B`, in a block of their own. It frees the whole. */
struct argument part_of(enum type type, struct argument whole, const char *numbers);

/* Whether a call answered as a word says. */
bool is_said(enum type type, const char *word, const struct argument *found);

/* Prints elements for a person. */
void show(enum type type, const struct argument *it);

/* Whether there are as many elements, and the same. */
bool are_same(enum type type, const struct argument *first, const struct argument *second);

/* ---- Objects of a test, and its kept answers, by their names */

enum { MOST_OBJECTS = 64 };

struct object {
    char name[32];
    enum type type;
    struct handle handle;
    yurewha_hasher hasher;
    yurewha_chunker chunker;
};

/* The object of a type and of a name, whose length is given; an empty one, if no call made it. */
struct object *object_of(enum type type, const char *name, size_t length);
void *address(struct object *it);
void free_handle(enum type type, struct handle *handle);

void keep(const char *name, size_t length, enum type type, const struct argument *value);
bool is_kept_as(enum type type, const char *name, const struct argument *found);

/* What an argument says in words or by kept answers, which are joined where a semicolon stands between two. */
struct argument joined(enum type type, char *word);

/* Frees all handles, and forgets all kept answers. */
void drop_objects(void);

/* ---- State: all that can be told of what a handle owns, or of a hasher or a chunker, is added to a message. It may take memory */
void tell(yurewha_hasher *message, enum type type, void *object);

/* End the program, since a line is wrong, or since a call failed without which nothing else can be told. */
#ifdef __cplusplus
#define NORETURN [[noreturn]]
#else
#define NORETURN _Noreturn
#endif
NORETURN void stop(const char *why, const char *what);
NORETURN void fail(const char *why, const char *what);

#endif
