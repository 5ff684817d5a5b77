/*
 * Loads the DLL as Python's ctypes does: `loading DLL NAME..` looks up each name, and prints the version and the hash of three bytes.
 */
#include "yurewha.h"

#include <stdio.h>
#include <stdlib.h>
#include <windows.h>

typedef yurewha_status (*version_call)(char *text, size_t room, size_t *length);
typedef void (*hash_call)(const uint8_t *bytes, size_t length, yurewha_hash *hash);

/* A call, whose type the caller knows. */
typedef void (*any_call)(void);
static any_call call(HMODULE library, const char *name)
{
    any_call found = (any_call)GetProcAddress(library, name);
    if (found == NULL) {
        fprintf(stderr, "the DLL has no %s\n", name);
        exit(1);
    }
    return found;
}

int main(int count, char **words)
{
    if (count < 2)
        return 2;
    HMODULE library = LoadLibraryA(words[1]);
    if (library == NULL) {
        fprintf(stderr, "%s can't be loaded: error %lu\n", words[1], GetLastError());
        return 1;
    }
    for (int at = 2; at < count; at++)
        (void)call(library, words[at]);
    char text[32];
    size_t length = 0;
    yurewha_hash hash;
    if (((version_call)call(library, "yurewha_version"))(text, sizeof text, &length) != YUREWHA_DONE)
        return 1;
    ((hash_call)call(library, "yurewha_data_hash"))((const uint8_t *)"abc", 3, &hash);
    printf("%d names, version %.*s, %016llx\n", count - 2, (int)length, text, (unsigned long long)hash.words[0]);
    return 0;
}
