/* A program that needs little of the library: it prints the chunk hash of its first argument. bench/bindings tells its size. */
#include "yurewha.h"

#include <stdio.h>
#include <string.h>

int main(int words, char **word)
{
    char text[64];
    size_t length;
    yurewha_hash hash;
    yurewha_data_hash(word[words - 1], strlen(word[words - 1]), &hash);
    return yurewha_hex(&hash, text, sizeof text, &length) != YUREWHA_DONE || printf("%.*s\n", (int)length, text) < 0;
}
