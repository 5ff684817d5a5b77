/* A program that names its functions after the library has allocated, which is refused. */
#include <stdio.h>
#include <stdlib.h>
#include <yurewha.h>

int main(void)
{
    yurewha_session session = {0};
    const bool is_made = yurewha_session_new(&session) == YUREWHA_DONE;
    const bool is_refused = yurewha_set_allocator(malloc, realloc, free) == YUREWHA_ARGUMENTS;
    yurewha_session_free(&session);
    printf("functions that come late are %s\n", is_refused ? "refused" : "taken");
    return !(is_made && is_refused);
}
