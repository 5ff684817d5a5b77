/* The memory of the library, counted. */
#ifndef YUREWHA_GO_MEMORY_H
#define YUREWHA_GO_MEMORY_H

#include <stdint.h>

/* How many bytes the library has, and in how many blocks. */
extern int64_t yurewha_go_bytes;
extern int64_t yurewha_go_blocks;

/* Makes the library allocate by functions that count. If it can't, because it has allocated before, the numbers stay 0. */
void yurewha_go_count(void);

#endif
