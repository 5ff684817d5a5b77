/*
 * Puts three parts of a file into a session, not in order. Prints the result of each put, and the file hash of the whole.
 * The chunks are pseudorandom: the chunk at position p has the hash of seed p % 10 and the size 1000 + p.
 *
 *     session
 */
#include <inttypes.h>
#include <stdio.h>
#include <stdlib.h>
#include <yurewha.h>

enum { PART = 8, TOTAL = 24 };

/* Prints a status and what it means. */
static void print_status(yurewha_status status)
{
    char text[YUREWHA_STATUS_TEXT_LENGTH];
    size_t length = 0;
    if (yurewha_status_text(status, text, sizeof text, &length) == YUREWHA_DONE)
        printf("status %" PRIu32 ", %.*s\n", status, (int)length, text);
}

/* Puts PART chunks, and prints how many of their hashes are new and how many runs there are now. */
static yurewha_status put(yurewha_session *session, uint64_t first)
{
    yurewha_chunk chunks[PART];
    uint64_t fresh = 0;
    size_t runs = 0;
    for (uint64_t i = 0; i < PART; i++) {
        yurewha_random_from_seed((first + i) % 10, &chunks[i].hash);
        chunks[i].size = 1000 + first + i;
    }
    yurewha_status status = yurewha_session_put(session, first, chunks, PART, &fresh);
    if (status == YUREWHA_DONE)
        status = yurewha_session_num_runs(session, &runs);
    printf("put at %" PRIu64 ": ", first);
    if (status == YUREWHA_DONE)
        printf("%" PRIu64 " new hashes, %zu runs\n", fresh, runs);
    else
        print_status(status);
    return status;
}

/* Prints the file hash of the whole, or why there is none. */
static yurewha_status finish(yurewha_session *session)
{
    yurewha_hash hash;
    char text[YUREWHA_HEX_LENGTH];
    size_t length = 0;
    yurewha_status status = yurewha_session_finish(session, TOTAL, &hash);
    if (status == YUREWHA_DONE)
        status = yurewha_hex(&hash, text, sizeof text, &length);
    if (status == YUREWHA_DONE) {
        printf("file %.*s\n", (int)length, text);
    } else {
        printf("finish: ");
        print_status(status);
    }
    return status;
}

int main(void)
{
    yurewha_session session = {0};
    bool done = yurewha_session_new(&session) == YUREWHA_DONE;
    done = done && put(&session, 16) == YUREWHA_DONE;
    done = done && put(&session, 0) == YUREWHA_DONE;
    done = done && put(&session, 4) == YUREWHA_SESSION_OVERLAP; /* it fails, and nothing has changed */
    done = done && finish(&session) == YUREWHA_SESSION_GAP;     /* the positions 8 to 15 aren't taken */
    done = done && put(&session, 8) == YUREWHA_DONE;
    done = done && finish(&session) == YUREWHA_DONE;
    yurewha_session_free(&session);
    if (fflush(stdout) != 0 || ferror(stdout)) {
        fprintf(stderr, "session: the output can't be written\n");
        done = false;
    }
    return done ? EXIT_SUCCESS : EXIT_FAILURE;
}
