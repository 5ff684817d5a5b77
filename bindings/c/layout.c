/* The sizes of the types, where their members stand, the numbers and the texts of the statuses, the version, and the level. */
#include "harness.h"

/* The text of a status, with a 0 byte at its end, in a room of its own. */
struct status_text {
    char text[YUREWHA_STATUS_TEXT_LENGTH + 1];
};

static struct status_text text_of(yurewha_status status)
{
    struct status_text found;
    size_t length = 0;
    EXPECT_STATUS(YUREWHA_DONE, yurewha_status_text(status, found.text, YUREWHA_STATUS_TEXT_LENGTH, &length));
    found.text[length] = '\0';
    return found;
}

static bool has_text(yurewha_status status, const char *text) { return strcmp(text_of(status).text, text) == 0; }

/* Each status has a text of its own; other numbers have one and the same. */
static void status_texts(void)
{
    for (yurewha_status status = 0; status < 80; status++) {
        const bool is_known = status <= YUREWHA_MISMATCH || (status > YUREWHA_RULE && status <= YUREWHA_RULE + 13)
            || (status > YUREWHA_PROOF_RULE && status <= YUREWHA_PROOF_RULE + 8)
            || (status > YUREWHA_SESSION_RULE && status <= YUREWHA_SESSION_RULE + 7 && status != YUREWHA_SESSION_RULE + 5)
            || status == YUREWHA_SESSION_OVERLAP || status == YUREWHA_SESSION_POSITIONS || status == YUREWHA_SESSION_GAP
            || status == YUREWHA_ELSEWHERE || status == YUREWHA_TOO_FAR;
        const struct status_text found = text_of(status);
        row("text of status %u: %s", status, found.text);
        EXPECT(found.text[0] != '\0' && has_text(status, "unknown status") == !is_known);
        for (yurewha_status other = 0; is_known && other < status; other++)
            EXPECT(!has_text(other, found.text));
    }
    row("texts of statuses");
    EXPECT(has_text(YUREWHA_DONE, "the call succeeded") && has_text(YUREWHA_MEMORY, "out of memory"));
    EXPECT(has_text(YUREWHA_RULE + 13, "rule 13: right nodes don't begin at a last stable point"));
    EXPECT(has_text(YUREWHA_PROOF_RULE + 5, "rule 5: there is no chunk"));
    EXPECT(has_text(YUREWHA_SESSION_RULE + 4, "rule 4: a known hash isn't an array of four words"));
    EXPECT(has_text(UINT32_MAX, "unknown status"));
}

/* The version, in rooms of its length and of one byte less. */
static void version_text(void)
{
    char text[] = "?????";
    size_t length = 0;
    row("version");
    EXPECT_STATUS(YUREWHA_ROOM, yurewha_version(text, 4, &length));
    EXPECT(length == 5 && strcmp(text, "?????") == 0);
    EXPECT_STATUS(YUREWHA_DONE, yurewha_version(text, 5, &length));
    EXPECT(length == 5 && strcmp(text, YUREWHA_VERSION) == 0);
}

/* The level is one of those that the header names, and stays. */
static void level_of_processor(void)
{
    static const char *const names[] = {"x86-64", "x86-64-v2", "x86-64-v3", "x86-64-v4", "aarch64"};
    const char *found = yurewha_processor_level();
    size_t same = 0;
    row("processor_level");
    for (size_t i = 0; i < LENGTH(names); i++)
        same += strcmp(found, names[i]) == 0;
    EXPECT(same == 1 && found == yurewha_processor_level());
}

void test_layout(void)
{
    static const struct {
        const char *name;
        size_t found;
        size_t wanted;
    } rows[] = {
        {"bool", sizeof(bool), 1},
        {"size_t", sizeof(size_t), 8},
        {"status", sizeof(yurewha_status), 4},
        {"hash", sizeof(yurewha_hash), 32},
        {"hash's alignment", _Alignof(yurewha_hash), 8},
        {"bytes", sizeof(yurewha_bytes), 32},
        {"bytes' alignment", _Alignof(yurewha_bytes), 1},
        {"chunk", sizeof(yurewha_chunk), 40},
        {"chunk's size", offsetof(yurewha_chunk, size), 32},
        {"level", sizeof(yurewha_level), 16},
        {"level's right", offsetof(yurewha_level, right), 8},
        {"hasher", sizeof(yurewha_hasher), 2048},
        {"hasher's alignment", _Alignof(yurewha_hasher), 8},
        {"chunker", sizeof(yurewha_chunker), 16},
        {"chunker's alignment", _Alignof(yurewha_chunker), 8},
        {"subtree", sizeof(yurewha_subtree), sizeof(void *)},
        {"session", sizeof(yurewha_session), sizeof(void *)},
        {"hash tree", sizeof(yurewha_hash_tree), sizeof(void *)},
        {"opened range", sizeof(yurewha_opened_range), sizeof(void *)},
        {"part", sizeof(yurewha_part), sizeof(void *)},
        {"reader", sizeof(yurewha_reader), sizeof(void *)},
        {"hash index", sizeof(yurewha_hash_index), sizeof(void *)},
        {"file hasher", sizeof(yurewha_file_hasher), sizeof(void *)},
        {"DONE", YUREWHA_DONE, 0},
        {"ARGUMENTS", YUREWHA_ARGUMENTS, 1},
        {"SIZES", YUREWHA_SIZES, 2},
        {"MEMORY", YUREWHA_MEMORY, 3},
        {"TEXT", YUREWHA_TEXT, 4},
        {"ROOM", YUREWHA_ROOM, 5},
        {"EMPTY_HANDLE", YUREWHA_EMPTY_HANDLE, 6},
        {"MISMATCH", YUREWHA_MISMATCH, 7},
        {"RULE", YUREWHA_RULE, 16},
        {"SESSION_OVERLAP", YUREWHA_SESSION_OVERLAP, 33},
        {"SESSION_POSITIONS", YUREWHA_SESSION_POSITIONS, 34},
        {"SESSION_GAP", YUREWHA_SESSION_GAP, 37},
        {"ELSEWHERE", YUREWHA_ELSEWHERE, 38},
        {"TOO_FAR", YUREWHA_TOO_FAR, 39},
        {"PROOF_RULE", YUREWHA_PROOF_RULE, 48},
        {"SESSION_RULE", YUREWHA_SESSION_RULE, 64},
    };
    for (size_t i = 0; i < LENGTH(rows); i++) {
        row("%s: %zu", rows[i].name, rows[i].found);
        EXPECT(rows[i].found == rows[i].wanted);
    }
    char version[40];
    row("version");
    snprintf(version, sizeof version, "%d.%d.%d", YUREWHA_VERSION_MAJOR, YUREWHA_VERSION_MINOR, YUREWHA_VERSION_PATCH);
    EXPECT(strcmp(version, YUREWHA_VERSION) == 0);
    status_texts();
    version_text();
    level_of_processor();
}
