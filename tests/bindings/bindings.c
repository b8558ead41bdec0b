/* Calls the archive as a program in C does: bindings [canon OPERATION | lhs | rhs | measure]
 *
 * Without words it makes each call with each outcome, at the exact size and at smaller ones, with each growth of
 * memory refused in turn, from four threads, and on a stack of 24 kB. With words it answers the lines of its input as
 * refspec_map does, of good lines alone, and not where ids are looked back for. `measure` times a match and a plan. */
#include <gix_refspec.h>
#include <pthread.h>
#include <stdbool.h>
#include <stdio.h>
#include <stdlib.h>
#include <string.h>
#include <time.h>

/* The growth with this number is refused, and all behind it; 0 refuses none. */
static _Thread_local long growths, refused;

void *__real_malloc(size_t size);
void *__real_realloc(void *block, size_t size);

static bool grows(void)
{
    growths++;
    return refused == 0 || growths < refused;
}

void *__wrap_malloc(size_t size)
{
    return grows() ? __real_malloc(size) : NULL;
}

void *__wrap_realloc(void *block, size_t size)
{
    return grows() ? __real_realloc(block, size) : NULL;
}

#define CHECK(claim) \
    do { \
        if (!(claim)) { \
            fprintf(stderr, "tests/bindings/bindings.c:%d: not so: %s\n", __LINE__, #claim); \
            exit(1); \
        } \
    } while (0)

/* The sanitizers want stack for themselves. */
#ifdef __SANITIZE_ADDRESS__
#define SMALL_STACK 65536
#else
#define SMALL_STACK 24576
#endif
/* What a thread has to have beside that: on arm64 glibc gives it no less than 128 kB. */
#ifdef __aarch64__
#define MORE_STACK (131072 - SMALL_STACK)
#else
#define MORE_STACK 0
#endif

#define BYTES(text) (const uint8_t *)(text), strlen(text)

static const struct {
    const char *text;
    uint32_t operation, outcome;
} checks[] = {
    { "main", GIX_REFSPEC_FETCH, GIX_REFSPEC_OK },
    { "", GIX_REFSPEC_PUSH, GIX_REFSPEC_EMPTY },
    { "^a:b", GIX_REFSPEC_FETCH, GIX_REFSPEC_NEGATIVE_WITH_DESTINATION },
    { "^", GIX_REFSPEC_FETCH, GIX_REFSPEC_NEGATIVE_EMPTY },
    { "^1111111111111111111111111111111111111111", GIX_REFSPEC_FETCH, GIX_REFSPEC_NEGATIVE_OBJECT_HASH },
    { "a:", GIX_REFSPEC_PUSH, GIX_REFSPEC_PUSH_TO_EMPTY },
    { "a*b*:c", GIX_REFSPEC_FETCH, GIX_REFSPEC_PATTERN_UNSUPPORTED },
    { "a*:b", GIX_REFSPEC_FETCH, GIX_REFSPEC_PATTERN_UNBALANCED },
    { "a//b", GIX_REFSPEC_FETCH, GIX_REFSPEC_NAME_EMPTY_COMPONENT },
    { "a/.b", GIX_REFSPEC_FETCH, GIX_REFSPEC_NAME_STARTS_WITH_DOT },
    { "a.lock", GIX_REFSPEC_FETCH, GIX_REFSPEC_NAME_LOCK_SUFFIX },
    { "a.", GIX_REFSPEC_FETCH, GIX_REFSPEC_NAME_ENDS_WITH_DOT },
    { "a..b", GIX_REFSPEC_FETCH, GIX_REFSPEC_NAME_REPEATED_DOT },
    { "a@{b", GIX_REFSPEC_FETCH, GIX_REFSPEC_NAME_REFLOG_PORTION },
    { "a b", GIX_REFSPEC_FETCH, GIX_REFSPEC_NAME_INVALID_BYTE },
    { "main", 0, GIX_REFSPEC_NO_OPERATION },
    { "main", 3, GIX_REFSPEC_NO_OPERATION },
};

static void check_outcomes(void)
{
    for (size_t i = 0; i < sizeof checks / sizeof *checks; i++)
        CHECK(gix_refspec_check(BYTES(checks[i].text), checks[i].operation) == checks[i].outcome);
}

/* Where a text is wrong; side 0 where nothing is. */
static const struct {
    const char *text;
    uint32_t operation, side;
    size_t start, len;
} places[] = {
    { "a..b", GIX_REFSPEC_FETCH, GIX_REFSPEC_SOURCE, 1, 2 },
    { "+a:b.lock", GIX_REFSPEC_FETCH, GIX_REFSPEC_DESTINATION, 4, 5 },
    { "a*b*:c", GIX_REFSPEC_FETCH, GIX_REFSPEC_SOURCE, 3, 1 },
    { "a:b*", GIX_REFSPEC_PUSH, GIX_REFSPEC_DESTINATION, 3, 1 },
    { "^a:bc", GIX_REFSPEC_FETCH, GIX_REFSPEC_DESTINATION, 3, 2 },
    { "^1111111111111111111111111111111111111111", GIX_REFSPEC_PUSH, GIX_REFSPEC_SOURCE, 1, 40 },
    { "^a:", GIX_REFSPEC_FETCH, 0, 0, 0 },
    { "^", GIX_REFSPEC_FETCH, 0, 0, 0 },
    { "", GIX_REFSPEC_PUSH, 0, 0, 0 },
    { "a:", GIX_REFSPEC_PUSH, 0, 0, 0 },
    { "+a:b", GIX_REFSPEC_FETCH, 0, 0, 0 },
};

static void check_places(void)
{
    for (size_t i = 0; i < sizeof places / sizeof *places; i++) {
        gix_refspec_span span = { 7, 7, 7 };
        CHECK(gix_refspec_locate(BYTES(places[i].text), places[i].operation, &span) == GIX_REFSPEC_OK);
        CHECK(span.side == places[i].side && span.start == places[i].start && span.len == places[i].len);
    }
    gix_refspec_span span = { 7, 7, 7 };
    CHECK(gix_refspec_locate(BYTES("a..b"), 3, &span) == GIX_REFSPEC_NO_OPERATION);
    CHECK(span.side == 7 && span.start == 7 && span.len == 7);
}

static bool is(gix_refspec_text text, const char *bytes)
{
    return text.len == strlen(bytes) && memcmp(text.bytes, bytes, text.len) == 0;
}

static const struct {
    const char *text;
    uint32_t operation, kind, forced;
    const char *source, *destination;
} kinds[] = {
    { ":", GIX_REFSPEC_PUSH, GIX_REFSPEC_PUSH_ALL_MATCHING, 0, "", "" },
    { "+:", GIX_REFSPEC_PUSH, GIX_REFSPEC_PUSH_ALL_MATCHING, 1, "", "" },
    { ":main", GIX_REFSPEC_PUSH, GIX_REFSPEC_PUSH_DELETE, 0, "", "main" },
    { "main", GIX_REFSPEC_PUSH, GIX_REFSPEC_PUSH_MATCHING, 0, "main", "main" },
    { "+a:b", GIX_REFSPEC_PUSH, GIX_REFSPEC_PUSH_MATCHING, 1, "a", "b" },
    { "^a", GIX_REFSPEC_PUSH, GIX_REFSPEC_PUSH_EXCLUDE, 0, "a", "" },
    { "a", GIX_REFSPEC_FETCH, GIX_REFSPEC_FETCH_ONLY, 0, "a", "" },
    { "+@", GIX_REFSPEC_FETCH, GIX_REFSPEC_FETCH_ONLY, 0, "HEAD", "" },
    { "^a", GIX_REFSPEC_FETCH, GIX_REFSPEC_FETCH_EXCLUDE, 0, "a", "" },
    { "a:b", GIX_REFSPEC_FETCH, GIX_REFSPEC_FETCH_AND_UPDATE, 0, "a", "b" },
    { "+a:b", GIX_REFSPEC_FETCH, GIX_REFSPEC_FETCH_AND_UPDATE, 1, "a", "b" },
};

static void check_kinds(void)
{
    for (size_t i = 0; i < sizeof kinds / sizeof *kinds; i++) {
        gix_refspec_instruction parts = GIX_REFSPEC_PARTS_INIT;
        CHECK(gix_refspec_parts(BYTES(kinds[i].text), kinds[i].operation, &parts) == GIX_REFSPEC_OK);
        CHECK(parts.kind == kinds[i].kind && parts.forced == kinds[i].forced);
        CHECK(is(parts.source, kinds[i].source) && is(parts.destination, kinds[i].destination));
    }
}

static void check_parts(void)
{
    gix_refspec_instruction parts = GIX_REFSPEC_PARTS_INIT;
    const char *text = "+refs/heads/*:refs/remotes/origin/*";
    CHECK(gix_refspec_parts(BYTES(text), GIX_REFSPEC_FETCH, &parts) == GIX_REFSPEC_OK);
    CHECK(parts.kind == GIX_REFSPEC_FETCH_AND_UPDATE && parts.forced == 1);
    CHECK(is(parts.source, "refs/heads/*") && parts.source.bytes == (const uint8_t *)text + 1);
    CHECK(is(parts.destination, "refs/remotes/origin/*"));
    CHECK(gix_refspec_parts(BYTES("a b"), GIX_REFSPEC_FETCH, &parts) == GIX_REFSPEC_NAME_INVALID_BYTE);
    CHECK(gix_refspec_parts(BYTES("main"), 0, &parts) == GIX_REFSPEC_NO_OPERATION);
    CHECK(parts.kind == GIX_REFSPEC_FETCH_AND_UPDATE && is(parts.source, "refs/heads/*"));
    CHECK(gix_refspec_parts(BYTES("@"), GIX_REFSPEC_FETCH, &parts) == GIX_REFSPEC_OK);
    CHECK(parts.kind == GIX_REFSPEC_FETCH_ONLY && parts.forced == 0);
    CHECK(is(parts.source, "HEAD") && parts.destination.len == 0);
}

/* What the text itself says. */
static const struct {
    const char *text;
    uint32_t operation, mode, has_source, has_destination;
    const char *source, *destination;
} sides_rows[] = {
    { "+main", GIX_REFSPEC_FETCH, GIX_REFSPEC_FORCED, 1, 0, "main", "" },
    { "+@:refs/x", GIX_REFSPEC_FETCH, GIX_REFSPEC_FORCED, 1, 1, "HEAD", "refs/x" },
    { "", GIX_REFSPEC_FETCH, GIX_REFSPEC_NORMAL, 1, 0, "HEAD", "" },
    { "^a", GIX_REFSPEC_FETCH, GIX_REFSPEC_NEGATIVE, 1, 0, "a", "" },
    { "+:d", GIX_REFSPEC_PUSH, GIX_REFSPEC_FORCED, 0, 1, "", "d" },
    { "+:", GIX_REFSPEC_PUSH, GIX_REFSPEC_FORCED, 0, 0, "", "" },
    { "main", GIX_REFSPEC_PUSH, GIX_REFSPEC_NORMAL, 1, 0, "main", "" },
    { "main:main", GIX_REFSPEC_PUSH, GIX_REFSPEC_NORMAL, 1, 1, "main", "main" },
};

static void check_sides(void)
{
    gix_refspec_sides sides = GIX_REFSPEC_SIDES_INIT;
    for (size_t i = 0; i < sizeof sides_rows / sizeof *sides_rows; i++) {
        CHECK(gix_refspec_read(BYTES(sides_rows[i].text), sides_rows[i].operation, &sides) == GIX_REFSPEC_OK);
        CHECK(sides.mode == sides_rows[i].mode);
        CHECK(sides.has_source == sides_rows[i].has_source && sides.has_destination == sides_rows[i].has_destination);
        CHECK(is(sides.source, sides_rows[i].source) && is(sides.destination, sides_rows[i].destination));
    }
    CHECK(gix_refspec_read(BYTES("a*b*:c"), GIX_REFSPEC_FETCH, &sides) == GIX_REFSPEC_PATTERN_UNSUPPORTED);
    CHECK(gix_refspec_read(BYTES("main"), 3, &sides) == GIX_REFSPEC_NO_OPERATION);
    CHECK(sides.mode == GIX_REFSPEC_NORMAL && is(sides.destination, "main"));
}

static void check_order(void)
{
    int32_t order = 7;
    CHECK(gix_refspec_compare(BYTES("main"), BYTES("main:main"), GIX_REFSPEC_PUSH, &order) == 0 && order == 0);
    CHECK(gix_refspec_compare(BYTES("a"), BYTES("b"), GIX_REFSPEC_FETCH, &order) == 0 && order == -1);
    CHECK(gix_refspec_compare(BYTES("b"), BYTES("a"), GIX_REFSPEC_FETCH, &order) == 0 && order == 1);
    CHECK(gix_refspec_compare(BYTES("b"), BYTES("^"), GIX_REFSPEC_FETCH, &order) == GIX_REFSPEC_NEGATIVE_EMPTY);
    CHECK(gix_refspec_compare(BYTES("a b"), BYTES("^"), GIX_REFSPEC_FETCH, &order) == GIX_REFSPEC_NAME_INVALID_BYTE);
    CHECK(gix_refspec_compare(BYTES("a"), BYTES("b"), 3, &order) == GIX_REFSPEC_NO_OPERATION);
    CHECK(order == 1);
}

/* Whether nothing was written where all bytes were `x`. */
static bool is_untouched(const void *memory, size_t len)
{
    const char *bytes = memory;
    for (size_t i = 0; i < len; i++)
        if (bytes[i] != 'x')
            return false;
    return true;
}

/* A call that fills a buffer, and its answer. */
typedef uint32_t fills(uint8_t *buffer, size_t buffer_len, size_t *len);

static uint32_t canonical(uint8_t *buffer, size_t buffer_len, size_t *len)
{
    return gix_refspec_canonical(BYTES("+@:refs/x"), GIX_REFSPEC_FETCH, buffer, buffer_len, len);
}

static uint32_t print_delete(uint8_t *buffer, size_t buffer_len, size_t *len)
{
    const gix_refspec_instruction delete = { GIX_REFSPEC_PUSH_DELETE, 1, { BYTES("no side") }, { BYTES("refs/heads/*") } };
    return gix_refspec_print(&delete, buffer, buffer_len, len);
}

static void check_buffer(fills *fill, const char *answer)
{
    size_t needed = strlen(answer), len = 99;
    uint8_t buffer[256];
    memset(buffer, 'x', sizeof buffer);
    for (size_t room = 0; room < needed; room++) {
        len = 99;
        CHECK(fill(buffer, room, &len) == GIX_REFSPEC_TOO_SMALL && len == needed);
        CHECK(is_untouched(buffer, sizeof buffer));
    }
    for (size_t room = needed; room < needed + 2; room++) {
        memset(buffer, 'x', sizeof buffer);
        len = 99;
        CHECK(fill(buffer, room, &len) == GIX_REFSPEC_OK && len == needed);
        CHECK(memcmp(buffer, answer, needed) == 0 && is_untouched(buffer + needed, sizeof buffer - needed));
    }
    for (refused = 1;; refused++) {
        memset(buffer, 'x', sizeof buffer);
        growths = 0;
        len = 99;
        uint32_t outcome = fill(buffer, sizeof buffer, &len);
        if (growths < refused) {
            CHECK(outcome == GIX_REFSPEC_OK && refused > 1);
            break;
        }
        CHECK(outcome == GIX_REFSPEC_NO_MEMORY && len == 99 && is_untouched(buffer, sizeof buffer));
    }
    refused = 0;
}

/* The parts of a text print as its canonical text. */
static void check_printed(void)
{
    uint8_t canonical[64], printed[64];
    size_t canonical_len = 0, len = 0;
    gix_refspec_instruction parts = GIX_REFSPEC_PARTS_INIT;
    for (size_t i = 0; i < sizeof kinds / sizeof *kinds; i++) {
        uint32_t operation = kinds[i].operation;
        CHECK(gix_refspec_canonical(BYTES(kinds[i].text), operation, canonical, 64, &canonical_len) == GIX_REFSPEC_OK);
        CHECK(gix_refspec_parts(BYTES(kinds[i].text), operation, &parts) == GIX_REFSPEC_OK);
        CHECK(gix_refspec_print(&parts, printed, 64, &len) == GIX_REFSPEC_OK);
        CHECK(len == canonical_len && memcmp(printed, canonical, len) == 0);
    }
    check_buffer(print_delete, ":refs/heads/*");
    const uint32_t unknown[] = { 0, GIX_REFSPEC_FETCH_AND_UPDATE + 1, UINT32_MAX };
    len = 99;
    for (size_t i = 0; i < sizeof unknown / sizeof *unknown; i++) {
        parts.kind = unknown[i];
        CHECK(gix_refspec_print(&parts, printed, 64, &len) == GIX_REFSPEC_NO_OPERATION && len == 99);
    }
}

/* The canonical text of what the sides of a text make. */
static uint32_t from_sides(const char *text, uint32_t operation, uint8_t *buffer, size_t buffer_len, size_t *len)
{
    gix_refspec_sides sides = GIX_REFSPEC_SIDES_INIT;
    CHECK(gix_refspec_read(BYTES(text), operation, &sides) == GIX_REFSPEC_OK);
    return gix_refspec_from_parts(&sides, operation, buffer, buffer_len, len);
}

/* Sides that a caller gives, and what they make: an outcome, and if that is OK the canonical text. */
static const struct {
    gix_refspec_sides sides;
    uint32_t operation, outcome;
    const char *text;
} parts_rows[] = {
    { { GIX_REFSPEC_FORCED, 1, 1, { BYTES("refs/heads/*") }, { BYTES("refs/x/*") } }, GIX_REFSPEC_FETCH, GIX_REFSPEC_OK,
      "+refs/heads/*:refs/x/*" },
    { { GIX_REFSPEC_NORMAL, 7, 0, { BYTES("main") }, { BYTES("a b") } }, GIX_REFSPEC_FETCH, GIX_REFSPEC_OK, "main" },
    { { GIX_REFSPEC_NORMAL, 0, 7, { BYTES("a b") }, { BYTES("x") } }, GIX_REFSPEC_PUSH, GIX_REFSPEC_OK, ":x" },
    { { GIX_REFSPEC_FORCED, 0, 1, { NULL, 0 }, { NULL, 0 } }, GIX_REFSPEC_PUSH, GIX_REFSPEC_OK, "+:" },
    { { GIX_REFSPEC_NEGATIVE, 1, 0, { BYTES("a") }, { NULL, 0 } }, GIX_REFSPEC_FETCH, GIX_REFSPEC_OK, "^a" },
    { { GIX_REFSPEC_NORMAL, 1, 1, { BYTES(":/fix") }, { BYTES("x") } }, GIX_REFSPEC_PUSH, GIX_REFSPEC_OK, ":/fix:x" },
    { { GIX_REFSPEC_NORMAL, 1, 0, { BYTES("+a") }, { NULL, 0 } }, GIX_REFSPEC_FETCH, GIX_REFSPEC_OTHER_PARTS, "" },
    { { GIX_REFSPEC_NORMAL, 1, 1, { BYTES("a") }, { BYTES("b:c") } }, GIX_REFSPEC_PUSH, GIX_REFSPEC_OTHER_PARTS, "" },
    { { GIX_REFSPEC_NORMAL, 1, 0, { BYTES("a:b") }, { NULL, 0 } }, GIX_REFSPEC_FETCH, GIX_REFSPEC_OTHER_PARTS, "" },
    { { GIX_REFSPEC_FORCED, 1, 1, { BYTES("a..b") }, { BYTES("c") } }, GIX_REFSPEC_FETCH, GIX_REFSPEC_NAME_REPEATED_DOT, "" },
    { { GIX_REFSPEC_NEGATIVE, 1, 1, { BYTES("a") }, { BYTES("c") } }, GIX_REFSPEC_FETCH,
      GIX_REFSPEC_NEGATIVE_WITH_DESTINATION, "" },
    { { 0, 1, 0, { BYTES("a") }, { NULL, 0 } }, GIX_REFSPEC_FETCH, GIX_REFSPEC_NO_OPERATION, "" },
    { { 4, 1, 0, { BYTES("a") }, { NULL, 0 } }, GIX_REFSPEC_FETCH, GIX_REFSPEC_NO_OPERATION, "" },
    { { GIX_REFSPEC_NORMAL, 1, 0, { BYTES("a") }, { NULL, 0 } }, 3, GIX_REFSPEC_NO_OPERATION, "" },
};

static uint32_t make_forced(uint8_t *buffer, size_t buffer_len, size_t *len)
{
    return gix_refspec_from_parts(&parts_rows[0].sides, GIX_REFSPEC_FETCH, buffer, buffer_len, len);
}

static void check_made(void)
{
    uint8_t canonical[64], buffer[64];
    size_t canonical_len = 0, len = 0;
    for (size_t i = 0; i < sizeof kinds / sizeof *kinds; i++) {
        if (kinds[i].kind == GIX_REFSPEC_PUSH_ALL_MATCHING)
            continue; /* Without any side the text has no colon. */
        CHECK(gix_refspec_canonical(BYTES(kinds[i].text), kinds[i].operation, canonical, 64, &canonical_len) == 0);
        CHECK(from_sides(kinds[i].text, kinds[i].operation, buffer, 64, &len) == GIX_REFSPEC_OK);
        CHECK(len == canonical_len && memcmp(buffer, canonical, len) == 0);
    }
    for (size_t i = 0; i < sizeof parts_rows / sizeof *parts_rows; i++) {
        memset(buffer, 'x', sizeof buffer);
        len = 99;
        CHECK(gix_refspec_from_parts(&parts_rows[i].sides, parts_rows[i].operation, buffer, 64, &len) == parts_rows[i].outcome);
        if (parts_rows[i].outcome == GIX_REFSPEC_OK)
            CHECK(len == strlen(parts_rows[i].text) && memcmp(buffer, parts_rows[i].text, len) == 0);
        else
            CHECK(len == 99 && is_untouched(buffer, sizeof buffer));
    }
    check_buffer(make_forced, "+refs/heads/*:refs/x/*");
}

/* What git remote add, git remote add --mirror=fetch and hosts of reviews have as values. */
static const struct {
    uint32_t value;
    const char *remote, *branch;
    uint32_t outcome;
    const char *text;
} value_rows[] = {
    { GIX_REFSPEC_BRANCH, "origin", "*", GIX_REFSPEC_OK, "+refs/heads/*:refs/remotes/origin/*" },
    { GIX_REFSPEC_BRANCH, "a/b", "main", GIX_REFSPEC_OK, "+refs/heads/main:refs/remotes/a/b/main" },
    { GIX_REFSPEC_MIRROR, "a b", "*", GIX_REFSPEC_OK, "+refs/*:refs/*" },
    { GIX_REFSPEC_MIRROR, "", "heads/main", GIX_REFSPEC_OK, "+refs/heads/main:refs/heads/main" },
    { GIX_REFSPEC_PULL_REQUESTS, "up", "a b", GIX_REFSPEC_OK, "+refs/pull/*/head:refs/remotes/up/pr/*" },
    { GIX_REFSPEC_MERGE_REQUESTS, "up", "", GIX_REFSPEC_OK, "+refs/merge-requests/*/head:refs/remotes/up/merge-requests/*" },
    { GIX_REFSPEC_BRANCH, "origin", "a..b", GIX_REFSPEC_NAME_REPEATED_DOT, "" },
    { GIX_REFSPEC_BRANCH, "a:b", "*", GIX_REFSPEC_OTHER_PARTS, "" },
    { GIX_REFSPEC_PULL_REQUESTS, "a*", "", GIX_REFSPEC_PATTERN_UNSUPPORTED, "" },
    { 0, "origin", "*", GIX_REFSPEC_NO_OPERATION, "" },
    { 5, "origin", "*", GIX_REFSPEC_NO_OPERATION, "" },
};

static uint32_t value_of_branch(uint8_t *buffer, size_t buffer_len, size_t *len)
{
    return gix_refspec_remote_value(GIX_REFSPEC_BRANCH, BYTES("origin"), BYTES("*"), buffer, buffer_len, len);
}

static void check_values(void)
{
    uint8_t buffer[64];
    size_t len;
    for (size_t i = 0; i < sizeof value_rows / sizeof *value_rows; i++) {
        memset(buffer, 'x', sizeof buffer);
        len = 99;
        CHECK(gix_refspec_remote_value(value_rows[i].value, BYTES(value_rows[i].remote), BYTES(value_rows[i].branch), buffer, 64,
                                       &len) == value_rows[i].outcome);
        if (value_rows[i].outcome == GIX_REFSPEC_OK)
            CHECK(len == strlen(value_rows[i].text) && memcmp(buffer, value_rows[i].text, len) == 0);
        else
            CHECK(len == 99 && is_untouched(buffer, sizeof buffer));
    }
    check_buffer(value_of_branch, "+refs/heads/*:refs/remotes/origin/*");
}

/* What git fetch --prefetch of Git 2.39 applies in place of a configured value, and what git remote rename makes of it. */
static const struct {
    const char *text, *prefetched;
} prefetch_rows[] = {
    { "refs/heads/*:refs/remotes/origin/*", "+refs/heads/*:refs/prefetch/remotes/origin/*" },
    { "+main:x", "+main:refs/prefetch/x" },
    { "^refs/heads/wip", "^refs/heads/wip" },
    { "refs/tags/*:refs/tags/*", "" },
    { "main", "" },
};
static const struct {
    const char *value, *old_name, *new_name, *renamed;
} rename_rows[] = {
    { "+refs/heads/*:refs/remotes/origin/*", "origin", "up", "+refs/heads/*:refs/remotes/up/*" },
    { "refs/heads/x:refs/remotes/o/x", "o", "n/p", "refs/heads/x:refs/remotes/n/p/x" },
    { "a b:refs/remotes/o/:refs/remotes/o/x", "o", "", "a b:refs/remotes//:refs/remotes/o/x" }, /* Git refuses such a value */
    { "+refs/heads/*:refs/remotes/origin/*", "orig", "up", "" },
    { "^refs/remotes/origin/a", "origin", "up", "" },
};

static uint32_t prefetched(uint8_t *buffer, size_t buffer_len, size_t *len)
{
    return gix_refspec_prefetched(BYTES(prefetch_rows[0].text), buffer, buffer_len, len);
}

static uint32_t renamed(uint8_t *buffer, size_t buffer_len, size_t *len)
{
    return gix_refspec_renamed(BYTES(rename_rows[0].value), BYTES("origin"), BYTES("up"), buffer, buffer_len, len);
}

static void check_rewritten(void)
{
    uint8_t buffer[64];
    size_t len = 99;
    for (size_t i = 0; i < sizeof prefetch_rows / sizeof *prefetch_rows; i++) {
        CHECK(gix_refspec_prefetched(BYTES(prefetch_rows[i].text), buffer, 64, &len) == GIX_REFSPEC_OK);
        CHECK(len == strlen(prefetch_rows[i].prefetched) && memcmp(buffer, prefetch_rows[i].prefetched, len) == 0);
    }
    for (size_t i = 0; i < sizeof rename_rows / sizeof *rename_rows; i++) {
        CHECK(gix_refspec_renamed(BYTES(rename_rows[i].value), BYTES(rename_rows[i].old_name), BYTES(rename_rows[i].new_name),
                                  buffer, 64, &len) == GIX_REFSPEC_OK);
        CHECK(len == strlen(rename_rows[i].renamed) && memcmp(buffer, rename_rows[i].renamed, len) == 0);
    }
    check_buffer(prefetched, prefetch_rows[0].prefetched);
    check_buffer(renamed, rename_rows[0].renamed);
    memset(buffer, 'x', sizeof buffer);
    len = 99;
    CHECK(gix_refspec_prefetched(BYTES("^"), buffer, 64, &len) == GIX_REFSPEC_NEGATIVE_EMPTY);
    CHECK(len == 99 && is_untouched(buffer, sizeof buffer));
}

/* What Git makes of a name, if a remote has this ref and the command line this spec. */
static const struct {
    const char *text, *name;
    uint32_t operation, mapped, has_destination;
    const char *made;
} name_rows[] = {
    { "+refs/heads/*:refs/o/*", "refs/heads/main", GIX_REFSPEC_FETCH, 1, 1, "refs/o/main" },
    { "+refs/heads/*:refs/o/*", "refs/tags/v1", GIX_REFSPEC_FETCH, 0, 0, "" },
    { "main:x", "refs/heads/main", GIX_REFSPEC_FETCH, 1, 1, "refs/heads/x" },
    { "main", "refs/tags/main", GIX_REFSPEC_FETCH, 1, 0, "" },
    { "main", "refs/heads/main", GIX_REFSPEC_PUSH, 1, 0, "" },
    { "main:main", "refs/heads/main", GIX_REFSPEC_PUSH, 1, 1, "refs/heads/main" },
    { "^refs/heads/*", "refs/heads/main", GIX_REFSPEC_FETCH, 0, 0, "" },
    { "1111111111111111111111111111111111111111:refs/x", "refs/heads/main", GIX_REFSPEC_FETCH, 0, 0, "" },
};

static uint32_t map_main(uint8_t *buffer, size_t buffer_len, size_t *len)
{
    gix_refspec_made made = { 0, 0, *len };
    uint32_t outcome = gix_refspec_map(BYTES("refs/heads/*:refs/o/*"), GIX_REFSPEC_FETCH, BYTES("refs/heads/main"),
                                       buffer, buffer_len, &made);
    CHECK(made.mapped == (outcome != GIX_REFSPEC_NO_MEMORY) && made.has_destination == made.mapped);
    *len = made.len;
    return outcome;
}

static uint32_t map_back(uint8_t *buffer, size_t buffer_len, size_t *len)
{
    gix_refspec_made made = { 0, 0, *len };
    uint32_t outcome = gix_refspec_map_back(BYTES("refs/heads/*:refs/o/*"), GIX_REFSPEC_FETCH, BYTES("refs/o/main"),
                                            buffer, buffer_len, &made);
    CHECK(made.mapped == (outcome != GIX_REFSPEC_NO_MEMORY) && made.has_destination == made.mapped);
    *len = made.len;
    return outcome;
}

static void check_mapped_names(void)
{
    uint8_t buffer[32] = "xxx";
    gix_refspec_made made = GIX_REFSPEC_MADE_INIT;
    for (size_t i = 0; i < sizeof name_rows / sizeof *name_rows; i++) {
        uint32_t outcome = gix_refspec_map(BYTES(name_rows[i].text), name_rows[i].operation, BYTES(name_rows[i].name),
                                           buffer, 32, &made);
        CHECK(outcome == GIX_REFSPEC_OK);
        CHECK(made.mapped == name_rows[i].mapped);
        CHECK(made.has_destination == name_rows[i].has_destination);
        CHECK(made.len == strlen(name_rows[i].made) && memcmp(buffer, name_rows[i].made, made.len) == 0);
    }
    check_buffer(map_main, "refs/o/main");
    check_buffer(map_back, "refs/heads/main");
    CHECK(gix_refspec_map_back(BYTES("a:refs/b"), GIX_REFSPEC_FETCH, BYTES("refs/c"), NULL, 0, &made) == 0);
    CHECK(made.mapped == 0 && made.has_destination == 0 && made.len == 0);
    made = (gix_refspec_made){ 7, 7, 7 };
    memset(buffer, 'x', sizeof buffer);
    uint32_t refusal = gix_refspec_map(BYTES("a b"), GIX_REFSPEC_FETCH, BYTES("a"), buffer, 32, &made);
    CHECK(refusal == GIX_REFSPEC_NAME_INVALID_BYTE);
    CHECK(gix_refspec_map_back(BYTES("a"), 3, BYTES("a"), buffer, 32, &made) == GIX_REFSPEC_NO_OPERATION);
    CHECK(made.mapped == 7 && made.has_destination == 7 && made.len == 7 && is_untouched(buffer, 32));
}

static void check_other_texts(void)
{
    uint8_t buffer[8] = "xxxxxxx";
    size_t len = 99;
    CHECK(gix_refspec_canonical(BYTES("a b"), GIX_REFSPEC_FETCH, buffer, 8, &len) == GIX_REFSPEC_NAME_INVALID_BYTE);
    CHECK(gix_refspec_canonical(BYTES("a"), 3, buffer, 8, &len) == GIX_REFSPEC_NO_OPERATION);
    CHECK(len == 99 && is_untouched(buffer, 7));
}

#define TEXT(text) { BYTES(text) }

static void check_explanations(void)
{
    for (uint32_t outcome = 0; outcome <= GIX_REFSPEC_OTHER_PARTS; outcome++) {
        gix_refspec_text sentence = GIX_REFSPEC_TEXT_INIT;
        CHECK(gix_refspec_explanation(outcome, &sentence) == GIX_REFSPEC_OK);
        CHECK(sentence.len > 10 && memchr(sentence.bytes, 0, sentence.len + 1) == sentence.bytes + sentence.len);
        CHECK(sentence.bytes[sentence.len - 1] == '.');
    }
    const uint32_t unknown[] = { GIX_REFSPEC_OTHER_PARTS + 1, 99, UINT32_MAX };
    for (size_t i = 0; i < sizeof unknown / sizeof *unknown; i++) {
        gix_refspec_text none = TEXT("as it was");
        CHECK(gix_refspec_explanation(unknown[i], &none) == GIX_REFSPEC_NO_OPERATION && is(none, "as it was"));
    }
}

static const struct {
    const char *text;
    uint32_t operation;
    const char *prefix, *lines;
} prefix_rows[] = {
    { "refs/heads/*:refs/x/*", GIX_REFSPEC_FETCH, "refs/heads/", "refs/heads/\n" },
    { "refs/heads/a:refs/x/a", GIX_REFSPEC_FETCH, "refs/heads/a", "refs/heads/a\n" },
    { "refs/heads/a:refs/x/a", GIX_REFSPEC_PUSH, "refs/x/a", "refs/x/a\n" },
    { "refs/heads/a", GIX_REFSPEC_PUSH, "", "" },
    { "refs/heads/a:refs/heads/a", GIX_REFSPEC_PUSH, "refs/heads/a", "refs/heads/a\n" },
    { "a", GIX_REFSPEC_PUSH, "", "" },
    { "a:a", GIX_REFSPEC_PUSH, "", "a\nrefs/a\nrefs/tags/a\nrefs/heads/a\nrefs/remotes/a\nrefs/remotes/a/HEAD\n" },
    { "@", GIX_REFSPEC_FETCH, "HEAD", "HEAD\n" },
    { "v1", GIX_REFSPEC_FETCH, "", "v1\nrefs/v1\nrefs/tags/v1\nrefs/heads/v1\nrefs/remotes/v1\nrefs/remotes/v1/HEAD\n" },
    { "1111111111111111111111111111111111111111", GIX_REFSPEC_FETCH, "", "" },
    { "^refs/heads/a", GIX_REFSPEC_FETCH, "", "" },
    { "refs/*:refs/x/*", GIX_REFSPEC_FETCH, "", "refs/*\n" },
};

/* The row that is asked for by the calls below. */
static _Thread_local size_t prefix_row;

static uint32_t expand(uint8_t *buffer, size_t buffer_len, size_t *len)
{
    return gix_refspec_expand_prefixes(BYTES(prefix_rows[prefix_row].text), prefix_rows[prefix_row].operation, buffer,
                                       buffer_len, len);
}

static void check_prefixes_of_one(void)
{
    gix_refspec_text prefix = GIX_REFSPEC_TEXT_INIT;
    uint8_t buffer[4] = "xxx";
    size_t len = 99, rows = sizeof prefix_rows / sizeof *prefix_rows;
    for (prefix_row = 0; prefix_row < rows; prefix_row++) {
        CHECK(gix_refspec_prefix(BYTES(prefix_rows[prefix_row].text), prefix_rows[prefix_row].operation, &prefix) == 0);
        CHECK(is(prefix, prefix_rows[prefix_row].prefix));
        uint8_t all[128];
        CHECK(expand(all, sizeof all, &len) == GIX_REFSPEC_OK);
        CHECK(len == strlen(prefix_rows[prefix_row].lines) && memcmp(all, prefix_rows[prefix_row].lines, len) == 0);
    }
    CHECK(gix_refspec_prefix(BYTES("refs/a"), GIX_REFSPEC_FETCH, &prefix) == 0 && is(prefix, "refs/a"));
    CHECK(gix_refspec_prefix(BYTES("a b"), GIX_REFSPEC_FETCH, &prefix) == GIX_REFSPEC_NAME_INVALID_BYTE);
    CHECK(gix_refspec_prefix(BYTES("b"), 3, &prefix) == GIX_REFSPEC_NO_OPERATION && is(prefix, "refs/a"));
    len = 99;
    CHECK(gix_refspec_expand_prefixes(BYTES("a b"), GIX_REFSPEC_FETCH, buffer, 4, &len) == GIX_REFSPEC_NAME_INVALID_BYTE);
    CHECK(gix_refspec_expand_prefixes(BYTES("a"), 0, buffer, 4, &len) == GIX_REFSPEC_NO_OPERATION);
    CHECK(len == 99 && is_untouched(buffer, 3));
    for (prefix_row = 0; strcmp(prefix_rows[prefix_row].text, "v1") != 0; prefix_row++)
        ;
    check_buffer(expand, prefix_rows[prefix_row].lines);
}

static uint32_t prefixes(uint8_t *buffer, size_t buffer_len, size_t *len)
{
    gix_refspec_text texts[] = { TEXT("+refs/heads/*:refs/x/*"), TEXT("^refs/heads/a"), TEXT("refs/tags/v1") };
    return gix_refspec_prefixes(texts, 3, GIX_REFSPEC_FETCH, buffer, buffer_len, len);
}

static void check_groups(void)
{
    uint8_t buffer[16] = "x";
    size_t len = 99;
    gix_refspec_text texts[] = { TEXT("main"), TEXT("*:refs/x/*"), TEXT("a b"), TEXT("^") };
    CHECK(gix_refspec_prefixes(texts, 2, GIX_REFSPEC_FETCH, buffer, 16, &len) == GIX_REFSPEC_NO_LIST);
    CHECK(gix_refspec_prefixes(texts, 4, GIX_REFSPEC_FETCH, buffer, 16, &len) == GIX_REFSPEC_NAME_INVALID_BYTE);
    CHECK(gix_refspec_prefixes(texts, 0, 0, buffer, 16, &len) == GIX_REFSPEC_NO_OPERATION);
    CHECK(len == 99 && buffer[0] == 'x');
    CHECK(gix_refspec_prefixes(texts, 0, GIX_REFSPEC_PUSH, buffer, 0, &len) == GIX_REFSPEC_OK && len == 0);
    gix_refspec_text push = TEXT("a:refs/heads/b");
    CHECK(gix_refspec_prefixes(&push, 1, GIX_REFSPEC_PUSH, buffer, 16, &len) == GIX_REFSPEC_OK);
    CHECK(len == 13 && memcmp(buffer, "refs/heads/b\n", 13) == 0);
    gix_refspec_text begun[] = { TEXT("refs/heads/a"), TEXT("refs/heads/*:refs/x/*") };
    CHECK(gix_refspec_prefixes(begun, 2, GIX_REFSPEC_FETCH, buffer, 16, &len) == GIX_REFSPEC_OK);
    CHECK(len == 12 && memcmp(buffer, "refs/heads/\n", 12) == 0);
}

static const gix_refspec_text names[] = { TEXT("refs/heads/a"), TEXT("refs/heads/b"), TEXT("refs/tags/b") };

/* A call that fills a list of mappings and a buffer. */
typedef uint32_t lists(gix_refspec_mapping *mappings, size_t room, uint8_t *buffer, size_t buffer_len, size_t *count,
                       size_t *len);

/* Makes a call of so many mappings with growths refused, at smaller sizes, and at the exact ones. `made` has room for one
 * more, and holds the mappings afterwards. */
static void check_lists(lists *list, size_t told, const char *answer, uint32_t done, gix_refspec_mapping *made)
{
    const size_t needed = strlen(answer), size = (told + 1) * sizeof *made;
    size_t count, len;
    uint8_t buffer[128];
    for (refused = 1;; refused++) {
        memset(made, 'x', size);
        memset(buffer, 'x', sizeof buffer);
        growths = 0;
        count = len = 99;
        uint32_t outcome = list(made, told + 1, buffer, sizeof buffer, &count, &len);
        if (growths < refused) {
            CHECK(outcome == done && refused > 1);
            break;
        }
        CHECK(outcome == GIX_REFSPEC_NO_MEMORY && count == 99 && len == 99);
        CHECK(is_untouched(made, size) && is_untouched(buffer, sizeof buffer));
    }
    refused = 0;
    memset(made, 'x', size);
    memset(buffer, 'x', sizeof buffer);
    const size_t rooms[][2] = { { told - 1, needed }, { told, needed - 1 }, { told - 1, needed - 1 },
                                { told - 1, sizeof buffer }, { told + 1, needed - 1 }, { 0, needed }, { told, 0 } };
    for (size_t i = 0; i < sizeof rooms / sizeof *rooms; i++) {
        count = len = 99;
        CHECK(list(made, rooms[i][0], buffer, rooms[i][1], &count, &len) == GIX_REFSPEC_TOO_SMALL);
        CHECK(count == told && len == needed && is_untouched(made, size) && is_untouched(buffer, sizeof buffer));
    }
    count = len = 99;
    CHECK(list(made, told, buffer, needed, &count, &len) == done);
    CHECK(count == told && len == needed && memcmp(buffer, answer, needed) == 0);
    CHECK(is_untouched(buffer + needed, sizeof buffer - needed) && is_untouched(made + told, sizeof *made));
}

static uint32_t match(gix_refspec_mapping *mappings, size_t room, uint8_t *buffer, size_t buffer_len, size_t *count,
                      size_t *len)
{
    gix_refspec_text texts[] = { TEXT("+refs/heads/*:refs/x/*"), TEXT("^refs/heads/a"),
                                 TEXT("1111111111111111111111111111111111111111"), TEXT("+b") };
    return gix_refspec_match(texts, 4, names, 3, GIX_REFSPEC_FORWARD, mappings, room, buffer, buffer_len, count, len);
}

static void check_mappings(void)
{
    gix_refspec_mapping made[4];
    check_lists(match, 3, "1111111111111111111111111111111111111111refs/x/b", GIX_REFSPEC_OK, made);
    CHECK(made[0].spec == 2 && made[0].item == GIX_REFSPEC_NO_ITEM && made[0].has_destination == 0);
    CHECK(made[0].id_at == 0 && made[0].id_len == 40 && made[0].made_len == 0 && made[0].forced == 0);
    CHECK(made[1].spec == 0 && made[1].item == 1 && made[1].has_destination == 1 && made[1].verdict == 0
          && made[1].origin == 0);
    CHECK(made[1].id_len == 0 && made[1].made_at == 40 && made[1].made_len == 8 && made[1].forced == 1);
    /* Without a destination nothing is forced, whatever the sign. */
    CHECK(made[2].forced == 0 && made[2].spec == 3 && made[2].item == 2 && made[2].has_destination == 0 && made[2].made_len == 0);
}

static const gix_refspec_text back[] = { TEXT("+refs/x/*:refs/heads/*"), TEXT("^refs/x/a"),
                                         TEXT("refs/x/c:1111111111111111111111111111111111111111"), TEXT("a b") };

static uint32_t match_back(gix_refspec_mapping *mappings, size_t room, uint8_t *buffer, size_t buffer_len, size_t *count,
                           size_t *len)
{
    return gix_refspec_match(back, 2, names, 3, GIX_REFSPEC_BACKWARD, mappings, room, buffer, buffer_len, count, len);
}

static void check_looking_back(void)
{
    gix_refspec_mapping made[4];
    uint8_t buffer[16];
    size_t count = 9, len = 99;
    check_lists(match_back, 1, "refs/x/b", GIX_REFSPEC_OK, made);
    CHECK(made[0].spec == 0 && made[0].item == 1 && made[0].has_destination == 1 && made[0].verdict == 0);
    CHECK(made[0].forced == 1 && made[0].id_len == 0 && made[0].made_at == 0 && made[0].made_len == 8);
    CHECK(gix_refspec_match(back, 3, names, 3, GIX_REFSPEC_BACKWARD, made, 4, buffer, 16, &count, &len)
          == GIX_REFSPEC_NEEDS_IDS);
    CHECK(count == 9 && len == 99);
    CHECK(gix_refspec_match(back, 3, names, 3, GIX_REFSPEC_FORWARD, made, 4, buffer, 16, &count, &len) == 0);
    CHECK(count == 0 && len == 0);
    count = len = 99;
    CHECK(gix_refspec_match(back, 4, names, 3, GIX_REFSPEC_FORWARD, made, 4, buffer, 16, &count, &len)
          == GIX_REFSPEC_NAME_INVALID_BYTE);
    CHECK(gix_refspec_match(back, 4, names, 3, 0, made, 4, buffer, 16, &count, &len) == GIX_REFSPEC_NO_OPERATION);
    CHECK(gix_refspec_match(back, 4, names, 3, 3, made, 4, buffer, 16, &count, &len) == GIX_REFSPEC_NO_OPERATION);
    CHECK(count == 99 && len == 99);
}

#define ONES "1111111111111111111111111111111111111111"
#define TWOS "2222222222222222222222222222222222222222"

static const gix_refspec_spec both[] = {
    { TEXT("+refs/heads/*:refs/x/*"), GIX_REFSPEC_PUSH }, { TEXT("^refs/heads/a"), GIX_REFSPEC_FETCH },
    { TEXT("b"), GIX_REFSPEC_PUSH }, { TEXT("refs/y:" ONES), GIX_REFSPEC_FETCH }, { TEXT("a:"), GIX_REFSPEC_PUSH },
};
static const gix_refspec_ref tagged[] = {
    { TEXT("refs/heads/a"), TEXT(TWOS), { NULL, 0 } }, { TEXT("refs/heads/b"), TEXT(TWOS), TEXT(ONES) },
    { TEXT("refs/tags/b"), { NULL, 0 }, { NULL, 0 } }, { TEXT("refs/heads/c"), TEXT("abc"), { NULL, 0 } },
};

static uint32_t match_both(gix_refspec_mapping *mappings, size_t room, uint8_t *buffer, size_t buffer_len, size_t *count,
                           size_t *len)
{
    return gix_refspec_match_refs(both, 3, tagged, 3, GIX_REFSPEC_FORWARD, mappings, room, buffer, buffer_len, count, len);
}

static uint32_t match_ids(gix_refspec_mapping *mappings, size_t room, uint8_t *buffer, size_t buffer_len, size_t *count,
                          size_t *len)
{
    return gix_refspec_match_refs(both, 4, tagged, 2, GIX_REFSPEC_BACKWARD, mappings, room, buffer, buffer_len, count, len);
}

static void check_refs(void)
{
    gix_refspec_mapping made[4];
    uint8_t buffer[16];
    size_t count = 9, len = 99;
    check_lists(match_both, 2, "refs/x/b", GIX_REFSPEC_OK, made);
    CHECK(made[0].spec == 0 && made[0].item == 1 && made[0].has_destination == 1 && made[0].forced == 1);
    CHECK(made[1].spec == 2 && made[1].item == 2 && made[1].has_destination == 0);
    check_lists(match_ids, 1, "refs/y", GIX_REFSPEC_OK, made);
    CHECK(made[0].spec == 3 && made[0].item == 1 && made[0].has_destination == 1 && made[0].id_len == 0);
    const struct {
        size_t specs, refs;
        uint32_t direction, outcome;
    } rows[] = {
        { 4, 3, GIX_REFSPEC_BACKWARD, GIX_REFSPEC_NEEDS_IDS }, { 4, 4, GIX_REFSPEC_FORWARD, GIX_REFSPEC_INVALID_ID },
        { 5, 4, GIX_REFSPEC_BACKWARD, GIX_REFSPEC_PUSH_TO_EMPTY }, { 3, 3, 3, GIX_REFSPEC_NO_OPERATION },
    };
    for (size_t i = 0; i < sizeof rows / sizeof *rows; i++)
        CHECK(gix_refspec_match_refs(both, rows[i].specs, tagged, rows[i].refs, rows[i].direction, made, 4, buffer, 16, &count,
                                     &len) == rows[i].outcome);
    const gix_refspec_spec unknown[] = { both[0], { TEXT("a"), 3 } };
    CHECK(gix_refspec_match_refs(unknown, 2, tagged, 3, GIX_REFSPEC_FORWARD, made, 4, buffer, 16, &count, &len)
          == GIX_REFSPEC_NO_OPERATION);
    CHECK(count == 9 && len == 99);
    CHECK(gix_refspec_match_refs(both, 3, tagged, 3, GIX_REFSPEC_BACKWARD, made, 4, buffer, 16, &count, &len) == 0 && count == 0);
}

/* Mappings as a caller makes them: the verdict on each, and in a conflict the first to its destination. */
static const struct {
    gix_refspec_pair pair;
    uint32_t verdict;
    size_t first;
} pair_rows[] = {
    { { TEXT("refs/heads/a"), TEXT("refs/x"), 0, 1 }, GIX_REFSPEC_PAIR_IN_CONFLICT, 0 },
    { { TEXT("refs/heads/a"), TEXT("refs/y"), 0, 1 }, GIX_REFSPEC_PAIR_KEPT, GIX_REFSPEC_NO_PAIR },
    { { TEXT("refs/heads/b"), TEXT("foo/x"), 0, 7 }, GIX_REFSPEC_PAIR_REMOVED, GIX_REFSPEC_NO_PAIR },
    { { TEXT("refs/heads/b"), TEXT("HEAD"), 0, 1 }, GIX_REFSPEC_PAIR_KEPT, GIX_REFSPEC_NO_PAIR },
    { { TEXT("refs/heads/b"), TEXT("refs/x"), 0, 0 }, GIX_REFSPEC_PAIR_KEPT, GIX_REFSPEC_NO_PAIR },
    { { TEXT("refs/heads/b"), TEXT("refs/x"), 0, 1 }, GIX_REFSPEC_PAIR_IN_CONFLICT, 0 },
    { { TEXT("refs/heads/a"), TEXT("refs/x"), 0, 1 }, GIX_REFSPEC_PAIR_IN_CONFLICT, 0 },
    { { TEXT("refs/heads/a"), TEXT("refs/y"), 0, 1 }, GIX_REFSPEC_PAIR_KEPT, GIX_REFSPEC_NO_PAIR },
    { { TEXT(ONES), TEXT("z"), 0, 1 }, GIX_REFSPEC_PAIR_IN_CONFLICT, 8 },
    { { TEXT(ONES), TEXT("z"), 1, 1 }, GIX_REFSPEC_PAIR_IN_CONFLICT, 8 },
    { { TEXT(ONES), TEXT("refs/z"), 1, 1 }, GIX_REFSPEC_PAIR_KEPT, GIX_REFSPEC_NO_PAIR },
    { { TEXT(ONES), TEXT("refs/z"), 2, 1 }, GIX_REFSPEC_PAIR_KEPT, GIX_REFSPEC_NO_PAIR },
};

static void check_pairs(void)
{
    enum { rows = sizeof pair_rows / sizeof *pair_rows };
    gix_refspec_pair pairs[rows];
    gix_refspec_pair_verdict verdicts[rows + 1];
    for (size_t i = 0; i < rows; i++)
        pairs[i] = pair_rows[i].pair;
    for (refused = 1;; refused++) {
        memset(verdicts, 'x', sizeof verdicts);
        growths = 0;
        uint32_t outcome = gix_refspec_validate(pairs, rows, verdicts, rows + 1);
        if (growths < refused) {
            CHECK(outcome == GIX_REFSPEC_IN_CONFLICT && refused > 1);
            break;
        }
        CHECK(outcome == GIX_REFSPEC_NO_MEMORY && is_untouched(verdicts, sizeof verdicts));
    }
    refused = 0;
    for (size_t i = 0; i < rows; i++)
        CHECK(verdicts[i].verdict == pair_rows[i].verdict && verdicts[i].first == pair_rows[i].first);
    CHECK(is_untouched(verdicts + rows, sizeof *verdicts));
    memset(verdicts, 'x', sizeof verdicts);
    for (size_t room = 0; room < rows; room++)
        CHECK(gix_refspec_validate(pairs, rows, verdicts, room) == GIX_REFSPEC_TOO_SMALL);
    CHECK(is_untouched(verdicts, sizeof verdicts));
    CHECK(gix_refspec_validate(pairs + 1, 4, verdicts, 4) == GIX_REFSPEC_OK);
    CHECK(verdicts[0].verdict == GIX_REFSPEC_PAIR_KEPT && verdicts[1].verdict == GIX_REFSPEC_PAIR_REMOVED);
    CHECK(is_untouched(verdicts + 4, (rows - 3) * sizeof *verdicts));
    CHECK(gix_refspec_validate(NULL, 0, NULL, 0) == GIX_REFSPEC_OK);
}

static const gix_refspec_text planned[] = {
    TEXT("refs/heads/a:refs/x/a"), TEXT("refs/tags/*:other/*"), TEXT("refs/remotes/*ck:refs/x/*"),
    TEXT("+refs/heads/b:refs/x/a.lo"), TEXT("+refs/tags/b"), TEXT("1111111111111111111111111111111111111111:refs/y"),
    TEXT("+refs/heads/b:refs/y"), TEXT("refs/heads/gone:refs/z"), TEXT("a b")
};

static uint32_t plan(size_t texts, gix_refspec_mapping *mappings, size_t room, uint8_t *buffer, size_t buffer_len,
                     size_t *count, size_t *len)
{
    const gix_refspec_text items[] = { names[0], names[1], names[2], TEXT("refs/remotes/a.lock") };
    const gix_refspec_wish wish = { .given = planned, .given_count = texts };
    return gix_refspec_plan(&wish, items, 4, mappings, room, buffer, buffer_len, count, len);
}

static uint32_t plan_of_eight(gix_refspec_mapping *mappings, size_t room, uint8_t *buffer, size_t buffer_len,
                              size_t *count, size_t *len)
{
    return plan(8, mappings, room, buffer, buffer_len, count, len);
}

static uint32_t plan_of_seven(gix_refspec_mapping *mappings, size_t room, uint8_t *buffer, size_t buffer_len,
                              size_t *count, size_t *len)
{
    return plan(7, mappings, room, buffer, buffer_len, count, len);
}

/* A ref may not be called `refs/remotes/a.lock`. So it is no rival of `refs/heads/b`, which goes to one place with it. */
static void check_verdicts(void)
{
    static const uint32_t verdicts[] = { GIX_REFSPEC_CONTESTED, GIX_REFSPEC_WRITTEN, GIX_REFSPEC_INVALID_DESTINATION,
                                         GIX_REFSPEC_INVALID_SOURCE, GIX_REFSPEC_WRITTEN, GIX_REFSPEC_WRITTEN,
                                         GIX_REFSPEC_CONTESTED, GIX_REFSPEC_MISSING };
    static const size_t specs[] = { 5, 0, 1, 2, 3, 4, 6, 7 };
    static const size_t items[] = { GIX_REFSPEC_NO_ITEM, 0, 2, 3, 1, 2, 1, GIX_REFSPEC_NO_ITEM };
    static const uint32_t forced[] = { 0, 0, 0, 0, 1, 0, 1, 0 };
    const char *answer = "1111111111111111111111111111111111111111refs/yrefs/x/aother/brefs/x/a.lorefs/x/a.lorefs/y";
    gix_refspec_mapping made[9];
    for (size_t count = 7; count <= 8; count++) {
        if (count == 7)
            check_lists(plan_of_seven, 7, answer, GIX_REFSPEC_IN_CONFLICT, made);
        else
            check_lists(plan_of_eight, 8, answer, GIX_REFSPEC_MISSING_SOURCE, made);
        for (size_t i = 0; i < count; i++)
            CHECK(made[i].verdict == verdicts[i] && made[i].spec == specs[i] && made[i].item == items[i]
                  && made[i].forced == forced[i] && made[i].origin == GIX_REFSPEC_GIVEN);
        CHECK(made[0].id_len == 40 && made[0].made_at == 40 && made[0].made_len == 6 && made[5].has_destination == 0);
    }
    CHECK(made[7].has_destination == 0 && made[7].id_len == 0 && made[7].made_len == 0);
}

static uint32_t plan_of_six(gix_refspec_mapping *mappings, size_t room, uint8_t *buffer, size_t buffer_len, size_t *count,
                            size_t *len)
{
    return plan(6, mappings, room, buffer, buffer_len, count, len);
}

static void check_other_plans(void)
{
    gix_refspec_mapping made[8];
    uint8_t buffer[256];
    size_t count, len;
    check_lists(plan_of_six, 6, "1111111111111111111111111111111111111111refs/yrefs/x/aother/brefs/x/a.lorefs/x/a.lo",
                GIX_REFSPEC_OK, made);
    CHECK(made[0].verdict == GIX_REFSPEC_WRITTEN && made[5].verdict == GIX_REFSPEC_WRITTEN);
    count = len = 99;
    CHECK(plan(9, made, 8, buffer, sizeof buffer, &count, &len) == GIX_REFSPEC_NAME_INVALID_BYTE);
    gix_refspec_wish wish = { .configured = &planned[8], .configured_count = 1 };
    CHECK(gix_refspec_plan(&wish, names, 3, made, 8, buffer, sizeof buffer, &count, &len) == GIX_REFSPEC_NAME_INVALID_BYTE);
    CHECK(count == 99 && len == 99);
    /* Without specs, HEAD is missing. */
    CHECK(plan(0, made, 8, buffer, sizeof buffer, &count, &len) == GIX_REFSPEC_MISSING_SOURCE && count == 1 && len == 0);
    CHECK(made[0].verdict == GIX_REFSPEC_MISSING && made[0].origin == GIX_REFSPEC_DEFAULT && made[0].spec == GIX_REFSPEC_NO_SPEC);
    wish = (gix_refspec_wish)GIX_REFSPEC_WISH_INIT;
    CHECK(gix_refspec_plan(&wish, NULL, 0, made, 0, NULL, 0, &count, &len) == GIX_REFSPEC_TOO_SMALL && count == 1);
}

/* The words of a text, separated by spaces. */
static size_t split(const char *text, gix_refspec_text *words)
{
    size_t count = 0;
    for (size_t len; *(text += strspn(text, " ")) != 0; text += len) {
        len = strcspn(text, " ");
        words[count++] = (gix_refspec_text){ (const uint8_t *)text, len };
    }
    return count;
}

/* Wishes over names, and what git 2.39 does with them: for each update its origin with its index, its source, its
 * destination and its verdict; and likewise what is missing. */
static const struct {
    const char *given, *configured, *merges;
    uint32_t tags;
    const char *names, *lines;
} wishes[] = {
    { "main", "+refs/heads/*:refs/remotes/origin/*", "", 0, "HEAD refs/heads/dev refs/heads/main",
      "1:0 refs/heads/main - 1\n2:0 refs/heads/main refs/remotes/origin/main 1 forced\n" },
    { "dev:refs/remotes/origin/main main", "+refs/heads/*:refs/remotes/origin/*", "", 0, "refs/heads/dev refs/heads/main",
      "1:0 refs/heads/dev refs/remotes/origin/main 1\n1:1 refs/heads/main - 1\n"
      "2:0 refs/heads/dev refs/remotes/origin/dev 1 forced\n2:0 refs/heads/main refs/remotes/origin/main 6 forced\n" },
    { "a b", "refs/heads/a:refs/r refs/heads/b:refs/r", "", 0, "refs/heads/a refs/heads/b",
      "1:0 refs/heads/a - 1\n1:1 refs/heads/b - 1\n2:0 refs/heads/a refs/r 5\n2:1 refs/heads/b refs/r 5\noutcome 22\n" },
    { "a", "refs/heads/b:refs/b refs/tags/*:refs/t/*", "", 2, "refs/heads/a refs/heads/b refs/tags/v1",
      "1:0 refs/heads/a - 1\n5:- refs/tags/v1 refs/tags/v1 1\n" },
    { "", "", "", 0, "HEAD refs/heads/main", "4:- HEAD - 1\n" },
    { "", "", "", 0, "refs/heads/main", "4:- missing\noutcome 23\n" },
    { "", "+refs/heads/*:refs/x/*", "refs/heads/main refs/tags/v1 refs/heads/gone", 0, "HEAD refs/heads/main refs/tags/v1",
      "2:0 refs/heads/main refs/x/main 1 forced\n3:1 refs/tags/v1 - 1\n" },
    { "", "+refs/heads/m*:refs/x/m*", "dev heads/dev a..b refs/heads/dev", 0, "HEAD refs/heads/dev refs/heads/main",
      "2:0 refs/heads/main refs/x/main 1 forced\n3:3 refs/heads/dev - 1\n" },
    { "", "", "dev", 0, "HEAD refs/heads/dev", "" },
    { "main:heads/x main:tags/x main:x", "", "", 0, "refs/heads/main",
      "1:0 refs/heads/main refs/heads/x 1\n1:1 refs/heads/main refs/tags/x 1\n" },
    { "", "*:* refs/heads/*:foo/*", "", 0, "HEAD refs/heads/a",
      "2:0 HEAD HEAD 3\n2:0 refs/heads/a refs/heads/a 1\n2:1 refs/heads/a foo/a 3\n" },
    { "gone main refs/heads/gone:refs/x ^gone", "+refs/heads/*:refs/x/*", "", 0, "refs/heads/main",
      "1:1 refs/heads/main - 1\n2:0 refs/heads/main refs/x/main 1 forced\n1:0 missing\n1:2 missing\noutcome 23\n" },
    { "gone a:refs/x b:refs/x", "", "", 0, "refs/heads/a refs/heads/b",
      "1:1 refs/heads/a refs/x 5\n1:2 refs/heads/b refs/x 5\n1:0 missing\noutcome 23\n" },
};

static void check_wishes(void)
{
    gix_refspec_text given[8], configured[8], merges[8], items[8];
    gix_refspec_mapping made[16];
    uint8_t buffer[512];
    char lines[1024];
    for (size_t i = 0; i < sizeof wishes / sizeof *wishes; i++) {
        const gix_refspec_wish wish = {
            given, split(wishes[i].given, given), configured, split(wishes[i].configured, configured),
            merges, split(wishes[i].merges, merges), wishes[i].tags,
        };
        size_t count, len, at = 0;
        uint32_t outcome = gix_refspec_plan(&wish, items, split(wishes[i].names, items), made, 16, buffer, sizeof buffer,
                                            &count, &len);
        *lines = 0;
        for (const gix_refspec_mapping *one = made; one < made + count; one++) {
            at += sprintf(lines + at, one->spec == GIX_REFSPEC_NO_SPEC ? "%u:-" : "%u:%zu", one->origin, one->spec);
            if (one->verdict == GIX_REFSPEC_MISSING)
                at += sprintf(lines + at, " missing\n");
            else
                at += sprintf(lines + at, " %.*s %.*s %u%s\n", (int)items[one->item].len, items[one->item].bytes,
                              one->has_destination ? (int)one->made_len : 1,
                              one->has_destination ? (char *)buffer + one->made_at : "-", one->verdict,
                              one->forced ? " forced" : "");
        }
        if (outcome != GIX_REFSPEC_OK)
            sprintf(lines + at, "outcome %u\n", outcome);
        CHECK(strcmp(lines, wishes[i].lines) == 0);
    }
}

/* Git fetches HEAD for an empty merge. Here it is ignored, and HEAD is passed for it. */
static void check_empty_merges(void)
{
    const gix_refspec_text merges[] = { GIX_REFSPEC_TEXT_INIT, TEXT("HEAD") }, items[] = { TEXT("HEAD") };
    gix_refspec_wish wish = { .merges = merges, .merges_count = 1 };
    gix_refspec_mapping made[2];
    size_t count = 9, len = 99;
    CHECK(gix_refspec_plan(&wish, items, 1, made, 2, NULL, 0, &count, &len) == GIX_REFSPEC_OK && count == 0);
    wish.merges_count = 2;
    CHECK(gix_refspec_plan(&wish, items, 1, made, 2, NULL, 0, &count, &len) == GIX_REFSPEC_OK && count == 1);
    CHECK(made[0].origin == GIX_REFSPEC_MERGE && made[0].spec == 1 && made[0].item == 0 && made[0].has_destination == 0);
}

static const gix_refspec_text stale_specs[] = { TEXT("refs/heads/*:refs/o/*"), TEXT("^refs/heads/a"), TEXT("a b") };
static const gix_refspec_text stale_names[] = { TEXT("refs/o/a"), TEXT("refs/o/b"), TEXT("refs/o/c"), TEXT("refs/x/c") };

/* git 2.39 deletes `refs/o/c` under `--prune`, and keeps `refs/o/a`, since its source is excluded. */
static void check_stale(void)
{
    gix_refspec_stale_ref made[3];
    size_t count;
    for (refused = 1;; refused++) {
        memset(made, 'x', sizeof made);
        growths = 0;
        count = 99;
        uint32_t outcome = gix_refspec_stale(stale_specs, 2, names, 2, stale_names, 4, made, 3, &count);
        if (growths < refused) {
            CHECK(outcome == GIX_REFSPEC_OK && refused > 1);
            break;
        }
        CHECK(outcome == GIX_REFSPEC_NO_MEMORY && count == 99 && is_untouched(made, sizeof made));
    }
    refused = 0;
    CHECK(count == 2 && made[0].item == 0 && made[0].kept_by == 1);
    CHECK(made[1].item == 2 && made[1].kept_by == GIX_REFSPEC_NO_SPEC && is_untouched(made + 2, sizeof *made));
    memset(made, 'x', sizeof made);
    for (size_t room = 0; room < 2; room++) {
        count = 99;
        CHECK(gix_refspec_stale(stale_specs, 2, names, 2, stale_names, 4, made, room, &count) == GIX_REFSPEC_TOO_SMALL);
        CHECK(count == 2 && is_untouched(made, sizeof made));
    }
    count = 99;
    CHECK(gix_refspec_stale(stale_specs, 3, names, 2, stale_names, 4, made, 3, &count) == GIX_REFSPEC_NAME_INVALID_BYTE);
    CHECK(count == 99 && is_untouched(made, sizeof made));
    CHECK(gix_refspec_stale(stale_specs, 2, names, 2, stale_names, 4, made, 2, &count) == GIX_REFSPEC_OK && count == 2);
    CHECK(gix_refspec_stale(NULL, 0, NULL, 0, stale_names, 4, NULL, 0, &count) == GIX_REFSPEC_OK && count == 0);
    /* Of equal names the first is listed, with any of the specs that keep it. */
    const gix_refspec_text keeping[] = { stale_specs[0], TEXT("^refs/heads/a"), TEXT("^refs/heads/a*") };
    const gix_refspec_text twice[] = { stale_names[2], stale_names[0], stale_names[2], stale_names[0] };
    CHECK(gix_refspec_stale(keeping, 3, names, 2, twice, 4, made, 3, &count) == GIX_REFSPEC_OK && count == 2);
    CHECK(made[0].item == 0 && made[0].kept_by == GIX_REFSPEC_NO_SPEC);
    CHECK(made[1].item == 1 && (made[1].kept_by == 1 || made[1].kept_by == 2));
}

/* What specs do with one ref of a remote that has the names of `why_names`: the index of the name, and the effect of the last
 * spec with its destination. */
static const gix_refspec_text why_names[] = { TEXT("refs/heads/a"), TEXT("refs/heads/b"), TEXT("refs/tags/a"), TEXT("HEAD") };
#define NONE GIX_REFSPEC_NO_SPEC, GIX_REFSPEC_NO_ITEM
static const struct {
    const char *texts, *name;
    size_t item;
    gix_refspec_effect effect;
    const char *made;
} why_rows[] = {
    { "refs/heads/b:y refs/heads/*:refs/x/*", "refs/heads/a", 0, { GIX_REFSPEC_FATE_WRITTEN, 0, 1, 0, NONE, 0, 0, 0, 0, 8 },
      "refs/x/a" },
    { "a", "refs/tags/a", 2, { GIX_REFSPEC_FATE_WRITTEN, 0, 0, 0, NONE, 0, 0, 0, 0, 0 }, "" },
    { "refs/tags/*:refs/x/*", "refs/heads/a", 0,
      { GIX_REFSPEC_FATE_UNMATCHED, GIX_REFSPEC_MISMATCH_PREFIX, 0, 0, NONE, 5, 0, 0, 0, 0 }, "" },
    { "refs/heads/*b:refs/x/*", "refs/heads/a", 0,
      { GIX_REFSPEC_FATE_UNMATCHED, GIX_REFSPEC_MISMATCH_SUFFIX, 0, 0, NONE, 0, 0, 0, 0, 0 }, "" },
    { "refs/heads/a*a:refs/x/*", "refs/heads/a", 0,
      { GIX_REFSPEC_FATE_UNMATCHED, GIX_REFSPEC_MISMATCH_OVERLAP, 0, 0, NONE, 0, 0, 0, 0, 0 }, "" },
    { "^refs/heads/b", "refs/heads/a", 0,
      { GIX_REFSPEC_FATE_UNMATCHED, GIX_REFSPEC_MISMATCH_OTHER_NAME, 0, 0, NONE, 0, 0, 0, 0, 0 }, "" },
    { "1111111111111111111111111111111111111111", "HEAD", 3,
      { GIX_REFSPEC_FATE_UNMATCHED, GIX_REFSPEC_MISMATCH_OBJECT, 0, 0, NONE, 0, 0, 0, 0, 0 }, "" },
    { "b", "refs/heads/a", 0,
      { GIX_REFSPEC_FATE_UNMATCHED, GIX_REFSPEC_MISMATCH_NO_CANDIDATE, 0, 0, NONE, 0, 0, 0, 0, 0 }, "" },
    { "a", "refs/heads/a", 0,
      { GIX_REFSPEC_FATE_UNMATCHED, GIX_REFSPEC_MISMATCH_EARLIER_CANDIDATE, 0, 0, GIX_REFSPEC_NO_SPEC, 2, 0, 0, 0, 0, 0 }, "" },
    { "^refs/heads/gone*", "refs/heads/gone1", GIX_REFSPEC_NO_ITEM,
      { GIX_REFSPEC_FATE_EXCLUDES, 0, 0, 1, NONE, 0, 15, 1, 0, 0 }, "" },
    { "^refs/heads/a", "refs/heads/a", 0, { GIX_REFSPEC_FATE_EXCLUDES, 0, 0, 0, NONE, 0, 0, 0, 0, 0 }, "" },
    { "^refs/heads/* ^refs/heads/a refs/heads/a:refs/x", "refs/heads/a", 0,
      { GIX_REFSPEC_FATE_EXCLUDED, 0, 1, 1, 0, GIX_REFSPEC_NO_ITEM, 0, 11, 1, 0, 6 }, "refs/x" },
    { "refs/heads/*:refs/x/*", "refs/heads/a..b", GIX_REFSPEC_NO_ITEM,
      { GIX_REFSPEC_FATE_INVALID_NAME, 0, 1, 0, NONE, 0, 0, 0, 0, 11 }, "refs/x/a..b" },
    { "refs/heads/*:other/*", "refs/heads/a", 0,
      { GIX_REFSPEC_FATE_INVALID_DESTINATION, 0, 1, 0, NONE, 0, 0, 0, 0, 7 }, "other/a" },
    { "refs/heads/a:refs/x refs/heads/a:refs/x", "refs/heads/a", 0,
      { GIX_REFSPEC_FATE_DUPLICATE, 0, 1, 0, 0, GIX_REFSPEC_NO_ITEM, 0, 0, 0, 6, 6 }, "refs/x" },
    { "refs/tags/a:refs/x refs/heads/a:refs/x", "refs/heads/a", 0,
      { GIX_REFSPEC_FATE_IN_CONFLICT, 0, 1, 0, 0, 2, 0, 0, 0, 0, 6 }, "refs/x" },
    { "1111111111111111111111111111111111111111:refs/x refs/heads/a:refs/x", "refs/heads/a", 0,
      { GIX_REFSPEC_FATE_IN_CONFLICT, 0, 1, 0, 0, GIX_REFSPEC_NO_ITEM, 0, 0, 0, 0, 6 }, "refs/x" },
    { "refs/heads/b:refs/x/b refs/heads/a:refs/x", "refs/heads/a", 0,
      { GIX_REFSPEC_FATE_DIRECTORY_CONFLICT, 0, 1, 0, 0, 1, 0, 0, 0, 0, 6 }, "refs/x" },
};

static bool are_alike(const gix_refspec_effect *a, const gix_refspec_effect *b)
{
    return a->fate == b->fate && a->mismatch == b->mismatch && a->has_destination == b->has_destination
        && a->has_word == b->has_word && a->spec == b->spec && a->item == b->item && a->count == b->count
        && a->word_at == b->word_at && a->word_len == b->word_len && a->made_at == b->made_at && a->made_len == b->made_len;
}

static const gix_refspec_text why_specs[] = { TEXT("a:b"), TEXT("refs/heads/*:refs/o/*") };

static uint32_t why(uint8_t *buffer, size_t buffer_len, size_t *len)
{
    const gix_refspec_effect wanted[] = {
        { GIX_REFSPEC_FATE_UNMATCHED, GIX_REFSPEC_MISMATCH_EARLIER_CANDIDATE, 0, 0, GIX_REFSPEC_NO_SPEC, 2, 0, 0, 0, 0, 0 },
        { GIX_REFSPEC_FATE_WRITTEN, 0, 1, 0, NONE, 0, 0, 0, 0, 8 },
    };
    gix_refspec_effect effects[3];
    size_t item = 99;
    memset(effects, 'x', sizeof effects);
    uint32_t outcome = gix_refspec_why(why_specs, 2, why_names, 4, BYTES("refs/heads/a"), effects, 3, buffer, buffer_len, &item,
                                       len);
    CHECK(item == (outcome == GIX_REFSPEC_NO_MEMORY ? 99 : 0));
    CHECK(outcome == GIX_REFSPEC_OK ? are_alike(effects, wanted) && are_alike(effects + 1, wanted + 1)
                                    : is_untouched(effects, 2 * sizeof *effects));
    CHECK(is_untouched(effects + 2, sizeof *effects));
    return outcome;
}

static void check_effects(void)
{
    gix_refspec_text texts[4];
    gix_refspec_effect effects[4];
    uint8_t buffer[32];
    size_t item = 99, len = 99;
    for (size_t i = 0; i < sizeof why_rows / sizeof *why_rows; i++) {
        const size_t count = split(why_rows[i].texts, texts);
        CHECK(gix_refspec_why(texts, count, why_names, 4, BYTES(why_rows[i].name), effects, 4, buffer, 32, &item, &len)
              == GIX_REFSPEC_OK);
        const gix_refspec_effect *last = effects + count - 1;
        CHECK(item == why_rows[i].item && are_alike(last, &why_rows[i].effect));
        CHECK(last->made_len == strlen(why_rows[i].made) && memcmp(buffer + last->made_at, why_rows[i].made, last->made_len) == 0);
    }
    check_buffer(why, "refs/o/a");
    memset(effects, 'x', sizeof effects);
    memset(buffer, 'x', sizeof buffer);
    CHECK(gix_refspec_why(why_specs, 2, why_names, 4, BYTES("refs/heads/a"), effects, 1, buffer, 32, &item, &len)
          == GIX_REFSPEC_TOO_SMALL);
    CHECK(item == 0 && len == 8 && is_untouched(effects, sizeof effects) && is_untouched(buffer, 32));
    item = len = 99;
    CHECK(gix_refspec_why(stale_specs, 3, why_names, 4, BYTES("a"), effects, 4, buffer, 32, &item, &len)
          == GIX_REFSPEC_NAME_INVALID_BYTE);
    CHECK(item == 99 && len == 99 && is_untouched(effects, sizeof effects) && is_untouched(buffer, 32));
}

/* Values of remote.<name>.fetch and a merged ref, and what git rev-parse makes of the upstream. */
static const struct {
    const char *texts, *merge;
    uint32_t kind;
    size_t spec, excluded_by;
    const char *name;
} upstream_rows[] = {
    { "+refs/heads/*:refs/remotes/o/*", "refs/heads/a", GIX_REFSPEC_TRACKED, 0, GIX_REFSPEC_NO_SPEC, "refs/remotes/o/a" },
    { "refs/heads/b:b refs/heads/a:x refs/heads/*:y/*", "refs/heads/a", GIX_REFSPEC_TRACKED, 1, GIX_REFSPEC_NO_SPEC, "x" },
    { "refs/heads/a:x ^refs/heads/b ^refs/heads/a", "refs/heads/a", GIX_REFSPEC_EXCLUDED, 0, 2, "" },
    { "refs/heads/b:x refs/heads/a", "refs/heads/a", GIX_REFSPEC_NOT_STORED, 1, GIX_REFSPEC_NO_SPEC, "" },
    { "refs/heads/*:refs/remotes/o/*", "a", GIX_REFSPEC_NOT_FETCHED, GIX_REFSPEC_NO_SPEC, GIX_REFSPEC_NO_SPEC, "" },
    { "", "refs/heads/a", GIX_REFSPEC_NOT_FETCHED, GIX_REFSPEC_NO_SPEC, GIX_REFSPEC_NO_SPEC, "" },
};

static uint32_t upstream(uint8_t *buffer, size_t buffer_len, size_t *len)
{
    const gix_refspec_text texts[] = { TEXT("refs/heads/b"), TEXT("refs/heads/*:refs/remotes/o/*") };
    gix_refspec_upstream_ref told = { 7, 7, 7, *len };
    uint32_t outcome = gix_refspec_upstream(texts, 2, BYTES("refs/heads/a"), buffer, buffer_len, &told);
    const bool is_set = outcome != GIX_REFSPEC_NO_MEMORY;
    CHECK(told.kind == (is_set ? GIX_REFSPEC_TRACKED : 7) && told.spec == (is_set ? 1 : 7));
    CHECK(told.excluded_by == (is_set ? GIX_REFSPEC_NO_SPEC : 7));
    *len = told.len;
    return outcome;
}

static void check_upstreams(void)
{
    gix_refspec_text texts[4] = { TEXT("a b") };
    gix_refspec_upstream_ref told = { 7, 7, 7, 7 };
    uint8_t buffer[32] = "xxx";
    CHECK(gix_refspec_upstream(texts, 1, BYTES("a"), buffer, 32, &told) == GIX_REFSPEC_NAME_INVALID_BYTE);
    CHECK(told.kind == 7 && told.spec == 7 && told.excluded_by == 7 && told.len == 7 && is_untouched(buffer, 3));
    for (size_t i = 0; i < sizeof upstream_rows / sizeof *upstream_rows; i++) {
        const size_t count = split(upstream_rows[i].texts, texts);
        CHECK(gix_refspec_upstream(texts, count, BYTES(upstream_rows[i].merge), buffer, 32, &told) == GIX_REFSPEC_OK);
        CHECK(told.kind == upstream_rows[i].kind && told.spec == upstream_rows[i].spec);
        CHECK(told.excluded_by == upstream_rows[i].excluded_by && told.len == strlen(upstream_rows[i].name));
        CHECK(memcmp(buffer, upstream_rows[i].name, told.len) == 0);
    }
    check_buffer(upstream, "refs/remotes/o/a");
}

/* `HEAD` is a name like others on either side, but a fetch doesn't write it. */
static void check_head(void)
{
    const gix_refspec_text texts[] = { TEXT("HEAD:refs/x/HEAD"), TEXT("@"), TEXT("HEA*:HEA*") };
    const gix_refspec_text items[] = { TEXT("refs/heads/a"), TEXT("HEAD") };
    static const uint32_t verdicts[] = { GIX_REFSPEC_WRITTEN, GIX_REFSPEC_WRITTEN, GIX_REFSPEC_INVALID_DESTINATION };
    const gix_refspec_wish wish = { .given = texts, .given_count = 3 };
    gix_refspec_mapping made[4];
    uint8_t buffer[32];
    size_t count = 9, len = 99;
    CHECK(gix_refspec_match(texts, 3, items, 2, GIX_REFSPEC_FORWARD, made, 4, buffer, 32, &count, &len) == 0);
    CHECK(count == 3 && len == 15);
    for (size_t i = 0; i < 3; i++)
        CHECK(made[i].spec == i && made[i].item == 1);
    CHECK(gix_refspec_plan(&wish, items, 2, made, 4, buffer, 32, &count, &len) == GIX_REFSPEC_OK);
    CHECK(count == 3 && len == 15 && memcmp(buffer, "refs/x/HEADHEAD", 15) == 0);
    for (size_t i = 0; i < 3; i++)
        CHECK(made[i].spec == i && made[i].item == 1 && made[i].verdict == verdicts[i]);
    CHECK(gix_refspec_match(texts, 3, items, 2, GIX_REFSPEC_BACKWARD, made, 4, buffer, 32, &count, &len) == 0);
    CHECK(count == 1 && made[0].spec == 2 && made[0].item == 1 && len == 4 && memcmp(buffer, "HEAD", 4) == 0);
}

/* A pointer to no bytes, texts, mappings or names may be NULL. */
static void check_null(void)
{
    const gix_refspec_text none = { NULL, 0 }, texts[] = { TEXT("refs/heads/*:refs/x/*"), none };
    gix_refspec_instruction parts = GIX_REFSPEC_PARTS_INIT;
    gix_refspec_text prefix = GIX_REFSPEC_TEXT_INIT;
    gix_refspec_mapping made[2];
    uint8_t buffer[8];
    int32_t order = 7;
    size_t count = 99, len = 99;
    CHECK(gix_refspec_check(NULL, 0, GIX_REFSPEC_PUSH) == GIX_REFSPEC_EMPTY);
    gix_refspec_span span = GIX_REFSPEC_SPAN_INIT;
    CHECK(gix_refspec_locate(NULL, 0, GIX_REFSPEC_PUSH, &span) == GIX_REFSPEC_OK && span.side == 0);
    CHECK(gix_refspec_parts(NULL, 0, GIX_REFSPEC_FETCH, &parts) == GIX_REFSPEC_OK && is(parts.source, "HEAD"));
    CHECK(gix_refspec_canonical(NULL, 0, GIX_REFSPEC_FETCH, NULL, 0, &len) == GIX_REFSPEC_TOO_SMALL && len == 4);
    CHECK(gix_refspec_compare(NULL, 0, BYTES("@"), GIX_REFSPEC_FETCH, &order) == GIX_REFSPEC_OK && order == 0);
    gix_refspec_made head = GIX_REFSPEC_MADE_INIT;
    CHECK(gix_refspec_map(NULL, 0, GIX_REFSPEC_FETCH, NULL, 0, NULL, 0, &head) == GIX_REFSPEC_OK && head.mapped == 0);
    CHECK(gix_refspec_prefix(NULL, 0, GIX_REFSPEC_FETCH, &prefix) == GIX_REFSPEC_OK && is(prefix, "HEAD"));
    CHECK(gix_refspec_expand_prefixes(BYTES("^a"), GIX_REFSPEC_FETCH, NULL, 0, &len) == GIX_REFSPEC_OK && len == 0);
    CHECK(gix_refspec_prefixes(NULL, 0, GIX_REFSPEC_FETCH, NULL, 0, &len) == GIX_REFSPEC_OK && len == 0);
    CHECK(gix_refspec_prefixes(&none, 1, GIX_REFSPEC_PUSH, buffer, 8, &len) == GIX_REFSPEC_EMPTY);
    CHECK(gix_refspec_match(NULL, 0, NULL, 0, GIX_REFSPEC_FORWARD, NULL, 0, NULL, 0, &count, &len) == GIX_REFSPEC_OK);
    CHECK(count == 0 && len == 0);
    CHECK(gix_refspec_match(texts, 1, &none, 1, GIX_REFSPEC_BACKWARD, made, 2, buffer, 8, &count, &len) == GIX_REFSPEC_OK);
    gix_refspec_upstream_ref upstream = GIX_REFSPEC_UPSTREAM_INIT;
    CHECK(gix_refspec_upstream(NULL, 0, NULL, 0, NULL, 0, &upstream) == 0 && upstream.kind == GIX_REFSPEC_NOT_FETCHED);
    CHECK(gix_refspec_why(NULL, 0, NULL, 0, NULL, 0, NULL, 0, NULL, 0, &count, &len) == 0 && count == GIX_REFSPEC_NO_ITEM);
    CHECK(gix_refspec_prefetched(NULL, 0, NULL, 0, &len) == GIX_REFSPEC_OK && len == 0);
    CHECK(gix_refspec_renamed(NULL, 0, NULL, 0, NULL, 0, NULL, 0, &len) == GIX_REFSPEC_OK && len == 0);
    const gix_refspec_sides empty = { GIX_REFSPEC_NORMAL, 1, 0, none, none };
    CHECK(gix_refspec_from_parts(&empty, GIX_REFSPEC_FETCH, NULL, 0, &len) == GIX_REFSPEC_TOO_SMALL && len == 4);
    CHECK(gix_refspec_remote_value(GIX_REFSPEC_MIRROR, NULL, 0, BYTES("*"), NULL, 0, &len) == GIX_REFSPEC_TOO_SMALL);
    const gix_refspec_wish two = { .configured = texts, .configured_count = 2 }, one = { .given = texts, .given_count = 1 };
    CHECK(gix_refspec_plan(&two, names, 1, NULL, 0, NULL, 0, &count, &len) == GIX_REFSPEC_TOO_SMALL && count == 2);
    CHECK(gix_refspec_plan(&one, NULL, 0, NULL, 0, NULL, 0, &count, &len) == GIX_REFSPEC_OK && count == 0);
}

static void check_version(void)
{
    char version[32];
    snprintf(version, sizeof version, "%d.%d.%d", GIX_REFSPEC_VERSION_MAJOR, GIX_REFSPEC_VERSION_MINOR,
             GIX_REFSPEC_VERSION_PATCH);
    CHECK(strcmp(version, GIX_REFSPEC_VERSION) == 0);
    gix_refspec_text told = GIX_REFSPEC_TEXT_INIT;
    CHECK(gix_refspec_version(&told) == GIX_REFSPEC_OK && is(told, version) && told.bytes[told.len] == 0);
}

static void *check_all(void *nothing)
{
    check_outcomes();
    check_places();
    check_kinds();
    check_parts();
    check_sides();
    check_printed();
    check_made();
    check_values();
    check_rewritten();
    check_order();
    check_other_texts();
    check_buffer(canonical, "+HEAD:refs/x");
    check_buffer(prefixes, "refs/heads/\nrefs/tags/v1\n");
    check_prefixes_of_one();
    check_mapped_names();
    check_groups();
    check_mappings();
    check_looking_back();
    check_refs();
    check_pairs();
    check_verdicts();
    check_other_plans();
    check_wishes();
    check_empty_merges();
    check_stale();
    check_effects();
    check_upstreams();
    check_head();
    check_null();
    check_explanations();
    return nothing;
}

static void *check_all_on_small_stack(void *nothing)
{
    volatile char taken[MORE_STACK + 1];
    taken[0] = taken[MORE_STACK] = 0;
    check_all(nothing);
    return taken[0] == 0 ? nothing : NULL;
}

static void check_threads(int count, size_t stack)
{
    pthread_t threads[4];
    pthread_attr_t attributes;
    pthread_attr_init(&attributes);
    CHECK(stack == 0 || pthread_attr_setstacksize(&attributes, stack + MORE_STACK) == 0);
    for (int i = 0; i < count; i++)
        CHECK(pthread_create(&threads[i], &attributes, stack == 0 ? check_all : check_all_on_small_stack, NULL) == 0);
    for (int i = 0; i < count; i++)
        CHECK(pthread_join(threads[i], NULL) == 0);
    pthread_attr_destroy(&attributes);
}

static const char *variants[] = { "", "Empty", "NegativeWithDestination", "NegativeEmpty", "NegativeObjectHash",
                                  "PushToEmpty", "PatternUnsupported", "PatternUnbalanced" };

static int canon(uint32_t operation)
{
    char *line = NULL;
    size_t room = 0;
    ssize_t read;
    int status = 0;
    while ((read = getline(&line, &room, stdin)) > 0) {
        size_t text_len = (size_t)read - (line[read - 1] == '\n'), len = 0;
        uint8_t *buffer = malloc(text_len + 8);
        uint32_t outcome = gix_refspec_canonical((uint8_t *)line, text_len, operation, buffer, text_len + 8, &len);
        if (outcome == GIX_REFSPEC_TOO_SMALL) {
            buffer = realloc(buffer, len);
            outcome = gix_refspec_canonical((uint8_t *)line, text_len, operation, buffer, len, &len);
        }
        if (outcome == GIX_REFSPEC_OK) {
            fputs("ok ", stdout);
            fwrite(buffer, 1, len, stdout);
            putchar('\n');
        } else {
            status = 1;
            printf("err %s\n", outcome < GIX_REFSPEC_NAME_EMPTY ? variants[outcome] : "ReferenceName");
        }
        free(buffer);
    }
    free(line);
    return status;
}

static void put_text(const char *before, gix_refspec_text text)
{
    fputs(before, stdout);
    fwrite(text.bytes, 1, text.len, stdout);
}

static gix_refspec_text made_name(const gix_refspec_mapping *one, const uint8_t *buffer)
{
    return (gix_refspec_text){ buffer + one->made_at, one->made_len };
}

static gix_refspec_text other_name(const gix_refspec_mapping *one, const gix_refspec_text *items, const uint8_t *buffer)
{
    return one->item == GIX_REFSPEC_NO_ITEM ? (gix_refspec_text){ buffer + one->id_at, one->id_len } : items[one->item];
}

static void put_mapping(const gix_refspec_mapping *one, const gix_refspec_text *items, const uint8_t *buffer, bool forward)
{
    const gix_refspec_text made = made_name(one, buffer), other = other_name(one, items, buffer);
    if (one->item == GIX_REFSPEC_NO_ITEM)
        printf("map\t%zu\t-", one->spec);
    else
        printf("map\t%zu\t%zu", one->spec, one->item);
    put_text("\t", forward ? other : made);
    if (one->has_destination)
        put_text("\t", forward ? made : other);
    putchar('\n');
}

/* The mappings of lines `spec TEXT`, `ref ID NAME` and `tag ID ID NAME`, or the outcome where there are none. */
static int mapped(const char *word)
{
    static gix_refspec_text texts[4096], items[4096];
    static gix_refspec_mapping made[65536];
    static uint8_t buffer[1 << 20];
    const uint32_t direction = strcmp(word, "rhs") == 0 ? GIX_REFSPEC_BACKWARD : GIX_REFSPEC_FORWARD;
    size_t specs = 0, refs = 0, count = 0, len = 0, room = 0;
    char *line = NULL;
    ssize_t read;
    while ((read = getline(&line, &room, stdin)) > 0) {
        size_t line_len = (size_t)read - (line[read - 1] == '\n');
        int words = strncmp(line, "spec ", 5) == 0 ? 1 : strncmp(line, "ref ", 4) == 0 ? 2 : 3;
        const char *at = line;
        for (int i = 0; i < words; i++)
            at = strchr(at, ' ') + 1;
        CHECK(specs < 4096 && refs < 4096);
        gix_refspec_text *to = words == 1 ? &texts[specs++] : &items[refs++];
        to->len = line_len - (size_t)(at - line);
        uint8_t *copy = malloc(to->len + 1);
        memcpy(copy, at, to->len);
        to->bytes = copy;
    }
    uint32_t outcome = gix_refspec_match(texts, specs, items, refs, direction, made, 65536, buffer, sizeof buffer, &count, &len);
    if (outcome != GIX_REFSPEC_OK)
        printf("outcome %u\n", outcome);
    else
        for (size_t i = 0; i < count; i++)
            put_mapping(&made[i], items, buffer, direction == GIX_REFSPEC_FORWARD);
    while (specs > 0)
        free((void *)texts[--specs].bytes);
    while (refs > 0)
        free((void *)items[--refs].bytes);
    free(line);
    return 0;
}

static int measure(void)
{
    static gix_refspec_text items[100000];
    static char bytes[100000][32];
    static gix_refspec_mapping made[100000];
    static uint8_t buffer[8000000];
    const gix_refspec_text pattern = TEXT("+refs/heads/*:refs/remotes/origin/*");
    const gix_refspec_wish wish = { .configured = &pattern, .configured_count = 1 };
    for (size_t i = 0; i < 100000; i++)
        items[i] = (gix_refspec_text){ (uint8_t *)bytes[i], (size_t)sprintf(bytes[i], "refs/heads/topic-%zu", i) };
    for (int i = 0; i < 14; i++) {
        size_t count = 0, len = 0;
        struct timespec from, to;
        clock_gettime(CLOCK_MONOTONIC, &from);
        if (i < 7)
            CHECK(gix_refspec_match(&pattern, 1, items, 100000, GIX_REFSPEC_FORWARD, made, 100000, buffer,
                                    sizeof buffer, &count, &len) == GIX_REFSPEC_OK && count == 100000);
        else
            CHECK(gix_refspec_plan(&wish, items, 100000, made, 100000, buffer, sizeof buffer, &count, &len)
                  == GIX_REFSPEC_OK && count == 100000);
        clock_gettime(CLOCK_MONOTONIC, &to);
        printf("%s: %.1f ms\n", i < 7 ? "match" : "plan",
               (double)(to.tv_sec - from.tv_sec) * 1e3 + (double)(to.tv_nsec - from.tv_nsec) / 1e6);
    }
    return 0;
}

int main(int count, char **words)
{
    if (count == 2 && strcmp(words[1], "measure") == 0)
        return measure();
    if (count == 2)
        return mapped(words[1]);
    if (count == 3)
        return canon(strcmp(words[2], "push") == 0 ? GIX_REFSPEC_PUSH : GIX_REFSPEC_FETCH);
    check_version();
    check_all(NULL);
    check_threads(4, 0);
    check_threads(1, SMALL_STACK);
    return 0;
}
