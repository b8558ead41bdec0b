/* Gives the bytes of an input to all calls of the library for C, and ends the process where a property doesn't hold.
 *
 * An input is lines. The first letter of a line says what the rest is: `g` a given spec, `c` a configured one, `m` a merged
 * ref, `n` the name of a ref of the remote, and `l` the name of a local one. A line `t` asks for all tags, and a line `f` refuses
 * each growth of memory in turn, in each call that fills a buffer. Other lines, and more than MOST of a kind, are ignored.
 * README.md beside this file says what drives it. */
#include <gix_refspec.h>
#include <stdbool.h>
#include <stdint.h>
#include <stdio.h>
#include <stdlib.h>
#include <string.h>

#define MOST 24

typedef gix_refspec_text text;
typedef gix_refspec_mapping mapping;

typedef struct {
    text given[MOST], configured[MOST], merges[MOST], names[MOST], local[MOST];
    size_t given_count, configured_count, merges_count, names_count, local_count;
    uint32_t tags;
} input;

/* What a driver is told of an input beside what it sees itself: which outcomes and answers there were. */
#define TOLD 4096
#ifndef COUNTERS
#define COUNTERS
#endif
uint8_t told[TOLD] COUNTERS;

static void tell(unsigned call, unsigned answer)
{
    told[(call * 64 + answer) % TOLD] = 1;
}

#define CHECK(claim) \
    do { \
        if (!(claim)) { \
            fprintf(stderr, "tools/fuzz/harness.c:%d: not so: %s\n", __LINE__, #claim); \
            abort(); \
        } \
    } while (0)

/* Whether growths are to be refused, how many there were in a call, and which is refused, from 1, or none. */
static bool is_refusing;
static long growths, refused;

void *__real_malloc(size_t size);
void *__real_realloc(void *block, size_t size);

void *__wrap_malloc(size_t size)
{
    return ++growths == refused ? NULL : __real_malloc(size);
}

void *__wrap_realloc(void *block, size_t size)
{
    return ++growths == refused ? NULL : __real_realloc(block, size);
}

static bool is(text a, text b)
{
    return a.len == b.len && (a.len == 0 || memcmp(a.bytes, b.bytes, a.len) == 0);
}

static bool begins(text a, text b)
{
    return a.len >= b.len && (b.len == 0 || memcmp(a.bytes, b.bytes, b.len) == 0);
}

static bool contains(text a, uint8_t byte)
{
    return a.len > 0 && memchr(a.bytes, byte, a.len) != NULL;
}

static bool is_within(text part, text whole)
{
    return part.len == 0 || (whole.len > 0 && part.bytes >= whole.bytes && part.bytes + part.len <= whole.bytes + whole.len);
}

#define LITERAL(bytes) ((text){ (const uint8_t *)(bytes), sizeof(bytes) - 1 })

/* A buffer between bytes that no call may change. */
#define GUARD 16

typedef struct {
    uint8_t *all, *bytes;
    size_t len;
} buffer;

static buffer buffer_of(size_t len)
{
    buffer made = { malloc(len + 2 * GUARD), NULL, len };
    CHECK(made.all != NULL);
    memset(made.all, 'x', len + 2 * GUARD);
    made.bytes = made.all + GUARD;
    return made;
}

static bool is_filled(const uint8_t *bytes, size_t len)
{
    for (size_t at = 0; at < len; at++)
        if (bytes[at] != 'x')
            return false;
    return true;
}

static void check_guards(buffer of)
{
    CHECK(is_filled(of.all, GUARD) && is_filled(of.bytes + of.len, GUARD));
}

static void check_untouched(buffer of)
{
    CHECK(is_filled(of.all, of.len + 2 * GUARD));
}

/* A call that fills a buffer. Its arguments are below. */
typedef uint32_t fills(const void *with, uint8_t *bytes, size_t room, size_t *len);

/* Refuses each growth of the call in turn: it answers as ever, or for want of memory writes nothing. */
static void check_refused(fills *call, const void *with, buffer answer)
{
    bool is_refused = true;
    for (long number = 1; is_refused; number++) {
        buffer again = buffer_of(answer.len);
        size_t len = 99;
        growths = 0;
        refused = number;
        uint32_t outcome = call(with, again.bytes, answer.len, &len);
        refused = 0;
        is_refused = growths >= number;
        tell(23, outcome);
        if (outcome == GIX_REFSPEC_NO_MEMORY) {
            CHECK(is_refused && len == 99);
            check_untouched(again);
        } else {
            CHECK(outcome == GIX_REFSPEC_OK && len == answer.len && memcmp(again.bytes, answer.bytes, len) == 0);
        }
        free(again.all);
    }
}

/* Makes the call without room, with a byte too few, and with just enough. Returns its outcome; the caller frees the answer. */
static uint32_t filled(fills *call, const void *with, buffer *answer)
{
    size_t len = 99, again = 99;
    uint32_t outcome = call(with, NULL, 0, &len);
    *answer = buffer_of(outcome == GIX_REFSPEC_TOO_SMALL ? len : 0);
    if (outcome != GIX_REFSPEC_TOO_SMALL) {
        CHECK(outcome == GIX_REFSPEC_OK ? len == 0 : len == 99);
        return outcome;
    }
    buffer small = buffer_of(len - 1);
    CHECK(len > 0 && call(with, small.bytes, len - 1, &again) == GIX_REFSPEC_TOO_SMALL && again == len);
    check_untouched(small);
    free(small.all);
    CHECK(call(with, answer->bytes, len, &again) == GIX_REFSPEC_OK && again == len);
    check_guards(*answer);
    if (is_refusing)
        check_refused(call, with, *answer);
    return GIX_REFSPEC_OK;
}

/* One text. */

typedef struct {
    text spec, name;
    uint32_t operation;
    bool is_backward;
} of_one;

static uint32_t canonical(const void *with, uint8_t *bytes, size_t room, size_t *len)
{
    const of_one *one = with;
    return gix_refspec_canonical(one->spec.bytes, one->spec.len, one->operation, bytes, room, len);
}

static uint32_t expansion(const void *with, uint8_t *bytes, size_t room, size_t *len)
{
    const of_one *one = with;
    return gix_refspec_expand_prefixes(one->spec.bytes, one->spec.len, one->operation, bytes, room, len);
}

static uint32_t made_of(const of_one *one, uint8_t *bytes, size_t room, gix_refspec_made *made)
{
    return (one->is_backward ? gix_refspec_map_back : gix_refspec_map)(
        one->spec.bytes, one->spec.len, one->operation, one->name.bytes, one->name.len, bytes, room, made);
}

static uint32_t made_name(const void *with, uint8_t *bytes, size_t room, size_t *len)
{
    gix_refspec_made made = { 9, 9, *len };
    uint32_t outcome = made_of(with, bytes, room, &made);
    *len = made.len;
    return outcome;
}

static uint32_t printed(const void *with, uint8_t *bytes, size_t room, size_t *len)
{
    return gix_refspec_print(with, bytes, room, len);
}

static uint32_t prefetched(const void *with, uint8_t *bytes, size_t room, size_t *len)
{
    const of_one *one = with;
    return gix_refspec_prefetched(one->spec.bytes, one->spec.len, bytes, room, len);
}

typedef struct {
    gix_refspec_sides sides;
    uint32_t operation;
} of_sides;

static uint32_t from_parts(const void *with, uint8_t *bytes, size_t room, size_t *len)
{
    const of_sides *of = with;
    return gix_refspec_from_parts(&of->sides, of->operation, bytes, room, len);
}

static uint32_t check_of(text spec, uint32_t operation)
{
    return gix_refspec_check(spec.bytes, spec.len, operation);
}

static void check_span(text spec, uint32_t operation, uint32_t outcome)
{
    gix_refspec_span span = GIX_REFSPEC_SPAN_INIT;
    CHECK(gix_refspec_locate(spec.bytes, spec.len, operation, &span) == GIX_REFSPEC_OK);
    tell(1, span.side);
    if (span.side == 0) {
        CHECK(span.start == 0 && span.len == 0);
        CHECK(outcome == GIX_REFSPEC_OK || outcome == GIX_REFSPEC_EMPTY || outcome == GIX_REFSPEC_PUSH_TO_EMPTY
              || outcome == GIX_REFSPEC_NEGATIVE_EMPTY || outcome == GIX_REFSPEC_NEGATIVE_WITH_DESTINATION);
        return;
    }
    CHECK(outcome != GIX_REFSPEC_OK && span.side <= GIX_REFSPEC_DESTINATION);
    CHECK(span.len > 0 && span.len <= spec.len && span.start <= spec.len - span.len);
    tell(2, span.start < 8 ? (unsigned)span.start : 8);
}

/* A canonical text is one of its own, and means the same. */
static void check_reads_back(text spec, uint32_t operation, const gix_refspec_instruction *parts, text made)
{
    gix_refspec_instruction again = GIX_REFSPEC_PARTS_INIT;
    int32_t order = 7;
    CHECK(gix_refspec_parts(made.bytes, made.len, operation, &again) == GIX_REFSPEC_OK);
    CHECK(again.kind == parts->kind && again.forced == parts->forced);
    CHECK(is(again.source, parts->source) && is(again.destination, parts->destination));
    CHECK(gix_refspec_compare(spec.bytes, spec.len, made.bytes, made.len, operation, &order) == GIX_REFSPEC_OK && order == 0);
    of_one one = { made, made, operation, false };
    buffer twice;
    CHECK(filled(canonical, &one, &twice) == GIX_REFSPEC_OK && is((text){ twice.bytes, twice.len }, made));
    free(twice.all);
}

/* What a text says makes its canonical text, as its instruction does; of `:` and `+:` with a destination, which is empty. */
static void check_made_again(text spec, uint32_t operation, const gix_refspec_instruction *parts, text made)
{
    of_sides of = { GIX_REFSPEC_SIDES_INIT, operation };
    buffer again;
    CHECK(filled(printed, parts, &again) == GIX_REFSPEC_OK && is((text){ again.bytes, again.len }, made));
    free(again.all);
    CHECK(gix_refspec_read(spec.bytes, spec.len, operation, &of.sides) == GIX_REFSPEC_OK);
    tell(3, 8 + of.sides.mode * 4 + of.sides.has_source * 2 + of.sides.has_destination);
    CHECK(is_within(of.sides.source, spec) || is(of.sides.source, LITERAL("HEAD")));
    CHECK(is_within(of.sides.destination, spec));
    CHECK((of.sides.source.len > 0) == of.sides.has_source && (of.sides.destination.len > 0) == of.sides.has_destination);
    if (!of.sides.has_source && !of.sides.has_destination)
        of.sides.has_destination = 1;
    CHECK(filled(from_parts, &of, &again) == GIX_REFSPEC_OK && is((text){ again.bytes, again.len }, made));
    free(again.all);
}

/* What a prefetch applies is a negative spec as it is, or forced and stored below refs/prefetch/. */
static void check_prefetched(text spec, uint32_t outcome)
{
    of_one one = { spec, spec, GIX_REFSPEC_FETCH, false };
    gix_refspec_instruction parts = GIX_REFSPEC_PARTS_INIT, own = GIX_REFSPEC_PARTS_INIT;
    buffer made;
    CHECK(filled(prefetched, &one, &made) == outcome);
    tell(25, outcome != GIX_REFSPEC_OK ? 0 : made.len == 0 ? 1 : made.bytes[0] == '^' ? 2 : 3);
    if (outcome == GIX_REFSPEC_OK) {
        CHECK(gix_refspec_parts(spec.bytes, spec.len, GIX_REFSPEC_FETCH, &own) == GIX_REFSPEC_OK);
        bool is_stored = own.kind == GIX_REFSPEC_FETCH_AND_UPDATE && !begins(own.source, LITERAL("refs/tags/"));
        CHECK((made.len > 0) == (is_stored || own.kind == GIX_REFSPEC_FETCH_EXCLUDE));
        if (made.len > 0) {
            CHECK(gix_refspec_parts(made.bytes, made.len, GIX_REFSPEC_FETCH, &parts) == GIX_REFSPEC_OK);
            CHECK(parts.kind == own.kind && parts.forced == is_stored && is(parts.source, own.source));
            CHECK(!is_stored || begins(parts.destination, LITERAL("refs/prefetch/")));
        }
    }
    free(made.all);
}

/* What a spec makes of a name, and back again: a pattern, and a full name with a full destination, have one source for it. */
static void check_name(of_one one, const gix_refspec_instruction *parts)
{
    gix_refspec_made made = GIX_REFSPEC_MADE_INIT;
    buffer other, back;
    CHECK(filled(made_name, &one, &other) == GIX_REFSPEC_OK);
    CHECK(made_of(&one, other.bytes, other.len, &made) == GIX_REFSPEC_OK && made.len == other.len);
    tell(3, made.mapped * 2 + made.has_destination);
    CHECK(made.mapped <= 1 && made.has_destination <= made.mapped && (made.has_destination || made.len == 0));
    bool is_negative = parts->kind == GIX_REFSPEC_PUSH_EXCLUDE || parts->kind == GIX_REFSPEC_FETCH_EXCLUDE;
    CHECK(!is_negative || !made.mapped);
    text from = one.is_backward ? parts->destination : parts->source, to = one.is_backward ? parts->source : parts->destination;
    bool is_pattern = contains(from, '*') && contains(to, '*');
    bool are_full = begins(from, LITERAL("refs/")) && begins(to, LITERAL("refs/"));
    if (made.has_destination && (is_pattern || are_full)) {
        of_one again = { one.spec, { other.bytes, other.len }, one.operation, !one.is_backward };
        CHECK(filled(made_name, &again, &back) == GIX_REFSPEC_OK);
        CHECK(is((text){ back.bytes, back.len }, one.name));
        free(back.all);
    }
    free(other.all);
}

static void check_text(text spec, const input *given, uint32_t operation)
{
    uint32_t outcome = check_of(spec, operation);
    tell(4 + operation, outcome);
    CHECK(outcome <= GIX_REFSPEC_NAME_INVALID_BYTE && outcome != GIX_REFSPEC_NAME_EMPTY && outcome != GIX_REFSPEC_NAME_ASTERISK);
    check_span(spec, operation, outcome);
    gix_refspec_instruction parts = GIX_REFSPEC_PARTS_INIT;
    text prefix = LITERAL("as it was");
    buffer made, names;
    of_one one = { spec, spec, operation, false };
    CHECK(gix_refspec_parts(spec.bytes, spec.len, operation, &parts) == outcome);
    CHECK(gix_refspec_prefix(spec.bytes, spec.len, operation, &prefix) == outcome);
    CHECK(filled(canonical, &one, &made) == outcome && filled(expansion, &one, &names) == outcome);
    if (operation == GIX_REFSPEC_FETCH)
        check_prefetched(spec, outcome);
    if (outcome != GIX_REFSPEC_OK) {
        CHECK(parts.kind == 0 && is(prefix, LITERAL("as it was")));
    } else {
        tell(8, parts.kind * 2 + parts.forced);
        CHECK(is_within(parts.source, spec) || is(parts.source, LITERAL("HEAD")));
        CHECK(is_within(parts.destination, spec) || is(parts.destination, LITERAL("HEAD")));
        CHECK(is_within(prefix, spec) || is(prefix, LITERAL("HEAD")));
        CHECK(names.len == 0 || names.bytes[names.len - 1] == '\n');
        CHECK(begins((text){ names.bytes, names.len }, prefix));
        check_reads_back(spec, operation, &parts, (text){ made.bytes, made.len });
        check_made_again(spec, operation, &parts, (text){ made.bytes, made.len });
        for (size_t at = 0; at < given->names_count; at++) {
            one.name = given->names[at];
            one.is_backward = false;
            check_name(one, &parts);
            one.is_backward = true;
            check_name(one, &parts);
        }
    }
    free(made.all);
    free(names.all);
}

static void check_order(text a, text b, uint32_t operation)
{
    int32_t order = 7, back = 7;
    uint32_t outcome = gix_refspec_compare(a.bytes, a.len, b.bytes, b.len, operation, &order);
    uint32_t first = check_of(a, operation);
    CHECK(outcome == (first != GIX_REFSPEC_OK ? first : check_of(b, operation)));
    if (outcome != GIX_REFSPEC_OK) {
        CHECK(order == 7);
        return;
    }
    tell(9, (unsigned)(order + 1));
    CHECK(gix_refspec_compare(b.bytes, b.len, a.bytes, a.len, operation, &back) == GIX_REFSPEC_OK && back == -order);
    of_one one = { a, a, operation, false }, other = { b, b, operation, false };
    buffer ones, others;
    CHECK(filled(canonical, &one, &ones) == GIX_REFSPEC_OK && filled(canonical, &other, &others) == GIX_REFSPEC_OK);
    CHECK((order == 0) == is((text){ ones.bytes, ones.len }, (text){ others.bytes, others.len }));
    free(ones.all);
    free(others.all);
}

/* Sides that needn't make a spec: either their text has others, or it is answered as that text is. */
static void check_sides(text source, text destination, uint32_t mode, uint32_t operation)
{
    const char *signs[] = { "", "+", "^" };
    const size_t sign_len = strlen(signs[mode - GIX_REFSPEC_NORMAL]);
    of_sides of = { { mode, 1, destination.bytes != NULL, source, destination }, operation };
    buffer joined = buffer_of(sign_len + source.len + (destination.bytes != NULL ? 1 + destination.len : 0)), made, wanted;
    memcpy(joined.bytes, signs[mode - GIX_REFSPEC_NORMAL], sign_len);
    if (source.len > 0)
        memcpy(joined.bytes + sign_len, source.bytes, source.len);
    if (destination.bytes != NULL) {
        joined.bytes[sign_len + source.len] = ':';
        memcpy(joined.bytes + sign_len + source.len + 1, destination.bytes, destination.len);
    }
    of_one one = { { joined.bytes, joined.len }, source, operation, false };
    uint32_t outcome = filled(from_parts, &of, &made);
    tell(26, outcome);
    bool has_sign = mode == GIX_REFSPEC_NORMAL && source.len > 0 && (source.bytes[0] == '+' || source.bytes[0] == '^');
    bool has_colon = contains(destination.bytes != NULL ? destination : source, ':');
    CHECK((outcome == GIX_REFSPEC_OTHER_PARTS) == (has_sign || has_colon));
    if (outcome != GIX_REFSPEC_OTHER_PARTS) {
        CHECK(filled(canonical, &one, &wanted) == outcome);
        CHECK(is((text){ made.bytes, made.len }, (text){ wanted.bytes, wanted.len }));
        free(wanted.all);
    }
    free(made.all);
    free(joined.all);
}

/* A new name of a remote, and the values of one. */

typedef struct {
    text value, old_name, new_name;
    uint32_t kind;
} of_remote;

static uint32_t renamed(const void *with, uint8_t *bytes, size_t room, size_t *len)
{
    const of_remote *of = with;
    return gix_refspec_renamed(of->value.bytes, of->value.len, of->old_name.bytes, of->old_name.len, of->new_name.bytes,
                               of->new_name.len, bytes, room, len);
}

static uint32_t remote_value(const void *with, uint8_t *bytes, size_t room, size_t *len)
{
    const of_remote *of = with;
    return gix_refspec_remote_value(of->kind, of->old_name.bytes, of->old_name.len, of->new_name.bytes, of->new_name.len, bytes,
                                    room, len);
}

/* Only the name changes, below :refs/remotes/. A value is a forced fetch between names in refs/. */
static void check_remote(of_remote of)
{
    buffer made;
    CHECK(filled(renamed, &of, &made) == GIX_REFSPEC_OK);
    tell(27, made.len > 0);
    CHECK(made.len == 0 || made.len + of.old_name.len == of.value.len + of.new_name.len);
    free(made.all);
    for (of.kind = 0; of.kind <= GIX_REFSPEC_MERGE_REQUESTS + 1; of.kind++) {
        uint32_t outcome = filled(remote_value, &of, &made);
        tell(28, outcome);
        bool is_known = of.kind >= GIX_REFSPEC_BRANCH && of.kind <= GIX_REFSPEC_MERGE_REQUESTS;
        CHECK((outcome == GIX_REFSPEC_NO_OPERATION) == !is_known);
        if (outcome == GIX_REFSPEC_OK) {
            gix_refspec_instruction parts = GIX_REFSPEC_PARTS_INIT;
            CHECK(gix_refspec_parts(made.bytes, made.len, GIX_REFSPEC_FETCH, &parts) == GIX_REFSPEC_OK);
            CHECK(parts.kind == GIX_REFSPEC_FETCH_AND_UPDATE && parts.forced == 1);
            CHECK(begins(parts.source, LITERAL("refs/")) && begins(parts.destination, LITERAL("refs/")));
        }
        free(made.all);
    }
}

/* Lists of texts. */

typedef struct {
    const text *specs;
    size_t count;
    uint32_t operation;
} of_list;

static uint32_t prefixes(const void *with, uint8_t *bytes, size_t room, size_t *len)
{
    const of_list *list = with;
    return gix_refspec_prefixes(list->specs, list->count, list->operation, bytes, room, len);
}

/* The first refusal among texts. */
static uint32_t refusal_of(const text *specs, size_t count, uint32_t operation)
{
    for (size_t at = 0; at < count; at++) {
        uint32_t outcome = check_of(specs[at], operation);
        if (outcome != GIX_REFSPEC_OK)
            return outcome;
    }
    return GIX_REFSPEC_OK;
}

/* Whether a name begins with one of the lines. */
static bool is_listed(text name, buffer lines)
{
    for (size_t at = 0; at < lines.len;) {
        const uint8_t *end = memchr(lines.bytes + at, '\n', lines.len - at);
        text line = { lines.bytes + at, (size_t)(end - (lines.bytes + at)) };
        if (begins(name, line))
            return true;
        at += line.len + 1;
    }
    return false;
}

/* Mappings, and the buffer that they point into. */
typedef struct {
    mapping *list;
    buffer all, bytes;
    size_t count;
} mapped;

/* A call that fills a list of mappings and a buffer. */
typedef uint32_t lists(const void *with, mapping *list, size_t list_room, uint8_t *bytes, size_t room, size_t *count, size_t *len);

static bool is_answer(uint32_t outcome)
{
    return outcome == GIX_REFSPEC_OK || outcome == GIX_REFSPEC_IN_CONFLICT || outcome == GIX_REFSPEC_MISSING_SOURCE;
}

static buffer list_of(size_t count)
{
    return buffer_of(count * sizeof(mapping));
}

/* As check_refused. */
static void check_refused_list(lists *call, const void *with, const mapped *answer, uint32_t wanted)
{
    bool is_refused = true;
    for (long number = 1; is_refused; number++) {
        buffer list = list_of(answer->count), bytes = buffer_of(answer->bytes.len);
        size_t count = 99, len = 99;
        growths = 0;
        refused = number;
        uint32_t outcome = call(with, (mapping *)list.bytes, answer->count, bytes.bytes, bytes.len, &count, &len);
        refused = 0;
        is_refused = growths >= number;
        tell(24, outcome);
        if (outcome == GIX_REFSPEC_NO_MEMORY) {
            CHECK(is_refused && count == 99 && len == 99);
            check_untouched(list);
            check_untouched(bytes);
        } else {
            CHECK(outcome == wanted && count == answer->count && len == bytes.len);
            CHECK(memcmp(list.bytes, answer->all.bytes, list.len) == 0 && memcmp(bytes.bytes, answer->bytes.bytes, len) == 0);
        }
        free(list.all);
        free(bytes.all);
    }
}

/* Makes the call without room, with one mapping too few, with a byte too few, and with just enough. */
static uint32_t listed(lists *call, const void *with, mapped *answer)
{
    size_t count = 99, len = 99, count_again = 99, len_again = 99;
    uint32_t outcome = call(with, NULL, 0, NULL, 0, &count, &len);
    bool is_small = outcome == GIX_REFSPEC_TOO_SMALL;
    *answer = (mapped){ NULL, list_of(is_small ? count : 0), buffer_of(is_small ? len : 0), is_small ? count : 0 };
    answer->list = (mapping *)answer->all.bytes;
    if (!is_small) {
        CHECK(is_answer(outcome) ? count == 0 && len == 0 : count == 99 && len == 99);
        return outcome;
    }
    CHECK(count > 0);
    for (int is_list = 0; is_list < 2; is_list++) {
        if (!is_list && len == 0)
            continue;
        buffer list = list_of(count - (is_list ? 1 : 0)), bytes = buffer_of(len - (is_list ? 0 : 1));
        CHECK(call(with, (mapping *)list.bytes, list.len / sizeof(mapping), bytes.bytes, bytes.len, &count_again, &len_again)
              == GIX_REFSPEC_TOO_SMALL);
        CHECK(count_again == count && len_again == len);
        check_untouched(list);
        check_untouched(bytes);
        free(list.all);
        free(bytes.all);
    }
    outcome = call(with, answer->list, count, answer->bytes.bytes, len, &count_again, &len_again);
    CHECK(is_answer(outcome) && count_again == count && len_again == len);
    check_guards(answer->all);
    check_guards(answer->bytes);
    if (is_refusing)
        check_refused_list(call, with, answer, outcome);
    return outcome;
}

static void free_mapped(mapped of)
{
    free(of.all.all);
    free(of.bytes.all);
}

static text made_by(const mapped *of, size_t at)
{
    const mapping *one = &of->list[at];
    CHECK(one->made_len <= of->bytes.len && one->made_at <= of->bytes.len - one->made_len);
    return (text){ of->bytes.bytes + one->made_at, one->made_len };
}

static text id_of(const mapped *of, size_t at)
{
    const mapping *one = &of->list[at];
    CHECK(one->item == GIX_REFSPEC_NO_ITEM && (one->id_len == 40 || one->id_len == 64));
    CHECK(one->id_at <= of->bytes.len - one->id_len);
    return (text){ of->bytes.bytes + one->id_at, one->id_len };
}

typedef struct {
    const text *specs, *names;
    size_t specs_count, names_count;
    uint32_t direction;
} of_match;

static uint32_t matches(const void *with, mapping *list, size_t list_room, uint8_t *bytes, size_t room, size_t *count, size_t *len)
{
    const of_match *of = with;
    return gix_refspec_match(of->specs, of->specs_count, of->names, of->names_count, of->direction, list, list_room, bytes, room,
                             count, len);
}

/* Each mapping is what its spec makes of its name by itself, no two are equal, and they are in order. */
static void check_mappings(const of_match *of, const mapped *found)
{
    bool is_backward = of->direction == GIX_REFSPEC_BACKWARD;
    for (size_t at = 0; at < found->count; at++) {
        const mapping *one = &found->list[at];
        CHECK(one->spec < of->specs_count && one->origin == 0 && one->verdict == 0 && one->forced <= 1);
        text made = made_by(found, at);
        if (one->item == GIX_REFSPEC_NO_ITEM) {
            CHECK(!is_backward && id_of(found, at).len > 0);
        } else {
            CHECK(one->item < of->names_count && one->id_len == 0);
            of_one alone = { of->specs[one->spec], of->names[one->item], GIX_REFSPEC_FETCH, is_backward };
            buffer other;
            gix_refspec_made told_made = GIX_REFSPEC_MADE_INIT;
            CHECK(filled(made_name, &alone, &other) == GIX_REFSPEC_OK && is((text){ other.bytes, other.len }, made));
            CHECK(made_of(&alone, other.bytes, other.len, &told_made) == GIX_REFSPEC_OK && told_made.mapped == 1);
            CHECK(is_backward || told_made.has_destination == one->has_destination);
            free(other.all);
        }
        for (size_t earlier = 0; earlier < at; earlier++) {
            const mapping *two = &found->list[earlier];
            bool is_later = two->item == GIX_REFSPEC_NO_ITEM && one->item != GIX_REFSPEC_NO_ITEM;
            bool is_in_turn = (two->item == GIX_REFSPEC_NO_ITEM) == (one->item == GIX_REFSPEC_NO_ITEM)
                && (two->spec < one->spec || (two->spec == one->spec && two->item < one->item));
            CHECK(is_later || is_in_turn);
        }
    }
    tell(is_backward ? 11 : 10, found->count < 16 ? (unsigned)found->count : 16);
}

/* Whether each positive spec has two patterns, or two sides that begin refs/: then both directions agree. */
static bool is_symmetric(const text *specs, size_t count)
{
    for (size_t at = 0; at < count; at++) {
        gix_refspec_instruction parts = GIX_REFSPEC_PARTS_INIT;
        CHECK(gix_refspec_parts(specs[at].bytes, specs[at].len, GIX_REFSPEC_FETCH, &parts) == GIX_REFSPEC_OK);
        text one = parts.source, two = parts.destination;
        bool are_patterns = contains(one, '*') && contains(two, '*');
        bool are_full = begins(one, LITERAL("refs/")) && begins(two, LITERAL("refs/"));
        if (parts.kind != GIX_REFSPEC_FETCH_EXCLUDE && !are_patterns && !are_full)
            return false;
    }
    return true;
}

/* Each pair that one direction maps between the two lists of names, the other maps too. */
static void check_transposed(const mapped *one, const of_match *of, const mapped *other, const of_match *of_other)
{
    for (size_t at = 0; at < one->count; at++) {
        text given = of->names[one->list[at].item], made = made_by(one, at);
        bool is_there = false, is_found = false;
        for (size_t name = 0; name < of_other->names_count; name++)
            is_there |= is(of_other->names[name], made);
        for (size_t second = 0; second < other->count; second++)
            is_found |= is(made_by(other, second), given) && is(of_other->names[other->list[second].item], made);
        CHECK(is_there == is_found);
    }
}

static void check_matches(const input *given)
{
    of_match forward = { given->configured, given->names, given->configured_count, given->names_count, GIX_REFSPEC_FORWARD };
    of_match backward = { given->configured, given->local, given->configured_count, given->local_count, GIX_REFSPEC_BACKWARD };
    uint32_t refusal = refusal_of(forward.specs, forward.specs_count, GIX_REFSPEC_FETCH);
    mapped found, back;
    buffer lines;
    of_list list = { forward.specs, forward.specs_count, GIX_REFSPEC_FETCH };
    uint32_t listed_prefixes = filled(prefixes, &list, &lines);
    uint32_t outcome = listed(matches, &forward, &found), outcome_back = listed(matches, &backward, &back);
    tell(12, outcome);
    tell(13, outcome_back);
    tell(14, listed_prefixes);
    CHECK(outcome == refusal);
    CHECK(refusal == GIX_REFSPEC_OK || (outcome_back == refusal && listed_prefixes == refusal));
    if (refusal == GIX_REFSPEC_OK) {
        CHECK(listed_prefixes == GIX_REFSPEC_OK || listed_prefixes == GIX_REFSPEC_NO_LIST);
        CHECK(outcome_back == GIX_REFSPEC_OK || outcome_back == GIX_REFSPEC_NEEDS_IDS);
        check_mappings(&forward, &found);
        if (outcome_back == GIX_REFSPEC_OK)
            check_mappings(&backward, &back);
        for (size_t at = 0; listed_prefixes == GIX_REFSPEC_OK && at < found.count; at++)
            CHECK(found.list[at].item == GIX_REFSPEC_NO_ITEM || is_listed(given->names[found.list[at].item], lines));
        if (outcome_back == GIX_REFSPEC_OK && is_symmetric(forward.specs, forward.specs_count)) {
            tell(15, 1);
            check_transposed(&found, &forward, &back, &backward);
            check_transposed(&back, &backward, &found, &forward);
        }
    }
    free_mapped(found);
    free_mapped(back);
    free(lines.all);
}

/* Refs without ids are matched by fetches as their names are. Without any, no target is unknown. */

static uint32_t matches_refs(const void *with, mapping *list, size_t list_room, uint8_t *bytes, size_t room, size_t *count,
                             size_t *len)
{
    const of_match *of = with;
    gix_refspec_spec specs[MOST];
    gix_refspec_ref refs[MOST];
    for (size_t at = 0; at < of->specs_count; at++)
        specs[at] = (gix_refspec_spec){ of->specs[at], GIX_REFSPEC_FETCH };
    for (size_t at = 0; at < of->names_count; at++)
        refs[at] = (gix_refspec_ref){ of->names[at], { NULL, 0 }, { NULL, 0 } };
    return gix_refspec_match_refs(specs, of->specs_count, refs, of->names_count, of->direction, list, list_room, bytes, room, count,
                                  len);
}

static void check_refs(const of_match *of)
{
    mapped by_names, by_refs;
    uint32_t outcome = listed(matches, of, &by_names);
    bool is_empty = outcome == GIX_REFSPEC_NEEDS_IDS && of->names_count == 0;
    CHECK(listed(matches_refs, of, &by_refs) == (is_empty ? GIX_REFSPEC_OK : outcome));
    tell(29, outcome);
    CHECK(by_refs.count == by_names.count && by_refs.bytes.len == by_names.bytes.len);
    CHECK(memcmp(by_refs.all.bytes, by_names.all.bytes, by_names.all.len) == 0);
    CHECK(memcmp(by_refs.bytes.bytes, by_names.bytes.bytes, by_names.bytes.len) == 0);
    free_mapped(by_names);
    free_mapped(by_refs);
}

/* Mappings between names: each is in conflict if another source has its destination, and the verdicts name the first. */

static bool is_to_one(const gix_refspec_pair *one, const gix_refspec_pair *other)
{
    return one->has_destination && other->has_destination && is(one->destination, other->destination);
}

static bool is_from_one(const gix_refspec_pair *one, const gix_refspec_pair *other)
{
    return (one->source_is_id == 0) == (other->source_is_id == 0) && is(one->source, other->source);
}

static uint32_t check_verdict(const gix_refspec_pair *pairs, size_t count, size_t at, const gix_refspec_pair_verdict *verdict)
{
    size_t first = count;
    bool is_contested = false;
    for (size_t other = 0; other < count; other++) {
        if (!is_to_one(&pairs[other], &pairs[at]))
            continue;
        first = other < first ? other : first;
        for (size_t third = 0; third < other; third++)
            is_contested |= is_to_one(&pairs[third], &pairs[at]) && !is_from_one(&pairs[third], &pairs[other]);
    }
    bool is_kept = !pairs[at].has_destination || begins(pairs[at].destination, LITERAL("refs/"))
        || is(pairs[at].destination, LITERAL("HEAD"));
    tell(31, verdict->verdict);
    CHECK(verdict->first == (is_contested ? first : GIX_REFSPEC_NO_PAIR));
    CHECK(verdict->verdict == (is_contested ? GIX_REFSPEC_PAIR_IN_CONFLICT : is_kept ? GIX_REFSPEC_PAIR_KEPT
                               : GIX_REFSPEC_PAIR_REMOVED));
    return is_contested ? GIX_REFSPEC_IN_CONFLICT : GIX_REFSPEC_OK;
}

static void check_pairs(const input *given)
{
    gix_refspec_pair pairs[2 * MOST];
    size_t count = 0;
    for (size_t at = 0; given->local_count > 0 && at < given->names_count; at++)
        for (size_t step = 0; step < 2; step++)
            pairs[count++] = (gix_refspec_pair){ given->names[at], given->local[(at + step) % given->local_count],
                                                 (uint32_t)(at % 3 / 2), (uint32_t)(at % 5) };
    buffer small = buffer_of(count > 0 ? (count - 1) * sizeof(gix_refspec_pair_verdict) : 0);
    buffer all = buffer_of(count * sizeof(gix_refspec_pair_verdict));
    if (count > 0)
        CHECK(gix_refspec_validate(pairs, count, (gix_refspec_pair_verdict *)small.bytes, count - 1) == GIX_REFSPEC_TOO_SMALL);
    check_untouched(small);
    gix_refspec_pair_verdict *verdicts = (gix_refspec_pair_verdict *)all.bytes;
    uint32_t outcome = gix_refspec_validate(pairs, count, verdicts, count), wanted = GIX_REFSPEC_OK;
    check_guards(all);
    for (size_t at = 0; at < count; at++) {
        uint32_t one = check_verdict(pairs, count, at, &verdicts[at]);
        wanted = one > wanted ? one : wanted;
    }
    tell(32, outcome);
    CHECK(outcome == wanted);
    free(small.all);
    free(all.all);
}

/* Upstreams. */

typedef struct {
    const input *given;
    text merge;
    gix_refspec_upstream_ref told;
} of_merge;

static uint32_t upstream(const void *with, uint8_t *bytes, size_t room, size_t *len)
{
    of_merge *of = (of_merge *)with;
    of->told = (gix_refspec_upstream_ref){ 9, 9, 9, *len };
    uint32_t outcome = gix_refspec_upstream(of->given->configured, of->given->configured_count, of->merge.bytes, of->merge.len,
                                            bytes, room, &of->told);
    bool is_set = outcome == GIX_REFSPEC_OK || outcome == GIX_REFSPEC_TOO_SMALL;
    CHECK(is_set || (of->told.kind == 9 && of->told.spec == 9 && of->told.excluded_by == 9));
    *len = of->told.len;
    return outcome;
}

/* The tracking ref is what the spec makes of the merged ref, if it has two patterns; what excludes is a negative spec. */
static void check_upstream(const input *given, text merge)
{
    of_merge of = { given, merge, GIX_REFSPEC_UPSTREAM_INIT };
    uint32_t refusal = refusal_of(given->configured, given->configured_count, GIX_REFSPEC_FETCH);
    buffer name;
    CHECK(filled(upstream, &of, &name) == refusal);
    if (refusal == GIX_REFSPEC_OK) {
        CHECK(upstream(&of, name.bytes, name.len, &name.len) == GIX_REFSPEC_OK);
        tell(30, of.told.kind);
        CHECK((of.told.spec == GIX_REFSPEC_NO_SPEC) == (of.told.kind == GIX_REFSPEC_NOT_FETCHED));
        CHECK((of.told.excluded_by != GIX_REFSPEC_NO_SPEC) == (of.told.kind == GIX_REFSPEC_EXCLUDED));
        CHECK(of.told.kind == GIX_REFSPEC_TRACKED || name.len == 0);
        CHECK(of.told.kind == GIX_REFSPEC_NOT_FETCHED || of.told.spec < given->configured_count);
        if (of.told.kind == GIX_REFSPEC_EXCLUDED) {
            CHECK(of.told.excluded_by < given->configured_count);
            CHECK(given->configured[of.told.excluded_by].bytes[0] == '^');
        }
        if (of.told.kind == GIX_REFSPEC_TRACKED && contains(given->configured[of.told.spec], '*')) {
            of_one one = { given->configured[of.told.spec], merge, GIX_REFSPEC_FETCH, false };
            buffer made;
            CHECK(filled(made_name, &one, &made) == GIX_REFSPEC_OK);
            CHECK(is((text){ made.bytes, made.len }, (text){ name.bytes, name.len }));
            free(made.all);
        }
    }
    free(name.all);
}

/* Plans, and stale refs. */

static uint32_t plans(const void *with, mapping *list, size_t list_room, uint8_t *bytes, size_t room, size_t *count, size_t *len)
{
    const input *given = with;
    gix_refspec_wish wish = { given->given, given->given_count, given->configured, given->configured_count,
                              given->merges, given->merges_count, given->tags };
    return gix_refspec_plan(&wish, given->names, given->names_count, list, list_room, bytes, room, count, len);
}

static bool is_below(text name, text folder)
{
    return name.len > folder.len && begins(name, folder) && name.bytes[folder.len] == '/';
}

/* The count of the list that an origin names. */
static size_t count_of(const input *given, uint32_t origin)
{
    switch (origin) {
    case GIX_REFSPEC_GIVEN:
        return given->given_count;
    case GIX_REFSPEC_CONFIGURED:
        return given->configured_count;
    case GIX_REFSPEC_MERGE:
        return given->merges_count;
    default:
        return 0;
    }
}

static void check_update(const input *given, const mapped *plan, size_t at)
{
    const mapping *one = &plan->list[at];
    tell(16, one->origin * 8 + one->verdict - 1);
    CHECK(one->origin >= GIX_REFSPEC_GIVEN && one->origin <= GIX_REFSPEC_ALL_TAGS);
    CHECK(one->verdict >= GIX_REFSPEC_WRITTEN && one->verdict <= GIX_REFSPEC_DIRECTORY_CONFLICT);
    size_t count = count_of(given, one->origin);
    CHECK(count == 0 ? one->spec == GIX_REFSPEC_NO_SPEC : one->spec < count);
    if (one->verdict == GIX_REFSPEC_MISSING)
        return;
    CHECK(one->item == GIX_REFSPEC_NO_ITEM ? id_of(plan, at).len > 0 : one->item < given->names_count);
    text made = made_by(plan, at);
    CHECK(one->has_destination || made.len == 0);
    if (one->verdict != GIX_REFSPEC_WRITTEN || !one->has_destination)
        return;
    CHECK(begins(made, LITERAL("refs/")) && check_of(made, GIX_REFSPEC_FETCH) == GIX_REFSPEC_OK);
    /* No destination is written twice, nor one below another. */
    for (size_t other = 0; other < plan->count; other++) {
        const mapping *two = &plan->list[other];
        if (other == at || two->verdict != GIX_REFSPEC_WRITTEN || !two->has_destination)
            continue;
        CHECK(!is(made_by(plan, other), made) && !is_below(made_by(plan, other), made));
    }
}

static void check_plan(const input *given)
{
    mapped plan;
    uint32_t outcome = listed(plans, given, &plan);
    uint32_t refusal = refusal_of(given->given, given->given_count, GIX_REFSPEC_FETCH);
    if (refusal == GIX_REFSPEC_OK)
        refusal = refusal_of(given->configured, given->configured_count, GIX_REFSPEC_FETCH);
    tell(17, outcome);
    CHECK(refusal == GIX_REFSPEC_OK ? is_answer(outcome) : outcome == refusal);
    bool is_missing = false, is_contested = false;
    for (size_t at = 0; is_answer(outcome) && at < plan.count; at++) {
        check_update(given, &plan, at);
        is_missing |= plan.list[at].verdict == GIX_REFSPEC_MISSING;
        is_contested |= plan.list[at].verdict == GIX_REFSPEC_CONTESTED;
    }
    CHECK(!is_answer(outcome) || outcome == (is_missing ? GIX_REFSPEC_MISSING_SOURCE
                                             : is_contested ? GIX_REFSPEC_IN_CONFLICT : GIX_REFSPEC_OK));
    free_mapped(plan);
}

/* Effects. */

typedef struct {
    const input *given;
    text name;
    gix_refspec_effect effects[MOST];
    size_t item;
} of_name;

static uint32_t why(const void *with, uint8_t *bytes, size_t room, size_t *len)
{
    of_name *of = (of_name *)with;
    const input *given = of->given;
    of->item = 9;
    uint32_t outcome = gix_refspec_why(given->configured, given->configured_count, given->names, given->names_count, of->name.bytes,
                                       of->name.len, of->effects, given->configured_count, bytes, room, &of->item, len);
    CHECK(outcome == GIX_REFSPEC_OK || outcome == GIX_REFSPEC_TOO_SMALL || of->item == 9);
    return outcome;
}

/* The verdict of a plan on a name by a configured spec, or 0 where it has none. */
static uint32_t verdict_of(const input *given, const mapped *plan, size_t spec, text name)
{
    for (size_t at = 0; at < plan->count; at++) {
        const mapping *one = &plan->list[at];
        if (one->verdict != GIX_REFSPEC_MISSING && one->origin == GIX_REFSPEC_CONFIGURED && one->spec == spec
            && one->item != GIX_REFSPEC_NO_ITEM && is(given->names[one->item], name))
            return one->verdict;
    }
    return 0;
}

static void check_effect(const of_name *of, size_t at, buffer made, const mapped *plan)
{
    const gix_refspec_effect *one = &of->effects[at];
    const input *given = of->given;
    tell(33, one->fate * 8 + one->mismatch % 8);
    CHECK(one->fate >= GIX_REFSPEC_FATE_UNMATCHED && one->fate <= GIX_REFSPEC_FATE_WRITTEN);
    CHECK(one->mismatch <= GIX_REFSPEC_MISMATCH_EARLIER_CANDIDATE);
    CHECK((one->mismatch != 0) == (one->fate == GIX_REFSPEC_FATE_UNMATCHED));
    CHECK(one->made_len <= made.len && one->made_at <= made.len - one->made_len && (one->has_destination || one->made_len == 0));
    CHECK(one->word_len <= of->name.len && one->word_at <= of->name.len - one->word_len);
    const bool is_conflict = one->fate == GIX_REFSPEC_FATE_IN_CONFLICT || one->fate == GIX_REFSPEC_FATE_DIRECTORY_CONFLICT;
    const bool is_excluded = one->fate == GIX_REFSPEC_FATE_EXCLUDED, is_duplicate = one->fate == GIX_REFSPEC_FATE_DUPLICATE;
    CHECK(is_conflict || is_excluded || is_duplicate ? one->spec < given->configured_count : one->spec == GIX_REFSPEC_NO_SPEC);
    CHECK(one->item == GIX_REFSPEC_NO_ITEM || is_conflict || one->mismatch == GIX_REFSPEC_MISMATCH_EARLIER_CANDIDATE);
    CHECK(!is_duplicate || one->spec < at);
    CHECK(!is_excluded || given->configured[one->spec].bytes[0] == '^');
    if (of->item == GIX_REFSPEC_NO_ITEM)
        return;
    const uint32_t wanted = one->fate == GIX_REFSPEC_FATE_WRITTEN ? GIX_REFSPEC_WRITTEN
        : one->fate == GIX_REFSPEC_FATE_IN_CONFLICT ? GIX_REFSPEC_CONTESTED
        : is_conflict ? GIX_REFSPEC_DIRECTORY_CONFLICT : 0;
    const uint32_t verdict = verdict_of(given, plan, at, of->name);
    if (wanted != 0)
        CHECK(verdict == wanted);
    else
        CHECK(verdict != GIX_REFSPEC_WRITTEN && verdict != GIX_REFSPEC_CONTESTED && verdict != GIX_REFSPEC_DIRECTORY_CONFLICT);
}

/* What a plan of the configured specs has of a name, each of them does with it. */
static void check_effects(const input *given)
{
    input configured = *given;
    configured.given_count = configured.merges_count = configured.tags = 0;
    const uint32_t refusal = refusal_of(given->configured, given->configured_count, GIX_REFSPEC_FETCH);
    mapped plan;
    CHECK(is_answer(listed(plans, &configured, &plan)) == (refusal == GIX_REFSPEC_OK));
    for (size_t at = 0; at < given->names_count + given->local_count; at++) {
        of_name of = { .given = given };
        of.name = at < given->names_count ? given->names[at] : given->local[at - given->names_count];
        buffer made;
        CHECK(filled(why, &of, &made) == refusal);
        for (size_t spec = 0; refusal == GIX_REFSPEC_OK && spec < given->configured_count; spec++)
            check_effect(&of, spec, made, &plan);
        CHECK(refusal != GIX_REFSPEC_OK || at >= given->names_count || of.item <= at);
        free(made.all);
    }
    free_mapped(plan);
}

static uint32_t stale_of(const input *given, gix_refspec_stale_ref *stale, size_t room, size_t *count)
{
    return gix_refspec_stale(given->configured, given->configured_count, given->names, given->names_count, given->local,
                             given->local_count, stale, room, count);
}

/* Stale refs are in order, once each, and what keeps one is a negative spec. */
static void check_stale(const input *given)
{
    size_t count = 99, again = 99;
    uint32_t outcome = stale_of(given, NULL, 0, &count);
    uint32_t refusal = refusal_of(given->configured, given->configured_count, GIX_REFSPEC_FETCH);
    tell(18, outcome);
    if (outcome != GIX_REFSPEC_TOO_SMALL) {
        CHECK(outcome == refusal && (outcome == GIX_REFSPEC_OK ? count == 0 : count == 99));
        return;
    }
    CHECK(refusal == GIX_REFSPEC_OK && count > 0 && count <= given->local_count);
    buffer small = buffer_of((count - 1) * sizeof(gix_refspec_stale_ref)), all = buffer_of(count * sizeof(gix_refspec_stale_ref));
    CHECK(stale_of(given, (gix_refspec_stale_ref *)small.bytes, count - 1, &again) == GIX_REFSPEC_TOO_SMALL && again == count);
    check_untouched(small);
    gix_refspec_stale_ref *stale = (gix_refspec_stale_ref *)all.bytes;
    CHECK(stale_of(given, stale, count, &again) == GIX_REFSPEC_OK && again == count);
    check_guards(all);
    for (size_t at = 0; at < count; at++) {
        CHECK(stale[at].item < given->local_count && (at == 0 || stale[at - 1].item < stale[at].item));
        bool is_kept = stale[at].kept_by != GIX_REFSPEC_NO_SPEC;
        tell(19, is_kept);
        CHECK(!is_kept || stale[at].kept_by < given->configured_count);
        CHECK(!is_kept || given->configured[stale[at].kept_by].bytes[0] == '^');
        for (size_t name = 0; name < given->names_count; name++)
            tell(20, is(given->names[name], given->local[stale[at].item]));
    }
    free(small.all);
    free(all.all);
}

static void check_others(void)
{
    text sentence = GIX_REFSPEC_TEXT_INIT;
    for (uint32_t outcome = 0; outcome <= GIX_REFSPEC_OTHER_PARTS + 1; outcome++)
        CHECK((gix_refspec_explanation(outcome, &sentence) == GIX_REFSPEC_OK) == (outcome <= GIX_REFSPEC_OTHER_PARTS));
    CHECK(gix_refspec_version(&sentence) == GIX_REFSPEC_OK && is(sentence, LITERAL(GIX_REFSPEC_VERSION)));
}

/* The texts are copies, so that valgrind sees a read beyond their ends. An empty one has no address. */
static void add(text *list, size_t *count, text line)
{
    if (*count == MOST)
        return;
    uint8_t *copy = line.len > 0 ? malloc(line.len) : NULL;
    CHECK(line.len == 0 || copy != NULL);
    if (line.len > 0)
        memcpy(copy, line.bytes, line.len);
    list[(*count)++] = (text){ copy, line.len };
}

static void free_all(text *list, size_t count)
{
    for (size_t at = 0; at < count; at++)
        free((void *)list[at].bytes);
}

static void read_line(input *given, text line)
{
    text rest = { line.bytes + 1, line.len - 1 };
    switch (line.bytes[0]) {
    case 'g':
        add(given->given, &given->given_count, rest);
        break;
    case 'c':
        add(given->configured, &given->configured_count, rest);
        break;
    case 'm':
        add(given->merges, &given->merges_count, rest);
        break;
    case 'n':
        add(given->names, &given->names_count, rest);
        break;
    case 'l':
        add(given->local, &given->local_count, rest);
        break;
    case 't':
        given->tags = 1;
        break;
    case 'f':
        is_refusing = true;
        break;
    }
}

static void check_texts(const text *specs, size_t count, const input *given, uint32_t operation)
{
    for (size_t at = 0; at < count; at++) {
        check_text(specs[at], given, operation);
        check_order(specs[at], specs[at > 0 ? at - 1 : count - 1], operation);
    }
}

/* The upstreams of all merged refs and names. */
static void check_merges(const input *given)
{
    for (size_t at = 0; at < given->merges_count; at++)
        check_upstream(given, given->merges[at]);
    for (size_t at = 0; at < given->names_count; at++)
        check_upstream(given, given->names[at]);
}

/* Given specs are sources, and local refs are destinations; names of refs are those of remotes and branches too. */
static void check_parts(const input *given)
{
    for (size_t at = 0; at < given->given_count; at++) {
        for (uint32_t mode = GIX_REFSPEC_NORMAL; mode <= GIX_REFSPEC_NEGATIVE; mode++) {
            const text destination = given->local_count > 0 ? given->local[at % given->local_count] : (text){ NULL, 0 };
            for (uint32_t operation = GIX_REFSPEC_FETCH; operation <= GIX_REFSPEC_PUSH; operation++) {
                check_sides(given->given[at], (text){ NULL, 0 }, mode, operation);
                check_sides(given->given[at], destination, mode, operation);
            }
        }
    }
    for (size_t at = 0; at < given->configured_count; at++) {
        const text name = given->names_count > 0 ? given->names[at % given->names_count] : LITERAL("origin");
        check_remote((of_remote){ given->configured[at], LITERAL("origin"), name, 0 });
        check_remote((of_remote){ given->configured[at], name, LITERAL("*"), 0 });
    }
}

int LLVMFuzzerTestOneInput(const uint8_t *data, size_t size)
{
    input given = { .tags = 0 };
    is_refusing = false;
    for (size_t at = 0; at < size;) {
        const uint8_t *end = memchr(data + at, '\n', size - at);
        size_t len = end != NULL ? (size_t)(end - (data + at)) : size - at;
        if (len > 0)
            read_line(&given, (text){ data + at, len });
        at += len + 1;
    }
    for (uint32_t operation = GIX_REFSPEC_FETCH; operation <= GIX_REFSPEC_PUSH; operation++) {
        check_texts(given.given, given.given_count, &given, operation);
        check_texts(given.configured, given.configured_count, &given, operation);
        of_list list = { given.given, given.given_count, operation };
        buffer lines;
        uint32_t outcome = filled(prefixes, &list, &lines), refusal = refusal_of(list.specs, list.count, operation);
        tell(20 + operation, outcome);
        CHECK(refusal == GIX_REFSPEC_OK ? outcome == GIX_REFSPEC_OK || outcome == GIX_REFSPEC_NO_LIST : outcome == refusal);
        free(lines.all);
    }
    check_matches(&given);
    for (uint32_t direction = GIX_REFSPEC_FORWARD; direction <= GIX_REFSPEC_BACKWARD; direction++) {
        of_match of = { given.configured, given.names, given.configured_count, given.names_count, direction };
        check_refs(&of);
    }
    check_pairs(&given);
    check_merges(&given);
    check_parts(&given);
    check_plan(&given);
    check_stale(&given);
    check_effects(&given);
    check_others();
    free_all(given.given, given.given_count);
    free_all(given.configured, given.configured_count);
    free_all(given.merges, given.merges_count);
    free_all(given.names, given.names_count);
    free_all(given.local, given.local_count);
    return 0;
}
