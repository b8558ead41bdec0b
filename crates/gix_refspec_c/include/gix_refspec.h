/* Git refspecs: checked, taken apart, printed, compared, matched and explained; plans of fetches, stale refs,
 * upstreams, and the fetch values of remotes.
 *
 * Each call returns GIX_REFSPEC_OK, or why it failed. A text is a pointer and a length; the pointer may be NULL if the
 * length is 0. The caller owns all memory. Nothing is kept from call to call. What a call doesn't set is unchanged.
 * C.md explains outcomes and threads, what a caller owes, and what is proved. */
#ifndef GIX_REFSPEC_H
#define GIX_REFSPEC_H

#include <stddef.h>
#include <stdint.h>

/* The version of this header; gix_refspec_version returns that of the library in use. Before 1.0 a minor version may
 * break callers. */
#define GIX_REFSPEC_VERSION_MAJOR 0
#define GIX_REFSPEC_VERSION_MINOR 3
#define GIX_REFSPEC_VERSION_PATCH 0
#define GIX_REFSPEC_VERSION "0.3.0"

#ifdef __cplusplus
extern "C" {
#endif

/* What a refspec is for. */
enum { GIX_REFSPEC_FETCH = 1, GIX_REFSPEC_PUSH = 2 };

/* Outcomes. Those from EMPTY to NAME_INVALID_BYTE say what is wrong with a text; NAME_EMPTY and NAME_ASTERISK aren't
 * returned. */
enum {
    GIX_REFSPEC_OK = 0, GIX_REFSPEC_EMPTY = 1, GIX_REFSPEC_NEGATIVE_WITH_DESTINATION = 2,
    GIX_REFSPEC_NEGATIVE_EMPTY = 3, GIX_REFSPEC_NEGATIVE_OBJECT_HASH = 4, GIX_REFSPEC_PUSH_TO_EMPTY = 5,
    GIX_REFSPEC_PATTERN_UNSUPPORTED = 6, GIX_REFSPEC_PATTERN_UNBALANCED = 7, GIX_REFSPEC_NAME_EMPTY = 8,
    GIX_REFSPEC_NAME_EMPTY_COMPONENT = 9, GIX_REFSPEC_NAME_STARTS_WITH_DOT = 10,
    GIX_REFSPEC_NAME_LOCK_SUFFIX = 11, GIX_REFSPEC_NAME_ENDS_WITH_DOT = 12, GIX_REFSPEC_NAME_REPEATED_DOT = 13,
    GIX_REFSPEC_NAME_REFLOG_PORTION = 14, GIX_REFSPEC_NAME_ASTERISK = 15, GIX_REFSPEC_NAME_INVALID_BYTE = 16,
    GIX_REFSPEC_NO_LIST = 17, GIX_REFSPEC_TOO_SMALL = 18, GIX_REFSPEC_NO_MEMORY = 19,
    GIX_REFSPEC_NO_OPERATION = 20, GIX_REFSPEC_NEEDS_IDS = 21, GIX_REFSPEC_IN_CONFLICT = 22,
    GIX_REFSPEC_MISSING_SOURCE = 23, GIX_REFSPEC_INVALID_ID = 24, GIX_REFSPEC_OTHER_PARTS = 25
};

/* Kinds of instructions. */
enum { GIX_REFSPEC_PUSH_ALL_MATCHING = 1, GIX_REFSPEC_PUSH_DELETE = 2, GIX_REFSPEC_PUSH_MATCHING = 3,
       GIX_REFSPEC_PUSH_EXCLUDE = 4, GIX_REFSPEC_FETCH_ONLY = 5, GIX_REFSPEC_FETCH_EXCLUDE = 6,
       GIX_REFSPEC_FETCH_AND_UPDATE = 7 };

typedef struct { const uint8_t *bytes; size_t len; } gix_refspec_text;
#define GIX_REFSPEC_TEXT_INIT { (const uint8_t *)"", 0 }

/* The version of the library in use, such as "0.3.0". It ends with a NUL that isn't counted. */
uint32_t gix_refspec_version(gix_refspec_text *version);

/* What a refspec says to do. A missing side is empty; a present one never is. Sides point into the text, or are the
 * constant HEAD. */
typedef struct {
    uint32_t kind, forced; /* forced: 1 if refs may move without a fast-forward */
    gix_refspec_text source, destination;
} gix_refspec_instruction;
#define GIX_REFSPEC_PARTS_INIT { 0, 0, GIX_REFSPEC_TEXT_INIT, GIX_REFSPEC_TEXT_INIT }

/* The modes of refspecs: without a sign, `+` and `^`. */
enum { GIX_REFSPEC_NORMAL = 1, GIX_REFSPEC_FORCED = 2, GIX_REFSPEC_NEGATIVE = 3 };

/* What the text of a refspec says, where gix_refspec_instruction is what it means: a deletion and a fetch without a
 * destination keep their sign, and a push of `main` has no destination, though its instruction pushes to `main`.
 * has_source and has_destination are 1 or 0. A missing side is empty; a present one never is. Sides point into the
 * text; the source HEAD, for `@` and where a fetch has none, is a constant. */
typedef struct {
    uint32_t mode, has_source, has_destination;
    gix_refspec_text source, destination;
} gix_refspec_sides;
#define GIX_REFSPEC_SIDES_INIT { 0, 0, 0, GIX_REFSPEC_TEXT_INIT, GIX_REFSPEC_TEXT_INIT }

/* The wrong bytes of a refused text: len bytes from the index start on, all in one side. If no bytes are wrong, side,
 * start and len are 0. */
enum { GIX_REFSPEC_SOURCE = 1, GIX_REFSPEC_DESTINATION = 2 };
typedef struct {
    uint32_t side;
    size_t start, len;
} gix_refspec_span;
#define GIX_REFSPEC_SPAN_INIT { 0, 0, 0 }

/* What a refspec makes of a name. mapped is 1 if it maps the name, else 0, and has_destination 1 if the mapping has a
 * destination, else 0. The name that it makes is in the buffer, and len its length. */
typedef struct {
    uint32_t mapped, has_destination;
    size_t len;
} gix_refspec_made;
#define GIX_REFSPEC_MADE_INIT { 0, 0, 0 }

/* The text of a refspec, and what it is for. */
typedef struct {
    gix_refspec_text text;
    uint32_t operation;
} gix_refspec_spec;

/* A ref: its full name; the id of its object, in 40 or 64 hex digits, or empty if that isn't known; and for an
 * annotated tag the id of the tagged object, or empty. */
typedef struct {
    gix_refspec_text name, target, object;
} gix_refspec_ref;

/* Which sides of fetches are matched: the sources, or the destinations. */
enum { GIX_REFSPEC_FORWARD = 1, GIX_REFSPEC_BACKWARD = 2 };
#define GIX_REFSPEC_NO_ITEM SIZE_MAX
#define GIX_REFSPEC_NO_SPEC SIZE_MAX

/* What to fetch. The configured refspecs are fetched if none are given; else they also map what the given ones fetch.
 *   given       the arguments of git fetch
 *   configured  the values of remote.<name>.fetch
 *   merges      the values of branch.<name>.merge of the current branch, if its remote is this one: full names, or HEAD.
 *               Any other value is ignored; for an empty one Git fetches HEAD, so pass that
 *   tags        nonzero to fetch all tags */
typedef struct {
    const gix_refspec_text *given;
    size_t given_count;
    const gix_refspec_text *configured;
    size_t configured_count;
    const gix_refspec_text *merges;
    size_t merges_count;
    uint32_t tags;
} gix_refspec_wish;
#define GIX_REFSPEC_WISH_INIT { NULL, 0, NULL, 0, NULL, 0, 0 }

/* What makes an update: a given refspec, a configured one or a merged ref; HEAD, if there is none of these; or all tags,
 * if asked for. */
enum { GIX_REFSPEC_GIVEN = 1, GIX_REFSPEC_CONFIGURED = 2, GIX_REFSPEC_MERGE = 3, GIX_REFSPEC_DEFAULT = 4,
       GIX_REFSPEC_ALL_TAGS = 5 };

/* What becomes of an update. */
enum {
    GIX_REFSPEC_WRITTEN = 1,             /* if the outcome is OK: fetched, and written to its destination if any */
    GIX_REFSPEC_INVALID_SOURCE = 2,      /* left out: the source is neither a valid ref name nor an id */
    GIX_REFSPEC_INVALID_DESTINATION = 3, /* left out: the destination isn't a valid ref name, or is HEAD */
    GIX_REFSPEC_INVALID_SIDES = 4,       /* left out: both */
    GIX_REFSPEC_CONTESTED = 5,           /* another source has the same destination, so nothing is fetched */
    GIX_REFSPEC_OVERRULED = 6,           /* not written: a given refspec or all tags write its destination */
    GIX_REFSPEC_MISSING = 7,             /* the remote lacks the source of a refspec: only origin and spec matter */
    GIX_REFSPEC_DIRECTORY_CONFLICT = 8   /* the destination of another update is a directory of this one's, or the other way
                                          * round: Git writes one of them, and ends with status 1 */
};

/* A mapping, or an update of a plan. Offsets are into the buffer.
 *   spec               the index of its spec, in a plan in the list that origin names; NO_SPEC at DEFAULT and ALL_TAGS
 *   item               the index of its name; NO_ITEM for an object requested by its id
 *   has_destination    1 if it has a destination, else 0
 *   forced             1 if refs may move without a fast-forward, else 0
 *   origin, verdict    0 after match
 *   id_at, id_len      the offset and length of the id, if item is NO_ITEM; else the length is 0
 *   made_at, made_len  those of the destination (backward: of the source) */
typedef struct {
    size_t spec, item;
    uint32_t has_destination, forced, origin, verdict;
    size_t id_at, id_len, made_at, made_len;
} gix_refspec_mapping;

/* A local ref that looks stale: item is the index of its name, and kept_by that of a negative refspec that keeps it, as
 * it excludes a ref from which it could be written: any one, if there are several. If kept_by is NO_SPEC, a pruning
 * fetch should delete it. */
typedef struct {
    size_t item, kept_by;
} gix_refspec_stale_ref;

/* A mapping that a caller validates: a source, which is a ref name, or an id in one spelling, and a destination.
 * source_is_id and has_destination: any number but 0 is yes. */
typedef struct {
    gix_refspec_text source, destination;
    uint32_t source_is_id, has_destination;
} gix_refspec_pair;

/* What becomes of it. */
enum {
    GIX_REFSPEC_PAIR_KEPT = 1,
    GIX_REFSPEC_PAIR_REMOVED = 2,    /* the destination neither begins with refs/ nor is HEAD */
    GIX_REFSPEC_PAIR_IN_CONFLICT = 3 /* another source has the same destination */
};

/* The verdict on it. first is the index of the first mapping to its destination, which all in one conflict have, and
 * NO_PAIR at the other verdicts. */
typedef struct {
    uint32_t verdict;
    size_t first;
} gix_refspec_pair_verdict;
#define GIX_REFSPEC_NO_PAIR SIZE_MAX

/* What becomes of a ref by one spec: the first of these that applies, in this order. */
enum {
    GIX_REFSPEC_FATE_UNMATCHED = 1,           /* the source doesn't match the name, for the reason in mismatch */
    GIX_REFSPEC_FATE_EXCLUDES = 2,            /* the spec is negative, and excludes the ref */
    GIX_REFSPEC_FATE_EXCLUDED = 3,            /* spec, the first negative one that does, excludes the ref */
    GIX_REFSPEC_FATE_INVALID_NAME = 4,        /* left out: the name isn't a valid ref name */
    GIX_REFSPEC_FATE_INVALID_DESTINATION = 5, /* left out: the destination isn't a valid name below refs/ */
    GIX_REFSPEC_FATE_DUPLICATE = 6,           /* spec, the first that does, maps the ref to this destination too */
    GIX_REFSPEC_FATE_IN_CONFLICT = 7,         /* spec maps item to the same destination, so nothing is fetched */
    GIX_REFSPEC_FATE_DIRECTORY_CONFLICT = 8,  /* spec maps item to a directory of the destination, or the other way round */
    GIX_REFSPEC_FATE_WRITTEN = 9              /* if the outcome of the plan is OK, fetched, and written to its destination if any */
};

/* Why a source doesn't match a name. */
enum {
    GIX_REFSPEC_MISMATCH_NO_SOURCE = 1,
    GIX_REFSPEC_MISMATCH_PREFIX = 2,           /* the name doesn't begin with the pattern's prefix: count bytes agree */
    GIX_REFSPEC_MISMATCH_SUFFIX = 3,           /* it does, but doesn't end with the suffix: the last count bytes agree */
    GIX_REFSPEC_MISMATCH_OVERLAP = 4,          /* it does both, but the two would overlap */
    GIX_REFSPEC_MISMATCH_OTHER_NAME = 5,
    GIX_REFSPEC_MISMATCH_OBJECT = 6,           /* the source is an object id */
    GIX_REFSPEC_MISMATCH_NO_CANDIDATE = 7,     /* it is a partial name, of which the name is no candidate */
    GIX_REFSPEC_MISMATCH_EARLIER_CANDIDATE = 8 /* the name is one, but item is an earlier one, and so the spec takes that */
};

/* What a spec does with a ref.
 *   mismatch           0 but at UNMATCHED
 *   has_word           1 if a pattern excludes the ref, at EXCLUDES and EXCLUDED, else 0
 *   spec               the index of the other spec at EXCLUDED, DUPLICATE and conflicts, else NO_SPEC
 *   item               that of the other name at conflicts and EARLIER_CANDIDATE, else NO_ITEM, also for an object
 *   count              how many bytes agree, at PREFIX and SUFFIX, else 0
 *   word_at, word_len  the part of the name for which the pattern's star stands, if has_word is 1, else 0
 *   made_at, made_len  the offset and length of the destination in the buffer, if has_destination is 1 */
typedef struct {
    uint32_t fate, mismatch, has_destination, has_word;
    size_t spec, item, count, word_at, word_len, made_at, made_len;
} gix_refspec_effect;

/* The kinds of upstreams. */
enum {
    GIX_REFSPEC_TRACKED = 1,    /* this spec, the first that can, stores the merged ref in the one in the buffer */
    GIX_REFSPEC_EXCLUDED = 2,   /* none: excluded_by excludes the merged ref, as Git looks for that, from this spec */
    GIX_REFSPEC_NOT_STORED = 3, /* none: this spec, the first, fetches the merged ref, and none stores it */
    GIX_REFSPEC_NOT_FETCHED = 4 /* none: no positive spec fetches the merged ref */
};

/* The upstream of a branch, or why it has none. spec is NO_SPEC at NOT_FETCHED, and excluded_by at all but EXCLUDED.
 * len is the length of the name of the tracking ref, and 0 if there is none. */
typedef struct {
    uint32_t kind;
    size_t spec, excluded_by, len;
} gix_refspec_upstream_ref;
#define GIX_REFSPEC_UPSTREAM_INIT { 0, 0, 0, 0 }

/* The values of remote.<name>.fetch that Git writes, and those for reviews. */
enum {
    GIX_REFSPEC_BRANCH = 1,        /* +refs/heads/<branch>:refs/remotes/<remote>/<branch>, as after `git remote add` */
    GIX_REFSPEC_MIRROR = 2,        /* +refs/<branch>:refs/<branch>, as after `git remote add --mirror=fetch` */
    GIX_REFSPEC_PULL_REQUESTS = 3, /* +refs/pull/<any>/head:refs/remotes/<remote>/pr/<any>, with a star for <any> */
    GIX_REFSPEC_MERGE_REQUESTS = 4 /* the same of refs/merge-requests/ to refs/remotes/<remote>/merge-requests/ */
};

/* Whether a text is a refspec. */
uint32_t gix_refspec_check(const uint8_t *text, size_t text_len, uint32_t operation);

/* Which bytes make gix_refspec_check refuse a text: of an invalid ref name the first that break a rule, such as "..",
 * else a star, or a whole side. No bytes are wrong in a refspec; at EMPTY, PUSH_TO_EMPTY and NEGATIVE_EMPTY, where
 * something is missing; and at NEGATIVE_WITH_DESTINATION if nothing follows the colon. Returns GIX_REFSPEC_OK in all
 * these cases. */
uint32_t gix_refspec_locate(const uint8_t *text, size_t text_len, uint32_t operation, gix_refspec_span *span);

/* Its instruction. */
uint32_t gix_refspec_parts(const uint8_t *text, size_t text_len, uint32_t operation, gix_refspec_instruction *parts);

/* Its mode and its sides. If a side has several stars, gix_refspec_locate tells which one. */
uint32_t gix_refspec_read(const uint8_t *text, size_t text_len, uint32_t operation, gix_refspec_sides *sides);

/* The canonical text of an instruction: of a refspec, if gix_refspec_parts has told it. Of one made by hand the text
 * may be no refspec. Sides that its kind lacks don't count, and forced only where the kind has it: then any number
 * but 0 is yes. *len is set as by canonical. GIX_REFSPEC_NO_OPERATION if the kind is unknown. */
uint32_t gix_refspec_print(const gix_refspec_instruction *parts, uint8_t *buffer, size_t buffer_len, size_t *len);

/* The canonical text of the refspec with this mode and these sides: what gix_refspec_canonical makes of the sign, the
 * source, and a colon and the destination if there is one. has_source and has_destination: any number but 0 is yes, and
 * a missing source is written as an empty one. So what gix_refspec_read has told makes an equal refspec, but for `:`
 * and `+:`, whose destination has to be there, and empty. GIX_REFSPEC_OTHER_PARTS if that text has another mode or
 * other sides, as the source begins with a sign, or the last side has a colon in it. GIX_REFSPEC_NO_OPERATION if the
 * mode is unknown. *len is set as by canonical. */
uint32_t gix_refspec_from_parts(const gix_refspec_sides *sides, uint32_t operation, uint8_t *buffer, size_t buffer_len,
                                size_t *len);

/* Its canonical text. *len is set to the bytes needed, also at GIX_REFSPEC_TOO_SMALL. */
uint32_t gix_refspec_canonical(const uint8_t *text, size_t text_len, uint32_t operation, uint8_t *buffer,
                               size_t buffer_len, size_t *len);

/* How two refspecs compare: -1, 0 or 1; 0 exactly if their canonical texts are equal. */
uint32_t gix_refspec_compare(const uint8_t *a, size_t a_len, const uint8_t *b, size_t b_len, uint32_t operation,
                             int32_t *order);

/* The destination that it makes of a name, which is the source. The refspec is alone: no other one excludes the name,
 * and a partial name takes each of its six candidates. An object id maps no name. *made is set also at
 * GIX_REFSPEC_TOO_SMALL, made->len to the bytes needed. */
uint32_t gix_refspec_map(const uint8_t *text, size_t text_len, uint32_t operation, const uint8_t *name,
                         size_t name_len, uint8_t *buffer, size_t buffer_len, gix_refspec_made *made);

/* The source that it makes of a name, which is the destination. All else is as in gix_refspec_map. */
uint32_t gix_refspec_map_back(const uint8_t *text, size_t text_len, uint32_t operation, const uint8_t *name,
                              size_t name_len, uint8_t *buffer, size_t buffer_len, gix_refspec_made *made);

/* Its ref prefix on the remote: a full name, HEAD, or what is before the star of a pattern below refs/. Empty if it has
 * none. Points into the text, or is the constant HEAD. Texts that compare equal may have different prefixes: a push of
 * refs/heads/a has none, and one of refs/heads/a:refs/heads/a has refs/heads/a. */
uint32_t gix_refspec_prefix(const uint8_t *text, size_t text_len, uint32_t operation, gix_refspec_text *prefix);

/* That prefix, or the six candidates of a partial name, each with a newline; none for an id, a negative refspec, or a
 * push without a destination. It may be empty, contain a star, or for HEAD be incomplete: to ask a server, call
 * gix_refspec_prefixes. *len is set as by canonical. */
uint32_t gix_refspec_expand_prefixes(const uint8_t *text, size_t text_len, uint32_t operation, uint8_t *buffer,
                                     size_t buffer_len, size_t *len);

/* The ref prefixes to send to a server, so that it lists each ref that the refspecs map, each with a newline; none
 * begins with another one. To follow tags, send refs/tags/ too, and for a clone HEAD. If none, send no request.
 * GIX_REFSPEC_NO_LIST if only a request for all refs is safe. *len is set as by canonical. */
uint32_t gix_refspec_prefixes(const gix_refspec_text *texts, size_t count, uint32_t operation, uint8_t *buffer,
                              size_t buffer_len, size_t *len);

/* How fetch specs map names. *count is set to the elements and *len to the bytes needed, also at
 * GIX_REFSPEC_TOO_SMALL. */
uint32_t gix_refspec_match(const gix_refspec_text *texts, size_t texts_count, const gix_refspec_text *names,
                           size_t names_count, uint32_t direction, gix_refspec_mapping *mappings,
                           size_t mappings_count, uint8_t *buffer, size_t buffer_len, size_t *count, size_t *len);

/* How specs map refs, each read for its own operation: the refs of a remote to local ones by fetches, local ones to
 * those of a remote by pushes. Ids count backward only, for a spec whose destination is one: GIX_REFSPEC_NEEDS_IDS
 * if there is such a spec and the target of some ref isn't known. GIX_REFSPEC_INVALID_ID if a target or object has
 * other than 40 or 64 hex digits. In the mappings item is the index of the ref. *count and *len are set as by match. */
uint32_t gix_refspec_match_refs(const gix_refspec_spec *specs, size_t specs_count, const gix_refspec_ref *refs,
                                size_t refs_count, uint32_t direction, gix_refspec_mapping *mappings,
                                size_t mappings_count, uint8_t *buffer, size_t buffer_len, size_t *count, size_t *len);

/* Whether mappings can be written, such as those of a match that were changed: a verdict on each, in order, also at
 * GIX_REFSPEC_IN_CONFLICT, which says that some are in conflict. GIX_REFSPEC_TOO_SMALL if there are fewer verdicts than
 * mappings, and then none is set. Whether names are valid isn't checked. */
uint32_t gix_refspec_validate(const gix_refspec_pair *pairs, size_t pairs_count, gix_refspec_pair_verdict *verdicts,
                              size_t verdicts_count);

/* What a fetch writes, if the remote has these names. At GIX_REFSPEC_MISSING_SOURCE and GIX_REFSPEC_IN_CONFLICT nothing
 * is fetched, but mappings and buffer are filled. *count and *len are set as by match. */
uint32_t gix_refspec_plan(const gix_refspec_wish *wish, const gix_refspec_text *names, size_t names_count,
                          gix_refspec_mapping *mappings, size_t mappings_count, uint8_t *buffer, size_t buffer_len,
                          size_t *count, size_t *len);

/* Which local refs look stale by these fetch refspecs, if the remote has these names, in order; of equal names only the
 * first. *count is set as by match. Leave symbolic refs out of the local ones. */
uint32_t gix_refspec_stale(const gix_refspec_text *texts, size_t texts_count, const gix_refspec_text *remote,
                           size_t remote_count, const gix_refspec_text *local, size_t local_count,
                           gix_refspec_stale_ref *stale, size_t stale_count, size_t *count);

/* What each of these fetch refspecs does with the ref of one name, if the remote has these names, and so why it is fetched
 * or not: an effect for each refspec, in order, as plan has it of configured ones. *item is set to the index of the name
 * among the names, or to NO_ITEM if the remote lacks it, and then the effects are those that the refspecs would have.
 * GIX_REFSPEC_TOO_SMALL if there are fewer effects than refspecs, or too few bytes for the destinations: *item and *len
 * are set as by match then too. Only plan tells what stops a whole fetch, as a missing source does. */
uint32_t gix_refspec_why(const gix_refspec_text *texts, size_t texts_count, const gix_refspec_text *names,
                         size_t names_count, const uint8_t *name, size_t name_len, gix_refspec_effect *effects,
                         size_t effects_count, uint8_t *buffer, size_t buffer_len, size_t *item, size_t *len);

/* The upstream of a branch that merges a ref, by these fetch refspecs of its remote: what git rev-parse makes of
 * <branch>@{upstream}. merge is the first value of branch.<name>.merge. Git compares sides as they are written: here
 * main isn't refs/heads/main, and a tracking ref isn't completed. *upstream is set also at GIX_REFSPEC_TOO_SMALL, and
 * upstream->len to the bytes needed. */
uint32_t gix_refspec_upstream(const gix_refspec_text *texts, size_t count, const uint8_t *merge, size_t merge_len,
                              uint8_t *buffer, size_t buffer_len, gix_refspec_upstream_ref *upstream);

/* The canonical text of what git fetch --prefetch applies in place of a fetch refspec: a negative one as it is, and one
 * that stores refs forced and below refs/prefetch/. Empty if it ignores the refspec, as that stores nothing, or its
 * source begins with refs/tags/. *len is set as by canonical. */
uint32_t gix_refspec_prefetched(const uint8_t *text, size_t text_len, uint8_t *buffer, size_t buffer_len, size_t *len);

/* What git remote rename makes of a value of remote.<old_name>.fetch: the first :refs/remotes/<old_name>/ in it gets
 * the new name. Empty if the value doesn't have that: Git then leaves it. Neither the value nor the names are checked.
 * *len is set as by canonical. */
uint32_t gix_refspec_renamed(const uint8_t *value, size_t value_len, const uint8_t *old_name, size_t old_name_len,
                             const uint8_t *new_name, size_t new_name_len, uint8_t *buffer, size_t buffer_len,
                             size_t *len);

/* The canonical text of a value for a remote of this name and a branch, or all of them for a star. The branch doesn't
 * count for reviews, and the remote not for a mirror, whose branches are heads/<name>. It fails as
 * gix_refspec_from_parts does with such sides. GIX_REFSPEC_NO_OPERATION if the value is unknown. *len is set as by
 * canonical. */
uint32_t gix_refspec_remote_value(uint32_t value, const uint8_t *remote, size_t remote_len, const uint8_t *branch,
                                  size_t branch_len, uint8_t *buffer, size_t buffer_len, size_t *len);

/* The sentence for an outcome. It ends with a NUL that isn't counted. */
uint32_t gix_refspec_explanation(uint32_t outcome, gix_refspec_text *sentence);

#ifdef __cplusplus
}
#endif

#endif
