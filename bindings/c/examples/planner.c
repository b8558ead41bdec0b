/* Prints what a fetch would do: git ls-remote origin | ./planner [SPEC..] [-- CONFIGURED..]
 *
 * Without SPEC the configured refspecs are fetched, those of `git config --get-all remote.origin.fetch`. Ends with status 1 if a
 * source is missing, refs are in conflict, or a text isn't a refspec. For brevity it doesn't check its allocations. */
#define _POSIX_C_SOURCE 200809L /* for getline */
#include <gix_refspec.h>
#include <stdio.h>
#include <stdlib.h>
#include <string.h>
#include <sys/types.h>

static const char *const words[] = { "", "write", "left out", "left out", "left out", "conflict", "overruled", "missing",
                                     "directory conflict" };

/* The names that `git ls-remote` prints: an id, a tab and a name. A line that ends with `^{}` names no ref. */
static size_t read_names(gix_refspec_text **names)
{
    char *line = NULL, *tab;
    size_t room = 0, count = 0;
    for (ssize_t len; (len = getline(&line, &room, stdin)) > 0;) {
        len -= line[len - 1] == '\n';
        if (!(tab = memchr(line, '\t', len)) || (len > 3 && memcmp(line + len - 3, "^{}", 3) == 0))
            continue;
        if ((count & (count - 1)) == 0)
            *names = realloc(*names, (2 * count + 1) * sizeof **names);
        size_t name_len = line + len - (tab + 1);
        (*names)[count++] = (gix_refspec_text){ memcpy(malloc(name_len + 1), tab + 1, name_len), name_len };
    }
    return count;
}

static const char *word_of(const gix_refspec_mapping *one)
{
    if (one->verdict != GIX_REFSPEC_WRITTEN)
        return words[one->verdict];
    return one->has_destination ? one->forced ? "force" : "write" : "fetch";
}

/* The source; if it is missing, its refspec. */
static gix_refspec_text source_of(const gix_refspec_mapping *one, const gix_refspec_wish *wish,
                                  const gix_refspec_text *names, const uint8_t *text)
{
    if (one->verdict == GIX_REFSPEC_MISSING && one->origin == GIX_REFSPEC_DEFAULT)
        return (gix_refspec_text){ (const uint8_t *)"HEAD", 4 };
    if (one->verdict == GIX_REFSPEC_MISSING)
        return (one->origin == GIX_REFSPEC_GIVEN ? wish->given : wish->configured)[one->spec];
    return one->item == GIX_REFSPEC_NO_ITEM ? (gix_refspec_text){ text + one->id_at, one->id_len } : names[one->item];
}

int main(int argc, char **argv)
{
    gix_refspec_text specs[argc], *names = calloc(1, sizeof *names), why = GIX_REFSPEC_TEXT_INIT;
    gix_refspec_wish wish = { .given = specs };
    int i = 1;
    for (; i < argc && strcmp(argv[i], "--") != 0; i++)
        specs[wish.given_count++] = (gix_refspec_text){ (const uint8_t *)argv[i], strlen(argv[i]) };
    wish.configured = specs + wish.given_count;
    for (i++; i < argc; i++)
        specs[wish.given_count + wish.configured_count++] = (gix_refspec_text){ (const uint8_t *)argv[i], strlen(argv[i]) };
    size_t names_count = read_names(&names), count = names_count + 8, len = 64 * names_count + 256;
    gix_refspec_mapping *plan = NULL;
    uint8_t *text = NULL;
    uint32_t outcome;
    do { /* After TOO_SMALL, count and len are what the plan needs. */
        size_t count_room = count, len_room = len;
        plan = realloc(plan, count_room * sizeof *plan);
        text = realloc(text, len_room + 1);
        outcome = gix_refspec_plan(&wish, names, names_count, plan, count_room, text, len_room, &count, &len);
    } while (outcome == GIX_REFSPEC_TOO_SMALL);
    if (outcome != GIX_REFSPEC_OK && outcome != GIX_REFSPEC_IN_CONFLICT && outcome != GIX_REFSPEC_MISSING_SOURCE) {
        gix_refspec_explanation(outcome, &why);
        return fprintf(stderr, "%s\n", (const char *)why.bytes), 1;
    }
    for (const gix_refspec_mapping *one = plan; one < plan + count; one++) {
        const gix_refspec_text source = source_of(one, &wish, names, text);
        printf("%s\t", word_of(one));
        fwrite(source.bytes, 1, source.len, stdout);
        putchar('\t');
        if (one->has_destination)
            fwrite(text + one->made_at, 1, one->made_len, stdout);
        puts(one->has_destination ? "" : "-");
    }
    return outcome != GIX_REFSPEC_OK;
}
