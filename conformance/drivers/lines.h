/* Reads the lines of refspec_map from the standard input, for the drivers in C. */
#include <stdio.h>
#include <stdlib.h>
#include <string.h>

enum { USAGE_ERROR = 2 };

/* A line, which ends with a zero byte that isn't counted. */
struct line {
    char *bytes;
    size_t len;
};

struct lines {
    struct line *of;
    size_t count;
};

static void *checked(void *memory) {
    if (memory == NULL) {
        fputs("out of memory\n", stderr);
        exit(3);
    }
    return memory;
}

static struct lines read_lines(void) {
    struct lines lines = { checked(malloc(sizeof(struct line))), 0 };
    char *bytes = NULL;
    size_t room = 0;
    ssize_t len;
    while ((len = getline(&bytes, &room, stdin)) >= 0) {
        if (len > 0 && bytes[len - 1] == '\n')
            bytes[--len] = 0;
        lines.of = checked(realloc(lines.of, (lines.count + 1) * sizeof(struct line)));
        lines.of[lines.count++] = (struct line){ bytes, (size_t)len };
        bytes = NULL;
        room = 0;
    }
    return lines;
}

/* What follows the first words of the lines of a kind: `spec` has one word, `ref` two and `tag` three. */
static struct lines fields_of(struct lines lines, const char *kind, int words) {
    struct lines found = { checked(malloc((lines.count + 1) * sizeof(struct line))), 0 };
    for (size_t k = 0; k < lines.count; k++) {
        char *at = lines.of[k].bytes;
        if (strncmp(at, kind, strlen(kind)) != 0 || at[strlen(kind)] != ' ')
            continue;
        for (int word = 0; word < words && at != NULL; word++)
            at = strchr(at, ' ') + 1;
        found.of[found.count++] = (struct line){ at, (size_t)(lines.of[k].bytes + lines.of[k].len - at) };
    }
    return found;
}
