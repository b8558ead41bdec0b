/* Speaks the lines of refspec_map by libgit2 (Debian's libgit2-dev): its commands canon, lhs and rhs.
 *
 *     gcc -o OUT conformance/drivers/libgit2.c -lgit2
 *     conformance/run --known conformance/known/libgit2.tsv --only validity --only names --only forward --only backward OUT
 *
 * libgit2 has no canonical text, so canon prints the text as it is. It has no groups, so of several specs the status is 2, as for a command
 * that isn't there. */
#define _GNU_SOURCE
#include "lines.h"
#include <git2.h>

static int canon(struct lines lines, int is_fetch) {
    int status = 0;
    for (size_t k = 0; k < lines.count; k++) {
        git_refspec *spec = NULL;
        int refused = strlen(lines.of[k].bytes) != lines.of[k].len || git_refspec_parse(&spec, lines.of[k].bytes, is_fetch) != 0;
        if (refused)
            puts("err");
        else
            printf("ok %s\n", git_refspec_string(spec));
        status |= refused;
        git_refspec_free(spec);
    }
    return status;
}

/* Prints what a spec makes of a name, from left to right or from right to left. */
static void print_mapping(const git_refspec *spec, const char *name, size_t item, int is_forward) {
    if (!(is_forward ? git_refspec_src_matches : git_refspec_dst_matches)(spec, name))
        return;
    git_buf made = { 0 };
    if ((is_forward ? git_refspec_transform : git_refspec_rtransform)(&made, spec, name) != 0) {
        printf("map\t0\t%zu\t%s\n", item, name);
        return;
    }
    const char *source = is_forward ? name : made.ptr, *destination = is_forward ? made.ptr : name;
    if (*destination == 0)
        printf("map\t0\t%zu\t%s\n", item, source);
    else
        printf("map\t0\t%zu\t%s\t%s\n", item, source, destination);
    git_buf_dispose(&made);
}

static int match(struct lines lines, int is_forward) {
    struct lines specs = fields_of(lines, "spec", 1), refs = fields_of(lines, "ref", 2);
    git_refspec *spec = NULL;
    if (specs.count != 1 || specs.count + refs.count != lines.count)
        return USAGE_ERROR; /* no single spec, or a tag: names have no ids here */
    if (git_refspec_parse(&spec, specs.of[0].bytes, 1) != 0) {
        puts("line 1: refused");
        return 1;
    }
    for (size_t item = 0; item < refs.count; item++)
        print_mapping(spec, refs.of[item].bytes, item, is_forward);
    git_refspec_free(spec);
    return 0;
}

int main(int argc, char **argv) {
    const char *command = argc > 1 ? argv[1] : "", *operation = argc > 2 ? argv[2] : "";
    int is_fetch = strcmp(operation, "fetch") == 0;
    git_libgit2_init();
    if (strcmp(command, "canon") == 0 && (is_fetch || strcmp(operation, "push") == 0))
        return canon(read_lines(), is_fetch);
    if (strcmp(command, "lhs") == 0)
        return match(read_lines(), 1);
    if (strcmp(command, "rhs") == 0)
        return match(read_lines(), 0);
    return USAGE_ERROR;
}
