/* Speaks the lines of refspec_map by the library for C: its commands canon, lhs and rhs. It leaves out the validation of mappings, and
 * destinations that are ids: gix_refspec_match has no ids to map back. Then the status is 2, as for a command that isn't there.
 *
 *     gcc -I crates/gix_refspec_c/include -o OUT conformance/drivers/c.c out/lib/libgix_refspec.a
 *     conformance/run OUT */
#define _GNU_SOURCE
#include "gix_refspec.h"
#include "lines.h"

static const char *const REASONS[] = { "", "Empty", "NegativeWithDestination", "NegativeEmpty", "NegativeObjectHash",
                                       "PushToEmpty", "PatternUnsupported", "PatternUnbalanced" };

static const char *reason_of(uint32_t outcome) {
    return outcome <= GIX_REFSPEC_PATTERN_UNBALANCED ? REASONS[outcome] : "ReferenceName";
}

static int canon(struct lines lines, uint32_t operation) {
    int status = 0;
    for (size_t k = 0; k < lines.count; k++) {
        const uint8_t *text = (const uint8_t *)lines.of[k].bytes;
        size_t room = 2 * lines.of[k].len + 16, len;
        uint8_t *buffer = checked(malloc(room));
        uint32_t outcome = gix_refspec_canonical(text, lines.of[k].len, operation, buffer, room, &len);
        if (outcome == GIX_REFSPEC_OK) {
            printf("ok ");
            fwrite(buffer, 1, len, stdout);
            putchar('\n');
        } else {
            printf("err %s\n", reason_of(outcome));
            status = 1;
        }
        free(buffer);
    }
    return status;
}

static gix_refspec_text *texts_of(struct lines lines) {
    gix_refspec_text *texts = checked(malloc((lines.count + 1) * sizeof *texts));
    for (size_t k = 0; k < lines.count; k++)
        texts[k] = (gix_refspec_text){ (const uint8_t *)lines.of[k].bytes, lines.of[k].len };
    return texts;
}

static void print_field(const uint8_t *bytes, size_t len) {
    putchar('\t');
    fwrite(bytes, 1, len, stdout);
}

static void print_mapping(const gix_refspec_mapping *one, const gix_refspec_text *names, const uint8_t *buffer, uint32_t direction) {
    gix_refspec_text made = { buffer + one->made_at, one->made_len };
    gix_refspec_text name = { buffer + one->id_at, one->id_len };
    if (one->item == GIX_REFSPEC_NO_ITEM) {
        printf("map\t%zu\t-", one->spec);
    } else {
        printf("map\t%zu\t%zu", one->spec, one->item);
        name = names[one->item];
    }
    if (direction == GIX_REFSPEC_BACKWARD)
        print_field(made.bytes, made.len);
    print_field(name.bytes, name.len);
    if (direction == GIX_REFSPEC_FORWARD && one->has_destination)
        print_field(made.bytes, made.len);
    putchar('\n');
}

static int match(struct lines lines, uint32_t direction) {
    struct lines specs = fields_of(lines, "spec", 1), refs = fields_of(lines, "ref", 2);
    gix_refspec_text *texts = texts_of(specs), *names = texts_of(refs);
    if (specs.count + refs.count != lines.count)
        return USAGE_ERROR; /* a tag: names have no ids here */
    size_t count = 0, len = 0;
    gix_refspec_mapping *mappings = NULL;
    uint8_t *buffer = NULL;
    uint32_t outcome;
    for (;;) {
        outcome = gix_refspec_match(texts, specs.count, names, refs.count, direction, mappings, count, buffer, len, &count, &len);
        if (outcome != GIX_REFSPEC_TOO_SMALL)
            break;
        mappings = checked(realloc(mappings, count * sizeof *mappings + 1));
        buffer = checked(realloc(buffer, len + 1));
    }
    if (outcome == GIX_REFSPEC_NEEDS_IDS)
        return USAGE_ERROR;
    if (outcome != GIX_REFSPEC_OK)
        return 3;
    for (size_t k = 0; k < count; k++)
        print_mapping(&mappings[k], names, buffer, direction);
    return 0;
}

int main(int argc, char **argv) {
    const char *command = argc > 1 ? argv[1] : "", *operation = argc > 2 ? argv[2] : "";
    int is_push = strcmp(operation, "push") == 0;
    if (strcmp(command, "canon") == 0 && (is_push || strcmp(operation, "fetch") == 0))
        return canon(read_lines(), is_push ? GIX_REFSPEC_PUSH : GIX_REFSPEC_FETCH);
    if (strcmp(command, "lhs") == 0)
        return match(read_lines(), GIX_REFSPEC_FORWARD);
    if (strcmp(command, "rhs") == 0)
        return match(read_lines(), GIX_REFSPEC_BACKWARD);
    return USAGE_ERROR;
}
