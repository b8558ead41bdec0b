/* Reports the lines of its input that aren't refspecs for a fetch, and why:
 *
 *   git config --get-all remote.origin.fetch | ./linter
 *
 * Ends with status 1 if it reports a line. */
#define _POSIX_C_SOURCE 200809L /* for getline */
#include <gix_refspec.h>
#include <stdint.h>
#include <stdio.h>
#include <stdlib.h>
#include <sys/types.h>

static int lint(const char *line, size_t len, size_t number)
{
    uint32_t outcome = gix_refspec_check((const uint8_t *)line, len, GIX_REFSPEC_FETCH);
    if (outcome == GIX_REFSPEC_OK)
        return 0;
    gix_refspec_text why = GIX_REFSPEC_TEXT_INIT;
    gix_refspec_explanation(outcome, &why);
    printf("%zu: %s\n", number, (const char *)why.bytes);
    return 1;
}

int main(void)
{
    char *line = NULL;
    size_t room = 0, number = 0;
    ssize_t len;
    int status = 0;
    while ((len = getline(&line, &room, stdin)) > 0) {
        if (line[len - 1] == '\n')
            len--;
        status |= lint(line, (size_t)len, ++number);
    }
    free(line);
    return status;
}
