/* Gives each file that is named to harness.c: the driver where there is no libFuzzer. */
#include <stdint.h>
#include <stdio.h>
#include <stdlib.h>

int LLVMFuzzerTestOneInput(const uint8_t *data, size_t size);

int main(int count, char **names)
{
    for (int at = 1; at < count; at++) {
        FILE *file = fopen(names[at], "rb");
        if (file == NULL || fseek(file, 0, SEEK_END) != 0) {
            perror(names[at]);
            return 2;
        }
        size_t size = (size_t)ftell(file);
        uint8_t *data = malloc(size);
        rewind(file);
        if ((size > 0 && data == NULL) || fread(data, 1, size, file) != size)
            return 2;
        fclose(file);
        LLVMFuzzerTestOneInput(data, size);
        free(data);
    }
    return 0;
}
