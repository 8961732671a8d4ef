/* Serves the bytes of a file to as many clients of a session as are asked for: session FILE CLIENTS. */
#include <stdbool.h>
#include <stdint.h>
#include <stdio.h>
#include <stdlib.h>

bool bench_session_serve(const uint8_t *bytes, size_t len, uint32_t clients);

int main(int count, char **words)
{
    FILE *file = count == 3 ? fopen(words[1], "rb") : NULL;
    if (file == NULL || fseek(file, 0, SEEK_END) != 0)
        return EXIT_FAILURE;
    long len = ftell(file);
    rewind(file);
    uint8_t *bytes = len > 0 ? malloc((size_t)len) : NULL;
    if (bytes == NULL || fread(bytes, 1, (size_t)len, file) != (size_t)len)
        return EXIT_FAILURE;
    bool served = bench_session_serve(bytes, (size_t)len, (uint32_t)strtoul(words[2], NULL, 10));
    free(bytes);
    fclose(file);
    return served ? EXIT_SUCCESS : EXIT_FAILURE;
}
