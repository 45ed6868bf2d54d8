/* Solves a model and prints what the program prints: cc example.c libnetflow.a -o example && ./example MODEL DATA */
#include "netflow.h"

#include <stdio.h>
#include <stdlib.h>

/* The bytes of a file; their address is not null, even for an empty file. */
typedef struct {
    uint8_t *bytes;
    size_t length;
} Input;

static Input read_file(const char *path) {
    FILE *file = fopen(path, "rb");
    Input input = {malloc(1), 0};
    size_t room = 1;
    while (file && input.bytes) {
        input.length += fread(input.bytes + input.length, 1, room - input.length, file);
        if (input.length < room) break;
        room *= 2;
        input.bytes = realloc(input.bytes, room);
    }
    if (!file || !input.bytes || ferror(file)) {
        fprintf(stderr, "%s cannot be read\n", path);
        exit(4);
    }
    fclose(file);
    return input;
}

int main(int count, char **words) {
    if (count != 3) {
        fprintf(stderr, "usage: example MODEL DATA\n");
        return 64;
    }
    Input model = read_file(words[1]), data = read_file(words[2]);
    const uint8_t any_objective = 0;
    size_t room = 4096, length = 0;
    uint8_t *out = malloc(room);
    uint32_t status = 5;
    while (out) {
        status = netflow_solve(&any_objective, 0, false, model.bytes, model.length, data.bytes, data.length, out, room, &length);
        if (length <= room) break;
        room = length;
        free(out);
        out = malloc(room);
    }
    if (!out || status == 5) {
        fprintf(stderr, "out of memory\n");
        return 5;
    }
    fwrite(out, 1, length, status == 3 ? stderr : stdout);
    if (status == 3) fputc('\n', stderr);
    free(out);
    free(model.bytes);
    free(data.bytes);
    return (int)status;
}
