/* Prints what comes of the input in a file:         example FILE [ROOM]
 * or its waveform:                                  example --waveform FILE [ROOM]
 * or of a stored record, beside its task entries:   example --read TASKS RECORD [ROOM]
 * ROOM is the length of the slice that is lent. */
#include "gateway.h"

#include <errno.h>
#include <stdio.h>
#include <stdlib.h>
#include <string.h>

static uint8_t first[1 << 16], second[1 << 19], out[1 << 20];

/* Reads a file into `to`, and answers its length. */
static size_t read_file(const char *path, uint8_t *to, size_t most)
{
    FILE *file = fopen(path, "rb");
    if (file == NULL) {
        perror(path);
        exit(2);
    }
    size_t length = fread(to, 1, most, file);
    if (ferror(file) || !feof(file)) {
        fprintf(stderr, "%s: cannot be read, or is too long\n", path);
        exit(2);
    }
    fclose(file);
    return length;
}

/* The length of the slice that is lent: at most all of it. */
static size_t read_room(const char *word)
{
    char *end;
    errno = 0;
    unsigned long room = strtoul(word, &end, 10);
    if (strchr("0123456789", word[0]) == NULL || word[0] == '\0' || *end != '\0') {
        fprintf(stderr, "ROOM is a number, not %s\n", word);
        exit(2);
    }
    return errno != 0 || room > sizeof out ? sizeof out : room;
}

/* What was written, and its bytes: a text as it is, others by two digits each. */
static void print(const char *what, int is_text, uint8_t number, size_t told)
{
    size_t written = number == 0 ? told : 0;
    printf("number %u, value %zu, %s of %zu bytes\n", (unsigned)number, told, what, written);
    if (is_text) {
        fwrite(out, 1, written, stdout);
        return;
    }
    for (size_t i = 0; i < written; i++) {
        printf("%02x%s", out[i], i + 1 == written || i % 32 == 31 ? "\n" : "");
    }
}

int main(int argc, char **argv)
{
    int reads = argc > 1 && strcmp(argv[1], "--read") == 0;
    int draws = argc > 1 && strcmp(argv[1], "--waveform") == 0;
    int files = reads ? 2 : 1, options = reads + draws;
    char **paths = argv + 1 + options;
    if (argc - 1 - options < files || argc - 1 - options > files + 1) {
        fprintf(stderr, "usage: %s [--waveform] FILE [ROOM], or %s --read TASKS RECORD [ROOM]\n", argv[0], argv[0]);
        return 2;
    }
    size_t room = paths[files] != NULL ? read_room(paths[files]) : sizeof out;
    size_t told = 0, length = read_file(paths[0], first, sizeof first);
    if (reads) {
        size_t stored = read_file(paths[1], second, sizeof second);
        uint8_t number = gateway_read(first, length, second, stored, out, room, &told);
        print("list", 0, number, told);
    } else if (draws) {
        uint8_t number = gateway_waveform(first, length, out, room, &told);
        print("waveform", 1, number, told);
    } else {
        uint8_t number = gateway_record(first, length, out, room, &told);
        print("record", 0, number, told);
    }
    if (fflush(stdout) != 0 || ferror(stdout)) {
        fprintf(stderr, "what comes of it cannot be printed\n");
        return 2;
    }
    return 0;
}
