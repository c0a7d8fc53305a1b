/* Checks a tour file against a problem file, as `tourkit check` does.
 * usage: check PROBLEM TOUR     the status is 0 for a tour, 1 for a list that is not a tour, 2 for an invalid text, 3 otherwise */
#include "tourkit.h"
#include <stdio.h>
#include <stdlib.h>

/* The bytes of a file. */
typedef struct {
    uint8_t *bytes;
    size_t size;
} text;

/* Reads a file, or ends the program. */
static text read_file(const char *name) {
    FILE *file = fopen(name, "rb");
    text read = {malloc(1), 0};
    size_t room = 1;
    while (file && read.bytes && !feof(file) && !ferror(file)) {
        if (read.size == room) {
            room *= 2;
            read.bytes = realloc(read.bytes, room);
            if (!read.bytes) break;
        }
        read.size += fread(read.bytes + read.size, 1, room - read.size, file);
    }
    if (!file || !read.bytes || ferror(file)) {
        fprintf(stderr, "cannot read %s\n", name);
        exit(3);
    }
    fclose(file);
    return read;
}

int main(int count, char **words) {
    if (count != 3) {
        fprintf(stderr, "usage: check PROBLEM TOUR\n");
        return 3;
    }
    text problem = read_file(words[1]), tour = read_file(words[2]);
    uint8_t line[256];
    tourkit_answer answer;
    tourkit_check(problem.bytes, problem.size, tour.bytes, tour.size, line, sizeof line, &answer);
    size_t shown = answer.needed < sizeof line ? answer.needed : sizeof line;
    if (answer.status == TOURKIT_REFUSED) {
        fprintf(stderr, "%s: %.*s\n", words[answer.text], (int)shown, (const char *)line);
    } else if (answer.status == TOURKIT_NO_MEMORY) {
        fprintf(stderr, "out of memory\n");
    } else {
        fwrite(line, 1, shown, stdout);
    }
    free(problem.bytes);
    free(tour.bytes);
    return (int)answer.status;
}
