/* Searches for a short tour of some cities in pieces, so that it can stop early: each piece starts from the tour of the
 * piece before it, and has its own seed. Ctrl-C ends the search after the current piece.
 * usage: pieces PIECES     searches in PIECES pieces, and prints a line for each and the last tour */
#include "tourkit.h"
#include <inttypes.h>
#include <signal.h>
#include <stdio.h>
#include <stdlib.h>
#include <string.h>

enum { CITIES = 200, ROOM = 1 << 16 };

static volatile sig_atomic_t stopped = 0;

static void stop(int number) {
    (void)number;
    stopped = 1;
}

/* A random coordinate below 1,024. */
static unsigned draw(uint32_t *state) {
    *state = *state * 1664525 + 1013904223;
    return *state >> 22;
}

/* Writes a problem of scattered cities, and returns its length in bytes. */
static size_t write_problem(char *text) {
    size_t size = (size_t)sprintf(text, "NAME : scattered\nTYPE : TSP\nDIMENSION : %d\nEDGE_WEIGHT_TYPE : EUC_2D\n"
                                        "NODE_COORD_SECTION\n", CITIES);
    uint32_t state = 1;
    for (int city = 1; city <= CITIES; city++) {
        unsigned x = draw(&state), y = draw(&state);
        size += (size_t)sprintf(text + size, "%d %u %u\n", city, x, y);
    }
    return size + (size_t)sprintf(text + size, "EOF\n");
}

int main(int count, char **words) {
    long pieces = count == 2 ? atol(words[1]) : 0;
    if (pieces < 1) {
        fprintf(stderr, "usage: pieces PIECES\n");
        return 3;
    }
    signal(SIGINT, stop);
    char problem[ROOM];
    size_t problem_size = write_problem(problem);
    uint8_t lines[1024], found[ROOM], tour[ROOM];
    size_t tour_size = 0;
    for (long piece = 1; piece <= pieces && !stopped; piece++) {
        tourkit_search_options options = {.runs = 1, .trials = 100, .seed = (uint32_t)piece, .candidates = 5, .or_segment = 3};
        options.from_tour = piece > 1;
        tourkit_answer answer;
        tourkit_search((const uint8_t *)problem, problem_size, tour, tour_size, &options, lines, sizeof lines,
                       found, sizeof found, &answer);
        if (answer.status != TOURKIT_DONE || answer.needed > sizeof lines || answer.needed_file > sizeof found) {
            fprintf(stderr, "status %" PRIu32 ", text %" PRIu32 ", line %" PRIu64 ", fault %" PRIu32 "\n", answer.status,
                    answer.text, answer.line, answer.kind);
            return 3;
        }
        memcpy(tour, found, answer.needed_file);
        tour_size = answer.needed_file;
        printf("piece %ld: %.*s", piece, (int)answer.needed, (const char *)lines);
        fflush(stdout);
    }
    fwrite(tour, 1, tour_size, stdout);
    return 0;
}
