/* tourkit for C and C++: functions on texts and arrays in memory. They return the text that the program prints, or arrays
 * of numbers.
 *
 * Texts. A text is passed as a pointer and a length in bytes. It is what the program reads from a file: a problem or a
 * tour of TSPLIB 95, a solution of CVRPLIB, or a parameter file of tourkit, as docs/FORMATS.md describes them. It need
 * not end with a zero byte.
 *
 * Ownership. The caller owns all memory. A function reads its texts and arrays, writes to its buffers and to `answer`,
 * and keeps nothing. No pointer may be null, even if the count is 0; any aligned non-null address will do in that case.
 * The buffers and the answer of a call must not overlap each other, nor the texts and arrays that the call reads.
 *
 * Sizes. `needed` is the number of bytes or numbers to write. A buffer for a text gets as many of the first bytes as fit,
 * without a terminating zero byte; the bytes after them are unchanged. If `needed` is greater than the size of the buffer,
 * call again with a larger one. An array must have exactly `needed` numbers; otherwise nothing is written, and the status
 * is TOURKIT_NO_ROOM. A call with a size of 0 therefore returns the required size.
 *
 * Statuses. Whatever the texts contain, a call returns, with one of the statuses below in `answer`. With TOURKIT_REFUSED,
 * `text` is the number of the rejected text, from 1 in the order of the parameters; `line` and `kind` are the line and the
 * number of its first fault, as in docs/FORMATS.md. If `text` is 0, `kind` states why the problem does not fit the task;
 * if `kind` is 0 too, a number or an array was rejected. If the function has a buffer for messages, it gets the fault as a
 * message, such as `tour text: 2: 2 Repeated`. Arrays and other buffers are unchanged.
 *
 * Threads. Calls may run in parallel threads, each with its own buffers. Memory is allocated by malloc and freed before a
 * call returns, so do not call from a signal handler, nor in the forked child of a process with threads.
 *
 * Processor. The library is compiled for x86-64-v2, and does not check whether the processor supports it. */
#ifndef TOURKIT_H
#define TOURKIT_H

#include <stdbool.h>
#include <stddef.h>
#include <stdint.h>

#ifdef __cplusplus
extern "C" {
#endif

/* The version of this header: 10,000 times the major number, plus 100 times the minor number, plus the patch. */
#define TOURKIT_VERSION 100

/* The version of the library, in the same form. */
uint32_t tourkit_version(void);

/* The status of a call. */
enum {
    TOURKIT_DONE = 0,      /* done */
    TOURKIT_FOUND = 1,     /* the tour or solution has a fault, which is the result */
    TOURKIT_REFUSED = 2,   /* a text, a number or an array was rejected */
    TOURKIT_NO_MEMORY = 3, /* out of memory; nothing is known */
    TOURKIT_NO_ROOM = 4    /* the size of an array is not `needed`; nothing was written */
};

/* The numbers of faults in `kind`, from 16 on. Lower numbers are those of faults in texts, or of faults in parameters if
 * the parameters were rejected. */
enum {
    TOURKIT_WRONG_TYPE = 16,    /* the problem is not a CVRP */
    TOURKIT_NOT_FOR_TYPE = 17,  /* a key or an initial tour does not apply to a problem of this type */
    TOURKIT_TOO_LARGE = 18,     /* the problem has over 5,000 nodes, too many for a matrix */
    TOURKIT_NO_PLACES = 19,     /* the problem has explicit weights instead of coordinates */
    TOURKIT_WRONG_COUNT = 20,   /* the number of entries in a list of cities is not the number of cities of the problem */
    TOURKIT_OUT_OF_RANGE = 21,  /* the entry at `place` is not a city */
    TOURKIT_REPEATED_CITY = 22, /* the entry at `place` also occurs at an earlier place */
    TOURKIT_BAD_CUSTOMER = 23,  /* route number `place` contains a number that is not a customer */
    TOURKIT_SERVED_TWICE = 24,  /* customer `place` also occurs earlier */
    TOURKIT_OVER_CAPACITY = 25, /* the load of route number `place` exceeds the capacity */
    TOURKIT_NOT_SERVED = 26,    /* customer `place` is on no route */
    TOURKIT_WRONG_COST = 27,    /* the routes do not have the cost that the solution states */
    TOURKIT_NO_WEIGHTS = 28     /* the problem has coordinates instead of explicit weights */
};

/* Distance types: those of cities with coordinates, and explicit weights. */
enum {
    TOURKIT_EUC_2D = 0,
    TOURKIT_CEIL_2D = 1,
    TOURKIT_MAN_2D = 2,
    TOURKIT_MAX_2D = 3,
    TOURKIT_ATT = 4,
    TOURKIT_EXPLICIT = 5
};

/* The kinds of texts in `text`, after tourkit_explain. */
enum {
    TOURKIT_PROBLEM = 1,
    TOURKIT_TOUR = 2,
    TOURKIT_SOLUTION = 3,
    TOURKIT_PARAMETERS = 4
};

/* The result of a call, apart from the text or array that it writes. */
typedef struct {
    uint32_t status;    /* one of the statuses above */
    uint32_t text;      /* the number of the rejected text, from 1, or the kind of an explained text; 0 for none */
    uint64_t line;      /* the line of the fault, from 1; 0 for none */
    uint32_t kind;      /* the number of the fault; 0 for none */
    uint32_t place;     /* the place of the fault in a tour, from 1, or the number of the route or customer; 0 for none */
    uint64_t length;    /* the length of a tour, from tourkit_check_cities and the other checks of arrays */
    size_t needed;      /* the number of bytes or numbers to write */
    size_t needed_file; /* like `needed`, for the second buffer of the searches, tourkit_plot and tourkit_page */
} tourkit_answer;

/* What is known of a problem, apart from its name. Coordinates are in units of 10^-9. Numbers that do not apply are 0. */
typedef struct {
    uint32_t dimension; /* the number of cities, or of nodes of a CVRP: the depot and the customers */
    uint32_t distances; /* the distance type */
    uint32_t depot;     /* the node of the depot of a CVRP */
    uint32_t capacity;  /* the maximum load of a vehicle */
    uint64_t demand;    /* the sum of the demands */
    uint64_t vehicles;  /* a lower bound on the number of vehicles: the sum of the demands divided by the capacity, rounded up */
    int64_t left;       /* the least x */
    int64_t right;      /* the greatest x */
    int64_t bottom;     /* the least y */
    int64_t top;        /* the greatest y */
    bool is_cvrp;       /* whether the problem is a CVRP; otherwise it is a TSP */
    bool is_whole;      /* whether there are coordinates, and all of them are whole numbers */
} tourkit_problem_info;

/* The options of a search for a tour, or for routes that are improved each by itself. The program uses 10 runs, as many trials
 * as there are cities, seed 1, 5 candidates and segments of 3 cities by default. For routes, only `candidates` and
 * `or_segment` have an effect. */
typedef struct {
    uint32_t runs;       /* the number of runs, 1 to 10,000 */
    uint32_t trials;     /* the number of trials per run, 1 to 1,000,000; 0 for the number of cities */
    uint32_t seed;       /* the seed of the first run; run j uses seed + j - 1 */
    uint32_t candidates; /* the maximum length of near lists, 1 to 100 */
    uint32_t or_segment; /* the maximum number of cities in a segment that is moved, 1 to 3 */
    bool final_sweep;    /* whether each trial continues until no city has an improving move */
    bool savings;        /* whether starting tours are constructed by the savings algorithm; otherwise by nearest neighbours */
    bool from_tour;      /* whether each run starts from an initial tour; otherwise from a constructed tour */
} tourkit_search_options;

/* The options of a search between routes. The program uses one run, ten trials for each node, seed 1, 12 candidates and
 * segments of 3 customers by default. */
typedef struct {
    uint32_t runs;       /* the number of runs, 1 to 10,000 */
    uint32_t trials;     /* the number of trials per run, 1 to 1,000,000; 0 for ten for each node */
    uint32_t seed;       /* the seed of the first run; run j uses seed + j - 1 */
    uint32_t candidates; /* the maximum length of near lists, 1 to 100 */
    uint32_t or_segment; /* the maximum number of customers in a segment that is moved, 1 to 3 */
    bool final_sweep;    /* whether each descent is swept: it ends only when no customer has an improving move */
    bool from_solution;  /* whether each run begins with the routes of an initial solution; otherwise with savings routes */
} tourkit_route_options;

/* ---- texts in, texts out */

/* Checks the tour of a text against a problem. `out` gets the verdict as a line; the status is TOURKIT_DONE for a tour and
 * TOURKIT_FOUND for a list that is not a tour. If a text is rejected, `out` gets the message. */
void tourkit_check(const uint8_t *problem, size_t problem_size, const uint8_t *tour, size_t tour_size,
                   uint8_t *out, size_t out_size, tourkit_answer *answer);

/* Checks the routes of a text against a CVRP, in the same way. */
void tourkit_checksol(const uint8_t *problem, size_t problem_size, const uint8_t *solution, size_t solution_size,
                      uint8_t *out, size_t out_size, tourkit_answer *answer);

/* Writes the near list of each city on a line: its k nearest neighbours, or all other cities if there are fewer. k is 1 to
 * 100. If the text is rejected, `out` gets the message. */
void tourkit_near(const uint8_t *problem, size_t problem_size, uint32_t k,
                  uint8_t *out, size_t out_size, tourkit_answer *answer);

/* Writes a problem of at most 5,000 nodes as one with explicit weights, in a full matrix. If the text is rejected, `out`
 * gets the message. */
void tourkit_matrix(const uint8_t *problem, size_t problem_size,
                    uint8_t *out, size_t out_size, tourkit_answer *answer);

/* Searches for a short tour or for short routes, as the parameters specify. `file` gets the text of the tour or of the
 * solution, and `out` the lines that the program prints. `initial` is read if the parameters contain the key
 * INITIAL_TOUR_FILE; apart from that, file names are ignored. If a text is rejected, `out` gets the message.
 *
 * A call ends when the search does. To be able to stop early, search by short calls of tourkit_search, each with one run, few
 * trials, a new seed and the last tour as the initial tour, as in examples/c/pieces.c. A second call with a larger buffer
 * repeats the search. For `file`, 24 bytes for each city and another 2,000 are enough. */
void tourkit_solve(const uint8_t *parameters, size_t parameters_size, const uint8_t *problem, size_t problem_size,
                   const uint8_t *initial, size_t initial_size, uint8_t *out, size_t out_size,
                   uint8_t *file, size_t file_size, tourkit_answer *answer);

/* Searches like tourkit_solve, but with options instead of the text of a parameter file. `initial` is a tour, which is read if
 * `from_tour` is true. A number of `options` that is out of range is rejected. If a text is rejected, or `initial` is not a tour
 * of the problem's cities, or `from_tour` is true for a CVRP, `out` gets the message. */
void tourkit_search(const uint8_t *problem, size_t problem_size, const uint8_t *initial, size_t initial_size,
                    const tourkit_search_options *options, uint8_t *out, size_t out_size,
                    uint8_t *file, size_t file_size, tourkit_answer *answer);

/* Searches between the routes of a CVRP. `file` gets the text of the solution, and `out` the lines that the program prints.
 * `initial` is a solution, which is read if `from_solution` is true. A number of `options` that is out of range is rejected.
 * If a text is rejected, or the problem is not a CVRP, or the routes of `initial` are not valid, `out` gets the message.
 *
 * tourkit_solve and tourkit_search improve each route of a CVRP by itself. This search also moves customers between
 * routes. It can be split into short calls too: each with one run, few trials, a new seed and the last solution as `initial`.
 * For `file`, 24 bytes for each node and another 100 are enough. */
void tourkit_solve_routes(const uint8_t *problem, size_t problem_size, const uint8_t *initial, size_t initial_size,
                          const tourkit_route_options *options, uint8_t *out, size_t out_size,
                          uint8_t *file, size_t file_size, tourkit_answer *answer);

/* Draws a problem, and if `has_claim` is true, the tour or the routes of a text: `out` gets the picture (SVG), of `needed`
 * bytes. If the tour or the routes have a fault, the status is TOURKIT_FOUND, and `reported` gets the line that reports it, of
 * `needed_file` bytes. If a text is rejected, `reported` gets the message, of `needed` bytes. A problem with explicit weights is
 * drawn if its text places the cities, by DISPLAY_DATA_SECTION or NODE_COORD_SECTION; otherwise `kind` is TOURKIT_NO_PLACES. */
void tourkit_plot(const uint8_t *problem, size_t problem_size, const uint8_t *claim, size_t claim_size, bool has_claim,
                  uint8_t *out, size_t out_size, uint8_t *reported, size_t reported_size, tourkit_answer *answer);

/* Like tourkit_plot, but `out` gets an HTML page with the picture, to zoom and pan, and a table of the routes. */
void tourkit_page(const uint8_t *problem, size_t problem_size, const uint8_t *claim, size_t claim_size, bool has_claim,
                  uint8_t *out, size_t out_size, uint8_t *reported, size_t reported_size, tourkit_answer *answer);

/* Finds out what is known of a problem: `info` gets the numbers, and `out` the name, of at most 1,024 bytes. If the text is
 * rejected, `out` gets the message, and `info` is unchanged. */
void tourkit_info(const uint8_t *problem, size_t problem_size, tourkit_problem_info *info,
                  uint8_t *out, size_t out_size, tourkit_answer *answer);

/* Explains a text in words, as `tourkit explain` explains a file of this name: its first fault and how to fix it, or what it
 * contains. If `line` is not 0, explains this line. `out` gets the explanation, and `text` is the kind of the text, which is
 * recognized by its lines or by the name. The status is TOURKIT_FOUND if the text has a fault, with its line and its number,
 * and otherwise TOURKIT_DONE. A name that is not UTF-8 is rejected. */
void tourkit_explain(const uint8_t *text, size_t text_size, const uint8_t *name, size_t name_size, uint64_t line,
                     uint8_t *out, size_t out_size, tourkit_answer *answer);

/* ---- texts in, arrays out */

/* Writes the coordinates of n cities, in units of 10^-9: those of city c are at index c - 1. Both arrays must have n
 * numbers. If the problem has explicit weights, `kind` is TOURKIT_NO_PLACES. */
void tourkit_coordinates(const uint8_t *problem, size_t problem_size, int64_t *xs, size_t xs_count,
                         int64_t *ys, size_t ys_count, tourkit_answer *answer);

/* Writes the explicit weights of n cities: the lower triangle row by row without its diagonal, n (n - 1) / 2 numbers. If the
 * problem has coordinates, `kind` is TOURKIT_NO_WEIGHTS. */
void tourkit_weights(const uint8_t *problem, size_t problem_size, uint32_t *out, size_t out_count,
                     tourkit_answer *answer);

/* Writes the demands of the n nodes of a CVRP: that of node c is at index c - 1. If the problem is a TSP, `kind` is
 * TOURKIT_WRONG_TYPE. */
void tourkit_demands(const uint8_t *problem, size_t problem_size, uint32_t *out, size_t out_count,
                     tourkit_answer *answer);

/* Writes the numbers that a tour text lists. They need not be a tour. */
void tourkit_tour_cities(const uint8_t *tour, size_t tour_size, uint32_t *out, size_t out_count, tourkit_answer *answer);

/* Writes the nearest-neighbour tour of n cities: it goes from the city `start` to the nearest unvisited city again and again,
 * and from several nearest ones to the one with the smallest number. If `start` is not a city, the call is rejected. */
void tourkit_nearest_tour(const uint8_t *problem, size_t problem_size, uint32_t start, uint32_t *out, size_t out_count,
                          tourkit_answer *answer);

/* Checks an array as a tour of the cities of a problem. The status is TOURKIT_DONE with the length of the tour in
 * `length`, or TOURKIT_FOUND with the first fault in `kind` (20 to 22) and its place. */
void tourkit_check_cities(const uint8_t *problem, size_t problem_size, const uint32_t *cities, size_t cities_count,
                          tourkit_answer *answer);

/* Writes the distances of all pairs of n cities, n² numbers row by row. The distance of cities a and b, which count from
 * 1, is at index (a - 1) n + (b - 1). */
void tourkit_distances(const uint8_t *problem, size_t problem_size, int64_t *out, size_t out_count,
                       tourkit_answer *answer);

/* Writes the near lists of n cities one after another: min(k, n - 1) cities each. k is 1 to 100. */
void tourkit_near_cities(const uint8_t *problem, size_t problem_size, uint32_t k, uint32_t *out, size_t out_count,
                         tourkit_answer *answer);

/* ---- arrays in, arrays out */

/* Like tourkit_near_cities and tourkit_check_cities, but for 2 to 100,000 cities with coordinates in units of 10^-9, of
 * magnitude at most 10^18. `kind` is a distance type. Anything else is rejected. */
void tourkit_near_points(uint32_t kind, const int64_t *xs, size_t xs_count, const int64_t *ys, size_t ys_count,
                         uint32_t k, uint32_t *out, size_t out_count, tourkit_answer *answer);
void tourkit_check_points(uint32_t kind, const int64_t *xs, size_t xs_count, const int64_t *ys, size_t ys_count,
                          const uint32_t *cities, size_t cities_count, tourkit_answer *answer);

/* Like tourkit_near_cities and tourkit_check_cities, but for n cities, 2 to 5,000, with explicit weights of at most
 * 4,000,000,000: the lower triangle row by row without its diagonal, n (n - 1) / 2 numbers. Anything else is rejected. */
void tourkit_near_weights(uint32_t n, const uint32_t *weights, size_t weights_count,
                          uint32_t k, uint32_t *out, size_t out_count, tourkit_answer *answer);
void tourkit_check_weights(uint32_t n, const uint32_t *weights, size_t weights_count,
                           const uint32_t *cities, size_t cities_count, tourkit_answer *answer);

#ifdef __cplusplus
}
#endif

#endif
