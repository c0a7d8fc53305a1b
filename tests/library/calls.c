/* Makes each call of the library in three ways: with each allocation failing in turn; with output buffers that are empty, too small, just
 * large enough and too large; and from eight threads at once. Linked with --wrap for malloc, realloc and free.
 * usage: calls FOLDER ROUNDS [threads]     FOLDER contains the files of examples/ and short.par; each thread makes each call ROUNDS times. With
 * the word threads, the calls are made once and then by the threads, without failing allocations and other buffers */
#include "tourkit.h"
#include <pthread.h>
#include <stdio.h>
#include <stdlib.h>
#include <string.h>

void *__real_malloc(size_t size);
void *__real_realloc(void *block, size_t size);
void __real_free(void *block);
void *__wrap_malloc(size_t size);
void *__wrap_realloc(void *block, size_t size);
void __wrap_free(void *block);

/* In each thread: the allocation from now on that fails, the number of allocated blocks, and the number of allocations so far. */
static __thread long countdown = -1, held, growths;

static int is_refused(void) {
    growths++;
    return countdown >= 0 && countdown-- == 0;
}

void *__wrap_malloc(size_t size) {
    if (is_refused()) return NULL;
    void *block = __real_malloc(size);
    if (block) held++;
    return block;
}

void *__wrap_realloc(void *block, size_t size) {
    if (is_refused()) return NULL;
    void *grown = __real_realloc(block, size);
    if (grown && !block) held++;
    return grown;
}

void __wrap_free(void *block) {
    if (block) held--;
    __real_free(block);
}

typedef struct {
    uint8_t *bytes;
    size_t size;
} text;

/* Reads a file into memory of exactly its size, so that a read past its end is detected. */
static text read_text(const char *folder, const char *name) {
    static uint8_t room[1 << 22];
    char path[512];
    snprintf(path, sizeof path, "%s/%s", folder, name);
    FILE *file = fopen(path, "rb");
    if (!file) {
        perror(path);
        exit(1);
    }
    text read = {NULL, fread(room, 1, sizeof room, file)};
    fclose(file);
    read.bytes = __real_malloc(read.size ? read.size : 1);
    memcpy(read.bytes, room, read.size);
    return read;
}

/* An answer has no padding, so its bytes can be compared. */
_Static_assert(sizeof(tourkit_answer) == 4 * sizeof(uint32_t) + 2 * sizeof(uint64_t) + 2 * sizeof(size_t), "padding");

enum { CALLS = 34, COORDINATES = 20, EXPLAINED = 30, THREADS = 8, ROOM = 1 << 18, UNTOUCHED = 0x77 };

static text tsp, tour, vrp, sol, par, listed, par_vrp, five;
static const int64_t xs[4] = {0, 3000000000, 3000000000, 500000000}, ys[4] = {0, 0, 4000000000, 4000000000};
static const uint32_t cities[4] = {1, 2, 3, 4}, weights[6] = {3, 5, 4, 6, 7, 2};
static const tourkit_search_options from_listed = {2, 0, 1, 5, 3, false, false, true}, by_savings = {1, 9, 7, 8, 2, true, true, false};
static const tourkit_route_options from_savings = {2, 20, 1, 12, 3, true, false}, from_plan = {1, 20, 1, 5, 2, false, true};

/* The two buffers of a call, their sizes in bytes, its answer, and what it finds out about a problem. */
typedef struct {
    uint8_t *out, *file;
    size_t room, file_room;
    tourkit_answer answer;
    tourkit_problem_info info;
} result;

/* The size of an entry that a call writes to its first buffer: 1 byte in a text, and 0 if it writes nothing. */
static size_t unit_of(int which) {
    switch (which) {
    case 12: case COORDINATES: return sizeof(int64_t);
    case 13: case 15: case 17: case 21: case 22: case 23: case 24: return sizeof(uint32_t);
    case 14: case 16: case 18: case 19: case 26: case 27: case 29: return 0;
    default: return 1;
    }
}

/* Whether a call is rejected, since a text has a fault, the problem does not fit, or there are too few numbers. */
static bool is_refused_call(int which) {
    return which == 8 || which == 11 || which == 19 || (which >= 26 && which < EXPLAINED);
}

/* Makes a call. */
static void call(int which, result *r) {
    tourkit_answer *a = &r->answer;
    uint8_t *o = r->out, *f = r->file;
    size_t room = r->room, file_room = r->file_room;
    int64_t *wide = (int64_t *)(void *)o, *other = (int64_t *)(void *)f;
    uint32_t *numbers = (uint32_t *)(void *)o;
    memset(a, 0x55, sizeof *a);
    memset(&r->info, 0x55, sizeof r->info);
    switch (which) {
    case 0: tourkit_check(tsp.bytes, tsp.size, listed.bytes, listed.size, o, room, a); break;
    case 1: tourkit_checksol(vrp.bytes, vrp.size, sol.bytes, sol.size, o, room, a); break;
    case 2: tourkit_near(tsp.bytes, tsp.size, 5, o, room, a); break;
    case 3: tourkit_matrix(vrp.bytes, vrp.size, o, room, a); break;
    case 4: tourkit_plot(tsp.bytes, tsp.size, listed.bytes, listed.size, true, o, room, f, file_room, a); break;
    case 5: tourkit_plot(vrp.bytes, vrp.size, sol.bytes, sol.size, true, o, room, f, file_room, a); break;
    case 6: tourkit_solve(par_vrp.bytes, par_vrp.size, vrp.bytes, vrp.size, vrp.bytes, 0, o, room, f, file_room, a); break;
    case 7: tourkit_solve(par.bytes, par.size, tsp.bytes, tsp.size, listed.bytes, listed.size, o, room, f, file_room, a); break;
    case 8: tourkit_check(tour.bytes, tour.size, listed.bytes, listed.size, o, room, a); break; /* refused */
    case 9: tourkit_solve_routes(vrp.bytes, vrp.size, vrp.bytes, 0, &from_savings, o, room, f, file_room, a); break;
    case 10: tourkit_solve_routes(vrp.bytes, vrp.size, sol.bytes, sol.size, &from_plan, o, room, f, file_room, a); break;
    case 11: tourkit_solve_routes(vrp.bytes, vrp.size, tour.bytes, tour.size, &from_plan, o, room, f, file_room, a); break; /* refused */
    case 12: tourkit_distances(vrp.bytes, vrp.size, wide, room / 8, a); break;
    case 13: tourkit_near_cities(tsp.bytes, tsp.size, 3, numbers, room / 4, a); break;
    case 14: tourkit_check_cities(tsp.bytes, tsp.size, cities, 4, a); break;
    case 15: tourkit_near_points(TOURKIT_EUC_2D, xs, 4, ys, 4, 2, numbers, room / 4, a); break;
    case 16: tourkit_check_points(TOURKIT_MAN_2D, xs, 4, ys, 4, cities, 4, a); break;
    case 17: tourkit_near_weights(4, weights, 6, 2, numbers, room / 4, a); break;
    case 18: tourkit_check_weights(4, weights, 6, cities, 4, a); break;
    case 19: tourkit_near_weights(5, weights, 6, 2, numbers, room / 4, a); break; /* refused */
    case COORDINATES: tourkit_coordinates(tsp.bytes, tsp.size, wide, room / 8, other, file_room / 8, a); break;
    case 21: tourkit_weights(five.bytes, five.size, numbers, room / 4, a); break;
    case 22: tourkit_demands(vrp.bytes, vrp.size, numbers, room / 4, a); break;
    case 23: tourkit_tour_cities(listed.bytes, listed.size, numbers, room / 4, a); break;
    case 24: tourkit_nearest_tour(tsp.bytes, tsp.size, 7, numbers, room / 4, a); break;
    case 25: tourkit_info(vrp.bytes, vrp.size, &r->info, o, room, a); break;
    case 26: tourkit_coordinates(five.bytes, five.size, wide, room / 8, other, file_room / 8, a); break; /* refused, as the next three */
    case 27: tourkit_demands(tsp.bytes, tsp.size, numbers, room / 4, a); break;
    case 28: tourkit_info(tour.bytes, tour.size, &r->info, o, room, a); break;
    case 29: tourkit_nearest_tour(tsp.bytes, tsp.size, 455, numbers, room / 4, a); break;
    case 31: tourkit_page(vrp.bytes, vrp.size, sol.bytes, sol.size, true, o, room, f, file_room, a); break;
    case 32: tourkit_search(tsp.bytes, tsp.size, listed.bytes, listed.size, &from_listed, o, room, f, file_room, a); break;
    case 33: tourkit_search(vrp.bytes, vrp.size, vrp.bytes, 0, &by_savings, o, room, f, file_room, a); break;
    case EXPLAINED: tourkit_explain(vrp.bytes, vrp.size, (const uint8_t *)"bakery", 6, 0, o, room, a); break;
    }
}

static int failures;

static void expect(int fine, const char *what, int which, size_t at) {
    if (!fine) {
        printf("failed: %s, call %d, at %zu\n", what, which, at);
        failures++;
    }
}

/* Two buffers of exactly these sizes, with every byte UNTOUCHED. */
static result with_room(size_t room, size_t file_room) {
    result r = {.out = __real_malloc(room ? room : 1), .file = __real_malloc(file_room ? file_room : 1), .room = room, .file_room = file_room};
    memset(r.out, UNTOUCHED, room);
    memset(r.file, UNTOUCHED, file_room);
    return r;
}

static void release(result *r) {
    __real_free(r->out);
    __real_free(r->file);
}

static result wanted[CALLS];

/* Whether a buffer begins with the `count` expected bytes, and is untouched after them. */
static int holds(const uint8_t *buffer, size_t room, const uint8_t *bytes, size_t count) {
    for (size_t i = count; i < room; i++) {
        if (buffer[i] != UNTOUCHED) return 0;
    }
    return !memcmp(buffer, bytes, count);
}

static size_t less_of(size_t a, size_t b) {
    return a < b ? a : b;
}

/* Whether two calls have found out the same about a problem. There may be anything between the members. */
static bool same_info(const tourkit_problem_info *a, const tourkit_problem_info *b) {
    return a->dimension == b->dimension && a->distances == b->distances && a->depot == b->depot && a->capacity == b->capacity &&
           a->demand == b->demand && a->vehicles == b->vehicles && a->left == b->left && a->right == b->right && a->bottom == b->bottom &&
           a->top == b->top && !memcmp(&a->is_cvrp, &b->is_cvrp, sizeof(bool)) && !memcmp(&a->is_whole, &b->is_whole, sizeof(bool));
}

/* Whether a call has left the members as they were before it. */
static bool is_untouched(const tourkit_problem_info *info) {
    tourkit_problem_info before;
    memset(&before, 0x55, sizeof before);
    return !memcmp(info, &before, sizeof before);
}

/* Makes all calls the given number of times, in parallel to other threads. */
static void *make_all(void *given) {
    long rounds = *(const long *)given;
    for (long i = 0; i < rounds; i++) {
        for (int which = 0; which < CALLS; which++) {
            const result *w = &wanted[which];
            result r = with_room(w->room, w->file_room);
            call(which, &r);
            expect(!memcmp(&r.answer, &w->answer, sizeof r.answer), "another answer in a thread", which, 0);
            expect(same_info(&r.info, &w->info), "other numbers in a thread", which, 0);
            expect(!memcmp(r.out, w->out, w->room) && !memcmp(r.file, w->file, w->file_room), "other bytes in a thread", which, 0);
            release(&r);
        }
    }
    return NULL;
}

/* Makes a call once for each of its allocations, which fails. The call may report that, or do without. */
static void refuse_each(int which) {
    result r = with_room(wanted[which].room, wanted[which].file_room);
    held = growths = 0;
    call(which, &r);
    expect(held == 0, "memory is still held", which, 0);
    long all = growths;
    for (long n = 0; n < all; n++) {
        countdown = n;
        call(which, &r);
        countdown = -1;
        uint32_t status = r.answer.status;
        expect(status == TOURKIT_NO_MEMORY || status == wanted[which].answer.status, "another status", which, (size_t)n);
        expect(status == wanted[which].answer.status || is_untouched(&r.info), "numbers without memory", which, (size_t)n);
        expect(held == 0, "memory is still held after a refusal", which, (size_t)n);
    }
    release(&r);
    printf("call %d: %ld growths refused\n", which, all);
}

/* Makes a call with room for `room` and `file_room` entries. A text buffer gets the first bytes of the text. An array is written only if its
 * size is exactly the number of entries; of two arrays, both must have it. */
static void try_room(int which, size_t room, size_t file_room) {
    const tourkit_answer *a = &wanted[which].answer;
    size_t unit = unit_of(which), file_unit = which == COORDINATES ? unit : 1;
    bool fits = unit == 1 || (room == a->needed && (which != COORDINATES || file_room == a->needed));
    size_t in_file = which == COORDINATES ? (fits ? a->needed : 0) : less_of(file_room, a->needed_file);
    result r = with_room(room * unit, file_room * file_unit);
    call(which, &r);
    expect(r.answer.status == (fits ? a->status : (uint32_t)TOURKIT_NO_ROOM), "another status by its room", which, room);
    expect(r.answer.needed == a->needed, "another count of what is needed", which, room);
    expect(same_info(&r.info, &wanted[which].info), "other numbers by its room", which, room);
    expect(holds(r.out, r.room, wanted[which].out, fits ? less_of(room, a->needed) * unit : 0), "other bytes", which, room);
    expect(holds(r.file, r.file_room, wanted[which].file, in_file * file_unit), "other bytes in the file", which, file_room);
    release(&r);
}

/* Makes a call with either buffer empty, too small, too small by one, just large enough, and too large. */
static void try_rooms(int which) {
    size_t needed = wanted[which].answer.needed, needed_file = which == COORDINATES ? needed : wanted[which].answer.needed_file;
    size_t rooms[] = {0, 1, needed / 2, needed - 1, needed, needed + 1, needed + 1000};
    size_t file_rooms[] = {0, 1, needed_file / 2, needed_file ? needed_file - 1 : 0, needed_file, needed_file + 1, needed_file + 1000};
    for (size_t i = 0; i < sizeof rooms / sizeof *rooms; i++) {
        try_room(which, rooms[i], needed_file);
        try_room(which, needed, file_rooms[i]);
    }
}

int main(int count, char **words) {
    bool only_threads = count == 4 && strcmp(words[3], "threads") == 0;
    if (count != 3 && !only_threads) {
        fprintf(stderr, "usage: calls FOLDER ROUNDS [threads]\n");
        return 2;
    }
    const char *folder = words[1];
    long rounds = atol(words[2]);
    tsp = read_text(folder, "board.tsp");
    listed = read_text(folder, "board-listed.tour");
    tour = read_text(folder, "tri.tour");
    vrp = read_text(folder, "bakery.vrp");
    sol = read_text(folder, "bakery-plan.sol");
    par = read_text(folder, "short.par");
    par_vrp = read_text(folder, "bakery.par");
    five = read_text(folder, "five.tsp");
    for (int which = 0; which < CALLS; which++) {
        result *w = &wanted[which];
        *w = with_room(ROOM, ROOM);
        call(which, w);
        if (w->answer.status == TOURKIT_NO_ROOM) {
            w->room = w->answer.needed * unit_of(which);
            if (which == COORDINATES) w->file_room = w->room;
            call(which, w);
        }
        uint32_t status = is_refused_call(which) ? TOURKIT_REFUSED : which == 14 ? TOURKIT_FOUND : TOURKIT_DONE;
        expect(which == 25 || is_untouched(&w->info), "numbers of a problem that was not read", which, 0);
        expect(w->answer.status == status, "another status than is wanted", which, w->answer.status);
        if (only_threads) continue;
        refuse_each(which);
        if (unit_of(which)) try_rooms(which);
    }
    pthread_t threads[THREADS];
    for (int i = 0; i < THREADS; i++) pthread_create(&threads[i], NULL, make_all, &rounds);
    for (int i = 0; i < THREADS; i++) pthread_join(threads[i], NULL);
    printf("%d failures\n", failures);
    return failures != 0;
}
