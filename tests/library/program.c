/* The commands of tourkit that the library offers, implemented by its functions. Output, written files and status must be those of tourkit,
 * so that tests/run can run this program on the cases of tests/cases.
 * usage: program check PROBLEM TOUR           program matrix PROBLEM FULL_MATRIX
 *        program checksol PROBLEM SOLUTION    program plot PROBLEM [TOUR | SOLUTION] [--html]
 *        program near PROBLEM [-k K]          program solve PARAMETERS
 *        program solve PROBLEM OPTION..       (a search between the routes of a CVRP)
 *        program explain FILE [LINE] */
#include "tourkit.h"
#include <inttypes.h>
#include <stdio.h>
#include <stdlib.h>
#include <string.h>
#include <strings.h>

enum { UNUSABLE = 3, UNEXPECTED = 9, CANDIDATES = 5 };

/* Bytes and their number. */
typedef struct {
    uint8_t *bytes;
    size_t size;
} text;

/* Ends the program if the library does not do what its header specifies. */
static void expect(bool fine, const char *what) {
    if (!fine) {
        fprintf(stderr, "not as tourkit.h says: %s\n", what);
        exit(UNEXPECTED);
    }
}

/* Memory of exactly this size, so that a byte written past its end is detected. */
static text room_for(size_t size) {
    text room = {malloc(size ? size : 1), size};
    expect(room.bytes != NULL, "there is memory");
    return room;
}

/* Reads an open file to its end, into memory of exactly its size. */
static text read_all(FILE *file) {
    uint8_t part[4096];
    text read = room_for(0);
    for (size_t count; (count = fread(part, 1, sizeof part, file)) > 0; read.size += count) {
        read.bytes = realloc(read.bytes, read.size + count);
        expect(read.bytes != NULL, "there is memory");
        memcpy(read.bytes + read.size, part, count);
    }
    fclose(file);
    return read;
}

/* Opens a file, or ends the program. */
static FILE *open_file(const char *name) {
    FILE *file = fopen(name, "rb");
    if (!file) {
        fprintf(stderr, "tourkit: %s: cannot be opened\n", name);
        exit(UNUSABLE);
    }
    return file;
}

/* Reads the file that an argument names: standard input for a dash. */
static text read_word(const char *word) {
    return read_all(strcmp(word, "-") ? open_file(word) : stdin);
}

/* Writes a whole text. */
static void print(FILE *file, text printed) {
    fwrite(printed.bytes, 1, printed.size, file);
}

/* Prints why an initial tour was rejected. */
static void tell_clash(const char *file, const tourkit_answer *answer) {
    static const char *const names[] = {"1 WrongCount", "2 OutOfRange", "3 RepeatedCity"};
    expect(answer->kind <= TOURKIT_REPEATED_CITY, "a fault of a tour is 20 to 22");
    fprintf(stderr, "tourkit: %s: initial tour: %s", file, names[answer->kind - TOURKIT_WRONG_COUNT]);
    if (answer->place) fprintf(stderr, " %" PRIu32, answer->place);
    fprintf(stderr, "\n");
}

/* Prints the fault of a text. The message ends with the line, the number and the name of the fault. */
static void tell_fault(const char *file, const char *message, const tourkit_answer *answer) {
    char told[64];
    int size = snprintf(told, sizeof told, "%" PRIu64 ": %" PRIu32 " ", answer->line, answer->kind);
    const char *after = strstr(message, "text: ");
    const char *fault = after ? after + strlen("text: ") : message;
    expect(!strncmp(fault, told, (size_t)size), "the message has the line and the number of the answer");
    fprintf(stderr, "tourkit: %s:%s\n", file, fault);
}

/* Returns the status if a text was rejected or memory has run out. `files` contains the names of the texts in order, and `problem` is the
 * number of the problem text. */
static int end_refused(const char *const *files, size_t problem, text message, const tourkit_answer *answer) {
    expect(answer->status == TOURKIT_REFUSED || answer->status == TOURKIT_NO_MEMORY, "the status is 2 or 3");
    expect(answer->needed == message.size, "a message is as long as it was");
    if (answer->status == TOURKIT_NO_MEMORY) {
        fprintf(stderr, "tourkit: out of memory\n");
        return UNUSABLE;
    }
    char *line = calloc(message.size + 1, 1);
    expect(line != NULL, "there is memory");
    memcpy(line, message.bytes, message.size);
    if (answer->text == 0) {
        fprintf(stderr, "tourkit: %s: %s\n", files[problem - 1], line);
    } else if (answer->kind >= TOURKIT_BAD_CUSTOMER) {
        fprintf(stderr, "tourkit: %s: %s\n", files[answer->text - 1], line);
    } else if (answer->kind >= TOURKIT_WRONG_COUNT) {
        tell_clash(files[answer->text - 1], answer);
    } else {
        tell_fault(files[answer->text - 1], line, answer);
    }
    free(line);
    return TOURKIT_REFUSED;
}

/* A command and its input. */
typedef struct {
    const char *name;
    text problem, claim;
    uint32_t candidates;
} command;

/* Calls the function of a command that prints one text. */
static void call(const command *given, text out, tourkit_answer *answer) {
    text p = given->problem, c = given->claim;
    if (!strcmp(given->name, "check")) {
        tourkit_check(p.bytes, p.size, c.bytes, c.size, out.bytes, out.size, answer);
    } else if (!strcmp(given->name, "checksol")) {
        tourkit_checksol(p.bytes, p.size, c.bytes, c.size, out.bytes, out.size, answer);
    } else if (!strcmp(given->name, "near")) {
        tourkit_near(p.bytes, p.size, given->candidates, out.bytes, out.size, answer);
    } else {
        tourkit_matrix(p.bytes, p.size, out.bytes, out.size, answer);
    }
}

/* Runs a command that prints one text: once to get the number of bytes, and once to get the bytes. */
static int run(const command *given, const char *const *files) {
    tourkit_answer first, answer;
    call(given, room_for(0), &first);
    text out = room_for(first.needed);
    call(given, out, &answer);
    expect(answer.status == first.status && answer.needed == first.needed, "the answer is the same again");
    if (answer.status > TOURKIT_FOUND) return end_refused(files, 1, out, &answer);
    print(stdout, out);
    return (int)answer.status;
}

/* Runs `plot`. */
static int plot(const command *given, bool has_claim, bool as_page, const char *const *files) {
    void (*const draw)(const uint8_t *, size_t, const uint8_t *, size_t, bool, uint8_t *, size_t, uint8_t *, size_t, tourkit_answer *) =
        as_page ? tourkit_page : tourkit_plot;
    text p = given->problem, c = given->claim;
    tourkit_answer first, answer;
    text none = room_for(0), also_none = room_for(0);
    draw(p.bytes, p.size, c.bytes, c.size, has_claim, none.bytes, 0, also_none.bytes, 0, &first);
    bool is_refused = first.status > TOURKIT_FOUND;
    text out = room_for(is_refused ? 0 : first.needed), told = room_for(is_refused ? first.needed : first.needed_file);
    draw(p.bytes, p.size, c.bytes, c.size, has_claim, out.bytes, out.size, told.bytes, told.size, &answer);
    expect(answer.status == first.status && answer.needed == first.needed, "the answer is the same again");
    if (is_refused) return end_refused(files, 1, told, &answer);
    print(stdout, out);
    print(stderr, told);
    return (int)answer.status;
}

static bool is_blank(char byte) {
    return byte == ' ' || byte == '\t' || byte == '\r';
}

/* The file that a key of the parameters names; null for none. The library has accepted the parameters. */
static char *file_of(text parameters, const char *key) {
    char *all = calloc(parameters.size + 1, 1), *found = NULL;
    expect(all != NULL, "there is memory");
    memcpy(all, parameters.bytes, parameters.size);
    for (char *line = strtok(all, "\n"); line && !found; line = strtok(NULL, "\n")) {
        while (is_blank(*line)) line++;
        if (strncasecmp(line, key, strlen(key))) continue;
        line += strlen(key);
        if (!is_blank(*line) && *line != '=') continue;
        while (is_blank(*line)) line++;
        if (*line == '=') line++;
        while (is_blank(*line)) line++;
        size_t size = strlen(line);
        while (size && is_blank(line[size - 1])) size--;
        found = strndup(line, size);
    }
    free(all);
    return found;
}

/* Writes a file, or ends the program. */
static void save(const char *name, text written) {
    FILE *file = fopen(name, "wb");
    expect(file != NULL, "the file can be written");
    print(file, written);
    fclose(file);
}

/* Runs `solve`. The files that the parameters name are read after these have been accepted. */
static int solve(const char *parameter_file) {
    text parameters = read_word(parameter_file), none = room_for(0), lines = room_for(1 << 16), file = room_for(1 << 20);
    tourkit_answer answer;
    tourkit_solve(parameters.bytes, parameters.size, none.bytes, 0, none.bytes, 0, lines.bytes, lines.size, file.bytes, 0, &answer);
    const char *files[] = {parameter_file, NULL, NULL};
    lines.size = answer.needed;
    if (answer.text == 1) return end_refused(files, 2, lines, &answer);
    files[1] = file_of(parameters, "PROBLEM_FILE");
    files[2] = file_of(parameters, "INITIAL_TOUR_FILE");
    text problem = read_all(open_file(files[1])), initial = files[2] ? read_all(open_file(files[2])) : none;
    lines = room_for(1 << 16);
    tourkit_solve(parameters.bytes, parameters.size, problem.bytes, problem.size, initial.bytes, initial.size, lines.bytes, lines.size,
                  file.bytes, file.size, &answer);
    expect(answer.needed <= lines.size, "the lines have room");
    lines.size = answer.needed;
    if (answer.status > TOURKIT_FOUND) return end_refused(files, 2, lines, &answer);
    expect(answer.needed_file <= file.size, "the file has room");
    file.size = answer.needed_file;
    print(stdout, lines);
    char *tour_file = file_of(parameters, "TOUR_FILE"), *solution_file = file_of(parameters, "SOLUTION_FILE");
    if (tour_file || solution_file) save(tour_file ? tour_file : solution_file, file);
    return (int)answer.status;
}

/* The number that an option sets. */
static uint32_t *number_of(tourkit_search_options *options, const char *word) {
    if (!strcmp(word, "--runs")) return &options->runs;
    if (!strcmp(word, "--trials")) return &options->trials;
    if (!strcmp(word, "--seed")) return &options->seed;
    if (!strcmp(word, "--candidates")) return &options->candidates;
    expect(!strcmp(word, "--or-segment"), "the options are those of a search");
    return &options->or_segment;
}

/* Whether a text is that of a CVRP. */
static bool is_cvrp(text problem) {
    tourkit_problem_info info = {.is_cvrp = false};
    tourkit_answer answer;
    tourkit_info(problem.bytes, problem.size, &info, room_for(0).bytes, 0, &answer);
    return info.is_cvrp;
}

/* Runs `solve` with options: a search for a tour or between routes. */
static int solve_by_options(int count, char **words) {
    const char *files[] = {words[2], NULL}, *output = NULL;
    text problem = read_word(files[0]);
    bool between = is_cvrp(problem);
    for (int i = 3; i < count; i++) between = between && strcmp(words[i], "--within-routes");
    tourkit_search_options options = {.runs = between ? 1 : 10, .seed = 1, .candidates = between ? 12 : 5, .or_segment = 3};
    for (int i = 3; i < count; i++) {
        const char *word = words[i];
        if (!strcmp(word, "--final-sweep")) {
            options.final_sweep = true;
            continue;
        }
        if (!strcmp(word, "--within-routes")) continue;
        expect(++i < count, "the option has a value");
        if (!strcmp(word, "-o") || !strcmp(word, "--output")) output = words[i];
        else if (!strcmp(word, "--initial-solution") || !strcmp(word, "--initial-tour")) files[1] = words[i];
        else if (!strcmp(word, "--construction")) options.savings = !strcasecmp(words[i], "SAVINGS");
        else *number_of(&options, word) = (uint32_t)strtoul(words[i], NULL, 10);
    }
    options.from_tour = files[1] != NULL;
    text initial = files[1] ? read_word(files[1]) : room_for(0), lines = room_for(1 << 16), file = room_for(1 << 18);
    tourkit_answer answer;
    if (between) {
        tourkit_route_options routes = {options.runs, options.trials, options.seed, options.candidates, options.or_segment,
                                        options.final_sweep, options.from_tour};
        tourkit_solve_routes(problem.bytes, problem.size, initial.bytes, initial.size, &routes, lines.bytes, lines.size, file.bytes,
                             file.size, &answer);
    } else {
        tourkit_search(problem.bytes, problem.size, initial.bytes, initial.size, &options, lines.bytes, lines.size, file.bytes, file.size,
                       &answer);
    }
    expect(answer.needed <= lines.size && answer.needed_file <= file.size, "the texts have room");
    lines.size = answer.needed;
    file.size = answer.needed_file;
    if (answer.status > TOURKIT_FOUND) return end_refused(files, 1, lines, &answer);
    print(stdout, lines);
    if (output) save(output, file);
    return (int)answer.status;
}

/* Runs `explain` on a file: once to get the number of bytes, and once to get the bytes. */
static int explain(const char *name, uint64_t line) {
    text explained = read_word(name);
    tourkit_answer first, answer;
    tourkit_explain(explained.bytes, explained.size, (const uint8_t *)name, strlen(name), line, room_for(0).bytes, 0, &first);
    text out = room_for(first.needed);
    tourkit_explain(explained.bytes, explained.size, (const uint8_t *)name, strlen(name), line, out.bytes, out.size, &answer);
    expect(!memcmp(&answer, &first, sizeof answer), "the answer is the same again");
    expect(answer.status == (answer.kind ? TOURKIT_FOUND : TOURKIT_DONE) && (answer.line > 0) == (answer.kind > 0), "a fault has a line");
    expect(answer.text >= TOURKIT_PROBLEM && answer.text <= TOURKIT_PARAMETERS, "the text has a kind");
    print(stdout, out);
    return 0;
}

int main(int count, char **words) {
    expect(count >= 3, "there are words");
    if (!strcmp(words[1], "explain")) return explain(words[2], count == 4 ? strtoull(words[3], NULL, 10) : 0);
    if (!strcmp(words[1], "solve")) return count == 3 ? solve(words[2]) : solve_by_options(count, words);
    bool as_page = false;
    if (!strcmp(words[1], "plot")) {
        int kept = 2;
        for (int i = 2; i < count; i++) {
            if (strcmp(words[i], "--html")) words[kept++] = words[i];
            else as_page = true;
        }
        count = kept;
    }
    const char *files[] = {words[2], NULL};
    command given = {words[1], {NULL, 0}, {NULL, 0}, CANDIDATES};
    if (!strcmp(words[1], "near")) {
        int option = count == 5 && !strcmp(words[2], "-k") ? 2 : 3;
        if (count == 5) given.candidates = (uint32_t)atoi(words[option + 1]);
        files[0] = count == 5 && option == 2 ? words[4] : words[2];
    } else if (count == 4 && strcmp(words[1], "matrix")) {
        files[1] = words[3];
    }
    given.problem = read_word(files[0]);
    given.claim = files[1] ? read_word(files[1]) : room_for(0);
    return strcmp(words[1], "plot") ? run(&given, files) : plot(&given, files[1] != NULL, as_page, files);
}
