/* Checks the results of each function of the library on the smallest problems: the values of the answer, and the first output bytes. */
#include "tourkit.h"
#include <stdio.h>
#include <string.h>

/* A text or an array with its size, as arguments of a call. */
#define TEXT(text) (const uint8_t *)(text), sizeof(text) - 1
#define ARRAY(array) (array), sizeof(array) / sizeof *(array)

#define PROBLEM "TYPE: TSP\nDIMENSION: 3\nEDGE_WEIGHT_TYPE: EUC_2D\nNODE_COORD_SECTION\n1 0 0\n2 3 0\n3 3 4\nEOF\n"
#define TOUR "TYPE: TOUR\nDIMENSION: 3\nTOUR_SECTION\n1\n2\n3\n-1\nEOF\n"

/* Coordinates that are not whole, and a depot that is not the first node. */
#define PLACES "NAME: far a\nTYPE: CVRP\nDIMENSION: 4\nCAPACITY: 2\nEDGE_WEIGHT_TYPE: ATT\nNODE_COORD_SECTION\n" \
    "3 -2.5 4\n1 0 0\n2 3 1e-9\n4 7e-9 -4\nDEMAND_SECTION\n1 1\n2 0\n3 2\n4 1\nDEPOT_SECTION\n2\n-1\nEOF\n"

#define TABLE "TYPE: TSP\nDIMENSION: 3\nEDGE_WEIGHT_TYPE: EXPLICIT\nEDGE_WEIGHT_FORMAT: UPPER_ROW\nEDGE_WEIGHT_SECTION\n5 6 7\n"

#define EQUAL_WEIGHTS "TYPE: TSP\nDIMENSION: 4\nEDGE_WEIGHT_TYPE: EXPLICIT\nEDGE_WEIGHT_FORMAT: UPPER_ROW\nEDGE_WEIGHT_SECTION\n1 1 1 1 1 1\n"

static tourkit_answer answer;
static uint8_t out[256], file[2048];
static int passed, failed;

static void expect(int fine, const char *what) {
    if (fine) {
        passed++;
        return;
    }
    failed++;
    printf("failed: %s: status %u, text %u, line %llu, kind %u, place %u, length %llu, needed %zu, %zu\n", what, answer.status, answer.text,
           (unsigned long long)answer.line, answer.kind, answer.place, (unsigned long long)answer.length, answer.needed, answer.needed_file);
}

/* Whether the bytes begin with a text. */
static int begins(const uint8_t *bytes, const char *text) {
    return !memcmp(bytes, text, strlen(text));
}

/* Whether the answer is a fault of this kind, on a line of a text. */
static int is_fault(uint32_t text, uint64_t line, uint32_t kind) {
    return answer.status == TOURKIT_REFUSED && answer.text == text && answer.line == line && answer.kind == kind;
}

static void checks(void) {
    tourkit_check(TEXT(PROBLEM), TEXT(TOUR), ARRAY(out), &answer);
    expect(answer.status == TOURKIT_DONE && answer.needed == 28 && begins(out, "tour of 3 cities, length 12\n"), "a tour");
    tourkit_check(TEXT(PROBLEM), TEXT("TYPE: TOUR\nTYPE"), ARRAY(out), &answer);
    expect(is_fault(2, 2, 2) && answer.needed == 24 && begins(out, "tour text: 2: 2 Repeated"), "a tour with a header twice");
    tourkit_checksol(TEXT(PROBLEM), TEXT(TOUR), ARRAY(out), &answer);
    expect(is_fault(0, 0, TOURKIT_WRONG_TYPE), "routes of a TSP");
}

static void lists(void) {
    tourkit_near(TEXT(PROBLEM), 1, out, 5, &answer);
    expect(answer.status == TOURKIT_DONE && answer.needed == 15 && begins(out, "1: 2\n"), "the first bytes of near lists");
    tourkit_near(TEXT(PROBLEM), 0, ARRAY(out), &answer);
    expect(answer.status == TOURKIT_REFUSED, "near lists of no city");
    tourkit_matrix(TEXT(PROBLEM), out, 5, &answer);
    expect(answer.status == TOURKIT_DONE && begins(out, "NAME "), "the first bytes of a matrix");
}

static void arrays(void) {
    static const int64_t wanted[9] = {0, 3, 5, 3, 0, 4, 5, 4, 0};
    int64_t distances[9];
    tourkit_distances(TEXT(PROBLEM), distances, 4, &answer);
    expect(answer.status == TOURKIT_NO_ROOM && answer.needed == 9, "distances for which there is no room");
    tourkit_distances(TEXT(PROBLEM), ARRAY(distances), &answer);
    expect(answer.status == TOURKIT_DONE && !memcmp(distances, wanted, sizeof wanted), "distances");
    static const uint32_t lists[6] = {2, 3, 1, 3, 2, 1}, tour[3] = {3, 1, 2}, twice[3] = {3, 1, 3};
    uint32_t near[6];
    tourkit_near_cities(TEXT(PROBLEM), 9, ARRAY(near), &answer);
    expect(answer.status == TOURKIT_DONE && !memcmp(near, lists, sizeof lists), "near cities");
    tourkit_check_cities(TEXT(PROBLEM), ARRAY(tour), &answer);
    expect(answer.status == TOURKIT_DONE && answer.length == 12, "a tour as an array");
    tourkit_check_cities(TEXT(PROBLEM), ARRAY(twice), &answer);
    expect(answer.status == TOURKIT_FOUND && answer.kind == TOURKIT_REPEATED_CITY && answer.place == 3, "a city twice");
}

/* Whether two arrays of numbers are equal. */
#define EQUAL(array, other) !memcmp(array, other, sizeof(array))

static void contents(void) {
    static const int64_t eastings[4] = {0, 3000000000, -2500000000, 7}, northings[4] = {0, 1, 4000000000, -4000000000};
    static const uint32_t loads[4] = {1, 0, 2, 1}, lower[3] = {5, 6, 7};
    int64_t xs[4] = {0}, ys[4] = {0};
    uint32_t numbers[4] = {9, 9, 9, 9};
    tourkit_coordinates(TEXT(PLACES), ARRAY(xs), ys, 3, &answer);
    expect(answer.status == TOURKIT_NO_ROOM && answer.needed == 4 && xs[1] == 0, "coordinates for which there is no room");
    tourkit_coordinates(TEXT(PLACES), ARRAY(xs), ARRAY(ys), &answer);
    expect(answer.status == TOURKIT_DONE && EQUAL(xs, eastings) && EQUAL(ys, northings), "coordinates");
    tourkit_coordinates(TEXT(TABLE), ARRAY(xs), ARRAY(ys), &answer);
    expect(is_fault(0, 0, TOURKIT_NO_PLACES) && EQUAL(xs, eastings), "coordinates of explicit weights");
    tourkit_demands(TEXT(PLACES), ARRAY(numbers), &answer);
    expect(answer.status == TOURKIT_DONE && EQUAL(numbers, loads), "demands");
    tourkit_demands(TEXT(PROBLEM), ARRAY(numbers), &answer);
    expect(is_fault(0, 0, TOURKIT_WRONG_TYPE) && EQUAL(numbers, loads), "demands of a TSP");
    tourkit_weights(TEXT(TABLE), numbers, 3, &answer);
    expect(answer.status == TOURKIT_DONE && EQUAL(lower, numbers), "explicit weights");
    tourkit_weights(TEXT(PROBLEM), numbers, 3, &answer);
    expect(is_fault(0, 0, TOURKIT_NO_WEIGHTS) && EQUAL(lower, numbers), "explicit weights of coordinates");
    tourkit_weights(TEXT("TYPE: TSP\nTYPE"), numbers, 3, &answer);
    expect(is_fault(1, 2, 2) && answer.needed == 0, "explicit weights of a header twice");
}

/* What is known of a problem, whose name has these bytes. */
static void known(void) {
    tourkit_problem_info info;
    tourkit_info(TEXT(PLACES), &info, out, 3, &answer);
    expect(answer.status == TOURKIT_DONE && answer.needed == 5 && begins(out, "far"), "a name");
    expect(info.dimension == 4 && info.distances == TOURKIT_ATT && info.is_cvrp && !info.is_whole, "the types of a CVRP");
    expect(info.depot == 2 && info.capacity == 2 && info.demand == 4 && info.vehicles == 2, "the routing data of a CVRP");
    expect(info.left == -2500000000 && info.right == 3000000000 && info.bottom == -4000000000 && info.top == 4000000000, "bounds");
    tourkit_info(TEXT(TABLE), &info, ARRAY(out), &answer);
    expect(answer.needed == 7 && begins(out, "Unnamed") && info.dimension == 3 && info.distances == TOURKIT_EXPLICIT, "a table");
    expect(!info.is_cvrp && !info.is_whole && !info.depot && !info.capacity && !info.demand && !info.vehicles, "no routing data");
    expect(!info.left && !info.right && !info.bottom && !info.top, "no bounds");
    tourkit_info(TEXT(PROBLEM), &info, ARRAY(out), &answer);
    expect(info.is_whole && info.distances == TOURKIT_EUC_2D && info.top == 4000000000, "whole coordinates");
    tourkit_info(TEXT(TOUR), &info, ARRAY(out), &answer);
    expect(is_fault(1, 1, 4) && begins(out, "problem text: 1: 4 Unsupported") && info.dimension == 3, "a text that is not a problem");
    expect(tourkit_version() == TOURKIT_VERSION, "the version");
}

static void tours(void) {
    static const uint32_t listed[5] = {2, 9, 2, 0, 4294967295}, from_third[3] = {3, 2, 1}, ties[4] = {4, 1, 2, 3};
    uint32_t cities[5], three[3], four[4];
    tourkit_tour_cities(TEXT("TYPE: TOUR\nTOUR_SECTION\n2 9 2 0 4294967295 -1\n"), ARRAY(cities), &answer);
    expect(answer.status == TOURKIT_DONE && answer.needed == 5 && EQUAL(cities, listed), "the numbers that a tour text lists");
    tourkit_tour_cities(TEXT(TOUR), ARRAY(cities), &answer);
    expect(answer.status == TOURKIT_NO_ROOM && answer.needed == 3 && EQUAL(cities, listed), "cities for which there is no room");
    tourkit_tour_cities(TEXT("TYPE: TSP\n"), ARRAY(cities), &answer);
    expect(is_fault(1, 1, 4) && EQUAL(cities, listed), "a text that is not a tour");
    tourkit_nearest_tour(TEXT(PROBLEM), 3, ARRAY(three), &answer);
    expect(answer.status == TOURKIT_DONE && answer.needed == 3 && EQUAL(three, from_third), "a nearest-neighbour tour");
    tourkit_nearest_tour(TEXT(EQUAL_WEIGHTS), 4, ARRAY(four), &answer);
    expect(answer.status == TOURKIT_DONE && EQUAL(four, ties), "a nearest-neighbour tour by numbers");
    tourkit_nearest_tour(TEXT(PROBLEM), 4, ARRAY(three), &answer);
    expect(is_fault(0, 0, 0) && EQUAL(three, from_third), "a nearest-neighbour tour of no city");
    tourkit_nearest_tour(TEXT(PROBLEM), 0, ARRAY(three), &answer);
    expect(is_fault(0, 0, 0), "a nearest-neighbour tour of city 0");
}

/* Explains a text of this name. */
static void explain_text(const char *text, const char *name, uint64_t line) {
    tourkit_explain((const uint8_t *)text, strlen(text), (const uint8_t *)name, strlen(name), line, ARRAY(file), &answer);
}

/* Whether the answer is about a text of this kind with this fault; 0 for none. */
static int is_about(uint32_t text, uint64_t line, uint32_t kind) {
    return answer.status == (kind ? TOURKIT_FOUND : TOURKIT_DONE) && answer.text == text && answer.line == line && answer.kind == kind;
}

static void explanations(void) {
    explain_text(PROBLEM, "board.tsp", 0);
    expect(is_about(TOURKIT_PROBLEM, 0, 0) && begins(file, "board.tsp has no fault: "), "a problem without a fault");
    explain_text("TYPE: TOUR\nTYPE", "a.tour", 0);
    expect(is_about(TOURKIT_TOUR, 2, 2) && begins(file, "a.tour:2: 2 Repeated"), "a tour with a header twice, explained");
    explain_text("Route #1: 1\nCost\n", "a.sol", 0);
    expect(is_about(TOURKIT_SOLUTION, 2, 5), "a solution with a fault");
    explain_text("PROBLEM_FILE = a\nRUNS = 0\n", "a.par", 1);
    expect(is_about(TOURKIT_PARAMETERS, 2, 3), "a line of parameters with a fault on another line");
    memset(file, 7, sizeof file);
    explain_text(PROBLEM, "\xff", 0);
    expect(is_fault(0, 0, 0) && answer.needed == 0 && file[0] == 7, "a name that is not UTF-8");
}

#define ROUTES "TYPE: CVRP\nDIMENSION: 4\nCAPACITY: 2\nEDGE_WEIGHT_TYPE: EUC_2D\nNODE_COORD_SECTION\n1 0 0\n2 3 0\n3 3 4\n4 0 4\n" \
    "DEMAND_SECTION\n1 0\n2 1\n3 1\n4 1\nDEPOT_SECTION\n1\n-1\nEOF\n"

/* Searches for a tour of a problem with these options, from a text. */
static void search(const char *problem, const char *tour, tourkit_search_options options) {
    tourkit_search((const uint8_t *)problem, strlen(problem), (const uint8_t *)tour, strlen(tour), &options, ARRAY(out), ARRAY(file), &answer);
}

/* Searches with options, each of which has limits. */
static void settings(void) {
    tourkit_search_options once = {.runs = 1, .trials = 1, .candidates = 5, .or_segment = 3}, from_tour = once;
    from_tour.from_tour = true;
    search(PROBLEM, "", once);
    expect(answer.status == TOURKIT_DONE && begins(out, "run 1: start 12, best 12, trials 1,"), "a search with options");
    expect(answer.needed_file == 97 && begins(file, "NAME : Unnamed.12.tour\nCOMMENT : Length = 12\n"), "the tour of a search with options");
    search(PROBLEM, TOUR, from_tour);
    expect(answer.status == TOURKIT_DONE && begins(out, "run 1: start 12, best 12, trials 1,"), "a search from a tour");
    search(PROBLEM, "TYPE: TOUR\nTOUR_SECTION\n1 2\n", from_tour);
    expect(is_fault(2, 0, TOURKIT_WRONG_COUNT) && begins(out, "initial tour: wrong count"), "a search from too few cities");
    search(PROBLEM, "TYPE: TSP\n", from_tour);
    expect(is_fault(2, 1, 4), "a search from a text that is not a tour");
    search(ROUTES, "", once);
    expect(answer.status == TOURKIT_DONE && begins(out, "savings 18, routes 2\nimproved 18,"), "routes that are improved each by itself");
    search(ROUTES, TOUR, from_tour);
    expect(is_fault(0, 0, TOURKIT_NOT_FOR_TYPE) && answer.needed > 0, "a search for routes from a tour");
    static const tourkit_search_options outside[] = {
        {.runs = 0, .candidates = 5, .or_segment = 3},   {.runs = 10001, .candidates = 5, .or_segment = 3},
        {.runs = 1, .candidates = 0, .or_segment = 3},   {.runs = 1, .candidates = 101, .or_segment = 3},
        {.runs = 1, .candidates = 5, .or_segment = 0},   {.runs = 1, .candidates = 5, .or_segment = 4},
        {.runs = 1, .trials = 1000001, .candidates = 5, .or_segment = 3},
    };
    for (size_t i = 0; i < sizeof outside / sizeof *outside; i++) {
        search(PROBLEM, "", outside[i]);
        expect(is_fault(0, 0, 0) && answer.needed == 0 && answer.needed_file == 0, "an option of a search that is out of range");
    }
}

static void searches(void) {
    tourkit_solve(TEXT("PROBLEM_FILE = -\nRUNS = 1\nOPTIMUM = 3\n"), TEXT(PROBLEM), TEXT(""), ARRAY(out), ARRAY(file), &answer);
    expect(answer.status == TOURKIT_DONE && begins(out, "ignored OPTIMUM\nrun 1: start 12, best 12, trials 1"), "a search");
    expect(answer.needed_file == 97 && begins(file, "NAME : Unnamed.12.tour\nCOMMENT : Length = 12\n"), "the tour of a search");
    tourkit_solve(TEXT("RUNS = 0\n"), TEXT(PROBLEM), TEXT(""), ARRAY(out), ARRAY(file), &answer);
    expect(is_fault(1, 1, 3), "a search of no run");
    tourkit_plot(TEXT(PROBLEM), TEXT(TOUR), true, ARRAY(file), ARRAY(out), &answer);
    expect(answer.status == TOURKIT_DONE && answer.needed_file == 0 && begins(file, "<svg"), "a picture");
    tourkit_page(TEXT(PROBLEM), TEXT(TOUR), true, ARRAY(file), ARRAY(out), &answer);
    expect(answer.status == TOURKIT_DONE && answer.needed > 35000 && begins(file, "<!DOCTYPE html>"), "a page");
    tourkit_page(TEXT(PROBLEM), TEXT("TYPE: TOUR\nTOUR_SECTION\n1 2\n"), true, ARRAY(file), ARRAY(out), &answer);
    expect(answer.status == TOURKIT_FOUND && begins(out, "wrong count: 3 wanted, 2 read\n"), "a page of too few cities");
}

#define FOUND "Route #1: 1\nRoute #2: 2 3\nCost 18\n"

static const tourkit_route_options once = {.runs = 1, .trials = 9, .seed = 1, .candidates = 12, .or_segment = 3},
                                   again = {.runs = 1, .trials = 9, .seed = 1, .candidates = 12, .or_segment = 3, .from_solution = true};

/* Searches between routes with these options, from a solution. */
static void search_routes(const char *solution, const tourkit_route_options *options) {
    tourkit_solve_routes(TEXT(ROUTES), (const uint8_t *)solution, strlen(solution), options, ARRAY(out), ARRAY(file), &answer);
}

/* Whether the answer is a fault of the initial solution: of this kind, at this place, with this message. */
static int is_clash(uint32_t kind, uint32_t place, const char *message) {
    return is_fault(2, 0, kind) && answer.place == place && answer.needed == strlen(message) && begins(out, message);
}

static void routes(void) {
    search_routes("", &once);
    expect(answer.status == TOURKIT_DONE && begins(out, "savings 18, routes 2, candidates 3\nrun 1: start 18, best 18, routes 2, trials 9,"),
           "a search between routes");
    expect(answer.needed_file == strlen(FOUND) && begins(file, FOUND), "the routes of a search");
    search_routes("Route #1: 1\nRoute #2: 2\nRoute #3: 3\nCost 24\n", &again);
    expect(answer.status == TOURKIT_DONE && begins(out, "initial 24, routes 3\nrun 1: start 24, best 18, routes 2,"), "a search from a solution");
    search_routes("Route #1: 1 2 3\n", &again);
    expect(is_fault(2, 2, 3) && begins(out, "solution text: 2: 3 Missing"), "an initial solution without a cost");
    search_routes("Route #1: 1 4\nCost 1\n", &again);
    expect(is_clash(TOURKIT_BAD_CUSTOMER, 1, "initial solution: bad customer in route 1: 4"), "a number that is not a customer");
    search_routes("Route #1: 1 2\nRoute #2: 3 2\nCost 1\n", &again);
    expect(is_clash(TOURKIT_SERVED_TWICE, 2, "initial solution: customer served twice: 2"), "a customer on two routes");
    search_routes("Route #1: \nRoute #2: 1 2 3\nCost 1\n", &again);
    expect(is_clash(TOURKIT_OVER_CAPACITY, 2, "initial solution: over capacity in route 2: 3"), "a route with too much load");
    search_routes("Route #1: 1 2\nCost 1\n", &again);
    expect(is_clash(TOURKIT_NOT_SERVED, 3, "initial solution: customer not served: 3"), "a customer on no route");
    search_routes("Route #1: 1 2\nRoute #2: 3\nCost 19\n", &again);
    expect(is_clash(TOURKIT_WRONG_COST, 0, "initial solution: wrong cost: 19 read, 20 counted"), "a wrong cost");
    tourkit_solve_routes(TEXT(PROBLEM), TEXT(""), &once, ARRAY(out), ARRAY(file), &answer);
    expect(is_fault(0, 0, TOURKIT_WRONG_TYPE) && begins(out, "not a CVRP"), "routes of a TSP, to search");
}

/* Each number of the options has limits. */
static void limits(void) {
    static const tourkit_route_options outside[] = {
        {0, 9, 1, 12, 3, false, false}, {10001, 9, 1, 12, 3, false, false}, {1, 1000001, 1, 12, 3, false, false},
        {1, 9, 1, 0, 3, false, false},  {1, 9, 1, 101, 3, false, false},    {1, 9, 1, 12, 0, false, false},
        {1, 9, 1, 12, 4, false, false},
    };
    for (size_t i = 0; i < sizeof outside / sizeof *outside; i++) {
        search_routes("", &outside[i]);
        expect(is_fault(0, 0, 0) && answer.needed == 0 && answer.needed_file == 0, "an option that is out of range");
    }
    static const tourkit_route_options least = {1, 1, 0, 1, 1, true, false}, most = {10000, 1, UINT32_MAX, 100, 3, true, false};
    search_routes("", &least);
    expect(answer.status == TOURKIT_DONE, "the least options");
    search_routes("", &most);
    expect(answer.status == TOURKIT_DONE && answer.needed > 10000, "10,000 runs");
    tourkit_route_options ten_for_each = once, forty = once;
    uint8_t other[sizeof out];
    ten_for_each.trials = 0;
    forty.trials = 40;
    search_routes("", &forty);
    memcpy(other, out, sizeof out);
    search_routes("", &ten_for_each);
    expect(!memcmp(out, other, answer.needed), "ten trials for each node");
}

static void points(void) {
    static const int64_t xs[3] = {0, 3000000000, 3000000000}, ys[3] = {0, 0, 4000000000};
    static const uint32_t lists[3] = {2, 1, 2}, tour[3] = {1, 2, 3};
    uint32_t near[3];
    tourkit_near_points(TOURKIT_EUC_2D, ARRAY(xs), ARRAY(ys), 1, ARRAY(near), &answer);
    expect(answer.status == TOURKIT_DONE && !memcmp(near, lists, sizeof lists), "near points");
    tourkit_check_points(TOURKIT_MAN_2D, ARRAY(xs), ARRAY(ys), ARRAY(tour), &answer);
    expect(answer.status == TOURKIT_DONE && answer.length == 14, "a tour of points");
    tourkit_check_points(TOURKIT_ATT + 1, ARRAY(xs), ARRAY(ys), ARRAY(tour), &answer);
    expect(answer.status == TOURKIT_REFUSED, "points of no kind");
}

static void weights(void) {
    static const uint32_t below[3] = {3, 5, 4}, lists[3] = {2, 1, 2}, tour[3] = {2, 3, 1};
    uint32_t near[3];
    tourkit_near_weights(3, ARRAY(below), 1, ARRAY(near), &answer);
    expect(answer.status == TOURKIT_DONE && !memcmp(near, lists, sizeof lists), "near cities by weights");
    tourkit_near_weights(3, ARRAY(below), 2, ARRAY(near), &answer);
    expect(answer.status == TOURKIT_NO_ROOM && answer.needed == 6 && !memcmp(near, lists, sizeof lists), "lists for which there is no room");
    tourkit_check_weights(3, ARRAY(below), ARRAY(tour), &answer);
    expect(answer.status == TOURKIT_DONE && answer.length == 12, "a tour by weights");
    tourkit_check_weights(4, ARRAY(below), ARRAY(tour), &answer);
    expect(answer.status == TOURKIT_REFUSED, "too few weights");
}

int main(void) {
    checks();
    lists();
    arrays();
    contents();
    known();
    tours();
    explanations();
    searches();
    settings();
    routes();
    limits();
    points();
    weights();
    printf("%d passed, %d failed\n", passed, failed);
    return failed != 0;
}
