//! `tourkit solve` in plain Rust: the same files, the same search, the same bytes.
//!
//! usage: baseline solve PAR [--times] [--as-given] [--whole] [--same-method]
//!        baseline solve CVRP OPTION.. [--times] [--whole] [--same-method]
//!
//! With options of `tourkit solve` (-o, --runs, --trials, --seed, --candidates, --or-segment, --final-sweep), it searches between the routes
//! of a CVRP. Its own options are these:
//!
//! - --times prints a line on standard error with the time of each part.
//! - --as-given numbers the cities as in the problem, not by their positions in the starting tour.
//! - --whole computes distances by exact roots of integers, as tourkit does. Without it, EUC_2D distances come from the roots of the
//!   processor if these are exact.
//! - --same-method searches as tourkit does: with --as-given and --whole, with offers that are tested one after another until one has a
//!   gain, and with flips for the segments of Or-opt moves.
//!
//! Compiled with `--cfg segments`, the search divides its tour into segments; otherwise it keeps the tour in an array.

mod between;
mod capacity;
mod descent;
mod metric;
mod near;
mod params;
mod routes;
mod search;
#[cfg(segments)]
mod segments;
mod store;
mod text;
#[cfg_attr(segments, allow(dead_code))]
mod tour;

use metric::{Ceiling, Euclid, Manhattan, Maximum, Metric, Plane, Pseudo, ShortEuclid, Triangle};
use near::{Nearest, near_lists};
use params::Params;
use std::fmt::Write as _;
use std::io::Write as _;
use std::process::exit;
use std::time::Instant;
use text::{Kind, Problem, Routing, Weights};
use tour::Tour;

/// Ends the program with one line on standard error.
fn fail(status: i32, what: String) -> ! {
    eprintln!("tourkit: {what}");
    exit(status)
}

fn text_of(name: &str) -> Vec<u8> {
    std::fs::read(name).unwrap_or_else(|_| fail(3, format!("{name}: cannot be opened")))
}

fn accepted<T>(name: &str, read: Result<T, text::Fault>) -> T {
    read.unwrap_or_else(|(line, what)| fail(2, format!("{name}:{line}: {what}")))
}

fn create(name: &Option<String>, text: &[u8]) {
    if let Some(name) = name
        && std::fs::write(name, text).is_err()
    {
        fail(3, format!("{name}: cannot be opened"));
    }
}

/// Seconds of the parts of a run.
struct Times {
    begin: Instant,
    parts: Vec<(&'static str, f64)>,
}

impl Times {
    fn end(&mut self, part: &'static str) {
        let took = self.begin.elapsed().as_secs_f64();
        match self.parts.iter_mut().find(|p| p.0 == part) {
            Some(p) => p.1 += took,
            None => self.parts.push((part, took)),
        }
        self.begin = Instant::now();
    }

    fn tell(&self, trials: u64) {
        let mut line = String::new();
        for (part, seconds) in &self.parts {
            write!(line, "{part} {seconds:.4} s, ").unwrap();
        }
        if let Some(search) = self.parts.iter().find(|p| p.0 == "search").filter(|_| trials > 0) {
            write!(line, "trials per second {:.0}, ", trials as f64 / search.1).unwrap();
        }
        eprintln!("{}", line.trim_end_matches(", "));
    }
}

/// The initial tour's cities from 0.
fn initial(name: &str, n: usize) -> Vec<u32> {
    let cities = accepted(name, text::read_tour(&text_of(name)));
    let fault = |what: String| -> ! { fail(2, format!("{name}: initial tour: {what}")) };
    if cities.len() != n {
        fault("1 WrongCount".to_string());
    }
    let mut seen = vec![false; n];
    for (place, &city) in cities.iter().enumerate() {
        if city < 1 || city as usize > n {
            fault(format!("2 OutOfRange {}", place + 1));
        }
        if seen[city as usize - 1] {
            fault(format!("3 RepeatedCity {}", place + 1));
        }
        seen[city as usize - 1] = true;
    }
    cities.iter().map(|c| c - 1).collect()
}

struct Flags {
    times: bool,
    as_given: bool,
    whole: bool,
    same_method: bool,
}

fn solve_tour<M: Metric>(
    metric: &M,
    name: &[u8],
    given: Option<Vec<u32>>,
    params: &Params,
    flags: &Flags,
    times: &mut Times,
) -> (String, Vec<u8>) {
    let n = metric.size();
    let as_given: Vec<u32> = (0..n as u32).collect();
    let near = near_lists(metric, n.min(params.max_candidates as usize + 1) - 1);
    times.end("near");
    let fixed = given.or_else(|| params.savings.then(|| routes::savings_tour(metric, &near)));
    let nearest = if fixed.is_some() { None } else { Some(Nearest::new(metric)) };
    let trials = if n < 8 { 1 } else { params.max_trials.unwrap_or(n as u32) };
    let mut out = String::new();
    let mut best: Option<(i64, Vec<u32>)> = None;
    for j in 0..params.runs {
        let start = match (&fixed, &nearest) {
            (Some(start), _) => start.clone(),
            (_, Some(nearest)) => nearest.tour(j % n as u32),
            _ => unreachable!(),
        };
        times.end("start");
        let order = if flags.as_given { &as_given } else { &start };
        let (tour, t) = search::search(metric, &near, params, &start, order, trials, params.seed as u64 + j as u64);
        times.end("search");
        writeln!(out, "run {}: {t}", j + 1).unwrap();
        if best.as_ref().is_none_or(|b| t.best < b.0) {
            best = Some((t.best, tour));
        }
    }
    let (length, tour) = best.unwrap();
    writeln!(out, "best {length}").unwrap();
    (out, tour_text(name, length, &tour))
}

fn tour_text(name: &[u8], length: i64, tour: &[u32]) -> Vec<u8> {
    let mut file = [b"NAME : ", name, format!(".{length}.tour\nCOMMENT : Length = {length}\n").as_bytes()].concat();
    write!(file, "TYPE : TOUR\nDIMENSION : {}\nTOUR_SECTION\n", tour.len()).unwrap();
    for city in Tour::printed(tour) {
        writeln!(file, "{}", city + 1).unwrap();
    }
    file.extend_from_slice(b"-1\nEOF\n");
    file
}

fn solve_routes<M: Metric>(metric: &M, routing: &Routing, params: &Params, times: &mut Times) -> (String, Vec<u8>) {
    let r = routes::solve(metric, routing, params.max_candidates as usize, params.or_segment);
    times.end("routes");
    let (counts, cost) = (r.counts, r.cost);
    let out = format!(
        "savings {}, routes {}\nimproved {cost}, moves {}, tests {}, swaps {}\nbest {cost}\n",
        r.saved,
        r.routes.len(),
        counts.moves,
        counts.tests,
        r.swaps
    );
    (out, solution_text(routing, &r.routes, cost))
}

fn solution_text(routing: &Routing, routes: &[Vec<u32>], cost: i64) -> Vec<u8> {
    let mut file = vec![];
    for (k, route) in routes.iter().enumerate() {
        write!(file, "Route #{}:", k + 1).unwrap();
        for node in route {
            write!(file, " {}", node + (*node < routing.depot) as u32).unwrap();
        }
        file.push(b'\n');
    }
    writeln!(file, "Cost {cost}").unwrap();
    file
}

fn solve_between<M: Metric>(metric: &M, routing: &Routing, params: &Params, times: &mut Times) -> (String, Vec<u8>) {
    let (start, candidates) = between::ladder(metric, routing);
    times.end("start");
    let runs = between::runs(metric, routing, params, &start);
    times.end("search");
    let mut out = format!("savings {}, routes {}, candidates {candidates}\n", start.cost, start.routes.len());
    for (j, run) in runs.iter().enumerate() {
        let (found, count) = (&run.found, run.found.routes.len());
        write!(out, "run {}: start {}, best {}, routes {count}, ", j + 1, run.start, found.cost).unwrap();
        writeln!(out, "trials {}, moves {}, tests {}, swaps {}", run.trials, run.moves, run.tests, run.swaps).unwrap();
    }
    let best = [&start].into_iter().chain(runs.iter().map(|run| &run.found)).min_by_key(|found| found.cost).unwrap();
    writeln!(out, "best {}, routes {}", best.cost, best.routes.len()).unwrap();
    (out, solution_text(routing, &best.routes, best.cost))
}

fn main() {
    let words: Vec<String> = std::env::args().skip(1).collect();
    let (parameter_file, flags) = match &words[..] {
        [command, file, rest @ ..] if command == "solve" => {
            let has = |flag: &str| rest.iter().any(|word| word == flag);
            let same = has("--same-method");
            (file, Flags { times: has("--times"), as_given: same || has("--as-given"), whole: same || has("--whole"), same_method: same })
        }
        _ => fail(2, "usage: baseline solve PAR|CVRP [OPTIONS]".to_string()),
    };
    let mut times = Times { begin: Instant::now(), parts: vec![] };
    let options = params::read_options(parameter_file, &words[2..]).unwrap_or_else(|what| fail(2, what));
    let read = options.unwrap_or_else(|| accepted(parameter_file, params::read_params(&text_of(parameter_file))));
    let params = Params { same_method: flags.same_method, ..read };
    let name = &params.problem_file;
    let Problem { name: title, n, weights, routing } = accepted(name, text::read_problem(&text_of(name)));
    let unfit = [
        ("TOUR_FILE", &params.tour_file, routing.is_some()),
        ("INITIAL_TOUR_FILE", &params.initial_tour_file, routing.is_some()),
        ("SOLUTION_FILE", &params.solution_file, routing.is_none()),
    ];
    if let Some((key, ..)) = unfit.iter().find(|(_, file, wrong)| file.is_some() && *wrong) {
        fail(2, format!("{name}: {key} does not fit the problem's type"));
    }
    let given = params.initial_tour_file.as_ref().map(|file| initial(file, n));
    times.end("read");
    let (lines, file) = with_metric!(weights, n, flags.whole, metric => match &routing {
        None => solve_tour(&metric, &title, given, &params, &flags, &mut times),
        Some(routing) if params.between => solve_between(&metric, routing, &params, &mut times),
        Some(routing) => solve_routes(&metric, routing, &params, &mut times),
    });
    let ignored: String = params.ignored.iter().map(|key| format!("ignored {key}\n")).collect();
    let written = std::io::stdout().write_all((ignored + &lines).as_bytes());
    if written.is_err() {
        fail(3, "write fault".to_string());
    }
    create(if routing.is_some() { &params.solution_file } else { &params.tour_file }, &file);
    times.end("write");
    if flags.times {
        times.tell(if n < 8 { 0 } else { params.runs as u64 * params.max_trials.unwrap_or(n as u32) as u64 });
    }
}
