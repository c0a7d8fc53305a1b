//! `tourkit check` in plain Rust: it reads the same files, with the same checks, and prints the same line.
//!
//! usage: baseline check PROBLEM TOUR
//!        baseline instances DIR [DIVISOR]
//!
//! The second form writes the problems that run.sh reads, each NAME.tsp with a tour NAME.tour, to a directory. Their sizes are divided by
//! DIVISOR.

#[allow(dead_code)]
#[path = "../solve/text.rs"]
mod text;

use std::fmt::Write as _;
use std::process::exit;
use text::{Problem, UNIT, Weights};

/// Ends the program with one line on standard error.
fn fail(status: i32, what: String) -> ! {
    eprintln!("tourkit: {what}");
    exit(status)
}

fn text_of(name: &str) -> Vec<u8> {
    std::fs::read(name).unwrap_or_else(|_| fail(3, format!("{name}: cannot be opened")))
}

fn accepted<T>(name: &str, read: Result<T, text::Fault>) -> T {
    read.unwrap_or_else(|(line, what)| fail(2, format!("{name}:{line}: {what}")))
}

/// The cities from 0, where each comes once.
fn cities_of(n: usize, tour: &[u32]) -> Option<Vec<u32>> {
    let mut seen = vec![false; n];
    for &city in tour {
        let seen = seen.get_mut((city as usize).checked_sub(1)?)?;
        if std::mem::replace(seen, true) {
            return None;
        }
    }
    (tour.len() == n).then(|| tour.iter().map(|city| city - 1).collect())
}

/// The distance of two cities: the weight of a matrix, or EUC_2D.
fn distance(problem: &Problem, a: u32, b: u32) -> i64 {
    let (a, b) = (a.max(b) as usize, a.min(b) as usize);
    match &problem.weights {
        Weights::Lower(lower) => lower[a * (a - 1) / 2 + b] as i64,
        Weights::Points(_, points) => {
            let (x, y) = ((points[a].0 - points[b].0) as f64, (points[a].1 - points[b].1) as f64);
            (x.hypot(y) / UNIT as f64 + 0.5) as i64
        }
    }
}

fn check(problem_name: &str, tour_name: &str) {
    let problem = accepted(problem_name, text::read_problem(&text_of(problem_name)));
    let tour = accepted(tour_name, text::read_tour(&text_of(tour_name)));
    let Some(cities) = cities_of(problem.n, &tour) else {
        fail(1, format!("{tour_name}: no tour"));
    };
    let next = cities.iter().cycle().skip(1);
    let length: i64 = cities.iter().zip(next).map(|(a, b)| distance(&problem, *a, *b)).sum();
    println!("tour of {} cities, length {length}", problem.n);
}

/// A congruential generator, so that the files are the same on every machine.
struct Draw(u64);

impl Draw {
    fn below(&mut self, bound: u64) -> u64 {
        self.0 = self.0.wrapping_mul(6364136223846793005).wrapping_add(1442695040888963407);
        (self.0 >> 33) % bound
    }
}

fn head(n: usize, weights: &str) -> String {
    format!("NAME : reading\nTYPE : TSP\nDIMENSION : {n}\n{weights}\n")
}

fn places(n: usize, mut coordinate: impl FnMut() -> String) -> String {
    let mut text = head(n, "EDGE_WEIGHT_TYPE : EUC_2D\nNODE_COORD_SECTION");
    for node in 1..=n {
        writeln!(text, "{node} {} {}", coordinate(), coordinate()).unwrap();
    }
    text + "EOF\n"
}

fn matrix(n: usize, format: &str, columns: impl Fn(usize) -> usize, weight: impl Fn(usize, usize) -> u64) -> String {
    let mut text = head(n, &format!("EDGE_WEIGHT_TYPE : EXPLICIT\nEDGE_WEIGHT_FORMAT : {format}\nEDGE_WEIGHT_SECTION"));
    for row in 0..n {
        for column in 0..columns(row) {
            let gap = if column + 1 == columns(row) { '\n' } else { ' ' };
            write!(text, "{}{gap}", if row == column { 0 } else { weight(row, column) }).unwrap();
        }
    }
    text + "EOF\n"
}

/// A weight of a pair of cities, of four digits or of one to six.
fn weight(row: usize, column: usize, digits: Option<u32>) -> u64 {
    let mut draw = Draw((row.max(column) * 100_000 + row.min(column)) as u64);
    let digits = digits.unwrap_or_else(|| 1 + draw.below(6) as u32);
    10u64.pow(digits - 1) + draw.below(9 * 10u64.pow(digits - 1))
}

fn instances(folder: &str, divisor: usize) {
    let mut draw = Draw(12345);
    let write = |name: &str, n: usize, problem: String| {
        let cities: String = (1..=n).map(|city| format!("{city}\n")).collect();
        let tour = format!("TYPE : TOUR\nTOUR_SECTION\n{cities}-1\nEOF\n");
        for (suffix, text) in [("tsp", problem), ("tour", tour)] {
            std::fs::write(format!("{folder}/{name}.{suffix}"), text).unwrap_or_else(|_| fail(3, format!("{folder}: cannot be written")));
        }
    };
    let (few, many) = (5000 / divisor, 100_000 / divisor);
    write(&format!("full{few}"), few, matrix(few, "FULL_MATRIX", |_| few, |a, b| weight(a, b, Some(4))));
    write(&format!("lower{few}"), few, matrix(few, "LOWER_DIAG_ROW", |row| row + 1, |a, b| weight(a, b, Some(4))));
    write(&format!("mixed{few}"), few, matrix(few, "LOWER_DIAG_ROW", |row| row + 1, |a, b| weight(a, b, None)));
    write(&format!("cities{many}"), many, places(many, || draw.below(1_000_001).to_string()));
    write(&format!("hundredths{many}"), many, places(many, || format!("{}.{:02}", draw.below(10_000), draw.below(100))));
    write(&format!("long{many}"), many, places(many, || format!("{}.{:06}", draw.below(10_000), draw.below(1_000_000))));
}

fn main() {
    let words: Vec<String> = std::env::args().skip(1).collect();
    match words.iter().map(String::as_str).collect::<Vec<_>>()[..] {
        ["check", problem, tour] => check(problem, tour),
        ["instances", folder] => instances(folder, 1),
        ["instances", folder, divisor] => instances(folder, divisor.parse().unwrap_or(1)),
        _ => fail(64, "usage: baseline check PROBLEM TOUR | baseline instances FOLDER [DIVISOR]".to_string()),
    }
}
