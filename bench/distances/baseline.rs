//! Distances in plain Rust, with the square root of the floating-point unit: exact ones, and for comparison the usual ones without a
//! test that they are exact (`naive`).
use std::hint::black_box;
use std::time::Instant;

const UNIT: i64 = 1_000_000_000;

fn next(state: &mut u64) -> u64 {
    *state = state
        .wrapping_mul(6_364_136_223_846_793_005)
        .wrapping_add(1_442_695_040_888_963_407);
    *state >> 11
}

fn coordinate(state: &mut u64, span: i64, unit: i64) -> i64 {
    let most = (span * (UNIT / unit)) as u64;
    let drawn = next(state).wrapping_mul(2_048) % (2 * most + 1);
    (drawn as i64 - most as i64) * unit
}

// ---- whole coordinates

type Whole = (i32, i32);

#[inline]
fn whole_square(a: Whole, b: Whole) -> u64 {
    let x = a.0 as i64 - b.0 as i64;
    let y = a.1 as i64 - b.1 as i64;
    (x * x + y * y) as u64
}

#[inline]
fn whole_naive(a: Whole, b: Whole) -> i64 {
    ((whole_square(a, b) as i64 as f64).sqrt() + 0.5) as i64
}

#[inline]
fn whole_exact(a: Whole, b: Whole) -> i64 {
    let square = whole_square(a, b);
    let guess = ((square as i64 as f64).sqrt() + 0.5) as u64;
    let middle = guess * guess;
    if middle < square + guess.max(1) && square <= middle + guess {
        guess as i64
    } else {
        whole_searched(square)
    }
}

#[cold]
#[inline(never)]
fn whole_searched(square: u64) -> i64 {
    let root = square.isqrt();
    (if root * root + root < square { root + 1 } else { root }) as i64
}

#[inline]
fn whole_up(square: u64, parts: u64) -> i64 {
    let guess = (square as i64 as f64 / parts as f64).sqrt().ceil() as u64;
    if square <= parts * guess * guess && (guess == 0 || parts * (guess - 1) * (guess - 1) < square) {
        guess as i64
    } else {
        whole_up_searched(square, parts)
    }
}

#[cold]
#[inline(never)]
fn whole_up_searched(square: u64, parts: u64) -> i64 {
    let part = square.div_ceil(parts);
    let root = part.isqrt();
    (if root * root < part { root + 1 } else { root }) as i64
}

#[inline]
fn whole_ceiling(a: Whole, b: Whole) -> i64 {
    whole_up(whole_square(a, b), 1)
}

#[inline]
fn whole_att(a: Whole, b: Whole) -> i64 {
    whole_up(whole_square(a, b), 10)
}

// ---- whole numbers of a unit, of which `units` make one

#[inline]
fn unit_exact(a: Whole, b: Whole, units: u64) -> i64 {
    let square = whole_square(a, b);
    let guess = ((square as i64 as f64).sqrt() / units as f64 + 0.5) as u64;
    if half_reaches(square, guess, units) && !half_reaches(square, guess + 1, units) {
        guess as i64
    } else {
        unit_searched(square, guess, units)
    }
}

/// Whether d less a half is at most the root of the square.
#[inline]
fn half_reaches(square: u64, d: u64, units: u64) -> bool {
    let twice = ((2 * d).saturating_sub(1) * units) as u128;
    twice * twice <= 4 * square as u128
}

#[cold]
#[inline(never)]
fn unit_searched(square: u64, guess: u64, units: u64) -> i64 {
    let mut d = guess + 2;
    while !half_reaches(square, d, units) {
        d -= 1;
    }
    d as i64
}

// ---- nine decimals

type Fine = (i64, i64);

const SCALE: u64 = 1_000_000_000;
const HALF: u64 = 500_000_000;

#[inline]
fn fine_square(a: Fine, b: Fine) -> (u128, f64) {
    let x = a.0 - b.0;
    let y = a.1 - b.1;
    let square = (x as i128 * x as i128 + y as i128 * y as i128) as u128;
    let (x, y) = (x as f64, y as f64);
    (square, x * x + y * y)
}

#[inline]
fn fine_naive(a: Fine, b: Fine) -> i64 {
    (fine_square(a, b).1.sqrt() * 1e-9 + 0.5) as i64
}

#[inline]
fn fine_exact(a: Fine, b: Fine) -> i64 {
    let (square, near) = fine_square(a, b);
    let guess = (near.sqrt() * 1e-9 + 0.5) as u64;
    let middle = guess * SCALE;
    let low = middle.saturating_sub(HALF) as u128;
    let high = (middle + HALF) as u128;
    if low * low <= square && square < high * high {
        guess as i64
    } else {
        fine_searched(square)
    }
}

#[cold]
#[inline(never)]
fn fine_searched(square: u128) -> i64 {
    let root = square.isqrt() as u64;
    ((root / HALF + 1) / 2) as i64
}

#[inline]
fn covers(units: u64, parts: u64, square: u128) -> bool {
    let length = (units * SCALE) as u128;
    square <= parts as u128 * (length * length)
}

#[inline]
fn fine_up(square: u128, near: f64, parts: u64) -> i64 {
    let guess = ((near / parts as f64).sqrt() * 1e-9).ceil() as u64;
    if covers(guess, parts, square) && (guess == 0 || !covers(guess - 1, parts, square)) {
        guess as i64
    } else {
        fine_up_searched(square, parts)
    }
}

#[cold]
#[inline(never)]
fn fine_up_searched(square: u128, parts: u64) -> i64 {
    let part = square.div_ceil(parts as u128);
    let root = part.isqrt();
    let root = if root * root < part { root + 1 } else { root };
    root.div_ceil(SCALE as u128) as i64
}

#[inline]
fn fine_ceiling(a: Fine, b: Fine) -> i64 {
    let (square, near) = fine_square(a, b);
    fine_up(square, near, 1)
}

#[inline]
fn fine_att(a: Fine, b: Fine) -> i64 {
    let (square, near) = fine_square(a, b);
    fine_up(square, near, 10)
}

// ---- timing

/// How many places there are. Distances are measured between places that are fewer than `steps` apart in their list.
#[derive(Clone, Copy)]
struct Sizes {
    places: usize,
    steps: usize,
}

fn time<P: Copy>(name: &str, span: i64, steps: usize, places: &[P], dist: impl Fn(P, P) -> i64) {
    let mut best = u128::MAX;
    let mut sum = 0u64;
    for _ in 0..7 {
        let start = Instant::now();
        sum = 0;
        for step in 1..steps {
            let step = black_box(step);
            for a in 0..places.len() - step {
                sum = sum.wrapping_add(dist(places[a], places[a + step]) as u64);
            }
        }
        best = best.min(start.elapsed().as_nanos());
        black_box(sum);
    }
    let pairs = (places.len() - steps / 2) * (steps - 1);
    println!("{name} {span} {sum} {}", best * 1_000 / pairs as u128);
}

/// Coordinates that are whole numbers of a unit, in 32 bits where these are enough.
fn time_units(name: &str, span: i64, sizes: Sizes, units: i64) {
    let unit = UNIT / units;
    let mut state = 42;
    let fine: Vec<Fine> =
        (0..sizes.places).map(|_| (coordinate(&mut state, span, unit), coordinate(&mut state, span, unit))).collect();
    if span * units > UNIT {
        return time(name, span, sizes.steps, &fine, fine_exact);
    }
    let places: Vec<Whole> = fine.iter().map(|(x, y)| ((x / unit) as i32, (y / unit) as i32)).collect();
    time(name, span, sizes.steps, &places, |a, b| unit_exact(a, b, units as u64));
}

/// Whether a call asks for the small run, whose results are those of `tk_calls`'s small run.
fn is_small() -> bool {
    std::env::args().any(|word| word == "small")
}

fn main() {
    let (spans, sizes): (&[i64], Sizes) = if is_small() {
        (&[10, 1_000_000, 1_000_000_000], Sizes { places: 60, steps: 10 })
    } else {
        (&[10, 1_000, 1_000_000, 100_000_000, 1_000_000_000], Sizes { places: 4_200, steps: 200 })
    };
    for &span in spans {
        let mut state = 42;
        let whole: Vec<Whole> = (0..sizes.places)
            .map(|_| {
                let x = coordinate(&mut state, span, UNIT) / UNIT;
                let y = coordinate(&mut state, span, UNIT) / UNIT;
                (x as i32, y as i32)
            })
            .collect();
        let mut state = 42;
        let fine: Vec<Fine> = (0..sizes.places)
            .map(|_| {
                let x = coordinate(&mut state, span, 1);
                let y = coordinate(&mut state, span, 1);
                (x, y)
            })
            .collect();
        time("EUC_2D/whole", span, sizes.steps, &whole, whole_exact);
        time_units("EUC_2D/tenths", span, sizes, 10);
        time_units("EUC_2D/thousandths", span, sizes, 1_000);
        time("EUC_2D/decimals", span, sizes.steps, &fine, fine_exact);
        time("CEIL_2D/whole", span, sizes.steps, &whole, whole_ceiling);
        time("CEIL_2D/decimals", span, sizes.steps, &fine, fine_ceiling);
        time("ATT/whole", span, sizes.steps, &whole, whole_att);
        time("ATT/decimals", span, sizes.steps, &fine, fine_att);
        time("naive/whole", span, sizes.steps, &whole, whole_naive);
        time("naive/decimals", span, sizes.steps, &fine, fine_naive);
    }
}
