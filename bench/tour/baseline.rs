//! Swaps of two cities of a tour, in plain Rust.
use std::time::Instant;

struct ArrayTour {
    order: Vec<u32>,
    place: Vec<u32>,
    swaps: u64,
    flips: u64,
}

fn reverse_places(order: &mut [u32], place: &mut [u32], first: usize, count: usize) {
    let n = order.len();
    let mut low = first;
    let mut high = if count < n - first { first + count } else { first + count - n };
    for _ in 0..count / 2 {
        high = if high == 0 { n - 1 } else { high - 1 };
        let x = order[low];
        let y = order[high];
        order[low] = y;
        order[high] = x;
        place[y as usize - 1] = low as u32;
        place[x as usize - 1] = high as u32;
        low = if low + 1 == n { 0 } else { low + 1 };
    }
}

impl ArrayTour {
    fn new(n: u32) -> ArrayTour {
        ArrayTour { order: (1..=n).collect(), place: (0..n).collect(), swaps: 0, flips: 0 }
    }

    fn place_of(&self, c: u32) -> usize {
        self.place[c as usize - 1] as usize
    }

    fn next(&self, c: u32) -> u32 {
        let k = self.place_of(c);
        if k + 1 == self.order.len() { self.order[0] } else { self.order[k + 1] }
    }

    fn shorter_side(&self, b: u32, c: u32, d: u32) -> (usize, usize) {
        let n = self.order.len();
        let start = self.place_of(b);
        let end = self.place_of(c);
        let inner = if start <= end { end - start + 1 } else { end + n - start + 1 };
        if inner <= n - inner { (start, inner) } else { (self.place_of(d), n - inner) }
    }

    fn flip(&mut self, a: u32, b: u32, c: u32, d: u32) -> (u32, u32) {
        let (first, count) = if self.next(a) == b && self.next(c) == d {
            self.shorter_side(b, c, d)
        } else {
            self.shorter_side(c, b, a)
        };
        reverse_places(&mut self.order, &mut self.place, first, count);
        self.swaps = self.swaps.saturating_add(count as u64 / 2);
        self.flips = self.flips.saturating_add(1);
        (first as u32 + 1, count as u32)
    }
}

fn drawn(state: &mut u64, n: u32) -> u32 {
    *state = state.wrapping_mul(6364136223846793005).wrapping_add(1442695040888963407);
    ((*state >> 33) % n as u64) as u32 + 1
}

fn flip_often(tour: &mut ArrayTour, flips: u32) -> u32 {
    let n = tour.order.len() as u32;
    let mut state = 1;
    for _ in 0..flips {
        let a = drawn(&mut state, n);
        let c = drawn(&mut state, n);
        if a != c {
            let b = tour.next(a);
            let d = tour.next(c);
            let _ = tour.flip(a, b, c, d);
        }
    }
    tour.next(1)
}

/// Whether a call asks for the small run, whose results are those of `tk_calls`'s small run.
fn is_small() -> bool {
    std::env::args().any(|word| word == "small")
}

fn main() {
    let sizes: &[(u32, u32)] = if is_small() { &[(100, 1000)] } else { &[(1000, 400000), (100000, 4000)] };
    for &(n, flips) in sizes {
        let mut tour = ArrayTour::new(n);
        let begin = Instant::now();
        let after = flip_often(&mut tour, flips);
        let took = begin.elapsed();
        println!("{n} {} {} {}", tour.swaps, took.as_nanos(), after);
    }
}
