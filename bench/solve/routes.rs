//! The savings algorithm (G. Clarke and J. W. Wright, 1964), and the improvement of each route on its own.

use crate::descent::{Counts, Free, Rules, Waking};
use crate::metric::{Metric, Number};
use crate::near::{Near, Neighbour, near_lists};
use crate::text::Routing;
use crate::store::Store;
use crate::tour::Tour;

/// The pairs of cities but the hub of which one is near the other, where they save anything: the greatest saving first, then by number.
fn pairs<M: Metric>(metric: &M, hub: u32, near: &Near) -> Vec<(u32, u32)> {
    let n = metric.size() as u32;
    let to_hub: Vec<i64> = (0..n).map(|c| metric.dist(hub, c).whole()).collect();
    let mut keys = Vec::with_capacity(n as usize * near.width);
    for a in (0..n).filter(|a| *a != hub) {
        for &Neighbour { city: b, distance } in near.of(a) {
            if b == hub || b < a && near.of(b).iter().any(|c| c.city == a) {
                continue;
            }
            let saving = to_hub[a as usize] + to_hub[b as usize] - distance as i64;
            if saving > 0 {
                keys.push((u64::MAX - saving as u64, (a.min(b) as u64) << 32 | a.max(b) as u64));
            }
        }
    }
    keys.sort_unstable();
    keys.iter().map(|key| ((key.1 >> 32) as u32, key.1 as u32)).collect()
}

const NONE: u32 = u32::MAX;

/// Paths of joints: for each end of one its other end and the load; the joined neighbours of each city.
struct Paths {
    other: Vec<u32>,
    load: Vec<u64>,
    joints: Vec<[u32; 2]>,
}

impl Paths {
    fn new(loads: &[u32]) -> Paths {
        Paths {
            other: (0..loads.len() as u32).collect(),
            load: loads.iter().map(|l| *l as u64).collect(),
            joints: vec![[NONE; 2]; loads.len()],
        }
    }

    fn is_end(&self, c: u32) -> bool {
        self.joints[c as usize][1] == NONE
    }

    fn join(&mut self, i: u32, j: u32, capacity: u64) {
        let load = self.load[i as usize] + self.load[j as usize];
        if !self.is_end(i) || !self.is_end(j) || self.other[i as usize] == j || load > capacity {
            return;
        }
        for (a, b) in [(i, j), (j, i)] {
            let joints = &mut self.joints[a as usize];
            joints[(joints[0] != NONE) as usize] = b;
        }
        let (a, b) = (self.other[i as usize], self.other[j as usize]);
        (self.other[a as usize], self.other[b as usize]) = (b, a);
        (self.load[a as usize], self.load[b as usize]) = (load, load);
    }

    /// The paths from their lesser ends on, in the order of these.
    fn lists(&self, hub: u32) -> Vec<Vec<u32>> {
        let mut lists = vec![];
        for end in 0..self.other.len() as u32 {
            if end == hub || !self.is_end(end) || self.other[end as usize] < end {
                continue;
            }
            let mut list = vec![end];
            let (mut before, mut city) = (end, self.joints[end as usize][0]);
            while city != NONE {
                list.push(city);
                let [a, b] = self.joints[city as usize];
                (before, city) = (city, if a == before { b } else { a });
            }
            lists.push(list);
        }
        lists
    }
}

pub fn savings_lists<M: Metric>(metric: &M, hub: u32, loads: &[u32], capacity: u64, near: &Near) -> Vec<Vec<u32>> {
    let mut paths = Paths::new(loads);
    for (i, j) in pairs(metric, hub, near) {
        paths.join(i, j, capacity);
    }
    paths.lists(hub)
}

pub fn savings_tour<M: Metric>(metric: &M, near: &Near) -> Vec<u32> {
    let lists = savings_lists(metric, 0, &vec![0; metric.size()], 0, near);
    [0].into_iter().chain(lists.into_iter().flatten()).collect()
}

pub struct Improved {
    pub routes: Vec<Vec<u32>>,
    pub saved: i64,
    pub cost: i64,
    pub counts: Counts,
    pub swaps: u64,
}

/// The routes of the savings merges, each then improved by itself.
pub fn solve<M: Metric>(metric: &M, routing: &Routing, max_candidates: usize, m: u32) -> Improved {
    let near = near_lists(metric, max_candidates.min(metric.size() - 1));
    let mut routes = savings_lists(metric, routing.depot, &routing.demand, routing.capacity, &near);
    let (mut counts, mut swaps, mut saved) = (Counts::default(), 0, 0);
    for route in &mut routes {
        let cities: Vec<u32> = [routing.depot].iter().chain(route.iter()).copied().collect();
        saved += metric.length(&cities);
        let alone = metric.among(&cities);
        let near = near_lists(&alone, max_candidates.min(route.len()));
        let places: Vec<u32> = (0..cities.len() as u32).collect();
        let mut tour = Store::new(&places);
        let mut waking = Waking::new(cities.len());
        waking.wake_all(&places);
        let one = Rules::new(Free, &alone, &near, m, &places, false).descend(&mut tour, &mut waking);
        counts.moves += one.moves;
        counts.tests += one.tests;
        counts.gained += one.gained;
        swaps += tour.swaps;
        *route = Tour::printed(&tour.cities())[1..].iter().map(|k| cities[*k as usize]).collect();
        if route[0] > route[route.len() - 1] {
            route.reverse();
        }
    }
    Improved { routes, saved, cost: saved - counts.gained, counts, swaps }
}
