//! The search between routes: the customers and copies of the depot as one ring, descents with capacity, and trials that begin with kicks
//! and end by record-to-record travel (G. Dueck, 1993).

use crate::capacity::Capacity;
use crate::descent::{Rules, Waking};
use crate::metric::{Metric, Number};
use crate::near::{near_customers, near_lists};
use crate::params::Params;
use crate::routes::savings_lists;
use crate::search::Pcg32;
use crate::store::Store;
use crate::text::Routing;

/// The lengths of the near lists that savings routes are made with; the cheapest routes are taken.
const LADDER: [usize; 8] = [3, 5, 8, 12, 20, 32, 50, 100];
const MOST_DRAWS: u32 = 1_000;
const LONGEST_PART: u32 = 10;
const SPARE_FLIPS: u64 = 1_000;

/// Routes of nodes, and what they cost.
pub struct Routes {
    pub routes: Vec<Vec<u32>>,
    pub cost: i64,
}

pub struct Run {
    pub start: i64,
    pub found: Routes,
    pub trials: u32,
    pub moves: u64,
    pub tests: u64,
    pub swaps: u64,
}

/// The routes that the runs begin with, and the length of the near lists that they were made with.
pub fn ladder<M: Metric>(metric: &M, routing: &Routing) -> (Routes, usize) {
    let rungs = LADDER.map(|k| {
        let candidates = k.min(metric.size() - 1);
        let near = near_lists(metric, candidates);
        let routes = savings_lists(metric, routing.depot, &routing.demand, routing.capacity, &near);
        let cost = routes.iter().map(|route| metric.length(&[&[routing.depot], &route[..]].concat())).sum();
        (Routes { routes, cost }, candidates)
    });
    rungs.into_iter().min_by_key(|(found, _)| found.cost).unwrap()
}

struct Search<'a, M> {
    metric: &'a M,
    rules: Rules<'a, M, &'a Capacity<'a>>,
    vehicles: &'a Capacity<'a>,
    params: &'a Params,
    ring: Store,
    waking: Waking,
    best: Vec<u32>,
    cost: i64,
    run: Run,
}

impl<M: Metric> Search<'_, M> {
    /// Descends from a ring of this cost. Returns the cost then, and the number of flips.
    fn descend(&mut self, before: i64) -> (i64, u64) {
        let descend = if self.params.sweep { Rules::descend_swept } else { Rules::descend };
        let counts = descend(&self.rules, &mut self.ring, &mut self.waking);
        self.run.moves += counts.moves;
        self.run.tests += counts.tests;
        self.run.swaps = self.ring.swaps;
        (before - counts.gained, counts.flips)
    }

    /// The ends of the four parts of a kick after which the ring fits.
    fn draw(&self, rng: &mut Pcg32) -> Option<[u32; 8]> {
        let n = self.ring.size() as u32;
        let longest = LONGEST_PART.min((n - 1) / 3);
        for _ in 0..if n < 8 { 0 } else { MOST_DRAWS } {
            let first = rng.random_range(1..=n) - 1;
            let [b, c, d] = std::array::from_fn(|_| rng.random_range(1..=longest));
            let city = |k| self.ring.city_at(if first + k < n { first + k } else { first + k - n });
            let ends = [0, b - 1, b, b + c - 1, b + c, b + c + d - 1, b + c + d, n - 1].map(city);
            let parts = [0, 3, 2, 1].map(|k| self.vehicles.loads(&self.ring, ends[2 * k], ends[2 * k + 1]));
            if self.vehicles.fits(parts) {
                return Some(ends);
            }
        }
        None
    }

    /// Makes a kick, and returns the cost of the ring then.
    fn kick(&mut self, ends: [u32; 8]) -> i64 {
        let [a1, an, b1, bn, c1, cn, d1, dn] = ends;
        self.ring.flip(an, b1, dn, a1);
        self.ring.flip(an, dn, d1, cn);
        self.ring.flip(dn, cn, c1, bn);
        self.ring.flip(cn, bn, b1, a1);
        if !self.params.sweep {
            ends.iter().for_each(|c| self.waking.wake(*c));
        }
        let dist = |a, b| self.metric.dist(a, b).whole();
        let out = dist(an, b1) + dist(bn, c1) + dist(cn, d1) + dist(dn, a1);
        self.cost - out + dist(an, d1) + dist(dn, c1) + dist(cn, b1) + dist(bn, a1)
    }

    fn trial(&mut self, rng: &mut Pcg32, trials: u32) {
        self.run.trials += 1;
        let Some(ends) = self.draw(rng) else { return };
        let kicked = self.kick(ends);
        let (found, flips) = self.descend(kicked);
        let best = self.run.found.cost;
        let slack = best as i128 * 3 * (trials - self.run.trials) as i128 / (1_000 * trials as i128);
        let limit = best + slack as i64;
        if found < best {
            self.best = self.ring.cities();
            self.run.found.cost = found;
        }
        if found <= limit {
            self.cost = found;
            self.ring.settle();
        } else if self.cost <= limit && 4 + flips <= self.ring.size() as u64 + SPARE_FLIPS {
            self.ring.rewind();
        } else {
            self.cost = best;
            self.ring.take_order(&self.best);
        }
    }
}

/// The routes of a ring, each from its lesser end on, ordered by first customer.
fn routes_of(ring: &[u32], customers: usize) -> Vec<Vec<u32>> {
    let is_copy = |c: &u32| *c as usize >= customers;
    let behind = ring.iter().position(is_copy).unwrap() + 1;
    let elements = [&ring[behind..], &ring[..behind]].concat();
    let mut routes: Vec<Vec<u32>> = elements.split(is_copy).filter(|route| !route.is_empty()).map(<[u32]>::to_vec).collect();
    routes.iter_mut().filter(|route| route[0] > route[route.len() - 1]).for_each(|route| route.reverse());
    routes.sort_by_key(|route| route[0]);
    routes
}

/// The runs from some routes. Inside, the customers are numbered from 0 without the depot, and then its copies.
pub fn runs<M: Metric>(metric: &M, routing: &Routing, params: &Params, start: &Routes) -> Vec<Run> {
    let own: Vec<u32> = (0..metric.size() as u32).filter(|node| *node != routing.depot).collect();
    let customers = own.len();
    if customers < 2 {
        return vec![];
    }
    let nodes = [&own[..], &vec![routing.depot; start.routes.len() + 1]].concat();
    let metric = &metric.among(&nodes);
    let mut ring = vec![customers as u32];
    for (k, route) in start.routes.iter().enumerate() {
        ring.extend(route.iter().map(|node| node - (*node > routing.depot) as u32));
        ring.push((customers + k + 1) as u32);
    }
    let elements: Vec<u32> = (0..nodes.len() as u32).collect();
    let near = near_customers(metric, customers, customers.min(params.max_candidates as usize + 1) - 1);
    let demands: Vec<u32> = own.iter().map(|node| routing.demand[*node as usize]).collect();
    let vehicles = &Capacity { demands: &demands, capacity: routing.capacity };
    let trials = params.max_trials.unwrap_or(10 * (customers as u32 + 1));
    let run = |j| {
        let mut search = Search {
            metric,
            rules: Rules::new(vehicles, metric, &near, params.or_segment, &elements, params.same_method),
            vehicles,
            params,
            ring: Store::new(&ring),
            waking: Waking::new(ring.len()),
            best: vec![],
            cost: start.cost,
            run: Run { start: start.cost, found: Routes { routes: vec![], cost: 0 }, trials: 0, moves: 0, tests: 0, swaps: 0 },
        };
        search.ring.by_flips = params.same_method;
        search.waking.wake_all(&elements);
        (search.cost, _) = search.descend(start.cost);
        search.run.found.cost = search.cost;
        search.best = search.ring.cities();
        search.ring.settle();
        let mut rng = Pcg32::seed_from_u64(params.seed as u64 + j);
        (0..trials).for_each(|_| search.trial(&mut rng, trials));
        let routes = routes_of(&search.best, customers).into_iter();
        search.run.found.routes = routes.map(|route| route.iter().map(|c| own[*c as usize]).collect()).collect();
        search.run
    };
    (0..params.runs as u64).map(run).collect()
}
