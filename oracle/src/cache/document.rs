//! Document 01's cases, and a case against each wrong reading that it lists.

use super::call::Call;
use super::limits::{Areas, Limits};

const AREAS: Areas = Areas { bytes: 16_384, words: 4_096 };

pub fn limits(templates: u64, bodies: u64, entry: u64, total: u64, ttl: Option<u64>) -> Limits {
    Limits { templates, bodies, entry, total, ttl }
}

fn open(limits: Limits) -> Call {
    Call::Open { limits, areas: AREAS }
}

fn offer(id: u16, length: u64, clock: u64) -> Call {
    Call::Offer { id, length, clock }
}

fn drain(id: u16, clock: u64) -> Call {
    Call::Drain { id, clock }
}

fn put_back(id: u16, n: u64) -> Call {
    Call::PutBack { id, n }
}

fn would_accept(id: u16, length: u64, clock: u64) -> Call {
    Call::WouldAccept { id, length, clock }
}

fn read(number: u64) -> Call {
    Call::ReadHandedOut { number }
}

/// The lists, each beginning with an opening that is accepted.
pub fn lists() -> Vec<Vec<Call>> {
    let mut lists = vec![
        first_case(),
        no_does_not_bind(),
        evictions_before_pruning(),
        full_without_promotion(),
        age_equal_to_the_ttl(),
        last_bodies_once(),
        what_leaves_the_chance(),
        size_before_cap(),
        clear_leaves_the_counters(),
        refused_openings(),
    ];
    lists.extend(endings_of_the_chance());
    lists.extend(where_the_original_loses_a_body());
    lists
}

fn first_case() -> Vec<Call> {
    vec![
        open(limits(2, 2, 10, 16, Some(100))),
        offer(300, 6, 0),
        offer(301, 8, 1),
        offer(300, 4, 2),
        offer(302, 4, 3),
        offer(300, 1, 4),
        offer(300, 1, 5),
        would_accept(300, 1, 102),
        offer(300, 1, 102),
        drain(300, 104),
    ]
}

fn no_does_not_bind() -> Vec<Call> {
    vec![
        open(limits(1, 1, 10, 10, None)),
        offer(300, 6, 0),
        would_accept(300, 5, 1),
        offer(300, 5, 1),
    ]
}

/// The expired body of 300 does not save 301.
fn evictions_before_pruning() -> Vec<Call> {
    vec![
        open(limits(2, 2, 10, 10, Some(100))),
        offer(301, 4, 50),
        offer(300, 6, 1),
        offer(300, 5, 101),
    ]
}

/// 300 is still the least recent after 20, and goes.
fn full_without_promotion() -> Vec<Call> {
    vec![
        open(limits(2, 1, 10, 20, None)),
        offer(300, 1, 0),
        offer(301, 1, 1),
        offer(300, 1, 2),
        offer(302, 1, 3),
    ]
}

fn age_equal_to_the_ttl() -> Vec<Call> {
    vec![
        open(limits(1, 1, 10, 10, Some(100))),
        offer(300, 1, 0),
        would_accept(300, 2, 99),
        would_accept(300, 2, 100),
        offer(300, 2, 100),
    ]
}

fn last_bodies_once() -> Vec<Call> {
    vec![
        open(limits(2, 3, 10, 20, None)),
        offer(300, 1, 1),
        offer(300, 2, 2),
        offer(300, 3, 3),
        drain(300, 4),
        read(1),
        read(3),
        put_back(301, 1),
        put_back(300, 4),
        put_back(300, 0),
        put_back(300, 2),
        put_back(300, 1),
    ]
}

/// 6, a refused resize, a refused opening and queries. Then 20, which ends it.
fn what_leaves_the_chance() -> Vec<Call> {
    vec![
        open(limits(2, 1, 2, 4, None)),
        offer(300, 1, 0),
        offer(301, 1, 0),
        drain(300, 0),
        offer(300, 3, 0),
        Call::Resize(limits(2, 1, 2, 1, None)),
        Call::Resize(limits(2, 1, 2, 16_385, None)),
        open(limits(0, 1, 2, 4, None)),
        would_accept(300, 1, 0),
        put_back(300, 1),
        drain(300, 0),
        offer(301, 1, 0),
        put_back(300, 1),
    ]
}

fn endings_of_the_chance() -> impl Iterator<Item = Vec<Call>> {
    let endings = [
        offer(301, 1, 0),
        drain(301, 0),
        drain(302, 0),
        Call::Resize(limits(2, 2, 2, 4, None)),
        Call::Clear,
        put_back(300, 1),
    ];
    endings.into_iter().map(|ending| {
        let opening = open(limits(2, 2, 2, 4, None));
        vec![opening, offer(300, 1, 0), offer(301, 1, 0), drain(300, 0), ending, put_back(300, 1)]
    })
}

/// The smallest inputs of `faults.rs`: a put-back there is 25, and nothing changes.
fn where_the_original_loses_a_body() -> [Vec<Call>; 6] {
    let refilled = [offer(300, 1, 0), drain(300, 0), offer(301, 1, 0), put_back(300, 1)];
    [
        vec![
            open(limits(1, 1, 1, 1, None)),
            offer(300, 0, 0),
            drain(300, 0),
            offer(300, 0, 0),
            put_back(300, 1),
        ],
        vec![
            open(limits(1, 1, 2, 2, None)),
            offer(300, 2, 0),
            drain(300, 0),
            offer(300, 1, 0),
            put_back(300, 1),
        ],
        [&[open(limits(1, 1, 1, 1, None))], &refilled[..]].concat(),
        [&[open(limits(2, 1, 1, 1, None))], &refilled[..]].concat(),
        vec![
            open(limits(1, 2, 2, 2, None)),
            offer(300, 2, 0),
            offer(300, 0, 0),
            drain(300, 0),
            Call::Resize(limits(1, 1, 1, 1, None)),
            put_back(300, 2),
        ],
        vec![
            open(limits(2, 1, 1, 1, None)),
            offer(300, 0, 0),
            offer(301, 1, 0),
            drain(300, 0),
            put_back(301, 1),
        ],
    ]
}

/// And the new TTL drops nothing.
fn size_before_cap() -> Vec<Call> {
    vec![
        open(limits(2, 2, 2, 4, None)),
        offer(300, 1, 0),
        offer(300, 2, 1),
        Call::Resize(limits(2, 1, 1, 4, Some(0))),
    ]
}

fn clear_leaves_the_counters() -> Vec<Call> {
    vec![open(limits(1, 1, 2, 4, None)), offer(300, 1, 0), offer(300, 3, 0), Call::Clear]
}

/// In order, and on both sides of what the areas hold: 64 + 8 + 4 × 1,006 is 4,096.
fn refused_openings() -> Vec<Call> {
    vec![
        open(limits(1, 1_006, 5, 16_384, None)),
        open(limits(0, 0, 0, 0, None)),
        open(limits(1, 0, 0, 0, None)),
        open(limits(1, 1, 0, 0, None)),
        open(limits(1, 1, 65_532, 0, None)),
        open(limits(1, 1, 5, 4, None)),
        open(limits(1_025, 1, 5, 5, None)),
        open(limits(u64::MAX, u64::MAX, 5, u64::MAX, None)),
        open(limits(1, 1, 5, 16_385, None)),
        open(limits(1, 1_007, 5, 16_384, None)),
    ]
}

#[cfg(test)]
mod tests {
    use super::*;
    use crate::cache::run::Run;

    /// Answers by number, or by value beside 0; held ids with the lengths of their bodies, least
    /// recent first; bodies, byte total, both counters.
    type Outcome = (Vec<u64>, Vec<(u16, Vec<usize>)>, [u64; 4]);

    fn outcome(calls: Vec<Call>) -> Outcome {
        let mut run = Run::open(&calls[0]).expect("legal limits");
        let answers = calls[1..].iter().map(|call| {
            let answer = run.call(call);
            u64::from(answer.number) + answer.value
        });
        let answers = answers.collect();
        let state = run.cache.state();
        let held = state.held.iter().map(|template| {
            (template.id, template.bodies.iter().map(|body| body.bytes.len()).collect())
        });
        let figures = [state.bodies(), state.bytes, state.cached, state.dropped];
        (answers, held.collect(), figures)
    }

    #[test]
    fn cases() {
        let (answers, held, figures) = outcome(first_case());
        assert_eq!(answers, [0, 0, 0, 0, 0, 20, 1, 0, 1]);
        assert_eq!((held, figures), (vec![(302, vec![4])], [1, 4, 6, 5]));
        let (answers, held, _) = outcome(no_does_not_bind());
        assert_eq!((answers, held), (vec![0, 0, 0], vec![(300, vec![5])]));
    }

    #[test]
    fn pendlist() {
        let mut calls = first_case();
        calls.truncate(4);
        assert_eq!(outcome(calls[..2].to_vec()).2, [1, 6, 1, 0]);
        assert_eq!(outcome(calls[..3].to_vec()).2, [2, 14, 2, 0]);
        assert_eq!(outcome(calls.clone()).2, [2, 12, 3, 1]);
        calls.push(drain(301, 3));
        let (answers, _, figures) = outcome(calls);
        assert_eq!((answers, figures), (vec![0, 0, 0, 1], [1, 4, 3, 1]));
    }

    #[test]
    fn wrong_readings() {
        assert_eq!(outcome(evictions_before_pruning()).1, [(300, vec![5])]);
        let (answers, held, _) = outcome(full_without_promotion());
        assert_eq!(answers, [0, 0, 20, 0]);
        assert_eq!(held, [(301, vec![1]), (302, vec![1])]);
        let (answers, held, _) = outcome(age_equal_to_the_ttl());
        assert_eq!((answers, held), (vec![0, 0, 1, 0], vec![(300, vec![2])]));
    }

    #[test]
    fn chances() {
        let (answers, held, figures) = outcome(last_bodies_once());
        assert_eq!(answers, [0, 0, 0, 3, 2, 27, 25, 25, 0, 0, 25]);
        assert_eq!((held, figures), (vec![(300, vec![2, 3])], [2, 5, 3, 0]));
        let (answers, ..) = outcome(what_leaves_the_chance());
        assert_eq!(answers, [0, 0, 1, 6, 4, 5, 1, 1, 0, 1, 20, 25]);
        for calls in endings_of_the_chance() {
            assert_eq!(outcome(calls).0.last(), Some(&25));
        }
    }

    #[test]
    fn other_calls() {
        let (answers, held, figures) = outcome(size_before_cap());
        assert_eq!(answers, [0, 0, 1]);
        assert_eq!((held, figures), (vec![(300, vec![1])], [1, 1, 2, 1]));
        assert_eq!(outcome(clear_leaves_the_counters()).2, [0, 0, 1, 1]);
        assert_eq!(outcome(refused_openings()).0, [1, 2, 3, 3, 4, 5, 5, 5, 5]);
    }
}
