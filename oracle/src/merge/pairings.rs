//! Pairings of candidates: by trying all of them, and by taking the candidates in order.
use std::cmp::Ordering;

/// A near pair: the index in the list named first, and in the other.
#[derive(Clone, Copy, Debug, PartialEq)]
pub struct Candidate {
    pub d2: f64,
    pub first: usize,
    pub second: usize,
}

impl Candidate {
    /// The nearer pair comes first, a zero's sign aside; of two that are as near, the one with the lower indices.
    fn order(&self, other: &Candidate) -> Ordering {
        let by_distance = self.d2.partial_cmp(&other.d2).expect("a candidate's d² is a number");
        by_distance.then(self.first.cmp(&other.first)).then(self.second.cmp(&other.second))
    }

    fn is_before(&self, other: &Candidate) -> bool {
        self.order(other) == Ordering::Less
    }
}

/// How a pairing is found from the candidates.
pub type Method = fn(Vec<Candidate>) -> Pairing;

/// A set of candidates that share no track, with the candidates that it was drawn from.
#[derive(Debug)]
pub struct Pairing {
    pub pairs: Vec<Candidate>,
    pub candidates: Vec<Candidate>,
    /// Whether all pairings of these candidates were tried.
    pub tried: bool,
}

impl Pairing {
    pub fn second_of(&self, first: usize) -> Option<usize> {
        self.pairs.iter().find(|pair| pair.first == first).map(|pair| pair.second)
    }

    pub fn first_of(&self, second: usize) -> Option<usize> {
        self.pairs.iter().find(|pair| pair.second == second).map(|pair| pair.first)
    }

    /// Candidates at one distance that share a track with another: which of them is paired, the indices decide.
    pub fn ties(&self) -> usize {
        let tied = |c: &Candidate| {
            self.candidates.iter().any(|o| o != c && o.d2 == c.d2 && (o.first == c.first || o.second == c.second))
        };
        self.candidates.iter().filter(|c| tied(c)).count()
    }
}

/// A candidate outside the pairs, each of whose two tracks is free or stands in one of the pairs that comes later.
fn blocks(candidate: &Candidate, pairs: &[Candidate]) -> bool {
    let gives_way = |of: Option<&Candidate>| of.is_none_or(|pair| candidate.is_before(pair));
    !pairs.contains(candidate)
        && gives_way(pairs.iter().find(|pair| pair.first == candidate.first))
        && gives_way(pairs.iter().find(|pair| pair.second == candidate.second))
}

pub fn has_blocking_pair(pairs: &[Candidate], candidates: &[Candidate]) -> bool {
    candidates.iter().any(|candidate| blocks(candidate, pairs))
}

/// Goes through every set of the remaining candidates that share no track, on top of the given pairs, and keeps those
/// without a blocking pair.
fn try_all(pairs: &mut Vec<Candidate>, rest: &[Candidate], all: &[Candidate], kept: &mut Vec<Vec<Candidate>>) {
    let Some((candidate, rest)) = rest.split_first() else {
        if !has_blocking_pair(pairs, all) {
            kept.push(pairs.clone());
        }
        return;
    };
    try_all(pairs, rest, all, kept);
    if pairs.iter().all(|pair| pair.first != candidate.first && pair.second != candidate.second) {
        pairs.push(*candidate);
        try_all(pairs, rest, all, kept);
        pairs.pop();
    }
}

/// The one pairing without a blocking pair, by trying all.
pub fn by_trying(candidates: Vec<Candidate>) -> Pairing {
    let mut kept = Vec::new();
    try_all(&mut Vec::new(), &candidates, &candidates, &mut kept);
    assert!(kept.len() == 1, "{} pairings of {candidates:?} lack a blocking pair", kept.len());
    Pairing { pairs: kept.pop().unwrap(), candidates, tried: true }
}

/// The candidates in order, each taken where its two tracks are free.
pub fn by_order(candidates: Vec<Candidate>) -> Pairing {
    let mut sorted = candidates.clone();
    sorted.sort_unstable_by(Candidate::order);
    let past = |of: fn(&Candidate) -> usize| candidates.iter().map(of).max().map_or(0, |last| last + 1);
    let (mut firsts, mut seconds) = (vec![false; past(|c| c.first)], vec![false; past(|c| c.second)]);
    let mut pairs = Vec::new();
    for candidate in sorted {
        if !firsts[candidate.first] && !seconds[candidate.second] {
            firsts[candidate.first] = true;
            seconds[candidate.second] = true;
            pairs.push(candidate);
        }
    }
    Pairing { pairs, candidates, tried: false }
}

/// So many pairings are tried at most, by the bound below.
const FEW: usize = 8_000;

/// No fewer than there are pairings: each track of the list named first is free or in one of its candidates.
fn most_pairings(candidates: &[Candidate]) -> usize {
    let last = candidates.iter().map(|c| c.first).max().map_or(0, |last| last + 1);
    let ways = |i: usize| 1 + candidates.iter().filter(|c| c.first == i).count();
    (0..last).map(ways).fold(1, usize::saturating_mul)
}

/// By trying all pairings where there are few, and by order where there are many; a pairing by order has no blocking pair
/// either.
pub fn by_size(candidates: Vec<Candidate>) -> Pairing {
    if most_pairings(&candidates) <= FEW {
        return by_trying(candidates);
    }
    let pairing = by_order(candidates);
    assert!(!has_blocking_pair(&pairing.pairs, &pairing.candidates), "a pairing by order has a blocking pair");
    pairing
}
