//! Near misses of rules 17 to 19: the same rules with one mistake each. No answer comes from here; the corpus uses
//! them to find pairs of texts on which a judge with that mistake would be caught.

use crate::judge::Broken;
use crate::plan::*;
use crate::routes::{creator, route};

#[derive(Clone, Copy, PartialEq, Eq, PartialOrd, Ord, Debug)]
pub enum Mistake {
    PosSinkForgotten,
    PosSinkAlways,
    SinkLabelIgnored,
    RemovableOnlyIfReached,
    SourceAndSinkSwapped,
    UnreachedForksCount,
    EitherIsAFork,
    EqualBranchesSkipped,
    JoinedOneAssignment,
    JoinedPassesC,
    JoinedNoFirstPart,
    JoinedNoSecondPart,
    JoinedFirstSourceHoldsForgotten,
    JoinedFirstSinkHoldsForgotten,
    JoinedFirstLacksForgotten,
    JoinedFirstAlways,
    JoinedFirstForkNotAnEnd,
    JoinedFirstRootRouteBarsC,
    JoinedSecondHoldsForgotten,
    JoinedSecondLacksForgotten,
    JoinedSecondAlways,
    JoinedSecondSourceNotAnEnd,
    JoinedSecondUnreachedSource,
    JoinedSecondOnlyY,
    JoinedSecondFromSource,
    HoldingPassesCBeforeA,
    HoldingPassesCAfterA,
    PartedOneAssignment,
    PartedPassesA,
    PartedAncNotAsked,
    PartedAncNotAtFork,
    PartedAncOnlyAtFork,
    PartedOnlySourceSide,
    PartedOnlySinkSide,
    NotInterleaved,
}

use Mistake::*;

pub const ALL: [Mistake; 35] = [
    PosSinkForgotten, PosSinkAlways, SinkLabelIgnored, RemovableOnlyIfReached, SourceAndSinkSwapped,
    UnreachedForksCount, EitherIsAFork, EqualBranchesSkipped, JoinedOneAssignment, JoinedPassesC, JoinedNoFirstPart,
    JoinedNoSecondPart, JoinedFirstSourceHoldsForgotten, JoinedFirstSinkHoldsForgotten, JoinedFirstLacksForgotten,
    JoinedFirstAlways, JoinedFirstForkNotAnEnd, JoinedFirstRootRouteBarsC, JoinedSecondHoldsForgotten,
    JoinedSecondLacksForgotten, JoinedSecondAlways, JoinedSecondSourceNotAnEnd, JoinedSecondUnreachedSource,
    JoinedSecondOnlyY, JoinedSecondFromSource, HoldingPassesCBeforeA, HoldingPassesCAfterA, PartedOneAssignment,
    PartedPassesA, PartedAncNotAsked, PartedAncNotAtFork, PartedAncOnlyAtFork, PartedOnlySourceSide,
    PartedOnlySinkSide, NotInterleaved,
];

fn forks(plan: &Plan, w: Mistake, one_assignment: bool) -> Vec<(usize, usize, usize)> {
    let mut list = vec![];
    for l in 0..plan.n as usize {
        let (y, z) = match plan.templates[l].form {
            Form::Both(y, z) => (y as usize, z as usize),
            Form::Either(y, z) if w == EitherIsAFork => (y as usize, z as usize),
            _ => continue,
        };
        if (w != UnreachedForksCount && !route(plan, 0, l, None)) || (w == EqualBranchesSkipped && y == z) {
            continue;
        }
        list.push((l, y, z));
        if !one_assignment {
            list.push((l, z, y));
        }
    }
    list
}

/// A route from the root to `to` lacks A, `to` itself left aside.
fn lacks_but_end(plan: &Plan, to: usize, a: usize) -> bool {
    let enters = |x: usize| plan.templates[x].form.successors().any(|y| y == to);
    to == 0 || route(plan, 0, to, Some(a)) || (0..plan.n as usize).any(|x| enters(x) && route(plan, 0, x, Some(a)))
}

fn joined(plan: &Plan, t: usize, s: usize, k: usize, a: usize, w: Mistake) -> bool {
    let c = creator(plan, t).filter(|_| w != JoinedPassesC);
    let holding = |from: usize, to: usize| {
        route(plan, from, a, if w == HoldingPassesCBeforeA { None } else { c })
            && route(plan, a, to, if w == HoldingPassesCAfterA { None } else { c })
    };
    let first = forks(plan, w, w == JoinedOneAssignment).into_iter().any(|(l, one, other)| {
        route(plan, one, s, c)
            && route(plan, other, k, c)
            && (w == JoinedFirstAlways
                || (w != JoinedFirstSourceHoldsForgotten && holding(one, s))
                || (w != JoinedFirstSinkHoldsForgotten && holding(other, k))
                || (w == JoinedFirstForkNotAnEnd && lacks_but_end(plan, l, a))
                || (w != JoinedFirstLacksForgotten
                    && route(plan, 0, l, Some(a))
                    && (w != JoinedFirstRootRouteBarsC || route(plan, 0, l, c))))
    });
    let mut starts: Vec<usize> = plan.templates[s].form.successors().collect();
    match w {
        JoinedSecondOnlyY => starts.truncate(1),
        JoinedSecondFromSource => starts = vec![s],
        _ => {}
    }
    let second = (w == JoinedSecondUnreachedSource || route(plan, 0, s, None))
        && starts.into_iter().any(|b| {
            route(plan, b, k, c)
                && (w == JoinedSecondAlways
                    || (w != JoinedSecondHoldsForgotten && holding(b, k))
                    || (w == JoinedSecondSourceNotAnEnd && lacks_but_end(plan, s, a))
                    || (w != JoinedSecondLacksForgotten && route(plan, 0, s, Some(a))))
        });
    (first && w != JoinedNoFirstPart) || (second && w != JoinedNoSecondPart)
}

fn parted(plan: &Plan, t: usize, s: usize, k: usize, a: usize, w: Mistake) -> bool {
    let Some(c) = creator(plan, t) else { return false };
    let bar = Some(a).filter(|_| w != PartedPassesA);
    let holding = |from: usize, to: usize| route(plan, from, c, bar) && route(plan, c, to, bar);
    forks(plan, w, w == PartedOneAssignment).into_iter().any(|(l, one, other)| {
        let below_anc = match w {
            PartedAncNotAsked => true,
            PartedAncNotAtFork if l == a => false,
            PartedAncOnlyAtFork if l != a => false,
            _ => route(plan, 0, a, None) && route(plan, a, l, None),
        };
        below_anc
            && route(plan, one, s, bar)
            && route(plan, other, k, bar)
            && ((w != PartedOnlySinkSide && holding(one, s)) || (w != PartedOnlySourceSide && holding(other, k)))
    })
}

/// What `judge::assertion` answers, with the mistake.
pub fn assertion(plan: &Plan, place: usize, a: &Assertion, w: Mistake) -> Option<Broken> {
    let (source, sink) = (&plan.templates[a.source], &plan.templates[a.sink]);
    let broken = |rule, identifier| Some(Broken { rule, first: place, second: a.sink, identifier });
    let identifiers = (0..plan.m as usize).filter(|&t| has(source.lab, t));
    if a.kind == Kind::Prot {
        if w == NotInterleaved && source.lab & !sink.lab != 0 {
            return broken(18, (source.lab & !sink.lab).trailing_zeros() as usize);
        }
        for t in identifiers {
            if !has(sink.lab, t) {
                return broken(18, t);
            }
            if parted(plan, t, a.source, a.sink, a.anc, w) {
                return broken(19, t);
            }
        }
        return None;
    }
    let adds = (sink.risk && w != PosSinkForgotten) || w == PosSinkAlways;
    let received = sink.lab | if adds { sink.pos } else { 0 };
    let (s, k) = if w == SourceAndSinkSwapped { (a.sink, a.source) } else { (a.source, a.sink) };
    for t in identifiers {
        let removable = (0..plan.n as usize).any(|x| {
            a.declass >> x & 1 == 0
                && has(plan.templates[x].neg, t)
                && (w != RemovableOnlyIfReached || route(plan, 0, x, None))
        });
        let missing = !has(received, t) && w != SinkLabelIgnored;
        if !removable && (missing || !joined(plan, t, s, k, a.anc, w)) {
            return None;
        }
    }
    broken(17, 255)
}
