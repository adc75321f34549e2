//! "Routes": everything by search from a template, with at most one template barred.

use crate::plan::*;

/// The templates to which a route without `barred` leads from `start` (ends included).
pub fn search(plan: &Plan, start: usize, barred: Option<usize>) -> [bool; MAX_TEMPLATES] {
    let mut found = [false; MAX_TEMPLATES];
    let mut open = vec![start];
    while let Some(x) = open.pop() {
        if found[x] || Some(x) == barred {
            continue;
        }
        found[x] = true;
        open.extend(plan.templates[x].form.successors());
    }
    found
}

/// Some route from `from` to `to` lacks `barred`.
pub fn route(plan: &Plan, from: usize, to: usize, barred: Option<usize>) -> bool {
    search(plan, from, barred)[to]
}

/// Some route from `from` to `to` holds `through` and lacks `barred`.
pub fn route_holding(plan: &Plan, from: usize, through: usize, to: usize, barred: Option<usize>) -> bool {
    route(plan, from, through, barred) && route(plan, through, to, barred)
}

/// C: the template that creates identifier t, if there is one.
pub fn creator(plan: &Plan, t: usize) -> Option<usize> {
    plan.used().iter().position(|x| has(x.creates, t))
}

/// The forks, each with its branches in either assignment.
fn forks(plan: &Plan) -> Vec<(usize, usize, usize)> {
    let mut list = vec![];
    for l in 0..plan.n as usize {
        if let Form::Both(y, z) = plan.templates[l].form {
            if route(plan, 0, l, None) {
                list.push((l, y as usize, z as usize));
                list.push((l, z as usize, y as usize));
            }
        }
    }
    list
}

pub fn joined(plan: &Plan, t: usize, s: usize, k: usize, a: usize) -> bool {
    let c = creator(plan, t);
    for (l, one, other) in forks(plan) {
        if route(plan, one, s, c)
            && route(plan, other, k, c)
            && (route_holding(plan, one, a, s, c)
                || route_holding(plan, other, a, k, c)
                || route(plan, 0, l, Some(a)))
        {
            return true;
        }
    }
    if route(plan, 0, s, None) {
        for b in plan.templates[s].form.successors() {
            if route(plan, b, k, c) && (route_holding(plan, b, a, k, c) || route(plan, 0, s, Some(a))) {
                return true;
            }
        }
    }
    false
}

pub fn parted(plan: &Plan, t: usize, s: usize, k: usize, a: usize) -> bool {
    let Some(c) = creator(plan, t) else { return false };
    for (l, one, other) in forks(plan) {
        let bar = Some(a);
        if route_holding(plan, 0, a, l, None)
            && route(plan, one, s, bar)
            && route(plan, other, k, bar)
            && (route_holding(plan, one, c, s, bar) || route_holding(plan, other, c, k, bar))
        {
            return true;
        }
    }
    false
}
