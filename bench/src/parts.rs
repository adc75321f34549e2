//! What the baselines share: the plan's part of refusal 20, the children of a form, and rules 12, 13 and 16.
//! An answer is a byte: 0 done, 1 delivered, 2 held, else the number of the refusal.

use reference::plan::{Form, Plan, Template};

/// The children's templates, or None where the form has no such branch.
pub fn children(form: Form, branch: u32) -> Option<(Option<u8>, Option<u8>)> {
    match (form, branch) {
        (Form::End, 0) => Some((None, None)),
        (Form::Go(y), 0) => Some((Some(y), None)),
        (Form::Either(y, _), 0) => Some((Some(y), None)),
        (Form::Either(_, z), 1) => Some((Some(z), None)),
        (Form::Both(y, z), 0) => Some((Some(y), Some(z))),
        _ => None,
    }
}

/// Rules 12, 13 and 16, the process's label standing for lab X.
pub fn fits(label: u32, t: &Template) -> bool {
    t.lab & !(label | t.pos) == 0 && label & !t.neg & !t.lab == 0 && t.creates & label == 0
}

fn template_fits(plan: &Plan, t: &Template) -> bool {
    let below = |y: u8| (y as u32) < plan.n;
    let successors = match t.form {
        Form::End => true,
        Form::Go(y) => below(y),
        Form::Either(y, z) | Form::Both(y, z) => below(y) && below(z),
    };
    let bound = 1u64 << plan.m;
    let within = |mask: u32| (mask as u64) < bound;
    successors && within(t.lab) && within(t.pos) && within(t.neg) && within(t.creates)
}

pub fn plan_fits(plan: &Plan) -> bool {
    if plan.n < 1 || plan.n > 64 || plan.m > 32 {
        return false;
    }
    for t in &plan.templates[..plan.n as usize] {
        if !template_fits(plan, t) {
            return false;
        }
    }
    true
}

/// Whether a raise (or a lower) of this identifier is refused at this template.
pub fn unmovable(plan: &Plan, t: &Template, identifier: u32, raise: bool) -> Option<u8> {
    if identifier >= plan.m {
        return Some(27);
    }
    if !t.risk {
        return Some(28);
    }
    let may = if raise { t.pos } else { t.neg };
    if may >> identifier & 1 == 0 {
        return Some(29);
    }
    None
}
