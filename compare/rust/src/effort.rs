//! How long the Rust would take, from above: it tries every choice of an ANDOR's factors.

use crate::answer::Stop;
use crate::ir::{ConstraintExpr, Path};
use std::collections::HashSet;

const MOST_STEPS: u64 = 1 << 25;
const MOST_FACTORS: usize = 12;

pub fn bearable(steps: u64) -> Result<(), Stop> {
    if steps > MOST_STEPS {
        return Err(Stop::Costly);
    }
    Ok(())
}

/// Every prefix is joined with the next term.
pub fn of_and(sizes: &[u64]) -> u64 {
    sizes
        .iter()
        .fold(1, |steps: u64, size| steps.saturating_mul(*size.max(&1)))
}

/// Every choice is joined, and put into the list made so far, which is sorted again.
pub fn of_andor(sizes: &[u64]) -> u64 {
    if sizes.len() > MOST_FACTORS {
        return u64::MAX;
    }
    let joins = choices(sizes);
    joins.saturating_mul(1 << sizes.len())
}

fn choices(sizes: &[u64]) -> u64 {
    sizes
        .iter()
        .fold(1, |product: u64, size| product.saturating_mul(size + 1))
}

/// An expression's list has at most this many parts, made in at most this many steps.
struct Weight {
    parts: u64,
    steps: u64,
}

pub fn of_expression(expr: &ConstraintExpr) -> u64 {
    weigh(expr).steps
}

fn weigh(expr: &ConstraintExpr) -> Weight {
    use ConstraintExpr::*;
    let (AndOr(terms) | And(terms) | OneOf(terms)) = expr else {
        return Weight { parts: 1, steps: 1 };
    };
    let weights: Vec<Weight> = terms.iter().map(weigh).collect();
    let sizes: Vec<u64> = weights.iter().map(|weight| weight.parts).collect();
    let (parts, here) = match expr {
        AndOr(_) => (choices(&sizes), of_andor(&sizes)),
        And(_) => (of_and(&sizes), of_and(&sizes)),
        _ => (sizes.iter().sum(), sizes.iter().sum()),
    };
    let below = weights.iter().map(|weight| weight.steps);
    Weight {
        parts: parts.min(subsets(expr)),
        steps: below.fold(here, u64::saturating_add),
    }
}

/// No part repeats, so there are no more parts than nonempty sets of names.
fn subsets(expr: &ConstraintExpr) -> u64 {
    let mut names = HashSet::new();
    collect(expr, &mut names);
    (1u64 << names.len().min(60)) - 1
}

fn collect<'a>(expr: &'a ConstraintExpr, names: &mut HashSet<&'a Path>) {
    use ConstraintExpr::*;
    match expr {
        Reference(path) => {
            names.insert(path);
        }
        AndOr(terms) | And(terms) | OneOf(terms) => {
            terms.iter().for_each(|term| collect(term, names));
        }
    }
}
