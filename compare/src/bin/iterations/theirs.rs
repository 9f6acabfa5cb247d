//! What the Rust crate returns, beside what the model returns.
//!
//! Left out is what is known to differ: values in the last class of all, sums that pass a full counter, levels past the `u64`
//! or past what an `f64` counts, ticks that no `f64` is, ticks where the last nonempty class is not the greatest that counts
//! as recorded, and marks after a reset at a unit above 1.

use crate::model::{Item, Model, Ratio};
use hdrhistogram::iterators::IterationValue;
use hdrhistogram::{Counter, Histogram};

/// Up to which sum each share of samples is distinguished from each tick in an `f64`.
const FEW: u64 = 1 << 20;
/// Up to which number an `f64` counts.
const COUNTED: u64 = 1 << 53;

fn is_share(number: f64, ratio: Ratio) -> bool {
    let expected = ratio.0 as f64 / ratio.1 as f64;
    number == expected || (number.is_nan() && expected.is_nan())
}

fn is_item<T: Counter>(theirs: &IterationValue<T>, ours: &Item) -> bool {
    theirs.value_iterated_to() == ours.value
        && theirs.count_at_value().as_u64() == ours.count
        && theirs.count_since_last_iteration() == ours.since
        && is_share(theirs.quantile(), ours.quantile)
        && is_share(theirs.quantile_iterated_to(), ours.tick)
}

fn are_items<T: Counter>(theirs: impl Iterator<Item = IterationValue<T>>, ours: &[Item]) -> bool {
    let theirs: Vec<_> = theirs.collect();
    theirs.len() == ours.len() && theirs.iter().zip(ours).all(|(theirs, ours)| is_item(theirs, ours))
}

/// Whether the last nonempty class is the greatest that counts as recorded.
fn is_marked(model: &Model) -> bool {
    model.counts.iter().rposition(|count| *count > 0) == model.mark
}

/// Whether a call on the Rust crate's histogram returns what the model does; `None` where the call is left out.
pub fn agrees<T: Counter>(theirs: &Histogram<T>, model: &Model, call: &Call) -> Option<bool> {
    let reach = model.reach();
    let exact = model.counts.iter().map(|n| u128::from(*n)).sum::<u128>() == u128::from(model.total);
    if reach > u64::MAX / 4 {
        return None;
    }
    match *call {
        Call::All => Some(are_items(theirs.iter_all(), &model.all())),
        Call::Recorded => Some(are_items(theirs.iter_recorded(), &model.recorded())),
        Call::Linear(step) if step < u64::MAX / 4 => Some(are_items(theirs.iter_linear(step), &model.linear(step))),
        Call::Log(start, base) if start.max(reach) < COUNTED / base => {
            Some(are_items(theirs.iter_log(start, base as f64), &model.log(start, base)))
        }
        Call::Quantiles(ticks) if ticks.is_power_of_two() && model.total < FEW && exact && is_marked(model) => {
            Some(are_items(theirs.iter_quantiles(ticks), &model.quantiles(ticks)))
        }
        Call::Below(value) if exact => Some(is_share(theirs.quantile_below(value), model.below(value))),
        Call::Between(low, high) if exact => Some(theirs.count_between(low, high) == model.between(low, high)),
        Call::Mean if exact && model.total < FEW => {
            let mean = model.mean()?;
            Some((theirs.mean() - mean.0 as f64 / mean.1 as f64).abs() <= 1e-9 * theirs.mean())
        }
        Call::Values(ref list) if exact && model.total < FEW => values(theirs, model, list),
        _ => None,
    }
}

/// The same of many quantiles, where each is a whole number of halves, quarters, .. and none is below the one before.
fn values<T: Counter>(theirs: &Histogram<T>, model: &Model, list: &[(u64, u64)]) -> Option<bool> {
    if !list.iter().all(|(num, den)| den.is_power_of_two() && *num < FEW) {
        return None;
    }
    let quantiles = list.iter().map(|(num, den)| *num as f64 / *den as f64);
    let values: Vec<u64> = theirs.value_at_quantiles(quantiles).take(model.values(list, 1).len()).collect();
    Some(values == model.values(list, 1))
}

/// A call that is compared.
pub enum Call {
    All,
    Recorded,
    Linear(u64),
    Log(u64, u64),
    Quantiles(u32),
    Below(u64),
    PercentBelow(u64),
    Between(u64, u64),
    Mean,
    Values(Vec<(u64, u64)>),
    Percentiles(Vec<(u64, u64)>),
}
