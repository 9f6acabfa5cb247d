//! A plain model of a histogram's iterators and statistics: lists of classes, sums taken anew at each step, and products in
//! 256 bits. It shares nothing with the library or with the Rust crate.

/// A class of values.
#[derive(Clone, Copy)]
pub struct Class {
    pub lowest: u128,
    pub top: u128,
}

/// A fraction, as its two numbers.
pub type Ratio = (u128, u128);

/// What an iterator returns at one step.
#[derive(Clone, PartialEq, Debug)]
pub struct Item {
    pub value: u64,
    pub count: u64,
    pub since: u64,
    pub quantile: Ratio,
    pub tick: Ratio,
}

/// A step before its item is made: the bin, the tick or the level that it is for.
struct Step {
    bin: usize,
    tick: Option<Ratio>,
    level: Option<u64>,
}

/// A histogram as lists.
pub struct Model {
    pub unit: u32,
    pub digits: u32,
    pub classes: Vec<Class>,
    pub counts: Vec<u64>,
    pub greatest: u64,
    pub total: u64,
    /// The last bin that counts as recorded.
    pub mark: Option<usize>,
}

fn capped(number: u128) -> u64 {
    number.min(u128::from(u64::MAX)) as u64
}

/// The product of two numbers, as its upper and lower 128 bits.
fn product(a: u128, b: u128) -> (u128, u128) {
    let mask = u128::from(u64::MAX);
    let (a1, a0, b1, b0) = (a >> 64, a & mask, b >> 64, b & mask);
    let (low, mid, cross, high) = (a0 * b0, a1 * b0, a0 * b1, a1 * b1);
    let carry = (low >> 64) + (mid & mask) + (cross & mask);
    (high + (mid >> 64) + (cross >> 64) + (carry >> 64), (carry << 64) | (low & mask))
}

/// Whether one fraction is at most another.
fn at_most(left: Ratio, right: Ratio) -> bool {
    product(left.0, right.1) <= product(right.0, left.1)
}

/// The exponent of the least power of two at or above a number.
fn exponent(number: u128) -> u32 {
    (0..).find(|e| 1u128 << e >= number).expect("some power is")
}

/// The classes from 0 up to the bucket of a value.
fn classes(unit: u32, digits: u32, value: u64) -> Vec<Class> {
    let reach = (0..).map(|k| 1u128 << (unit + digits + k)).find(|end| u128::from(value) < *end).expect("some power is");
    let (mut list, mut lowest) = (Vec::new(), 0u128);
    while lowest < reach {
        let bucket = (0..).find(|k| lowest < 1u128 << (unit + digits + k)).expect("some power is");
        let width = 1u128 << (unit + bucket);
        list.push(Class { lowest, top: lowest + width - 1 });
        lowest += width;
    }
    list
}

impl Model {
    /// A histogram of these bounds.
    pub fn new(low: u64, high: u64, sigfig: u8, greatest: u64) -> Model {
        let unit = (0..64).rev().find(|u| 1u64 << u <= low).expect("low is at least 1");
        let digits = exponent(2 * 10u128.pow(u32::from(sigfig)));
        let classes = classes(unit, digits, high);
        let counts = vec![0; classes.len()];
        Model { unit, digits, classes, counts, greatest, total: 0, mark: None }
    }

    /// The bin of a value; `None` past the bins.
    fn bin(&self, value: u64) -> Option<usize> {
        self.classes.iter().position(|class| u128::from(value) <= class.top)
    }

    /// The bin of a value, or the last bin.
    fn place(&self, value: u64) -> usize {
        self.bin(value).unwrap_or(self.classes.len() - 1)
    }

    pub fn reach(&self) -> u64 {
        self.classes.last().expect("there are classes").top as u64
    }

    /// Records a value, with more bins where there are too few.
    pub fn record(&mut self, value: u64, count: u64) {
        if self.bin(value).is_none() {
            self.classes = classes(self.unit, self.digits, value);
            self.counts.resize(self.classes.len(), 0);
        }
        let bin = self.place(value);
        self.counts[bin] = (u128::from(self.counts[bin]) + u128::from(count)).min(u128::from(self.greatest)) as u64;
        self.total = capped(u128::from(self.total) + u128::from(count));
        self.mark = self.mark.max(Some(bin));
    }

    /// Forgets the samples, and keeps the mark.
    pub fn clear(&mut self) {
        self.counts.fill(0);
        self.total = 0;
    }

    /// Forgets all.
    pub fn reset(&mut self) {
        self.clear();
        self.mark = None;
    }

    /// The sum of the counters of the bins before one.
    fn before(&self, bin: usize) -> u128 {
        self.counts[..bin].iter().map(|n| u128::from(*n)).sum()
    }

    /// The share of the samples up to a bin.
    fn share(&self, bin: usize) -> Ratio {
        (u128::from(capped(self.before(bin + 1))), u128::from(self.total))
    }

    fn top(&self, bin: usize) -> u64 {
        self.classes[bin].top as u64
    }

    fn items(&self, steps: Vec<Step>) -> Vec<Item> {
        let mut from = 0;
        let mut items = Vec::new();
        for step in steps {
            let quantile = self.share(step.bin);
            items.push(Item {
                value: step.level.unwrap_or(self.top(step.bin)),
                count: self.counts[step.bin],
                since: capped(self.before(step.bin + 1) - self.before(from)),
                quantile,
                tick: step.tick.unwrap_or(quantile),
            });
            from = step.bin + 1;
        }
        items
    }

    pub fn all(&self) -> Vec<Item> {
        self.items((0..self.counts.len()).map(|bin| Step { bin, tick: None, level: None }).collect())
    }

    pub fn recorded(&self) -> Vec<Item> {
        let filled = (0..self.counts.len()).filter(|bin| self.counts[*bin] > 0);
        self.items(filled.map(|bin| Step { bin, tick: None, level: None }).collect())
    }

    pub fn linear(&self, step: u64) -> Vec<Item> {
        let mark = self.mark.unwrap_or(0);
        let (mut steps, mut end) = (Vec::new(), None);
        for j in 1u128.. {
            let level = capped(j * u128::from(step) - 1);
            if end.is_some_and(|end| level > end) {
                break;
            }
            let bin = self.place(level);
            steps.push(Step { bin, tick: None, level: Some(level) });
            if bin >= mark {
                end = end.or(Some(self.top(bin)));
            }
            if level == u64::MAX {
                break;
            }
        }
        self.items(steps)
    }

    pub fn log(&self, start: u64, base: u64) -> Vec<Item> {
        let mark = self.mark.unwrap_or(0);
        let (mut steps, mut power) = (Vec::new(), u128::from(start));
        loop {
            let level = capped(power) - 1;
            let bin = self.place(level);
            steps.push(Step { bin, tick: None, level: Some(level) });
            if bin >= mark {
                return self.items(steps);
            }
            power = u128::from(capped(power * u128::from(base)));
        }
    }

    pub fn quantiles(&self, ticks: u32) -> Vec<Item> {
        let mut list = (0..).flat_map(|half: u32| (0..ticks).map(move |i| (half, i))).map(|(half, i)| {
            let whole = u128::from(ticks) << (half + 1);
            (whole - 2 * u128::from(ticks) + u128::from(i), whole)
        });
        let mut next = list.next().expect("ticks have no end");
        let mut steps = Vec::new();
        for bin in (0..self.counts.len()).filter(|bin| self.counts[*bin] > 0) {
            let share = self.share(bin);
            if share.0 == share.1 {
                steps.push(Step { bin, tick: Some(next), level: None });
                steps.push(Step { bin, tick: Some((1, 1)), level: None });
                break;
            }
            while at_most(next, share) {
                steps.push(Step { bin, tick: Some(next), level: None });
                next = list.next().expect("ticks have no end");
            }
        }
        self.items(steps)
    }

    /// The value at a quantile that is a share of 1 or of 100.
    fn value_at(&self, quantile: (u64, u64), whole: u64) -> u64 {
        let den = u128::from(quantile.1) * u128::from(whole);
        let num = u128::from(quantile.0).min(den);
        // the greatest rank such that the one before it, times den, is below num * total, bit by bit
        let rank = (0..=self.total.ilog2() + 1).rev().fold(0u128, |rank, bit| {
            let more = rank | (1 << bit);
            if product(more - 1, den) < product(num, u128::from(self.total)) { more } else { rank }
        });
        match (0..self.counts.len()).find(|bin| self.before(bin + 1) >= rank.max(1)) {
            Some(bin) if quantile.0 == 0 => self.classes[bin].lowest as u64,
            Some(bin) => self.top(bin),
            None => 0,
        }
    }

    /// The values at quantiles up to the first that is below the one before.
    pub fn values(&self, quantiles: &[(u64, u64)], whole: u64) -> Vec<u64> {
        let mut values = Vec::new();
        let mut last: (u64, u64) = (0, 1);
        for quantile in quantiles {
            if self.total == 0 {
                values.push(0);
                continue;
            }
            if u128::from(quantile.0) * u128::from(last.1) < u128::from(last.0) * u128::from(quantile.1) {
                break;
            }
            values.push(self.value_at(*quantile, whole));
            last = *quantile;
        }
        values
    }

    pub fn below(&self, value: u64) -> Ratio {
        if self.total == 0 { (1, 1) } else { self.share(self.place(value)) }
    }

    /// The mean, `None` at a full total.
    pub fn mean(&self) -> Option<Ratio> {
        if self.total == u64::MAX {
            return None;
        }
        if self.total == 0 {
            return Some((0, 1));
        }
        let middle = |class: &Class| class.lowest + (class.top + 1 - class.lowest) / 2;
        let sum = self.classes.iter().zip(&self.counts).map(|(class, count)| middle(class) * u128::from(*count)).sum();
        Some((sum, u128::from(self.total)))
    }

    pub fn between(&self, low: u64, high: u64) -> u64 {
        let (from, to) = (self.place(low), self.place(high));
        if from > to { 0 } else { capped(self.before(to + 1) - self.before(from)) }
    }
}
