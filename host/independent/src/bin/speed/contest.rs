//! One contest: several implementations that do the same over the same inputs, timed in turn.

use crate::clock;

/// One implementation in a contest.
struct Runner<'a> {
    name: &'static str,
    run: Box<dyn FnMut() + 'a>,
    /// The nanoseconds of each round, in processor time.
    times: Vec<u64>,
}

/// A contest, and what one run of it goes through.
pub struct Contest<'a> {
    pub name: String,
    /// How many lines, pairs or steps there are.
    pub units: usize,
    pub bytes: usize,
    runners: Vec<Runner<'a>>,
}

impl<'a> Contest<'a> {
    /// Begins a contest that nobody runs in.
    pub fn new(name: &str, units: usize, bytes: usize) -> Contest<'a> {
        Contest {
            name: name.to_string(),
            units,
            bytes,
            runners: Vec::new(),
        }
    }

    /// Lets an implementation take part.
    pub fn enter(&mut self, name: &'static str, run: impl FnMut() + 'a) {
        self.runners.push(Runner {
            name,
            run: Box::new(run),
            times: Vec::new(),
        });
    }

    /// Times every implementation once; who is first changes from round to round.
    pub fn round(&mut self, round: usize) {
        let count = self.runners.len();
        self.runners.rotate_left(round % count);
        for runner in &mut self.runners {
            let begun = clock::now();
            (runner.run)();
            runner.times.push(clock::now() - begun);
        }
        self.runners.rotate_right(round % count);
    }

    /// Lets every implementation run once, untimed, each inside the function that is handed over.
    pub fn once(&mut self, inside: fn(&mut dyn FnMut())) {
        for runner in &mut self.runners {
            inside(&mut *runner.run);
        }
    }

    /// Lists the names of the implementations.
    pub fn names(&self) -> Vec<&'static str> {
        self.runners.iter().map(|runner| runner.name).collect()
    }

    /// Gives the median of each implementation, in nanoseconds for one run over all inputs.
    pub fn medians(&self) -> Vec<f64> {
        let each = self.runners.iter();
        each.map(|runner| median(&runner.times)).collect()
    }

    /// Gives every implementation one round of a known time.
    #[cfg(test)]
    pub fn set(&mut self, times: &[u64]) {
        for (runner, &time) in self.runners.iter_mut().zip(times) {
            runner.times = vec![time];
        }
    }
}

/// Gives the middle of some times, or what lies between the two in the middle.
fn median(times: &[u64]) -> f64 {
    let mut sorted = times.to_vec();
    sorted.sort_unstable();
    let middle = sorted.len() / 2;
    match sorted.len() {
        0 => f64::NAN,
        count if count % 2 == 1 => sorted[middle] as f64,
        _ => (sorted[middle - 1] + sorted[middle]) as f64 / 2.0,
    }
}

#[cfg(test)]
mod tests {
    use super::*;
    use std::cell::RefCell;

    /// The median of an odd and of an even count.
    #[test]
    fn medians_of_few() {
        assert_eq!(median(&[5]).to_bits(), 5.0_f64.to_bits());
        assert_eq!(median(&[9, 1, 5]).to_bits(), 5.0_f64.to_bits());
        assert_eq!(median(&[9, 1, 6, 5]).to_bits(), 5.5_f64.to_bits());
        assert!(median(&[]).is_nan());
    }

    /// Everyone runs once a round, another one first each time, and keeps its name.
    #[test]
    fn all_run_in_turn() {
        let order = RefCell::new(Vec::new());
        let mut contest = Contest::new("order", 1, 1);
        for name in ["a", "b", "c"] {
            let order = &order;
            contest.enter(name, move || order.borrow_mut().push(name));
        }
        for round in 0..4 {
            contest.round(round);
        }
        assert_eq!(contest.names(), ["a", "b", "c"]);
        assert!(contest.runners.iter().all(|runner| runner.times.len() == 4));
        assert_eq!(order.borrow().concat(), "abcbcacababc");
        contest.once(|run| run());
        assert_eq!(order.borrow().concat(), "abcbcacababcabc");
    }
}
