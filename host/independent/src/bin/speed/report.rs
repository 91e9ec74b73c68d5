//! The figures as a text that can stand in a page as it is: paragraphs and tables.

use crate::contest::Contest;
use crate::contests::Contests;
use crate::digits;
use crate::entries::RattleBefore;
use crate::implementations::Answers;
use crate::inputs;
use crate::machine;
use crate::options::Options;
use std::env::consts::ARCH;

/// Gives the times, table by table.
pub fn times(contests: &Contests, options: &Options, rounds: usize) -> String {
    let [checked, _, answered] = &contests.questions;
    let mut parts = front(&format!("Measured on: {}.", machine::told()), options);
    parts.push(format!(
        "Each figure is the median of {rounds} rounds, in processor time; in a round every implementation \
         in turn goes over all inputs. Each ratio is the quotient of two of the figures."
    ));
    if options.quick {
        parts.push("A quick run: its figures mean little.".to_string());
    }
    parts.extend([
        "Nanoseconds for one, and how many times as long Rattle takes; below 1 Rattle is faster."
            .to_string(),
        questions(&contests.questions),
        format!("Nanoseconds for a line, by its digits. {}", digits::told()),
        by_digits(&contests.digits),
        "Nanoseconds for one step, and how many times as long Rattle takes as Rust.".to_string(),
        steps(&contests.steps),
        "Millions of lines and of bytes a second.".to_string(),
        rates(checked, answered),
        "Nanoseconds for a byte of a log that is answered, by the size of the log.".to_string(),
        sizes(&contests.sizes),
    ]);
    parts.join("\n\n") + "\n"
}

/// Gives the instructions that were counted, contest after contest, in a table.
pub fn instructions(
    questions: &[Contest],
    counts: &[u64],
    counter: &str,
    options: &Options,
) -> String {
    let mut parts = front(&format!("Counted by: {counter}, {ARCH}."), options);
    parts.push("Instructions for one.".to_string());
    let names = questions[0].names();
    let columns = questions.iter().zip(counts.chunks(names.len()));
    let columns = columns.map(|(contest, counts)| {
        let each = counts.iter().map(|&count| count as f64);
        let cells = each.map(|count| figure(count / contest.units as f64));
        (contest.name.clone(), cells.collect())
    });
    parts.push(table(&names, &columns.collect::<Vec<_>>()));
    parts.join("\n\n") + "\n"
}

/// Says what was measured with, and on what.
fn front(first: &str, options: &Options) -> Vec<String> {
    let compilers = options.compilers.as_ref();
    let mut front = vec![first.to_string()];
    front.extend(compilers.map(|text| format!("Compiled: {text}.")));
    let before = options.before.as_ref();
    front.extend(before.map(|state| {
        let name = RattleBefore::NAME;
        format!("{name}: {state}, proved and compiled by its own scripts.")
    }));
    front.extend(machine::other_kind());
    front.push(inputs::told(options.seed));
    front
}

/// A column of a table: its head, and its cells from above.
type Column = (String, Vec<String>);

/// Divides what each implementation took by a count, and puts it as figures.
fn divided(contest: &Contest, by: usize) -> Vec<String> {
    let each = contest.medians().into_iter();
    each.map(|median| figure(median / by as f64)).collect()
}

/// The table of the three questions: behind the times of each stands how often they go into those
/// of the first implementation.
fn questions(questions: &[Contest]) -> String {
    let columns = questions.iter().flat_map(|contest| {
        let times = divided(contest, contest.units);
        let ratios = times.iter().map(|time| quotient(&times[0], time));
        let ratios = ("ratio".to_string(), ratios.collect());
        [(format!("{}, ns", contest.name), times), ratios]
    });
    table(&questions[0].names(), &columns.collect::<Vec<_>>())
}

/// The table of cost against digits.
fn by_digits(sorts: &[Contest]) -> String {
    let columns = sorts
        .iter()
        .map(|contest| (contest.name.clone(), divided(contest, contest.units)));
    table(&sorts[0].names(), &columns.collect::<Vec<_>>())
}

/// The table of the steps.
fn steps(steps: &[Contest]) -> String {
    let times: Vec<Vec<String>> = steps.iter().map(|one| divided(one, one.units)).collect();
    let names: Vec<&str> = steps.iter().map(|one| one.name.as_str()).collect();
    let column = |place: usize| times.iter().map(|row| row[place].clone()).collect();
    let ratios = times.iter().map(|row| quotient(&row[0], &row[1]));
    let heads = steps[0].names();
    let columns = [
        (format!("{}, ns", heads[0]), column(0)),
        (format!("{}, ns", heads[1]), column(1)),
        ("ratio".to_string(), ratios.collect()),
    ];
    table(&names, &columns)
}

/// The table of what is done in a second.
fn rates(checked: &Contest, answered: &Contest) -> String {
    let column = |head: &str, contest: &Contest, count: usize| {
        // What is done in a nanosecond is done a thousand million times in a second.
        let rate = |median: f64| figure(1_000.0 * count as f64 / median);
        let rates = contest.medians().into_iter().map(rate);
        (head.to_string(), rates.collect())
    };
    let columns = [
        column("lines checked", checked, checked.units),
        column("bytes checked", checked, checked.bytes),
        column("lines answered", answered, answered.units),
        column("bytes answered", answered, answered.bytes),
    ];
    table(&checked.names(), &columns)
}

/// The table of cost against size.
fn sizes(sizes: &[Contest]) -> String {
    let columns = sizes
        .iter()
        .map(|contest| (contest.name.clone(), divided(contest, contest.bytes)));
    table(&sizes[0].names(), &columns.collect::<Vec<_>>())
}

/// Puts a number with three figures, as far as it has any behind the point.
fn figure(number: f64) -> String {
    let places = match number {
        large if large >= 99.95 => 0,
        middle if middle >= 9.995 => 1,
        _ => 2,
    };
    format!("{number:.places$}")
}

/// Divides one figure by another, as a reader of the table would.
fn quotient(one: &str, other: &str) -> String {
    let number = |figure: &str| figure.parse().unwrap_or(f64::NAN);
    figure(number(one) / number(other))
}

/// Lays out a table with a name ahead of each row.
fn table(names: &[&str], columns: &[Column]) -> String {
    let line = |cells: Vec<&str>| format!("| {} |", cells.join(" | "));
    let heads = columns.iter().map(|(head, _)| head.as_str());
    let rule = format!("|---|{}", "---:|".repeat(columns.len()));
    let mut lines = vec![line([""].into_iter().chain(heads).collect()), rule];
    lines.extend(names.iter().enumerate().map(|(place, name)| {
        let cells = columns.iter().map(|(_, cells)| cells[place].as_str());
        line([*name].into_iter().chain(cells).collect())
    }));
    lines.join("\n")
}

#[cfg(test)]
mod tests {
    use super::*;

    /// A contest of two, each of whom took a known time for ten units and four hundred bytes.
    fn contest(name: &str, times: [u64; 2]) -> Contest<'static> {
        let mut contest = Contest::new(name, 10, 400);
        for name in ["A", "B"] {
            contest.enter(name, || ());
        }
        contest.set(&times);
        contest
    }

    /// Numbers have three figures, large ones all that they have ahead of the point.
    #[test]
    fn figures() {
        let put = [0.5, 1.0, 9.994, 9.996, 12.34, 99.94, 99.96, 1234.5].map(figure);
        assert_eq!(
            put,
            ["0.50", "1.00", "9.99", "10.0", "12.3", "99.9", "100", "1234"]
        );
        assert_eq!(quotient("1.00", "0.66"), "1.52");
    }

    /// Every table has its own figures, in their columns.
    #[test]
    fn tables() {
        let two = [contest("q", [200, 400]), contest("r", [1_000, 500])];
        assert_eq!(
            questions(&two),
            "|  | q, ns | ratio | r, ns | ratio |\n|---|---:|---:|---:|---:|\n\
             | A | 20.0 | 1.00 | 100 | 1.00 |\n| B | 40.0 | 0.50 | 50.0 | 2.00 |"
        );
        assert_eq!(
            by_digits(&two),
            "|  | q | r |\n|---|---:|---:|\n| A | 20.0 | 100 |\n| B | 40.0 | 50.0 |"
        );
        assert_eq!(
            steps(&two),
            "|  | A, ns | B, ns | ratio |\n|---|---:|---:|---:|\n\
             | q | 20.0 | 40.0 | 0.50 |\n| r | 100 | 50.0 | 2.00 |"
        );
        assert_eq!(
            rates(&two[0], &two[1]),
            "|  | lines checked | bytes checked | lines answered | bytes answered |\n|---|---:|---:|---:|---:|\n\
             | A | 50.0 | 2000 | 10.0 | 400 |\n| B | 25.0 | 1000 | 20.0 | 800 |"
        );
        assert_eq!(
            sizes(&two),
            "|  | q | r |\n|---|---:|---:|\n| A | 0.50 | 2.50 |\n| B | 1.00 | 1.25 |"
        );
    }

    /// Counts stand contest after contest, each divided by what was gone over.
    #[test]
    fn counts() {
        let two = [contest("q", [0, 0]), contest("r", [0, 0])];
        let options = Options {
            seed: 3,
            quick: false,
            instructions: true,
            page: None,
            compilers: Some("by x".to_string()),
            before: Some("commit y".to_string()),
        };
        let text = instructions(&two, &[10, 20, 300, 4_000], "counter-1", &options);
        let told = "\n\nCompiled: by x.\n\nRattle before: commit y, proved and compiled by its own scripts.\n\n";
        assert!(text.starts_with("Counted by: counter-1, ") && text.contains(told));
        let wanted = "|  | q | r |\n|---|---:|---:|\n| A | 1.00 | 30.0 |\n| B | 2.00 | 400 |\n";
        assert!(text.ends_with(wanted), "{text}");
    }
}
