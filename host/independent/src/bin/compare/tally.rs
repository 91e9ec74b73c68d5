//! The table of a part: how many inputs it had and what was met among them.

/// A row of the table: what it counts, and the classes of it that a run has to meet.
pub type Row = (&'static str, &'static [&'static str]);

/// The counts of one part.
pub struct Tally {
    inputs: u64,
    bytes: u64,
    shortest: usize,
    longest: usize,
    rows: Vec<Counts>,
}

/// The counts of one row: what has to be met stands first and is there from the start.
struct Counts {
    title: &'static str,
    required: usize,
    classes: Vec<(&'static str, u64)>,
}

impl Tally {
    /// Starts the table with rows in which nothing has been met.
    pub fn new(rows: &[Row]) -> Tally {
        let rows = rows.iter().map(|&(title, required)| Counts {
            title,
            required: required.len(),
            classes: required.iter().map(|&class| (class, 0)).collect(),
        });
        Tally {
            inputs: 0,
            bytes: 0,
            shortest: usize::MAX,
            longest: 0,
            rows: rows.collect(),
        }
    }

    /// Counts an input of so many bytes.
    pub fn input(&mut self, length: usize) {
        self.inputs += 1;
        self.bytes += length as u64;
        self.shortest = self.shortest.min(length);
        self.longest = self.longest.max(length);
    }

    /// Gives how many inputs were counted.
    pub fn inputs(&self) -> u64 {
        self.inputs
    }

    /// Counts a class in a row, which must be one of those that the table was started with.
    pub fn meet(&mut self, title: &str, class: &'static str) {
        let row = self.rows.iter_mut().find(|row| row.title == title);
        let row = row.expect("a row of the table");
        match row.classes.iter_mut().find(|(name, _)| *name == class) {
            Some((_, met)) => *met += 1,
            None => {
                row.classes.push((class, 1));
                row.classes[row.required..].sort_unstable();
            }
        }
    }

    /// Counts a number in a row.
    pub fn meet_number(&mut self, title: &str, number: u32) {
        const NAMES: [&str; 11] = ["0", "1", "2", "3", "4", "5", "6", "7", "8", "9", "10"];
        let name = NAMES.get(number as usize).copied().unwrap_or("other");
        self.meet(title, name);
    }

    /// Lists the classes that a run has to meet and this one has not.
    pub fn missing(&self) -> Vec<String> {
        let mut missing = Vec::new();
        for row in &self.rows {
            for (class, met) in &row.classes[..row.required] {
                if *met == 0 {
                    missing.push(format!("{} {class}", row.title));
                }
            }
        }
        missing
    }

    /// Gives the table of a part: one line on its inputs and, where there were any, one for each row.
    pub fn table(&self, name: &str, measured: &str) -> String {
        let mut table = format!("{name}: {}", self.inputs);
        if self.inputs == 0 {
            return table;
        }
        table += &format!(", bytes of {measured}: {}", self.bytes);
        table += &format!(", shortest {}, longest {}", self.shortest, self.longest);
        for row in &self.rows {
            table += &format!("\n  {:<10}", row.title);
            for (class, met) in &row.classes {
                table += &format!("  {class}: {met}");
            }
        }
        table
    }
}

#[cfg(test)]
mod tests {
    use super::*;

    /// What has to be met is missed until it is met, anything else never.
    #[test]
    fn counted_and_missed() {
        let mut tally = Tally::new(&[("number", &["0", "10"]), ("buffer", &[])]);
        assert_eq!(tally.inputs(), 0);
        assert_eq!(tally.table("pairs", "both"), "pairs: 0");
        assert_eq!(tally.missing(), ["number 0", "number 10"]);
        tally.input(3);
        tally.input(20);
        tally.meet_number("number", 10);
        tally.meet_number("number", 10);
        tally.meet_number("number", 7);
        tally.meet("buffer", "exact");
        assert_eq!(tally.inputs(), 2);
        assert_eq!(tally.missing(), ["number 0"]);
        assert_eq!(
            tally.table("pairs", "both"),
            "pairs: 2, bytes of both: 23, shortest 3, longest 20\n  \
             number      0: 0  10: 2  7: 1\n  buffer      exact: 1"
        );
    }
}
