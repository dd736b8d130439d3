//! All that was measured: kept, printed as tables, written as CSV.

use std::fmt::Write;

/// One measured time.
#[derive(Clone, Debug)]
pub struct Line {
    /// The kind of rules.
    pub set: &'static str,
    /// How many.
    pub rules: usize,
    /// What was done.
    pub what: String,
    /// By whom.
    pub who: &'static str,
    /// How long it took, a command or a whole.
    pub nanoseconds: f64,
}

/// The ways to hold rules, in the order of the tables: the proved book, no index, a tree of maps, a tuned tree.
pub const WAYS: [&str; 4] = ["archive", "one by one", "map tree", "arena tree"];

/// All lines.
#[derive(Default)]
pub struct Sheet {
    lines: Vec<Line>,
}

impl Sheet {
    /// One more line.
    pub fn put(&mut self, line: Line) {
        self.lines.push(line);
    }

    /// All lines.
    pub fn lines(&self) -> &[Line] {
        &self.lines
    }

    /// The time of one line, if it was measured.
    pub fn time(&self, set: &str, rules: usize, what: &str, who: &str) -> Option<f64> {
        let is = |line: &&Line| {
            line.set == set && line.rules == rules && line.what == what && line.who == who
        };
        self.lines.iter().find(is).map(|line| line.nanoseconds)
    }

    /// As many times as long as another way took, for each line of the archive with these beginnings.
    pub fn ratios<'a>(
        &'a self,
        set: &'a str,
        what: &'a str,
        other: &'a str,
    ) -> impl Iterator<Item = f64> + 'a {
        let of_archive = move |line: &&Line| {
            line.who == WAYS[0] && line.set.starts_with(set) && line.what.starts_with(what)
        };
        self.lines
            .iter()
            .filter(of_archive)
            .filter_map(move |line| {
                let theirs = self.time(line.set, line.rules, &line.what, other)?;
                Some(line.nanoseconds / theirs)
            })
    }

    /// The lines as CSV.
    pub fn csv(&self) -> String {
        let mut text = String::from("set,rules,what,who,nanoseconds\n");
        for line in &self.lines {
            let Line {
                set,
                rules,
                what,
                who,
                nanoseconds,
            } = line;
            let _ = writeln!(text, "{set},{rules},{what},{who},{nanoseconds:.1}");
        }
        text
    }

    /// A table of all ways, a row for each set, number of rules and thing done that begins so.
    pub fn table(&self, title: &str, what: &str) -> String {
        let mut text = format!("\n{title}\n");
        let _ = writeln!(
            text,
            "{:<10} {:>5} {:<32} {:>10} {:>10} {:>10} {:>10}   {:>7} {:>7} {:>7}",
            "rules", "held", "what", WAYS[0], WAYS[1], WAYS[2], WAYS[3], "/list", "/map", "/arena"
        );
        let of_archive = |line: &&Line| line.who == WAYS[0] && line.what.starts_with(what);
        for line in self.lines.iter().filter(of_archive) {
            text += &self.row(line);
        }
        text
    }

    /// A row: four times, and the archive's as a multiple of the others'.
    fn row(&self, line: &Line) -> String {
        let times = WAYS.map(|who| self.time(line.set, line.rules, &line.what, who));
        let time = |time: Option<f64>| time.map_or(String::from("-"), |time| format!("{time:.0}"));
        let ratio = |other: Option<f64>| match (times[0], other) {
            (Some(ours), Some(theirs)) => format!("{:.2}", ours / theirs),
            _ => String::from("-"),
        };
        let [ours, list, map, arena] = times.map(time);
        let [by_list, by_map, by_arena] = [times[1], times[2], times[3]].map(ratio);
        format!(
            "{:<10} {:>5} {:<32} {ours:>10} {list:>10} {map:>10} {arena:>10}   {by_list:>7} {by_map:>7} {by_arena:>7}\n",
            line.set, line.rules, line.what
        )
    }
}
