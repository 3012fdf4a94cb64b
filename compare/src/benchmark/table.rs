//! The table of a run: a line for each thing measured, with all sizes side by side, and what follows
//! from it.

use super::clock::{Row, Start, SIZES};
use super::machine;
use super::markdown::{binary, grouped, print_rows, short};

/// The nanoseconds of an item: ours, and the other side's where it has a counterpart.
#[derive(Clone, Copy)]
pub struct Cell {
    pub ours: f64,
    pub other: Option<f64>,
}

impl Cell {
    fn ratio(self) -> Option<f64> {
        Some(self.ours / self.other?)
    }

    fn text(self) -> String {
        let ours = short(self.ours);
        match (self.other, self.ratio()) {
            (Some(other), Some(ratio)) => format!("{ours} / {} = {ratio:.2}", short(other)),
            _ => ours,
        }
    }
}

struct Line {
    what: String,
    start: Start,
    budget: Option<f64>,
    /// One for each size, as far as they are measured.
    cells: Vec<Cell>,
}

impl Line {
    fn name(&self) -> String {
        format!("{}, {}", self.what, self.start.name())
    }

    /// How the time of an item grows from the smallest size to the largest.
    fn growth(&self, side: impl Fn(&Cell) -> Option<f64>) -> Option<f64> {
        Some(side(self.cells.last()?)? / side(self.cells.first()?)?)
    }

    fn our_growth(&self) -> Option<f64> {
        self.growth(|cell| Some(cell.ours))
    }

    fn other_growth(&self) -> Option<f64> {
        self.growth(|cell| cell.other)
    }

    /// The sizes whose ratio is over this, each with the ratio.
    fn over(&self, limit: f64) -> Vec<(usize, f64)> {
        let ratios = self.cells.iter().map(|cell| cell.ratio());
        let sizes = SIZES.iter().map(|size| size.keys);
        sizes
            .zip(ratios)
            .filter_map(|(keys, ratio)| Some((keys, ratio?)))
            .filter(|&(_, ratio)| ratio > limit)
            .collect()
    }

    /// The same in words, with the line's name; nothing where no ratio is over.
    fn over_text(&self, limit: f64) -> Option<String> {
        let over = self.over(limit).into_iter();
        let each: Vec<String> = over
            .map(|(keys, ratio)| format!("{ratio:.2} at {}", grouped(keys)))
            .collect();
        (!each.is_empty()).then(|| format!("{} ({})", self.name(), each.join(", ")))
    }

    fn verdict(&self) -> String {
        let Some(budget) = self.budget else {
            return String::new();
        };
        let over: Vec<String> = self
            .over(budget)
            .iter()
            .map(|&(keys, _)| grouped(keys))
            .collect();
        match over.is_empty() {
            true => "within".to_owned(),
            false => format!("over at {}", over.join(" and ")),
        }
    }
}

/// All that was measured beside one other side.
pub struct Table {
    other: &'static str,
    lines: Vec<Line>,
    /// The bytes a key of what a call of ours works in.
    rooms: Vec<(String, f64)>,
}

impl Table {
    pub fn new(other: &'static str) -> Self {
        Self {
            other,
            lines: Vec::new(),
            rooms: Vec::new(),
        }
    }

    /// The sizes come in their order, each with the same rows.
    pub fn note(&mut self, row: Row, start: Start, cell: Cell) {
        let known = |line: &&mut Line| line.what == row.what && line.start == start;
        match self.lines.iter_mut().find(known) {
            Some(line) => line.cells.push(cell),
            None => self.lines.push(Line {
                what: row.what.to_owned(),
                start,
                budget: row.budget,
                cells: vec![cell],
            }),
        }
    }

    /// What a call of ours works in. The last size that is noted stands.
    pub fn note_room(&mut self, what: &str, bytes: usize, keys: usize) {
        self.rooms.retain(|(known, _)| known != what);
        let each = bytes as f64 / keys as f64;
        self.rooms.push((what.to_owned(), each));
    }

    /// How a cell is read, the table, and what follows from it.
    pub fn print_all(&self) {
        self.print_reading();
        self.print();
        if self.has_budgets() {
            self.print_outside();
        }
        self.print_slower();
        self.print_growth();
    }

    fn has_budgets(&self) -> bool {
        self.lines.iter().any(|line| line.budget.is_some())
    }

    fn print(&self) {
        let budgets = self.has_budgets();
        let mut rows = vec![self.heading(budgets)];
        rows.extend(self.lines.iter().map(|line| line_cells(line, budgets)));
        print_rows(&rows, 2);
    }

    fn heading(&self, budgets: bool) -> Vec<String> {
        let mut heading = vec!["what".to_owned(), "start".to_owned()];
        heading.extend(
            SIZES
                .iter()
                .map(|size| format!("{} keys", grouped(size.keys))),
        );
        heading.extend(["ours grows".to_owned(), format!("{} grows", self.other)]);
        if budgets {
            heading.extend(["budget", "verdict"].map(str::to_owned));
        }
        heading
    }

    /// How a cell is read.
    fn print_reading(&self) {
        println!(
            "- A cell is ours / {} = ratio, in ns a key, or a word or a byte where the name says so. \
             Growth is the time at {} keys over the time at {}: 1 is exactly linear.\n",
            self.other,
            grouped(SIZES[SIZES.len() - 1].keys),
            grouped(SIZES[0].keys)
        );
    }

    /// What is outside its budget.
    fn print_outside(&self) {
        let outside = |line: &Line| line.over_text(line.budget?);
        println!("- Outside the budgets: {}.", self.listed(outside));
    }

    /// Where the other side is faster, within a budget or not.
    fn print_slower(&self) {
        let slower = |line: &Line| line.over_text(1.0);
        println!("- Ours is slower in: {}.", self.listed(slower));
    }

    /// The lines of which there is something to say.
    fn listed(&self, text: impl Fn(&Line) -> Option<String>) -> String {
        let each: Vec<String> = self.lines.iter().filter_map(text).collect();
        match each.is_empty() {
            true => "nothing".to_owned(),
            false => each.join("; "),
        }
    }

    /// Which line grows most on either side.
    fn print_growth(&self) {
        let most = |growth: fn(&Line) -> Option<f64>| {
            let each = self
                .lines
                .iter()
                .filter_map(|line| Some((growth(line)?, line)));
            let (most, line) = each.max_by(|(one, _), (other, _)| one.total_cmp(other))?;
            Some(format!("{most:.1} times as long ({})", line.name()))
        };
        let [ours, other] = [Line::our_growth, Line::other_growth].map(most);
        let (Some(ours), Some(other)) = (ours, other) else {
            return;
        };
        let times = SIZES[SIZES.len() - 1].keys / SIZES[0].keys;
        println!(
            "- With {} times as many keys a key takes at most, ours: {ours}; {}: {other}.\n",
            grouped(times),
            self.other
        );
    }

    /// How many keys' worth of what a call works in each cache holds.
    pub fn print_caches(&self) {
        let caches = machine::caches();
        let mut rows = vec![vec!["what".to_owned(), "bytes a key".to_owned()]];
        rows[0].extend(
            caches
                .iter()
                .map(|&cache| format!("keys in {}", binary(cache))),
        );
        for (what, each) in &self.rooms {
            let mut row = vec![what.clone(), format!("{each:.1}")];
            row.extend(
                caches
                    .iter()
                    .map(|&cache| grouped((cache as f64 / each) as usize)),
            );
            rows.push(row);
        }
        print_rows(&rows, 1);
    }
}

fn line_cells(line: &Line, budgets: bool) -> Vec<String> {
    let grown = |growth: Option<f64>| growth.map_or(String::new(), |growth| format!("{growth:.1}"));
    let mut cells = vec![line.what.clone(), line.start.name().to_owned()];
    cells.extend(line.cells.iter().map(|cell| cell.text()));
    cells.extend([line.our_growth(), line.other_growth()].map(grown));
    if budgets {
        let budget = line
            .budget
            .map_or(String::new(), |budget| format!("{budget:.1}"));
        cells.extend([budget, line.verdict()]);
    }
    cells
}
