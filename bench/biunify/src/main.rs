//! An unverified worklist for the closed relation of goals, with the tables of `mls_biunify::room::Room`, to be measured
//! beside `mls_biunify::saturate::saturate` on the row of cycles and on chains.
use std::time::Instant;

#[derive(Clone, Default)]
struct Head {
    function: Option<(Vec<usize>, Vec<usize>)>,
}

struct Automaton {
    positive: Vec<bool>,
    heads: Vec<Head>,
    partners: Vec<Vec<usize>>,
}

struct Room {
    width: usize,
    places: Vec<usize>,
    rows: Vec<usize>,
    columns: Vec<usize>,
    row_count: usize,
    column_count: usize,
    marks: Vec<bool>,
    order: Vec<u32>,
    len: usize,
    // For each row the number behind its latest pair, and for each pair that of the one before it in its row; and the
    // same of columns.
    last_in_row: Vec<u32>,
    last_in_column: Vec<u32>,
    before_in_row: Vec<u32>,
    before_in_column: Vec<u32>,
}

impl Room {
    fn new(positives: usize, negatives: usize) -> Room {
        Room {
            width: negatives,
            places: vec![0; positives + negatives],
            rows: vec![0; positives],
            columns: vec![0; negatives],
            row_count: 0,
            column_count: 0,
            marks: vec![false; positives * negatives],
            order: vec![0; positives * negatives],
            len: 0,
            last_in_row: vec![0; positives],
            last_in_column: vec![0; negatives],
            before_in_row: vec![0; positives * negatives],
            before_in_column: vec![0; positives * negatives],
        }
    }

    fn insert(&mut self, row: usize, column: usize) {
        let cell = row * self.width + column;
        if !self.marks[cell] {
            self.marks[cell] = true;
            self.order[self.len] = cell as u32;
            self.before_in_row[self.len] = self.last_in_row[row];
            self.before_in_column[self.len] = self.last_in_column[column];
            self.len += 1;
            self.last_in_row[row] = self.len as u32;
            self.last_in_column[column] = self.len as u32;
        }
    }

    fn add_sets(&mut self, positives: &[usize], negatives: &[usize]) {
        for p in positives {
            for n in negatives {
                self.insert(self.places[*p], self.places[*n]);
            }
        }
    }

    fn copy_row(&mut self, from: usize, to: usize) {
        let mut at = self.last_in_row[from] as usize;
        while at > 0 {
            let column = self.order[at - 1] as usize % self.width;
            self.insert(to, column);
            at = self.before_in_row[at - 1] as usize;
        }
    }

    fn copy_column(&mut self, from: usize, to: usize) {
        let mut at = self.last_in_column[from] as usize;
        while at > 0 {
            let row = self.order[at - 1] as usize / self.width;
            self.insert(row, to);
            at = self.before_in_column[at - 1] as usize;
        }
    }

    fn saturate(&mut self, a: &Automaton, goals: &[(usize, usize)]) -> usize {
        for cell in &self.order[..self.len] {
            self.marks[*cell as usize] = false;
        }
        self.len = 0;
        self.last_in_row.fill(0);
        self.last_in_column.fill(0);
        self.row_count = 0;
        self.column_count = 0;
        for s in 0..a.heads.len() {
            if a.positive[s] {
                self.places[s] = self.row_count;
                self.rows[self.row_count] = s;
                self.row_count += 1;
            } else {
                self.places[s] = self.column_count;
                self.columns[self.column_count] = s;
                self.column_count += 1;
            }
        }
        for (p, n) in goals {
            self.add_sets(&[*p], &[*n]);
        }
        let mut next = 0;
        while next < self.len {
            let cell = self.order[next] as usize;
            let p = self.rows[cell / self.width];
            let n = self.columns[cell % self.width];
            if let (Some(upper), Some(lower)) = (&a.heads[p].function, &a.heads[n].function) {
                self.add_sets(&lower.0, &upper.0);
                self.add_sets(&upper.1, &lower.1);
            }
            for q in &a.partners[n] {
                self.copy_row(self.places[*q], self.places[p]);
            }
            for m in &a.partners[p] {
                self.copy_column(self.places[*m], self.places[n]);
            }
            next += 1;
        }
        // No head here has parts of two kinds, so no pair clashes.
        self.len
    }
}

fn function(codomain: usize) -> Head {
    Head { function: Some((Vec::new(), vec![codomain])) }
}

// Two rows of cycles; the pairs of one are found against the order of the numbers.
fn cycles() -> (Automaton, Vec<(usize, usize)>) {
    let mut heads = Vec::new();
    for i in 0..500 {
        heads.push(function((i + 1) % 500));
    }
    for i in 0..500 {
        heads.push(function(500 + (i + 499) % 500));
    }
    for j in 0..501 {
        heads.push(function(1000 + (j + 1) % 501));
    }
    for j in 0..501 {
        heads.push(function(1501 + (j + 500) % 501));
    }
    let positive = (0..2002).map(|s| s < 1000).collect();
    let partners = vec![Vec::new(); 2002];
    (Automaton { positive, heads, partners }, vec![(0, 1000), (500, 1501)])
}

// Positive states 0 to n - 1 and negative states n to 2n - 1. Each negative state n + i has an edge to state i + 1, and
// each state i whose number is a multiple of the step is to be below state n + i.
fn chain(n: usize, step: usize) -> (Automaton, Vec<(usize, usize)>) {
    let mut partners = vec![Vec::new(); 2 * n];
    for i in 0..n - 1 {
        partners[n + i].push(i + 1);
        partners[i + 1].push(n + i);
    }
    let positive = (0..2 * n).map(|s| s < n).collect();
    let goals = (0..n).step_by(step).map(|i| (i, n + i)).collect();
    (Automaton { positive, heads: vec![Head::default(); 2 * n], partners }, goals)
}

fn measure(name: &str, a: &Automaton, goals: &[(usize, usize)], positives: usize) {
    let mut room = Room::new(positives, a.heads.len() - positives);
    let mut least = u128::MAX;
    let mut pairs = 0;
    for _ in 0..20 {
        let begin = Instant::now();
        pairs = room.saturate(a, goals);
        least = least.min(begin.elapsed().as_micros());
    }
    println!("{name}: {pairs} pairs, {least} us");
}

fn main() {
    let (a, goals) = cycles();
    measure("cycles", &a, &goals, 1000);
    for n in [125, 250, 500] {
        for step in [1, 2] {
            let (a, goals) = chain(n, step);
            measure(&format!("chain of {}, step {step}", 2 * n), &a, &goals, n);
        }
    }
}
