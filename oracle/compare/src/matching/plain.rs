//! The match a second time, straight from SPECIFICATION 5, with the two counts that the original lacks: the rows
//! popped and the largest heap. It must give the original's perm, u, v and five counts on every input.

use oracle::{Graph, NONE};

/// Farther than any row: half of the largest double.
const RINF: f64 = f64::MAX / 2.0;

/// A finished match; the counts are slots, searches, touched, inner steps, scanned, popped, largest heap.
pub struct Plain {
    pub perm: Vec<usize>,
    pub u: Vec<f64>,
    pub v: Vec<f64>,
    pub matched: usize,
    pub counts: [u64; 7],
}

/// The pairs and duals so far.
struct State<'a> {
    graph: &'a Graph,
    iperm: Vec<usize>,
    jperm: Vec<usize>,
    u: Vec<f64>,
    num: usize,
    counts: [u64; 7],
}

/// One search. The heap is one-based; `place` has the place of each row, 0 for one that is not in it.
struct Search {
    d: Vec<f64>,
    heap: Vec<usize>,
    place: Vec<usize>,
    parent: Vec<usize>,
    out: Vec<usize>,
    touched: Vec<usize>,
    popped: Vec<usize>,
    out_of_heap: Vec<bool>,
    best: (f64, usize, usize),
    peak: usize,
}

pub fn plain(graph: &Graph) -> Plain {
    let mut state = State::claimed(graph);
    if state.num < graph.n() {
        state.improve_all();
    }
    for u in &mut state.u {
        if *u >= RINF {
            *u = 0.0;
        }
    }
    if state.num < graph.n() {
        state.counts[0] += graph.n() as u64;
        for column in 0..graph.n() {
            if state.jperm[column] == NONE {
                state.augment(column);
            }
        }
    }
    state.finished()
}

/// The entries of column j.
fn column(graph: &Graph, j: usize) -> std::ops::Range<usize> {
    graph.col_ptr()[j]..graph.col_ptr()[j + 1]
}

impl<'a> State<'a> {
    /// Phases 1 and 2.
    fn claimed(graph: &'a Graph) -> State<'a> {
        let n = graph.n();
        let (mut u, mut least) = (vec![RINF; n], vec![(NONE, NONE); n]);
        for j in 0..n {
            for k in column(graph, j) {
                let i = graph.row_idx()[k];
                if graph.cost()[k] <= u[i] {
                    (u[i], least[i]) = (graph.cost()[k], (j, k));
                }
            }
        }
        let (iperm, jperm) = (vec![NONE; n], vec![NONE; n]);
        let mut state = State {
            graph,
            iperm,
            jperm,
            u,
            num: 0,
            counts: [0; 7],
        };
        for (i, &(j, k)) in least.iter().enumerate() {
            let dense = |j: usize| n > 50 && column(graph, j).len() > n / 10;
            if j != NONE && state.jperm[j] == NONE && !dense(j) {
                state.pair(i, j, k);
                state.num += 1;
            }
        }
        state
    }

    fn pair(&mut self, i: usize, j: usize, k: usize) {
        self.iperm[i] = j;
        self.jperm[j] = k;
    }

    fn value(&self, k: usize) -> f64 {
        self.graph.cost()[k] - self.u[self.graph.row_idx()[k]]
    }

    fn free_row(&self, k: usize) -> bool {
        self.iperm[self.graph.row_idx()[k]] == NONE
    }

    /// Phase 3.
    fn improve_all(&mut self) {
        let n = self.graph.n();
        let mut least = vec![0.0; n];
        let mut from = self.graph.col_ptr()[..n].to_vec();
        for j in 0..n {
            if self.jperm[j] == NONE && !column(self.graph, j).is_empty() {
                self.improve(j, &mut least, &mut from);
            }
        }
    }

    fn improve(&mut self, j: usize, least: &mut [f64], from: &mut [usize]) {
        let graph = self.graph;
        let mut best = graph.col_ptr()[j];
        for k in column(graph, j).skip(1) {
            let (value, kept) = (self.value(k), self.value(best));
            let stays =
                value == kept && value != RINF && (!self.free_row(k) || self.free_row(best));
            if value <= kept && !stays {
                best = k;
            }
        }
        let bound = self.value(best);
        least[j] = bound;
        if self.free_row(best) {
            self.pair(graph.row_idx()[best], j, best);
            self.num += 1;
            from[j] = best + 1;
            return;
        }
        for k in best..graph.col_ptr()[j + 1] {
            if self.value(k) <= bound && !self.free_row(k) && self.swap(j, k, least, from) {
                return;
            }
        }
    }

    /// Column j takes the row of entry k if the column that has it finds a free row.
    fn swap(&mut self, j: usize, k: usize, least: &[f64], from: &mut [usize]) -> bool {
        let row = self.graph.row_idx()[k];
        let holder = self.iperm[row];
        for other in from[holder]..self.graph.col_ptr()[holder + 1] {
            self.counts[3] += 1;
            if self.free_row(other) && self.value(other) <= least[holder] {
                self.pair(self.graph.row_idx()[other], holder, other);
                self.pair(row, j, k);
                self.num += 1;
                (from[holder], from[j]) = (other + 1, k + 1);
                return true;
            }
        }
        from[holder] = self.graph.col_ptr()[holder + 1];
        false
    }

    /// The search from the free column `root`, and what follows from its answer.
    fn augment(&mut self, root: usize) {
        let mut search = Search::new(self.graph.n());
        self.counts[1] += 1;
        self.scan(&mut search, root, None);
        while search.heap.len() > 1 && search.d[search.heap[1]] < search.best.0 {
            let q = search.pop();
            let j = self.iperm[q];
            let offset = search.d[q] - self.graph.cost()[self.jperm[j]] + self.u[q];
            self.scan(&mut search, j, Some(offset));
        }
        self.follow(&search);
        let touched = search.touched.len() as u64;
        self.counts[0] += touched;
        self.counts[2] += touched;
        self.counts[5] += search.popped.len() as u64;
        self.counts[6] = self.counts[6].max(search.peak as u64);
    }

    fn scan(&mut self, search: &mut Search, j: usize, offset: Option<f64>) {
        let graph = self.graph;
        self.counts[4] += column(graph, j).len() as u64;
        for k in column(graph, j) {
            let i = graph.row_idx()[k];
            let x = match offset {
                None => graph.cost()[k] - self.u[i],
                Some(v) => v + graph.cost()[k] - self.u[i],
            };
            if search.out_of_heap[i] || search.best.0 <= x {
                continue;
            }
            if self.iperm[i] == NONE {
                search.best = (x, k, j);
            } else if x < search.d[i] {
                let column = self.iperm[i];
                (search.parent[column], search.out[column]) = (j, k);
                search.reach(i, x);
            }
        }
    }

    /// With a path the popped rows' duals rise and the pairs are flipped along it.
    fn follow(&mut self, search: &Search) {
        let (cost, mut k, mut j) = search.best;
        if cost >= RINF {
            return;
        }
        for &i in &search.popped {
            self.u[i] += search.d[i] - cost;
        }
        self.num += 1;
        self.pair(self.graph.row_idx()[k], j, k);
        while search.parent[j] != NONE {
            (k, j) = (search.out[j], search.parent[j]);
            self.pair(self.graph.row_idx()[k], j, k);
        }
    }

    fn finished(self) -> Plain {
        let entry = |k: &usize| (*k != NONE).then_some(*k);
        let row = |k: &usize| entry(k).map_or(NONE, |k| self.graph.row_idx()[k]);
        let dual = |k: &usize| entry(k).map_or(0.0, |k| self.value(k));
        let kept = |(i, &u): (usize, &f64)| if self.iperm[i] == NONE { 0.0 } else { u };
        Plain {
            perm: self.jperm.iter().map(row).collect(),
            u: self.u.iter().enumerate().map(kept).collect(),
            v: self.jperm.iter().map(dual).collect(),
            matched: self.num,
            counts: self.counts,
        }
    }
}

impl Search {
    fn new(n: usize) -> Search {
        Search {
            d: vec![RINF; n],
            heap: vec![NONE],
            place: vec![0; n],
            parent: vec![NONE; n],
            out: vec![NONE; n],
            touched: Vec::new(),
            popped: Vec::new(),
            out_of_heap: vec![false; n],
            best: (RINF, NONE, NONE),
            peak: 0,
        }
    }

    fn put(&mut self, place: usize, row: usize) {
        self.heap[place] = row;
        self.place[row] = place;
    }

    /// Row i is x away now; a new one enters the heap.
    fn reach(&mut self, i: usize, x: f64) {
        self.d[i] = x;
        if self.place[i] == 0 {
            self.touched.push(i);
            self.heap.push(i);
            self.place[i] = self.heap.len() - 1;
            self.peak = self.peak.max(self.heap.len() - 1);
        }
        let mut at = self.place[i];
        while at > 1 && self.d[self.heap[at / 2]] > x {
            self.put(at, self.heap[at / 2]);
            at /= 2;
        }
        self.put(at, i);
    }

    /// The nearest row leaves the heap.
    fn pop(&mut self) -> usize {
        let top = self.heap[1];
        let last = self.heap.pop().expect("a row");
        self.place[top] = 0;
        self.popped.push(top);
        self.out_of_heap[top] = true;
        let len = self.heap.len() - 1;
        if len == 0 {
            return top;
        }
        let mut at = 1;
        while 2 * at <= len {
            let left = 2 * at;
            let right_nearer = left < len && self.d[self.heap[left + 1]] < self.d[self.heap[left]];
            let child = left + usize::from(right_nearer);
            if self.d[last] <= self.d[self.heap[child]] {
                break;
            }
            self.put(at, self.heap[child]);
            at = child;
        }
        self.put(at, last);
        top
    }
}
