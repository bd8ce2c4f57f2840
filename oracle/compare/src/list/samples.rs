//! Sample 12 of SPECIFICATION 13, from the requests in oracle/samples.

use crate::sparse::inputs::Matrix;

const REQUESTS: [&str; 3] = [
    include_str!("../../../samples/12a.request"),
    include_str!("../../../samples/12b.request"),
    include_str!("../../../samples/12c.request"),
];

pub fn graphs() -> [Matrix; 3] {
    REQUESTS.map(graph)
}

fn graph(request: &str) -> Matrix {
    let line = |label: &str| -> Vec<&str> {
        let found = request
            .lines()
            .map(|line| line.split(' '))
            .find_map(|mut line| (line.next() == Some(label)).then(|| line.collect()));
        found.expect("the request has the line")
    };
    let index = |word: &&str| word.parse().expect("an index");
    let bits = |word: &&str| f64::from_bits(u64::from_str_radix(word, 16).expect("a double"));
    Matrix {
        n: index(&line("n")[0]),
        col_ptr: line("col_ptr").iter().map(index).collect(),
        rows: line("row_idx").iter().map(index).collect(),
        values: line("cost").iter().map(bits).collect(),
    }
}
