//! Random cost graphs, whole and damaged, and graphs at the limits of both interfaces.

use crate::range::{above, last_cost, last_whole_cost, sizes};
use crate::sparse::inputs::Matrix;
use oracle::random::Random;

/// Which rows a column may have.
#[derive(Clone, Copy)]
enum Shape {
    Any,
    EmptyColumns,
    EmptyRows,
    /// Most columns share few rows, so that they cannot all be matched.
    Hall,
    Band,
}

const SHAPES: [Shape; 5] = [
    Shape::Any,
    Shape::EmptyColumns,
    Shape::EmptyRows,
    Shape::Hall,
    Shape::Band,
];

/// A graph of n up to 12, now and then of the dense rule's size or up to 256.
pub fn random(random: &mut Random) -> Matrix {
    let n = match random.below(100) {
        0..=1 => 50 + random.below(11),
        2 => random.below(257),
        _ => random.below(13),
    };
    sized(n, random)
}

/// A graph of n, of some shape.
pub fn sized(n: usize, random: &mut Random) -> Matrix {
    let per_mille = match n {
        0..=12 => [150, 300, 500, 800, 1000][random.below(5)],
        _ => 1000 * (2 + random.below(7)) / n,
    };
    let shape = SHAPES[random.below(SHAPES.len())];
    let columns = (0..n).map(|column| rows_of(shape, n, column, per_mille, random));
    let columns: Vec<Vec<u32>> = columns.collect();
    by_columns(&columns, random)
}

fn rows_of(
    shape: Shape,
    n: usize,
    column: usize,
    per_mille: usize,
    random: &mut Random,
) -> Vec<u32> {
    let few = random.chance(700);
    let may = |row: usize| match shape {
        Shape::Any => true,
        Shape::EmptyColumns => column % 3 != 1,
        Shape::EmptyRows => row % 3 != 1,
        Shape::Hall => !few || row < n / 3,
        Shape::Band => row.abs_diff(column) < 3,
    };
    let per_mille = match shape {
        Shape::Any | Shape::EmptyColumns => per_mille,
        _ => (2 * per_mille).min(1000),
    };
    let rows = (0..n).filter(|&row| may(row) && random.chance(per_mille));
    rows.map(|row| row as u32).collect()
}

fn by_columns(columns: &[Vec<u32>], random: &mut Random) -> Matrix {
    let mut col_ptr = vec![0];
    for column in columns {
        col_ptr.push(col_ptr[col_ptr.len() - 1] + column.len() as u32);
    }
    let (n, rows) = (columns.len() as u32, columns.concat());
    Matrix {
        n,
        col_ptr,
        values: costs(random, n, rows.len()),
        rows,
    }
}

/// Below this are the costs that fit every n.
const COMMON: f64 = 68_719_476_736.0;

/// Costs of one mood, in a graph of n columns.
fn costs(random: &mut Random, n: u32, count: usize) -> Vec<f64> {
    let (last, whole) = (last_cost(n), last_whole_cost(n));
    let common = [COMMON - 1.0, COMMON.min(last)];
    let ends = [
        0.0,
        -0.0,
        0.5,
        5e-324,
        whole as f64,
        common[0],
        common[1],
        last,
    ];
    let mood = random.below(9);
    let cost = |random: &mut Random| match mood {
        0 => random.below(4) as f64,
        1 => random.below(100) as f64,
        2 => (random.bits() % (whole + 1)) as f64,
        3 => random.unit() * 10.0,
        4 => random.unit() * last,
        5 => 2.5,
        6 => 0.0,
        7 => [0.0, -0.0][random.below(2)],
        _ => ends[random.below(ends.len())],
    };
    (0..count).map(|_| cost(random)).collect()
}

/// One or two changes in the graph, each at one rule.
pub fn damage(graph: &mut Matrix, random: &mut Random) {
    let wrong = wrong_costs(graph.n);
    for _ in 0..1 + random.below(2) {
        match random.below(8) {
            0 if graph.n < 257 => graph.n = 257,
            1..=3 if !graph.values.is_empty() => {
                let at = random.below(graph.values.len());
                graph.values[at] = wrong[random.below(wrong.len())];
            }
            _ => graph.damage(random),
        }
    }
}

/// What is no cost in a graph of n columns; the first is the least positive one.
fn wrong_costs(n: u32) -> [f64; 9] {
    [
        above(last_cost(n)),
        (last_whole_cost(n) + 1) as f64,
        281_474_976_710_656.0,
        -1.0,
        -5e-324,
        f64::NAN,
        -f64::NAN,
        f64::INFINITY,
        f64::NEG_INFINITY,
    ]
}

/// For many n a band whose costs are the largest, and the same with one cost next to them that does not fit.
pub fn at_cost_limits(random: &mut Random) -> Vec<Matrix> {
    let mut graphs = Vec::new();
    for n in sizes() {
        let (last, whole) = (last_cost(n), last_whole_cost(n) as f64);
        let mut graph = Matrix::band(n, 3, (3 * n as usize).saturating_sub(3).max(1), random);
        for cost in &mut graph.values {
            *cost = [last, last, whole, last / 2.0, 0.0][random.below(5)];
        }
        let at = random.below(graph.values.len());
        for cost in [last, wrong_costs(n)[0], wrong_costs(n)[1], -last] {
            graph.values[at] = cost;
            graphs.push(graph.clone());
        }
    }
    graphs
}

/// Graphs at each limit and one past it.
pub fn at_limits(random: &mut Random) -> Vec<Matrix> {
    let sizes = [
        (256, 9, 2048),
        (256, 256, 2048),
        (256, 9, 2049),
        (257, 9, 2048),
        (257, 9, 2049),
        (4096, 65, 262_144),
        (4096, 65, 262_145),
        (4097, 65, 262_144),
        (4096, 1, 0),
        (4097, 1, 0),
    ];
    let mut graphs: Vec<Matrix> = Vec::new();
    for (n, width, ties) in sizes {
        let mut graph = Matrix::band(n, width, ties, random);
        graph.values = costs(random, n, ties);
        graphs.push(graph);
    }
    for _ in 0..10 {
        graphs.push(spread(256, 8, random));
        graphs.push(spread(4096, 64, random));
    }
    graphs.push(spread(512, 512, random));
    graphs
}

/// Columns of as many random rows; n is a power of two, so that an odd step meets each row once.
fn spread(n: usize, per_column: usize, random: &mut Random) -> Matrix {
    let column = |random: &mut Random| {
        let (first, step) = (random.below(n), 2 * random.below(n / 2) + 1);
        let row = |k: usize| ((first + k * step) % n) as u32;
        let mut rows: Vec<u32> = (0..per_column).map(row).collect();
        rows.sort_unstable();
        rows
    };
    let columns: Vec<Vec<u32>> = (0..n).map(|_| column(random)).collect();
    by_columns(&columns, random)
}
