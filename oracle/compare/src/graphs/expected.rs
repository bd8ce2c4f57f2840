//! What a call must answer: a refusal, or the graph.

use super::inputs::Call;
use crate::range::log_fits;
use crate::sparse::{narrow, wide, Kind};
use oracle::{General, Symmetric};

/// The graph and each column's largest log.
pub struct Expected {
    pub pointers: Vec<u32>,
    pub rows: Vec<u32>,
    pub cost: Vec<f64>,
    pub cmax: Vec<f64>,
}

/// The first refusal in the order of SPECIFICATION 3.5, or the graph.
pub fn expected(kind: Kind, call: &Call) -> Result<Expected, u32> {
    match kind.fault(&call.matrix, call.lengths_fit(kind)) {
        0 => {}
        fault => return Err(fault),
    }
    contents(kind, call)?;
    Ok(match natural(call) {
        true => original(kind, call),
        false => by_rules(kind, call),
    })
}

/// The same of the calls that make their own logs: the matrix's faults, a value that is not finite, or the graph of
/// the logs that `Call::with_whole_logs` put in.
pub fn expected_whole(kind: Kind, call: &Call) -> Result<Expected, u32> {
    match kind.fault(&call.matrix, call.lengths_fit(kind)) {
        0 if call.matrix.values.iter().all(|value| value.is_finite()) => Ok(by_rules(kind, call)),
        0 => Err(9),
        fault => Err(fault),
    }
}

/// SPECIFICATION's refusals 9 and 8, in stored order.
pub fn contents(kind: Kind, call: &Call) -> Result<(), u32> {
    for (&value, &log) in call.matrix.values.iter().zip(&call.logs) {
        if kind == Kind::Symmetric && !value.is_finite() {
            return Err(9);
        }
        if kept(value) && !log_fits(call.matrix.n, log) {
            return Err(8);
        }
    }
    Ok(())
}

/// Whether an entry is in the graph.
pub fn kept(value: f64) -> bool {
    value != 0.0 && value.is_finite()
}

/// Whether the log of every kept entry is Rust's own.
pub fn natural(call: &Call) -> bool {
    let entries = call.matrix.values.iter().zip(&call.logs);
    entries
        .filter(|(&value, _)| kept(value))
        .all(|(value, log)| value.abs().ln().to_bits() == log.to_bits())
}

fn original(kind: Kind, call: &Call) -> Expected {
    let matrix = &call.matrix;
    let (n, values) = (matrix.n as usize, matrix.values.clone());
    let (col_ptr, row_idx) = (wide(&matrix.col_ptr), wide(&matrix.rows));
    let (graph, cmax) = match kind {
        Kind::Symmetric => Symmetric::new(n, col_ptr, row_idx, values).cost_graph(),
        Kind::General => General::new(n, col_ptr, row_idx, values).cost_graph(),
    };
    Expected {
        pointers: narrow(graph.col_ptr()),
        rows: narrow(graph.row_idx()),
        cost: graph.cost().to_vec(),
        cmax,
    }
}

/// The graph of any logs, by the rules of SPECIFICATION 6.
fn by_rules(kind: Kind, call: &Call) -> Expected {
    let empty = match kind {
        Kind::Symmetric => f64::NEG_INFINITY,
        Kind::General => 0.0,
    };
    let mut graph = Expected {
        pointers: vec![0],
        rows: Vec::new(),
        cost: Vec::new(),
        cmax: Vec::new(),
    };
    for column in columns(kind, call) {
        let first_largest = |best: f64, &(_, log): &(u32, f64)| if log > best { log } else { best };
        let largest = column.iter().fold(f64::NEG_INFINITY, first_largest);
        graph.rows.extend(column.iter().map(|&(row, _)| row));
        graph
            .cost
            .extend(column.iter().map(|&(_, log)| largest - log));
        graph.pointers.push(graph.rows.len() as u32);
        graph
            .cmax
            .push(if column.is_empty() { empty } else { largest });
    }
    graph
}

/// For each column of the graph its rows, rising, and their logs.
pub fn columns(kind: Kind, call: &Call) -> Vec<Vec<(u32, f64)>> {
    let matrix = &call.matrix;
    let mut columns = vec![Vec::new(); matrix.n as usize];
    for column in 0..matrix.n {
        let ends = &matrix.col_ptr[column as usize..];
        for at in ends[0] as usize..ends[1] as usize {
            let (row, log) = (matrix.rows[at], call.logs[at]);
            if !kept(matrix.values[at]) {
                continue;
            }
            columns[column as usize].push((row, log));
            if kind == Kind::Symmetric && row != column {
                columns[row as usize].push((column, log));
            }
        }
    }
    for column in &mut columns {
        column.sort_by_key(|&(row, _)| row);
    }
    columns
}
