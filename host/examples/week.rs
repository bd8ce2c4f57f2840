//! A host's whole way: a real matrix (Matrix Market text, general or symmetric), its logarithms, the cost graph, the
//! match, which travels as a sheet file, the log factors, their exponentials; then the largest entry of each row and
//! column, before and after. Beside it the road without `ln` and `exp`: the cost graph of whole-number logarithms, its
//! match, the check of that match, powers of two, the matrix scaled by them.
//! `cargo run --release --example week [FILE]`, after `tools/build.sh suontarvi`; without a file, week.mtx.
use std::error::Error;

use suontarvi::{Columns, CostGraph, GeneralMatrix, LogFactors, Matching, Refusal, SymmetricMatrix};

/// Of either kind.
enum Matrix {
    General(GeneralMatrix),
    Symmetric(SymmetricMatrix),
}

impl Matrix {
    fn columns(&self) -> &Columns {
        match self {
            Matrix::General(matrix) => matrix,
            Matrix::Symmetric(matrix) => matrix,
        }
    }

    /// Both triangles of a symmetric matrix; a general one as it is.
    fn general(&self) -> GeneralMatrix {
        match self {
            Matrix::General(matrix) => matrix.clone(),
            Matrix::Symmetric(matrix) => matrix.to_general(),
        }
    }

    /// The logarithms are the host's own.
    fn graph(&self) -> Result<CostGraph, Refusal> {
        match self {
            Matrix::General(matrix) => matrix.cost_graph(&matrix.logs()),
            Matrix::Symmetric(matrix) => matrix.cost_graph(&matrix.logs()),
        }
    }

    /// What each row and each column is multiplied by. The exponentials are the host's own, too.
    fn factors(&self, found: &Matching) -> Result<Factors, Refusal> {
        let LogFactors { rows, columns } = match self {
            Matrix::General(_) => found.unsymmetric_log_factors()?,
            Matrix::Symmetric(_) => {
                let both = found.log_factors()?.logs;
                LogFactors { rows: both.clone(), columns: both }
            }
        };
        let exp = |logs: Vec<f64>| logs.into_iter().map(f64::exp).collect();
        Ok(Factors { rows: exp(rows), columns: exp(columns) })
    }
}

struct Factors {
    rows: Vec<f64>,
    columns: Vec<f64>,
}

/// Whether the banner, in any letter case, is that of a symmetric matrix.
fn is_symmetric(banner: &str) -> Result<bool, Box<dyn Error>> {
    let words: Vec<String> = banner.split_whitespace().map(str::to_ascii_lowercase).collect();
    let words: Vec<&str> = words.iter().map(String::as_str).collect();
    match words[..] {
        ["%%matrixmarket", "matrix", "coordinate", "real", "general"] => Ok(false),
        ["%%matrixmarket", "matrix", "coordinate", "real", "symmetric"] => Ok(true),
        _ => Err("the banner is not that of a real matrix by coordinates".into()),
    }
}

/// The three words of a line.
fn three(line: Option<&str>) -> Result<[&str; 3], Box<dyn Error>> {
    let words: Vec<&str> = line.ok_or("no size line")?.split_whitespace().collect();
    Ok(words.try_into().map_err(|_| "a size line and an entry have three numbers")?)
}

/// Reads banner, comments, size line and entries, and has them assembled.
fn read(text: &str) -> Result<Matrix, Box<dyn Error>> {
    let mut lines = text.lines();
    let symmetric = is_symmetric(lines.next().unwrap_or_default())?;
    let mut lines = lines.filter(|line| !line.starts_with('%') && !line.trim().is_empty());
    let [rows, columns, count] = three(lines.next())?;
    if columns != rows {
        return Err("the matrix is not square".into());
    }
    let (n, count) = (rows.parse()?, count.parse::<usize>()?);
    let mut entries = Vec::new();
    for line in lines {
        let [row, column, value] = three(Some(line))?;
        // 0 wraps to an index that the library refuses
        let index = |word: &str| word.parse::<u32>().map(|index| index.wrapping_sub(1));
        entries.push((index(row)?, index(column)?, value.parse()?));
    }
    if entries.len() != count {
        return Err("the size line counts other entries".into());
    }
    let matrix = match symmetric {
        false => GeneralMatrix::from_entries(n, entries).map(Matrix::General),
        true => SymmetricMatrix::from_entries(n, entries).map(Matrix::Symmetric),
    };
    matrix.map_err(refused("the entries"))
}

/// The largest magnitude in each row and in each column, once multiplied.
fn largest(matrix: &GeneralMatrix, by: &Factors) -> (Vec<f64>, Vec<f64>) {
    let (mut rows, mut columns) = (vec![0.0f64; matrix.n()], vec![0.0f64; matrix.n()]);
    for (row, column, value) in matrix.entries() {
        let size = (by.rows[row] * value * by.columns[column]).abs();
        rows[row] = rows[row].max(size);
        columns[column] = columns[column].max(size);
    }
    (rows, columns)
}

/// The road without `ln` and `exp`. The costs are whole, so that the match itself can be checked; powers of two round
/// nothing. The largest magnitude after them, and the least of the matched entries.
fn by_powers(mut matrix: GeneralMatrix) -> Result<(f64, f64), Box<dyn Error>> {
    let graph = matrix.whole_cost_graph().map_err(refused("the values"))?;
    let found = graph.matching();
    graph.check(&found).map_err(refused("the pairs"))?;
    let exponents = found.exponents().map_err(refused("the duals"))?;
    matrix.scale_by(&exponents).map_err(refused("the scaled values"))?;
    let (mut largest, mut least) = (0.0f64, f64::INFINITY);
    for (row, column, value) in matrix.entries() {
        largest = largest.max(value.abs());
        if found.perm[column] as usize == row {
            least = least.min(value.abs());
        }
    }
    Ok((largest, least))
}

fn refused(what: &'static str) -> impl Fn(Refusal) -> Box<dyn Error> {
    move |refusal| format!("{what} are {refusal}").into()
}

fn main() -> Result<(), Box<dyn Error>> {
    let text = match std::env::args().nth(1) {
        Some(path) => std::fs::read_to_string(path)?,
        None => include_str!("week.mtx").to_string(),
    };
    let matrix = read(&text)?;
    let found = matrix.graph().map_err(refused("the values"))?.matching();
    // as it would go to another machine
    let sheet = found.to_sheet().map_err(refused("the pairs"))?;
    let found = Matching::from_canonical_sheet(&sheet).map_err(refused("the bytes"))?;
    let factors = matrix.factors(&found).map_err(refused("the duals"))?;
    let (matched, n, bytes) = (found.matched, matrix.columns().n(), sheet.len());
    println!("matched {matched} of {n}, a sheet of {bytes} bytes");
    print_largest(&matrix.general(), &factors);
    match by_powers(matrix.general()) {
        Ok((largest, least)) => {
            println!("by powers of two: largest {largest:.6}, least matched {least:.6}; the match is checked")
        }
        Err(reason) => println!("by powers of two: {reason}"),
    }
    Ok(())
}

fn print_largest(matrix: &GeneralMatrix, factors: &Factors) {
    let n = matrix.n();
    let ones = Factors { rows: vec![1.0; n], columns: vec![1.0; n] };
    let (before, after) = (largest(matrix, &ones), largest(matrix, factors));
    println!("largest     in row: before        after   in column: before        after");
    for k in 0..n {
        let (row, column) = ((before.0[k], after.0[k]), (before.1[k], after.1[k]));
        println!("{:>7} {:>18.3e} {:>12.6} {:>19.3e} {:>12.6}", k + 1, row.0, row.1, column.0, column.1);
    }
}

#[test]
fn banners_in_any_letter_case() {
    let kinds = ["%%MatrixMarket matrix coordinate real general", "%%MATRIXMARKET Matrix COORDINATE Real General"];
    assert!(kinds.iter().all(|banner| !is_symmetric(banner).unwrap()));
    assert!(is_symmetric("%%matrixmarket MATRIX coordinate REAL Symmetric").unwrap());
    assert!(is_symmetric("%%MatrixMarket matrix array real general").is_err());
    let upper = include_str!("week.mtx").replacen("%%MatrixMarket matrix", "%%MATRIXMARKET MATRIX", 1);
    assert_eq!(read(&upper).unwrap().columns().values().len(), 21);
}
