//! What is asked and what is answered, keyword by keyword.

use oracle::text::{Answer, Request};
use oracle::{General, Graph, Matched, ScalingInfo, ScalingStrategy, Symmetric};
use std::panic::{catch_unwind, AssertUnwindSafe};

/// The part that runs the original, once the request has been read.
type Job = Box<dyn FnOnce(&mut Answer)>;

/// A matrix given in a request: n, pointers, rows, values.
type Columns = (usize, Vec<usize>, Vec<usize>, Vec<f64>);

/// The largest n that is taken: far above the limit of SPECIFICATION 3.2, and small
/// enough for memory.
const MOST_ROWS: usize = 1_000_000;

/// The answer's text, or what is wrong with the request. Where the original
/// panics, the answer says so.
pub fn answer(mut request: Request) -> Result<String, String> {
    let keyword = request.keyword.clone();
    let job = job(&mut request)?;
    request.finish()?;
    let done = catch_unwind(AssertUnwindSafe(|| {
        let mut answer = Answer::new(&keyword);
        job(&mut answer);
        answer
    }));
    let answer = done.unwrap_or_else(|_| {
        let mut answer = Answer::new(&keyword);
        answer.line("panicked", [""; 0]);
        answer
    });
    Ok(answer.finish())
}

fn job(request: &mut Request) -> Result<Job, String> {
    match request.keyword.as_str() {
        "match" => run_match(request),
        "validate-symmetric" => symmetric(request, |m, a| verdict(a, m.validate())),
        "validate-general" => general(request, |m, a| verdict(a, m.validate())),
        "triplets-symmetric" => triplets(request, |n, rows, cols, values| {
            Symmetric::from_triplets(n, rows, cols, values).map(Symmetric::into_parts)
        }),
        "triplets-general" => triplets(request, |n, rows, cols, values| {
            General::from_triplets(n, rows, cols, values).map(General::into_parts)
        }),
        "graph-symmetric" => symmetric(request, |m, a| graph(a, m.cost_graph())),
        "graph-general" => general(request, |m, a| graph(a, m.cost_graph())),
        "matching-symmetric" => symmetric(request, |m, a| matched(a, m.matching())),
        "matching-general" => general(request, |m, a| matched(a, m.matching())),
        "factors-symmetric" => given(request, |m, a| factors(a, m.symmetric_factors())),
        "log-factors-symmetric" => given(request, |m, a| factors(a, m.symmetric_logs())),
        "factors-unsymmetric" => given_duals(request, |m, a| two_sided(a, m.unsymmetric_factors())),
        "log-factors-unsymmetric" => {
            given_duals(request, |m, a| two_sided(a, m.unsymmetric_logs()))
        }
        "infnorm" => symmetric(request, |m, a| factors(a, m.infnorm())),
        "onepass" => symmetric(request, |m, a| factors(a, m.onepass())),
        "choose" => choose(request),
        "ln" => each(request, oracle::logs),
        "sqrt" => each(request, |values| values.iter().map(|x| x.sqrt()).collect()),
        _ => Err(request.fault("no request is called so")),
    }
}

fn size(request: &mut Request) -> Result<usize, String> {
    match request.index("n")? {
        n if n <= MOST_ROWS => Ok(n),
        n => Err(request.fault(&format!("n is {n}, above {MOST_ROWS}"))),
    }
}

fn columns(request: &mut Request, numbers: &str) -> Result<Columns, String> {
    Ok((
        size(request)?,
        request.indices("col_ptr")?,
        request.indices("row_idx")?,
        request.doubles(numbers)?,
    ))
}

fn symmetric(request: &mut Request, answer: fn(Symmetric, &mut Answer)) -> Result<Job, String> {
    let (n, col_ptr, row_idx, values) = columns(request, "values")?;
    let matrix = Symmetric::new(n, col_ptr, row_idx, values);
    Ok(Box::new(move |a| answer(matrix, a)))
}

fn general(request: &mut Request, answer: fn(General, &mut Answer)) -> Result<Job, String> {
    let (n, col_ptr, row_idx, values) = columns(request, "values")?;
    let matrix = General::new(n, col_ptr, row_idx, values);
    Ok(Box::new(move |a| answer(matrix, a)))
}

fn run_match(request: &mut Request) -> Result<Job, String> {
    let (n, col_ptr, row_idx, cost) = columns(request, "cost")?;
    Ok(Box::new(move |a| {
        let found = Graph::new(n, col_ptr, row_idx, cost).run();
        a.rows_or_none("perm", &found.perm);
        a.doubles("u", &found.u);
        a.doubles("v", &found.v);
        a.line("matched", [found.n_matched]);
        a.line("counts", found.counts);
    }))
}

type Parts = (Vec<usize>, Vec<usize>, Vec<f64>);
type Assemble = fn(usize, &[usize], &[usize], &[f64]) -> Result<Parts, u32>;

fn triplets(request: &mut Request, assemble: Assemble) -> Result<Job, String> {
    let n = size(request)?;
    let rows = request.indices("rows")?;
    let cols = request.indices("cols")?;
    let values = request.doubles("values")?;
    Ok(Box::new(move |a| {
        match assemble(n, &rows, &cols, &values) {
            Ok((col_ptr, row_idx, values)) => {
                a.indices("col_ptr", &col_ptr);
                a.indices("row_idx", &row_idx);
                a.doubles("values", &values);
            }
            Err(number) => verdict(a, Err(number)),
        }
    }))
}

/// A match given number by number.
fn given(request: &mut Request, answer: fn(Matched, &mut Answer)) -> Result<Job, String> {
    let perm = request.rows_or_none("perm")?;
    let n_matched = request.index("matched")?;
    let matched = duals(request, perm, n_matched)?;
    Ok(Box::new(move |a| answer(matched, a)))
}

/// The same without perm and count, which the unsymmetric factors do not read.
fn given_duals(request: &mut Request, answer: fn(Matched, &mut Answer)) -> Result<Job, String> {
    let matched = duals(request, Vec::new(), 0)?;
    Ok(Box::new(move |a| answer(matched, a)))
}

fn duals(request: &mut Request, perm: Vec<usize>, n_matched: usize) -> Result<Matched, String> {
    Ok(Matched {
        perm,
        u: request.doubles("u")?,
        v: request.doubles("v")?,
        cmax: request.doubles("cmax")?,
        n_matched,
    })
}

fn choose(request: &mut Request) -> Result<Job, String> {
    let strategy = match request.word("strategy")?.as_str() {
        "infnorm" => ScalingStrategy::InfNorm,
        "onepass" => ScalingStrategy::OnePassInfNorm,
        "mc64" => ScalingStrategy::Mc64Symmetric,
        "identity" => ScalingStrategy::Identity,
        "external" => ScalingStrategy::External(request.doubles("external")?),
        unknown => return Err(request.fault(&format!("no strategy is called `{unknown}`"))),
    };
    let (n, col_ptr, row_idx, values) = columns(request, "values")?;
    let matrix = Symmetric::new(n, col_ptr, row_idx, values);
    Ok(Box::new(move |a| match matrix.scaling(&strategy) {
        Ok(scaling) => factors(a, scaling),
        Err(number) => verdict(a, Err(number)),
    }))
}

fn each(request: &mut Request, results: fn(&[f64]) -> Vec<f64>) -> Result<Job, String> {
    let values = request.doubles("values")?;
    Ok(Box::new(move |a| a.doubles("results", &results(&values))))
}

fn verdict(answer: &mut Answer, checked: Result<(), u32>) {
    match checked {
        Ok(()) => answer.line("accepted", [""; 0]),
        Err(number) => answer.line("refused", [number]),
    }
}

fn graph(answer: &mut Answer, (graph, cmax): (Graph, Vec<f64>)) {
    answer.indices("col_ptr", graph.col_ptr());
    answer.indices("row_idx", graph.row_idx());
    answer.doubles("cost", graph.cost());
    answer.doubles("cmax", &cmax);
}

fn matched(answer: &mut Answer, found: Matched) {
    answer.rows_or_none("perm", &found.perm);
    answer.doubles("u", &found.u);
    answer.doubles("v", &found.v);
    answer.doubles("cmax", &found.cmax);
    answer.line("matched", [found.n_matched]);
}

fn factors(answer: &mut Answer, (factors, info): (Vec<f64>, ScalingInfo)) {
    answer.doubles("factors", &factors);
    match info {
        ScalingInfo::Applied => answer.line("info", ["applied"]),
        ScalingInfo::NotApplied => answer.line("info", ["not-applied"]),
        ScalingInfo::PartialSingular { n_unmatched } => {
            answer.line("info", ["partial".to_string(), n_unmatched.to_string()])
        }
    }
}

fn two_sided(answer: &mut Answer, (rows, columns): (Vec<f64>, Vec<f64>)) {
    answer.doubles("rows", &rows);
    answer.doubles("columns", &columns);
}
