//! A matrix from a file, its match and its scaling; refusals become faults with the place in the file.

use std::ffi::{OsStr, OsString};

use suontarvi::{
    Columns, CostGraph, GeneralMatrix, GeneralRule, Matching, Refusal, Scaling, SymmetricMatrix, SymmetricRule,
};

use crate::certificate::Certificate;
use crate::fault::Fault;
use crate::files;
use crate::matrix_market::Text;
use crate::places;
use crate::rule::Rule;

enum Matrix {
    General(GeneralMatrix),
    Symmetric(SymmetricMatrix),
}

/// A file and its matrix.
pub struct Loaded {
    pub file: OsString,
    text: Text,
    matrix: Matrix,
}

/// A match by whole-number logarithms, its graph and the matrix, both triangles of a symmetric one.
pub struct WholeMatch {
    pub matrix: GeneralMatrix,
    pub graph: CostGraph,
    pub found: Matching,
}

impl Loaded {
    pub fn read(file: &OsStr) -> Result<Loaded, Fault> {
        let text = Text::read(&files::read_unpacked(file)?).map_err(|fault| fault.of(file))?;
        let entries = text.entries.iter().copied();
        let matrix = match text.symmetric {
            true => SymmetricMatrix::from_entries(text.n, entries).map(Matrix::Symmetric),
            false => GeneralMatrix::from_entries(text.n, entries).map(Matrix::General),
        };
        let matrix = matrix.map_err(|refusal| Fault::refused(refusal).of(file))?;
        Ok(Loaded { file: file.into(), text, matrix })
    }

    /// Both triangles of a symmetric matrix; a general one as it is.
    pub fn general(&self) -> GeneralMatrix {
        match &self.matrix {
            Matrix::General(matrix) => matrix.clone(),
            Matrix::Symmetric(matrix) => matrix.to_general(),
        }
    }

    pub fn n(&self) -> usize {
        self.text.n
    }

    /// Field and symmetry of the file.
    pub fn kind(&self) -> &'static str {
        self.text.kind()
    }

    fn refused(&self, refusal: Refusal, matrix: &Columns) -> Fault {
        places::of_values(refusal, &self.text, matrix).of(&self.file)
    }

    pub fn whole_match(&self) -> Result<WholeMatch, Fault> {
        let matrix = self.general();
        let graph = matrix.whole_cost_graph().map_err(|refusal| self.refused(refusal, &matrix))?;
        let found = graph.matching();
        Ok(WholeMatch { matrix, graph, found })
    }

    /// The graph whose match a scaling by this rule belongs to.
    pub fn graph(&self, rule: Rule) -> Result<CostGraph, Fault> {
        let graph = match (&self.matrix, rule) {
            (_, Rule::Whole) => return self.whole_match().map(|whole| whole.graph),
            (Matrix::General(matrix), _) => matrix.cost_graph(&matrix.logs()),
            (Matrix::Symmetric(matrix), _) => matrix.cost_graph(&matrix.logs()),
        };
        graph.map_err(|refusal| self.refused(refusal, &self.general()))
    }

    /// The match that a scaling by this rule belongs to.
    pub fn matching(&self, rule: Rule) -> Result<Matching, Fault> {
        match rule {
            Rule::Whole => self.whole_match().map(|whole| whole.found),
            _ => self.scaling(rule).map(|scaling| scaling.matching),
        }
    }

    /// What is proved of a match by this rule.
    pub fn certificate(&self, found: &Matching, rule: Rule) -> Result<Certificate, Fault> {
        let certificate = Certificate::new(&self.general(), &self.graph(rule)?, found, rule);
        certificate.map_err(|refusal| Fault::refused(refusal).of(&self.file))
    }

    /// What is proved of these pairs, whoever chose them: the duals are those of our own match by natural logarithms.
    pub fn certificate_of_pairs(&self, pairs: &Matching) -> Result<Certificate, Fault> {
        let natural = self.graph(Rule::Natural)?.matching();
        let (matched, perm) = (pairs.matched, pairs.perm.clone());
        self.certificate(&Matching { matched, perm, ..natural }, Rule::Natural)
    }

    pub fn scaling(&self, rule: Rule) -> Result<Scaling, Fault> {
        let scaling = match (&self.matrix, rule) {
            (Matrix::General(_), Rule::Flat) => {
                return Err(Fault::new("the rule flat is for symmetric files, and this one is general").of(&self.file));
            }
            (Matrix::General(matrix), Rule::Natural) => matrix.scaling(GeneralRule::Natural),
            (Matrix::General(matrix), Rule::Whole) => matrix.scaling(GeneralRule::Whole),
            (Matrix::Symmetric(matrix), Rule::Natural) => matrix.scaling(SymmetricRule::Natural),
            (Matrix::Symmetric(matrix), Rule::Flat) => matrix.scaling(SymmetricRule::Flat),
            (Matrix::Symmetric(matrix), Rule::Whole) => matrix.scaling(SymmetricRule::Whole),
        };
        scaling.map_err(|refusal| self.unscaled(refusal))
    }

    /// Why there is no scaling, with the place.
    fn unscaled(&self, refusal: Refusal) -> Fault {
        if refusal != Refusal::ValueNotNormal {
            return self.refused(refusal, &self.general());
        }
        let fault = self.whole_match().and_then(|WholeMatch { matrix, found, .. }| match found.exponents() {
            Ok(by) => Ok(places::of_powers(refusal, &self.text, &matrix, &by)),
            Err(refusal) => Err(Fault::refused(refusal)),
        });
        fault.unwrap_or_else(|fault| fault).of(&self.file)
    }
}
