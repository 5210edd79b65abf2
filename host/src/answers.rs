//! What is expected of an accepted sheet: the Rust's answers, or the model's where it has sort keys, which the Rust doesn't check.
use crate::lists::{self, Ran};
use crate::model::{self, Found, Model};
use crate::sheet::Sheet;
use cyrs_hir::{HirOffset, ScopeId};
use std::cell::LazyCell;

/// Entries of each list that the listing and the programs work with.
const LISTED: usize = 2048;

pub enum Answers<'a> {
    /// The Rust's, and beside them the model, for what the Rust doesn't tell: which scope binds a name that is looked up, and what came over
    /// a WITH.
    Rust(Ran, LazyCell<Model, Box<dyn FnOnce() -> Model + 'a>>),
    Model(Model),
}

impl<'a> Answers<'a> {
    pub fn new(sheet: &'a Sheet, warnings: bool) -> Self {
        if sheet.has_keys() { Self::model(sheet, warnings) } else { Self::rust(sheet, warnings) }
    }

    /// The Rust's, which leave out sort keys.
    pub fn rust(sheet: &'a Sheet, warnings: bool) -> Self {
        Self::Rust(lists::run(&sheet.statement, warnings), LazyCell::new(Box::new(move || model::run(sheet, warnings))))
    }

    pub fn model(sheet: &Sheet, warnings: bool) -> Self {
        Self::Model(model::run(sheet, warnings))
    }

    /// How many entries each of the five lists has.
    pub fn entries(&self) -> [usize; 5] {
        match self {
            Self::Rust(ran, _) => lists::entries(ran),
            Self::Model(model) => model.entries(),
        }
    }

    /// Whether the listing and the programs have room for the answers; else they refuse with 8.
    pub fn fit(&self) -> bool {
        self.entries().iter().all(|entries| *entries <= LISTED)
    }

    /// Without the line of the expressions 25, which the Rust doesn't print.
    pub fn listing(&self) -> String {
        match self {
            Self::Rust(ran, _) => lists::listing(&ran.findings),
            Self::Model(model) => model.listing(),
        }
    }

    /// The five lists, as program `lists` writes them.
    pub fn lists(&self, names: &[String]) -> String {
        match self {
            Self::Rust(ran, model) => lists::lists(ran, names, &model.recorded),
            Self::Model(model) => model.lists(names),
        }
    }

    /// The start and the end of each scope.
    pub fn spans(&self) -> Vec<(u32, u32)> {
        match self {
            Self::Rust(ran, _) => {
                ran.resolved.scope_graph.iter().map(|scope| (scope.span.start().into(), scope.span.end().into())).collect()
            }
            Self::Model(model) => model.graph.scopes.iter().map(|scope| scope.span).collect(),
        }
    }

    /// The variable of a name, by its text, and the scope that binds it.
    pub fn lookup(&self, scope: u32, name: &str) -> Option<(u32, u32)> {
        let by_model = |model: &Model| model.graph.lookup(scope as usize, name).map(|Found { variable, scope }| (variable, scope as u32));
        match self {
            Self::Rust(ran, model) => {
                let variable = ran.resolved.scope_graph.resolve_at(ScopeId(scope), name)?;
                by_model(model).map(|(_, scope)| (variable.0, scope))
            }
            Self::Model(model) => by_model(model),
        }
    }

    pub fn scope_at_offset(&self, offset: u32) -> Option<u32> {
        match self {
            Self::Rust(ran, _) => ran.resolved.scope_graph.scope_at_offset(HirOffset::new(offset)).map(|scope| scope.0),
            Self::Model(model) => model.graph.scope_at_offset(offset).map(|scope| scope as u32),
        }
    }
}
