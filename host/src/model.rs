//! A sheet's answers by a definition of its own, written from openCypher 9 with document 01's departures and document 02's sort keys, stars
//! and aliases, and what it says of names that came over a WITH, of expressions 25 and of variables without a row. It has the sheet's tree in
//! common with the Rust, and nothing of its two passes. A sheet with sort keys is compared with this; on sheets without, this is compared with
//! the Rust (README.md).
mod finding;
mod graph;
mod kinds;
mod names;
mod olds;
mod parts;
mod said;

use crate::sheet::Sheet;
use cyrs_hir::{Binding, Statement, VarId, VarKind};
use finding::Finding;
pub use graph::{Found, Graph};
pub use names::Recorded;
use names::Resolved;
pub use said::{Counted, SAID};
use std::collections::HashMap;
use std::fmt::{Display, Write};

pub struct Model {
    pub graph: Graph,
    pub findings: Vec<Finding>,
    pub recorded: Recorded,
    pub counted: Counted,
}

/// The name walk over head and arms, then the kind walk over the head.
pub fn run(sheet: &Sheet, warnings: bool) -> Model {
    let names = names::walk(sheet, warnings);
    let mut findings = names.findings;
    findings.extend(kinds::walk(&sheet.statement));
    Model { graph: names.graph, findings, recorded: names.recorded, counted: names.counted }
}

/// The last line of a sheet's listing, which is no finding's and which the Rust doesn't print: how many expressions 25 the sheet has, if any.
pub fn old_line(sheet: &Sheet) -> String {
    match olds::count(&sheet.statement) {
        0 => String::new(),
        count => format!("old exists {count}\n"),
    }
}

/// Document 01's number of a kind.
fn number(kind: VarKind) -> usize {
    match kind {
        VarKind::Node => 1,
        VarKind::Relationship => 2,
        VarKind::Path => 3,
        VarKind::Value => 4,
    }
}

/// The row of a variable in the binding table.
fn row(statement: &Statement, variable: VarId) -> Option<&Binding> {
    statement.bindings.get(&variable)
}

impl Model {
    /// Entries of the five lists.
    pub fn entries(&self) -> [usize; 5] {
        let graph = &self.graph;
        [graph.scopes.len(), graph.bindings.len(), graph.carried().count(), self.recorded.in_order().len(), self.findings.len()]
    }

    /// Without the last line, which `old_line` gives.
    pub fn listing(&self) -> String {
        let mut text = format!("findings {}\n", self.findings.len());
        for finding in &self.findings {
            let (start, end) = finding.span;
            put(&mut text, format_args!("E{} {start} {end} {}", finding.code, finding.message()));
        }
        text
    }

    /// As program `lists` writes them.
    pub fn lists(&self, names: &[String]) -> String {
        let index: HashMap<&str, u32> = names.iter().zip(0..).map(|(name, at)| (name.as_str(), at)).collect();
        // A name's index and mark 0; the variable of one that no sheet's name is, and mark 1.
        let given = |name: &str| index.get(name).map_or_else(|| (variable_in(name), 1), |at| (*at, 0));
        let mut text = String::new();
        put(&mut text, format_args!("scopes {}", self.graph.scopes.len()));
        for scope in &self.graph.scopes {
            let (kind, (start, end)) = (scope.kind as u32, scope.span);
            put(&mut text, format_args!("{kind} {} {start} {end}", or_dash(scope.parent)));
        }
        put(&mut text, format_args!("bindings {}", self.graph.bindings.len()));
        for b in &self.graph.bindings {
            let ((name, mark), kind) = (given(&b.name), number(b.kind));
            put(&mut text, format_args!("{} {name} {} {kind} {} {mark}", b.scope, b.variable, or_dash(b.replaced)));
        }
        put(&mut text, format_args!("carried {}", self.graph.carried().count()));
        for (barrier, name, variable) in self.graph.carried() {
            let (name, mark) = given(name);
            put(&mut text, format_args!("{barrier} {name} {variable} {mark}"));
        }
        put(&mut text, format_args!("recorded {}", self.recorded.in_order().len()));
        for (id, answer) in self.recorded.in_order() {
            match answer {
                Some(Resolved { variable, kind, via_projection }) => {
                    put(&mut text, format_args!("{id} resolved {variable} {} {}", number(*kind), u32::from(*via_projection)));
                }
                None => put(&mut text, format_args!("{id} unresolved")),
            }
        }
        put(&mut text, format_args!("records {}", self.findings.len()));
        for f in &self.findings {
            let (name, mark) = match f.name.as_deref().map(given) {
                Some((index, 0)) => (index + 1, 0),
                Some(generated) => generated,
                None => (0, 0),
            };
            put(&mut text, format_args!("{} {} {} {name} {} {} {mark}", f.code, f.span.0, f.span.1, f.one, f.two));
        }
        text
    }
}

/// What a variable without a row is named, and its way back.
fn name_for(variable: VarId) -> String {
    format!("__var{}", variable.0)
}

fn variable_in(name: &str) -> u32 {
    name.strip_prefix("__var").and_then(|digits| digits.parse().ok()).expect("a name of the sheet, or one that was made")
}

fn put(text: &mut String, line: std::fmt::Arguments) {
    writeln!(text, "{line}").expect("a String takes all");
}

fn or_dash(value: Option<impl Display>) -> String {
    value.map_or_else(|| "-".to_owned(), |value| value.to_string())
}
