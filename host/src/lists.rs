//! What program `lists` writes for a sheet, from the Rust's answers; but via_projection, which is false throughout in the Rust, is the model's.
use crate::model::Recorded;
use crate::record::record;
use crate::sheet::{KINDS, generated};
use cyrs_diag::{Diagnostic, DiagnosticsSink};
use cyrs_hir::{BindingKind, HirSpan, Resolution, ResolvedNames, ScopeGraph, ScopeKind, Statement, VarId, VarKind};
use cyrs_sema::kinds::check_kinds;
use cyrs_sema::resolve::{ResolveResult, resolve};
use smol_str::SmolStr;
use std::collections::HashMap;
use std::fmt::{Display, Write};

/// What the two passes give.
pub struct Ran {
    pub findings: Vec<Diagnostic>,
    pub resolved: ResolveResult,
}

/// `resolve`, then `check_kinds`, on one sink.
pub fn run(statement: &Statement, warnings: bool) -> Ran {
    let mut sink = DiagnosticsSink::default();
    let resolved = resolve(statement, warnings, &mut sink);
    check_kinds(statement, &mut sink);
    Ran { findings: sink.pushed, resolved }
}

/// Entries of the five lists.
pub fn entries(ran: &Ran) -> [usize; 5] {
    let graph = &ran.resolved.scope_graph;
    let bindings = graph.iter().map(|scope| scope.bindings.len()).sum();
    let carried = barriers(ran).map(<[_]>::len).sum();
    [graph.len(), bindings, carried, ran.resolved.resolved_names.len(), ran.findings.len()]
}

/// What each WITH carries.
pub fn barriers(ran: &Ran) -> impl Iterator<Item = &[(SmolStr, VarId)]> {
    ran.resolved.scope_graph.iter().filter_map(|scope| match &scope.kind {
        ScopeKind::WithBarrier { projected } => Some(projected.as_slice()),
        _ => None,
    })
}

/// The index of each name of a sheet.
pub struct Names<'a>(HashMap<&'a str, u32>);

impl<'a> Names<'a> {
    pub fn new(names: &'a [String]) -> Self {
        Self(names.iter().zip(0..).map(|(name, at)| (name.as_str(), at)).collect())
    }

    pub fn index(&self, text: &str) -> u32 {
        self.0[text]
    }

    /// A name as an entry gives it: its index and mark 0; or of a text that is no name of the sheet, which the Rust made of a variable
    /// without a row, this variable and mark 1.
    pub fn given(&self, text: &str) -> (u32, u32) {
        if let Some(at) = self.0.get(text) {
            return (*at, 0);
        }
        let variable = text.strip_prefix("__var").and_then(|digits| digits.parse().ok()).expect("a variable's text");
        assert!(generated(variable) == text, "digits as they are printed");
        (variable, 1)
    }
}

pub fn lists(ran: &Ran, names: &[String], model: &Recorded) -> String {
    let names = &Names::new(names);
    let graph = &ran.resolved.scope_graph;
    [
        list("scopes", scopes(graph)),
        list("bindings", bindings(graph, names)),
        list("carried", carried(graph, names)),
        list("recorded", recorded(&ran.resolved.resolved_names, model)),
        list("records", ran.findings.iter().map(|d| record(d, names)).collect()),
    ]
    .concat()
}

fn list(name: &str, entries: Vec<String>) -> String {
    let count = format!("{name} {}", entries.len());
    std::iter::once(count).chain(entries).map(|line| line + "\n").collect()
}

pub fn listing(findings: &[Diagnostic]) -> String {
    let mut text = format!("findings {}\n", findings.len());
    for d in findings {
        let (start, end) = (u32::from(d.span.start()), u32::from(d.span.end()));
        writeln!(text, "E{} {start} {end} {}", d.code as u32, d.message).expect("a String takes all");
    }
    text
}

pub fn ends(span: HirSpan) -> String {
    format!("{} {}", u32::from(span.start()), u32::from(span.end()))
}

fn or_dash(value: Option<impl Display>) -> String {
    value.map_or_else(|| "-".to_owned(), |v| v.to_string())
}

fn scopes(graph: &ScopeGraph) -> Vec<String> {
    graph.iter().map(|s| format!("{} {} {}", scope_kind(&s.kind), or_dash(s.parent.map(|p| p.0)), ends(s.span))).collect()
}

fn scope_kind(kind: &ScopeKind) -> u32 {
    match kind {
        ScopeKind::Root => 1,
        ScopeKind::Match { .. } => 2,
        ScopeKind::Create => 3,
        ScopeKind::Merge => 4,
        ScopeKind::Unwind => 5,
        ScopeKind::Call => 6,
        ScopeKind::WithBarrier { .. } => 7,
        ScopeKind::Return => 8,
        ScopeKind::PatternComprehension => 9,
    }
}

/// In order of first making, which each scope's keys remember.
fn bindings(graph: &ScopeGraph, names: &Names) -> Vec<String> {
    let mut entries = Vec::new();
    for scope in graph.iter() {
        for (name, (variable, kind, replaced)) in scope.bindings.iter() {
            let ((given, mark), kind, replaced) = (names.given(name), var_kind(*kind), or_dash(replaced.map(|v: VarId| v.0)));
            entries.push((name.made(), format!("{} {given} {} {kind} {replaced} {mark}", scope.id.0, variable.0)));
        }
    }
    entries.sort();
    entries.into_iter().map(|(_, line)| line).collect()
}

fn var_kind(kind: VarKind) -> usize {
    1 + KINDS.iter().position(|k| *k == kind).expect("one of four")
}

fn carried(graph: &ScopeGraph, names: &Names) -> Vec<String> {
    let mut entries = Vec::new();
    for scope in graph.iter() {
        if let ScopeKind::WithBarrier { projected } = &scope.kind {
            entries.extend(projected.iter().map(|(name, variable)| {
                let (given, mark) = names.given(name);
                format!("{} {given} {} {mark}", scope.id.0, variable.0)
            }));
        }
    }
    entries
}

fn recorded(names: &ResolvedNames, model: &Recorded) -> Vec<String> {
    names.iter().map(|(id, answer)| format!("{} {}", id.0, resolution(answer, model.via_projection(id.0)))).collect()
}

fn resolution(answer: &Resolution, via_projection: bool) -> String {
    match answer {
        Resolution::Resolved(b) => format!("resolved {} {} {}", b.defining_var.0, binding_kind(&b.kind), u32::from(via_projection)),
        Resolution::Unresolved => "unresolved".to_owned(),
    }
}

fn binding_kind(kind: &BindingKind) -> u32 {
    match kind {
        BindingKind::Node => 1,
        BindingKind::Relationship => 2,
        BindingKind::Path => 3,
        BindingKind::Value => 4,
    }
}
