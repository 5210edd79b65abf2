//! Scopes and what they bind, as a graph that is climbed; names are texts.
use cyrs_hir::{HirSpan, VarId, VarKind};
use std::cmp::Reverse;
use std::collections::HashSet;

/// Document 01's scope kinds, from 1.
#[derive(Clone, Copy, PartialEq, Eq)]
pub enum Kind {
    Root = 1,
    Match,
    Create,
    Merge,
    Unwind,
    Call,
    WithBarrier,
    Return,
    PatternComprehension,
}

pub struct Scope {
    pub kind: Kind,
    pub parent: Option<usize>,
    pub span: (u32, u32),
    /// Where its bindings stand in the graph's row.
    bound: Vec<usize>,
    /// The names that a barrier lets through, with their variables.
    carries: Vec<(String, u32)>,
}

/// A name of a scope, and the variable that it replaced, if one.
pub struct Bound {
    pub scope: usize,
    pub name: String,
    pub variable: u32,
    pub kind: VarKind,
    pub replaced: Option<u32>,
    /// When it was bound last, by the number of bindings made before.
    since: usize,
}

/// The binding that answers a name: its variable, and the scope that has it.
#[derive(Clone, Copy)]
pub struct Found {
    pub variable: u32,
    pub scope: usize,
}

#[derive(Default)]
pub struct Graph {
    pub scopes: Vec<Scope>,
    /// Of all scopes, in order of first making.
    pub bindings: Vec<Bound>,
    /// How often a name was bound.
    made: usize,
}

pub fn ends(span: HirSpan) -> (u32, u32) {
    (span.start().into(), span.end().into())
}

impl Graph {
    pub fn open(&mut self, kind: Kind, parent: Option<usize>, span: (u32, u32)) -> usize {
        self.scopes.push(Scope { kind, parent, span, bound: Vec::new(), carries: Vec::new() });
        self.scopes.len() - 1
    }

    /// What a barrier lets through.
    pub fn carry(&mut self, barrier: usize, pairs: Vec<(String, u32)>) {
        self.scopes[barrier].carries = pairs;
    }

    /// Binds a name in a scope; whether the scope itself had it before.
    pub fn bind(&mut self, scope: usize, name: &str, variable: VarId, kind: VarKind) -> bool {
        let variable = variable.0;
        let since = self.made;
        self.made += 1;
        if let Some(at) = self.own(scope, name) {
            let bound = &mut self.bindings[at];
            (bound.replaced, bound.variable, bound.kind, bound.since) = (Some(bound.variable), variable, kind, since);
            return true;
        }
        self.scopes[scope].bound.push(self.bindings.len());
        self.bindings.push(Bound { scope, name: name.to_owned(), variable, kind, replaced: None, since });
        false
    }

    fn own(&self, scope: usize, name: &str) -> Option<usize> {
        self.scopes[scope].bound.iter().copied().find(|at| self.bindings[*at].name == name)
    }

    /// What a name is bound to from a scope: its own binding, or its parent's, but past a barrier only for a name that is carried.
    pub fn lookup(&self, scope: usize, name: &str) -> Option<Found> {
        if let Some(at) = self.own(scope, name) {
            return Some(Found { variable: self.bindings[at].variable, scope });
        }
        let Scope { kind, parent, carries, .. } = &self.scopes[scope];
        let passes = *kind != Kind::WithBarrier || carries.iter().any(|(carried, _)| carried == name);
        parent.filter(|_| passes).and_then(|parent| self.lookup(parent, name))
    }

    /// Whether what a scope binds came over a WITH: its parent is a barrier.
    pub fn is_over_with(&self, scope: usize) -> bool {
        self.scopes[scope].parent.is_some_and(|parent| self.scopes[parent].kind == Kind::WithBarrier)
    }

    /// A scope and those around it, up to the Root after a barrier, which has all that its barrier carries.
    fn around(&self, scope: usize) -> impl Iterator<Item = &Scope> {
        let parent = |at: &usize| self.scopes[*at].parent.filter(|parent| self.scopes[*parent].kind != Kind::WithBarrier);
        std::iter::successors(Some(scope), parent).map(|at| &self.scopes[at])
    }

    fn bound_in<'a>(&'a self, scope: &'a Scope) -> impl Iterator<Item = &'a Bound> {
        scope.bound.iter().map(|at| &self.bindings[*at])
    }

    /// Each name that can be found from a scope, with its variable, in the order in which these bindings were made.
    pub fn visible(&self, scope: usize) -> Vec<(String, u32)> {
        let (mut found, mut names) = (Vec::new(), HashSet::new());
        for scope in self.around(scope) {
            found.extend(self.bound_in(scope).filter(|bound| names.insert(bound.name.as_str())));
        }
        found.sort_by_key(|bound| bound.since);
        found.into_iter().map(|bound| (bound.name.clone(), bound.variable)).collect()
    }

    /// Whether a name that can be found from a scope has an older binding too.
    pub fn shadows(&self, scope: usize) -> bool {
        let mut names = HashSet::new();
        let mut bound = self.around(scope).flat_map(|scope| self.bound_in(scope));
        bound.any(|bound| bound.replaced.is_some() || !names.insert(bound.name.as_str()))
    }

    /// The narrowest scope around an offset, of these the one opened last; a scope without width is around nothing.
    pub fn scope_at_offset(&self, offset: u32) -> Option<usize> {
        let around = |at: &usize| {
            let (start, end) = self.scopes[*at].span;
            start < end && (start..=end).contains(&offset)
        };
        (0..self.scopes.len()).filter(around).min_by_key(|at| (self.scopes[*at].span.1 - self.scopes[*at].span.0, Reverse(*at)))
    }

    /// Barrier, name and variable of all that is carried.
    pub fn carried(&self) -> impl Iterator<Item = (usize, &str, u32)> {
        let scopes = self.scopes.iter().enumerate();
        scopes.flat_map(|(at, scope)| scope.carries.iter().map(move |(name, variable)| (at, name.as_str(), *variable)))
    }
}
