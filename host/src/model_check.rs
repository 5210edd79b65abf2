//! Compares the model with the Rust, on sheets from a seed; see README.md.
use cyrs_hir::{Clause, Expr, Projection, Resolution, ScopeId, ScopeKind, ScopeNode, Statement, VarId, YieldItem};
use generator::{Random, one};
use std::collections::HashSet;
use theirs::answers::Answers;
use theirs::lists::{self, Ran};
use theirs::model::SAID;
use theirs::sheet::{self, Sheet};
use theirs::twin::{Keys, called, twin, written_out};

#[derive(Default)]
struct Tally {
    accepted: usize,
    refused: usize,
    keyed: usize,
    twins: usize,
    projected: usize,
    called: usize,
    /// Sheets with a binder without a row.
    rowless: usize,
    /// Sheets that have each of `SAID`, that need more entries in a list than they have words, and more than the listing has.
    said: [usize; SAID.len()],
    longer: usize,
    too_long: usize,
    written_out: usize,
    /// Recorded uses, and those of them that came over a WITH.
    uses: usize,
    over_with: usize,
    differ: usize,
}

impl Tally {
    /// What a sheet of so many words has of stars, aliases and variables without a row, and whether its answers are long; whether it has
    /// any stars or aliases.
    fn count(&mut self, answers: &Answers, words: usize) -> bool {
        let Answers::Model(model) = answers else { return false };
        for (sheets, count) in self.said.iter_mut().zip(model.counted.counts) {
            *sheets += usize::from(count > 0);
        }
        self.rowless += usize::from(model.counted.is_rowless());
        self.longer += usize::from(answers.entries().iter().any(|entries| *entries > words));
        self.too_long += usize::from(!answers.fit());
        model.counted.carries()
    }
}

fn main() {
    let args: Option<Vec<u64>> = std::env::args().skip(1).map(|arg| arg.parse().ok()).collect();
    let Some(&[count, seed]) = args.as_deref() else {
        eprintln!("usage: host/model [--sources DIR] [--crates DIR] [COUNT [SEED]]");
        std::process::exit(2);
    };
    let mut random = Random::new(seed);
    let mut tally = Tally::default();
    for number in 0..count {
        let bytes = one(&mut random);
        if let Err(what) = compare(&bytes, &mut tally) {
            tally.differ += 1;
            if tally.differ <= 10 {
                println!("sheet {number} of seed {seed}, {} bytes: {what}", bytes.len());
            }
        }
    }
    println!("{} sheets, {} accepted, {} refused; warnings on and off", tally.accepted + tally.refused, tally.accepted, tally.refused);
    println!(
        "{} of the accepted have sort keys, which are taken out for the Rust; {} have a twin with empty ones",
        tally.keyed, tally.twins
    );
    println!(
        "{} have a RETURN with keys, which are projections for the Rust; {} WITHs with keys are a Call for it",
        tally.projected, tally.called
    );
    println!("{} need more entries in a list than they have words, {} more than the listing has", tally.longer, tally.too_long);
    println!("{} have WITHs that are written out for the Rust as variables under aliases", tally.written_out);
    println!("{} recorded uses, {} of which the Rust knows by a variable that WITHs alone carry", tally.uses, tally.over_with);
    println!("{} have a node, relationship, path or Unwind variable without a row, where the walks look", tally.rowless);
    for (what, sheets) in SAID.iter().zip(tally.said) {
        println!("{sheets} have {what}");
    }
    println!("{} sheets differ", tally.differ);
    if tally.differ > 0 {
        std::process::exit(1);
    }
}

fn holds(what: &str, is: bool) -> Result<(), String> {
    if is { Ok(()) } else { Err(what.to_owned()) }
}

fn compare(bytes: &[u8], tally: &mut Tally) -> Result<(), String> {
    let Ok(sheet) = sheet::read(bytes) else {
        tally.refused += 1;
        return Ok(());
    };
    tally.accepted += 1;
    let carries = tally.count(&Answers::model(&sheet, true), bytes.len() / 4);
    if !sheet.has_keys() {
        let made = twin(bytes, Keys::Empty);
        tally.twins += usize::from(made.as_ref().is_some_and(|made| made != bytes));
        for warnings in [false, true] {
            let rust = Answers::rust(&sheet, warnings);
            same(&rust, &Answers::model(&sheet, warnings), &sheet)?;
            if let Some(made) = &made {
                let read = sheet::read(made).map_err(|cause| format!("with empty sort keys it is refused {cause}"))?;
                same(&rust, &Answers::model(&read, warnings), &sheet).map_err(|what| what + " with empty sort keys")?;
            }
        }
        over_with(&sheet, free(&sheet), &Answers::model(&sheet, true), tally)?;
        return if carries { plainly(&sheet, tally) } else { Ok(()) };
    }
    tally.keyed += 1;
    let keyed = [false, true].map(|warnings| Answers::model(&sheet, warnings));
    with_a_call(&sheet, tally)?;
    let out = twin(bytes, Keys::Out).and_then(|made| sheet::read(&made).ok()).ok_or("the sort keys can't be taken out")?;
    let returned = sheet.without_keys(false);
    if let Some(made) = twin(bytes, Keys::Projected).filter(|_| returned.has_keys()) {
        tally.projected += 1;
        let made = sheet::read(&made).map_err(|cause| format!("with sort keys as projections it is refused {cause}"))?;
        for warnings in [false, true] {
            let (rust, model) = (Answers::rust(&made, warnings), Answers::model(&returned, warnings));
            same(&rust, &model, &made).map_err(|what| what + " with a RETURN's sort keys as projections")?;
        }
        over_with(&made, free(&made), &Answers::model(&returned, true), tally)?;
    }
    let sheet = returned.without_keys(true);
    for (warnings, keyed) in [false, true].into_iter().zip(&keyed) {
        let rust = Answers::rust(&sheet, warnings);
        same(&rust, &Answers::model(&sheet, warnings), &sheet)?;
        same(&rust, &Answers::rust(&out, warnings), &sheet).map_err(|what| what + " with the sort keys taken out")?;
        around_keys(&rust, keyed, &sheet)?;
    }
    over_with(&sheet, free(&sheet), &Answers::model(&sheet, true), tally)?;
    if carries { plainly(&sheet, tally) } else { Ok(()) }
}

/// WITHs that are looked at in a head or an arm.
const WITHS: usize = 8;

/// A WITH's sort keys see what the Rust shows to a Delete after a Call, in place of the WITH, that yields the carried pairs: these first,
/// and then what was visible before. All other answers must be equal too, but for the barrier, and for what came over it.
fn with_a_call(sheet: &Sheet, tally: &mut Tally) -> Result<(), String> {
    for clauses in std::iter::once(&sheet.statement.clauses).chain(sheet.statement.unions.iter().map(|arm| &arm.clauses)) {
        let sorted = |clause: &Clause| matches!(clause, Clause::With { order_by, .. } if !order_by.is_empty());
        for at in (0..clauses.len()).filter(|at| sorted(&clauses[*at])).take(WITHS) {
            let before = part(sheet, &clauses[..at]).without_keys(true).statement.clauses;
            let with = part(sheet, &[&before[..], &clauses[at..=at]].concat());
            let yields = carried(&with);
            let call = part(sheet, &[&before[..], &called(&clauses[at], yields.clone())].concat());
            let free = free(&call);
            let yields = yields.into_iter().map(|column| YieldItem { var: free, ..column }).collect();
            let marked = part(sheet, &[before, called(&clauses[at], yields)].concat());
            over_with(&marked, free, &Answers::model(&with, true), tally)?;
            tally.called += 1;
            let (rust, model) = (Answers::rust(&call, true), Answers::model(&with, true));
            holds("the listing with a Call for a WITH", rust.listing() == model.listing())?;
            let (rust, model) = (rust.lists(&sheet.names), model.lists(&sheet.names));
            let uses = |text| -> Vec<&str> { entries(text, "recorded").map(without_via).collect() };
            holds("the recorded uses with a Call for a WITH", uses(&rust) == uses(&model))?;
            let barrier = entries(&model, "scopes").enumerate().filter(|(_, scope)| scope.starts_with("7 ")).last().expect("a barrier").0;
            let moved = |list| moved(&rust, list, barrier, 0) == moved(&model, list, barrier, 1);
            holds("the scopes with a Call for a WITH", moved("scopes"))?;
            holds("the bindings with a Call for a WITH", moved("bindings"))?;
        }
    }
    Ok(())
}

/// What the Rust says of a sheet's WITHs it says too where these have nothing but variables under aliases, one for each carried pair, and
/// their projections and filters are a Delete before; but that such a variable is recorded. A star carries what can be found before it.
fn plainly(sheet: &Sheet, tally: &mut Tally) -> Result<(), String> {
    let rust = Answers::rust(sheet, true);
    let Answers::Rust(ran, _) = &rust else { return Ok(()) };
    let with = |scope: &ScopeNode| match &scope.kind {
        ScopeKind::WithBarrier { projected } => Some((scope.parent.expect("a scope before a WITH"), projected.clone())),
        _ => None,
    };
    let (before, pairs): (Vec<ScopeId>, Vec<_>) = ran.resolved.scope_graph.iter().filter_map(with).unzip();
    let clauses = std::iter::once(&sheet.statement.clauses).chain(sheet.statement.unions.iter().map(|arm| &arm.clauses)).flatten();
    let starred = clauses.filter_map(|clause| match clause {
        Clause::With { projections, .. } => Some(projections.iter().any(is_star)),
        _ => None,
    });
    let texts = sheet.texts();
    for ((before, pairs), _) in before.iter().zip(&pairs).zip(starred).filter(|(_, starred)| *starred) {
        let found: Vec<_> = texts.iter().filter_map(|name| Some((name.as_str(), rust.lookup(before.0, name)?.0))).collect();
        let mut all: Vec<_> = pairs.iter().take(found.len()).map(|(name, variable)| (name.as_str(), variable.0)).collect();
        all.sort_by_key(|(name, _)| texts.iter().position(|other| other == name));
        holds("what a star carries", all == found)?;
    }
    let mut plain = part(sheet, &[]);
    plain.statement = sheet.statement.clone();
    written_out(&mut plain.statement, &pairs);
    tally.written_out += 1;
    let other = Answers::rust(&plain, true);
    holds("the listing with WITHs written out", rust.listing() == other.listing())?;
    let (rust, other) = (rust.lists(&sheet.names), other.lists(&sheet.names));
    for list in ["scopes", "bindings", "carried"] {
        holds("a list with WITHs written out", entries(&rust, list).eq(entries(&other, list)))?;
    }
    let put: HashSet<String> = pairs.iter().flatten().map(|(_, variable)| variable.0.to_string()).collect();
    let uses = |text| -> Vec<&str> {
        entries(text, "recorded").filter(|entry| !put.contains(entry.split(' ').next().unwrap_or_default())).collect()
    };
    holds("the recorded uses with WITHs written out", uses(&rust) == uses(&other))
}

fn is_star(projection: &Projection) -> bool {
    projection.alias.is_none() && matches!(&projection.expr, Expr::Unresolved(name) if name == "*")
}

/// A variable that the Rust binds to no name of a sheet, and that the table lacks.
fn free(sheet: &Sheet) -> VarId {
    let ran = lists::run(&sheet.statement, false);
    let bound = ran.resolved.scope_graph.iter().flat_map(|scope| &scope.order).map(|(_, variable)| variable.0);
    let taken: HashSet<u32> = bound.chain(sheet.statement.bindings.iter().map(|(variable, _)| variable.0)).collect();
    VarId((0..).find(|variable| !taken.contains(variable)).expect("a sheet has fewer words than there are variables"))
}

/// The Rust answers with a variable that WITHs alone carry, and they nothing else, exactly the uses of which the model says that they came
/// over a WITH. The sheet's WITHs are written out for that; it may be one with a Call for a WITH.
fn over_with(sheet: &Sheet, free: VarId, model: &Answers, tally: &mut Tally) -> Result<(), String> {
    let ran = lists::run(&sheet.statement, false);
    let pairs: Vec<Vec<_>> = lists::barriers(&ran).map(|pairs| pairs.iter().map(|(name, _)| (name.clone(), free)).collect()).collect();
    let mut statement = sheet.statement.clone();
    written_out(&mut statement, &pairs);
    let ran = lists::run(&statement, false);
    let by_free = |answer: &Resolution| matches!(answer, Resolution::Resolved(binding) if binding.defining_var == free);
    let rust: Vec<(u32, bool)> = ran.resolved.resolved_names.iter().map(|(id, answer)| (id.0, by_free(answer))).collect();
    tally.uses += rust.len();
    tally.over_with += rust.iter().filter(|(_, over)| *over).count();
    let text = model.lists(&sheet.names);
    let via =
        |entry: &str| (entry.split(' ').next().and_then(|id| id.parse().ok()).expect("a use id"), entry.split(' ').nth(4) == Some("1"));
    holds("what came over a WITH", rust.into_iter().eq(entries(&text, "recorded").map(via)))
}

/// A statement of some clauses with a sheet's tables.
fn part(sheet: &Sheet, clauses: &[Clause]) -> Sheet {
    let mut statement = Statement::new(sheet.statement.span);
    statement.bindings = sheet.statement.bindings.clone();
    statement.clauses = clauses.to_vec();
    Sheet { names: sheet.names.clone(), statement, rowless: sheet.rowless.clone() }
}

/// What the last WITH carries in the Rust, each name once, with its last variable.
fn carried(sheet: &Sheet) -> Vec<YieldItem> {
    let ran = lists::run(&sheet.statement, false);
    let mut yields: Vec<YieldItem> = Vec::new();
    for (name, variable) in lists::barriers(&ran).last().expect("a barrier") {
        match yields.iter_mut().find(|other| other.name == *name) {
            Some(other) => other.var = VarId(variable.0),
            None => yields.push(YieldItem { name: name.clone(), alias: None, var: *variable }),
        }
    }
    yields
}

/// The entries of a list without what the barrier and the new Root, or the Call, have of their own. Scopes from `barrier` on count less by
/// so many.
fn moved(text: &str, list: &str, barrier: usize, more: usize) -> Vec<Vec<String>> {
    let number = |scope: &str| match scope.parse::<usize>() {
        Ok(scope) if scope > barrier => scope - more,
        Ok(scope) => scope,
        Err(_) => usize::MAX,
    };
    let mut all = Vec::new();
    for (at, entry) in entries(text, list).enumerate() {
        let mut fields: Vec<String> = entry.split(' ').map(str::to_owned).collect();
        let scope = if list == "scopes" { at } else { number(&fields[0]) };
        if list == "scopes" {
            if (barrier..=barrier + more).contains(&scope) {
                continue;
            }
            fields[1] = number(&fields[1]).to_string();
        } else {
            fields[0] = scope.to_string();
            if list == "bindings" && scope == barrier {
                fields.drain(3..5);
            }
        }
        all.push(fields);
    }
    all
}

/// Every answer is equal.
fn same(rust: &Answers, model: &Answers, sheet: &Sheet) -> Result<(), String> {
    holds("the listing", rust.listing() == model.listing())?;
    holds("the lists", rust.lists(&sheet.names) == model.lists(&sheet.names))?;
    let (spans, names) = (rust.spans(), sheet.texts());
    let step = (spans.len() * names.len()).div_ceil(512).max(1);
    for at in (0..spans.len() * names.len()).step_by(step) {
        let (scope, name) = ((at % spans.len()) as u32, &names[at / spans.len()]);
        holds("a lookup", rust.lookup(scope, name) == model.lookup(scope, name))?;
        if let Answers::Rust(ran, _) = rust {
            holds("a lookup's scope", model.lookup(scope, name).map(|(_, scope)| scope) == binds(ran, scope, name))?;
        }
    }
    for (start, end) in spans.into_iter().take(128) {
        for offset in [start, end, start.wrapping_sub(1), end.wrapping_add(1)] {
            holds("an offset", rust.scope_at_offset(offset) == model.scope_at_offset(offset))?;
        }
    }
    Ok(())
}

/// The first scope of the Rust's graph, from a scope up, that binds a name, if the name is found.
fn binds(ran: &Ran, scope: u32, name: &str) -> Option<u32> {
    let graph = &ran.resolved.scope_graph;
    graph.resolve_at(ScopeId(scope), name)?;
    let mut up = std::iter::successors(Some(ScopeId(scope)), |scope| graph.scope(*scope).parent);
    up.find(|scope| graph.scope(*scope).bindings.contains_key(name)).map(|scope| scope.0)
}

/// Sort keys add to the answers and change none of the others: without them there are the same findings, scopes but for numbers, bindings
/// and carried names, in the same order, with others between.
fn around_keys(rust: &Answers, keyed: &Answers, sheet: &Sheet) -> Result<(), String> {
    let (less, more) = (rust.lists(&sheet.names), keyed.lists(&sheet.names));
    for name in ["scopes", "bindings", "carried", "records"] {
        let fields = |text: &str| -> Vec<String> { entries(text, name).map(|entry| without_scopes(name, entry)).collect() };
        let mut more = fields(&more).into_iter();
        holds(name, fields(&less).iter().all(|entry| more.any(|other| other == *entry)))?;
    }
    holds("how many names are carried", entries(&less, "carried").count() == entries(&more, "carried").count())?;
    let after = |text: &str| entries(text, "scopes").filter(|entry| !entry.starts_with("9 ")).count();
    holds("how many scopes are not a comprehension's", after(&less) == after(&more))
}

fn entries<'a>(text: &'a str, list: &str) -> impl Iterator<Item = &'a str> {
    let mut lines = text.lines().skip_while(move |line| line.split(' ').next() != Some(list));
    let count = lines.next().and_then(|line| line.split(' ').nth(1)).map_or(0, |count| count.parse().expect("a count"));
    lines.take(count)
}

/// A recorded use without its last field.
fn without_via(entry: &str) -> &str {
    entry.rsplit_once(' ').expect("more than one field").0
}

/// An entry without the scope numbers in it, which keys move.
fn without_scopes(list: &str, entry: &str) -> String {
    let fields: Vec<&str> = entry.split(' ').collect();
    match list {
        "scopes" => [&fields[..1], &fields[2..]].concat().join(" "),
        "bindings" | "carried" => fields[1..].join(" "),
        _ => entry.to_owned(),
    }
}
