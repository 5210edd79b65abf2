//! A sheet to the Rust's statement, or its refusal 1 to 6, as document 01 says; document 02 (CR 5) dropped 7.
use crate::format::{Read, Reader, check, span_of};
use cyrs_hir::{Binding, Clause, Statement, VarId, VarKind};
use smol_str::SmolStr;
use std::collections::HashSet;

pub const TRAILER: usize = 10;

#[derive(Clone)]
pub struct Sheet {
    pub names: Vec<String>,
    pub statement: Statement,
    /// The variables that a pattern or an Unwind binds, wherever it stands, and that the binding table lacks.
    pub rowless: Vec<u32>,
}

/// What the Rust names a variable without a row.
pub fn generated(variable: u32) -> String {
    format!("__var{variable}")
}

impl Sheet {
    /// Every text that can be a name of something bound: the names of the sheet, and those of its variables without a row.
    pub fn texts(&self) -> Vec<String> {
        let names: HashSet<&String> = self.names.iter().collect();
        let generated = self.rowless.iter().map(|variable| generated(*variable)).filter(|text| !names.contains(text));
        self.names.iter().cloned().chain(generated).collect()
    }

    /// Whether a WITH or a RETURN has a sort key.
    pub fn has_keys(&self) -> bool {
        let mut clauses = self.statement.clauses.iter().chain(self.statement.unions.iter().flat_map(|arm| &arm.clauses));
        clauses.any(|clause| matches!(clause, Clause::With { order_by, .. } | Clause::Return { order_by, .. } if !order_by.is_empty()))
    }

    /// The text of a name that lookup is asked for, by its mark; none where no entry can have these two words: an index past the names, or a
    /// variable whose text is one of the names, which then stands by its index.
    pub fn text(&self, (name, mark): (u32, u32)) -> Option<String> {
        match mark {
            0 => self.names.get(name as usize).cloned(),
            1 => Some(generated(name)).filter(|text| !self.names.contains(text)),
            _ => None,
        }
    }

    /// Names to look up, with their marks: each of the sheet's, an index past them, each variable without a row, these also as indices, and
    /// two indices also as variables.
    pub fn asked(&self) -> Vec<(u32, u32)> {
        let names = self.names.len() as u32;
        let listed = (0..=names).map(|name| (name, 0));
        let rowless = self.rowless.iter().flat_map(|variable| [(*variable, 1), (*variable, 0)]);
        listed.chain(rowless).chain([(0, 1), (names, 1)]).collect()
    }

    /// Takes the sort keys of a WITH out, and if `all` those of a RETURN too.
    pub fn without_keys(mut self, all: bool) -> Self {
        let clauses = self.statement.clauses.iter_mut().chain(self.statement.unions.iter_mut().flat_map(|arm| &mut arm.clauses));
        for clause in clauses {
            match clause {
                Clause::With { order_by, .. } => order_by.clear(),
                Clause::Return { order_by, .. } if all => order_by.clear(),
                _ => (),
            }
        }
        self
    }
}

pub fn read(bytes: &[u8]) -> Read<Sheet> {
    check(bytes.len() % 4 == 0 && (40..=8192).contains(&bytes.len()), 1)?;
    let words: Vec<u32> = bytes.chunks(4).map(word).collect();
    let (sections, trailer) = words.split_at(words.len() - TRAILER);
    let [bindings, head, arms] = places(sections.len(), trailer)?;
    let span = span_of(trailer[8], trailer[9], 2)?;
    let names = read_names(&bytes[..4 * bindings], trailer[1])?;
    let mut statement = Statement::new(span);
    read_bindings(&sections[bindings..head], trailer[3], &names, &mut statement)?;
    let mut reader = Words { words: &sections[head..arms], names: &names, binders: Vec::new() };
    statement.clauses = reader.repeat(trailer[5], Words::clause)?;
    reader.used_up()?;
    reader.words = &sections[arms..];
    statement.unions = reader.repeat(trailer[7], Words::arm)?;
    reader.used_up()?;
    let mut seen = HashSet::new();
    let rowless = |variable: &VarId| statement.bindings.get(variable).is_none() && seen.insert(variable.0);
    let rowless = reader.binders.into_iter().filter(rowless).map(|variable| variable.0).collect();
    Ok(Sheet { names, statement, rowless })
}

pub fn word(four: &[u8]) -> u32 {
    u32::from_le_bytes([four[0], four[1], four[2], four[3]])
}

/// Where bindings, head and arms begin: the backs fall from the whole length, which puts the names at word 0.
pub fn places(len: usize, trailer: &[u32]) -> Read<[usize; 3]> {
    let backs = [0, 2, 4, 6].map(|i| trailer[i] as usize);
    check(backs[0] == len && backs.is_sorted_by(|a, b| a >= b), 2)?;
    Ok([len - backs[1], len - backs[2], len - backs[3]])
}

fn read_names(mut section: &[u8], count: u32) -> Read<Vec<String>> {
    let mut names = Vec::new();
    for _ in 0..count {
        let (front, rest) = section.split_at_checked(4).ok_or(3u32)?;
        let len = word(front) as usize;
        check(len <= 255, 3)?;
        let (padded, rest) = rest.split_at_checked(len.next_multiple_of(4)).ok_or(3u32)?;
        check(padded[len..].iter().all(|b| *b == 0), 3)?;
        let name = String::from_utf8(padded[..len].to_vec()).map_err(|_| 3u32)?;
        check(!names.contains(&name), 3)?;
        names.push(name);
        section = rest;
    }
    check(section.is_empty(), 3)?;
    Ok(names)
}

fn read_bindings(section: &[u32], count: u32, names: &[String], statement: &mut Statement) -> Read<()> {
    check(section.len() as u64 == 5 * u64::from(count), 4)?;
    for row in section.chunks(5) {
        let id = VarId(row[0]);
        let name = SmolStr::new(names.get(row[1] as usize).ok_or(4u32)?);
        let kind = *KINDS.get((row[2] as usize).wrapping_sub(1)).ok_or(4u32)?;
        let defined_at = span_of(row[3], row[4], 4)?;
        let earlier = statement.bindings.insert(id, Binding { id, name, kind, defined_at });
        check(earlier.is_none(), 4)?;
    }
    Ok(())
}

pub const KINDS: [VarKind; 4] = [VarKind::Node, VarKind::Relationship, VarKind::Path, VarKind::Value];

/// The words of a section that are still to be read, the names, and the variables that were bound so far.
struct Words<'a> {
    words: &'a [u32],
    names: &'a [String],
    binders: Vec<VarId>,
}

impl Reader for Words<'_> {
    fn word(&mut self) -> Read<u32> {
        let (first, rest) = self.words.split_first().ok_or(5u32)?;
        self.words = rest;
        Ok(*first)
    }

    fn is_empty(&self) -> bool {
        self.words.is_empty()
    }

    fn names(&self) -> usize {
        self.names.len()
    }

    fn name_at(&self, at: usize) -> SmolStr {
        SmolStr::new(&self.names[at])
    }

    fn binder(&mut self) -> Read<VarId> {
        let variable = VarId(self.word()?);
        self.binders.push(variable);
        Ok(variable)
    }

    fn repeat<T>(&mut self, count: u32, mut one: impl FnMut(&mut Self) -> Read<T>) -> Read<Vec<T>> {
        (0..count).map(|_| one(self)).collect()
    }
}
