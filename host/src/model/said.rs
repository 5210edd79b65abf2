//! How much a sheet has of what document 02 says of stars and aliases in a WITH, and of variables without a row.

#[derive(Clone, Copy)]
pub enum Said {
    Star,
    Several,
    Beside,
    Sorted,
    Shadowed,
    Named,
    Found,
    Lost,
    Computed,
    Met,
    Over,
    Path,
    Node,
    Relationship,
    Unwind,
    All,
    Listed,
    Visible,
    Warned,
    Used,
    Carried,
    Aliased,
    LeftOut,
}

/// WITHs with a star, then aliases, then variables without a row, in the order above.
pub const SAID: [&str; 23] = [
    "a star",
    "several stars in a WITH",
    "a star beside other projections",
    "a star with sort keys",
    "a star where a name has more than one binding",
    "a star where a name `*` is visible",
    "an aliased name that is found",
    "an aliased name that isn't found",
    "a computed alias",
    "a computed alias whose use id is a variable of the table",
    "a computed alias whose name is visible",
    "a path variable without a row",
    "a node variable without a row",
    "a relationship variable without a row",
    "an Unwind variable without a row",
    "binders none of which has a row",
    "a binder without a row whose name is one of the sheet's",
    "a binder without a row whose name is visible",
    "an E1002 of a generated name",
    "a use of a name that a binder without a row has bound",
    "a generated name that a star carries",
    "an aliased Var without a row",
    "a Var without a row or alias, which isn't carried",
];

#[derive(Default)]
pub struct Counted {
    pub counts: [usize; SAID.len()],
}

impl Counted {
    pub fn count(&mut self, what: Said, is: bool) {
        self.counts[what as usize] += usize::from(is);
    }

    /// Whether a WITH carries something by a star or an alias.
    pub fn carries(&self) -> bool {
        self.counts[..Said::Path as usize].iter().any(|count| *count > 0)
    }

    /// Whether a binder has no row.
    pub fn is_rowless(&self) -> bool {
        self.counts[Said::Path as usize..=Said::Unwind as usize].iter().any(|count| *count > 0)
    }
}
