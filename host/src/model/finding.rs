//! A finding as a record, and its message.

pub struct Finding {
    pub code: u32,
    pub span: (u32, u32),
    pub name: Option<String>,
    pub one: usize,
    pub two: usize,
}

/// A finding that says nothing of a place.
pub const NOWHERE: (u32, u32) = (0, 0);

const KINDS: [&str; 5] = ["", "Node", "Relationship", "Path", "Value"];
const TYPES: [&str; 11] = ["", "Bool", "Int", "Float", "String", "Null", "Map", "Pattern", "Node", "Relationship", "Path"];

impl Finding {
    /// Of a name, without details.
    pub fn of_name(code: u32, span: (u32, u32), name: &str) -> Self {
        Self { code, span, name: Some(name.to_owned()), one: 0, two: 0 }
    }

    pub fn message(&self) -> String {
        let name = self.name.as_deref().unwrap_or_default();
        match (self.code, self.one) {
            (1001, _) => format!("unresolved variable `{name}`"),
            (1002, _) => format!("variable `{name}` shadows an earlier binding"),
            (2007, 1) => {
                let kind = KINDS[self.two];
                format!(
                    "variable `{name}` has kind `{kind}` but is used in an arithmetic expression; only `Value` variables are valid here"
                )
            }
            (2007, _) => format!(
                "variable `{name}` has kind `Path` and does not support property access; {}",
                "use `nodes()` or `relationships()` to extract graph elements first"
            ),
            (2008, place) => {
                let (used, wanted) = [
                    ("as path binder", "Path"),
                    ("in node-pattern position", "Node"),
                    ("in relationship-pattern position", "Relationship"),
                ][place - 1];
                format!("variable `{name}` used {used} but has kind `{}`; expected `{wanted}`", KINDS[self.two])
            }
            (2011, _) => format!("list-predicate WHERE clause requires a `Bool` predicate but found `{}`", TYPES[self.two]),
            (5010, taken) => {
                let verb = ["index", "slice", "iterate over"][taken - 1];
                format!("cannot {verb} non-list expression of type `{}`; list indexing and slicing require a list target", TYPES[self.two])
            }
            _ => format!(
                "list-predicate iterable must be a list but found `{}`; ANY/ALL/NONE/SINGLE require a `LIST<T>` source",
                TYPES[self.two]
            ),
        }
    }
}
