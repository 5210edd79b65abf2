//! The sections with clauses as document 01 says, and document 02 of sort keys, read into the Rust's types. Where words and names come from
//! is the reader's: `sheet` has one, `tuned` another, and `twin` a third.
use cyrs_hir::{
    BinOp, Clause, Direction, Expr, HirId, HirOffset, HirSpan, ListPredKind, MapProjectionItem, OrderItem, Pattern, PatternElement,
    PatternPart, Projection, RelLength, RemoveItem, SetItem, ShortestPath, UnaryOp, UnionArm, VarId, YieldItem,
};
use smol_str::SmolStr;

const DEPTH: u32 = 19;

/// The refusal's number.
pub type Read<T> = Result<T, u32>;

pub fn check(holds: bool, cause: u32) -> Read<()> {
    if holds { Ok(()) } else { Err(cause) }
}

pub fn span_of(start: u32, end: u32, cause: u32) -> Read<HirSpan> {
    check(start <= end, cause)?;
    Ok(HirSpan::new(HirOffset::new(start), HirOffset::new(end)))
}

const OPERATORS: [BinOp; 20] = [
    BinOp::Add,
    BinOp::Sub,
    BinOp::Mul,
    BinOp::Div,
    BinOp::Mod,
    BinOp::Pow,
    BinOp::Eq,
    BinOp::Neq,
    BinOp::Lt,
    BinOp::Le,
    BinOp::Gt,
    BinOp::Ge,
    BinOp::And,
    BinOp::Or,
    BinOp::Xor,
    BinOp::StartsWith,
    BinOp::EndsWith,
    BinOp::Contains,
    BinOp::RegexMatch,
    BinOp::Concat,
];

/// What a sheet doesn't say and neither pass reads.
const ID: HirId = HirId::DUMMY;
const SOME_VARIABLE: VarId = VarId(0);

fn some_text() -> SmolStr {
    SmolStr::new("")
}

pub trait Reader: Sized {
    /// The next word of the section; without one, 5.
    fn word(&mut self) -> Read<u32>;

    /// Whether no word is left.
    fn is_empty(&self) -> bool;

    /// How many names there are.
    fn names(&self) -> usize;

    fn name_at(&self, at: usize) -> SmolStr;

    fn repeat<T>(&mut self, count: u32, one: impl FnMut(&mut Self) -> Read<T>) -> Read<Vec<T>>;

    fn below(&mut self, limit: usize) -> Read<usize> {
        let at = self.word()? as usize;
        check(at < limit, 5)?;
        Ok(at)
    }

    fn flag(&mut self) -> Read<bool> {
        Ok(self.below(2)? == 1)
    }

    /// Two flags in one word: 1 and 2.
    fn bits(&mut self) -> Read<(bool, bool)> {
        let bits = self.below(4)?;
        Ok((bits & 1 != 0, bits & 2 != 0))
    }

    fn span(&mut self) -> Read<HirSpan> {
        let start = self.word()?;
        span_of(start, self.word()?, 5)
    }

    fn name(&mut self) -> Read<SmolStr> {
        let at = self.below(self.names())?;
        Ok(self.name_at(at))
    }

    fn alias(&mut self) -> Read<Option<SmolStr>> {
        let at = self.below(self.names() + 1)?;
        Ok((at > 0).then(|| self.name_at(at - 1)))
    }

    /// A variable that a pattern or an Unwind binds; it need have no row in the binding table.
    fn binder(&mut self) -> Read<VarId> {
        Ok(VarId(self.word()?))
    }

    fn maybe_binder(&mut self) -> Read<Option<VarId>> {
        if self.flag()? { Ok(Some(self.binder()?)) } else { Ok(None) }
    }

    fn counted<T>(&mut self, one: impl FnMut(&mut Self) -> Read<T>) -> Read<Vec<T>> {
        let count = self.word()?;
        self.repeat(count, one)
    }

    fn used_up(&self) -> Read<()> {
        check(self.is_empty(), 5)
    }

    fn arm(&mut self) -> Read<UnionArm> {
        self.any_arm()
    }

    fn any_arm(&mut self) -> Read<UnionArm> {
        let span = self.span()?;
        Ok(UnionArm { id: ID, all: false, clauses: self.counted(Self::clause)?, span })
    }

    fn clause(&mut self) -> Read<Clause> {
        self.any_clause()
    }

    /// Kinds 12 and 13 are 3 and 4 with sort keys; neither of the Rust's passes reads these.
    fn any_clause(&mut self) -> Read<Clause> {
        let kind = self.word()?;
        check((1..=13).contains(&kind), 5)?;
        let (id, span) = (ID, self.span()?);
        Ok(match kind {
            1 => Clause::Match { id, optional: self.flag()?, pattern: self.pattern(1)?, span },
            2 => Clause::Where { id, predicate: self.expr(1)?, span },
            3 | 12 => {
                let projections = self.counted(Self::projection)?;
                let filter = self.optional()?;
                let order_by = self.keys_if(kind == 12)?;
                Clause::With { id, projections, filter, order_by, skip: None, limit: None, span }
            }
            4 | 13 => {
                let projections = self.counted(Self::projection)?;
                let order_by = self.keys_if(kind == 13)?;
                Clause::Return { id, projections, distinct: false, order_by, skip: None, limit: None, span }
            }
            5 => {
                let bind = self.binder()?;
                Clause::Unwind { id, list: self.expr(1)?, bind, span }
            }
            6 => Clause::Create { id, pattern: self.pattern(1)?, span },
            7 => Clause::Merge { id, pattern: self.pattern(1)?, on_create: Vec::new(), on_match: Vec::new(), span },
            8 => Clause::Set { id, items: self.counted(Self::set_item)?, span },
            9 => Clause::Remove { id, items: self.counted(Self::remove_item)?, span },
            10 => Clause::Delete { id, targets: self.counted(|r| r.expr(1))?, detach: false, span },
            _ => {
                let args = self.counted(|r| r.expr(1))?;
                let yields = self.counted(Self::yield_item)?;
                Clause::Call { id, procedure: some_text(), args, yields, optional: false, span }
            }
        })
    }

    /// A flag, and a clause's expression if it is 1.
    fn optional(&mut self) -> Read<Option<Expr>> {
        if self.flag()? { Ok(Some(self.expr(1)?)) } else { Ok(None) }
    }

    fn projection(&mut self) -> Read<Projection> {
        let alias = self.alias()?;
        Ok(Projection { expr: self.expr(1)?, alias, span: HirSpan::empty(HirOffset::new(0)) })
    }

    fn keys_if(&mut self, sorted: bool) -> Read<Vec<OrderItem>> {
        if sorted { self.counted(Self::key) } else { Ok(Vec::new()) }
    }

    fn key(&mut self) -> Read<OrderItem> {
        self.any_key()
    }

    fn any_key(&mut self) -> Read<OrderItem> {
        Ok(OrderItem { expr: self.expr(1)?, descending: false, span: HirSpan::empty(HirOffset::new(0)) })
    }

    fn set_item(&mut self) -> Read<SetItem> {
        Ok(match self.word()? {
            1 => SetItem::Property { target: self.expr(1)?, prop: some_text(), value: self.expr(1)? },
            2 => SetItem::Labels { target: SOME_VARIABLE, labels: Vec::new() },
            3 => SetItem::AssignMap { target: SOME_VARIABLE, map: self.expr(1)?, replace: false },
            _ => return Err(5),
        })
    }

    fn remove_item(&mut self) -> Read<RemoveItem> {
        Ok(match self.word()? {
            1 => RemoveItem::Property { target: self.expr(1)?, prop: some_text() },
            2 => RemoveItem::Labels { target: SOME_VARIABLE, labels: Vec::new() },
            _ => return Err(5),
        })
    }

    fn yield_item(&mut self) -> Read<YieldItem> {
        Ok(YieldItem { name: self.name()?, alias: self.alias()?, var: VarId(self.word()?) })
    }

    /// A pattern whose properties have this depth.
    fn pattern(&mut self, depth: u32) -> Read<Pattern> {
        Ok(Pattern { parts: self.counted(|r| r.part(depth))? })
    }

    fn part(&mut self, depth: u32) -> Read<PatternPart> {
        let named_as = self.maybe_binder()?;
        Ok(PatternPart { named_as, elements: self.counted(|r| r.element(depth))?, shortest: ShortestPath::No })
    }

    fn element(&mut self, depth: u32) -> Read<PatternElement> {
        let code = self.word()?;
        check(code == 1 || code == 2, 5)?;
        let (id, span, bind) = (ID, self.span()?, self.maybe_binder()?);
        let props = if self.flag()? { Some(self.expr(depth)?) } else { None };
        Ok(if code == 1 {
            PatternElement::Node { id, bind, labels: Vec::new(), props, span }
        } else {
            let (direction, length) = (Direction::Undirected, RelLength::Single);
            PatternElement::Rel { id, bind, types: Vec::new(), direction, length, props, span }
        })
    }

    fn expr(&mut self, depth: u32) -> Read<Expr> {
        check(depth <= DEPTH || self.is_empty(), 6)?;
        let code = self.word()?;
        let depth = depth + 1;
        Ok(match code {
            1 => Expr::Null,
            2 => Expr::Bool(false),
            3 => Expr::Int(0),
            4 => Expr::Float(0.0),
            5 => Expr::String(some_text()),
            6 => Expr::Param(some_text()),
            7 => Expr::Var(VarId(self.word()?)),
            8 => self.unresolved()?,
            9 => {
                let prop = self.name()?;
                Expr::Prop { target: self.boxed(depth)?, prop }
            }
            10 => Expr::Index { target: self.boxed(depth)?, index: self.boxed(depth)? },
            11 => {
                let (start, end) = self.bits()?;
                Expr::Slice { target: self.boxed(depth)?, start: self.boxed_if(start, depth)?, end: self.boxed_if(end, depth)? }
            }
            12 => Expr::List(self.counted(|r| r.expr(depth))?),
            13 => Expr::Map(self.counted(|r| Ok((some_text(), r.expr(depth)?)))?),
            14 => Expr::Call { name: some_text(), args: self.counted(|r| r.expr(depth))?, distinct: false },
            15 => {
                let op = OPERATORS[self.below(OPERATORS.len())?];
                Expr::BinOp { op, lhs: self.boxed(depth)?, rhs: self.boxed(depth)? }
            }
            16 => {
                let op = if self.flag()? { UnaryOp::Not } else { UnaryOp::Neg };
                Expr::UnaryOp { op, operand: self.boxed(depth)? }
            }
            17 => {
                let (scrutinee, otherwise) = self.bits()?;
                let count = self.word()?;
                Expr::Case {
                    scrutinee: self.boxed_if(scrutinee, depth)?,
                    arms: self.repeat(count, |r| Ok((r.expr(depth)?, r.expr(depth)?)))?,
                    otherwise: self.boxed_if(otherwise, depth)?,
                }
            }
            18 => Expr::IsNull { operand: self.boxed(depth)?, negated: false },
            19 => Expr::InList { operand: self.boxed(depth)?, list: self.boxed(depth)? },
            20 => Expr::PatternPredicate(self.pattern(depth)?),
            21 => {
                let filtered = self.flag()?;
                Expr::ListComprehension {
                    filter_var: SOME_VARIABLE,
                    iterable: self.boxed(depth)?,
                    filter: self.boxed_if(filtered, depth)?,
                    map_expr: self.boxed(depth)?,
                }
            }
            22 => {
                let (span, filtered) = (self.span()?, self.flag()?);
                Expr::PatternComprehension {
                    pattern: self.pattern(depth)?,
                    filter: self.boxed_if(filtered, depth)?,
                    map_expr: self.boxed(depth)?,
                    span,
                }
            }
            23 => {
                let filtered = self.flag()?;
                Expr::ListPredicate {
                    kind: ListPredKind::Any,
                    var: SOME_VARIABLE,
                    iterable: self.boxed(depth)?,
                    predicate: self.boxed_if(filtered, depth)?,
                }
            }
            24 => {
                let count = self.word()?;
                Expr::MapProjection { base: self.boxed(depth)?, items: self.repeat(count, |r| r.item(depth))? }
            }
            25 => Expr::ExistsSubqueryDeferred { span: HirSpan::empty(HirOffset::new(0)) },
            _ => return Err(5),
        })
    }

    fn unresolved(&mut self) -> Read<Expr> {
        Ok(Expr::Unresolved(self.name()?))
    }

    fn boxed(&mut self, depth: u32) -> Read<Box<Expr>> {
        Ok(Box::new(self.expr(depth)?))
    }

    fn boxed_if(&mut self, there: bool, depth: u32) -> Read<Option<Box<Expr>>> {
        if there { Ok(Some(self.boxed(depth)?)) } else { Ok(None) }
    }

    fn item(&mut self, depth: u32) -> Read<MapProjectionItem> {
        Ok(if self.flag()? {
            MapProjectionItem::Computed { key: some_text(), value: self.expr(depth)? }
        } else {
            MapProjectionItem::PropCopy { prop: some_text() }
        })
    }
}
