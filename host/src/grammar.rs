//! Which words can begin a clause or an arm, place by place, from rules.

/// A rule is what can stand in a place: choices, of which no two begin with the same word. A choice is words and rules in a row; after `!`
/// nothing more is put, since what is before it is wrong or will lack words.
const RULES: [(&str, &str); 38] = [
    ("arm", "span clauses"),
    ("clauses", "0 | 1 clause | 2 clause clause | max clause !"),
    (
        "clause",
        "1 span match | 2 span expr | 3 span with | 4 span projections | 5 span var expr | 6 span pattern | 7 span pattern | 8 span set |
         9 span remove | 10 span list | 11 span call | 12 span with keys | 13 span projections keys | 0 ! | 14 ! | max !",
    ),
    ("match", "0 pattern | 1 pattern | 2 !"),
    ("with", "0 filter | 1 projection filter | 2 projection projection filter | max projection !"),
    ("filter", "0 | 1 expr | 2 !"),
    ("projections", "0 | 1 projection | 2 projection projection | max projection !"),
    ("projection", "0 expr | 1 expr | 2 expr | 3 expr | 4 ! | max !"),
    ("keys", "0 | 1 expr | 2 expr expr | max expr !"),
    ("set", "0 | 1 set_item | 2 set_item set_item | max set_item !"),
    ("set_item", "1 expr expr | 2 | 3 expr | 0 ! | 4 !"),
    ("remove", "0 | 1 remove_item | 2 remove_item remove_item | max remove_item !"),
    ("remove_item", "1 expr | 2 | 0 ! | 3 !"),
    ("call", "0 yields | 1 expr yields | 2 expr expr yields | max expr !"),
    ("yields", "0 | 1 name alias var | 2 name alias var name alias var | max name alias var !"),
    (
        "expr",
        "1 | 2 | 3 | 4 | 5 | 6 | 7 var | 8 name | 9 name expr | 10 expr expr | 11 slice | 12 list | 13 list | 14 list | 15 op expr expr |
         16 unary | 17 case | 18 expr | 19 expr expr | 20 pattern | 21 list_comprehension | 22 span pattern_comprehension |
         23 list_predicate | 24 map_projection | 25 | 0 ! | 26 ! | max !",
    ),
    ("slice", "0 expr | 1 expr expr | 2 expr expr | 3 expr expr expr | 4 !"),
    ("list", "0 | 1 expr | 2 expr expr | 3 expr expr expr | max expr !"),
    ("op", "0 | 1 | 2 | 3 | 4 | 5 | 6 | 7 | 8 | 9 | 10 | 11 | 12 | 13 | 14 | 15 | 16 | 17 | 18 | 19 | 20 !"),
    ("unary", "0 expr | 1 expr | 2 !"),
    ("case", "0 cases | 1 cases_and | 2 cases_and | 3 cases_between | 4 !"),
    ("cases", "0 | 1 expr expr | 2 expr expr expr expr | max expr !"),
    ("cases_and", "0 expr | 1 expr expr expr | max expr !"),
    ("cases_between", "0 expr expr | 1 expr expr expr expr | max expr !"),
    ("list_comprehension", "0 expr expr | 1 expr expr expr | 2 !"),
    ("pattern_comprehension", "0 pattern expr | 1 pattern expr expr | 2 !"),
    ("list_predicate", "0 expr | 1 expr expr | 2 !"),
    ("map_projection", "0 expr | 1 expr item | 2 expr item item | max expr item !"),
    ("item", "0 | 1 expr | 2 !"),
    ("pattern", "0 | 1 part | 2 part part | max part !"),
    ("part", "0 elements | 1 var elements | 2 !"),
    ("elements", "0 | 1 element | 2 element element | max element !"),
    ("element", "1 span bound | 2 span bound | 0 ! | 3 !"),
    ("bound", "0 filter | 1 var filter | 2 !"),
    ("span", "0 1 | 1 0 !"),
    ("var", "0 | 1 | 2 | 3 | 4"),
    ("name", "0 | 1 | 2 | 3 !"),
    ("alias", "0 | 1 | 2 | 3 | 4 !"),
];

#[derive(Clone, Copy)]
enum Symbol {
    Word(u32),
    Rule(usize),
    End,
}

pub struct Grammar {
    rules: Vec<Vec<Vec<Symbol>>>,
    /// The fewest words of each rule.
    fewest: Vec<usize>,
}

/// More words than any sheet has.
const TOO_MANY: usize = 1 << 16;

impl Grammar {
    /// The rules, some of them with other choices.
    pub fn new(others: &[(&str, &str)]) -> Self {
        let mut rules: Vec<_> = RULES.iter().map(|(_, choices)| parsed(choices)).collect();
        for (rule, choices) in others {
            rules[place(rule)] = parsed(choices);
        }
        let mut fewest = vec![TOO_MANY; rules.len()];
        for _ in 0..rules.len() {
            fewest = rules.iter().map(|choices| choices.iter().map(|choice| needed(&fewest, choice)).min().unwrap_or(0)).collect();
        }
        Self { rules, fewest }
    }

    /// Each row of up to so many words that a rule can begin with, and each whole one with a word too many.
    pub fn beginnings(&self, rule: &str, most: usize, each: &mut dyn FnMut(&[u32])) {
        self.walk(rule, most, false, each);
    }

    /// Each row of up to so many words that is a rule's.
    pub fn wholes(&self, rule: &str, most: usize, each: &mut dyn FnMut(&[u32])) {
        self.walk(rule, most, true, each);
    }

    fn walk(&self, rule: &str, most: usize, whole: bool, each: &mut dyn FnMut(&[u32])) {
        Walk { grammar: self, most, whole, words: Vec::new(), pending: vec![symbol(rule)], each }.next();
    }
}

/// Choices, the symbols of each last first.
fn parsed(choices: &str) -> Vec<Vec<Symbol>> {
    choices.split('|').map(|choice| choice.split_whitespace().rev().map(symbol).collect()).collect()
}

fn symbol(text: &str) -> Symbol {
    match text {
        "!" => Symbol::End,
        "max" => Symbol::Word(u32::MAX),
        _ => text.parse().map_or_else(|_| Symbol::Rule(place(text)), Symbol::Word),
    }
}

fn place(name: &str) -> usize {
    RULES.iter().position(|(rule, _)| *rule == name).expect("a rule of this name")
}

/// The fewest words of some symbols.
fn needed(fewest: &[usize], symbols: &[Symbol]) -> usize {
    let words = |symbol: &Symbol| match symbol {
        Symbol::Word(_) => 1,
        Symbol::Rule(rule) => fewest[*rule],
        Symbol::End => TOO_MANY,
    };
    symbols.iter().map(words).sum::<usize>().min(TOO_MANY)
}

/// Words that were put, and symbols that are still to be put, the next one last.
struct Walk<'a> {
    grammar: &'a Grammar,
    most: usize,
    whole: bool,
    words: Vec<u32>,
    pending: Vec<Symbol>,
    each: &'a mut dyn FnMut(&[u32]),
}

impl Walk<'_> {
    fn next(&mut self) {
        match self.pending.pop() {
            None if self.whole => (self.each)(&self.words),
            None => self.put(1, false),
            Some(symbol) => {
                self.go_on(symbol);
                self.pending.push(symbol);
            }
        }
    }

    fn go_on(&mut self, symbol: Symbol) {
        match symbol {
            Symbol::Word(word) if self.fits() => self.put(word, true),
            Symbol::Word(_) | Symbol::End => (),
            Symbol::Rule(rule) => {
                for choice in &self.grammar.rules[rule] {
                    self.pending.extend(choice);
                    self.next();
                    self.pending.truncate(self.pending.len() - choice.len());
                }
            }
        }
    }

    /// Whether there is room for a word, and for what comes after it if all must be whole.
    fn fits(&self) -> bool {
        let after = if self.whole { needed(&self.grammar.fewest, &self.pending) } else { 0 };
        self.words.len() + after < self.most
    }

    fn put(&mut self, word: u32, on: bool) {
        self.words.push(word);
        if !self.whole {
            (self.each)(&self.words);
        }
        if on {
            self.next();
        }
        self.words.pop();
    }
}
