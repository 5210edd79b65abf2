//! Stands in for cyrs-diag: a finding's code, range and message, and the list that findings are pushed to.
use cyrs_syntax::TextRange;

#[derive(Debug, Clone, Copy, PartialEq, Eq)]
pub enum DiagCode {
    E1001 = 1001,
    E1002 = 1002,
    E2007 = 2007,
    E2008 = 2008,
    E2011 = 2011,
    E5010 = 5010,
    E5011 = 5011,
}

#[derive(Debug, Clone)]
pub struct Diagnostic {
    pub code: DiagCode,
    pub span: TextRange,
    pub message: String,
}

impl Diagnostic {
    pub fn error(code: DiagCode, span: TextRange, message: String) -> Self {
        Self { code, span, message }
    }

    pub fn warning(code: DiagCode, span: TextRange, message: String) -> Self {
        Self { code, span, message }
    }
}

#[derive(Debug, Default)]
pub struct DiagnosticsSink {
    pub pushed: Vec<Diagnostic>,
}

impl DiagnosticsSink {
    pub fn push(&mut self, diagnostic: Diagnostic) {
        self.pushed.push(diagnostic);
    }
}
