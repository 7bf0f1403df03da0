//! Labels, judged under authorizations.
use std::collections::HashMap;

/// Whether a label holds under the authorizations, or how many of its bytes begin some label.
pub type Verdict = Result<bool, usize>;

/// Judges labels under one set of authorizations, and remembers each text that it has judged.
#[derive(Default)]
pub struct Judge {
    auths: Vec<Vec<u8>>,
    judged: HashMap<Vec<u8>, Verdict>,
}

impl Judge {
    /// Takes other authorizations; where they are the same, what was judged stays.
    pub fn take(&mut self, auths: Vec<Vec<u8>>) {
        if self.auths != auths {
            self.auths = auths;
            self.judged.clear();
        }
    }

    pub fn judge(&mut self, label: &[u8]) -> Verdict {
        if let Some(verdict) = self.judged.get(label) {
            return *verdict;
        }
        let verdict = Evaluator { label, at: 0, auths: &self.auths }.label();
        self.judged.insert(label.to_vec(), verdict);
        verdict
    }
}

/// Reads a label from front to back and evaluates it on the way.
struct Evaluator<'a> {
    label: &'a [u8],
    at: usize,
    auths: &'a [Vec<u8>],
}

impl Evaluator<'_> {
    fn peek(&self) -> Option<u8> {
        self.label.get(self.at).copied()
    }

    fn label(mut self) -> Verdict {
        if self.label.is_empty() {
            return Ok(true);
        }
        let holds = self.expression(0)?;
        if self.at == self.label.len() { Ok(holds) } else { Err(self.at) }
    }

    /// Operands, joined by the same joiner throughout.
    fn expression(&mut self, depth: usize) -> Verdict {
        let mut holds = self.operand(depth)?;
        let joiner = self.peek().filter(|byte| matches!(byte, b'&' | b'|'));
        while joiner.is_some() && self.peek() == joiner {
            self.at += 1;
            let operand = self.operand(depth)?;
            holds = if joiner == Some(b'&') { holds && operand } else { holds || operand };
        }
        Ok(holds)
    }

    /// A term, or an expression in parentheses.
    fn operand(&mut self, depth: usize) -> Verdict {
        match self.peek() {
            Some(b'(') if depth < 64 => {
                self.at += 1;
                let holds = self.expression(depth + 1)?;
                if self.peek() != Some(b')') {
                    return Err(self.at);
                }
                self.at += 1;
                Ok(holds)
            }
            Some(b'"') => {
                let term = self.quoted_term()?;
                Ok(self.auths.contains(&term))
            }
            Some(byte) if is_term_byte(byte) => {
                let length = self.label[self.at..].iter().take_while(|byte| is_term_byte(**byte)).count();
                let term = &self.label[self.at..self.at + length];
                self.at += length;
                Ok(self.auths.iter().any(|held| held == term))
            }
            _ => Err(self.at),
        }
    }

    /// The bytes of a term between quotes.
    fn quoted_term(&mut self) -> Result<Vec<u8>, usize> {
        let mut term = Vec::new();
        loop {
            self.at += 1;
            match self.peek() {
                Some(b'"') if !term.is_empty() => break,
                Some(b'\\') => {
                    self.at += 1;
                    term.push(self.peek().filter(|byte| matches!(byte, b'"' | b'\\')).ok_or(self.at)?);
                }
                Some(byte) if byte != b'"' => term.push(byte),
                _ => return Err(self.at),
            }
        }
        self.at += 1;
        Ok(term)
    }
}

fn is_term_byte(byte: u8) -> bool {
    byte.is_ascii_alphanumeric() || matches!(byte, b'_' | b'-' | b':' | b'.' | b'/')
}
