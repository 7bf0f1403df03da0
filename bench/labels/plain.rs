//! The same in plain Rust: a parser to a tree, and a judgement in one pass without memory.
use std::env;

enum Tree {
    Term(Vec<u8>),
    Join(u8, Vec<Tree>),
}

#[derive(Clone, Copy)]
enum Level {
    Empty,
    Joined(u8, bool),
}

const FORMS: [&[u8]; 8] = [b"A", b"A&B", b"A&(B|C)", b"B|D", b"D", b"A&D", b"(A|B)&E", b"D&(A|E)"];

fn is_term_byte(b: u8) -> bool {
    b.is_ascii_alphanumeric() || matches!(b, b'_' | b'-' | b':' | b'.' | b'/')
}

/// One operand, and the place behind it.
fn operand(text: &[u8], at: usize, depth: usize) -> Result<(Tree, usize), usize> {
    match text.get(at) {
        Some(b'(') if depth < 64 => {
            let (tree, end) = expression(text, at + 1, depth + 1)?;
            if text.get(end) == Some(&b')') { Ok((tree, end + 1)) } else { Err(end) }
        }
        Some(b'"') => {
            let mut bytes = Vec::new();
            let mut i = at + 1;
            loop {
                match text.get(i) {
                    Some(b'"') if !bytes.is_empty() => return Ok((Tree::Term(bytes), i + 1)),
                    Some(b'\\') => match text.get(i + 1) {
                        Some(b) if *b == b'"' || *b == b'\\' => {
                            bytes.push(*b);
                            i += 2;
                        }
                        _ => return Err((i + 1).min(text.len())),
                    },
                    Some(b) if *b != b'"' => {
                        bytes.push(*b);
                        i += 1;
                    }
                    _ => return Err(i),
                }
            }
        }
        Some(b) if is_term_byte(*b) => {
            let mut end = at + 1;
            while end < text.len() && is_term_byte(text[end]) {
                end += 1;
            }
            Ok((Tree::Term(text[at..end].to_vec()), end))
        }
        _ => Err(at),
    }
}

fn expression(text: &[u8], at: usize, depth: usize) -> Result<(Tree, usize), usize> {
    let (first, mut end) = operand(text, at, depth)?;
    let joiner = match text.get(end) {
        Some(b) if *b == b'&' || *b == b'|' => *b,
        _ => return Ok((first, end)),
    };
    let mut operands = vec![first];
    while text.get(end) == Some(&joiner) {
        let (next, behind) = operand(text, end + 1, depth)?;
        operands.push(next);
        end = behind;
    }
    Ok((Tree::Join(joiner, operands), end))
}

fn parse(text: &[u8]) -> Result<Option<Tree>, usize> {
    if text.is_empty() {
        return Ok(None);
    }
    let (tree, end) = expression(text, 0, 0)?;
    if end == text.len() { Ok(Some(tree)) } else { Err(end) }
}

fn size(tree: &Tree) -> usize {
    match tree {
        Tree::Term(bytes) => bytes.len(),
        Tree::Join(joiner, operands) => operands.len() + *joiner as usize,
    }
}

fn joined(level: Level, value: bool, joiner: u8) -> Option<Level> {
    match level {
        Level::Empty => Some(Level::Joined(joiner, value)),
        Level::Joined(b'&', all) if joiner == b'&' => Some(Level::Joined(b'&', all && value)),
        Level::Joined(b'|', any) if joiner == b'|' => Some(Level::Joined(b'|', any || value)),
        _ => None,
    }
}

fn closed(level: Level, value: bool) -> bool {
    match level {
        Level::Empty => value,
        Level::Joined(b'&', all) => all && value,
        Level::Joined(_, any) => any || value,
    }
}

/// Whether the auths, rising, have the term that stands escaped between quotes.
fn has_escaped(auths: &[Vec<u8>], escaped: &[u8]) -> bool {
    auths.iter().any(|term| {
        let mut rest = escaped.iter();
        let mut spelled = Vec::new();
        while let Some(b) = rest.next() {
            spelled.push(if *b == b'\\' { *rest.next().unwrap() } else { *b });
        }
        *term == spelled
    })
}

fn has(auths: &[Vec<u8>], term: &[u8]) -> bool {
    auths.binary_search_by(|held| held.as_slice().cmp(term)).is_ok()
}

fn judge(text: &[u8], auths: &[Vec<u8>]) -> Result<bool, usize> {
    if text.is_empty() {
        return Ok(true);
    }
    let mut below = [Level::Empty; 64];
    let (mut depth, mut level, mut i) = (0, Level::Empty, 0);
    loop {
        let value;
        match text.get(i) {
            Some(b'(') if depth < 64 => {
                below[depth] = level;
                depth += 1;
                level = Level::Empty;
                i += 1;
                continue;
            }
            Some(b'"') => {
                let start = i + 1;
                i = start;
                loop {
                    match text.get(i) {
                        Some(b'"') if i > start => break,
                        Some(b'\\') => match text.get(i + 1) {
                            Some(b'"' | b'\\') => i += 2,
                            _ => return Err((i + 1).min(text.len())),
                        },
                        Some(b) if *b != b'"' => i += 1,
                        _ => return Err(i),
                    }
                }
                value = has_escaped(auths, &text[start..i]);
                i += 1;
            }
            Some(b) if is_term_byte(*b) => {
                let start = i;
                while i < text.len() && is_term_byte(text[i]) {
                    i += 1;
                }
                value = has(auths, &text[start..i]);
            }
            _ => return Err(i),
        }
        let mut value = value;
        loop {
            match text.get(i) {
                None if depth == 0 => return Ok(closed(level, value)),
                Some(b')') if depth > 0 => {
                    value = closed(level, value);
                    depth -= 1;
                    level = below[depth];
                    i += 1;
                }
                Some(b) if *b == b'&' || *b == b'|' => match joined(level, value, *b) {
                    Some(next) => {
                        level = next;
                        i += 1;
                        break;
                    }
                    None => return Err(i),
                },
                _ => return Err(i),
            }
        }
    }
}

fn main() {
    let words: Vec<String> = env::args().collect();
    let rounds: u64 = words.get(2).map_or(0, |word| word.parse().unwrap());
    let mut count = 0u64;
    if words.get(1).is_some_and(|word| word == "parse") {
        let mut text = b"a&".repeat(524287);
        text.push(b'a');
        for _ in 0..rounds {
            if let Ok(Some(tree)) = parse(&text) {
                count += (size(&tree) > 0) as u64;
            }
        }
    } else {
        let auths = vec![b"A".to_vec(), b"B".to_vec()];
        let stored: Vec<&[u8]> = (0..125000).flat_map(|_| FORMS).collect();
        for _ in 0..rounds {
            for text in &stored {
                count += (judge(text, &auths) == Ok(true)) as u64;
            }
        }
    }
    println!("{count}");
}
