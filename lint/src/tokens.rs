//! A Rattle source as tokens, each with its line. What only the prover reads (comments, `ghost` lines, contracts, attributes) is left out,
//! and lifetimes and labels are.

/// One token of what is compiled.
#[derive(Clone, Debug, PartialEq, Eq)]
pub enum Token {
    /// A name, a keyword or a number.
    Word(String),
    /// `b'/'` and `"/"`: what stands between the quotes is data.
    Literal,
    /// `#[test]` or `#[cfg(test)]`: the item behind it is no part of the library.
    Test,
    /// `/` or `%`, alone or with `=`.
    Division(char),
    /// Any other character.
    Mark(char),
}

/// A token and the line that it stands on.
#[derive(Clone, Debug)]
pub struct Placed {
    pub token: Token,
    pub line: usize,
}

impl Placed {
    pub fn word(&self) -> Option<&str> {
        match &self.token {
            Token::Word(word) => Some(word),
            _ => None,
        }
    }

    pub fn is(&self, mark: char) -> bool {
        self.token == Token::Mark(mark)
    }
}

fn is_of_a_word(c: char) -> bool {
    c.is_alphanumeric() || c == '_'
}

struct Scanner<'a> {
    rest: std::iter::Peekable<std::str::Chars<'a>>,
    line: usize,
    tokens: Vec<Placed>,
}

impl Scanner<'_> {
    fn next(&mut self) -> Option<char> {
        let c = self.rest.next()?;
        self.line += usize::from(c == '\n');
        Some(c)
    }

    fn push(&mut self, token: Token) {
        let line = self.line;
        self.tokens.push(Placed { token, line });
    }

    fn word(&mut self, first: char) {
        let mut word = String::from(first);
        while let Some(c) = self.rest.next_if(|c| is_of_a_word(*c)) {
            word.push(c);
        }
        self.push(Token::Word(word));
    }

    fn until(&mut self, end: char) {
        while let Some(c) = self.next() {
            match c {
                '\\' => drop(self.next()),
                c if c == end => return,
                _ => {}
            }
        }
    }

    /// `'x'` and `'\n'` are literals; of `'label` the mark is left, since it names nothing that can divide.
    fn quote(&mut self) {
        let mut ahead = self.rest.clone();
        let first = ahead.next();
        if first == Some('\\') || ahead.next() == Some('\'') {
            self.until('\'');
            self.push(Token::Literal);
        } else {
            while self.rest.next_if(|c| is_of_a_word(*c)).is_some() {}
            self.push(Token::Mark('\''));
        }
    }

    /// A text; in one behind an `r` a backslash is no escape.
    fn text(&mut self) -> Result<(), String> {
        if let Some("r" | "br" | "cr") = self.tokens.last().and_then(Placed::word) {
            return Err(format!("line {}: a text of another form", self.line));
        }
        self.until('"');
        self.push(Token::Literal);
        Ok(())
    }

    fn slash(&mut self) -> Result<(), String> {
        match self.rest.peek() {
            Some('/') => while self.next().is_some_and(|c| c != '\n') {},
            Some('*') => return Err(format!("line {}: a comment of another form", self.line)),
            _ => self.push(Token::Division('/')),
        }
        Ok(())
    }

    fn scan(mut self) -> Result<Vec<Placed>, String> {
        while let Some(c) = self.next() {
            match c {
                '/' => self.slash()?,
                '%' => self.push(Token::Division('%')),
                '"' => self.text()?,
                '\'' => self.quote(),
                c if is_of_a_word(c) => self.word(c),
                c if c.is_whitespace() => {}
                c => self.push(Token::Mark(c)),
            }
        }
        Ok(self.tokens)
    }
}

/// Where the bracket that opens at a place closes.
pub fn closing(tokens: &[Placed], open: usize) -> Result<usize, String> {
    let mut depth = 0;
    for (at, placed) in tokens.iter().enumerate().skip(open) {
        match placed.token {
            Token::Mark('{' | '(' | '[') => depth += 1,
            Token::Mark('}' | ')' | ']') => depth -= 1,
            _ => {}
        }
        if depth == 0 {
            return Ok(at);
        }
    }
    Err(format!("line {}: not closed", tokens[open].line))
}

/// Where the clause at a place ends. It may have a name: `ensures value { .. }`.
fn clause(tokens: &[Placed], at: usize) -> Result<usize, String> {
    let ends = |token: &Placed| "{});,".chars().any(|mark| token.is(mark));
    match (at..tokens.len()).find(|&k| ends(&tokens[k])) {
        Some(open) if tokens[open].is('{') => closing(tokens, open),
        _ => Err(format!("line {}: no clause", tokens[at].line)),
    }
}

/// Where what a `ghost` begins ends: a `use`, a value, a field or a clause, as `ghost use a.{b};`, `ghost a = { .. };`, `ghost a: { .. },`.
fn ghost(tokens: &[Placed], at: usize) -> Result<usize, String> {
    let is = |at: usize, mark: char| tokens.get(at).is_some_and(|token| token.is(mark));
    if tokens.get(at + 1).and_then(Placed::word) == Some("use") {
        let end = (at..tokens.len()).find(|&k| is(k, ';'));
        return end.ok_or_else(|| format!("line {}: no ; behind", tokens[at].line));
    }
    let mut end = clause(tokens, at)?;
    if is(end + 1, '=') {
        end = clause(tokens, end + 1)?;
    }
    Ok(end + usize::from(is(end + 1, ';') || is(end + 1, ',')))
}

/// Where the attribute at a place ends, and whether it marks a test.
fn attribute(tokens: &[Placed], at: usize) -> Result<(usize, bool), String> {
    let inner = tokens.get(at + 1).is_some_and(|token| token.is('!'));
    let open = at + 1 + usize::from(inner);
    if !tokens.get(open).is_some_and(|token| token.is('[')) {
        return Err(format!("line {}: a # of another form", tokens[at].line));
    }
    let end = closing(tokens, open)?;
    let words: Vec<&str> = tokens[open..end].iter().filter_map(Placed::word).collect();
    Ok((end, matches!(words[..], ["test"] | ["cfg", "test"])))
}

fn without_proofs(tokens: &[Placed]) -> Result<Vec<Placed>, String> {
    let mut kept = Vec::new();
    let mut at = 0;
    while at < tokens.len() {
        match tokens[at].word() {
            Some("ghost") => at = ghost(tokens, at)?,
            Some("requires" | "ensures") => at = clause(tokens, at)?,
            None if tokens[at].is('#') => {
                let line = tokens[at].line;
                let (end, test) = attribute(tokens, at)?;
                let token = Token::Test;
                kept.extend(test.then_some(Placed { token, line }));
                at = end;
            }
            _ => kept.push(tokens[at].clone()),
        }
        at += 1;
    }
    Ok(kept)
}

/// What is compiled of a source.
pub fn tokens(source: &str) -> Result<Vec<Placed>, String> {
    let scanner = Scanner {
        rest: source.chars().peekable(),
        line: 1,
        tokens: Vec::new(),
    };
    without_proofs(&scanner.scan()?)
}
