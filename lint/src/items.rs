//! The functions, constants and types of a source, and what its names stand for.

use std::collections::BTreeMap;

use crate::tokens::{closing, tokens, Placed, Token};

/// A function, a constant or a type: what it is made of, by tokens.
#[derive(Default)]
pub struct Item {
    pub body: Vec<Placed>,
    /// Is it a trait's, or in a trait's `impl`? Then it may be called without a name, as by an operator.
    pub of_trait: bool,
}

/// A module: its items, those of an `impl` or a trait as `Type::name`, and the paths that its `use` lines give names to.
pub struct Module {
    pub file: String,
    pub items: BTreeMap<String, Item>,
    pub uses: BTreeMap<String, Vec<String>>,
}

/// `a::b::c` from a place on, and where it ends: behind the last `::` if no name stands there, as in `a::<u8>`.
pub fn path(tokens: &[Placed], from: usize) -> (Vec<String>, usize) {
    let mut words = Vec::new();
    let mut at = from;
    while let Some(word) = tokens.get(at).and_then(Placed::word) {
        words.push(word.to_string());
        at += 1;
        match tokens.get(at..at + 2) {
            Some([a, b]) if a.is(':') && b.is(':') => at += 2,
            _ => break,
        }
    }
    (words, at)
}

/// Where the item that tokens begin with ends: with a `;` that stands in no brackets, or, if it is one with a block, with that.
fn end_of(tokens: &[Placed], has_block: bool) -> Result<usize, String> {
    let mut at = 0;
    while at < tokens.len() {
        match tokens[at].token {
            Token::Mark(';') => return Ok(at),
            Token::Mark('{') if has_block => return closing(tokens, at),
            Token::Mark('{' | '(' | '[') => at = closing(tokens, at)?,
            _ => {}
        }
        at += 1;
    }
    Err(format!("line {}: no end", tokens[0].line))
}

/// The names that `a::b as c` and `a::{b, self}` give, each with its path.
fn used(tokens: &[Placed], before: &[String]) -> Option<Vec<(String, Vec<String>)>> {
    let (words, end) = path(tokens, 0);
    let mut full = [before, &words].concat();
    match &tokens[end..] {
        [] => {
            full.pop_if(|last| last == "self");
            Some(vec![(full.last()?.clone(), full)])
        }
        [how, name] if how.word() == Some("as") => Some(vec![(name.word()?.into(), full)]),
        [open, names @ .., close] if open.is('{') && close.is('}') => {
            let parts = names.split(|token| token.is(','));
            let parts = parts.filter(|part| !part.is_empty());
            let each: Option<Vec<_>> = parts.map(|part| used(part, &full)).collect();
            Some(each?.concat())
        }
        _ => None,
    }
}

/// What stands behind a `<` and its `>`, if tokens begin with one.
fn behind_generics(tokens: &[Placed]) -> &[Placed] {
    let mut depth = 0;
    for (at, placed) in tokens.iter().enumerate() {
        match placed.token {
            Token::Mark('<') => depth += 1,
            Token::Mark('>') if at > 0 && !tokens[at - 1].is('-') => depth -= 1,
            _ => {}
        }
        if depth == 0 {
            return &tokens[at + usize::from(placed.is('>'))..];
        }
    }
    &[]
}

/// Whose the items of a block are: of a type, and whether a trait has them.
#[derive(Default)]
struct Owner {
    name: Option<String>,
    of_trait: bool,
}

/// The owner that `impl<'a> Trait for Type<'a>` or `trait Trait` says.
fn owner_of(head: &[Placed]) -> Owner {
    let is = |token: &Placed, word: &str| token.word() == Some(word);
    let of_a_trait = is(&head[0], "trait");
    let head = head[1..].split(|token| is(token, "where")).next();
    let head = head.unwrap_or_default();
    // A lifetime's `for<'a>` has no type behind it.
    let split = head
        .windows(2)
        .rposition(|pair| is(&pair[0], "for") && !pair[1].is('<'));
    let named = match split {
        Some(at) => &head[at + 1..],
        None => behind_generics(head),
    };
    let first = named.iter().position(|token| token.word().is_some());
    Owner {
        name: first.and_then(|at| path(named, at).0.pop()),
        of_trait: of_a_trait || split.is_some(),
    }
}

/// What stands behind a `pub(crate)`, `unsafe`, `extern "C"` or a `const` before `fn`, if tokens begin with one.
fn behind_modifier(tokens: &[Placed]) -> Option<&[Placed]> {
    let next = tokens.get(1)?;
    let length = match tokens[0].word()? {
        "pub" if next.is('(') => closing(tokens, 1).ok()? + 1,
        "pub" | "unsafe" => 1,
        "extern" if next.token == Token::Literal => 2,
        "const" if matches!(next.word(), Some("fn" | "unsafe" | "extern")) => 1,
        _ => return None,
    };
    Some(&tokens[length..])
}

/// Does a body give names a meaning of its own, or a type a method?
fn declares(body: &[Placed]) -> bool {
    body.windows(2).any(|pair| match pair[1].word() {
        Some("use" | "trait") => true,
        // Elsewhere it stands before a parameter's type.
        Some("impl") => {
            matches!(pair[0].token, Token::Mark('{' | '}' | ';'))
                || pair[0].word() == Some("unsafe")
        }
        _ => false,
    })
}

fn fault(at: &Placed, words: &str) -> Result<(), String> {
    Err(format!("line {}: {words}", at.line))
}

impl Module {
    /// A body is all of the item from its name on, parameters and types too: more than can divide, never less.
    fn add(&mut self, owner: &Owner, name: &str, body: &[Placed]) -> Result<(), String> {
        if declares(body) {
            return fault(&body[0], &format!("{name} has a use, an impl or a trait"));
        }
        let full = match &owner.name {
            Some(owner) => format!("{owner}::{name}"),
            None => name.to_string(),
        };
        // Two traits may have functions of one name for a type.
        let item = self.items.entry(full).or_default();
        item.body.extend_from_slice(body);
        item.of_trait |= owner.of_trait;
        Ok(())
    }

    fn add_block(&mut self, tokens: &[Placed]) -> Result<(), String> {
        let Some(open) = tokens.iter().position(|token| token.is('{')) else {
            return fault(&tokens[0], "no block");
        };
        let owner = owner_of(&tokens[..open]);
        self.add_items(&owner, &tokens[open + 1..tokens.len() - 1])
    }

    fn add_uses(&mut self, tokens: &[Placed]) -> Result<(), String> {
        let Some(names) = used(&tokens[1..tokens.len() - 1], &[]) else {
            return fault(&tokens[0], "a use of another form");
        };
        self.uses.extend(names);
        Ok(())
    }

    fn add_item(&mut self, owner: &Owner, tokens: &[Placed]) -> Result<(), String> {
        let name = tokens.get(1).and_then(Placed::word);
        match (tokens[0].word(), name) {
            (Some("fn" | "const" | "static" | "struct" | "enum" | "type"), Some(name)) => {
                self.add(owner, name, &tokens[2..])
            }
            (Some("impl" | "trait"), _) => self.add_block(tokens),
            (Some("use"), _) => self.add_uses(tokens),
            // A module inside a file has a file's tests; what is called in it from outside is not found, and refused.
            (Some("mod"), Some(name)) if name == "tests" || tokens.len() == 3 => Ok(()),
            _ => fault(&tokens[0], "an item of another form"),
        }
    }

    /// The items of a file or a block, but for the tests.
    fn add_items(&mut self, owner: &Owner, tokens: &[Placed]) -> Result<(), String> {
        let mut rest = tokens;
        let mut test = false;
        while let Some(first) = rest.first() {
            if first.token == Token::Test {
                test = true;
                rest = &rest[1..];
            } else if let Some(behind) = behind_modifier(rest) {
                rest = behind;
            } else {
                let no_block = matches!(first.word(), Some("const" | "static" | "type" | "use"));
                let (item, behind) = rest.split_at(end_of(rest, !no_block)? + 1);
                if !test {
                    self.add_item(owner, item)?;
                }
                test = false;
                rest = behind;
            }
        }
        Ok(())
    }
}

/// The items of a source.
pub fn module(file: &str, source: &str) -> Result<Module, String> {
    let mut module = Module {
        file: file.to_string(),
        items: BTreeMap::new(),
        uses: BTreeMap::new(),
    };
    let read = tokens(source).and_then(|all| module.add_items(&Owner::default(), &all));
    read.map_err(|fault| format!("{file}: {fault}"))?;
    Ok(module)
}
