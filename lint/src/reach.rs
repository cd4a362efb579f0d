//! Which functions, constants and types others reach, and the divisions in them.

use std::collections::{BTreeMap, BTreeSet};

use crate::items::{path, Item, Module};
use crate::tokens::{Placed, Token};

/// Modules by their path, as `records::write`; a crate's own file by the crate's name.
pub type Modules = BTreeMap<String, Module>;

/// An item: its module's path and its name.
pub type Name = (String, String);

/// Words before a bracket that call nothing.
const KEYWORDS: [&str; 17] = [
    "as", "break", "dyn", "else", "fn", "for", "if", "impl", "in", "let", "match", "mut", "pub",
    "ref", "return", "where", "while",
];

/// What std has and our sources call: methods, functions of its types, macros that call nothing. None of them divides in std's own sources,
/// nor does what it calls there (`as_chunks` and `to_be_bytes` do, so they aren't here). What is passed to them, a closure too, stands where it
/// is passed. What std has for an operator isn't seen: of comparisons `==` and `!=` of slices and arrays divide there, so our sources have
/// `same_bytes`.
const STD: [&str; 21] = [
    ".all",
    ".any",
    ".copy_within",
    ".enumerate",
    ".find",
    ".is_none",
    ".is_some",
    ".is_sorted_by",
    ".iter",
    ".len",
    ".min",
    ".ok_or",
    ".rev",
    ".saturating_sub",
    ".split_at",
    ".unwrap_or",
    "matches!",
    "u16::from",
    "u16::from_be_bytes",
    "u32::from",
    "usize::from",
];

/// Where std's types and constants stand, as `u16::MAX`; they call nothing.
const STD_ROOTS: [&str; 7] = ["core", "std", "u16", "u32", "u64", "u8", "usize"];

/// The crate that a module belongs to.
fn crate_of(module: &str) -> &str {
    module.split("::").next().unwrap_or(module)
}

/// A path of a module with the crate or the module for which its first word stands.
fn absolute(module: &str, path: &str) -> String {
    let parent = module
        .rsplit_once("::")
        .map_or(module, |(parent, _)| parent);
    match path.split_once("::") {
        Some(("crate", rest)) => format!("{}::{rest}", crate_of(module)),
        Some(("self", rest)) => format!("{module}::{rest}"),
        Some(("super", rest)) => format!("{parent}::{rest}"),
        _ => path.to_string(),
    }
}

/// The items of all modules that something is true of.
fn items(modules: &Modules, chosen: impl Fn(&str, &str, &Item) -> bool) -> Vec<Name> {
    let mut found = Vec::new();
    for (module, with) in modules {
        for (name, item) in &with.items {
            if chosen(module, name, item) {
                found.push((module.clone(), name.clone()));
            }
        }
    }
    found
}

/// The items that a path goes through, and what any module has of its last two names, a type's and that of what its `impl` has.
fn along(modules: &Modules, path: &str) -> Vec<Name> {
    let words: Vec<&str> = path.split("::").collect();
    let mut found = Vec::new();
    let mut add = |module: &str, name: &str| {
        let with = modules.get(module);
        if with.is_some_and(|with| with.items.contains_key(name)) {
            found.push((module.to_string(), name.to_string()));
        }
    };
    for at in 1..words.len() {
        for end in at + 1..=words.len() {
            add(&words[..at].join("::"), &words[at..end].join("::"));
        }
    }
    if let [.., owner, name] = words[..] {
        let full = format!("{owner}::{name}");
        modules.keys().for_each(|module| add(module, &full));
    }
    found
}

/// Can what has such a name be called? Numbers, types, an enum's cases and constants can't.
fn is_function(name: &str) -> bool {
    let first = name.trim_start_matches('_').chars().next();
    first.is_some_and(|c| !c.is_uppercase() && !c.is_numeric())
}

/// A path in an item's body: what it is, where it begins and ends.
struct Mention<'a> {
    modules: &'a Modules,
    item: &'a Name,
    body: &'a [Placed],
    words: Vec<String>,
    at: usize,
    end: usize,
}

impl Mention<'_> {
    fn module(&self) -> &Module {
        &self.modules[&self.item.0]
    }

    fn last(&self) -> &str {
        self.words.last().map_or("", String::as_str)
    }

    fn is(&self, at: usize, mark: char) -> bool {
        self.body.get(at).is_some_and(|token| token.is(mark))
    }

    /// Do so many tokens before it begin with a mark?
    fn behind(&self, count: usize, mark: char) -> bool {
        self.at >= count && self.is(self.at - count, mark)
    }

    fn is_keyword(&self) -> bool {
        self.words.len() == 1 && KEYWORDS.contains(&self.last())
    }

    fn is_macro(&self) -> bool {
        let brackets = ['(', '[', '{'];
        self.is(self.end, '!') && brackets.iter().any(|&mark| self.is(self.end + 1, mark))
    }

    /// Is a bracket behind it, or `::<u8>`?
    fn is_called(&self) -> bool {
        self.is(self.end, '(') || self.is(self.end - 1, ':')
    }

    /// Is it asked of a value, `x.name`? A range is none.
    fn is_of_a_value(&self) -> bool {
        self.behind(1, '.') && !self.behind(2, '.')
    }

    /// Is it asked of a type that has no path, `<T as Trait>::name` or `T::<u8>::name`?
    fn is_of_a_type(&self) -> bool {
        self.behind(1, ':') && self.behind(2, ':') && self.behind(3, '>')
    }

    /// Is it a name that the item gives, by a parameter or a `let`? What that holds was named where it was made.
    fn is_own(&self) -> bool {
        let name = Some(self.last());
        self.body.windows(4).any(|part| {
            let parameter = part[0].is('(') || part[0].is(',');
            let by_type = parameter && part[2].is(':') && !part[3].is(':');
            let by_value = part[0].word() == Some("let") && part[2].is('=');
            part[1].word() == name && (by_type || by_value)
        })
    }

    fn not_found(&self, name: &str) -> Result<Vec<Name>, String> {
        let line = self.body[self.at].line;
        Err(format!("{}:{line}: {name} isn't found", self.module().file))
    }

    /// What is found; where nothing is, std has to have it.
    fn or_of_std(&self, found: Vec<Name>, name: &str) -> Result<Vec<Name>, String> {
        if found.is_empty() && !STD.contains(&name) {
            return self.not_found(name);
        }
        Ok(found)
    }

    /// What any type of ours has by its last name.
    fn of_any_type(&self) -> Vec<Name> {
        items(self.modules, |_, item, _| {
            let split = item.split_once("::");
            split.is_some_and(|(_, name)| name == self.last())
        })
    }

    /// What is asked of a value or of a type without a path: a field calls nothing, a method may be that of any type.
    fn asked(&self) -> Result<Vec<Name>, String> {
        if self.is_of_a_value() && !self.is_called() {
            return Ok(Vec::new());
        }
        let found = self.of_any_type();
        if !is_function(self.last()) {
            return Ok(found);
        }
        self.or_of_std(found, &format!(".{}", self.last()))
    }

    /// The path, with what `Self` or a `use` line says for its first word.
    fn full(&self) -> String {
        let (module, item) = self.item;
        let first = match self.words[0].as_str() {
            "Self" => item.split("::").next().unwrap_or(item),
            first => first,
        };
        let used = self.module().uses.get(first);
        let first = used.map_or(first.to_string(), |path| path.join("::"));
        absolute(module, &[&[first], &self.words[1..]].concat().join("::"))
    }

    /// What a path stands for: as a `use` line says, in the module or below it, or as it is.
    fn plain(&self) -> Result<Vec<Name>, String> {
        let (full, as_is) = (self.full(), self.words.join("::"));
        let paths = [&full, &format!("{}::{full}", self.item.0), &as_is];
        let found = paths.into_iter().flat_map(|path| along(self.modules, path));
        let mut found: Vec<Name> = found.collect();
        let is_last = |(_, name): &Name| name.rsplit("::").next() == Some(self.last());
        let is_local = self.words.len() == 1 && full == as_is;
        if found.iter().any(is_last) {
            return Ok(found);
        }
        if is_function(self.last()) {
            if is_local && (!self.is_called() || self.is_own()) {
                return Ok(found);
            }
            return self.or_of_std(Vec::new(), &full);
        }
        // A case of an enum, or a constant, which may be that of a trait.
        found.extend(self.of_any_type());
        let root = full.split("::").next().unwrap_or_default();
        let is_of_std = !is_function(root) || STD_ROOTS.contains(&root);
        if found.is_empty() && !is_local && !is_of_std {
            return self.not_found(&full);
        }
        Ok(found)
    }

    /// The items that it may mean. What isn't found is an error, so that nothing passes unseen.
    fn means(&self) -> Result<Vec<Name>, String> {
        if self.words.is_empty() || self.is_keyword() {
            return Ok(Vec::new());
        }
        if self.is_macro() {
            return self.or_of_std(Vec::new(), &format!("{}!", self.last()));
        }
        if self.is_of_a_value() || self.is_of_a_type() {
            return self.asked();
        }
        self.plain()
    }
}

/// What an item names.
fn mentioned(modules: &Modules, item: &Name) -> Result<Vec<Name>, String> {
    let body = &modules[&item.0].items[&item.1].body;
    let mut found = Vec::new();
    let mut at = 0;
    while at < body.len() {
        let (words, end) = path(body, at);
        let mention = Mention {
            modules,
            item,
            body,
            words,
            at,
            end,
        };
        found.extend(mention.means()?);
        at = end.max(at + 1);
    }
    Ok(found)
}

/// All that a crate's or a module's items reach, themselves among it. What a trait has may be called without a name, by an operator or by
/// std, so it is reached with anything of its crate.
pub fn reached(modules: &Modules, entry: &str) -> Result<BTreeSet<Name>, String> {
    let mut waiting = items(modules, |module, _, _| {
        module == entry || crate_of(module) == entry
    });
    if waiting.is_empty() {
        return Err(format!("{entry} has no function"));
    }
    let unnamed = items(modules, |_, _, item| item.of_trait);
    let mut all = BTreeSet::new();
    while let Some(name) = waiting.pop() {
        if all.insert(name.clone()) {
            let of_its_crate = |one: &&Name| crate_of(&one.0) == crate_of(&name.0);
            waiting.extend(unnamed.iter().filter(of_its_crate).cloned());
            waiting.extend(mentioned(modules, &name)?);
        }
    }
    Ok(all)
}

/// Each division or remainder of some items: the file's line, the sign, the item.
pub fn divisions(modules: &Modules, items: &BTreeSet<Name>) -> Vec<String> {
    let mut found = Vec::new();
    for (module, name) in items {
        let file = &modules[module].file;
        for Placed { token, line } in &modules[module].items[name].body {
            if let Token::Division(sign) = token {
                found.push(format!("{file}:{line}: {sign} in {name}"));
            }
        }
    }
    found
}
