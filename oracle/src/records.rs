//! Document 01's records as plain values, read from bytes and written to them.
//!
//! Reading assumes that refusals 1 to 8 were checked (see `reading`) and panics
//! on bytes that don't pass. Writing checks nothing: the generator writes faulty
//! records with it too.

/// A letter and its content.
#[derive(Clone, Debug, PartialEq, Eq)]
pub struct Field {
    pub letter: u8,
    pub content: Vec<u8>,
}

impl Field {
    pub fn new(letter: u8, content: Vec<u8>) -> Self {
        Self { letter, content }
    }

    pub fn write(&self, out: &mut Vec<u8>) {
        let length = u16::try_from(self.content.len()).expect("a content has at most 65,535 bytes");
        out.push(self.letter);
        out.extend(length.to_be_bytes());
        out.extend(&self.content);
    }
}

/// The fields from the front, and the bytes behind the last whole one.
pub fn cut(mut bytes: &[u8]) -> (Vec<Field>, &[u8]) {
    let mut fields = Vec::new();
    while let [letter, high, low, rest @ ..] = bytes {
        let length = usize::from(u16::from_be_bytes([*high, *low]));
        let Some((content, behind)) = rest.split_at_checked(length) else {
            break;
        };
        fields.push(Field::new(*letter, content.to_vec()));
        bytes = behind;
    }
    (fields, bytes)
}

pub fn joined(fields: &[Field]) -> Vec<u8> {
    let mut bytes = Vec::new();
    for field in fields {
        field.write(&mut bytes);
    }
    bytes
}

/// Two-byte numbers, high byte first. An odd last byte is dropped.
pub fn numbers(bytes: &[u8]) -> Vec<u16> {
    bytes
        .chunks_exact(2)
        .map(|two| u16::from_be_bytes([two[0], two[1]]))
        .collect()
}

/// A content, written part by part.
#[derive(Default)]
struct Content(Vec<u8>);

impl Content {
    fn byte(mut self, byte: u8) -> Self {
        self.0.push(byte);
        self
    }

    fn number(mut self, number: u16) -> Self {
        self.0.extend(number.to_be_bytes());
        self
    }

    fn numbers(self, numbers: &[u16]) -> Self {
        numbers
            .iter()
            .fold(self, |content, &one| content.number(one))
    }

    fn name(mut self, name: &[u8]) -> Self {
        self.0.extend(name);
        self
    }

    fn field(self, letter: u8) -> Field {
        Field::new(letter, self.0)
    }
}

fn content() -> Content {
    Content::default()
}

/// A count as the byte that P and F begin with.
fn count_byte(list: &[u16]) -> u8 {
    u8::try_from(list.len()).expect("a P or F counts its parents in a byte")
}

/// A content that begins with a number, as P, F, B and H don't.
fn number_and_rest(bytes: &[u8]) -> (u16, &[u8]) {
    let (head, rest) = bytes.split_at(2);
    (u16::from_be_bytes([head[0], head[1]]), rest)
}

// ---------------------------------------------------------------- signature

#[derive(Clone, Debug, Default, PartialEq, Eq)]
pub struct SignatureRecord {
    /// Each type's parent types.
    pub types: Vec<Vec<u16>>,
    pub preds: Vec<PredRecord>,
    pub funcs: Vec<FuncRecord>,
}

#[derive(Clone, Debug, Default, PartialEq, Eq)]
pub struct PredRecord {
    pub parents: Vec<u16>,
    pub args: Vec<u16>,
}

#[derive(Clone, Debug, Default, PartialEq, Eq)]
pub struct FuncRecord {
    pub parents: Vec<u16>,
    pub domain: Vec<u16>,
    pub codomain: u16,
}

impl PredRecord {
    pub fn columns(&self) -> usize {
        self.parents.len() + self.args.len()
    }
}

impl FuncRecord {
    /// Columns of a row without its result.
    pub fn domain_columns(&self) -> usize {
        self.parents.len() + self.domain.len()
    }
}

impl SignatureRecord {
    pub fn fields(&self) -> Vec<Field> {
        let types = self
            .types
            .iter()
            .map(|parents| content().numbers(parents).field(b'T'));
        let preds = self.preds.iter().map(|pred| {
            content()
                .byte(count_byte(&pred.parents))
                .numbers(&pred.parents)
                .numbers(&pred.args)
                .field(b'P')
        });
        let funcs = self.funcs.iter().map(|func| {
            content()
                .byte(count_byte(&func.parents))
                .numbers(&func.parents)
                .numbers(&func.domain)
                .number(func.codomain)
                .field(b'F')
        });
        types.chain(preds).chain(funcs).collect()
    }

    pub fn bytes(&self) -> Vec<u8> {
        joined(&self.fields())
    }

    pub fn read(bytes: &[u8]) -> Self {
        let mut record = Self::default();
        for Field { letter, content } in whole_fields(bytes) {
            match letter {
                b'T' => record.types.push(numbers(&content)),
                b'P' => {
                    let mut parents = numbers(&content[1..]);
                    let args = parents.split_off(usize::from(content[0]));
                    record.preds.push(PredRecord { parents, args });
                }
                b'F' => {
                    let mut parents = numbers(&content[1..]);
                    let codomain = parents.pop().expect("an F has a codomain");
                    let domain = parents.split_off(usize::from(content[0]));
                    record.funcs.push(FuncRecord {
                        parents,
                        domain,
                        codomain,
                    });
                }
                _ => panic!("letter {letter} in a checked signature"),
            }
        }
        record
    }
}

fn whole_fields(bytes: &[u8]) -> Vec<Field> {
    let (fields, rest) = cut(bytes);
    assert!(rest.is_empty(), "a checked record ends with a field");
    fields
}

// --------------------------------------------------------------------- rule

#[derive(Clone, Debug, Default, PartialEq, Eq)]
pub struct RuleRecord {
    /// Only an unnamed rule's index is used.
    pub index: u16,
    /// Empty: unnamed.
    pub name: Vec<u8>,
    pub structures: Vec<StructureRecord>,
    pub maps: Vec<MapRecord>,
    pub kinds: Vec<KindRecord>,
    pub marks: Vec<MarkRecord>,
}

#[derive(Clone, Debug, Default, PartialEq, Eq)]
pub struct StructureRecord {
    pub els: Vec<ElRecord>,
    pub rows: Vec<RowRecord>,
    pub apps: Vec<AppRecord>,
    /// Element and name.
    pub vars: Vec<(u16, Vec<u8>)>,
    pub idents: Vec<IdentRecord>,
}

#[derive(Clone, Debug, Default, PartialEq, Eq)]
pub struct ElRecord {
    pub el: u16,
    pub typ: u16,
    pub parents: Vec<u16>,
}

/// An R field; parents stand first among the elements.
#[derive(Clone, Debug, Default, PartialEq, Eq)]
pub struct RowRecord {
    pub pred: u16,
    pub els: Vec<u16>,
}

/// An A field; parents stand first among the elements.
#[derive(Clone, Debug, Default, PartialEq, Eq)]
pub struct AppRecord {
    pub func: u16,
    pub els: Vec<u16>,
    pub result: u16,
}

#[derive(Clone, Debug, Default, PartialEq, Eq)]
pub struct IdentRecord {
    pub term: u16,
    pub el: u16,
    pub name: Vec<u8>,
}

#[derive(Clone, Debug, Default, PartialEq, Eq)]
pub struct MapRecord {
    pub source: u16,
    pub target: u16,
    /// Key and image.
    pub pairs: Vec<(u16, u16)>,
}

#[derive(Clone, Copy, Debug, PartialEq, Eq)]
pub enum Kind {
    If,
    SurjThen,
    NonSurjThen,
    Noop,
}

impl Kind {
    pub const ALL: [Kind; 4] = [Kind::If, Kind::SurjThen, Kind::NonSurjThen, Kind::Noop];
}

#[derive(Clone, Copy, Debug, PartialEq, Eq)]
pub struct KindRecord {
    pub source: u16,
    pub target: u16,
    pub kind: Kind,
}

#[derive(Clone, Copy, Debug, PartialEq, Eq, PartialOrd, Ord)]
pub enum MarkClass {
    BranchStart,
    AfterScrutinee,
    CaseStart,
}

impl MarkClass {
    pub const ALL: [MarkClass; 3] = [
        MarkClass::BranchStart,
        MarkClass::AfterScrutinee,
        MarkClass::CaseStart,
    ];
}

/// An X field.
#[derive(Clone, Copy, Debug, PartialEq, Eq)]
pub struct MarkRecord {
    pub class: MarkClass,
    pub structure: u16,
}

impl StructureRecord {
    fn write(&self, fields: &mut Vec<Field>) {
        fields.push(content().field(b'S'));
        fields.extend(self.els.iter().map(|entry| {
            content()
                .number(entry.el)
                .number(entry.typ)
                .numbers(&entry.parents)
                .field(b'E')
        }));
        fields.extend(
            self.rows
                .iter()
                .map(|row| content().number(row.pred).numbers(&row.els).field(b'R')),
        );
        fields.extend(self.apps.iter().map(|app| {
            content()
                .number(app.func)
                .numbers(&app.els)
                .number(app.result)
                .field(b'A')
        }));
        fields.extend(
            self.vars
                .iter()
                .map(|(el, name)| content().number(*el).name(name).field(b'V')),
        );
        fields.extend(self.idents.iter().map(|ident| {
            content()
                .number(ident.term)
                .number(ident.el)
                .name(&ident.name)
                .field(b'I')
        }));
    }

    fn read_field(&mut self, letter: u8, content: &[u8]) {
        let (first, rest) = number_and_rest(content);
        match letter {
            b'E' => {
                let (typ, parents) = number_and_rest(rest);
                self.els.push(ElRecord {
                    el: first,
                    typ,
                    parents: numbers(parents),
                });
            }
            b'R' => self.rows.push(RowRecord {
                pred: first,
                els: numbers(rest),
            }),
            b'A' => {
                let mut els = numbers(rest);
                let result = els.pop().expect("an A has a result");
                self.apps.push(AppRecord {
                    func: first,
                    els,
                    result,
                });
            }
            b'V' => self.vars.push((first, rest.to_vec())),
            b'I' => {
                let (el, name) = number_and_rest(rest);
                self.idents.push(IdentRecord {
                    term: first,
                    el,
                    name: name.to_vec(),
                });
            }
            _ => panic!("letter {letter} in a checked rule"),
        }
    }
}

impl MapRecord {
    fn read(content: &[u8]) -> Self {
        let (source, rest) = number_and_rest(content);
        let (target, rest) = number_and_rest(rest);
        let pairs = numbers(rest)
            .chunks_exact(2)
            .map(|two| (two[0], two[1]))
            .collect();
        MapRecord {
            source,
            target,
            pairs,
        }
    }

    fn field(&self) -> Field {
        let head = content().number(self.source).number(self.target);
        self.pairs
            .iter()
            .fold(head, |field, &(key, image)| field.number(key).number(image))
            .field(b'M')
    }
}

impl KindRecord {
    fn read(content: &[u8]) -> Self {
        let ends = numbers(&content[..4]);
        KindRecord {
            source: ends[0],
            target: ends[1],
            kind: Kind::ALL[usize::from(content[4])],
        }
    }

    fn field(&self) -> Field {
        content()
            .number(self.source)
            .number(self.target)
            .byte(self.kind as u8)
            .field(b'K')
    }
}

impl MarkRecord {
    fn read(content: &[u8]) -> Self {
        MarkRecord {
            class: MarkClass::ALL[usize::from(content[0])],
            structure: numbers(&content[1..])[0],
        }
    }

    fn field(&self) -> Field {
        content()
            .byte(self.class as u8)
            .number(self.structure)
            .field(b'X')
    }
}

impl RuleRecord {
    pub fn fields(&self) -> Vec<Field> {
        let mut fields = vec![content().number(self.index).name(&self.name).field(b'N')];
        for structure in &self.structures {
            structure.write(&mut fields);
        }
        fields.extend(self.maps.iter().map(MapRecord::field));
        fields.extend(self.kinds.iter().map(KindRecord::field));
        fields.extend(self.marks.iter().map(MarkRecord::field));
        fields
    }

    pub fn bytes(&self) -> Vec<u8> {
        joined(&self.fields())
    }

    pub fn read(bytes: &[u8]) -> Self {
        let mut record = Self::default();
        for Field { letter, content } in whole_fields(bytes) {
            match letter {
                b'N' => {
                    let (index, name) = number_and_rest(&content);
                    record.index = index;
                    record.name = name.to_vec();
                }
                b'S' => record.structures.push(StructureRecord::default()),
                b'M' => record.maps.push(MapRecord::read(&content)),
                b'K' => record.kinds.push(KindRecord::read(&content)),
                b'X' => record.marks.push(MarkRecord::read(&content)),
                _ => record
                    .structures
                    .last_mut()
                    .expect("an S comes first")
                    .read_field(letter, &content),
            }
        }
        record
    }
}

// -------------------------------------------------------------------- group

#[derive(Clone, Debug, Default, PartialEq, Eq)]
pub struct GroupRecord {
    pub name: Vec<u8>,
    /// Type and name, in number order.
    pub vars: Vec<(u16, Vec<u8>)>,
    pub rules: Vec<FlatRuleRecord>,
}

#[derive(Clone, Debug, Default, PartialEq, Eq)]
pub struct FlatRuleRecord {
    pub name: Vec<u8>,
    pub premise: Vec<StatementRecord>,
    pub conclusion: Vec<StatementRecord>,
}

#[derive(Clone, Debug, PartialEq, Eq)]
pub struct StatementRecord {
    pub kind: StatementKind,
    pub symbol: u16,
    pub vars: Vec<u16>,
}

#[derive(Clone, Copy, Debug, PartialEq, Eq)]
pub enum StatementKind {
    Predicate,
    Function,
    Member,
    Equality,
    TypeSet,
    FuncDomain,
}

impl StatementKind {
    pub const ALL: [StatementKind; 6] = [
        StatementKind::Predicate,
        StatementKind::Function,
        StatementKind::Member,
        StatementKind::Equality,
        StatementKind::TypeSet,
        StatementKind::FuncDomain,
    ];
}

impl StatementRecord {
    pub fn field(&self, letter: u8) -> Field {
        content()
            .byte(self.kind as u8)
            .number(self.symbol)
            .numbers(&self.vars)
            .field(letter)
    }

    fn read(content: &[u8]) -> Self {
        let (symbol, vars) = number_and_rest(&content[1..]);
        StatementRecord {
            kind: StatementKind::ALL[usize::from(content[0])],
            symbol,
            vars: numbers(vars),
        }
    }
}

impl GroupRecord {
    pub fn fields(&self) -> Vec<Field> {
        let mut fields = vec![content().name(&self.name).field(b'G')];
        for (typ, name) in &self.vars {
            fields.push(content().number(*typ).name(name).field(b'W'));
        }
        for rule in &self.rules {
            fields.push(content().name(&rule.name).field(b'U'));
            fields.extend(rule.premise.iter().map(|one| one.field(b'B')));
            fields.extend(rule.conclusion.iter().map(|one| one.field(b'H')));
        }
        fields
    }

    pub fn bytes(&self) -> Vec<u8> {
        joined(&self.fields())
    }

    pub fn read(bytes: &[u8]) -> Self {
        let mut record = Self::default();
        for Field { letter, content } in whole_fields(bytes) {
            match letter {
                b'G' => record.name = content,
                b'W' => {
                    let (typ, name) = number_and_rest(&content);
                    record.vars.push((typ, name.to_vec()));
                }
                b'U' => record.rules.push(FlatRuleRecord {
                    name: content,
                    ..FlatRuleRecord::default()
                }),
                b'B' => record
                    .last_rule()
                    .premise
                    .push(StatementRecord::read(&content)),
                b'H' => record
                    .last_rule()
                    .conclusion
                    .push(StatementRecord::read(&content)),
                _ => panic!("letter {letter} in a checked group"),
            }
        }
        record
    }

    fn last_rule(&mut self) -> &mut FlatRuleRecord {
        self.rules.last_mut().expect("a U comes first")
    }
}
