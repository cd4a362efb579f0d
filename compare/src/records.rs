//! Sound records of about a given size, for measuring.

/// Type 0, type 1 that lives in it; a predicate of two columns and one that lives in both types.
pub fn signature() -> Vec<u8> {
    [
        field(b'T', &[]),
        field(b'T', &numbers(&[0])),
        field(b'P', &[0, 0, 0, 0, 0]),
        field(b'P', &[2, 0, 0, 0, 1, 0, 0]),
    ]
    .concat()
}

fn field(letter: u8, content: &[u8]) -> Vec<u8> {
    let length = u16::try_from(content.len()).expect("a field is short");
    [&[letter], &length.to_be_bytes()[..], content].concat()
}

fn numbers(numbers: &[u16]) -> Vec<u8> {
    numbers
        .iter()
        .flat_map(|number| number.to_be_bytes())
        .collect()
}

/// A structure of so many elements, and rows of the predicate.
fn related(elements: u16, style: Style, rows: impl Iterator<Item = (u16, u16)>) -> Vec<u8> {
    let elements = (0..elements).map(|e| field(b'E', &numbers(&[style.number(e), 0])));
    let rows = rows.map(|(a, b)| field(b'R', &numbers(&[0, style.number(a), style.number(b)])));
    std::iter::once(field(b'S', &[]))
        .chain(elements)
        .chain(rows)
        .flatten()
        .collect()
}

/// 64 elements and 64 rows: 1,027 bytes.
fn structure() -> Vec<u8> {
    related(64, PLAIN, (0..64).map(|e| (e, 63 - e)))
}

/// A rule of so many such structures and no map.
pub fn rule(structures: usize) -> Vec<u8> {
    let head = field(b'N', b"\0\0r");
    std::iter::once(head)
        .chain((0..structures).map(|_| structure()))
        .flatten()
        .collect()
}

/// A rule without a name, of an index, with one structure of one element.
pub fn unnamed(index: u16) -> Vec<u8> {
    let head = field(b'N', &numbers(&[index]));
    [head, related(1, PLAIN, std::iter::empty())].concat()
}

/// A group of 16 variables and one rule, of about the size. All of the rule's statements lie in model 1, and their owners are equal
/// by name and type at different numbers.
pub fn group(size: usize) -> Vec<u8> {
    let variables = (0..16u8).map(|v| field(b'W', &[0, v % 2, b'a' + v % 4]));
    let mut bytes: Vec<u8> = std::iter::once(field(b'G', b"g"))
        .chain(variables)
        .chain([field(b'U', b"g_0")])
        .flatten()
        .collect();
    let conclusion = field(b'H', &[&[0][..], &numbers(&[1, 0, 1, 2])].concat());
    let premise = field(b'B', &[&[0][..], &numbers(&[1, 4, 9, 2])].concat());
    while bytes.len() + premise.len() + conclusion.len() <= size {
        bytes.extend(&premise);
    }
    bytes.extend(&conclusion);
    bytes
}

/// A map, and the kind of its pair.
struct Walked {
    source: u16,
    target: u16,
    pairs: Vec<u16>,
    kind: u8,
}

impl Walked {
    fn field(&self, letter: u8, rest: &[u8]) -> Vec<u8> {
        let ends = numbers(&[self.source, self.target]);
        field(letter, &[&ends, rest].concat())
    }
}

fn walked(structures: impl Iterator<Item = Vec<u8>>, maps: &[Walked]) -> Vec<u8> {
    std::iter::once(field(b'N', b"\0\0r"))
        .chain(structures)
        .chain(maps.iter().map(|m| m.field(b'M', &numbers(&m.pairs))))
        .chain(maps.iter().map(|m| m.field(b'K', &[m.kind])))
        .flatten()
        .collect()
}

/// How the elements of a structure are told: how far apart their numbers are, and whether each has a V name.
#[derive(Clone, Copy)]
pub struct Style {
    pub stride: u16,
    pub named: bool,
}

/// Numbers without a gap, and no names.
pub const PLAIN: Style = Style {
    stride: 1,
    named: false,
};

impl Style {
    fn number(self, element: u16) -> u16 {
        self.stride * element
    }

    fn names(self, elements: u16) -> Vec<u8> {
        let named = if self.named { elements } else { 0 };
        let name = |e: u16| [b'a' + (e / 26) as u8, b'a' + (e % 26) as u8];
        (0..named)
            .flat_map(|e| field(b'V', &[&numbers(&[self.number(e)]), &name(e)[..]].concat()))
            .collect()
    }
}

/// Structures of so many elements, one after another by identities, SurjThen and If in turn. Each element but the last has a row
/// with itself; the last has one for each structure before its own.
pub fn grown(structures: u16, elements: u16, style: Style) -> Vec<u8> {
    let last = elements - 1;
    let at = |k| {
        let own = (0..last).map(|e| (e, e));
        let rows = own.chain((0..k).map(|e| (last, e)));
        [related(elements, style, rows), style.names(elements)].concat()
    };
    let maps: Vec<Walked> = (1..structures)
        .map(|k| Walked {
            source: k - 1,
            target: k,
            pairs: (0..elements).flat_map(|e| [style.number(e); 2]).collect(),
            kind: u8::from(k % 2 == 1),
        })
        .collect();
    walked((0..structures).map(at), &maps)
}

/// A structure of so many elements, and so many SurjThens that send all of them to one: each pair of elements is an equality.
pub fn merged(elements: u16, targets: u16) -> Vec<u8> {
    let maps: Vec<Walked> = (1..=targets)
        .map(|target| Walked {
            source: 0,
            target,
            pairs: (0..elements).flat_map(|e| [e, 0]).collect(),
            kind: 1,
        })
        .collect();
    let sizes = std::iter::once(elements).chain(maps.iter().map(|_| 1));
    walked(
        sizes.map(|size| related(size, PLAIN, std::iter::empty())),
        &maps,
    )
}

/// Structures one after another, SurjThen and If in turn, each with an element fewer than the one before, whose last two are sent to its
/// last: each map has a kernel pair, and each premise an Equality for each If before it.
pub fn shrunk(structures: u16, elements: u16) -> Vec<u8> {
    let maps: Vec<Walked> = (1..structures)
        .map(|k| {
            let last = elements - k - 1;
            Walked {
                source: k - 1,
                target: k,
                pairs: (0..=last + 1).flat_map(|e| [e, e.min(last)]).collect(),
                kind: u8::from(k % 2 == 1),
            }
        })
        .collect();
    let structure = |k| related(elements - k, PLAIN, std::iter::empty());
    walked((0..structures).map(structure), &maps)
}
