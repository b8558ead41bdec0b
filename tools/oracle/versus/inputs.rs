//! Texts that look like refspecs, and groups of specs and ref names, each from a seed and a number.
use crate::chance::Chance;

/// The specs of a fetch, and the names of the refs that they are matched with.
#[derive(Clone)]
pub struct Group {
    pub specs: Vec<Vec<u8>>,
    pub names: Vec<Vec<u8>>,
}

/// The texts and groups of tests, as `specs.py` and `groups.py` read them too.
const ROWS: &str = include_str!("rows");
/// Each text of up to four of these bytes is given.
const SMALL: &[u8] = b"+^:*@/.a{\0H";
/// Of these sides, and of names that are the letter a alone, small groups are made.
const SMALL_SIDES: [&[u8]; 8] = [b"*", b"a*", b"*a", b"a*a", b"aa*a", b"a*aa", b"a", b"aa"];
const PIECES: [&[u8]; 37] = [
    b"refs/heads/", b"refs/tags/", b"refs/remotes/origin/", b"refs/", b"heads/", b"main", b"feature/one", b"v1.0",
    b"HEAD", b"head", b"@", b"@{", b"{", b"}", b"*", b"/", b"//", b".", b"..", b".lock", b".lock/", b"lock", b":", b"+",
    b"^", b"~", b"?", b"[", b"]", b"\\", b" ", b"\t", b"\n", b"\0", b"\x7f", b"\xff", b"-",
];
const REAL: [&[u8]; 19] = [
    b"+refs/heads/*:refs/remotes/origin/*", b"refs/heads/main:refs/heads/main", b"refs/tags/*:refs/tags/*", b"HEAD",
    b"^refs/heads/wip/*", b"^refs/heads/private", b"+refs/pull/*/head:refs/remotes/origin/pr/*", b":refs/heads/gone",
    b"main", b"+main:next", b"@", b"@:main", b":", b"+:", b"refs/heads/a*b:refs/x/c*d", b"v1.0:refs/tags/v1.0",
    b"1234567890123456789012345678901234567890:refs/heads/fixed", b"refs/notes/*:refs/notes/*", b"+HEAD:refs/heads/head",
];
const SIGNS: [&[u8]; 13] = [b"", b"", b"", b"", b"", b"", b"+", b"+", b"^", b"^", b"++", b"^+", b"+^"];
const BASES: [&[u8]; 14] = [
    b"refs/heads/", b"refs/heads/", b"refs/heads/", b"refs/heads/", b"refs/tags/", b"refs/remotes/o/", b"refs/x/",
    b"refs/y/", b"refs/", b"", b"tags/", b"remotes/", b"heads/", b"refs/heads/a/",
];
const LEAVES: [&[u8]; 13] =
    [b"a", b"aa", b"ab", b"ba", b"b", b"main", b"x/a", b"a/b", b"v1.0", b"HEAD", b"a.lock", b"a..b", b"-"];
/// What is before and after a star, mostly nothing.
const EDGES: [&[u8]; 14] =
    [b"", b"", b"", b"", b"", b"", b"a", b"aa", b"ab", b"b", b"a/", b"/a", b"-x", b"x/"];
const BETWEEN: [&[u8]; 9] = [b"", b"a", b"b", b"main", b"a/b", b"aa", b"\xc3\xa9", b"*", b" x"];
/// What a partial name may stand for, in the order in which they are tried.
pub const CANDIDATES: [(&[u8], &[u8]); 6] = [
    (b"", b""), (b"refs/", b""), (b"refs/tags/", b""), (b"refs/heads/", b""), (b"refs/remotes/", b""),
    (b"refs/remotes/", b"/HEAD"),
];
/// The original takes what WIDE makes of one of these for what it makes of the other.
pub const TWINS: [&[u8]; 2] = [b"ce9518687c2ca417", b"4b2c557329ca4bff"];
const WIDE: &[u8] = b"refs/heads/*:refs/x/*";

/// The lines of ROWS that begin with a mark, without it and without escapes.
fn rows(mark: &str) -> impl Iterator<Item = Vec<u8>> + '_ {
    ROWS.lines().filter_map(move |line| line.strip_prefix(mark)).map(|line| {
        let mut parts = line.split("\\x");
        let mut text = parts.next().unwrap_or("").as_bytes().to_vec();
        for part in parts {
            text.push(u8::from_str_radix(&part[..2], 16).expect("an escape of rows"));
            text.extend_from_slice(part[2..].as_bytes());
        }
        text
    })
}

/// What inputs are made from.
pub struct Inputs {
    texts: Vec<Vec<u8>>,
    groups: Vec<Group>,
}

impl Inputs {
    pub fn new() -> Inputs {
        let mut texts: Vec<_> = rows("< ").collect();
        texts.extend((0..=255).flat_map(|byte| [vec![byte, b'a'], vec![b'a', byte, b'b'], vec![b'a', byte]]));
        texts.extend(small_texts());
        Inputs { texts, groups: rows("= ").map(|row| group_of(&row)).chain(small_groups()).collect() }
    }

    /// A text with another one, and a name. First are the texts of tests and small ones, then random ones.
    pub fn text(&self, seed: u64, number: u64) -> Group {
        let mut chance = Chance::of(seed, number);
        let text = self.texts.get(number as usize).cloned().unwrap_or_else(|| self.random_text(&mut chance));
        let other = match chance.percent(50) {
            true => changed(&mut chance, text.clone()),
            false => self.random_text(&mut chance),
        };
        let mut group = Group { specs: vec![text], names: Vec::new() };
        group.names.push(name(&mut chance, &group));
        group.specs.push(other);
        group
    }

    /// First the groups of tests and small ones, then random ones.
    pub fn group(&self, seed: u64, number: u64) -> Group {
        match self.groups.get(number as usize) {
            Some(group) => group.clone(),
            None => self.random_group(&mut Chance::of(!seed, number)),
        }
    }

    fn random_text(&self, chance: &mut Chance) -> Vec<u8> {
        match chance.below(1000) {
            0 => long_text(chance),
            1..=80 => (0..chance.between(1, 60)).map(|_| chance.byte()).collect(),
            81..=430 => {
                let own = &self.texts[chance.below(self.texts.len())];
                let text = if chance.percent(50) { own.clone() } else { chance.choose(&REAL).to_vec() };
                changed(chance, text)
            }
            _ => built(chance),
        }
    }

    fn random_group(&self, chance: &mut Chance) -> Group {
        let mut group = Group { specs: Vec::new(), names: Vec::new() };
        let ids = [id(chance), id(chance)];
        for _ in 0..chance.between(1, 6) {
            let spec = spec(chance, &ids, &group.specs);
            group.specs.push(spec);
        }
        if chance.percent(2) {
            let base: &[u8] = chance.choose(&[b"refs/heads/", b"refs/x/"]);
            group.specs.insert(0, WIDE.to_vec());
            group.names.extend(TWINS.map(|twin| [base, twin].concat()));
        }
        for _ in 0..chance.below(13) {
            let name = name(chance, &group);
            group.names.push(name);
        }
        chance.shuffle(&mut group.names);
        if chance.percent(4) {
            let at = chance.below(group.specs.len() + 1);
            group.specs.insert(at, self.random_text(chance));
        }
        group
    }
}

fn small_texts() -> Vec<Vec<u8>> {
    let mut texts = vec![Vec::new()];
    let mut longest = 0..1;
    for _ in 0..4 {
        let begun = texts.len();
        for at in longest {
            texts.extend(SMALL.iter().map(|byte| [&texts[at][..], &[*byte]].concat()).collect::<Vec<_>>());
        }
        longest = begun..texts.len();
    }
    texts
}

/// Groups of one or two short specs and one short name, and of the twins.
fn small_groups() -> Vec<Group> {
    let mut groups = Vec::new();
    for side in SMALL_SIDES {
        let texts = match side.contains(&b'*') {
            true => [[b"*:", side].concat(), [side, b":*"].concat()],
            false => [[b"a:", side].concat(), side.to_vec()],
        };
        for text in texts {
            for other in [None].into_iter().chain(SMALL_SIDES.map(Some)) {
                let excluded = other.map(|side| [b"^", side].concat());
                let specs: Vec<_> = [text.clone()].into_iter().chain(excluded).collect();
                groups.extend((1..4).map(|size| Group { specs: specs.clone(), names: vec![vec![b'a'; size]] }));
            }
        }
    }
    groups.extend([b"refs/heads/", &b"refs/x/"[..]].map(|base| Group {
        specs: vec![WIDE.to_vec()],
        names: TWINS.map(|twin| [base, twin].concat()).to_vec(),
    }));
    groups
}

fn group_of(row: &[u8]) -> Group {
    let mut parts = row.split(|byte| *byte == b'\t');
    let mut words = || parts.next().unwrap_or(b"").split(|byte| *byte == b' ').map(<[u8]>::to_vec).collect();
    Group { specs: words(), names: words() }
}

fn id(chance: &mut Chance) -> Vec<u8> {
    let digits = chance.choose(&[&b"0123456789abcdef"[..], b"0123456789ABCDEF", b"01"]);
    let length = chance.choose(&[40, 40, 40, 64, 39, 41, 63, 65]);
    (0..length).map(|_| chance.choose(digits)).collect()
}

fn plain_name(chance: &mut Chance) -> Vec<u8> {
    let mut text = chance.choose(&BASES).to_vec();
    text.extend_from_slice(chance.choose(&LEAVES));
    if chance.percent(20) {
        text.push(b'/');
        text.extend_from_slice(chance.choose(&LEAVES));
    }
    text
}

fn with_star(chance: &mut Chance, mut text: Vec<u8>) -> Vec<u8> {
    text.insert(chance.below(text.len() + 1), b'*');
    text
}

/// A side of about 256 bytes, the room in which a star is replaced without memory.
fn long_side(chance: &mut Chance) -> Vec<u8> {
    let mut text = plain_name(chance);
    text.resize(chance.between(250, 260), b'a');
    text
}

fn side(chance: &mut Chance) -> Vec<u8> {
    match chance.below(100) {
        0..=7 => Vec::new(),
        8..=13 => chance.choose(&[&b"@"[..], b"HEAD", b"*", b"refs/*", b"+", b"^"]).to_vec(),
        14..=33 => plain_name(chance),
        34..=53 => {
            let text = plain_name(chance);
            with_star(chance, text)
        }
        54..=59 => id(chance),
        60..=61 => long_side(chance),
        62..=63 => {
            let text = long_side(chance);
            with_star(chance, text)
        }
        64..=69 => {
            let mut text = plain_name(chance);
            text.extend((0..chance.between(1, 6)).map(|_| chance.byte()));
            text
        }
        _ => (0..chance.between(1, 5)).flat_map(|_| chance.choose(&PIECES).to_vec()).collect(),
    }
}

fn built(chance: &mut Chance) -> Vec<u8> {
    let mut text = chance.choose(&SIGNS).to_vec();
    let sides = chance.choose(&[1, 1, 1, 2, 2, 2, 2, 3]);
    for number in 0..sides {
        if number > 0 {
            text.push(b':');
        }
        text.extend(side(chance));
    }
    text
}

/// A text with one to three pieces put in, taken out, replaced or doubled.
fn changed(chance: &mut Chance, mut text: Vec<u8>) -> Vec<u8> {
    for _ in 0..chance.between(1, 3) {
        let at = chance.below(text.len() + 1);
        let until = text.len().min(at + chance.choose(&[0, 1, 1, 2, 8]));
        let new = match chance.below(4) {
            0 => Vec::new(),
            1 => vec![chance.byte()],
            2 => chance.choose(&PIECES).to_vec(),
            _ => text[at..until].repeat(2),
        };
        text.splice(at..until, new);
    }
    text
}

/// A text of up to 100,000 bytes: a short one again and again, or with one long side.
fn long_text(chance: &mut Chance) -> Vec<u8> {
    let unit = built(chance);
    let size = chance.between(1_000, 100_000);
    match chance.percent(50) {
        true => unit.iter().copied().cycle().take(if unit.is_empty() { 0 } else { size }).collect(),
        false => [&unit[..], &vec![b'a'; size][..]].concat(),
    }
}

fn pattern(chance: &mut Chance) -> Vec<u8> {
    let (before, behind) = (chance.choose(&EDGES), chance.choose(&EDGES));
    let before = before.strip_prefix(b"/").unwrap_or(before);
    let behind = behind.strip_suffix(b"/").unwrap_or(behind);
    [chance.choose(&BASES), before, b"*", behind].concat()
}

fn plain_side(chance: &mut Chance, ids: &[Vec<u8>]) -> Vec<u8> {
    match chance.below(100) {
        0..=11 => ids[chance.below(ids.len())].clone(),
        12..=24 => chance.choose(&[&b"HEAD"[..], b"@", b"main", b"origin", b"heads/a", b"tags/a", b"remotes/o/a"]).to_vec(),
        _ => [chance.choose(&BASES), chance.choose(&LEAVES[..10])].concat(),
    }
}

fn spec(chance: &mut Chance, ids: &[Vec<u8>], earlier: &[Vec<u8>]) -> Vec<u8> {
    let mut text = chance.choose(&[&b""[..], b"", b"+"]).to_vec();
    match chance.below(100) {
        0..=9 if !earlier.is_empty() => {
            let other = &earlier[chance.below(earlier.len())];
            text.extend_from_slice(other.strip_prefix(b"+").unwrap_or(other));
        }
        0..=41 => text.extend([pattern(chance), pattern(chance)].join(&b':')),
        42..=65 => text.extend([plain_side(chance, ids), plain_side(chance, ids)].join(&b':')),
        66..=75 => text.extend(plain_side(chance, ids)),
        76..=81 => text = [b"^", &pattern(chance)[..]].concat(),
        82..=86 => text = [&b"^"[..], chance.choose(&BASES), chance.choose(&LEAVES[..10])].concat(),
        87..=94 => {
            let other = match earlier.is_empty() {
                true => chance.choose(&REAL).to_vec(),
                false => earlier[chance.below(earlier.len())].clone(),
            };
            text = [b"^", &narrowed(chance, &other)[..]].concat();
        }
        _ => text.extend_from_slice(chance.choose(&[&b""[..], b":", b":refs/heads/a", b":a", b"main:", WIDE])),
    }
    text
}

/// The source of a spec with its star filled, or a narrower pattern.
fn narrowed(chance: &mut Chance, text: &[u8]) -> Vec<u8> {
    let source = sides(text).swap_remove(0);
    match source.contains(&b'*') {
        false => fitting(chance, &source),
        true => replaced(&source, chance.choose(&[b"a", b"main", b"a*", b"*a", b"*"])),
    }
}

fn replaced(text: &[u8], word: &[u8]) -> Vec<u8> {
    let parts: Vec<_> = text.splitn(2, |byte| *byte == b'*').collect();
    parts.join(word)
}

/// The sides of a spec that are there, and the source in any case.
fn sides(text: &[u8]) -> Vec<Vec<u8>> {
    let text = &text[text.iter().take_while(|byte| b"+^".contains(byte)).count()..];
    let mut parts: Vec<_> = text.split(|byte| *byte == b':').map(<[u8]>::to_vec).collect();
    if parts[0].is_empty() {
        parts[0] = b"HEAD".to_vec();
    }
    parts.retain(|part| !part.is_empty());
    parts
}

/// A name that a side matches, or that it nearly does: where the ends of a pattern overlap, mostly.
fn fitting(chance: &mut Chance, side: &[u8]) -> Vec<u8> {
    if let Some(star) = side.iter().position(|byte| *byte == b'*') {
        let (before, behind) = (&side[..star], &side[star + 1..]);
        if chance.percent(12) {
            let most = before.len().min(behind.len());
            let shared = (1..=most).find(|size| before.ends_with(&behind[..*size])).unwrap_or(0);
            return [before, &behind[shared..]].concat();
        }
        let word = if chance.percent(50) { chance.choose(&BETWEEN) } else { chance.choose(&LEAVES) };
        return [before, word, behind].concat();
    }
    if side.starts_with(b"refs/") {
        return side.to_vec();
    }
    let (before, behind) = chance.choose(&CANDIDATES);
    [before, if side == b"@" { b"HEAD" } else { side }, behind].concat()
}

fn name(chance: &mut Chance, group: &Group) -> Vec<u8> {
    let kind = chance.below(100);
    if kind < 10 && !group.names.is_empty() {
        return group.names[chance.below(group.names.len())].clone();
    }
    if kind >= 90 {
        return [chance.choose(&BASES), chance.choose(&LEAVES)].concat();
    }
    let every = sides(&group.specs[chance.below(group.specs.len())]);
    let side = &every[chance.below(every.len())];
    let found = fitting(chance, side);
    if kind < 76 { found } else { changed(chance, found) }
}

/// Smaller texts: without a part, or with a letter in the place of a byte.
pub fn smaller_texts(text: &[u8]) -> impl Iterator<Item = Vec<u8>> + '_ {
    let sizes = std::iter::successors(Some(text.len()), |size| Some(size / 2)).take_while(|size| *size > 0);
    let parts = sizes.flat_map(move |size| (0..text.len()).step_by(size).map(move |at| (at, text.len().min(at + size))));
    let without = parts.map(|(at, until)| [&text[..at], &text[until..]].concat());
    let others = (0..text.len()).filter(move |at| text[*at] != b'a');
    without.chain(others.map(move |at| [&text[..at], b"a", &text[at + 1..]].concat()))
}

/// Smaller groups: without a spec or a name, or with a smaller one.
pub fn smaller_groups(group: &Group) -> impl Iterator<Item = Group> + '_ {
    let specs = smaller_list(&group.specs).map(|specs| Group { specs, names: group.names.clone() });
    specs.chain(smaller_list(&group.names).map(|names| Group { specs: group.specs.clone(), names }))
}

fn smaller_list(list: &[Vec<u8>]) -> impl Iterator<Item = Vec<Vec<u8>>> + '_ {
    let without = (0..list.len()).map(|at| [&list[..at], &list[at + 1..]].concat());
    let others = list.iter().enumerate().flat_map(|(at, text)| smaller_texts(text).map(move |smaller| (at, smaller)));
    without.chain(others.map(|(at, smaller)| [&list[..at], &[smaller], &list[at + 1..]].concat()))
}
