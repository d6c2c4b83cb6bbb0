// The definitions of docs/FORMATS.md and docs/RULES.md, written down plainly and apart from the library, to compare it with.
// A row set is a u64, since a table has at most 64 rows.

pub const MAX_ROWS: usize = 64;

#[derive(Clone, Copy, PartialEq, Eq, Debug)]
pub enum Cap {
    In,
    Out,
    Both,
}

#[derive(Clone, Copy, PartialEq, Eq, Debug)]
pub enum Row {
    Void,
    Nothing,
    Channel(Cap, usize),
    Element(u64, usize, usize),
    Union(usize, usize),
}

#[derive(Clone, Copy, PartialEq, Eq, Debug)]
pub struct Fault {
    pub code: u64,
    pub layer: u64,
    pub place: u64,
}

impl Fault {
    pub fn packed(&self) -> u64 {
        self.code + 256 * self.layer + 65536 * self.place
    }
}

// ---- row text

fn number(field: &[u8]) -> Option<usize> {
    match field {
        [d] if d.is_ascii_digit() => Some((d - b'0') as usize),
        [a, b] if (b'1'..=b'9').contains(a) && b.is_ascii_digit() => {
            let n = (a - b'0') as usize * 10 + (b - b'0') as usize;
            if n < MAX_ROWS { Some(n) } else { None }
        }
        _ => None,
    }
}

fn labels(field: &[u8]) -> Option<u64> {
    if field.len() != 16 || !field.iter().all(|b| b.is_ascii_digit() || (b'a'..=b'f').contains(b)) {
        return None;
    }
    u64::from_str_radix(std::str::from_utf8(field).ok()?, 16).ok()
}

fn capability(field: &[u8]) -> Option<Cap> {
    match field {
        b"i" => Some(Cap::In),
        b"o" => Some(Cap::Out),
        b"b" => Some(Cap::Both),
        _ => None,
    }
}

// One line from a place on: the row and the place behind it, or the first wrong field.
fn line(text: &[u8], from: usize) -> Result<(Row, usize), u64> {
    let mut at = from;
    let mut fields: Vec<&[u8]> = Vec::new();
    let mut row = Row::Void;
    for k in 0..4u64 {
        let mut end = at;
        while end < text.len() && text[end] != b',' && text[end] != b'\n' {
            end += 1;
        }
        let field = &text[at..end];
        let stop = if k < 3 { b',' } else { b'\n' };
        let ended = end < text.len() && text[end] == stop;
        let kind = if k == 0 { field } else { fields[0] };
        let good = match (k, kind) {
            (0, b"V" | b"N" | b"C" | b"E" | b"U") => true,
            (0, _) => false,
            (1, b"C") => capability(field).is_some(),
            (1, b"E") => labels(field).is_some(),
            (2, b"C" | b"E" | b"U") => number(field).is_some(),
            (3, b"E" | b"U") => number(field).is_some(),
            _ => field.is_empty(),
        };
        if !good || !ended {
            return Err(k);
        }
        fields.push(field);
        at = end + 1;
    }
    if let (b"C", Some(c), Some(p)) = (fields[0], capability(fields[1]), number(fields[2])) {
        row = Row::Channel(c, p);
    } else if let (b"E", Some(l), Some(i), Some(n)) = (fields[0], labels(fields[1]), number(fields[2]), number(fields[3])) {
        row = Row::Element(l, i, n);
    } else if let (b"U", Some(a), Some(b)) = (fields[0], number(fields[2]), number(fields[3])) {
        row = Row::Union(a, b);
    } else if fields[0] == b"N" {
        row = Row::Nothing;
    }
    Ok((row, at))
}

pub fn read(text: &[u8], layer: u64) -> Result<Vec<Row>, Fault> {
    if text.len() > 1600 {
        return Err(Fault { code: 1, layer, place: 0 });
    }
    let mut rows = Vec::new();
    let mut at = 0;
    while at < text.len() {
        if rows.len() == MAX_ROWS {
            return Err(Fault { code: 3, layer, place: 0 });
        }
        match line(text, at) {
            Ok((row, next)) => {
                rows.push(row);
                at = next;
            }
            Err(field) => return Err(Fault { code: 2, layer, place: 4 * rows.len() as u64 + field }),
        }
    }
    Ok(rows)
}

// ---- what a table means

pub struct Table {
    pub rows: Vec<Row>,
    pub offers: Vec<u64>,
    pub inhabited: u64,
}

fn has(set: u64, k: usize) -> bool {
    k < 64 && set >> k & 1 == 1
}

fn members(set: u64) -> impl Iterator<Item = usize> {
    (0..64).filter(move |k| set >> k & 1 == 1)
}

fn offered(rows: &[Row]) -> Vec<u64> {
    let mut sets: Vec<u64> = (0..rows.len()).map(|p| if let Row::Union(..) = rows[p] { 0 } else { 1 << p }).collect();
    loop {
        let mut grown = false;
        for p in 0..rows.len() {
            if let Row::Union(a, b) = rows[p] {
                let more = sets[p] | sets.get(a).copied().unwrap_or(0) | sets.get(b).copied().unwrap_or(0);
                grown |= more != sets[p];
                sets[p] = more;
            }
        }
        if !grown {
            return sets;
        }
    }
}

fn inhabited(rows: &[Row]) -> u64 {
    let mut set = 0u64;
    loop {
        let before = set;
        for (p, row) in rows.iter().enumerate() {
            let yes = match *row {
                Row::Void | Row::Channel(..) => true,
                Row::Nothing => false,
                Row::Element(l, i, n) => l != 0 && has(set, i) && has(set, n),
                Row::Union(a, b) => has(set, a) || has(set, b),
            };
            if yes {
                set |= 1 << p;
            }
        }
        if set == before {
            return set;
        }
    }
}

fn numbers(row: Row) -> Vec<usize> {
    match row {
        Row::Void | Row::Nothing => vec![],
        Row::Channel(_, p) => vec![p],
        Row::Element(_, i, n) => vec![i, n],
        Row::Union(a, b) => vec![a, b],
    }
}

impl Table {
    pub fn new(rows: Vec<Row>) -> Table {
        let offers = offered(&rows);
        let inhabited = inhabited(&rows);
        Table { rows, offers, inhabited }
    }

    pub fn admit(&self, layer: u64) -> Result<(), Fault> {
        if self.rows.is_empty() {
            return Err(Fault { code: 11, layer, place: 0 });
        }
        for (p, row) in self.rows.iter().enumerate() {
            if numbers(*row).iter().any(|k| *k >= self.rows.len()) {
                return Err(Fault { code: 12, layer, place: p as u64 });
            }
        }
        for p in 0..self.rows.len() {
            let mut seen = 0u64;
            for o in members(self.offers[p] & self.inhabited) {
                if let Row::Element(l, ..) = self.rows[o] {
                    if seen & l != 0 {
                        return Err(Fault { code: 13, layer, place: p as u64 });
                    }
                    seen |= l;
                }
            }
        }
        Ok(())
    }

    fn channels(&self, p: usize) -> Vec<(usize, Cap, usize)> {
        members(self.offers[p]).filter_map(|o| if let Row::Channel(c, s) = self.rows[o] { Some((o, c, s)) } else { None }).collect()
    }

    fn elements(&self, p: usize) -> Vec<(u64, usize, usize)> {
        members(self.offers[p] & self.inhabited).filter_map(|o| if let Row::Element(l, i, n) = self.rows[o] { Some((l, i, n)) } else { None }).collect()
    }

    fn offers_void(&self, p: usize) -> bool {
        members(self.offers[p]).any(|o| self.rows[o] == Row::Void)
    }

    // The largest relation in which each pair keeps the rules: a set of rows for each row.
    pub fn below(&self) -> Vec<u64> {
        let n = self.rows.len();
        let all = if n == 64 { u64::MAX } else { (1u64 << n) - 1 };
        let mut rel = vec![all; n];
        let channels: Vec<_> = (0..n).map(|p| self.channels(p)).collect();
        let elements: Vec<_> = (0..n).map(|p| self.elements(p)).collect();
        let voids: Vec<_> = (0..n).map(|p| self.offers_void(p)).collect();
        loop {
            let mut struck = false;
            for p in 0..n {
                for q in 0..n {
                    if has(rel[p], q) && !keeps(&rel, (&channels[p], &channels[q]), (&elements[p], &elements[q]), (voids[p], voids[q])) {
                        rel[p] &= !(1 << q);
                        struck = true;
                    }
                }
            }
            if !struck {
                return rel;
            }
        }
    }
}

type Channels = Vec<(usize, Cap, usize)>;
type Elements = Vec<(u64, usize, usize)>;

fn keeps(rel: &[u64], channels: (&Channels, &Channels), elements: (&Elements, &Elements), voids: (bool, bool)) -> bool {
    if voids.0 && !voids.1 {
        return false;
    }
    for (_, c, s) in channels.0 {
        let taken = channels.1.iter().any(|(_, d, t)| {
            (*c == Cap::Both || c == d)
                && match d {
                    Cap::In => has(rel[*s], *t),
                    Cap::Out => has(rel[*t], *s),
                    Cap::Both => has(rel[*s], *t) && has(rel[*t], *s),
                }
        });
        if !taken {
            return false;
        }
    }
    let cover = elements.1.iter().fold(0, |all, e| all | e.0);
    for (l, i, n) in elements.0 {
        if l & !cover != 0 {
            return false;
        }
        for (m, j, k) in elements.1 {
            if l & m != 0 && !(has(rel[*i], *j) && has(rel[*n], *k)) {
                return false;
            }
        }
    }
    true
}

// ---- sources above others

fn raised(by: usize, own: usize, k: usize) -> usize {
    if k < own { k + by } else { 255 }
}

pub fn joined(a: &[Row], b: &[Row]) -> Vec<Row> {
    let shift = |row: &Row, by: usize, own: usize| match *row {
        Row::Channel(c, p) => Row::Channel(c, raised(by, own, p)),
        Row::Element(l, i, n) => Row::Element(l, raised(by, own, i), raised(by, own, n)),
        Row::Union(x, y) => Row::Union(raised(by, own, x), raised(by, own, y)),
        other => other,
    };
    let mut rows: Vec<Row> = a.iter().map(|r| shift(r, 0, a.len())).collect();
    rows.extend(b.iter().map(|r| shift(r, a.len(), b.len())));
    rows
}

pub fn turned(rows: &[Row]) -> Vec<Row> {
    rows.iter()
        .map(|r| match *r {
            Row::Channel(Cap::In, p) => Row::Channel(Cap::Out, p),
            Row::Channel(Cap::Out, p) => Row::Channel(Cap::In, p),
            other => other,
        })
        .collect()
}

// ---- documents

#[derive(Clone, Debug, PartialEq)]
pub enum Doc {
    Void,
    Reference(usize),
    Element(usize, Box<Doc>, Box<Doc>),
}

struct Reader<'a> {
    text: &'a [u8],
    at: usize,
}

impl Reader<'_> {
    fn number(&mut self) -> Option<usize> {
        let start = self.at;
        while self.at < self.text.len() && self.text[self.at].is_ascii_digit() {
            self.at += 1;
        }
        number(&self.text[start..self.at])
    }

    fn peek(&self) -> Option<u8> {
        self.text.get(self.at).copied()
    }

    fn list(&mut self) -> Option<Doc> {
        if self.peek() == Some(b'@') {
            self.at += 1;
            return Some(Doc::Reference(self.number()?));
        }
        let label = self.number()?;
        if self.peek() != Some(b'[') {
            return None;
        }
        self.at += 1;
        let inside = if self.peek() == Some(b']') { Doc::Void } else { self.list()? };
        if self.peek() != Some(b']') {
            return None;
        }
        self.at += 1;
        let following = if self.peek() == Some(b',') {
            self.at += 1;
            self.list()?
        } else {
            Doc::Void
        };
        Some(Doc::Element(label, Box::new(inside), Box::new(following)))
    }
}

pub fn read_doc(text: &[u8]) -> Option<Doc> {
    if text.is_empty() {
        return Some(Doc::Void);
    }
    let mut reader = Reader { text, at: 0 };
    let doc = reader.list()?;
    if reader.at == text.len() { Some(doc) } else { None }
}

impl Table {
    // The rows that a document fits; none if it refers to a row that is no channel row.
    pub fn fits(&self, below: &[u64], doc: &Doc) -> Option<u64> {
        let mut set = 0u64;
        match doc {
            Doc::Void => {
                for r in 0..self.rows.len() {
                    if self.offers_void(r) {
                        set |= 1 << r;
                    }
                }
            }
            Doc::Reference(c) => {
                if !matches!(self.rows.get(*c), Some(Row::Channel(..))) {
                    return None;
                }
                for r in 0..self.rows.len() {
                    if self.channels(r).iter().any(|(d, ..)| has(below[*c], *d)) {
                        set |= 1 << r;
                    }
                }
            }
            Doc::Element(x, a, b) => {
                let (inside, following) = (self.fits(below, a)?, self.fits(below, b)?);
                for r in 0..self.rows.len() {
                    let fit = members(self.offers[r]).any(|o| match self.rows[o] {
                        Row::Element(l, i, n) => l >> x & 1 == 1 && has(inside, i) && has(following, n),
                        _ => false,
                    });
                    if fit {
                        set |= 1 << r;
                    }
                }
            }
        }
        Some(set)
    }
}

// ---- the question

pub enum Outcome {
    Fault(Fault),
    Yes,
    No { table: Table, below: Vec<u64>, p: usize, q: usize },
}

pub fn compare(ours: &[u8], theirs: &[u8], p: u64, q: u64, t: u64) -> Outcome {
    match question(ours, theirs, p, q, t) {
        Ok(outcome) => outcome,
        Err(fault) => Outcome::Fault(fault),
    }
}

fn question(ours: &[u8], theirs: &[u8], p: u64, q: u64, t: u64) -> Result<Outcome, Fault> {
    let a = read(ours, 1)?;
    let b = read(theirs, 2)?;
    Table::new(a.clone()).admit(3)?;
    Table::new(b.clone()).admit(4)?;
    if a.len() + b.len() > MAX_ROWS {
        return Err(Fault { code: 10, layer: 5, place: 0 });
    }
    if p >= a.len() as u64 {
        return Err(Fault { code: 21, layer: 6, place: 0 });
    }
    if q >= b.len() as u64 {
        return Err(Fault { code: 21, layer: 6, place: 1 });
    }
    let b = if t == 0 { b } else { turned(&b) };
    let table = Table::new(joined(&a, &b));
    let below = table.below();
    let (p, q) = (p as usize, a.len() + q as usize);
    if has(below[p], q) { Ok(Outcome::Yes) } else { Ok(Outcome::No { table, below, p, q }) }
}
