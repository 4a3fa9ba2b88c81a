//! Writes a chain or its lists as a bundle: packed, loose (junk between and in what isn't read), or overlapping.

use crate::model::*;
use crate::rng::Rng;

/// Words and bytes as a judge takes them.
pub struct Bundle {
    pub words: Vec<u64>,
    pub bytes: Vec<u8>,
}

#[derive(Clone, Copy, PartialEq)]
pub enum Layout {
    Packed,
    Loose,
    Overlapping,
}

/// Rows of one section, as flat words.
struct Table {
    row: usize,
    words: Vec<u64>,
}

impl Table {
    fn new(row: usize) -> Self {
        Table { row, words: Vec::new() }
    }

    fn rows(&self) -> u64 {
        (self.words.len() / self.row) as u64
    }

    /// Where these rows stand already.
    fn find(&self, rows: &[u64]) -> Option<u64> {
        let starts = (0..self.words.len()).step_by(self.row);
        starts.into_iter().find(|at| self.words[*at..].starts_with(rows)).map(|at| (at / self.row) as u64)
    }
}

/// Sections that hold ranges or numbers of others.
#[derive(Clone, Copy)]
enum Section {
    Attributes,
    Rdns,
    Names,
    Usages,
    Members,
}

struct Writer<'r> {
    rng: &'r mut Rng,
    layout: Layout,
    bytes: Vec<u8>,
    strings: Table,
    /// By `Section`.
    tables: [Table; 5],
}

/// The chain's bundle.
pub fn chain(rng: &mut Rng, layout: Layout, chain: &Chain) -> Bundle {
    let mut writer = Writer::new(rng, layout);
    let mut header = vec![1; 16];
    header[13] = writer.optional(&chain.host);
    header[14] = 0;
    header[15] = chain.now;
    let n = chain.certificates.len();
    let mut order: Vec<usize> = (0..n).collect();
    if layout != Layout::Packed {
        writer.rng.shuffle(&mut order);
    }
    let mut rows = vec![[0; 41]; n];
    for i in order {
        rows[i] = writer.certificate(&chain.certificates[i]);
    }
    let certificates = Table { row: 41, words: rows.concat() };
    let Writer { rng, bytes, strings, tables: [attributes, rdns, names, usages, _], .. } = writer;
    let sections = [strings, attributes, rdns, names, usages, certificates];
    Bundle { words: laid_out(rng, layout, header, &sections), bytes }
}

/// The policy's bundle.
pub fn policy(rng: &mut Rng, layout: Layout, lists: &Lists) -> Bundle {
    let mut writer = Writer::new(rng, layout);
    let mut header = vec![1; 23];
    let mut order: Vec<usize> = (0..lists.len()).collect();
    if layout != Layout::Packed {
        writer.rng.shuffle(&mut order);
    }
    for list in order {
        let numbers: Vec<u64> = lists[list].iter().map(|entry| writer.string(entry)).collect();
        header[5 + 2 * list] = writer.place(Section::Members, &numbers);
        header[6 + 2 * list] = numbers.len() as u64;
    }
    let Writer { rng, bytes, strings, tables: [_, _, _, _, members], .. } = writer;
    Bundle { words: laid_out(rng, layout, header, &[strings, members]), bytes }
}

impl<'r> Writer<'r> {
    fn new(rng: &'r mut Rng, layout: Layout) -> Self {
        let tables = [2, 2, 3, 1, 1].map(Table::new);
        Writer { rng, layout, bytes: Vec::new(), strings: Table::new(2), tables }
    }

    /// True now and then, but never in a packed bundle.
    fn loosely(&mut self, chance: u64) -> bool {
        self.layout != Layout::Packed && self.rng.percent(chance)
    }

    fn string(&mut self, text: &[u8]) -> u64 {
        let reuse = self.layout == Layout::Packed || self.rng.percent(40);
        if let Some(number) = self.equal_string(text).filter(|_| reuse) {
            return number;
        }
        if self.loosely(8) {
            // An unused string may hold any bytes.
            let junk: Text = (0..self.rng.below(5)).map(|_| self.rng.word() as u8).collect();
            let start = self.place_text(&junk);
            self.strings.words.extend([start, junk.len() as u64]);
        }
        let start = self.place_text(text);
        self.strings.words.extend([start, text.len() as u64]);
        self.strings.rows() - 1
    }

    fn equal_string(&self, text: &[u8]) -> Option<u64> {
        let rows = self.strings.words.as_chunks::<2>().0;
        let is_equal = |row: &[u64; 2]| self.bytes[row[0] as usize..][..row[1] as usize] == *text;
        rows.iter().position(is_equal).map(|number| number as u64)
    }

    /// Where the text begins in the bytes, to which it is added as far as needed.
    fn place_text(&mut self, text: &[u8]) -> u64 {
        let end = self.bytes.len();
        if self.layout == Layout::Overlapping {
            return overlap(&mut self.bytes, 0, text) as u64;
        }
        if self.loosely(20) {
            let gap = self.rng.index(4);
            self.bytes.resize(end + gap, 0xEE);
        }
        self.bytes.extend(text);
        (self.bytes.len() - text.len()) as u64
    }

    fn optional(&mut self, text: &Option<Text>) -> u64 {
        text.as_ref().map_or(0, |text| self.string(text) + 1)
    }

    /// The number of the first of these rows in their section.
    fn place(&mut self, section: Section, rows: &[u64]) -> u64 {
        if self.loosely(12) {
            self.junk_row(section);
        }
        let so_far = self.tables[section as usize].rows();
        if rows.is_empty() {
            return if self.layout == Layout::Packed { so_far } else { self.rng.between(0, so_far) };
        }
        let share = self.layout == Layout::Overlapping;
        let table = &mut self.tables[section as usize];
        if let Some(first) = table.find(rows).filter(|_| share) {
            return first;
        }
        table.words.extend(rows);
        so_far
    }

    /// A row that nobody uses still has to be sound.
    fn junk_row(&mut self, section: Section) {
        let plain = self.string(b"Unused.Text");
        let any = self.rng.below(self.strings.rows());
        let attributes = self.tables[Section::Attributes as usize].rows();
        let rdns = self.tables[Section::Rdns as usize].rows();
        let first = self.rng.between(0, attributes);
        let (x, y) = (self.rng.junk(), self.rng.junk());
        let row = match section {
            Section::Attributes => vec![any, plain],
            Section::Rdns => vec![first, self.rng.between(0, attributes - first)],
            Section::Names => match self.rng.below(4) {
                0 => vec![0, plain, y],
                1 => vec![1, rdns, 0],
                2 => vec![2, any, y],
                _ => vec![self.rng.between(3, 4), x, y],
            },
            Section::Usages => vec![self.rng.below(8)],
            Section::Members => vec![any],
        };
        self.tables[section as usize].words.extend(row);
    }

    fn name(&mut self, name: &Name) -> [u64; 2] {
        let mut rows = Vec::new();
        for rdn in name {
            let attributes: Vec<u64> =
                rdn.iter().flat_map(|attribute| [self.string(&attribute.oid), self.string(&attribute.value)]).collect();
            rows.extend([self.place(Section::Attributes, &attributes), rdn.len() as u64]);
        }
        [self.place(Section::Rdns, &rows), name.len() as u64]
    }

    fn general_names(&mut self, names: &[GeneralName]) -> [u64; 2] {
        let rows: Vec<u64> = names.iter().flat_map(|name| self.general_name(name)).collect();
        [self.place(Section::Names, &rows), names.len() as u64]
    }

    fn general_name(&mut self, name: &GeneralName) -> [u64; 3] {
        let (x, y) = (self.unread(), self.unread());
        match name {
            GeneralName::Dns(text) => [0, self.string(text), y],
            GeneralName::Directory(name) => {
                let [first, count] = self.name(name);
                [1, first, count]
            }
            GeneralName::Ip(address) => [2, self.string(address), y],
            GeneralName::Other => [3, x, y],
            GeneralName::Unsupported => [4, x, y],
        }
    }

    /// What a word holds that nobody reads.
    fn unread(&mut self) -> u64 {
        if self.layout == Layout::Packed {
            0
        } else {
            self.rng.junk()
        }
    }

    fn certificate(&mut self, cert: &Certificate) -> [u64; 41] {
        let mut row = [0; 41].map(|_: u64| self.unread());
        self.identity(cert, &mut row);
        self.keys_and_usages(cert, &mut row);
        self.names(cert, &mut row);
        row[38] = cert.policies;
        row[39] = cert.aia;
        let some_part = [15, 19, 21, 24, 28, 30, 33, 38, 39].iter().any(|mark| row[*mark] != 0);
        row[40] = u64::from(some_part || cert.other_extensions);
        row
    }

    fn identity(&mut self, cert: &Certificate, row: &mut [u64; 41]) {
        row[0] = self.string(&cert.fingerprint);
        row[1] = cert.version;
        row[2] = self.string(&cert.serial);
        row[3] = self.string(&cert.outer_signature);
        row[4] = self.string(&cert.inner_signature);
        row[5] = cert.not_before;
        row[6] = cert.not_after;
        row[7..9].copy_from_slice(&self.name(&cert.issuer));
        row[9..11].copy_from_slice(&self.name(&cert.subject));
        row[11] = cert.key;
        if cert.key == RSA {
            row[12] = cert.rsa_bits;
        }
        row[13] = self.optional(&cert.issuer_uid);
        row[14] = self.optional(&cert.subject_uid);
    }

    fn keys_and_usages(&mut self, cert: &Certificate, row: &mut [u64; 41]) {
        row[15] = mark(&cert.aki);
        if let Some(Part { holds, .. }) = &cert.aki {
            row[16] = self.optional(&holds.key_id);
            row[17] = self.optional(&holds.issuer);
            row[18] = self.optional(&holds.serial);
        }
        row[19] = mark(&cert.ski);
        if let Some(Part { holds, .. }) = &cert.ski {
            row[20] = self.string(holds);
        }
        row[21] = mark(&cert.eku);
        if let Some(Part { holds, .. }) = &cert.eku {
            row[22] = self.place(Section::Usages, holds);
            row[23] = holds.len() as u64;
        }
        row[24] = mark(&cert.bc);
        if let Some(Part { holds, .. }) = &cert.bc {
            row[25] = u64::from(holds.ca);
            row[26] = u64::from(holds.path.is_some());
            row[27] = holds.path.map_or(row[27], |path| path as u64);
        }
        row[28] = mark(&cert.ku);
        if let Some(Part { holds, .. }) = &cert.ku {
            row[29] = *holds;
        }
    }

    fn names(&mut self, cert: &Certificate, row: &mut [u64; 41]) {
        row[30] = mark(&cert.san);
        if let Some(Part { holds, .. }) = &cert.san {
            row[31..33].copy_from_slice(&self.general_names(holds));
        }
        row[33] = mark(&cert.nc);
        if let Some(Part { holds, .. }) = &cert.nc {
            row[34..36].copy_from_slice(&self.general_names(&holds.permitted));
            row[36..38].copy_from_slice(&self.general_names(&holds.excluded));
        }
    }
}

fn mark<T>(part: &Option<Part<T>>) -> u64 {
    part.as_ref().map_or(0, |part| part.mark)
}

/// The header and its sections, whose counts and offsets begin at the header's second word.
fn laid_out(rng: &mut Rng, layout: Layout, header: Vec<u64>, sections: &[Table]) -> Vec<u64> {
    let first = header.len();
    let mut words = header;
    let mut order: Vec<usize> = (0..sections.len()).collect();
    if layout != Layout::Packed {
        rng.shuffle(&mut order);
    }
    for &section in &order {
        if layout == Layout::Loose {
            words.extend((0..rng.weighted(&[4, 2, 1, 1])).map(|_| rng.junk()));
        }
        let rows = &sections[section].words;
        let offset = match layout {
            Layout::Overlapping => overlap(&mut words, first, rows),
            _ => append(&mut words, rows),
        };
        words[1 + 2 * section] = sections[section].rows();
        words[2 + 2 * section] = offset as u64;
    }
    if layout == Layout::Loose && rng.percent(30) {
        words.push(rng.junk());
    }
    for (section, table) in sections.iter().enumerate() {
        if layout != Layout::Packed && table.words.is_empty() {
            words[2 + 2 * section] = rng.between(first as u64, words.len() as u64);
        }
    }
    words
}

fn append(words: &mut Vec<u64>, rows: &[u64]) -> usize {
    words.extend(rows);
    words.len() - rows.len()
}

/// Where the part stands from `first` on; what of it doesn't stand there yet is added at the end.
fn overlap<T: Copy + PartialEq>(whole: &mut Vec<T>, first: usize, part: &[T]) -> usize {
    let at = (first..=whole.len()).find(|at| {
        let shared = (whole.len() - at).min(part.len());
        whole[*at..at + shared] == part[..shared]
    });
    // At the very end nothing needs to agree, so some place is always found.
    let at = at.unwrap_or(whole.len());
    let standing = (whole.len() - at).min(part.len());
    whole.extend(&part[standing..]);
    at
}
