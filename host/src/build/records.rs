//! Records of a good file as bytes, with links that are filled in once all offsets are known.

use super::random::Random;

/// Records in the making. The first is the CDR, the second the GDR.
#[derive(Clone, Debug)]
pub struct Records {
    drafts: Vec<Draft>,
    noise: Option<Random>,
}

/// One record; a link is a field and the number of the record it leads to.
#[derive(Clone, Debug)]
struct Draft {
    bytes: Vec<u8>,
    links: Vec<(usize, usize)>,
}

/// A record in the making, by its number.
#[derive(Clone, Copy, Debug, PartialEq, Eq)]
pub struct Made(usize);

impl Records {
    /// No records yet; the seed fills bytes that are not read, 0 leaves them zero.
    pub fn new(noise: u64) -> Records {
        Records { drafts: Vec::new(), noise: (noise != 0).then(|| Random::seeded(noise)) }
    }

    /// A record of this type, its size being the fixed part and then the tail.
    pub fn record(&mut self, record_type: i64, fixed: usize, tail: &[u8]) -> Made {
        let mut bytes: Vec<u8> = match &mut self.noise {
            Some(random) => (0..fixed).map(|_| random.byte()).collect(),
            None => vec![0; fixed],
        };
        bytes.extend_from_slice(tail);
        let size = i64::try_from(bytes.len()).unwrap_or(0);
        self.drafts.push(Draft { bytes, links: Vec::new() });
        let made = Made(self.drafts.len() - 1);
        self.set(made, &[(0, size), (4, record_type)]);
        made
    }

    /// Sets control fields.
    pub fn set(&mut self, made: Made, fields: &[(usize, i64)]) {
        let Some(draft) = self.drafts.get_mut(made.0) else {
            return;
        };
        for (at, value) in fields {
            put(&mut draft.bytes, *at, *value);
        }
    }

    /// Sets a name of up to 64 bytes, ended by a NUL if it is shorter.
    pub fn set_name(&mut self, made: Made, at: usize, name: &[u8]) {
        let ended = name.iter().chain(&[0]).take(64);
        let bytes = self.drafts.get_mut(made.0).map(|draft| &mut draft.bytes);
        let rest = bytes.into_iter().flatten().skip(at);
        rest.zip(ended).for_each(|(byte, letter)| *byte = *letter);
    }

    /// A link from a field of one record to another record, or 0.
    pub fn link(&mut self, from: Made, at: usize, to: Option<Made>) {
        self.set(from, &[(at, 0)]);
        if let (Some(draft), Some(to)) = (self.drafts.get_mut(from.0), to) {
            draft.links.push((at, to.0));
        }
    }

    /// A list: its head in a field of one record, the next links at 8 of each member.
    pub fn list(&mut self, holder: Made, head: usize, members: &[Made]) {
        self.link(holder, head, members.first().copied());
        for (place, member) in members.iter().enumerate() {
            self.link(*member, 8, members.get(place + 1).copied());
        }
    }

    /// The file: magics, then the CDR, then the others; in any order if a generator is lent.
    pub fn file(&self, shuffle: Option<&mut Random>) -> Vec<u8> {
        let mut order: Vec<usize> = (0..self.drafts.len()).collect();
        if let (Some(random), Some(others)) = (shuffle, order.get_mut(1..)) {
            random.shuffle(others);
        }
        let mut file = vec![0xCD, 0xF2, 0x60, 0x02, 0x00, 0x00, 0xFF, 0xFF];
        let mut starts = Vec::new();
        for number in order {
            starts.push((number, file.len()));
            file.extend(self.drafts.get(number).iter().flat_map(|draft| &draft.bytes));
        }
        starts.sort_unstable();
        let offsets: Vec<usize> = starts.into_iter().map(|(_, offset)| offset).collect();
        self.fill_links(&mut file, &offsets);
        let end = file.len();
        put_offset(&mut file, offsets.get(1).map(|gdr| gdr + 20), Some(&end));
        file
    }

    /// So many bytes for the padding: zeros without noise; with it any bytes, or copies of records whose links are zero.
    pub fn padding(&mut self, count: usize) -> Vec<u8> {
        let Some(random) = &mut self.noise else {
            return vec![0; count];
        };
        if random.once_in(2) {
            return (0..count).map(|_| random.byte()).collect();
        }
        let copies = self.drafts.iter().cycle().skip(random.size_below(self.drafts.len()));
        copies.flat_map(|draft| &draft.bytes).copied().take(count).collect()
    }

    fn fill_links(&self, file: &mut [u8], offsets: &[usize]) {
        for (draft, offset) in self.drafts.iter().zip(offsets) {
            for (at, to) in &draft.links {
                put_offset(file, Some(offset + at), offsets.get(*to));
            }
        }
    }
}

fn put_offset(bytes: &mut [u8], at: Option<usize>, offset: Option<&usize>) {
    let offset = offset.and_then(|offset| i64::try_from(*offset).ok());
    if let (Some(at), Some(offset)) = (at, offset) {
        put(bytes, at, offset);
    }
}

/// Writes a control field: the low 4 bytes of the number, big-endian.
pub fn put(bytes: &mut [u8], at: usize, value: i64) {
    let low = value as i32;
    let rest = bytes.iter_mut().skip(at);
    rest.zip(low.to_be_bytes()).for_each(|(byte, new)| *byte = new);
}
