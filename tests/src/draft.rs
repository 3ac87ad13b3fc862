//! A job as a person would describe it, and its bytes. A draft can hold values that the format forbids.

use crate::noise::Noise;

pub type DraftPart = Vec<(i8, i8)>;

#[derive(Clone)]
pub struct DraftType {
    pub demand: u8,
    pub turn_mask: u8,
    pub class_mask: u8,
    pub parts: Vec<DraftPart>,
}

#[derive(Clone)]
pub struct Draft {
    pub width: u16,
    pub length: u16,
    pub step: u16,
    /// Id, rank and gap byte, in file order; a gap byte of 128 to 191 marks the class as common cut.
    pub classes: Vec<[u8; 3]>,
    pub types: Vec<DraftType>,
    /// Bytes put after the last type record, as part of the type list.
    pub extra: Vec<u8>,
    /// Bytes taken off the end of the type list.
    pub missing: usize,
    /// The number of types that the trailer states, if another than there are.
    pub stated_types: Option<u8>,
}

impl Draft {
    pub fn new(width: u16, length: u16, step: u16) -> Draft {
        let (classes, types, extra) = (vec![], vec![], vec![]);
        Draft { width, length, step, classes, types, extra, missing: 0, stated_types: None }
    }

    pub fn with(mut self, demand: u8, turn_mask: u8, class_mask: u8, parts: &[&[(i8, i8)]]) -> Draft {
        let parts = parts.iter().map(|p| p.to_vec()).collect();
        self.types.push(DraftType { demand, turn_mask, class_mask, parts });
        self
    }

    pub fn classes(mut self, classes: &[[u8; 3]]) -> Draft {
        self.classes = classes.to_vec();
        self
    }

    fn board_bytes(&self) -> Vec<u8> {
        [self.width, self.length, self.step].iter().flat_map(|n| n.to_le_bytes()).collect()
    }

    fn type_bytes(&self) -> Vec<u8> {
        let mut bytes: Vec<u8> = self.types.iter().flat_map(type_record).collect();
        bytes.truncate(bytes.len().saturating_sub(self.missing));
        bytes.extend(&self.extra);
        bytes
    }
}

fn type_record(kind: &DraftType) -> Vec<u8> {
    let mut bytes = vec![kind.demand, kind.turn_mask, kind.class_mask, kind.parts.len() as u8];
    for part in &kind.parts {
        bytes.push(part.len() as u8);
        bytes.extend(part.iter().flat_map(|&(x, y)| [x as u8, y as u8]));
    }
    bytes
}

/// How the sections stand in the file.
#[derive(Clone)]
pub struct Arrangement {
    /// 0 board, 1 classes, 2 types.
    pub order: [usize; 3],
    /// Bytes skipped before each section, and before the trailer.
    pub skipped: [Vec<u8>; 4],
    /// Where an empty class list claims to be: this number modulo the places it may have.
    pub empty_at: usize,
}

impl Arrangement {
    /// Board, classes, types, nothing skipped.
    pub fn plain() -> Arrangement {
        Arrangement { order: [0, 1, 2], skipped: Default::default(), empty_at: 0 }
    }

    pub fn random(noise: &mut Noise) -> Arrangement {
        let mut order = [0, 1, 2];
        noise.shuffle(&mut order);
        let skipped = [(); 4].map(|_| {
            let count = if noise.one_in(2) { 0 } else { noise.below(8) };
            noise.bytes(count)
        });
        Arrangement { order, skipped, empty_at: noise.below(1 << 16) }
    }
}

/// A job's bytes, and where its sections stand: board, class list, type list as (offset, length).
#[derive(Clone)]
pub struct Encoded {
    pub bytes: Vec<u8>,
    pub sections: [(usize, usize); 3],
}

/// Offsets of the trailer's fields within the trailer.
pub const SECTION_OFFSET: [usize; 3] = [0, 2, 4];
pub const TYPE_LIST_LENGTH: usize = 6;
pub const CLASS_COUNT: usize = 8;
pub const STATED_LENGTH: usize = 10;
pub const MARK: usize = 12;
pub const TRAILER: usize = 14;

pub fn encode(draft: &Draft, arrangement: &Arrangement) -> Encoded {
    let classes: Vec<u8> = draft.classes.concat();
    let contents = [draft.board_bytes(), classes, draft.type_bytes()];
    let mut bytes = Vec::new();
    let mut sections = [(0, 0); 3];
    for (place, &section) in arrangement.order.iter().enumerate() {
        bytes.extend(&arrangement.skipped[place]);
        sections[section] = (bytes.len(), contents[section].len());
        bytes.extend(&contents[section]);
    }
    bytes.extend(&arrangement.skipped[3]);
    if contents[1].is_empty() {
        sections[1].0 = arrangement.empty_at % (bytes.len() + 1);
    }
    let whole = bytes.len() + TRAILER;
    let type_count = draft.stated_types.unwrap_or(draft.types.len() as u8);
    for number in [sections[0].0, sections[1].0, sections[2].0, sections[2].1] {
        bytes.extend((number as u16).to_le_bytes());
    }
    bytes.extend([draft.classes.len() as u8, type_count]);
    bytes.extend((whole as u16).to_le_bytes());
    bytes.extend([0x44, 0x42]);
    Encoded { bytes, sections }
}

impl Encoded {
    pub fn trailer_at(&self) -> usize {
        self.bytes.len() - TRAILER
    }

    pub fn set_number(&mut self, field: usize, number: u16) {
        let at = self.trailer_at() + field;
        self.bytes[at..at + 2].copy_from_slice(&number.to_le_bytes());
    }

    pub fn set_byte(&mut self, field: usize, byte: u8) {
        let at = self.trailer_at() + field;
        self.bytes[at] = byte;
    }
}
