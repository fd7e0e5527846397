//! Journals as bytes: the checksum, the header and the records, written and read.

use crate::bounds::Bounds;
use crate::conditions::Twin;
use crate::entry::Entry;
use crate::fault::Fault;

/// `RPLJ`, with which a header begins, and the version of the format.
const MARK: [u8; 4] = *b"RPLJ";
const VERSION: u32 = 1;
/// The bytes of a header, of the head of a record with its checksum, and of all of a record but its body.
pub const HEADER: usize = 20;
pub const HEAD: usize = 12;
pub const AROUND_BODY: usize = 16;

/// CRC-32 as zlib has it, bit by bit.
pub fn crc32(bytes: &[u8]) -> u32 {
    let shifted = |rest: u32| if rest & 1 == 1 { rest >> 1 ^ 0xEDB8_8320 } else { rest >> 1 };
    !bytes.iter().fold(!0, |rest, &byte| (0..8).fold(rest ^ u32::from(byte), |rest, _| shifted(rest)))
}

/// The number in four bytes, low byte first. Past the end there are zeros.
pub fn number_at(bytes: &[u8], place: usize) -> u32 {
    (0..4).rev().fold(0, |number, i| number << 8 | bytes.get(place + i).copied().map_or(0, u32::from))
}

/// The size of the body of the record at the front, its kind, and the length of the record.
pub fn size_at(bytes: &[u8]) -> usize {
    number_at(bytes, 0) as usize
}

pub fn kind_at(bytes: &[u8]) -> u32 {
    number_at(bytes, 4)
}

pub fn record_length(bytes: &[u8]) -> usize {
    AROUND_BODY + size_at(bytes)
}

/// Some bytes with their checksum.
fn sealed(bytes: &[u8]) -> Vec<u8> {
    [bytes, &crc32(bytes).to_le_bytes()].concat()
}

/// The record of any kind and any body.
pub fn record_of(kind: u32, body: &[u8]) -> Vec<u8> {
    let head = [(body.len() as u32).to_le_bytes(), kind.to_le_bytes()].concat();
    [sealed(&head), sealed(body)].concat()
}

/// A header with any four numbers.
pub fn header_of(numbers: [u32; 4]) -> Vec<u8> {
    sealed(&numbers.map(u32::to_le_bytes).concat())
}

/// The numbers of a header for tables with these slots.
pub fn header_numbers([vertex_slots, triangle_slots]: [u32; 2]) -> [u32; 4] {
    [u32::from_le_bytes(MARK), VERSION, vertex_slots, triangle_slots]
}

/// The kind of a change.
pub fn kind_of(entry: &Entry) -> u32 {
    match entry {
        Entry::Load { .. } => 1,
        Entry::Refine { .. } => 2,
        Entry::WholeStep => 3,
        Entry::List { .. } => 4,
        Entry::Box { .. } => 5,
        Entry::SetLock { on: true, .. } => 6,
        Entry::SetLock { on: false, .. } => 7,
        Entry::TakeBack { .. } => 8,
    }
}

/// Whether a change of this kind may have a body of this size.
pub fn is_kind(kind: u32, size: usize) -> bool {
    match kind {
        1 => size >= 4,
        2 | 6 | 7 => size == 4,
        3 => size == 0,
        4 | 8 => size.is_multiple_of(4),
        5 => size == 28,
        _ => false,
    }
}

/// The change of the record at the front, where there is one.
pub fn entry_at(bytes: &[u8]) -> Entry {
    let body = &bytes[HEAD..HEAD + size_at(bytes)];
    let triangle = number_at(body, 0);
    let numbers = || (0..body.len() / 4).map(|i| number_at(body, 4 * i)).collect();
    let corner = |first: usize| [0, 1, 2].map(|axis| number_at(body, 4 * (first + axis)) as i32);
    match kind_at(bytes) {
        1 => Entry::Load { rule: triangle, cage: body[4..].to_vec() },
        2 => Entry::Refine { triangle },
        3 => Entry::WholeStep,
        4 => Entry::List { list: numbers() },
        5 => Entry::Box { bounds: Bounds { low: corner(0), high: corner(3) }, below: number_at(body, 24) },
        6 => Entry::SetLock { triangle, on: true },
        7 => Entry::SetLock { triangle, on: false },
        _ => Entry::TakeBack { note: numbers() },
    }
}

/// Whether some bytes from a place on have their checksum behind them.
fn holds(bytes: &[u8], place: usize, length: usize) -> bool {
    number_at(bytes, place + length) == crc32(&bytes[place..place + length])
}

/// The first of some numbers whose condition holds, or 0.
fn first_of(tests: &[(u32, &dyn Fn() -> bool)]) -> u32 {
    tests.iter().find(|(_, holds)| holds()).map_or(0, |(number, _)| *number)
}

impl Twin {
    /// The header of a journal for tables with these slots.
    pub fn header(&self, [vertex_slots, triangle_slots]: [u32; 2]) -> Vec<u8> {
        let exchanged = self.fault.has(Fault::HeaderSlotsExchanged);
        let slots = if exchanged { [triangle_slots, vertex_slots] } else { [vertex_slots, triangle_slots] };
        let mut header = header_of(header_numbers(slots));
        match self.fault.0 {
            Some(Fault::HeaderUnmarked) => header = sealed(&header[4..16]),
            Some(Fault::HeaderChecksumOfSlots) => {
                let checksum = crc32(&header[8..16]);
                header.splice(16.., checksum.to_le_bytes());
            }
            _ => {}
        }
        header
    }

    /// The record of a change.
    pub fn encode(&self, entry: &Entry) -> Vec<u8> {
        let kind = match (kind_of(entry), self.fault.0) {
            (7, Some(Fault::UnlockRecordedAsLock)) => 6,
            (4, Some(Fault::ListRecordedAsNote)) => 8,
            (kind, Some(Fault::KindsFromZero)) => kind - 1,
            (kind, _) => kind,
        };
        let body = self.body(entry);
        let mut record = record_of(kind, &body);
        let end = HEAD + body.len();
        match self.fault.0 {
            Some(Fault::ChecksumOfAll) => {
                let checksum = crc32(&record[..end]);
                record.splice(end.., checksum.to_le_bytes());
            }
            Some(Fault::ChecksumOfSize) => {
                let checksum = crc32(&record[..4]);
                record.splice(8..HEAD, checksum.to_le_bytes());
            }
            Some(Fault::ChecksumUnturned) => record[end..].iter_mut().for_each(|byte| *byte = !*byte),
            Some(Fault::ChecksumHighFirst) => record[end..].reverse(),
            Some(Fault::SizeOfRecord) => {
                let head = [record.len() as u32, kind].map(u32::to_le_bytes).concat();
                record.splice(..HEAD, sealed(&head));
            }
            Some(Fault::EmptyBodyUnsealed) if body.is_empty() => record.truncate(end),
            _ => {}
        }
        record
    }

    /// The body of a change.
    fn body(&self, entry: &Entry) -> Vec<u8> {
        let bytes_of = |numbers: &[u32]| -> Vec<u8> { numbers.iter().flat_map(|&number| self.four(number)).collect() };
        match entry {
            Entry::Load { cage, .. } if self.fault.has(Fault::RuleUnrecorded) => cage.clone(),
            Entry::Load { rule, cage } => [&self.four(*rule)[..], cage].concat(),
            Entry::Refine { triangle } | Entry::SetLock { triangle, .. } => bytes_of(&[*triangle]),
            Entry::WholeStep => Vec::new(),
            Entry::List { list } if self.fault.has(Fault::RepeatsUnrecorded) => {
                let mut once = list.clone();
                once.dedup();
                bytes_of(&once)
            }
            Entry::List { list } => bytes_of(list),
            Entry::Box { bounds: Bounds { low, high }, below } => {
                let high_first = self.fault.has(Fault::HighCornerFirst);
                let corners = if high_first { [high, low] } else { [low, high] };
                let coordinates = corners.into_iter().flatten().map(|&coordinate| self.unsigned(coordinate));
                bytes_of(&coordinates.chain([*below]).collect::<Vec<u32>>())
            }
            Entry::TakeBack { note } if self.fault.has(Fault::NoteRecordedToItsEnd) => {
                let entries = note.get(3).map_or(0, |&k| (9 * k as usize).saturating_add(4));
                bytes_of(&note[..entries.min(note.len())])
            }
            Entry::TakeBack { note } => bytes_of(note),
        }
    }

    /// The four bytes of a number, and the number of a coordinate.
    fn four(&self, number: u32) -> [u8; 4] {
        if self.fault.has(Fault::HighByteFirst) { number.to_be_bytes() } else { number.to_le_bytes() }
    }

    fn unsigned(&self, coordinate: i32) -> u32 {
        if self.fault.has(Fault::SignAsBit) && coordinate < 0 {
            return 1 << 31 | coordinate.unsigned_abs();
        }
        coordinate as u32
    }

    /// Why no record is at the front of some bytes: 1, 2, 3, 2, 3, 4; or 0.
    pub fn stop_at(&self, bytes: &[u8]) -> u32 {
        let has = |fault: Fault| self.fault.has(fault);
        let (length, size) = (bytes.len(), size_at(bytes));
        let cut_off = if has(Fault::LastChecksumUnwanted) { HEAD + size } else { record_length(bytes) };
        let body_holds = || has(Fault::BodyUntested) || has(Fault::LastChecksumUnwanted) && length < cut_off + 4;
        let has_kind = || {
            is_kind(kind_at(bytes), size)
                || has(Fault::OddSizesPassed) && matches!(kind_at(bytes), 4 | 8)
                || has(Fault::LaterKindsPassed) && kind_at(bytes) > 8
                || has(Fault::LongerTrianglesPassed) && matches!(kind_at(bytes), 2 | 6 | 7) && size > 4
        };
        let torn = if has(Fault::TornIsEnd) { 1 } else { 2 };
        first_of(&[
            (1, &|| length == 0),
            (torn, &|| length < HEAD),
            (3, &|| !holds(bytes, 0, 8) && !has(Fault::HeadUntested)),
            (4, &|| has(Fault::KindBeforeTorn) && !has_kind()),
            (torn, &|| length < cut_off),
            (4, &|| has(Fault::KindBeforeChecksum) && !has_kind()),
            (3, &|| !body_holds() && !holds(bytes, HEAD, size)),
            (4, &|| !has_kind()),
        ])
    }

    /// The same of the header, for tables with these slots: 1, 2, 3, 4, 6; or 0.
    pub fn header_stop(&self, slots: [usize; 2], bytes: &[u8]) -> u32 {
        let [mark, version, vertex_slots, triangle_slots] = [0, 4, 8, 12].map(|place| number_at(bytes, place));
        let fits = [vertex_slots, triangle_slots].map(|number| number as usize) == slots
            || self.fault.has(Fault::FewerSlotsPassed) && vertex_slots as usize <= slots[0]
            || self.fault.has(Fault::VertexSlotsAlone) && vertex_slots as usize == slots[0];
        let known = mark == u32::from_le_bytes(MARK)
            && (version == VERSION || self.fault.has(Fault::LaterVersionsPassed) && version > VERSION);
        first_of(&[
            (1, &|| bytes.is_empty()),
            (2, &|| bytes.len() < HEADER),
            (6, &|| self.fault.has(Fault::SlotsBeforeChecksum) && !fits),
            (3, &|| !holds(bytes, 0, 16) && !self.fault.has(Fault::HeaderUntested)),
            (6, &|| self.fault.has(Fault::SlotsBeforeMark) && !fits),
            (4, &|| !known),
            (6, &|| !fits),
        ])
    }
}
