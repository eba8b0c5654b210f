//! Ordinary optimised Rust for whole network frames, over each cipher of reference.rs, to be measured beside `network`.
//! Written from docs/RULES.md; numbers in brackets are its sections. Exported for C as dbl_seal_frame, dbl_open_frame,
//! and so on, with answers as in reference.rs; a frame that opened tells its sender and its protection too.
use super::{number, open, seal, Cipher, Dbl, Refusal, Tab, Wrd};
use std::slice::{from_raw_parts, from_raw_parts_mut};

const LONGEST: usize = 116;
const LONGEST_PLAIN: usize = LONGEST - AUXILIARY - TAG;
const AUXILIARY: usize = 14;
const TAG: usize = 4;
const LONGEST_LIST: usize = 1024;
const TOP: u32 = u32::MAX;

// Of the security control (6.1) the level; and the control of a network frame (6.3), as sent and as worked with.
const LEVEL: u8 = 7;
const SENT: u8 = 0x28;
const WORKED_WITH: u8 = 0x2d;

// In octet 1 of a header (6.8).
const SECURITY: u8 = 2;

struct NetworkKey {
    sequence: u8,
    octets: [u8; 16],
}

// (2.1) C knows the first three fields.
#[repr(C)]
pub struct Board {
    own: u64,
    outgoing: u32,
    mark: u32,
    slots: [Option<NetworkKey>; 2],
    active: Option<usize>,
}

impl Board {
    fn active_key(&self) -> Option<&NetworkKey> {
        self.slots.get(self.active?)?.as_ref()
    }

    // (2.4) The lowest present slot of that number, and its key.
    fn key_of(&self, sequence: u8) -> Option<(usize, &NetworkKey)> {
        self.slots
            .iter()
            .enumerate()
            .find_map(|(slot, key)| match key {
                Some(key) if key.sequence == sequence => Some((slot, key)),
                _ => None,
            })
    }
}

struct Opened {
    length: usize,
    sender: u64,
    protection: Option<u8>,
}

// ---- headers

// (4.1, 4.2)
struct Header {
    length: usize,
    secured: bool,
}

impl Header {
    fn read(frame: &[u8]) -> Result<Header, Refusal> {
        if frame.len() < 2 {
            return Err(Refusal::Short);
        }
        let control = u16::from_le_bytes([frame[0], frame[1]]);
        let bit = |n: u32| control >> n & 1 == 1;
        let (kind, version, discovery) = (control & 3, control >> 2 & 15, control >> 6 & 3);
        if kind > 1 || version != 2 || discovery > 1 || bit(8) || control >> 14 != 0 {
            return Err(Refusal::Form);
        }
        let mut length = 8 + 8 * bit(11) as usize + 8 * bit(12) as usize;
        if bit(10) {
            // A count that the frame doesn't have reads as 0, and the frame is short (1.2).
            let count = frame.get(length).copied().unwrap_or(0);
            length += 2 + 2 * count as usize;
        }
        Ok(Header {
            length,
            secured: bit(9),
        })
    }
}

// (6.2, 6.3) The control is the one that is worked with.
struct Auxiliary {
    control: u8,
    counter: u32,
    sender: u64,
    sequence: u8,
}

impl Auxiliary {
    // (7.1, steps 4 to 7) What stands behind a header.
    fn read(behind: &[u8]) -> Result<Auxiliary, Refusal> {
        let control = *behind.first().ok_or(Refusal::Short)?;
        if control & 0x38 != SENT {
            return Err(Refusal::Security);
        }
        if behind.len() < AUXILIARY + TAG {
            return Err(Refusal::Short);
        }
        let sender = u64::from_le_bytes(behind[5..13].try_into().unwrap());
        if sender == 0 || sender == u64::MAX {
            return Err(Refusal::Security);
        }
        Ok(Auxiliary {
            control: control & !LEVEL | WORKED_WITH & LEVEL,
            counter: u32::from_le_bytes(behind[1..5].try_into().unwrap()),
            sender,
            sequence: behind[13],
        })
    }

    fn octets(&self) -> [u8; AUXILIARY] {
        let mut octets = [0; AUXILIARY];
        octets[0] = self.control;
        octets[1..5].copy_from_slice(&self.counter.to_le_bytes());
        octets[5..13].copy_from_slice(&self.sender.to_le_bytes());
        octets[13] = self.sequence;
        octets
    }

    // (6.5)
    fn nonce(&self) -> [u8; 13] {
        let mut nonce = [0; 13];
        nonce[..8].copy_from_slice(&self.sender.to_le_bytes());
        nonce[8..12].copy_from_slice(&self.counter.to_le_bytes());
        nonce[12] = self.control;
        nonce
    }
}

// ---- sealing (8.2)

fn seal_frame<C: Cipher>(
    board: &mut Board,
    frame: &[u8],
    out: &mut [u8],
) -> Result<usize, Refusal> {
    if out.len() < LONGEST {
        return Err(Refusal::Room);
    }
    if frame.len() > LONGEST_PLAIN {
        return Err(Refusal::Long);
    }
    let header = Header::read(frame)?;
    if header.secured {
        return Err(Refusal::Form);
    }
    if frame.len() < header.length {
        return Err(Refusal::Short);
    }
    let key = board.active_key().ok_or(Refusal::NoKey)?;
    if board.outgoing == TOP {
        return Err(Refusal::Top);
    }
    if board.outgoing >= board.mark {
        return Err(Refusal::Mark);
    }
    let auxiliary = Auxiliary {
        control: WORKED_WITH,
        counter: board.outgoing,
        sender: board.own,
        sequence: key.sequence,
    };
    let (head, payload) = frame.split_at(header.length);
    let (authenticated, sealed) = out.split_at_mut(header.length + AUXILIARY);
    authenticated[..header.length].copy_from_slice(head);
    authenticated[1] |= SECURITY;
    authenticated[header.length..].copy_from_slice(&auxiliary.octets());
    let nonce = auxiliary.nonce();
    let made = seal::<C>(TAG, &key.octets, &nonce, authenticated, payload, sealed)?;
    authenticated[header.length] = SENT;
    board.outgoing += 1;
    Ok(header.length + AUXILIARY + made)
}

// ---- opening (7.2)

// (2.3) How many rows of these lists a slot has.
fn rows_of_slot(addresses: &[u64], floors: &[u32]) -> Result<usize, Refusal> {
    let rows = addresses.len();
    if floors.len() != rows || rows % 2 != 0 || !(2..=LONGEST_LIST).contains(&rows) {
        return Err(Refusal::Room);
    }
    Ok(rows / 2)
}

// (2.4) Among the rows of a slot.
fn row_of(addresses: &[u64], address: u64) -> Option<usize> {
    addresses.iter().position(|&a| a == address)
}

fn open_frame<C: Cipher>(
    board: &Board,
    frame: &[u8],
    addresses: &mut [u64],
    floors: &mut [u32],
    out: &mut [u8],
) -> Result<Opened, Refusal> {
    if out.len() < LONGEST {
        return Err(Refusal::Room);
    }
    let rows = rows_of_slot(addresses, floors)?;
    if frame.len() > LONGEST {
        return Err(Refusal::Long);
    }
    let header = Header::read(frame)?;
    if !header.secured {
        if frame.len() < header.length {
            return Err(Refusal::Short);
        }
        out[..frame.len()].copy_from_slice(frame);
        return Ok(Opened {
            length: frame.len(),
            sender: 0,
            protection: None,
        });
    }
    let auxiliary = Auxiliary::read(frame.get(header.length..).ok_or(Refusal::Short)?)?;
    let (slot, key) = board.key_of(auxiliary.sequence).ok_or(Refusal::NoKey)?;
    if auxiliary.counter == TOP {
        return Err(Refusal::Top);
    }
    let addresses = &mut addresses[slot * rows..][..rows];
    let floors = &mut floors[slot * rows..][..rows];
    let heard = row_of(addresses, auxiliary.sender);
    if heard.map_or(false, |row| auxiliary.counter < floors[row]) {
        return Err(Refusal::Stale);
    }

    let (head, sealed) = frame.split_at(header.length + AUXILIARY);
    let mut authenticated = [0; LONGEST];
    let authenticated = &mut authenticated[..head.len()];
    authenticated.copy_from_slice(head);
    authenticated[header.length] = auxiliary.control;
    let nonce = auxiliary.nonce();
    let unseal = |out: &mut [u8]| open::<C>(TAG, &key.octets, &nonce, authenticated, sealed, out);
    match heard.or_else(|| row_of(addresses, 0)) {
        Some(row) => {
            let made = unseal(&mut out[header.length..])?;
            out[..header.length].copy_from_slice(&frame[..header.length]);
            out[1] &= !SECURITY;
            addresses[row] = auxiliary.sender;
            floors[row] = auxiliary.counter + 1;
            Ok(Opened {
                length: header.length + made,
                sender: auxiliary.sender,
                protection: Some(1),
            })
        }
        None => {
            unseal(&mut [0; LONGEST])?;
            Err(Refusal::Full)
        }
    }
}

// ---- for C

// A board with two network keys. It stays for as long as the program runs.
#[no_mangle]
#[allow(improper_ctypes_definitions)]
pub extern "C" fn rust_board(
    own: u64,
    sequences: &[u8; 2],
    keys: &[[u8; 16]; 2],
    active: usize,
) -> &'static mut Board {
    let key = |slot: usize| {
        Some(NetworkKey {
            sequence: sequences[slot],
            octets: keys[slot],
        })
    };
    Box::leak(Box::new(Board {
        own,
        outgoing: 0,
        mark: 0,
        slots: [key(0), key(1)],
        active: Some(active),
    }))
}

// The lowest of the n rows from place `from` on that has the address, or -1.
#[no_mangle]
pub unsafe extern "C" fn rust_find_row(
    addresses: *const u64,
    rows: usize,
    from: usize,
    n: usize,
    address: u64,
) -> i64 {
    row_of(&from_raw_parts(addresses, rows)[from..][..n], address)
        .map_or(-1, |row| (from + row) as i64)
}

// Protection none is -1.
#[repr(C)]
pub struct Told {
    sender: u64,
    protection: i64,
}

macro_rules! export {
    ($c:ty, $seal:ident, $open:ident) => {
        #[no_mangle]
        #[allow(improper_ctypes_definitions)]
        pub unsafe extern "C" fn $seal(
            board: &mut Board,
            frame: *const u8,
            length: usize,
            out: *mut u8,
            room: usize,
        ) -> i64 {
            number(seal_frame::<$c>(
                board,
                from_raw_parts(frame, length),
                from_raw_parts_mut(out, room),
            ))
        }
        #[no_mangle]
        #[allow(improper_ctypes_definitions)]
        pub unsafe extern "C" fn $open(
            board: &Board,
            frame: *const u8,
            length: usize,
            addresses: *mut u64,
            rows: usize,
            floors: *mut u32,
            floor_rows: usize,
            out: *mut u8,
            room: usize,
            told: &mut Told,
        ) -> i64 {
            let opened = open_frame::<$c>(
                board,
                from_raw_parts(frame, length),
                from_raw_parts_mut(addresses, rows),
                from_raw_parts_mut(floors, floor_rows),
                from_raw_parts_mut(out, room),
            );
            if let Ok(opened) = &opened {
                told.sender = opened.sender;
                told.protection = opened.protection.map_or(-1, i64::from);
            }
            number(opened.map(|opened| opened.length))
        }
    };
}

export!(Dbl, dbl_seal_frame, dbl_open_frame);
export!(Wrd, wrd_seal_frame, wrd_open_frame);
export!(Tab, tab_seal_frame, tab_open_frame);
