//! Damaged bytes.

use crate::random::Random;

/// Bytes for heads: kinds, lengths, and widths at the ends of their range and past them.
const HEAD_BYTES: [u8; 14] = [0, 1, 2, 5, 6, 7, 8, 9, 12, 16, 24, 25, 128, 255];

/// A netlist with other heads: each byte of its own set to several values, which makes a kind with the other's length, and each of the two
/// kinds in its place, with several widths.
pub fn other_heads(netlist: &[u8]) -> Vec<Vec<u8>> {
    let (head, rest) = netlist.split_at(if netlist[2] == 6 { 9 } else { 8 });
    let mut heads = vec![[&[8, 0, 2, 0], &head[4..8]].concat()];
    for width in HEAD_BYTES {
        heads.push([&[9, 0, 6, 0], &head[4..8], &[width]].concat());
    }
    for (place, &old) in head.iter().enumerate() {
        let near = [old ^ 1, old.wrapping_add(1), old.wrapping_sub(1)];
        for value in HEAD_BYTES.into_iter().chain(near) {
            let mut changed = head.to_vec();
            changed[place] = value;
            heads.push(changed);
        }
    }
    heads.sort();
    heads.dedup();
    heads.retain(|other| other != head);
    heads.iter().map(|head| [head, rest].concat()).collect()
}

/// Damages a netlist in its head alone.
pub fn damage_head(random: &mut Random, netlist: &[u8]) -> Vec<u8> {
    let mut all = other_heads(netlist);
    all.swap_remove(random.between(0, all.len() - 1))
}

/// Damages a netlist, one time in five in its head alone; `other` is what may be spliced in.
pub fn damage_netlist(random: &mut Random, netlist: &[u8], other: &[u8]) -> Vec<u8> {
    match random.between(0, 4) {
        0 => damage_head(random, netlist),
        _ => damage(random, netlist, other),
    }
}

/// Every byte set to every value, place by place.
pub fn each_change_of_a_byte(bytes: &[u8]) -> impl Iterator<Item = Vec<u8>> + '_ {
    (0..bytes.len()).flat_map(move |place| {
        (0..=255).map(move |byte| {
            let mut changed = bytes.to_vec();
            changed[place] = byte;
            changed
        })
    })
}

/// Damages bytes in one of several ways; `other` is what may be spliced in.
pub fn damage(random: &mut Random, bytes: &[u8], other: &[u8]) -> Vec<u8> {
    let mut damaged = bytes.to_vec();
    let place = random.between(0, bytes.len().max(1) - 1);
    let end = random.between(place, bytes.len());
    match random.between(0, 11) {
        0..=3 => change(random, &mut damaged, 1),
        4 => {
            let count = random.between(2, 6);
            change(random, &mut damaged, count);
        }
        5 => damaged.truncate(place),
        6 => {
            let count = random.between(1, 16);
            let more = random.bytes(count);
            damaged.extend(more);
        }
        7 => {
            damaged.drain(place..end);
        }
        8 => damaged.extend_from_slice(&bytes[place..end]),
        9 => splice(random, &mut damaged, other),
        10 => exchange_records(random, &mut damaged),
        _ => {
            let count = random.between(0, 64);
            damaged = random.bytes(count);
        }
    }
    damaged
}

/// Damages a matrix record: in any way, or in one field of its first bytes, or in its number of bytes alone. No bytes have no fields, so
/// these are damaged in any way.
pub fn damage_matrix(random: &mut Random, record: &[u8], other: &[u8]) -> Vec<u8> {
    let mut damaged = record.to_vec();
    let way = if record.is_empty() {
        0
    } else {
        random.between(0, 8)
    };
    match way {
        0 | 1 => damaged = damage(random, record, other),
        2 => change(random, &mut damaged[..2], 1),
        3 => change(random, &mut damaged[2..4], 1),
        4 | 5 => change(random, &mut damaged[4..6], 1),
        6 => damaged.truncate(random.between(0, 7)),
        7 => damaged.swap(4, 5),
        _ => {
            damaged.resize(random.between(6, 140), 0);
            let length = damaged.len() as u16;
            damaged[..2].copy_from_slice(&length.to_le_bytes());
        }
    }
    damaged
}

/// Changes so many bytes: by one bit, by one, or to any byte.
fn change(random: &mut Random, bytes: &mut [u8], count: usize) {
    for _ in 0..count {
        let any = random.byte();
        let bit = 1 << random.between(0, 7);
        let way = random.between(0, 3);
        if bytes.is_empty() {
            return;
        }
        let byte = &mut bytes[place_in(random, bytes.len())];
        *byte = match way {
            0 => *byte ^ bit,
            1 => byte.wrapping_add(1),
            2 => byte.wrapping_sub(1),
            _ => any,
        };
    }
}

/// A place among so many bytes, often near one of the ends: heads, totals and outputs are few bytes of a long netlist.
fn place_in(random: &mut Random, count: usize) -> usize {
    match random.between(0, 3) {
        0 => random.between(0, count.min(12) - 1),
        1 => count - random.between(1, count.min(12)),
        _ => random.between(0, count - 1),
    }
}

/// The first part of one and the last part of the other.
fn splice(random: &mut Random, bytes: &mut Vec<u8>, other: &[u8]) {
    let keep = random.between(0, bytes.len());
    let from = random.between(0, other.len());
    bytes.truncate(keep);
    bytes.extend_from_slice(&other[from..]);
}

/// Exchanges two whole records, by their length fields, as far as these make sense.
fn exchange_records(random: &mut Random, bytes: &mut Vec<u8>) {
    let mut records: Vec<Vec<u8>> = Vec::new();
    let mut rest = &bytes[..];
    while rest.len() >= 4 {
        let length = usize::from(rest[0]) + 256 * usize::from(rest[1]);
        if length < 4 || length > rest.len() {
            break;
        }
        let (record, after) = rest.split_at(length);
        records.push(record.to_vec());
        rest = after;
    }
    if records.is_empty() {
        return;
    }
    let rest = rest.to_vec();
    let one = random.between(0, records.len() - 1);
    let two = random.between(0, records.len() - 1);
    records.swap(one, two);
    *bytes = records.concat();
    bytes.extend(rest);
}
