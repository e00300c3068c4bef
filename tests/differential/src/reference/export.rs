//! A link written as BGP-LS TLVs.

use super::application::Application;
use super::kinds::ASLA;
use super::link::{read_link, Link};
use super::meaning::{of_sides, Meaning, Set};
use super::reply::{Fault, Refusal};

/// Writes a link into a buffer of so many bytes.
pub fn export(link: &Link, room: usize) -> Result<Vec<u8>, Refusal> {
    let sides = read_link(link)?;
    let written = write(&of_sides(link, &sides));
    if written.len() > room {
        return Err(Refusal::of_request(Fault::RoomTooSmall));
    }
    Ok(written)
}

/// How many bytes a link takes, reckoned from its meaning without writing it. It is refused as an
/// export is that has room enough.
pub fn length(link: &Link) -> Result<usize, Refusal> {
    let sides = read_link(link)?;
    let meaning = of_sides(link, &sides);
    let mut length = set_length(&meaning.bandwidths) + set_length(&meaning.rsvp_te);
    if !meaning.general.is_empty() {
        length += 8 + set_length(&meaning.general);
    }
    for (members, set) in groups(&meaning.named) {
        let standard = members.iter().filter_map(|one| match one {
            Application::Standard(n) => Some(*n),
            Application::User(_) => None,
        });
        let user = members.iter().filter_map(|one| match one {
            Application::Standard(_) => None,
            Application::User(n) => Some(*n),
        });
        length += 8 + mask_length(standard.max()) + mask_length(user.max()) + set_length(&set);
    }
    Ok(length)
}

/// The TLVs of a set: four bytes before each value.
fn set_length(set: &[(u16, Vec<u8>)]) -> usize {
    set.iter().map(|(_, value)| 4 + value.len()).sum()
}

/// Ascending by type: the link's bandwidths, the RSVP-TE set, and the ASLA TLVs in their own order.
pub fn write(meaning: &Meaning) -> Vec<u8> {
    let mut tlvs = Vec::new();
    tlvs.extend(meaning.bandwidths.clone());
    tlvs.extend(meaning.rsvp_te.clone());
    for value in asla_values(meaning) {
        tlvs.push((ASLA, value));
    }
    tlvs.sort_by_key(|(code, _)| *code);
    write_tlvs(&tlvs)
}

/// Two bytes of type, two of length, big-endian, then the value; no padding.
fn write_tlvs(tlvs: &[(u16, Vec<u8>)]) -> Vec<u8> {
    let mut bytes = Vec::new();
    for (code, value) in tlvs {
        let length = u16::try_from(value.len()).expect("no value of an export is this long");
        bytes.extend_from_slice(&code.to_be_bytes());
        bytes.extend_from_slice(&length.to_be_bytes());
        bytes.extend_from_slice(value);
    }
    bytes
}

/// The general set first, if not empty, with both masks empty; then the groups.
fn asla_values(meaning: &Meaning) -> Vec<Vec<u8>> {
    let mut values = Vec::new();
    if !meaning.general.is_empty() {
        values.push(asla_value(&[], &meaning.general));
    }
    for (members, set) in groups(&meaning.named) {
        values.push(asla_value(&members, &set));
    }
    values
}

/// Applications with equal sets together, wherever they stand; a group stands where its first member
/// does. An empty set is a set like any other.
pub fn groups(named: &[(Application, Set)]) -> Vec<(Vec<Application>, Set)> {
    let mut groups: Vec<(Vec<Application>, Set)> = Vec::new();
    for (application, set) in named {
        match groups.iter_mut().find(|(_, other)| other == set) {
            Some((members, _)) => members.push(*application),
            None => groups.push((vec![*application], set.clone())),
        }
    }
    groups
}

/// The value of an ASLA TLV: two mask lengths, two reserved bytes of zero, the masks, the inner TLVs.
fn asla_value(members: &[Application], set: &Set) -> Vec<u8> {
    let mut standard = Vec::new();
    let mut user = Vec::new();
    for member in members {
        match member {
            Application::Standard(n) => standard.push(*n),
            Application::User(n) => user.push(*n),
        }
    }
    let standard = mask(&standard);
    let user = mask(&user);
    let mut value = vec![standard.len() as u8, user.len() as u8, 0, 0];
    value.extend(standard);
    value.extend(user);
    value.extend(write_tlvs(set));
    value
}

/// 0, 4 or 8 bytes, the least that hold the last set bit.
fn mask_length(last: Option<u8>) -> usize {
    match last {
        None => 0,
        Some(last) if last < 32 => 4,
        Some(_) => 8,
    }
}

/// A mask with these bits.
fn mask(bits: &[u8]) -> Vec<u8> {
    let mut mask = vec![0; mask_length(bits.iter().max().copied())];
    for bit in bits {
        mask[usize::from(bit / 8)] |= 128 >> (bit % 8);
    }
    mask
}
