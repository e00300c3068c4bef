//! Exports as BGP UPDATE messages in a capture file that Wireshark opens: a packet for each link,
//! with an NLRI of its own (RFC 9552) and the export as attribute 29.
use std::io::{self, Write};

/// A BGP message has no more bytes (RFC 4271).
const LONGEST_MESSAGE: usize = 4096;

/// Both ends and what else an export does not say are made up: addresses and numbers kept for documents.
const LOCAL: [u8; 4] = [192, 0, 2, 1];
const REMOTE: [u8; 4] = [192, 0, 2, 2];
const AS: u32 = 64_496;
const LOCAL_NODE: [u8; 6] = [0, 0, 0, 0, 0, 1];
const REMOTE_NODE: [u8; 6] = [0, 0, 0, 0, 0, 2];

/// A capture that is being written.
pub struct Capture<W: Write> {
    out: W,
    /// How many links it has so far.
    pub links: u32,
    /// The TCP sequence number of the next message.
    sequence: u32,
}

impl<W: Write> Capture<W> {
    pub fn new(mut out: W) -> io::Result<Capture<W>> {
        out.write_all(&0xA1B2_C3D4u32.to_le_bytes())?;
        out.write_all(&[2, 0, 4, 0])?;
        // Time zone and accuracy, longest packet, and packets that begin with an IP header.
        for number in [0u32, 0, 65_535, 101] {
            out.write_all(&number.to_le_bytes())?;
        }
        Ok(Capture { out, links: 0, sequence: 1 })
    }

    /// Adds a link. False where its export is too long for one message.
    pub fn add(&mut self, export: &[u8]) -> io::Result<bool> {
        if export.len() > LONGEST_MESSAGE {
            return Ok(false);
        }
        let message = update(self.links + 1, export);
        if message.len() > LONGEST_MESSAGE {
            return Ok(false);
        }
        self.links += 1;
        let packet = packet(&message, self.sequence, self.links as u16);
        self.sequence += message.len() as u32;
        let length = packet.len() as u32;
        for number in [self.links, 0, length, length] {
            self.out.write_all(&number.to_le_bytes())?;
        }
        self.out.write_all(&packet)?;
        Ok(true)
    }

    pub fn finish(mut self) -> io::Result<()> {
        self.out.flush()
    }
}

/// An UPDATE for the link of this number; its export has at most 4,096 bytes.
fn update(number: u32, export: &[u8]) -> Vec<u8> {
    let mut attributes = Vec::new();
    attributes.extend(attribute(0x40, 1, &[0])); // ORIGIN: IGP
    attributes.extend(attribute(0x40, 2, &[])); // AS_PATH: empty
    attributes.extend(attribute(0x40, 5, &100u32.to_be_bytes())); // LOCAL_PREF
    attributes.extend(attribute(0x80, 14, &reach(number)));
    if !export.is_empty() {
        attributes.extend(attribute(0x80, 29, export));
    }
    let mut body = vec![0, 0]; // no withdrawn routes
    body.extend((attributes.len() as u16).to_be_bytes());
    body.extend(attributes);
    let mut message = vec![0xFF; 16];
    message.extend((19 + body.len() as u16).to_be_bytes());
    message.push(2);
    message.extend(body);
    message
}

/// A path attribute, with a length of two bytes where one does not do.
fn attribute(flags: u8, number: u8, value: &[u8]) -> Vec<u8> {
    let mut all = match u8::try_from(value.len()) {
        Ok(length) => vec![flags, number, length],
        Err(_) => {
            let [high, low] = (value.len().min(0xFFFF) as u16).to_be_bytes();
            vec![flags | 0x10, number, high, low]
        }
    };
    all.extend(value);
    all
}

fn tlv(number: u16, value: &[u8]) -> Vec<u8> {
    let mut all = number.to_be_bytes().to_vec();
    all.extend((value.len() as u16).to_be_bytes());
    all.extend(value);
    all
}

/// MP_REACH_NLRI with one link NLRI of BGP-LS.
fn reach(number: u32) -> Vec<u8> {
    let node = |id: &[u8; 6]| [tlv(512, &AS.to_be_bytes()), tlv(515, id)].concat();
    let mut link = vec![2]; // IS-IS level 2
    link.extend([0; 8]); // the instance
    link.extend(tlv(256, &node(&LOCAL_NODE)));
    link.extend(tlv(257, &node(&REMOTE_NODE)));
    let identifiers = [number.to_be_bytes(), number.to_be_bytes()].concat();
    link.extend(tlv(258, &identifiers));
    let mut all = vec![0x40, 0x04, 71, 4]; // AFI 16388, SAFI 71
    all.extend(LOCAL);
    all.push(0);
    all.extend(tlv(2, &link));
    all
}

/// A message in TCP in IPv4.
fn packet(message: &[u8], sequence: u32, identification: u16) -> Vec<u8> {
    let mut segment = Vec::new();
    segment.extend(179u16.to_be_bytes());
    segment.extend(179u16.to_be_bytes());
    segment.extend(sequence.to_be_bytes());
    segment.extend(1u32.to_be_bytes());
    segment.extend([0x50, 0x18, 0xFF, 0xFF, 0, 0, 0, 0]); // 20 bytes, PSH and ACK, window, checksum, urgent
    segment.extend(message);
    let mut pseudo = [LOCAL, REMOTE].concat();
    pseudo.extend([0, 6]);
    pseudo.extend((segment.len() as u16).to_be_bytes());
    let sum = checksum(&[&pseudo[..], &segment[..]].concat());
    segment[16..18].copy_from_slice(&sum.to_be_bytes());

    let mut all = vec![0x45, 0xC0];
    all.extend((20 + segment.len() as u16).to_be_bytes());
    all.extend(identification.to_be_bytes());
    all.extend([0x40, 0, 64, 6, 0, 0]);
    all.extend(LOCAL);
    all.extend(REMOTE);
    let sum = checksum(&all);
    all[10..12].copy_from_slice(&sum.to_be_bytes());
    all.extend(segment);
    all
}

/// The Internet checksum (RFC 1071).
fn checksum(bytes: &[u8]) -> u16 {
    let word = |w: &[u8]| u32::from(w[0]) << 8 | u32::from(*w.get(1).unwrap_or(&0));
    let mut sum: u32 = bytes.chunks(2).map(word).sum();
    while sum > 0xFFFF {
        sum = (sum & 0xFFFF) + (sum >> 16);
    }
    !(sum as u16)
}

#[cfg(test)]
mod tests {
    use super::*;

    #[test]
    fn an_update_has_its_length() {
        let message = update(1, &[4, 0x44, 0, 4, 0, 0, 0, 10]);
        assert_eq!(usize::from(message[16]) << 8 | usize::from(message[17]), message.len());
        let end = &message[message.len() - 11..];
        assert_eq!(end, [0x80, 29, 8, 4, 0x44, 0, 4, 0, 0, 0, 10]);
    }

    #[test]
    fn an_empty_export_has_no_attribute() {
        let with = update(1, &[0; 4]).len();
        assert_eq!(update(1, &[]).len(), with - 7);
    }

    #[test]
    fn long_exports_have_an_extended_length_or_are_left_out() {
        let message = update(1, &[0; 256]);
        assert_eq!(message[message.len() - 260..message.len() - 256], [0x90, 29, 1, 0]);
        let room = LONGEST_MESSAGE - (message.len() - 256);
        let mut capture = Capture::new(Vec::new()).unwrap();
        assert!(capture.add(&vec![0; room]).unwrap());
        assert!(!capture.add(&vec![0; room + 1]).unwrap());
        assert_eq!(capture.links, 1);
    }

    #[test]
    fn checksums() {
        assert_eq!(
            checksum(&[
                0x45, 0, 0, 0x73, 0, 0, 0x40, 0, 0x40, 0x11, 0xB8, 0x61, 0xC0, 0xA8, 0, 1, 0xC0,
                0xA8, 0, 0xC7
            ]),
            0
        );
        assert_eq!(checksum(&[1]), 0xFEFF);
    }
}
