//! Records and recordings written out, so that no slip of the program's own writer goes with them.

/// A record: number, length, body.
pub fn record(number: u64, body: &[u8]) -> Vec<u8> {
    claiming(number, body.len() as u16, body)
}

/// A record that claims another length than its body's.
pub fn claiming(number: u64, length: u16, body: &[u8]) -> Vec<u8> {
    [&number.to_le_bytes(), &length.to_le_bytes()[..], body].concat()
}

/// The packets of a recording, each behind its length.
pub fn recording(packets: &[Vec<u8>]) -> Vec<u8> {
    let mut bytes = Vec::new();
    for packet in packets {
        bytes.extend((packet.len() as u16).to_le_bytes());
        bytes.extend(packet);
    }
    bytes
}
