//! A recording in pieces cut anywhere, byte by byte (document 02, request 13; document 01, "The sheet"), and
//! what its last refused packet was refused with (request 5).

use crate::desk::Desk;
use crate::packet::{little, Refusal, MOST_PACKET_BYTES};

/// "a lent buffer of 1,502 bytes or more for the unfinished packet": its length and its bytes.
pub const LEAST_HOLD: usize = 2 + MOST_PACKET_BYTES;

/// What is kept between two pieces beside a receiver and the bytes held of an unfinished packet.
#[derive(Clone, Copy, Debug, Default, PartialEq, Eq)]
pub struct Stream {
    /// Bytes held of an unfinished length or packet.
    pub held: u64,
    /// Bytes still to come of a packet that is too long to be held.
    pub to_pass: u64,
    pub bad: u64,
    /// "the totals of each record answer", 10 to 14, over all accepted packets.
    pub totals: [u64; 5],
    /// Number and offset of the last packet that was refused: both 0 before the first, and the offset 0
    /// where the number stands alone. A caller may lend any.
    pub last_number: u8,
    pub last_offset: u64,
}

impl Stream {
    /// One piece: refused by 6 with nothing changed, else all its bytes are used, and what is held
    /// stands at the front of `hold` with zeros behind it.
    pub fn feed(&mut self, desk: &mut Desk, hold: &mut [u8], chunk: &[u8]) -> Result<(), u8> {
        // "else 6, as also when the state claims more bytes held than the buffer has"
        if !desk.fits() || hold.len() < LEAST_HOLD || self.held > hold.len() as u64 {
            return Err(6);
        }
        for byte in chunk {
            self.byte(desk, hold, *byte);
        }
        hold[self.held as usize..].fill(0);
        Ok(())
    }

    fn byte(&mut self, desk: &mut Desk, hold: &mut [u8], byte: u8) {
        if self.to_pass > 0 {
            self.to_pass -= 1;
            // Too long a packet is bad when its last byte has come. "packet of 0 or more than 1,500 bytes": 1
            if self.to_pass == 0 {
                self.refused(Refusal::alone(1));
            }
            return;
        }
        // Only a caller's count can fill the memory, and then what is held is a packet already.
        if let Some(place) = hold.get_mut(self.held as usize) {
            *place = byte;
        }
        self.held += 1;
        if self.held < 2 {
            return;
        }
        let length = little(&hold[..2]) as usize;
        if length > MOST_PACKET_BYTES {
            self.held = 0;
            self.to_pass = length as u64;
        } else if self.held >= 2 + length as u64 {
            self.held = 0;
            self.packet(desk, &hold[2..2 + length]);
        }
    }

    /// A whole packet goes to the receiver.
    fn packet(&mut self, desk: &mut Desk, packet: &[u8]) {
        match desk.give(packet) {
            Err(refusal) => self.refused(refusal),
            Ok(answer) => {
                for (total, count) in self.totals.iter_mut().zip(answer.counts()) {
                    *total = total.saturating_add(count);
                }
            }
        }
    }

    /// "A refused packet is counted as bad and passed over". Its refusal is told until another one's is.
    fn refused(&mut self, refusal: Refusal) {
        self.bad = self.bad.saturating_add(1);
        self.last_number = refusal.number;
        self.last_offset = refusal.offset.unwrap_or(0) as u64;
    }

    /// "a recording that ends inside a length or packet": whether one that ended now would be cut.
    pub fn is_cut(&self) -> bool {
        self.held > 0 || self.to_pass > 0
    }
}
