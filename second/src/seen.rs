//! Which faults the refused packets of a run had, and where, what searches through an index met, what became of what
//! was converted, and what was written or refused to be, so that a run can say that it tried them all.

use crate::book::Search;
use crate::convert::{Asked, Counts, BY_ID, BY_TICKER, EXCEPTION_BYTES};
use crate::desk::Desk;
use crate::edition::Edition;
use crate::index::*;
use crate::morning::{mend_field, numbers_of_type, updates_in};
use crate::packet::*;
use crate::reading::{first_fault, judged_fields, message_name, Fault, JUDGED_FIELDS};
use crate::receiver::Answer;
use crate::tables::*;
use crate::write::Fields;
use std::collections::BTreeMap;

/// Refused packets by number, place and fault. The refusals 2 to 5 alone are counted, which tell an offset.
#[derive(Clone, Debug, Default, PartialEq, Eq)]
pub struct Faults {
    /// By number, 2 to 5: those whose offset is 256 or more, which is above 0 and in two bytes.
    far: [u64; 4],
    /// By number, 2 to 5: those refused for the first of several records, for one in the middle, for the last.
    places: [[u64; 3]; 4],
    unfinished_headers: u64,
    bodies_past_the_end: u64,
    empty_inside: u64,
    /// Those whose offset is the packet's length.
    empty_at_the_end: u64,
    unknown_types: u64,
    wrong_lengths: u64,
    /// By the places of `JUDGED_FIELDS`: the only bad field of its body, and bad behind another.
    alone: [u64; JUDGED_FIELDS.len()],
    behind_another: [u64; JUDGED_FIELDS.len()],
    /// Told by a bad security type, with a bad test indicator and with a bad market behind it (request 10).
    security_type_first: [u64; 2],
}

impl Faults {
    pub fn note(&mut self, edition: Edition, packet: &[u8], refusal: Refusal) {
        let fault = first_fault(edition, packet);
        let (Some(offset), Some((record, rest, fault))) = (refusal.offset, fault) else {
            return;
        };
        let number = usize::from(refusal.number) - 2;
        self.far[number] += u64::from(offset >= 256);
        let (body, behind) = claimed_body(rest);
        match (record, behind) {
            (1, []) => {}
            (1, _) => self.places[number][0] += 1,
            (_, []) => self.places[number][2] += 1,
            _ => self.places[number][1] += 1,
        }
        match fault {
            Fault::UnfinishedHeader => self.unfinished_headers += 1,
            Fault::BodyPastTheEnd => self.bodies_past_the_end += 1,
            Fault::SequenceNumber => {}
            Fault::EmptyBody if offset == packet.len() => self.empty_at_the_end += 1,
            Fault::EmptyBody => self.empty_inside += 1,
            Fault::UnknownType => self.unknown_types += 1,
            Fault::WrongLength(_) => self.wrong_lengths += 1,
            Fault::Field(_) => self.note_fields(edition, body),
        }
    }

    fn note_fields(&mut self, edition: Edition, body: &[u8]) {
        match bad_fields(edition, body)[..] {
            [] => {}
            [only] => self.alone[only] += 1,
            [first, ref others @ ..] => {
                for other in others {
                    self.behind_another[*other] += 1;
                    self.note_security_type(name_of(first), name_of(*other));
                }
            }
        }
    }

    fn note_security_type(&mut self, first: &str, other: &str) {
        match (first, other) {
            ("security type", "test indicator") => self.security_type_first[0] += 1,
            ("security type", "market") => self.security_type_first[1] += 1,
            _ => {}
        }
    }

    pub fn add(&mut self, other: &Faults) {
        add_each(&mut self.far, &other.far);
        for (places, others) in self.places.iter_mut().zip(&other.places) {
            add_each(places, others);
        }
        self.unfinished_headers += other.unfinished_headers;
        self.bodies_past_the_end += other.bodies_past_the_end;
        self.empty_inside += other.empty_inside;
        self.empty_at_the_end += other.empty_at_the_end;
        self.unknown_types += other.unknown_types;
        self.wrong_lengths += other.wrong_lengths;
        add_each(&mut self.alone, &other.alone);
        add_each(&mut self.behind_another, &other.behind_another);
        add_each(&mut self.security_type_first, &other.security_type_first);
    }

    /// All that a long run must have seen, and how often this one has.
    pub fn seen(&self) -> Vec<(String, u64)> {
        let mut seen = Vec::new();
        for (place, [first, middle, last]) in self.places.into_iter().enumerate() {
            let number = place + 2;
            seen.push((format!("refusal {number} at 256 or more"), self.far[place]));
            seen.push((format!("refusal {number} in the last record"), last));
            // What 2 is told of reaches to the packet's end.
            if number != 2 {
                seen.push((format!("refusal {number} in the first of several"), first));
                seen.push((format!("refusal {number} in the middle"), middle));
            }
        }
        for (what, count) in [
            ("an unfinished header", self.unfinished_headers),
            ("a body past the end", self.bodies_past_the_end),
            ("an empty body at the packet's end", self.empty_at_the_end),
            ("an empty body before other records", self.empty_inside),
            ("an unknown type", self.unknown_types),
            ("a wrong length", self.wrong_lengths),
        ] {
            seen.push((what.to_string(), count));
        }
        for (place, (kind, at, field)) in JUDGED_FIELDS.into_iter().enumerate() {
            let field = format!("{}, bad {field}", message_name(kind));
            // The Timestamp is the first of each.
            if at != 1 {
                let count = self.behind_another[place];
                seen.push((format!("{field}, not the first"), count));
            }
            seen.push((format!("{field} alone"), self.alone[place]));
        }
        for (behind, count) in ["test indicator", "market"]
            .iter()
            .zip(self.security_type_first)
        {
            seen.push((format!("bad security type before a bad {behind}"), count));
        }
        seen
    }
}

/// What the searches through an index met, what was lent as one, and what became of it (request 9).
const SEARCHES: [&str; 23] = [
    // Calls that were refused for the size of the index alone.
    "a start",
    "a packet",
    "a piece",
    // Orders of a packet's messages, by what their searches pass before it.
    "an order at its first slot",
    "an order behind slots of others",
    "an order behind a slot of its tag that is stale",
    "an order behind a live one of its tag",
    "no order, behind slots of others",
    "no order, behind a slot of its tag",
    "a slot of a row behind the table",
    "a search on from the last slot to the first",
    "a search through all slots",
    // Symbols of a packet's messages.
    "a symbol by its hint",
    "a symbol past a hint of another",
    "a symbol past a hint behind the table",
    // Free rows.
    "a free row in a later block than counted",
    "a free row that no count tells",
    "built anew",
    "built anew over a spoiled row",
    "built anew over two live rows of one order",
    // Stops, and engines that came to different ones over altered tables or an altered index.
    "stop 25 in 16,000 rows",
    "another stop than without",
    "another table than without",
];

#[derive(Clone, Debug, Default, PartialEq, Eq)]
pub struct Searches([u64; SEARCHES.len()]);

impl Searches {
    /// Something of `SEARCHES`, by its name, if it was so.
    pub fn note(&mut self, what: &str, so: bool) {
        let place = SEARCHES.iter().position(|known| *known == what);
        self.0[place.expect("one of SEARCHES")] += u64::from(so);
    }

    /// A good packet, before a receiver with an index gets it: what its messages' searches would pass now.
    pub fn note_packet(&mut self, desk: &Desk, packet: &[u8]) {
        let Ok(records) = read_packet(desk.state.edition, packet) else {
            return;
        };
        for record in records {
            if record.number < desk.state.next || desk.index.is_empty() {
                continue;
            }
            let (symbol, order) = match record.message {
                Message::AddOrder { symbol, order, .. } => {
                    self.note_free_row(desk);
                    (symbol, order)
                }
                Message::ModifyOrder { symbol, order, .. }
                | Message::DeleteOrder { symbol, order, .. }
                | Message::OrderExecution { symbol, order, .. } => (symbol, order),
                _ => continue,
            };
            self.note_symbol(desk, symbol);
            self.note_order(desk, order);
        }
    }

    fn note_symbol(&mut self, desk: &Desk, symbol: u32) {
        let hint = desk.index[hint_of(symbol)];
        let known = Index(&desk.index).known_entry(&desk.symbols, symbol);
        let by_hint = known.is_some_and(|place| place as u64 == hint);
        let inside = hint < entries_in(&desk.symbols) as u64;
        self.note("a symbol by its hint", by_hint);
        let searched = known.is_some() && !by_hint;
        self.note("a symbol past a hint of another", searched && inside);
        self.note("a symbol past a hint behind the table", searched && !inside);
    }

    fn note_free_row(&mut self, desk: &Desk) {
        let counted = (0..BLOCKS).find(|block| desk.index[COUNTS + block] != 0);
        let free = Index(&desk.index).free_row(&desk.orders);
        if let (Some(block), Some(place)) = (counted, free) {
            let later = place / BLOCK_ROWS > block;
            self.note("a free row in a later block than counted", later);
        }
        let untold = free.is_none() && free_row(&desk.orders).is_some();
        self.note("a free row that no count tells", untold);
    }

    fn note_order(&mut self, desk: &Desk, order: u64) {
        let (first, index) = (first_slot(order), &desk.index);
        let (mut others, mut stale, mut live, mut behind) = (false, false, false, false);
        let (mut found, mut looked) = (false, 0);
        for place in slots_from(first) {
            let (row_number, slot) = ((index[place] % 65_536) as usize, index[place]);
            looked += 1;
            if slot == 0 {
                break;
            }
            if slot / 65_536 != tag(order) {
                others = true;
            } else if row_has_order(&desk.orders, row_number, order) {
                found = true;
                break;
            } else if row_number >= rows_in(&desk.orders) {
                behind = true;
            } else if row_is_live(row(&desk.orders, row_number)) {
                live = true;
            } else {
                stale = true;
            }
        }
        self.note("an order at its first slot", found && looked == 1);
        self.note("an order behind slots of others", found && others);
        let behind_stale = found && stale;
        self.note(
            "an order behind a slot of its tag that is stale",
            behind_stale,
        );
        self.note("an order behind a live one of its tag", found && live);
        self.note("no order, behind slots of others", !found && others);
        let own = stale || live || behind;
        self.note("no order, behind a slot of its tag", !found && own);
        self.note("a slot of a row behind the table", behind);
        let last = first + looked > ORDER_SLOTS;
        self.note("a search on from the last slot to the first", last);
        let all = looked == ORDER_SLOTS;
        self.note("a search through all slots", all);
    }

    /// The index was built anew; the rows are those that the call left. (Of large tables that is all that is told:
    /// their rows would be looked at for too long.)
    pub fn note_built_anew(&mut self, orders: &[u64]) {
        self.note("built anew", true);
        if rows_in(orders) > 200 {
            return;
        }
        let mut live = Vec::new();
        let mut spoiled = false;
        for row in orders.chunks(ROW_NUMBERS) {
            if row_is_live(row) {
                live.push(row[ORDER_ID]);
            } else {
                spoiled |= !row_is_free(row);
            }
        }
        live.sort();
        let doubled = live.windows(2).any(|two| two[0] == two[1]);
        self.note("built anew over a spoiled row", spoiled);
        self.note("built anew over two live rows of one order", doubled);
    }

    /// The stop of a packet that a receiver with an index and so many rows accepted.
    pub fn note_stop(&mut self, stop: u8, rows: usize) {
        self.note("stop 25 in 16,000 rows", stop == 25 && rows == MOST_ROWS);
    }

    /// What both engines answered to a packet after somebody altered something.
    pub fn note_parted(&mut self, scanning: &Answer, indexed: &Answer, rows_differ: bool) {
        let stops = (scanning.next, scanning.stop) != (indexed.next, indexed.stop);
        self.note("another stop than without", stops);
        self.note("another table than without", rows_differ);
    }

    pub fn add(&mut self, other: &Searches) {
        add_each(&mut self.0, &other.0);
    }

    /// All that a long run must have seen, and how often this one has.
    pub fn seen(&self) -> Vec<(String, u64)> {
        let mut seen = Vec::new();
        for (place, (what, count)) in SEARCHES.iter().zip(self.0).enumerate() {
            let what = match place {
                0..=2 => format!("{what} refused for the index alone"),
                _ => format!("with an index, {what}"),
            };
            seen.push((what, count));
        }
        seen
    }
}

/// What conversions were asked for, and what came of them (docs/CONVERT.md).
const CONVERSIONS: [&str; 29] = [
    // What is asked for of a packet, refused before anything else.
    "a packet, 6",
    "a packet, 6 before 4",
    "a packet, 6 before its own refusal",
    "a packet, 4 for the type of all",
    "a packet, 4 for an exception alone",
    "a packet, 4 before its own refusal",
    // Packets.
    "a packet refused with 1",
    "a packet refused with 2",
    "a packet refused with 3",
    "a packet refused with 4",
    "a packet refused with 5",
    "a packet with no Symbol Update",
    "a packet with one Symbol Update",
    "a packet with several Symbol Updates",
    // Pieces of recordings.
    "a piece, 6",
    "a piece, 4",
    "a piece without a whole packet",
    "a piece with Symbol Updates",
    "a piece with packets passed on unread",
    "a piece with barred packets",
    // What gave a Symbol Update its type.
    "an exception by ID",
    "an exception by ticker",
    "an exception before a later one",
    "a mark by which a name names none",
    "a name but for its last byte",
    "no exception among several",
    // Edition numbers other than 0 and 1, and what a receiver answered otherwise afterwards.
    "from another number",
    "to another number",
    "a differing copy that is a repeat then",
];

#[derive(Clone, Debug, Default, PartialEq, Eq)]
pub struct Conversions([u64; CONVERSIONS.len()]);

impl Conversions {
    /// Something of `CONVERSIONS`, by its name, so many times.
    pub fn note(&mut self, what: &str, times: u64) {
        let place = CONVERSIONS.iter().position(|known| *known == what);
        self.0[place.expect("one of CONVERSIONS")] += times;
    }

    /// The edition numbers that a conversion was asked for with.
    pub fn note_numbers(&mut self, from: u64, to: u64) {
        self.note("from another number", u64::from(from > 1));
        self.note("to another number", u64::from(to > 1));
    }

    /// A packet as it was, and what was answered.
    pub fn note_packet(&mut self, asked: &Asked, packet: &[u8], answer: &Result<u64, Refusal>) {
        match answer {
            Err(refusal) if asked.judged() == Err(refusal.number) => {
                self.note_wrongly_asked(asked, packet, refusal.number);
            }
            Err(refusal) => self.note(&format!("a packet refused with {}", refusal.number), 1),
            Ok(updates) => {
                let what = match updates {
                    0 => "a packet with no Symbol Update",
                    1 => "a packet with one Symbol Update",
                    _ => "a packet with several Symbol Updates",
                };
                self.note(what, 1);
                self.note_types(asked, packet);
            }
        }
    }

    fn note_wrongly_asked(&mut self, asked: &Asked, packet: &[u8], number: u8) {
        let bad = read_packet(asked.from, packet).is_err();
        let good_kind = b"EF".contains(&asked.kind);
        if number == 6 {
            let bad_kind = asked.to.has_security_type() && !good_kind;
            self.note("a packet, 6", 1);
            self.note("a packet, 6 before 4", bad_kind.into());
            self.note("a packet, 6 before its own refusal", bad.into());
        } else {
            self.note("a packet, 4 for the type of all", (!good_kind).into());
            self.note("a packet, 4 for an exception alone", good_kind.into());
            self.note("a packet, 4 before its own refusal", bad.into());
        }
    }

    /// What gave the Symbol Updates of a packet that is rewritten their types.
    fn note_types(&mut self, asked: &Asked, packet: &[u8]) {
        if !asked.to.has_security_type() {
            return;
        }
        for place in updates_in(packet) {
            let update = &packet[place..];
            let exception = asked.exception_of(update);
            match exception.map(|exception| exception[0]) {
                Some(BY_ID) => self.note("an exception by ID", 1),
                Some(BY_TICKER) => self.note("an exception by ticker", 1),
                _ => {
                    let several = asked.others.len() > EXCEPTION_BYTES;
                    self.note("no exception among several", several.into());
                }
            }
            let (id, ticker) = (&update[5..9], &update[9..20]);
            let mut named = 0;
            for other in asked.others.chunks(EXCEPTION_BYTES) {
                let (by_id, by_ticker) = (other[1..5] == *id, other[1..12] == *ticker);
                let (one, nearly) = match other[0] {
                    BY_ID => (by_id, !by_id && other[1..4] == id[..3]),
                    BY_TICKER => (by_ticker, !by_ticker && other[1..11] == ticker[..10]),
                    _ => (false, false),
                };
                named += u64::from(one);
                let last = "a name but for its last byte";
                self.note(last, nearly.into());
                let none = other[0] > BY_TICKER && (by_id || by_ticker);
                self.note("a mark by which a name names none", none.into());
            }
            let before = u64::from(named > 1);
            self.note("an exception before a later one", before);
        }
    }

    /// A piece and what was answered.
    pub fn note_piece(&mut self, answer: &Result<Counts, u8>) {
        match answer {
            Err(number) => self.note(&format!("a piece, {number}"), 1),
            Ok(counts) => {
                let none = u64::from(counts.bytes == 0);
                self.note("a piece without a whole packet", none);
                let some = |count: u64| u64::from(count > 0);
                self.note("a piece with Symbol Updates", some(counts.updates));
                self.note("a piece with packets passed on unread", some(counts.unread));
                self.note("a piece with barred packets", some(counts.barred));
            }
        }
    }

    pub fn add(&mut self, other: &Conversions) {
        add_each(&mut self.0, &other.0);
    }

    /// All that a long run must have seen, and how often this one has.
    pub fn seen(&self) -> Vec<(String, u64)> {
        let seen = CONVERSIONS.iter().zip(self.0);
        seen.map(|(what, count)| (format!("converted, {what}"), count))
            .collect()
    }
}

/// What writers were given, and what came of it (docs/WRITE.md).
const WRITINGS: [&str; 48] = [
    // A record, refused for the packet so far.
    "a record, 32 before all",
    "a record, 32 before all and before another refusal",
    "a record, 1 of the packet so far",
    "a record, 2 of the packet so far",
    "a record, 3 of the packet so far",
    "a record, 4 of the packet so far",
    "a record, 5 of the packet so far",
    "a record, a refusal of the packet so far at 256 or more",
    "a record, a refusal of the packet so far before its own",
    // For itself, and before another that applies too.
    "a record, 5",
    "a record, 3",
    "a record, 4",
    "a record, 1",
    "a record, 32",
    "a record, 5 before 3",
    "a record, 5 before 4",
    "a record, 5 before 1",
    "a record, 5 before 32",
    "a record, 3 before 1",
    "a record, 3 before 32",
    "a record, 4 before 1",
    "a record, 4 before 32",
    "a record, 1 before 32",
    "a record that would end at 1,501",
    "a record that lacks one byte of memory",
    // Accepted.
    "a record behind nothing",
    "a record behind one",
    "a record behind several",
    "a packet of 1,500 bytes",
    "a packet that fills its memory",
    "a record with number 1",
    "a record with number 10^12",
    "a record with numbers or bytes that it does not have",
    "a record by another edition number",
    "a refused record by another edition number",
    // A packet behind a recording so far.
    "a packet, 32 before all",
    "a packet, 32 before all and before another refusal",
    "a packet, 1",
    "a packet, 2",
    "a packet, 3",
    "a packet, 4",
    "a packet, 5",
    "a packet, 32",
    "a packet, its refusal before 32",
    "a packet behind nothing",
    "a packet behind others",
    "a recording that fills its memory",
    "a packet by another edition number",
];

#[derive(Clone, Debug, Default, PartialEq, Eq)]
pub struct Writings {
    counts: BTreeMap<&'static str, u64>,
    /// By edition and type: records written.
    kinds: BTreeMap<(bool, u8), u64>,
    /// By edition and the places of `JUDGED_FIELDS`: out of range as the record's only fault.
    alone: BTreeMap<(bool, usize), u64>,
    /// By edition, type and place: a number too large for its bytes as the record's only fault.
    too_large: BTreeMap<(bool, u8, usize), u64>,
}

/// What a writer of a record is given, the edition by its number at the boundary.
#[derive(Clone, Copy, Debug)]
pub struct Appended<'a> {
    pub edition: u64,
    pub memory: &'a [u8],
    pub used: usize,
    pub number: u64,
    pub fields: &'a Fields,
}

impl Appended<'_> {
    fn edition(&self) -> Edition {
        Edition::of_number(self.edition)
    }

    /// How long the packet would be; of a type that is none with the shortest record.
    fn needed(&self) -> usize {
        let kind = self.fields.kind().unwrap_or(SYSTEM_TIME);
        let length = length_of_type(kind).expect("a type that there is");
        self.used.saturating_add(HEADER_BYTES + length)
    }

    /// How the packet so far is refused, where it is in the memory.
    fn so_far_refusal(&self) -> Option<Refusal> {
        let so_far = &self.memory[..self.used];
        match so_far {
            [] => None,
            _ => read_packet(self.edition(), so_far).err(),
        }
    }

    /// All that is wrong with the record itself, in the order in which it is told.
    fn own_refusals(&self) -> Vec<u8> {
        let bad_number = self.number == 0 || self.number > LAST_NUMBER;
        let mut refusals = Vec::new();
        refusals.extend(bad_number.then_some(5));
        refusals.extend(self.fields.body(self.edition()).err());
        refusals.extend((self.needed() > MOST_PACKET_BYTES).then_some(1));
        refusals.extend((self.needed() > self.memory.len()).then_some(32));
        refusals
    }
}

impl Writings {
    /// Something of `WRITINGS`, by its name, if it was so.
    fn note(&mut self, what: &str, so: bool) {
        let place = WRITINGS.iter().position(|known| *known == what);
        let what = WRITINGS[place.expect("one of WRITINGS")];
        *self.counts.entry(what).or_default() += u64::from(so);
    }

    /// A record, and what was answered.
    pub fn note_record(&mut self, given: &Appended, answer: &Result<usize, Refusal>) {
        let own = given.own_refusals();
        let other = given.edition > 1 && answer.is_err();
        self.note("a refused record by another edition number", other);
        match answer {
            Ok(length) => self.note_written(given, *length),
            Err(_) if given.used > given.memory.len() => {
                // 32 for the length that is needed is one of its own then, and is not counted.
                let others = own.iter().any(|number| *number != 32);
                self.note("a record, 32 before all", true);
                self.note("a record, 32 before all and before another refusal", others);
            }
            Err(refusal) => match given.so_far_refusal() {
                Some(told) => {
                    let far = told.offset.is_some_and(|offset| offset >= 256);
                    let what = format!("a record, {} of the packet so far", refusal.number);
                    self.note(&what, true);
                    let at = "a record, a refusal of the packet so far at 256 or more";
                    self.note(at, far);
                    let before = "a record, a refusal of the packet so far before its own";
                    self.note(before, !own.is_empty());
                }
                None => self.note_own(given, &own),
            },
        }
    }

    fn note_own(&mut self, given: &Appended, own: &[u8]) {
        let [first, others @ ..] = own else {
            return;
        };
        self.note(&format!("a record, {first}"), true);
        for other in others {
            self.note(&format!("a record, {first} before {other}"), true);
        }
        let needed = given.needed();
        let beyond = own == [1] && needed == MOST_PACKET_BYTES + 1;
        self.note("a record that would end at 1,501", beyond);
        let lacks = own == [32] && needed == given.memory.len() + 1;
        self.note("a record that lacks one byte of memory", lacks);
        if own == [4] {
            self.note_field(given.edition(), given.fields);
        }
    }

    /// A record that is refused for its fields alone: for one of them, or for more.
    fn note_field(&mut self, edition: Edition, fields: &Fields) {
        let kind = fields.kind().expect("a type that there is");
        let typed = edition.has_security_type();
        let numbers = numbers_of_type(edition, kind);
        let large = |(place, bytes): &&(usize, usize)| {
            *bytes < 8 && fields.numbers[*place] >> (8 * bytes) != 0
        };
        let large: Vec<&(usize, usize)> = numbers.iter().filter(large).collect();
        match large[..] {
            [] => {
                let body = fields.laid_out(edition).expect("all numbers fit");
                if let [only] = bad_fields(edition, &body)[..] {
                    *self.alone.entry((typed, only)).or_default() += 1;
                }
            }
            [(place, _)] => {
                // With a good number in its place nothing else is wrong. One of these is good for each.
                let mut mended = *fields;
                let good = [0, 1, b'B', b'E', b'H', b'N'].into_iter().any(|number| {
                    mended.numbers[*place] = number.into();
                    mended.body(edition).is_ok()
                });
                let count = self.too_large.entry((typed, kind, *place)).or_default();
                *count += u64::from(good);
            }
            _ => {}
        }
    }

    fn note_written(&mut self, given: &Appended, length: usize) {
        let records = read_packet(given.edition(), &given.memory[..given.used]);
        let records = records.map_or(0, |records| records.len());
        self.note("a record behind nothing", records == 0);
        self.note("a record behind one", records == 1);
        self.note("a record behind several", records > 1);
        self.note("a packet of 1,500 bytes", length == MOST_PACKET_BYTES);
        self.note(
            "a packet that fills its memory",
            length == given.memory.len(),
        );
        self.note("a record with number 1", given.number == 1);
        self.note("a record with number 10^12", given.number == LAST_NUMBER);
        let more = *given.fields != given.fields.kept(given.edition());
        self.note("a record with numbers or bytes that it does not have", more);
        self.note("a record by another edition number", given.edition > 1);
        let typed = given.edition().has_security_type();
        let kind = given.fields.kind().expect("a type that there is");
        *self.kinds.entry((typed, kind)).or_default() += 1;
    }

    /// A packet behind a recording so far of `used` bytes in so many of memory, and what was answered.
    pub fn note_packet(
        &mut self,
        number: u64,
        memory: usize,
        used: usize,
        packet: &[u8],
        answer: &Result<usize, Refusal>,
    ) {
        self.note("a packet by another edition number", number > 1);
        let refused = read_packet(Edition::of_number(number), packet).err();
        let lacks = used.saturating_add(2 + packet.len()) > memory;
        match answer {
            Ok(length) => {
                self.note("a packet behind nothing", used == 0);
                self.note("a packet behind others", used > 0);
                self.note("a recording that fills its memory", *length == memory);
            }
            Err(_) if used > memory => {
                let both = refused.is_some();
                self.note("a packet, 32 before all", true);
                self.note("a packet, 32 before all and before another refusal", both);
            }
            Err(refusal) => {
                self.note(&format!("a packet, {}", refusal.number), true);
                let both = refused.is_some() && lacks;
                self.note("a packet, its refusal before 32", both);
            }
        }
    }

    pub fn add(&mut self, other: &Writings) {
        add_all(&mut self.counts, &other.counts);
        add_all(&mut self.kinds, &other.kinds);
        add_all(&mut self.alone, &other.alone);
        add_all(&mut self.too_large, &other.too_large);
    }

    /// All that a long run must have seen, and how often this one has.
    pub fn seen(&self) -> Vec<(String, u64)> {
        let mut seen = Vec::new();
        for what in WRITINGS {
            let count = self.counts.get(what).copied().unwrap_or(0);
            seen.push((format!("written, {what}"), count));
        }
        for (edition, name) in [(Edition::V1_3, "1.3"), (Edition::V1_3b, "1.3.b")] {
            let typed = edition.has_security_type();
            for (kind, _) in TYPES_AND_LENGTHS {
                let message = message_name(kind);
                let count = self.kinds.get(&(typed, kind)).copied().unwrap_or(0);
                seen.push((format!("written in {name}, {message}"), count));
                for (place, bytes) in numbers_of_type(edition, kind) {
                    let count = self.too_large.get(&(typed, kind, place));
                    if bytes < 8 {
                        let what = format!("unwritten in {name}, {message}, large number {place}");
                        seen.push((what, count.copied().unwrap_or(0)));
                    }
                }
            }
            for (place, field) in JUDGED_FIELDS.into_iter().enumerate() {
                let count = self.alone.get(&(typed, place)).copied().unwrap_or(0);
                if judged_fields(edition).contains(&field) {
                    let (message, field) = (message_name(field.0), field.2);
                    seen.push((
                        format!("unwritten in {name}, {message}, bad {field}"),
                        count,
                    ));
                }
            }
        }
        seen
    }
}

fn add_all<K: Copy + Ord>(sums: &mut BTreeMap<K, u64>, numbers: &BTreeMap<K, u64>) {
    for (key, number) in numbers {
        *sums.entry(*key).or_default() += number;
    }
}

fn name_of(place: usize) -> &'static str {
    JUDGED_FIELDS[place].2
}

/// The bad fields of a body, four at most, by their places in `JUDGED_FIELDS`: as they are told when each is
/// mended in turn.
fn bad_fields(edition: Edition, body: &[u8]) -> Vec<usize> {
    let mut body = body.to_vec();
    let mut fields = Vec::new();
    for _ in 0..4 {
        let Err(refusal) = read_body(edition, &body) else {
            break;
        };
        let at = refusal.offset.expect("4 has an offset");
        let told = |(kind, offset, _): &(u8, usize, &str)| (*kind, *offset) == (body[0], at);
        fields.extend(JUDGED_FIELDS.iter().position(told));
        mend_field(&mut body, at);
    }
    fields
}

/// The body of the first record of what is left of a packet, or of a shelf's slot, which begins as a record
/// does: by its header's length and as far as there are bytes, and what lies behind it.
pub fn claimed_body(bytes: &[u8]) -> (&[u8], &[u8]) {
    if bytes.len() < HEADER_BYTES {
        return (&[], &[]);
    }
    let (header, rest) = bytes.split_at(HEADER_BYTES);
    let length = little(&header[8..]) as usize;
    rest.split_at(length.min(rest.len()))
}

pub fn add_each(sums: &mut [u64], numbers: &[u64]) {
    for (sum, number) in sums.iter_mut().zip(numbers) {
        *sum += number;
    }
}
