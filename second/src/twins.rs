//! The proved library and the second program side by side, each with both engines (request 9): each call is made of
//! all, and whatever one program answers or writes, the other must too, byte for byte. What a call has no business with is
//! filled with a mark first, so that a stray write shows.

use crate::convert::{self, Asked, Counts};
use crate::desk::{Desk, MARK, MARK_BYTE};
use crate::edition::{Edition, BYTE_20};
use crate::index::{HINTS, INDEX_NUMBERS, USED};
use crate::morning::{differ_in_undefined_bits_alone, set_timestamp, Dice};
use crate::packet::*;
use crate::proved::{lent, taken_apart, Proved, SHEET_BYTES};
use crate::receiver::{filled_slot, slot, slot_number, Answer, State, SLOTS, SLOT_BYTES};
use crate::seen::{add_each, claimed_body, Appended, Conversions, Faults, Searches, Writings};
use crate::sheet::{packets_of, sheet};
use crate::stream::Stream;
use crate::tables::*;
use crate::views::{ladder, live_orders, spread, used_entries};
use crate::write::{self, Fields};
use std::fmt::Debug;

/// What two programs answered differently, in words.
pub type Difference = String;

/// The calls that an edition number decides something in, or that write it.
const EDITION_CALLS: [&str; 6] = [
    "a start",
    "a packet accepted",
    "a packet refused",
    "a piece",
    "an opened stream",
    "a sheet",
];

/// What was compared, so that a run can say that it tried everything.
#[derive(Clone, Debug, Default, PartialEq, Eq)]
pub struct Tally {
    pub packets: u64,
    /// Packets by the number of their refusal; 0 counts the accepted ones.
    pub refusals: [u64; 31],
    /// Packets refused with 2 to 5, by their faults and places (request 5).
    pub faults: Faults,
    /// Accepted packets by their stop.
    pub stops: [u64; 28],
    /// Records by their answer, 10 to 14.
    pub records: [u64; 5],
    /// Bodies by the places of their types, good but perhaps for their Timestamp (request 6): those that
    /// have 999,999,999 in it, or as a System Time's seconds, and those that have more.
    pub at_the_limit: [u64; 11],
    pub beyond_the_limit: [u64; 11],
    /// Accepted packets that stopped by 27 for a Timestamp alone.
    pub stops_by_timestamp: u64,
    /// Records answered 14 that differ from the Modify on the shelf in undefined bits alone (request 2).
    pub differing_by_undefined_bits: u64,
    /// Symbol Updates in accepted packets by edition and byte 20 (request 10): in 1.3 `E` and `F`, in 1.3.b a
    /// letter of these and another byte.
    pub updates: [u64; 4],
    /// Accepted packets that stopped by 27 for byte 20 alone.
    pub stops_by_byte_20: u64,
    /// Sheets of 1.3 with a Security Type, and with a full stop in its place.
    pub typed_sheets: [u64; 2],
    /// Calls that were given another edition number than 0 and 1, by the places of `EDITION_CALLS`.
    pub other_numbers: [u64; EDITION_CALLS.len()],
    pub applied: u64,
    pub bodies: u64,
    /// Starts, views and sheets: those that were not refused by 6, and those that were.
    pub starts: [u64; 2],
    pub views: [u64; 2],
    pub sheets: [u64; 2],
    pub unknown_views: u64,
    pub cut_sheets: u64,
    /// Pieces of recordings: those that were not refused, and those that were.
    pub feeds: [u64; 2],
    /// Pieces that ended inside a length or packet, and inside one that is passed over.
    pub cut_feeds: u64,
    pub passing_feeds: u64,
    /// Bad packets and records by 10 to 14, as streams tell them.
    pub fed_bad: u64,
    pub fed_records: [u64; 5],
    /// Pieces in which a packet was refused, by the number that the stream then told as its last; and pieces
    /// in which packets were accepted and none refused, while it told an earlier one's.
    pub fed_last: [u64; 7],
    pub fed_last_kept: u64,
    /// Messages worked over spoiled rows of their own IDs, by the places of their types.
    pub spoiled: [u64; 11],
    /// Ladders with a level of the most shares that there can be.
    pub largest_levels: u64,
    /// Spreads as far below and above 0 as there can be.
    pub widest_spreads: [u64; 2],
    /// What the engine with the index met (request 9).
    pub searches: Searches,
    /// What was made the other edition's.
    pub conversions: Conversions,
    /// What was written, and what was refused to be (request 4).
    pub writings: Writings,
}

impl Tally {
    pub fn add(&mut self, other: &Tally) {
        self.packets += other.packets;
        add_each(&mut self.refusals, &other.refusals);
        self.faults.add(&other.faults);
        add_each(&mut self.stops, &other.stops);
        add_each(&mut self.records, &other.records);
        add_each(&mut self.at_the_limit, &other.at_the_limit);
        add_each(&mut self.beyond_the_limit, &other.beyond_the_limit);
        self.stops_by_timestamp += other.stops_by_timestamp;
        self.differing_by_undefined_bits += other.differing_by_undefined_bits;
        add_each(&mut self.updates, &other.updates);
        self.stops_by_byte_20 += other.stops_by_byte_20;
        add_each(&mut self.typed_sheets, &other.typed_sheets);
        add_each(&mut self.other_numbers, &other.other_numbers);
        self.applied += other.applied;
        self.bodies += other.bodies;
        add_each(&mut self.starts, &other.starts);
        add_each(&mut self.views, &other.views);
        add_each(&mut self.sheets, &other.sheets);
        self.unknown_views += other.unknown_views;
        self.cut_sheets += other.cut_sheets;
        add_each(&mut self.feeds, &other.feeds);
        self.cut_feeds += other.cut_feeds;
        self.passing_feeds += other.passing_feeds;
        self.fed_bad += other.fed_bad;
        add_each(&mut self.fed_records, &other.fed_records);
        add_each(&mut self.fed_last, &other.fed_last);
        self.fed_last_kept += other.fed_last_kept;
        add_each(&mut self.spoiled, &other.spoiled);
        self.largest_levels += other.largest_levels;
        add_each(&mut self.widest_spreads, &other.widest_spreads);
        self.searches.add(&other.searches);
        self.conversions.add(&other.conversions);
        self.writings.add(&other.writings);
    }

    /// A call, by its name in `EDITION_CALLS`, that was given this edition number.
    fn note_number(&mut self, call: &str, number: u64) {
        let place = EDITION_CALLS.iter().position(|known| *known == call);
        if number > 1 {
            self.other_numbers[place.expect("a call of an edition")] += 1;
        }
    }

    /// All that a long run must have seen, and how often this one has.
    pub fn seen(&self) -> Vec<(String, u64)> {
        let mut seen = Vec::new();
        for number in 1..=6 {
            seen.push((format!("refusal {number}"), self.refusals[number]));
            let told = format!("a stream's last refusal {number}");
            seen.push((told, self.fed_last[number]));
        }
        seen.extend(self.faults.seen());
        for stop in (0..1).chain(20..28) {
            seen.push((format!("stop {stop}"), self.stops[stop]));
        }
        for place in 0..5 {
            let answer = 10 + place;
            seen.push((format!("answer {answer}"), self.records[place]));
            seen.push((format!("a stream's {answer}"), self.fed_records[place]));
        }
        for ((kind, _), count) in TYPES_AND_LENGTHS.iter().zip(self.spoiled) {
            seen.push((format!("type {kind} over a spoiled row"), count));
        }
        for (place, (kind, _)) in TYPES_AND_LENGTHS.iter().enumerate() {
            let (at, beyond) = (self.at_the_limit[place], self.beyond_the_limit[place]);
            // A System Time's seconds have no limit to stand at.
            if *kind == SYSTEM_TIME {
                seen.push((format!("type {kind}, seconds above 999,999,999"), beyond));
                continue;
            }
            seen.push((format!("type {kind}, Timestamp of 999,999,999"), at));
            seen.push((format!("type {kind}, Timestamp above that alone"), beyond));
        }
        for (call, count) in EDITION_CALLS.iter().zip(self.other_numbers) {
            seen.push((format!("another edition number, {call}"), count));
        }
        for (what, count) in [
            ("stop 27 by a Timestamp alone", self.stops_by_timestamp),
            ("stop 27 by byte 20 alone", self.stops_by_byte_20),
            ("a Symbol Update of 1.3 with E", self.updates[0]),
            ("a Symbol Update of 1.3 with F", self.updates[1]),
            ("a Symbol Update of 1.3.b with E or F", self.updates[2]),
            ("a Symbol Update of 1.3.b with another", self.updates[3]),
            ("sheets of 1.3 with a Security Type", self.typed_sheets[0]),
            (
                "sheets of 1.3 with a full stop for it",
                self.typed_sheets[1],
            ),
            (
                "a differing copy by undefined bits alone",
                self.differing_by_undefined_bits,
            ),
            ("starts", self.starts[0]),
            ("refused starts", self.starts[1]),
            ("views", self.views[0]),
            ("views refused by 6", self.views[1]),
            ("views refused by 30", self.unknown_views),
            ("sheets", self.sheets[0]),
            ("refused sheets", self.sheets[1]),
            ("sheets in too small memory", self.cut_sheets),
            ("pieces of recordings", self.feeds[0]),
            ("refused pieces", self.feeds[1]),
            ("pieces cut inside a length or packet", self.cut_feeds),
            ("pieces cut inside too long a packet", self.passing_feeds),
            ("a stream's bad packets", self.fed_bad),
            ("a stream's last refusal kept", self.fed_last_kept),
            ("the largest sum", self.largest_levels),
            ("the lowest spread", self.widest_spreads[0]),
            ("the highest spread", self.widest_spreads[1]),
        ] {
            seen.push((what.to_string(), count));
        }
        seen.extend(self.searches.seen());
        seen.extend(self.conversions.seen());
        seen.extend(self.writings.seen());
        seen
    }
}

/// What is asked for of a conversion, in the boundary's numbers.
#[derive(Clone, Debug)]
pub struct Wanted {
    pub from: u64,
    pub to: u64,
    pub kind: u8,
    pub others: Vec<u8>,
}

impl Wanted {
    pub fn asked(&self) -> Asked {
        Asked {
            from: Edition::of_number(self.from),
            to: Edition::of_number(self.to),
            kind: self.kind,
            others: self.others.clone(),
        }
    }
}

/// Bytes between marks, which no call is to write.
struct Framed(Vec<u8>);

impl Framed {
    const MARKS: usize = 32;

    fn new(bytes: &[u8]) -> Framed {
        let marks = [MARK_BYTE; Framed::MARKS];
        Framed([&marks, bytes, &marks].concat())
    }

    fn bytes(&mut self) -> &mut [u8] {
        let end = self.0.len() - Framed::MARKS;
        &mut self.0[Framed::MARKS..end]
    }

    /// Whether these stand between the marks, and the marks as they were.
    fn has(&self, call: &str, what: &str, bytes: &[u8]) -> Result<(), Difference> {
        same_runs(call, what, &self.0, &Framed::new(bytes).0, 1)
    }
}

/// One engine of the proved library and the same engine of the second program: each call is made of both.
pub struct Pair {
    pub proved: Proved,
    pub second: Desk,
    /// The stream of a recording in pieces over the second program's receiver, with its memory.
    pub stream: Stream,
    pub hold: Vec<u8>,
    proved_stream: lent::Stream,
    proved_hold: Vec<u8>,
    /// Calls since the index was last compared whole.
    calls: u64,
}

/// An index is compared whole once in so many calls, at each start, before the caller alters it and at each
/// scenario's end. Its counts, with the number of used slots, are compared after every call.
const WHOLE_INDEX: u64 = 16;

impl Pair {
    fn new(second: Desk) -> Pair {
        let mut pair = Pair {
            proved: Proved {
                orders: Vec::new(),
                symbols: Vec::new(),
                shelf: Vec::new(),
                index: Vec::new(),
                state: [0; 4],
            },
            second,
            stream: Stream::default(),
            hold: Vec::new(),
            proved_stream: [0; 14],
            proved_hold: Vec::new(),
            calls: 0,
        };
        pair.lend_again();
        pair.lend_index();
        pair
    }

    /// Gives the proved receiver what the second has, but for the index. A state lent to it has 64 bits for
    /// second and stop, of which the low 32 and 8 count, so the second program is left with those.
    fn lend_again(&mut self) {
        let desk = &mut self.second;
        self.proved.orders.clone_from(&desk.orders);
        self.proved.symbols.clone_from(&desk.symbols);
        self.proved.shelf.clone_from(&desk.shelf);
        self.proved.state = numbers_of(desk.state);
        desk.state.second %= 1 << 32;
        self.proved_stream = self.stream_numbers();
        self.proved_hold.clone_from(&self.hold);
    }

    fn lend_index(&mut self) {
        self.proved.index.clone_from(&self.second.index);
    }

    /// The stream's fourteen numbers in the order of the boundary.
    fn stream_numbers(&self) -> lent::Stream {
        let stream = &self.stream;
        let [next, second, stop, edition] = numbers_of(self.second.state);
        let [taken, old, too_far, repeated, differing] = stream.totals;
        [
            next,
            second,
            stop,
            edition,
            stream.held,
            stream.to_pass,
            stream.bad,
            taken,
            old,
            too_far,
            repeated,
            differing,
            stream.last_number.into(),
            stream.last_offset,
        ]
    }

    fn set_edition_number(&mut self, number: u64) {
        self.proved.state[3] = number;
        self.proved_stream[3] = number;
    }

    /// The number that both answered.
    fn start(&mut self, edition_number: u64) -> Result<u8, Difference> {
        let mut state = self.proved.state;
        let wanted = told(self.second.start(Edition::of_number(edition_number)));
        if wanted == 0 {
            state = numbers_of(self.second.state);
        }
        let proved = &mut self.proved;
        let number = lent::start(
            edition_number,
            &mut proved.orders,
            &mut proved.symbols,
            &mut proved.shelf,
            &mut proved.index,
            &mut proved.state,
        );
        same("start: answer", &number, &wanted)?;
        same("start: state", &self.proved.state, &state)?;
        self.same_tables("start")?;
        self.same_index("start")?;
        Ok(wanted)
    }

    fn open(&mut self, hold: usize) -> Result<(), Difference> {
        self.stream = Stream::default();
        self.hold = vec![MARK_BYTE; hold];
        self.proved_hold.clone_from(&self.hold);
        self.proved_stream = [MARK; 14];
        let number = lent::open(&self.proved.state, &mut self.proved_stream);
        same("open: answer", &number, &0)?;
        same("open: stream", &self.proved_stream, &self.stream_numbers())
    }

    fn feed(&mut self, chunk: &[u8]) -> Result<u8, Difference> {
        let wanted = told(self.stream.feed(&mut self.second, &mut self.hold, chunk));
        let wanted_stream = match wanted {
            0 => self.stream_numbers(),
            _ => self.proved_stream,
        };
        let proved = &mut self.proved;
        let number = lent::feed(
            &mut proved.orders,
            &mut proved.symbols,
            &mut proved.shelf,
            &mut proved.index,
            &mut self.proved_hold,
            &mut self.proved_stream,
            chunk,
        );
        same("feed: answer", &number, &wanted)?;
        same("feed: stream", &self.proved_stream, &wanted_stream)?;
        same_runs("feed", "byte held", &self.proved_hold, &self.hold, 1)?;
        self.same_tables("feed")?;
        self.same_part_of_index("feed")?;
        let (cut, wanted_cut) = (lent::cut(&self.proved_stream), self.stream.is_cut());
        same("cut", &cut, &wanted_cut)?;
        self.proved.state.copy_from_slice(&self.proved_stream[..4]);
        Ok(wanted)
    }

    fn receive(&mut self, packet: &[u8]) -> Result<Result<Answer, Refusal>, Difference> {
        let mut account = [MARK; 9];
        let proved = &mut self.proved;
        let mut wanted_state = proved.state;
        let told = lent::receive(
            &mut proved.orders,
            &mut proved.symbols,
            &mut proved.shelf,
            &mut proved.index,
            &mut proved.state,
            packet,
            &mut account,
        );
        let answer = self.second.give(packet);
        let mut wanted_account = [MARK; 9];
        if let Ok(answer) = &answer {
            wanted_state = numbers_of(self.second.state);
            wanted_account = account_of(answer);
        }
        same_refusal("receive: number and offset", told, &answer)?;
        same("receive: account", &account, &wanted_account)?;
        same("receive: state", &self.proved.state, &wanted_state)?;
        self.same_tables("receive")?;
        self.same_part_of_index("receive")?;
        Ok(answer)
    }

    /// Every byte of tables, shelf and state. (The state of a refused call is the caller's to judge.)
    fn same_tables(&self, call: &str) -> Result<(), Difference> {
        let (proved, second) = (&self.proved, &self.second);
        let width = ROW_NUMBERS;
        same_runs(call, "row", &proved.orders, &second.orders, width)?;
        let width = ENTRY_BYTES;
        same_runs(call, "entry", &proved.symbols, &second.symbols, width)?;
        let width = SLOT_BYTES;
        same_runs(call, "slot", &proved.shelf, &second.shelf, width)
    }

    /// Every number of the index.
    fn same_index(&mut self, call: &str) -> Result<(), Difference> {
        self.calls = 0;
        let (proved, second) = (&self.proved.index, &self.second.index);
        same_runs(call, "number of the index", proved, second, 1)
    }

    /// How many slots were used and the counts; now and then all of it.
    fn same_part_of_index(&mut self, call: &str) -> Result<(), Difference> {
        self.calls += 1;
        let (proved, second) = (&self.proved.index, &self.second.index);
        let part = USED..HINTS;
        if self.calls >= WHOLE_INDEX || second.len() < part.end || proved.len() != second.len() {
            return self.same_index(call);
        }
        let (proved, second) = (&proved[part.clone()], &second[part]);
        same_runs(call, "used slots and count", proved, second, 1)
    }
}

/// Both engines (request 9), each of the proved library beside the same of the second program.
pub struct Twins {
    /// The edition number that receivers are started with.
    pub start_number: u64,
    /// With no index.
    pub scanning: Pair,
    /// With an index.
    pub indexed: Pair,
    /// No table, index or state was altered since a start: both engines must then come to the same.
    left_alone: bool,
    /// What differed in the index when the caller altered it. The next call tells it.
    untold: Option<Difference>,
    pub bad: u64,
    pub tally: Tally,
}

impl Twins {
    /// Receivers with the smallest tables, not started.
    pub fn new() -> Twins {
        Twins {
            start_number: 0,
            scanning: Pair::new(Desk::unstarted(1, 1)),
            indexed: Pair::new(Desk::unstarted_with_index(1, 1)),
            left_alone: false,
            untold: None,
            bad: 0,
            tally: Tally::default(),
        }
    }

    /// The second program's receiver that scans. A scenario goes by it.
    pub fn second(&self) -> &Desk {
        &self.scanning.second
    }

    pub fn stream(&self) -> &Stream {
        &self.scanning.stream
    }

    /// The edition that receivers are started in.
    pub fn edition(&self) -> Edition {
        Edition::of_number(self.start_number)
    }

    /// New tables of these capacities and a new index, full of marks, and a start.
    pub fn restart(&mut self, rows: usize, entries: usize) -> Result<(), Difference> {
        self.alter(|desk| {
            let state = desk.state;
            *desk = Desk::unstarted(rows, entries);
            desk.state = state;
        });
        self.alter_index(|index| {
            index.clear();
            index.resize(INDEX_NUMBERS, MARK);
        });
        self.bad = 0;
        self.start()
    }

    /// The caller alters tables or state between calls: the same for all. Where the engines have parted, both go
    /// on from what the scanning one has, and the index stays as it is.
    pub fn alter(&mut self, change: impl FnOnce(&mut Desk)) {
        change(&mut self.scanning.second);
        let (from, to) = (&self.scanning.second, &mut self.indexed.second);
        to.orders.clone_from(&from.orders);
        to.symbols.clone_from(&from.symbols);
        to.shelf.clone_from(&from.shelf);
        to.state = from.state;
        self.left_alone = false;
        self.scanning.lend_again();
        self.indexed.lend_again();
    }

    /// The caller alters the index, also its length.
    pub fn alter_index(&mut self, change: impl FnOnce(&mut Vec<u64>)) {
        let differs = self.indexed.same_index("before it is altered").err();
        self.untold = self.untold.take().or(differs);
        change(&mut self.indexed.second.index);
        self.left_alone = false;
        self.indexed.lend_index();
    }

    /// The caller alters the stream of a recording or its memory: the same for all.
    pub fn alter_stream(&mut self, change: impl FnOnce(&mut Stream, &mut Vec<u8>)) {
        let from = &mut self.scanning;
        change(&mut from.stream, &mut from.hold);
        self.indexed.stream = from.stream;
        self.indexed.hold.clone_from(&from.hold);
        self.alter(|_| ());
    }

    /// Sets bits of second and stop that do not count: the high 32, and all above the low 8.
    pub fn set_idle_bits(&mut self, bits: u64) {
        for pair in [&mut self.scanning, &mut self.indexed] {
            pair.proved.state[1] |= bits << 32;
            pair.proved.state[2] |= bits << 8;
        }
    }

    /// The same of a stream, and of the number of its last refused packet all bits above the low 8.
    pub fn set_idle_bits_of_stream(&mut self, bits: u64) {
        for pair in [&mut self.scanning, &mut self.indexed] {
            pair.proved_stream[1] |= bits << 32;
            pair.proved_stream[2] |= bits << 8;
            pair.proved_stream[12] |= bits << 8;
        }
    }

    /// The caller puts an edition number, of which all 64 bits count, into state and stream.
    pub fn set_edition_number(&mut self, number: u64) {
        self.alter(|desk| desk.state.edition = Edition::of_number(number));
        self.scanning.set_edition_number(number);
        self.indexed.set_edition_number(number);
    }

    pub fn start(&mut self) -> Result<(), Difference> {
        let number = self.scanning.start(self.start_number)?;
        let with_index = self.indexed.start(self.start_number).map_err(by_index)?;
        self.tally.starts[usize::from(number == 6)] += 1;
        self.tally.note_number("a start", self.start_number);
        let size_alone = number == 0 && with_index == 6;
        self.tally.searches.note("a start", size_alone);
        self.left_alone = number == 0 && with_index == 0;
        self.alike("start")
    }

    /// A recording begins, with memory of this length for an unfinished packet, full of marks.
    pub fn open(&mut self, hold: usize) -> Result<(), Difference> {
        self.bad = 0;
        let number = self.scanning.proved.state[3];
        self.tally.note_number("an opened stream", number);
        self.scanning.open(hold)?;
        self.indexed.open(hold).map_err(by_index)
    }

    /// One piece of a recording to all: the answer, the stream with its totals, the memory for an
    /// unfinished packet, all tables, and whether a recording that ended here would be cut.
    pub fn feed(&mut self, chunk: &[u8]) -> Result<(), Difference> {
        let before = self.scanning.stream;
        let number = self.scanning.proved_stream[3];
        self.tally.note_number("a piece", number);
        let wanted = self.scanning.feed(chunk)?;
        self.bad = self.scanning.stream.bad;
        self.note_feed(wanted, &before);
        let used = self.used();
        let with_index = self.indexed.feed(chunk).map_err(by_index)?;
        let size_alone = wanted == 0 && with_index == 6;
        self.tally.searches.note("a piece", size_alone);
        self.note_built_anew(used);
        if self.left_alone {
            let (scanning, indexed) = (&self.scanning, &self.indexed);
            let what = "with an index and without: stream";
            same(what, &indexed.stream, &scanning.stream)?;
            same_runs("engines", "byte held", &indexed.hold, &scanning.hold, 1)?;
        }
        self.alike("feed")
    }

    fn note_feed(&mut self, number: u8, before: &Stream) {
        let (tally, stream) = (&mut self.tally, &self.scanning.stream);
        tally.feeds[usize::from(number == 6)] += 1;
        if number == 0 {
            tally.cut_feeds += u64::from(stream.held > 0);
            tally.passing_feeds += u64::from(stream.to_pass > 0);
            tally.fed_bad += stream.bad - before.bad;
            for (place, total) in stream.totals.iter().enumerate() {
                tally.fed_records[place] += total - before.totals[place];
            }
            if stream.bad > before.bad {
                tally.fed_last[usize::from(stream.last_number)] += 1;
            } else if stream.totals != before.totals {
                tally.fed_last_kept += u64::from(stream.last_number != 0);
            }
        }
    }

    /// One packet to all: the reader's answers, the receivers', and all that is left. The answer is that of the
    /// engine that scans.
    pub fn receive(&mut self, packet: &[u8]) -> Result<Result<Answer, Refusal>, Difference> {
        self.tally.packets += 1;
        self.read(packet)?;
        let edition = self.scanning.second.state.edition;
        let number = self.scanning.proved.state[3];
        let answer = self.scanning.receive(packet)?;
        let call = if answer.is_ok() {
            "a packet accepted"
        } else {
            "a packet refused"
        };
        self.tally.note_number(call, number);
        self.note(edition, packet, &answer);
        let with_index = self.receive_through_index(packet)?;
        let size_alone = answer.is_ok() && with_index == Err(Refusal::alone(6));
        self.tally.searches.note("a packet", size_alone);
        if self.left_alone {
            same("with an index and without: answer", &with_index, &answer)?;
        } else {
            self.note_parted(&answer, &with_index);
        }
        self.alike("receive")?;
        Ok(answer)
    }

    fn receive_through_index(
        &mut self,
        packet: &[u8],
    ) -> Result<Result<Answer, Refusal>, Difference> {
        let used = self.used();
        if self.indexed.second.fits() {
            self.tally
                .searches
                .note_packet(&self.indexed.second, packet);
        }
        let answer = self.indexed.receive(packet).map_err(by_index)?;
        self.note_built_anew(used);
        if let Ok(answer) = &answer {
            let rows = rows_in(&self.indexed.second.orders);
            self.tally.searches.note_stop(answer.stop, rows);
        }
        Ok(answer)
    }

    /// How many slots the index says were used.
    fn used(&self) -> u64 {
        self.indexed.second.index.get(USED).map_or(0, |used| *used)
    }

    fn note_built_anew(&mut self, used_before: u64) {
        if self.used() < used_before {
            let orders = &self.indexed.second.orders;
            self.tally.searches.note_built_anew(orders);
        }
    }

    /// What altered tables or an altered index made of the two engines.
    fn note_parted(
        &mut self,
        scanning: &Result<Answer, Refusal>,
        indexed: &Result<Answer, Refusal>,
    ) {
        let (Ok(scanning), Ok(indexed)) = (scanning, indexed) else {
            return;
        };
        let rows_differ = self.scanning.second.orders != self.indexed.second.orders;
        self.tally
            .searches
            .note_parted(scanning, indexed, rows_differ);
    }

    /// Request 9: "Both give the same answers and the same tables on every run from a start that leaves tables and
    /// index to them".
    fn alike(&mut self, call: &str) -> Result<(), Difference> {
        if let Some(difference) = self.untold.take() {
            return Err(by_index(difference));
        }
        if !self.left_alone {
            return Ok(());
        }
        let (scanning, indexed) = (&self.scanning.second, &self.indexed.second);
        let alike = scanning.orders == indexed.orders
            && scanning.symbols == indexed.symbols
            && scanning.shelf == indexed.shelf
            && scanning.state == indexed.state;
        match alike {
            true => Ok(()),
            false => Err(format!("{call}: the engines came to different tables")),
        }
    }

    /// A scenario's end: all of the index.
    pub fn end(&mut self) -> Result<(), Difference> {
        self.indexed.same_index("end").map_err(by_index)
    }

    /// The same of a message over a spoiled row that bears its own IDs.
    pub fn receive_over_spoiled(&mut self, kind: u8, packet: &[u8]) -> Result<(), Difference> {
        let _ = self.receive(packet)?;
        if let Some(place) = place_of(kind) {
            self.tally.spoiled[place] += 1;
        }
        Ok(())
    }

    fn note(&mut self, edition: Edition, packet: &[u8], answer: &Result<Answer, Refusal>) {
        let tally = &mut self.tally;
        match answer {
            Err(refusal) => {
                self.bad += 1;
                tally.refusals[refusal.number as usize] += 1;
                tally.faults.note(edition, packet, *refusal);
            }
            Ok(answer) => {
                tally.refusals[0] += 1;
                tally.stops[answer.stop as usize] += 1;
                tally.applied += answer.applied;
                add_each(&mut tally.records, &answer.counts());
                let records = read_packet(edition, packet).unwrap_or_default();
                add_each(&mut tally.updates, &updates(edition, &records));
                tally.differing_by_undefined_bits +=
                    differing_by_undefined_bits(&records, answer, &self.scanning.second.shelf);
                tally.stops_by_timestamp += u64::from(stopped_by_timestamp(
                    edition,
                    answer,
                    &self.scanning.second.shelf,
                ));
                tally.stops_by_byte_20 += u64::from(stopped_by_byte_20(
                    edition,
                    answer,
                    &self.scanning.second.shelf,
                ));
            }
        }
    }

    /// The packet reader, then its records and bodies one by one up to the first fault. There the body
    /// reader also gets all that is left behind the header, where that is more than the header claims. All are
    /// told the edition of the state.
    fn read(&mut self, packet: &[u8]) -> Result<(), Difference> {
        let (edition, number) = (
            self.scanning.second.state.edition,
            self.scanning.proved.state[3],
        );
        let mut records = [MARK];
        let told = lent::packet(number, packet, &mut records);
        let wanted = read_packet(edition, packet);
        let wanted_records = wanted.as_ref().map_or(MARK, |records| records.len() as u64);
        same_refusal("packet: number and offset", told, &wanted)?;
        same("packet: records", &records, &[wanted_records])?;
        self.packet_again(number, packet)?;
        let mut rest = packet;
        loop {
            let mut head = [MARK; 2];
            let told = lent::record(number, rest, &mut head);
            let wanted = read_record(edition, rest);
            let wanted_head = match &wanted {
                Err(_) => [MARK; 2],
                Ok(record) => [record.number, record.body.len() as u64],
            };
            same_refusal("record: number and offset", told, &wanted)?;
            same("record: head", &head, &wanted_head)?;
            let (body, behind) = claimed_body(rest);
            self.body(number, body)?;
            if wanted.is_err() {
                return match behind {
                    [] => Ok(()),
                    _ => self.body(number, &rest[HEADER_BYTES..]),
                };
            }
            rest = behind;
        }
    }

    /// The body reader, on any edition number and any bytes.
    pub fn body(&mut self, number: u64, body: &[u8]) -> Result<(), Difference> {
        let edition = Edition::of_number(number);
        self.tally.bodies += 1;
        let fields = self.fields(number, body)?;
        self.note_timestamp(edition, body);
        match fields {
            Ok(fields) => self.body_again(number, body, &fields),
            Err(_) => Ok(()),
        }
    }

    /// What both read of a body: its numbers and its text, or its refusal.
    fn fields(&self, number: u64, body: &[u8]) -> Result<Result<Fields, Refusal>, Difference> {
        let (mut numbers, mut text) = ([MARK; 8], [MARK_BYTE; 28]);
        let told = lent::body(number, body, &mut numbers, &mut text);
        let wanted = Fields::read(Edition::of_number(number), body);
        let unread = Fields {
            numbers: [MARK; 8],
            text: [MARK_BYTE; 28],
        };
        let wanted_fields = *wanted.as_ref().unwrap_or(&unread);
        same_refusal("body: number and offset", told, &wanted)?;
        same("body: fields", &numbers, &wanted_fields.numbers)?;
        same("body: text", &text, &wanted_fields.text)?;
        Ok(wanted)
    }

    /// Request 4: "writing what was read from a good body gives the same bytes".
    fn body_again(&mut self, number: u64, body: &[u8], fields: &Fields) -> Result<(), Difference> {
        let memory = [MARK_BYTE; HEADER_BYTES + 64];
        let given = Appended {
            edition: number,
            memory: &memory,
            used: 0,
            number: LAST_NUMBER,
            fields,
        };
        let (_, after) = self.append(&given)?;
        let record = [&filled_slot(LAST_NUMBER, body)[..HEADER_BYTES], body].concat();
        let mut wanted = memory.to_vec();
        wanted[..record.len()].copy_from_slice(&record);
        same_runs("read then written", "byte", &after, &wanted, 1)
    }

    /// "a packet that is begun with nothing and written record by record is always a good packet, and every good packet
    /// can be written so".
    fn packet_again(&mut self, number: u64, packet: &[u8]) -> Result<(), Difference> {
        let records = read_packet(Edition::of_number(number), packet).unwrap_or_default();
        let mut memory = vec![MARK_BYTE; packet.len()];
        let mut used = 0;
        for record in &records {
            let fields = self.fields(number, record.body)?;
            let fields = fields.map_err(|refusal| format!("both: a good body, {refusal}"))?;
            let given = Appended {
                edition: number,
                memory: &memory,
                used,
                number: record.number,
                fields: &fields,
            };
            let (answer, after) = self.append(&given)?;
            used = answer.map_err(|refusal| format!("both: written again, {refusal}"))?;
            memory = after;
        }
        match records.is_empty() {
            true => Ok(()),
            false => same_runs("written again", "byte", &memory, packet, 1),
        }
    }

    /// A recording written packet by packet: the same bytes, but for those packets that are refused, and for what is cut
    /// off at its end.
    pub fn recording_again(&mut self, number: u64, recording: &[u8]) -> Result<(), Difference> {
        let mut memory = vec![MARK_BYTE; recording.len()];
        let (mut used, mut wanted) = (0, Vec::new());
        for packet in packets_of(recording).0 {
            let (answer, after) = self.append_packet(number, &memory, used, packet)?;
            memory = after;
            if let Ok(length) = answer {
                used = length;
                wanted.extend_from_slice(&(packet.len() as u16).to_le_bytes());
                wanted.extend_from_slice(packet);
            }
        }
        wanted.resize(recording.len(), MARK_BYTE);
        same_runs("recording written again", "byte", &memory, &wanted, 1)
    }

    /// A record behind a packet so far, by both: the answer, the new length, every byte of the memory and nothing beside
    /// it. What was written must be read as what was given. The memory as it is then stands beside the answer.
    pub fn append(
        &mut self,
        given: &Appended,
    ) -> Result<(Result<usize, Refusal>, Vec<u8>), Difference> {
        let edition = Edition::of_number(given.edition);
        let (mut framed, mut length) = (Framed::new(given.memory), [MARK]);
        let (numbers, text) = (given.fields.numbers, given.fields.text);
        let told = lent::append(
            given.edition,
            framed.bytes(),
            given.used,
            given.number,
            &numbers,
            &text,
            &mut length,
        );
        let mut after = given.memory.to_vec();
        let (used, number) = (given.used, given.number);
        let answer = write::append(edition, &mut after, used, number, given.fields);
        let wanted_length = answer.as_ref().map_or(MARK, |length| *length as u64);
        same_refusal("append: number and offset", told, &answer)?;
        same("append: length", &length, &[wanted_length])?;
        framed.has("append", "byte", &after)?;
        let lent = (&numbers, &text);
        same(
            "append: fields",
            &lent,
            &(&given.fields.numbers, &given.fields.text),
        )?;
        if let Ok(length) = answer {
            let read = self.fields(given.edition, &after[used + HEADER_BYTES..length])?;
            let kept = Ok(given.fields.kept(edition));
            same("append: written then read", &read, &kept)?;
            self.good_packet(given.edition, &after[..length])?;
        }
        self.tally.writings.note_record(given, &answer);
        Ok((answer, after))
    }

    /// A packet that both must call good.
    fn good_packet(&self, number: u64, packet: &[u8]) -> Result<(), Difference> {
        let mut records = [MARK];
        let told = lent::packet(number, packet, &mut records);
        let wanted = read_packet(Edition::of_number(number), packet);
        let wanted = wanted.map_or(MARK, |records| records.len() as u64);
        same("a packet written: answer", &told, &0)?;
        same("a packet written: records", &records, &[wanted])
    }

    /// A packet behind a recording so far, by both.
    pub fn append_packet(
        &mut self,
        number: u64,
        memory: &[u8],
        used: usize,
        packet: &[u8],
    ) -> Result<(Result<usize, Refusal>, Vec<u8>), Difference> {
        let edition = Edition::of_number(number);
        let (mut framed, mut length) = (Framed::new(memory), [MARK]);
        let told = lent::append_packet(number, framed.bytes(), used, packet, &mut length);
        let mut after = memory.to_vec();
        let answer = write::append_packet(edition, &mut after, used, packet);
        let wanted_length = answer.as_ref().map_or(MARK, |length| *length as u64);
        same_refusal("append a packet: number and offset", told, &answer)?;
        same("append a packet: length", &length, &[wanted_length])?;
        framed.has("append a packet", "byte", &after)?;
        let seen = &mut self.tally.writings;
        seen.note_packet(number, memory.len(), used, packet, &answer);
        Ok((answer, after))
    }

    fn note_timestamp(&mut self, edition: Edition, body: &[u8]) {
        let Some(nanoseconds) = timestamp_of_a_good_rest(edition, body) else {
            return;
        };
        if let Some(place) = place_of(body[0]) {
            self.tally.at_the_limit[place] += u64::from(nanoseconds == LAST_NANOSECOND);
            self.tally.beyond_the_limit[place] += u64::from(nanoseconds > LAST_NANOSECOND);
        }
    }

    /// A packet made one of another edition by both: the answer, every byte of it, and nothing beside it. The converted
    /// packet, or the refused one as it was, stands beside the answer.
    pub fn convert(
        &mut self,
        wanted: &Wanted,
        packet: &[u8],
    ) -> Result<(Result<u64, Refusal>, Vec<u8>), Difference> {
        let (from, to, kind) = (wanted.from, wanted.to, wanted.kind);
        let (mut others, mut framed) = (Framed::new(&wanted.others), Framed::new(packet));
        let mut updates = [MARK];
        let (lent_others, lent_packet) = (others.bytes(), framed.bytes());
        let told = lent::convert(from, to, kind, lent_others, lent_packet, &mut updates);
        let asked = wanted.asked();
        let mut converted = packet.to_vec();
        let answer = convert::convert(&asked, &mut converted);
        let wanted_updates = *answer.as_ref().unwrap_or(&MARK);
        same_refusal("convert: number and offset", told, &answer)?;
        same("convert: Symbol Updates", &updates, &[wanted_updates])?;
        framed.has("convert", "byte", &converted)?;
        others.has("convert", "byte of the exceptions", &wanted.others)?;
        let seen = &mut self.tally.conversions;
        seen.note_numbers(from, to);
        seen.note_packet(&asked, packet, &answer);
        Ok((answer, converted))
    }

    /// The same of a piece of a recording.
    pub fn convert_piece(
        &mut self,
        wanted: &Wanted,
        piece: &[u8],
    ) -> Result<(Result<Counts, u8>, Vec<u8>), Difference> {
        let (from, to, kind) = (wanted.from, wanted.to, wanted.kind);
        let (mut others, mut framed) = (Framed::new(&wanted.others), Framed::new(piece));
        let mut counts = [MARK; 4];
        let (lent_others, lent_piece) = (others.bytes(), framed.bytes());
        let number = lent::convert_piece(from, to, kind, lent_others, lent_piece, &mut counts);
        let mut converted = piece.to_vec();
        let answer = convert::convert_piece(&wanted.asked(), &mut converted);
        let (wanted_number, wanted_counts) = match answer {
            Err(number) => (number, [MARK; 4]),
            Ok(told) => (0, [told.bytes, told.updates, told.unread, told.barred]),
        };
        same("convert a piece: answer", &number, &wanted_number)?;
        same("convert a piece: counts", &counts, &wanted_counts)?;
        framed.has("convert a piece", "byte", &converted)?;
        others.has("convert a piece", "byte of the exceptions", &wanted.others)?;
        let seen = &mut self.tally.conversions;
        seen.note_numbers(from, to);
        seen.note_piece(&answer);
        Ok((answer, converted))
    }

    /// Counts, and the ladders and the spread of a few symbols, known and unknown.
    pub fn views(&mut self, dice: &mut Dice) -> Result<(), Difference> {
        self.counts()?;
        for _ in 0..3 {
            let symbol = self.some_symbol(dice);
            self.spread(symbol)?;
            for side in [Side::Buy, Side::Sell] {
                let rows = rows_in(&self.scanning.second.orders) as u64;
                let length = match dice.below(4) {
                    0 => dice.below(7),
                    1 => dice.below(40),
                    2 => dice.below(3 * rows + 1),
                    _ => 3 * rows + dice.below(5),
                };
                self.ladder(symbol, side, length as usize)?;
            }
        }
        Ok(())
    }

    /// A symbol of an entry, used or not, of a row, or any.
    fn some_symbol(&self, dice: &mut Dice) -> u32 {
        let (orders, symbols) = (&self.scanning.second.orders, &self.scanning.second.symbols);
        let (rows, entries) = (rows_in(orders) as u64, entries_in(symbols) as u64);
        match dice.below(8) {
            0 => dice.bits() as u32,
            1 | 2 if rows > 0 => {
                (row(orders, dice.below(rows) as usize)[SYMBOL_AND_SIDE] / 2) as u32
            }
            _ if entries > 0 => symbol_of_entry(entry(symbols, dice.below(entries) as usize)),
            _ => 7,
        }
    }

    fn note_view(&mut self, number: u8) {
        self.tally.views[usize::from(number == 6)] += 1;
        self.tally.unknown_views += u64::from(number == 30);
    }

    pub fn counts(&mut self) -> Result<(), Difference> {
        let mut counts = [MARK; 2];
        let number = lent::counts(
            &self.scanning.proved.orders,
            &self.scanning.proved.symbols,
            &mut counts,
        );
        let (orders, symbols) = (&self.scanning.second.orders, &self.scanning.second.symbols);
        let (wanted, wanted_counts) = match (live_orders(orders), used_entries(symbols)) {
            (Ok(orders), Ok(symbols)) => (0, [orders, symbols]),
            _ => (6, [MARK; 2]),
        };
        self.note_view(wanted);
        same("counts: answer", &number, &wanted)?;
        same("counts: numbers", &counts, &wanted_counts)
    }

    pub fn spread(&mut self, symbol: u32) -> Result<(), Difference> {
        let mut answer = [MARK; 2];
        let proved = &self.scanning.proved;
        let number = lent::spread(&proved.orders, &proved.symbols, symbol, &mut answer);
        let (wanted, wanted_answer) = match spread(
            &self.scanning.second.orders,
            &self.scanning.second.symbols,
            symbol,
        ) {
            Err(number) => (number, [MARK; 2]),
            Ok(None) => (0, [0, 0]),
            Ok(Some(spread)) => (0, [1, spread as u64]),
        };
        self.note_view(wanted);
        let widest = HIGHEST_PRICE - 1;
        let spreads = [[1, widest.wrapping_neg()], [1, widest]];
        for (seen, spread) in self.tally.widest_spreads.iter_mut().zip(spreads) {
            *seen += u64::from(wanted == 0 && wanted_answer == spread);
        }
        same("spread: answer", &number, &wanted)?;
        same("spread: numbers", &answer, &wanted_answer)
    }

    pub fn ladder(&mut self, symbol: u32, side: Side, length: usize) -> Result<(), Difference> {
        let (mut run, mut levels) = (vec![MARK; length], [MARK]);
        let sell = side == Side::Sell;
        let (orders, symbols) = (&self.scanning.proved.orders, &self.scanning.proved.symbols);
        let number = lent::ladder(orders, symbols, symbol, sell, &mut run, &mut levels);
        let mut wanted_run = vec![MARK; length];
        let (orders, symbols) = (&self.scanning.second.orders, &self.scanning.second.symbols);
        let (wanted, wanted_levels) = match ladder(orders, symbols, symbol, side, &mut wanted_run) {
            Err(number) => (number, [MARK]),
            Ok(levels) => (0, [levels]),
        };
        self.note_view(wanted);
        let most = MOST_ROWS as u64 * u64::from(u32::MAX);
        let largest = wanted_run.chunks_exact(3).any(|level| level[1] == most);
        self.tally.largest_levels += u64::from(wanted == 0 && largest);
        same("ladder: answer", &number, &wanted)?;
        same("ladder: levels", &levels, &wanted_levels)?;
        same_runs("ladder", "level", &run, &wanted_run, 3)
    }

    /// The sheet in a buffer that holds it whole, and in one that does not.
    pub fn sheet(&mut self, dice: &mut Dice) -> Result<(), Difference> {
        let (bad, whole) = match dice.below(4) {
            0 => (dice.bits(), false),
            _ => (self.bad, dice.below(2) == 0),
        };
        let desk = &self.scanning.second;
        let wanted = sheet(desk.state, &desk.orders, &desk.symbols, bad, whole);
        let length = wanted.as_ref().map_or(100, |text| text.len() as u64);
        // A long sheet must fit in what the header says holds any.
        let enough = match length {
            100_000.. => SHEET_BYTES as u64,
            _ => length + dice.below(3),
        };
        self.note_sheet(&wanted);
        for length in [enough, dice.below(length)] {
            self.sheet_in(length as usize, bad, whole, &wanted)?;
        }
        Ok(())
    }

    /// The sheet with the packets that were bad, of both, as text.
    pub fn sheet_text(&mut self, whole: bool) -> Result<String, Difference> {
        let (bad, desk) = (self.bad, &self.scanning.second);
        let wanted = sheet(desk.state, &desk.orders, &desk.symbols, bad, whole);
        self.note_sheet(&wanted);
        let length = wanted.as_ref().map_or(0, Vec::len);
        self.sheet_in(length, bad, whole, &wanted)?;
        match wanted {
            Ok(text) => Ok(shown(&text)),
            Err(number) => Err(format!("a sheet refused with {number}")),
        }
    }

    fn note_sheet(&mut self, wanted: &Result<Vec<u8>, u8>) {
        self.tally
            .note_number("a sheet", self.scanning.proved.state[3]);
        let text = wanted.as_deref().map_or(String::new(), shown);
        let has = |wanted: &str| text.lines().any(|line| line == wanted);
        self.tally.typed_sheets[0] += u64::from(has("type=E") || has("type=F"));
        self.tally.typed_sheets[1] += u64::from(has("type=."));
    }

    fn sheet_in(
        &mut self,
        length: usize,
        bad: u64,
        whole: bool,
        wanted: &Result<Vec<u8>, u8>,
    ) -> Result<(), Difference> {
        let (mut text, mut whole_length) = (vec![MARK_BYTE; length], [MARK]);
        let Proved {
            orders,
            symbols,
            state,
            ..
        } = &self.scanning.proved;
        let number = lent::sheet(
            &mut text,
            orders,
            symbols,
            state,
            bad,
            !whole,
            &mut whole_length,
        );
        let mut wanted_text = vec![MARK_BYTE; length];
        let (wanted, wanted_length) = match wanted {
            Err(number) => (*number, [MARK]),
            Ok(sheet) => {
                let end = sheet.len().min(length);
                wanted_text[..end].copy_from_slice(&sheet[..end]);
                self.tally.cut_sheets += u64::from(end < sheet.len());
                (0, [sheet.len() as u64])
            }
        };
        self.tally.sheets[usize::from(wanted == 6)] += 1;
        same("sheet: answer", &number, &wanted)?;
        same("sheet: length", &whole_length, &wanted_length)?;
        if text != wanted_text {
            let (text, wanted) = (shown(&text), shown(&wanted_text));
            return Err(format!("sheet: proved\n{text}second\n{wanted}"));
        }
        Ok(())
    }
}

impl Default for Twins {
    fn default() -> Twins {
        Twins::new()
    }
}

/// How many records of an accepted packet were answered 14 for undefined bits alone, by the shelf that it
/// left: what lies there came first, and any other copy in reach was answered 14. (Of a message that the
/// packet also applied, the shelf tells nothing, and its copies are not counted.)
fn differing_by_undefined_bits(records: &[Record], answer: &Answer, shelf: &[u8]) -> u64 {
    let next_before = answer.next - answer.applied;
    let in_reach = answer.next..next_before + SLOTS;
    let mut count = 0;
    for record in records {
        let first = slot(shelf, record.number);
        let copy = filled_slot(record.number, record.body);
        let alone =
            first[..10] == copy[..10] && differ_in_undefined_bits_alone(&first[10..], &copy[10..]);
        count += u64::from(alone && in_reach.contains(&record.number));
    }
    count
}

/// A kind's place among all.
fn place_of(kind: u8) -> Option<usize> {
    TYPES_AND_LENGTHS
        .iter()
        .position(|(known, _)| *known == kind)
}

/// What stands in the Timestamp, or as a System Time's seconds, if all the rest of the body is good.
fn timestamp_of_a_good_rest(edition: Edition, body: &[u8]) -> Option<u32> {
    let nanoseconds = little(body.get(1..5)?) as u32;
    let mut at_0 = body.to_vec();
    set_timestamp(&mut at_0, 0);
    read_body(edition, &at_0).ok().map(|_| nanoseconds)
}

/// Whether the work stopped at a body that is no good one for its Timestamp alone.
fn stopped_by_timestamp(edition: Edition, answer: &Answer, shelf: &[u8]) -> bool {
    let told = stopped_at(answer, shelf).and_then(|body| timestamp_of_a_good_rest(edition, body));
    told.is_some_and(|told| told > LAST_NANOSECOND)
}

/// Whether it stopped at one that is no good body for byte 20 alone: good in the other edition, and not here.
fn stopped_by_byte_20(edition: Edition, answer: &Answer, shelf: &[u8]) -> bool {
    stopped_at(answer, shelf).is_some_and(|body| {
        read_body(edition, body).is_err() && read_body(edition.other(), body).is_ok()
    })
}

/// The body that claims to be next's, at which the work stopped with 27.
fn stopped_at<'a>(answer: &Answer, shelf: &'a [u8]) -> Option<&'a [u8]> {
    let slot = slot(shelf, answer.next);
    let stopped = answer.stop == 27 && slot_number(slot) == answer.next;
    stopped.then(|| claimed_body(slot).0)
}

/// Symbol Updates among records, as `Tally::updates` has them.
fn updates(edition: Edition, records: &[Record]) -> [u64; 4] {
    let mut counts = [0; 4];
    for record in records {
        if record.body[0] == SYMBOL_UPDATE {
            let place = match (edition, record.body[BYTE_20]) {
                (Edition::V1_3, b'E') => 0,
                (Edition::V1_3, _) => 1,
                (Edition::V1_3b, b'E' | b'F') => 2,
                (Edition::V1_3b, _) => 3,
            };
            counts[place] += 1;
        }
    }
    counts
}

/// A state's four numbers in the header's order.
fn numbers_of(state: State) -> lent::State {
    let State {
        next,
        second,
        stop,
        edition,
    } = state;
    [next, second, stop.into(), edition.number()]
}

/// A difference of the engine with the index.
fn by_index(difference: Difference) -> Difference {
    format!("with an index, {difference}")
}

fn shown(text: &[u8]) -> String {
    String::from_utf8_lossy(text).into_owned()
}

/// The account's nine numbers in the header's order.
pub fn account_of(answer: &Answer) -> [u64; 9] {
    let [taken, old, too_far, repeats, differing] = answer.counts();
    [
        taken,
        old,
        too_far,
        repeats,
        differing,
        answer.next,
        answer.applied,
        answer.highest,
        answer.stop.into(),
    ]
}

/// The number that the boundary answers: 0 where nothing is refused.
fn told(answer: Result<(), u8>) -> u8 {
    answer.err().unwrap_or(0)
}

/// The number and the offset that the boundary answers: both 0 where nothing is refused, and the offset 0
/// where a number stands alone.
fn same_refusal<T>(what: &str, told: u32, wanted: &Result<T, Refusal>) -> Result<(), Difference> {
    let wanted = match wanted {
        Ok(_) => (0, 0),
        Err(refusal) => (refusal.number, refusal.offset.unwrap_or(0)),
    };
    same(what, &taken_apart(told), &wanted)
}

fn same<T: PartialEq + Debug>(what: &str, proved: &T, second: &T) -> Result<(), Difference> {
    if proved == second {
        return Ok(());
    }
    Err(format!("{what}: proved {proved:?}, second {second:?}"))
}

/// Two runs of rows of this width; the first row that differs is told.
fn same_runs<T: PartialEq + Debug>(
    call: &str,
    row: &str,
    proved: &[T],
    second: &[T],
    width: usize,
) -> Result<(), Difference> {
    if proved == second {
        return Ok(());
    }
    let rows = proved.chunks(width).zip(second.chunks(width));
    for (place, (mine, other)) in rows.enumerate() {
        same(&format!("{call}: {row} {place}"), &mine, &other)?;
    }
    same(
        &format!("{call}: length of the {row} run"),
        &proved.len(),
        &second.len(),
    )
}
