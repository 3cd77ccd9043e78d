//! Times of the proved library beside Rust programs, in one run and on the same packets, as a Markdown
//! table: `bench [MEGABYTES]`, the size of the recordings for the sheet programs (300).
//!
//! docs/BENCHMARKS.md says how it measures.
#![forbid(unsafe_code)]

use std::process::ExitCode;

#[cfg(linked)]
fn main() -> ExitCode {
    match linked::run() {
        Ok(()) => ExitCode::SUCCESS,
        Err(text) => {
            eprintln!("bench: {text}");
            ExitCode::FAILURE
        }
    }
}

#[cfg(not(linked))]
fn main() -> ExitCode {
    eprintln!("bench: built without the proved library: run tools/archive, then build again");
    ExitCode::from(2)
}

#[cfg(linked)]
mod linked {
    use second::edition::Edition;
    use second::examples::example_list;
    use second::fast;
    use second::morning::{bad_packet, recording, system_time};
    use second::packet::*;
    use second::plain::Handler;
    use second::proved::{self, lent, Proved};
    use second::receiver::{receive, State};
    use second::stream::LEAST_HOLD;
    use second::tables::{MOST_ENTRIES, MOST_ROWS, SHEET_ROWS};
    use second::traffic::{in_packets, on_two_lines, Traffic};
    use std::fs::File;
    use std::hint::black_box;
    use std::io::{BufWriter, Write};
    use std::path::{Path, PathBuf};
    use std::process::{Command, Stdio};
    use std::time::{Duration, Instant};

    const EDITION: Edition = Edition::V1_3b;
    const REPETITIONS: usize = 11;
    const PROGRAM_REPETITIONS: usize = 3;
    /// Records in a packet at most.
    const RECORDS: usize = 8;
    const MESSAGES: usize = 20_000;
    /// With an index, so that it is built anew, at many live orders several times.
    const INDEXED_MESSAGES: usize = 100_000;
    /// Symbols in play, and as many as there can be.
    const SYMBOLS: u64 = 40;
    /// Bytes of a recording that are read at once, as the programs read them.
    const BLOCK: usize = 65_536;
    /// A recording in memory is no longer than this.
    const MOST_MEGABYTES: usize = 50;

    pub fn run() -> Result<(), String> {
        let megabytes = match std::env::args().nth(1) {
            None => 300,
            Some(word) => word
                .parse()
                .map_err(|_| format!("{word} is no number of megabytes"))?,
        };
        println!("| What | Count | Rattle | Rust | Rust / Rattle |");
        println!("|---|---|---|---|---|");
        receiving_times()?;
        // The first beside the second shows what the rows cost that no order is in.
        for (live, rows, messages) in [
            (100, 100, MESSAGES),
            (100, SHEET_ROWS, MESSAGES),
            (1_000, SHEET_ROWS, MESSAGES),
            (SHEET_ROWS, SHEET_ROWS, MESSAGES),
            (10_000, MOST_ROWS, MESSAGES / 10),
        ] {
            receiving_orders(live, rows, messages)?;
        }
        for (live, rows) in [(100, 100), (100, SHEET_ROWS), (1_000, SHEET_ROWS)] {
            receiving_through_index(live, rows, SYMBOLS)?;
        }
        // What a message costs must not grow with the orders, nor with the symbols.
        for symbols in [SYMBOLS, MOST_ENTRIES as u64] {
            for live in [100, 1_000, 10_000, MOST_ROWS] {
                receiving_through_index(live, MOST_ROWS, symbols)?;
            }
        }
        receiving_whole_recording(10_000)?;
        reading()?;
        let in_memory = megabytes.min(MOST_MEGABYTES);
        for (live, symbols) in [
            (100, SYMBOLS),
            (1_000, SYMBOLS),
            (1_000, MOST_ENTRIES as u64),
        ] {
            feeding(in_memory, live, symbols)?;
        }
        sheets(megabytes)
    }

    // -----------------------------------------------------------------------------------------
    // Measuring and printing
    // -----------------------------------------------------------------------------------------

    fn time(work: impl FnOnce()) -> Duration {
        let begun = Instant::now();
        work();
        begun.elapsed()
    }

    fn median(mut times: Vec<Duration>) -> Duration {
        times.sort();
        times[times.len() / 2]
    }

    /// Both by turns, so that what else the machine does falls on both. The first turns only warm up.
    fn by_turns(
        warming: usize,
        repetitions: usize,
        mut rattle: impl FnMut() -> Duration,
        mut rust: impl FnMut() -> Duration,
    ) -> (Duration, Duration) {
        let (mut first, mut other) = (Vec::new(), Vec::new());
        for turn in 0..warming + repetitions {
            let (mine, theirs) = (rattle(), rust());
            if turn >= warming {
                first.push(mine);
                other.push(theirs);
            }
        }
        (median(first), median(other))
    }

    fn print_row(what: &str, count: usize, unit: &str, rattle: Duration, rust: Duration) {
        println!(
            "| {what} | {count} {unit}s | {} | {} | {:.2} |",
            told(rattle, count, unit),
            told(rust, count, unit),
            rust.as_secs_f64() / rattle.as_secs_f64()
        );
    }

    /// The whole time, and what each took.
    fn told(time: Duration, count: usize, unit: &str) -> String {
        let seconds = time.as_secs_f64();
        let each = seconds * 1e9 / count as f64;
        format!("{:.1} ms, {each:.1} ns a {unit}", seconds * 1e3)
    }

    // -----------------------------------------------------------------------------------------
    // The receiver
    // -----------------------------------------------------------------------------------------

    /// System Times alone: what shelf and packets cost where no table is looked at.
    fn receiving_times() -> Result<(), String> {
        let records: Vec<_> = (1..=MESSAGES as u64)
            .map(|number| (number, system_time(number as u32)))
            .collect();
        let opened = Proved::new(EDITION, SHEET_ROWS, MOST_ENTRIES).map_err(refused)?;
        let what = "receive, no book: System Time alone (second program)";
        receiving(what, &opened, &records, second_receives)?;
        let opened = Proved::with_index(EDITION, SHEET_ROWS, MOST_ENTRIES).map_err(refused)?;
        let what = "receive, index, no book: System Time alone (fast)";
        receiving(what, &opened, &records, fast_receives).map(|_| ())
    }

    /// A busy hour at so many live orders, in a table of so many rows, which both scan.
    fn receiving_orders(live: usize, rows: usize, messages: usize) -> Result<(), String> {
        let opened = Proved::new(EDITION, rows, MOST_ENTRIES).map_err(refused)?;
        let what = format!("receive, {live} live orders in {rows} rows (second program)");
        receiving_busy_hour(&what, opened, live, SYMBOLS, messages, second_receives)
    }

    /// The same through an index, beside the program that was written for speed with the same one.
    fn receiving_through_index(live: usize, rows: usize, symbols: u64) -> Result<(), String> {
        let opened = Proved::with_index(EDITION, rows, MOST_ENTRIES).map_err(refused)?;
        let what =
            format!("receive, index, {live} live orders in {rows} rows, {symbols} symbols (fast)");
        let messages = INDEXED_MESSAGES;
        receiving_busy_hour(&what, opened, live, symbols, messages, fast_receives)
    }

    /// The opening is not timed.
    fn receiving_busy_hour(
        what: &str,
        mut opened: Proved,
        live: usize,
        symbols: u64,
        messages: usize,
        rust: Receives,
    ) -> Result<(), String> {
        let mut traffic = Traffic::of_symbols(live as u64, live, symbols);
        for packet in in_packets(&traffic.opening(), RECORDS) {
            opened.receive(&packet).map_err(refused)?;
        }
        let records: Vec<_> = (0..messages).map(|_| traffic.message()).collect();
        let after = receiving(what, &opened, &records, rust)?;
        keeps_orders(&after, live)
    }

    /// A whole recording from a start on, which clears all buffers before the clock: the opening is timed too.
    fn receiving_whole_recording(live: usize) -> Result<(), String> {
        let mut traffic = Traffic::new(live as u64, live);
        let mut records = traffic.opening();
        records.extend((0..INDEXED_MESSAGES).map(|_| traffic.message()));
        let started = Proved::with_index(EDITION, MOST_ROWS, MOST_ENTRIES).map_err(refused)?;
        let what = format!("receive, index, a recording from a start to {live} live orders (fast)");
        let after = receiving(&what, &started, &records, fast_receives)?;
        keeps_orders(&after, live)
    }

    /// As many orders stay live as the row says, or nearly so.
    fn keeps_orders(receiver: &Proved, live: usize) -> Result<(), String> {
        let orders = receiver.counts().map_err(refused)?.orders as usize;
        if orders <= live && orders >= live * 9 / 10 {
            return Ok(());
        }
        Err(format!("{orders} orders are live, and {live} were wanted"))
    }

    /// A Rust program that gets all packets, in the proved receiver's memory.
    type Receives = fn(&mut Proved, &[Vec<u8>]);

    /// Each turn starts from copies of the opened tables, made and so touched before the clock. Answers what
    /// both came to.
    fn receiving(
        what: &str,
        opened: &Proved,
        records: &[(u64, Vec<u8>)],
        rust_receives: Receives,
    ) -> Result<Proved, String> {
        let packets = in_packets(records, RECORDS);
        let (mut proved, mut other) = (opened.clone(), opened.clone());
        let (rattle, rust) = by_turns(
            1,
            REPETITIONS,
            || {
                proved.clone_from(opened);
                time(|| proved_receives(&mut proved, &packets))
            },
            || {
                other.clone_from(opened);
                time(|| rust_receives(&mut other, &packets))
            },
        );
        let next = opened.state[0] + records.len() as u64;
        if proved != other || proved.state[0] != next || proved.state[2] != 0 {
            return Err(format!("{what}: different tables, or a stop"));
        }
        print_row(what, records.len(), "message", rattle, rust);
        Ok(proved)
    }

    fn refused(refusal: Refusal) -> String {
        format!("refused with {refusal}")
    }

    fn proved_receives(receiver: &mut Proved, packets: &[Vec<u8>]) {
        each_lent(receiver, packets, lent::receive);
    }

    fn fast_receives(receiver: &mut Proved, packets: &[Vec<u8>]) {
        each_lent(receiver, packets, fast::receive);
    }

    /// Each packet by one call of the boundary's form.
    fn each_lent<F>(receiver: &mut Proved, packets: &[Vec<u8>], receive: F)
    where
        F: Fn(
            &mut [u64],
            &mut [u8],
            &mut [u8],
            &mut [u64],
            &mut [u64; 4],
            &[u8],
            &mut [u64; 9],
        ) -> u32,
    {
        let mut account = [0; 9];
        for packet in packets {
            let refusal = receive(
                black_box(&mut receiver.orders),
                black_box(&mut receiver.symbols),
                black_box(&mut receiver.shelf),
                black_box(&mut receiver.index),
                &mut receiver.state,
                black_box(packet),
                &mut account,
            );
            black_box((refusal, &account));
        }
    }

    fn second_receives(receiver: &mut Proved, packets: &[Vec<u8>]) {
        let [next, second, stop, edition] = receiver.state;
        let mut state = State {
            next,
            second,
            stop: stop as u8,
            edition: Edition::of_number(edition),
        };
        for packet in packets {
            let answer = receive(
                state,
                black_box(&mut receiver.orders),
                black_box(&mut receiver.symbols),
                black_box(&mut receiver.shelf),
                black_box(&mut receiver.index),
                black_box(packet),
            );
            if let Ok((after, answer)) = answer {
                state = after;
                black_box(answer);
            }
        }
        let (stop, edition) = (state.stop.into(), state.edition.number());
        receiver.state = [state.next, state.second, stop, edition];
    }

    // -----------------------------------------------------------------------------------------
    // The packet reader
    // -----------------------------------------------------------------------------------------

    /// Good packets judged and their records counted, beside the second program's reader, which
    /// also makes a list of messages, and beside a loop that only judges.
    fn reading() -> Result<(), String> {
        let mut traffic = Traffic::new(7, 1_000);
        let mut records = traffic.opening();
        records.extend((0..MESSAGES * 5).map(|_| traffic.message()));
        let packets = in_packets(&records, 30);
        let wanted = Ok(records.len() as u64);
        let proved = || counted(&packets, proved_count);
        let lists = || counted(&packets, listed_count);
        let plain = || counted(&packets, plain_count);
        if [proved(), lists(), plain()] != [wanted, wanted, wanted] {
            return Err("the readers count differently".to_string());
        }
        refuse_alike()?;
        let timed = |count: &dyn Fn() -> Result<u64, Refusal>| {
            time(|| {
                let _ = black_box(count());
            })
        };
        for (name, rust) in [
            (
                "read packets (second program)",
                &lists as &dyn Fn() -> Result<u64, Refusal>,
            ),
            ("read packets (a plain Rust loop)", &plain),
        ] {
            let (rattle, rust) = by_turns(1, REPETITIONS, || timed(&proved), || timed(rust));
            print_row(name, records.len(), "record", rattle, rust);
        }
        Ok(())
    }

    /// Bad packets, which are not timed: all three readers must do the same work, so tell the same number and
    /// offset.
    fn refuse_alike() -> Result<(), String> {
        let list = example_list();
        for seed in 0..1_000 {
            let packet = bad_packet(EDITION, seed, &list, 1 + (seed % 5) as u8);
            let wanted = proved_count(&packet);
            if [listed_count(&packet), plain_count(&packet)] != [wanted, wanted] {
                return Err(format!("the readers refuse seed {seed} differently"));
            }
        }
        Ok(())
    }

    /// The records of all packets together, or the first refusal.
    fn counted(
        packets: &[Vec<u8>],
        count: impl Fn(&[u8]) -> Result<u64, Refusal>,
    ) -> Result<u64, Refusal> {
        let mut sum = 0;
        for packet in packets {
            sum += count(black_box(packet))?;
        }
        Ok(sum)
    }

    fn proved_count(packet: &[u8]) -> Result<u64, Refusal> {
        proved::packet(EDITION, packet)
    }

    fn listed_count(packet: &[u8]) -> Result<u64, Refusal> {
        read_packet(EDITION, packet).map(|records| records.len() as u64)
    }

    /// What one would write for speed and nothing else: one pass, no list.
    fn plain_count(packet: &[u8]) -> Result<u64, Refusal> {
        if packet.is_empty() || packet.len() > MOST_PACKET_BYTES {
            return Err(Refusal::alone(1));
        }
        let (mut rest, mut count) = (packet, 0);
        while !rest.is_empty() {
            let start = packet.len() - rest.len();
            let Some((head, behind)) = rest.split_at_checked(HEADER_BYTES) else {
                return Err(Refusal::at(2, start));
            };
            let length = usize::from(u16::from_le_bytes([head[8], head[9]]));
            let Some((body, behind)) = behind.split_at_checked(length) else {
                return Err(Refusal::at(2, start));
            };
            let number = number_at(head, 0);
            if number == 0 || number > LAST_NUMBER {
                return Err(Refusal::at(5, start));
            }
            plain_body(body).map_err(|refusal| refusal.behind(start + HEADER_BYTES))?;
            rest = behind;
            count += 1;
        }
        Ok(count)
    }

    fn number_at(bytes: &[u8], at: usize) -> u64 {
        let mut number = [0; 8];
        number.copy_from_slice(&bytes[at..at + 8]);
        u64::from_le_bytes(number)
    }

    fn plain_body(body: &[u8]) -> Result<(), Refusal> {
        let kind = *body.first().ok_or(Refusal::at(3, 0))?;
        let (length, price) = match kind {
            SYSTEM_TIME => (5, None),
            SYMBOL_UPDATE => (42, None),
            SYSTEM_STATE => (15, None),
            TRADING_STATUS => (12, None),
            SYMBOL_CLEAR => (9, None),
            ADD_ORDER => (34, Some(18)),
            MODIFY_ORDER => (30, Some(17)),
            DELETE_ORDER => (17, None),
            ORDER_EXECUTION => (38, Some(25)),
            TRADE => (31, Some(18)),
            TRADE_CANCEL => (30, Some(18)),
            _ => return Err(Refusal::at(3, 0)),
        };
        if body.len() != length {
            return Err(Refusal::at(3, 0));
        }
        match plain_fault(kind, body, price) {
            None => Ok(()),
            Some(offset) => Err(Refusal::at(4, offset)),
        }
    }

    /// The earliest bad field.
    fn plain_fault(kind: u8, body: &[u8], price: Option<usize>) -> Option<usize> {
        let nanoseconds = u32::from_le_bytes([body[1], body[2], body[3], body[4]]);
        if kind != SYSTEM_TIME && nanoseconds > LAST_NANOSECOND {
            return Some(1);
        }
        match kind {
            SYMBOL_UPDATE if !matches!(body[21], b'Y' | b'N') => return Some(21),
            SYMBOL_UPDATE if !b"ABCHIJKLMNPQUVWXYZ".contains(&body[41]) => return Some(41),
            ADD_ORDER if !matches!(body[17], b'B' | b'S') => return Some(17),
            _ => {}
        }
        let at = price?;
        if !price_in_range(number_at(body, at)) {
            return Some(at);
        }
        (body[at + 8..at + 12] == [0; 4]).then_some(at + 8)
    }

    // -----------------------------------------------------------------------------------------
    // Recordings in blocks
    // -----------------------------------------------------------------------------------------

    /// A recording of lines A and B in blocks, into a table of the sheet program's rows with an index, beside the
    /// plain handler, which judges nothing.
    fn feeding(megabytes: usize, live: usize, symbols: u64) -> Result<(), String> {
        let mut bytes = Vec::new();
        let count = two_lines(megabytes * 1_000_000, live, symbols, |block| {
            bytes.extend_from_slice(block);
            Ok(())
        })
        .map_err(told_error)?;
        let mut proved = Fed::new()?;
        let mut handler = Handler::default();
        let (rattle, rust) = by_turns(
            1,
            REPETITIONS,
            || {
                proved.begin();
                time(|| proved.feed(&bytes))
            },
            || {
                handler = Handler::default();
                time(|| handler_feeds(&mut handler, &bytes))
            },
        );
        proved.agrees(&handler)?;
        let speed = |time: Duration| bytes.len() as f64 / 1e6 / time.as_secs_f64();
        let what = format!(
            "feed, index, {megabytes} MB of lines A and B, {live} live orders, {symbols} symbols: {:.0} and {:.0} MB/s (plain handler)",
            speed(rattle),
            speed(rust)
        );
        print_row(&what, count, "record", rattle, rust);
        Ok(())
    }

    /// A stream over the proved receiver.
    struct Fed {
        receiver: Proved,
        stream: lent::Stream,
        hold: [u8; LEAST_HOLD],
        refused: bool,
    }

    impl Fed {
        fn new() -> Result<Fed, String> {
            let receiver = Proved::with_index(EDITION, SHEET_ROWS, MOST_ENTRIES);
            Ok(Fed {
                receiver: receiver.map_err(refused)?,
                stream: [0; 14],
                hold: [0; LEAST_HOLD],
                refused: false,
            })
        }

        /// A start clears the buffers and so touches them.
        fn begin(&mut self) {
            self.refused = self.receiver.start(EDITION).is_err();
            lent::open(&self.receiver.state, &mut self.stream);
        }

        fn feed(&mut self, bytes: &[u8]) {
            let receiver = &mut self.receiver;
            for block in bytes.chunks(BLOCK) {
                let number = lent::feed(
                    black_box(&mut receiver.orders),
                    black_box(&mut receiver.symbols),
                    black_box(&mut receiver.shelf),
                    black_box(&mut receiver.index),
                    &mut self.hold,
                    &mut self.stream,
                    black_box(block),
                );
                self.refused |= number != 0;
            }
        }

        /// The same symbols and the same ladders, and nothing was bad.
        fn agrees(&self, handler: &Handler) -> Result<(), String> {
            let [_, _, stop, _, held, _, bad, ..] = self.stream;
            if self.refused || [stop, held, bad] != [0; 3] || lent::cut(&self.stream) {
                return Err("the stream stopped, was cut or had bad packets".to_string());
            }
            let known = self.receiver.counts().map_err(refused)?.symbols;
            let mut alike = known == handler.symbols().len() as u64;
            for symbol in handler.symbols() {
                for side in [Side::Buy, Side::Sell] {
                    let mut run = vec![0; 3 * SHEET_ROWS];
                    let levels = self.receiver.ladder(*symbol, side, &mut run);
                    run.truncate(3 * levels.map_err(refused)? as usize);
                    alike &= run == handler.ladder(*symbol, side == Side::Sell);
                }
            }
            match alike {
                true => Ok(()),
                false => Err("the plain handler came to other ladders".to_string()),
            }
        }
    }

    fn handler_feeds(handler: &mut Handler, bytes: &[u8]) {
        for block in bytes.chunks(BLOCK) {
            handler.feed(black_box(block));
        }
        black_box(handler);
    }

    /// At least so many bytes of a recording of lines A and B, part by part. Answers how many records there are.
    fn two_lines(
        bytes: usize,
        live: usize,
        symbols: u64,
        mut put: impl FnMut(&[u8]) -> std::io::Result<()>,
    ) -> std::io::Result<usize> {
        let mut traffic = Traffic::of_symbols(11, live, symbols);
        let mut records = traffic.opening();
        let (mut written, mut count) = (0, 0);
        while written < bytes {
            let part = recording(&on_two_lines(&in_packets(&records, RECORDS)));
            count += 2 * records.len();
            written += part.len();
            put(&part)?;
            records = (0..8_000)
                .map(|_| match live {
                    0 => traffic.bookless(),
                    _ => traffic.message(),
                })
                .collect();
        }
        Ok(count)
    }

    // -----------------------------------------------------------------------------------------
    // The sheet programs
    // -----------------------------------------------------------------------------------------

    /// The sheet programs and the plain handler as they are run, over recordings of lines A and B.
    fn sheets(megabytes: usize) -> Result<(), String> {
        let sheet = Path::new("target/bin/sheet");
        if !sheet.is_file() || std::env::consts::ARCH != "x86_64" {
            println!("\nThe sheet programs were left out: no target/bin/sheet that starts here.");
            return Ok(());
        }
        // The first beside the others shows what the search for orders costs.
        for (what, live, others) in [
            ("no message that looks for an order", 0, &["sheet2"][..]),
            ("100 live orders", 100, &["handler"]),
            ("1,000 live orders", 1_000, &["handler", "sheet2"]),
        ] {
            let file = Temporary::new();
            let records = write_recording(&file.0, megabytes * 1_000_000, live);
            let records = records.map_err(told_error)?;
            let bytes = std::fs::metadata(&file.0).map_err(told_error)?.len();
            for other in others {
                let program = std::env::current_exe().map_err(told_error)?;
                let program = program.with_file_name(other);
                let (rattle, rust) = sheets_of(sheet, &program, &file.0)?;
                let speed = |time: Duration| bytes as f64 / 1e6 / time.as_secs_f64();
                let what = format!(
                    "sheet program, {megabytes} MB, {what}: {:.0} and {:.0} MB/s ({other})",
                    speed(rattle),
                    speed(rust)
                );
                print_row(&what, records, "record", rattle, rust);
            }
        }
        Ok(())
    }

    fn sheets_of(sheet: &Path, other: &Path, file: &Path) -> Result<(Duration, Duration), String> {
        if output(sheet, file)? != output(other, file)? {
            return Err(format!("the sheets of {} differ", other.display()));
        }
        // Both have read the file once by now.
        let timed = |program: &Path| time(|| drop(black_box(output(program, file))));
        Ok(by_turns(
            0,
            PROGRAM_REPETITIONS,
            || timed(sheet),
            || timed(other),
        ))
    }

    fn told_error(error: std::io::Error) -> String {
        error.to_string()
    }

    /// A file that goes when the bench ends.
    struct Temporary(PathBuf);

    impl Temporary {
        fn new() -> Temporary {
            let name = format!("rimeheath-bench-{}.rec", std::process::id());
            Temporary(std::env::temp_dir().join(name))
        }
    }

    impl Drop for Temporary {
        fn drop(&mut self) {
            let _ = std::fs::remove_file(&self.0);
        }
    }

    fn write_recording(path: &Path, bytes: usize, live: usize) -> std::io::Result<usize> {
        let mut file = BufWriter::new(File::create(path)?);
        let count = two_lines(bytes, live, SYMBOLS, |part| file.write_all(part))?;
        file.flush()?;
        Ok(count)
    }

    /// What a program prints for a recording on its standard input.
    fn output(program: &Path, recording: &Path) -> Result<Vec<u8>, String> {
        let named = |error: std::io::Error| format!("{}: {error}", program.display());
        let output = Command::new(program)
            .stdin(File::open(recording).map_err(named)?)
            .stderr(Stdio::inherit())
            .output()
            .map_err(named)?;
        if output.stdout.is_empty() {
            return Err(format!("{} printed nothing", program.display()));
        }
        Ok(output.stdout)
    }
}
