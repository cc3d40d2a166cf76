//! The twin: a plain Rust bench for the MultiKron chip in normal mode,
//! written from document 01 and Wishes 2 and 7 of document 02 alone. Bracketed
//! words in the comments name the heading of document 01, or the wish of
//! document 02, that a rule comes from.
//!
//! Build: rustc --edition 2021 -O -o OUT twin/main.rs

use std::io::{self, ErrorKind, Read, Write};

// ---------------------------------------------------------------- replies

/// [Reply numbers] A reply number and its 64-bit value.
#[derive(Clone, Copy)]
struct Reply {
    number: u8,
    value: u64,
}

const ADDRESS_TOO_HIGH: u8 = 1;
const NOTHING_THERE: u8 = 2;
const WRONG_DIRECTION: u8 = 3;
const NOT_ONE_LINE: u8 = 4;
const NO_WORD: u8 = 5;
const SAMPLING_OFF: u8 = 6;
const FILTERED: u8 = 7;
const LOST: u8 = 8;
const BAD_RECORD: u8 = 9;
const TRY_AGAIN: u8 = 10;
const SHADOWS_BUSY: u8 = 11;

/// Reply 0 with a value.
fn done(value: u64) -> Reply {
    Reply { number: 0, value }
}

/// Any other reply whose value is 0.
fn reply(number: u8) -> Reply {
    Reply { number, value: 0 }
}

// ------------------------------------------------------------------ words

const END_MARK: u16 = 1 << 9;

/// [Sample and words] Every byte value with its parity bit: bits 0..8
/// together have an odd number of ones.
const WORD_OF_BYTE: [u16; 256] = {
    let mut table = [0u16; 256];
    let mut byte = 0;
    while byte < 256 {
        let parity = (byte as u16).count_ones() % 2 == 0;
        table[byte] = byte as u16 | (parity as u16) << 8;
        byte += 1;
    }
    table
};

// ----------------------------------------------------------------- sample

/// [Sample and words] header 1, Source Address 4, Timestamp 5, user data 6.
const TRACE_BYTES: usize = 16;
/// [Sample and words] The same and sixteen counters of 4 bytes.
const RESOURCE_BYTES: usize = 80;

/// A held sample. All fields are fixed at the trigger, so they are kept as
/// the bytes that will be sent.
#[derive(Clone, Copy)]
struct Sample {
    bytes: [u8; RESOURCE_BYTES],
    length: usize,
}

impl Sample {
    const EMPTY: Sample = Sample { bytes: [0; RESOURCE_BYTES], length: 0 };

    fn is_resource(&self) -> bool {
        self.length == RESOURCE_BYTES
    }

    /// [Sample and words] The fields in sending order, each low byte first.
    fn put_fields(&mut self, header: u8, source: u32, timestamp: u64, user: u64) {
        self.bytes[0] = header;
        self.bytes[1..5].copy_from_slice(&source.to_le_bytes());
        self.bytes[5..10].copy_from_slice(&timestamp.to_le_bytes()[..5]);
        self.bytes[10..16].copy_from_slice(&user.to_le_bytes()[..6]);
        self.length = TRACE_BYTES;
    }

    /// [Sample and words] A Resource sample adds counters 0 to 15.
    fn put_counters(&mut self, counters: &[u32; COUNTERS]) {
        let places = self.bytes[TRACE_BYTES..].chunks_exact_mut(4);
        for (place, counter) in places.zip(counters) {
            place.copy_from_slice(&counter.to_le_bytes());
        }
        self.length = RESOURCE_BYTES;
    }
}

// ------------------------------------------------------------------ queue

/// [Triggers and the queue] The queue holds 8 samples.
const PLACES: usize = 8;

/// The held samples, oldest first, in a ring of fixed size.
struct Queue {
    places: [Sample; PLACES],
    first: usize,
    held: usize,
    /// Words of the first sample already sent.
    sent: usize,
    /// A Resource sample is held. There is never more than one.
    resource_held: bool,
}

impl Queue {
    fn new() -> Queue {
        Queue {
            places: [Sample::EMPTY; PLACES],
            first: 0,
            held: 0,
            sent: 0,
            resource_held: false,
        }
    }

    fn is_full(&self) -> bool {
        self.held == PLACES
    }

    /// The place for one more sample. The caller has seen that there is room.
    fn add(&mut self) -> &mut Sample {
        let place = (self.first + self.held) % PLACES;
        self.held += 1;
        &mut self.places[place]
    }

    /// [Sample and words], [Triggers and the queue] The next word. Its
    /// sample is held until the last word, which alone has the end mark.
    fn next_word(&mut self) -> Option<u16> {
        if self.held == 0 {
            return None;
        }
        let sample = &self.places[self.first];
        let mut word = WORD_OF_BYTE[sample.bytes[self.sent] as usize];
        self.sent += 1;
        if self.sent == sample.length {
            word |= END_MARK;
            if sample.is_resource() {
                self.resource_held = false;
            }
            self.first = (self.first + 1) % PLACES;
            self.held -= 1;
            self.sent = 0;
        }
        Some(word)
    }
}

// ------------------------------------------------------------------- chip

const COUNTERS: usize = 16;
/// [Counters] Timestamp wraps at 2^56.
const TIMESTAMP_MASK: u64 = (1 << 56) - 1;
/// [Wish 2] Timestamp ticks from one slow event to the next, at each speed.
const TENTH: u64 = 10;
const HUNDREDTH: u64 = 100;

/// The whole record of the chip.
struct Chip {
    timestamp: u64,
    /// The slow clock is one hundredth of the Timestamp clock, not one tenth.
    slow_hundredth: bool,
    /// Timestamp ticks since the last slow event or reset, 0 to 9 or 0 to 99.
    slow_phase: u64,
    sampling: bool,
    write_wait: bool,
    read_wait: bool,
    /// CSR bit 8: a trigger was lost with 8 samples held.
    overrun_full: bool,
    /// CSR bit 9: a Resource trigger was lost with the shadows busy.
    overrun_shadows: bool,
    lost_mark: bool,
    filter: u16,
    wait_counter: u32,
    overrun_counter: u32,
    /// MUX SEL bits 32..47 and 0..15.
    mux_high: u16,
    mux_low: u16,
    enabled: u16,
    sources: [u32; 8],
    counters: [u32; COUNTERS],
    shadows: [u32; COUNTERS],
    queue: Queue,
}

impl Chip {
    /// [The chip's operations] A fresh chip: "every part becomes zero".
    /// [Wish 2] It has the tenth. [Wish 7] Those words, and "After a reset the
    /// three settings are 0" in [CSR], now read with one exception: write wait
    /// is set. Sampling and read wait stay off.
    fn new() -> Chip {
        Chip {
            timestamp: 0,
            slow_hundredth: false,
            slow_phase: 0,
            sampling: false,
            write_wait: true,
            read_wait: false,
            overrun_full: false,
            overrun_shadows: false,
            lost_mark: false,
            filter: 0,
            wait_counter: 0,
            overrun_counter: 0,
            mux_high: 0,
            mux_low: 0,
            enabled: 0,
            sources: [0; 8],
            counters: [0; COUNTERS],
            shadows: [0; COUNTERS],
            queue: Queue::new(),
        }
    }

    /// [Wish 2] A fresh chip, but for the speed of the slow clock. [Wish 7] So
    /// write wait is set.
    fn hardware_reset(&mut self, slow_hundredth: bool) -> Reply {
        *self = Chip { slow_hundredth, ..Chip::new() };
        done(0)
    }

    /// [Software reset] As after a hardware reset, except the Timestamp.
    /// [Wish 2] The speed of the slow clock is kept too, its phase is not.
    /// [Wish 7] Write wait is set, whatever it was.
    fn software_reset(&mut self) {
        *self = Chip {
            timestamp: self.timestamp,
            slow_hundredth: self.slow_hundredth,
            ..Chip::new()
        };
    }

    /// [Address map], column Write.
    fn write(&mut self, address: u8, data: u64, lines: u8) -> Reply {
        match address {
            0 => self.software_reset(),
            1 => self.write_csr(data),
            4 => self.filter = data as u16,
            5 => self.wait_counter = 0,
            6 => self.clear_overrun(),
            8 => {
                self.mux_high = (data >> 32) as u16;
                self.mux_low = data as u16;
            }
            10 => self.clear_counters(data as u16),
            11 => self.enabled |= data as u16,
            12 => self.enabled &= !(data as u16),
            16..=23 => self.sources[address as usize - 16] = data as u32,
            32..=47 => {
                let software = self.enabled & self.mux_high & !self.mux_low;
                self.count(software & 1 << (address - 32), 1);
            }
            96..=127 => return self.trigger(address, data, lines),
            2 => return reply(WRONG_DIRECTION),
            128.. => return reply(ADDRESS_TOO_HIGH),
            _ => return reply(NOTHING_THERE),
        }
        done(0)
    }

    /// [Address map], column Read.
    fn read(&mut self, address: u8) -> Reply {
        match address {
            1 => done(self.read_csr()),
            2 => done(self.timestamp),
            4 => done(self.filter as u64),
            5 => done(self.wait_counter as u64),
            6 => done(self.overrun_counter as u64),
            8 => done((self.mux_high as u64) << 32 | self.mux_low as u64),
            11 => done(self.enabled as u64),
            16..=23 => done(self.sources[address as usize - 16] as u64),
            32..=47 => self.read_counter(address as usize - 32),
            0 | 10 | 12 | 96..=127 => reply(WRONG_DIRECTION),
            128.. => reply(ADDRESS_TOO_HIGH),
            _ => reply(NOTHING_THERE),
        }
    }

    /// [CSR] Three pairs of bits; the odd bit of a pair wins.
    fn write_csr(&mut self, data: u64) {
        let bit = |number: u32| data >> number & 1 == 1;
        self.sampling = (self.sampling || bit(0)) && !bit(1);
        self.write_wait = (self.write_wait || bit(2)) && !bit(3);
        self.read_wait = (self.read_wait || bit(4)) && !bit(5);
    }

    /// [CSR] The settings, the two states and the two overrun flags.
    fn read_csr(&self) -> u64 {
        (self.sampling as u64)
            | (self.write_wait as u64) << 2
            | (self.read_wait as u64) << 4
            | (self.queue.is_full() as u64) << 6
            | (self.queue.resource_held as u64) << 7
            | (self.overrun_full as u64) << 8
            | (self.overrun_shadows as u64) << 9
    }

    /// [Triggers and the queue] Writing address 6 clears the counter and
    /// flags 8 and 9, not the lost mark.
    fn clear_overrun(&mut self) {
        self.overrun_counter = 0;
        self.overrun_full = false;
        self.overrun_shadows = false;
    }

    /// [Address map] Address 10.
    fn clear_counters(&mut self, chosen: u16) {
        for (number, counter) in self.counters.iter_mut().enumerate() {
            *counter = if chosen & 1 << number != 0 { 0 } else { *counter };
        }
    }

    /// [Counters] Adds a number of events to each chosen counter, wrapping.
    fn count(&mut self, chosen: u16, events: u32) {
        for (number, counter) in self.counters.iter_mut().enumerate() {
            let added = if chosen & 1 << number != 0 { events } else { 0 };
            *counter = counter.wrapping_add(added);
        }
    }

    /// [Counters], [Wish 2] MUX field 00 is the slow clock: one event on
    /// every tenth, or every hundredth, Timestamp tick since the last reset.
    fn timestamp_ticks(&mut self, ticks: u32) -> Reply {
        self.timestamp = (self.timestamp + ticks as u64) & TIMESTAMP_MASK;
        let phase = self.slow_phase + ticks as u64;
        // A branch for each speed, so that both divisors are constants.
        let (events, phase) = if self.slow_hundredth {
            (phase / HUNDREDTH, phase % HUNDREDTH)
        } else {
            (phase / TENTH, phase % TENTH)
        };
        self.slow_phase = phase;
        let slow = self.enabled & !self.mux_high & !self.mux_low;
        self.count(slow, events as u32);
        done(0)
    }

    /// [Counters] MUX field 11 is the node clock.
    fn node_ticks(&mut self, ticks: u32) -> Reply {
        self.count(self.enabled & self.mux_high & self.mux_low, ticks);
        done(0)
    }

    /// [Counters] MUX field 01 is external: one event for each set bit.
    fn external_events(&mut self, mask: u16) -> Reply {
        self.count(mask & self.enabled & !self.mux_high & self.mux_low, 1);
        done(0)
    }

    /// [Counters] A counter read copies all sixteen to the shadows, or meets
    /// busy shadows.
    fn read_counter(&mut self, number: usize) -> Reply {
        if !self.queue.resource_held {
            self.shadows = self.counters;
            done(self.shadows[number] as u64)
        } else if self.read_wait {
            self.wait()
        } else {
            Reply { number: SHADOWS_BUSY, value: 1 << 63 }
        }
    }

    /// [Reply numbers] Reply 10 adds one to the Wait Counter.
    fn wait(&mut self) -> Reply {
        self.wait_counter = self.wait_counter.wrapping_add(1);
        reply(TRY_AGAIN)
    }

    /// [Triggers and the queue] A write to 96..127, tried in the order 4, 6,
    /// 7, then 8 or 10.
    fn trigger(&mut self, address: u8, data: u64, lines: u8) -> Reply {
        let resource = address >= 112;
        let level = address % 16;
        if !lines.is_power_of_two() {
            return reply(NOT_ONE_LINE);
        }
        if !self.sampling {
            return reply(SAMPLING_OFF);
        }
        if self.filter >> level & 1 == 0 {
            return reply(FILTERED);
        }

        let full = self.queue.is_full();
        let shadows_busy = resource && self.queue.resource_held;
        if full || shadows_busy {
            if self.write_wait {
                return self.wait();
            }
            self.overrun_counter = self.overrun_counter.wrapping_add(1);
            self.overrun_full |= full;
            self.overrun_shadows |= shadows_busy;
            self.lost_mark = true;
            return reply(LOST);
        }

        // [Sample and words] The header, and the active line's Source Address.
        let line = lines.trailing_zeros() as u8;
        let header = line | (resource as u8) << 3 | (self.lost_mark as u8) << 4;
        let source = self.sources[line as usize & 7];
        let sample = self.queue.add();
        sample.put_fields(header, source, self.timestamp, data);
        if resource {
            self.shadows = self.counters;
            sample.put_counters(&self.shadows);
            self.queue.resource_held = true;
        }
        self.lost_mark = false;
        done(0)
    }

    /// [The chip's operations] Send one word.
    fn send(&mut self) -> Reply {
        match self.queue.next_word() {
            Some(word) => done(word as u64),
            None => reply(NO_WORD),
        }
    }
}

// ------------------------------------------------------------------ bench

const RECORD: usize = 12;

/// [Bench program] One record: kind, address, lines, a zero byte, data.
/// A bad record doesn't reach the chip.
fn run_record(chip: &mut Chip, record: &[u8; RECORD]) -> Reply {
    let [kind, address, lines, zero, data @ ..] = *record;
    let data = u64::from_le_bytes(data);
    if zero != 0 {
        return reply(BAD_RECORD);
    }
    match kind {
        // [Wish 2] 0 chooses the tenth, 1 the hundredth.
        0 if data <= 1 => chip.hardware_reset(data == 1),
        1 => chip.write(address, data, lines),
        2 => chip.read(address),
        3 if data <= u32::MAX as u64 => chip.timestamp_ticks(data as u32),
        4 if data <= u32::MAX as u64 => chip.node_ticks(data as u32),
        5 if data <= u16::MAX as u64 => chip.external_events(data as u16),
        6 => chip.send(),
        _ => reply(BAD_RECORD),
    }
}

const BLOCK: usize = 64 * 1024;
/// Room for any line: "11 9223372036854775808\n" has 23 bytes, and no line
/// has more than two digits, a space, twenty digits and a newline.
const LINE: usize = 24;

/// Output lines gathered into large blocks.
struct Lines<W: Write> {
    to: W,
    block: Box<[u8; BLOCK]>,
    used: usize,
}

impl<W: Write> Lines<W> {
    fn new(to: W) -> Lines<W> {
        Lines { to, block: Box::new([0; BLOCK]), used: 0 }
    }

    fn heading(&mut self, text: &[u8]) {
        self.block[..text.len()].copy_from_slice(text);
        self.used = text.len();
    }

    /// [Bench program] Reply, space, value in decimal, newline.
    #[inline(always)]
    fn put(&mut self, reply: Reply) -> io::Result<()> {
        if BLOCK - self.used < LINE {
            self.pass_on()?;
        }
        let line = &mut self.block[self.used..self.used + LINE];
        let mut at = put_decimal(line, 0, reply.number as u64);
        line[at] = b' ';
        at = put_decimal(line, at + 1, reply.value);
        line[at] = b'\n';
        self.used += at + 1;
        Ok(())
    }

    fn pass_on(&mut self) -> io::Result<()> {
        self.to.write_all(&self.block[..self.used])?;
        self.used = 0;
        Ok(())
    }

    fn finish(mut self) -> io::Result<()> {
        self.pass_on()?;
        self.to.flush()
    }
}

/// Writes a number from a place on and gives the place behind it.
#[inline(always)]
fn put_decimal(line: &mut [u8], from: usize, mut number: u64) -> usize {
    let digits = number.checked_ilog10().unwrap_or(0) as usize + 1;
    for place in line[from..from + digits].iter_mut().rev() {
        *place = b'0' + (number % 10) as u8;
        number /= 10;
    }
    from + digits
}

/// One read, tried again when a signal came between. 0 is the end of input.
fn read_some(from: &mut impl Read, into: &mut [u8]) -> io::Result<usize> {
    loop {
        match from.read(into) {
            Err(error) if error.kind() == ErrorKind::Interrupted => continue,
            outcome => return outcome,
        }
    }
}

fn main() -> io::Result<()> {
    let mut input = io::stdin().lock();
    let mut lines = Lines::new(io::stdout().lock());
    lines.heading(b"answer value\n");

    let mut chip = Chip::new();
    let mut block = vec![0u8; BLOCK];
    // Bytes at the front of the block: a record begun in an earlier read.
    let mut begun = 0;
    loop {
        let read = read_some(&mut input, &mut block[begun..])?;
        if read == 0 {
            break;
        }
        let filled = begun + read;
        let records = block[..filled].chunks_exact(RECORD);
        begun = records.remainder().len();
        for record in records {
            let record = record.try_into().expect("chunks have the record's length");
            lines.put(run_record(&mut chip, record))?;
        }
        block.copy_within(filled - begun..filled, 0);
    }
    // [Bench program] A last part of a record gives reply 9.
    if begun > 0 {
        lines.put(reply(BAD_RECORD))?;
    }
    lines.finish()
}
