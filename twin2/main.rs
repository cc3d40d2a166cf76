//! The twin of the second chip: a plain Rust program for the MultiKron II in
//! normal mode, written from its papers alone. Bracketed words in the comments
//! name where a rule comes from: a heading of document 01, a table of document
//! 001 (B1 to B7), a wish of document 02, or, after "II:", a heading of the
//! page on how the MultiKron II is read.
//!
//! Build: rustc --edition 2021 -O -o OUT twin2/main.rs

use std::io::{self, ErrorKind, Read, Write};

// ---------------------------------------------------------------- replies

/// [Reply numbers] A reply number and its 64-bit value.
#[derive(Clone, Copy)]
struct Reply {
    number: u8,
    value: u64,
}

const ADDRESS_TOO_HIGH: u8 = 1;
const NOTHING_THERE: u8 = 2;
const WRONG_DIRECTION: u8 = 3;
const NOT_ONE_LINE: u8 = 4;
const NO_WORD: u8 = 5;
const SAMPLING_OFF: u8 = 6;
const FILTERED: u8 = 7;
const LOST: u8 = 8;
const BAD_RECORD: u8 = 9;
const TRY_AGAIN: u8 = 10;
const SHADOWS_BUSY: u8 = 11;

/// Reply 0 with a value.
fn done(value: u64) -> Reply {
    Reply { number: 0, value }
}

/// Any other reply whose value is 0.
fn reply(number: u8) -> Reply {
    Reply { number, value: 0 }
}

// ------------------------------------------------------------------ words

const END_MARK: u16 = 1 << 9;

/// [Sample and words] Every byte value with its parity bit: bits 0..8
/// together have an odd number of ones.
const WORD_OF_BYTE: [u16; 256] = {
    let mut table = [0u16; 256];
    let mut byte = 0;
    while byte < 256 {
        let parity = (byte as u16).count_ones() % 2 == 0;
        table[byte] = byte as u16 | (parity as u16) << 8;
        byte += 1;
    }
    table
};

// ----------------------------------------------------------------- sample

/// [Wish 9] header 1, Source Address 4, Timestamp 7, user data 8.
const TRACE_BYTES: usize = 20;
/// [Wish 9] The same and sixteen counters of 4 bytes.
const RESOURCE_BYTES: usize = 84;

/// A held sample. All fields are fixed at the trigger, so they are kept as
/// the bytes that will be sent.
#[derive(Clone, Copy)]
struct Sample {
    bytes: [u8; RESOURCE_BYTES],
    length: usize,
}

impl Sample {
    const EMPTY: Sample = Sample { bytes: [0; RESOURCE_BYTES], length: 0 };

    fn is_resource(&self) -> bool {
        self.length == RESOURCE_BYTES
    }

    /// [Sample and words] The fields in sending order, each low byte first.
    /// [Wish 9] "Field order, byte order and header stay as in 01."
    fn put_fields(&mut self, header: u8, source: u32, timestamp: u64, user: u64) {
        self.bytes[0] = header;
        self.bytes[1..5].copy_from_slice(&source.to_le_bytes());
        self.bytes[5..12].copy_from_slice(&timestamp.to_le_bytes()[..7]);
        self.bytes[12..20].copy_from_slice(&user.to_le_bytes());
        self.length = TRACE_BYTES;
    }

    /// [Sample and words] A Resource sample adds counters 0 to 15.
    fn put_counters(&mut self, counters: &[u32; COUNTERS]) {
        let places = self.bytes[TRACE_BYTES..].chunks_exact_mut(4);
        for (place, counter) in places.zip(counters) {
            place.copy_from_slice(&counter.to_le_bytes());
        }
        self.length = RESOURCE_BYTES;
    }
}

// ------------------------------------------------------------------ queue

/// [Wish 9] "Queue depth stays 8."
const PLACES: usize = 8;

/// The held samples, oldest first, in a ring of fixed size.
struct Queue {
    places: [Sample; PLACES],
    first: usize,
    held: usize,
    /// Words of the first sample already sent.
    sent: usize,
    /// A Resource sample is held: the shadows are busy. There is never more
    /// than one.
    resource_held: bool,
}

impl Queue {
    fn new() -> Queue {
        Queue {
            places: [Sample::EMPTY; PLACES],
            first: 0,
            held: 0,
            sent: 0,
            resource_held: false,
        }
    }

    fn is_full(&self) -> bool {
        self.held == PLACES
    }

    /// The place for one more sample. The caller has seen that there is room.
    fn add(&mut self) -> &mut Sample {
        let place = (self.first + self.held) % PLACES;
        self.held += 1;
        &mut self.places[place]
    }

    /// [Sample and words], [Triggers and the queue] The next word. Its
    /// sample is held until the last word, which alone has the end mark.
    fn next_word(&mut self) -> Option<u16> {
        if self.held == 0 {
            return None;
        }
        let sample = &self.places[self.first];
        let mut word = WORD_OF_BYTE[sample.bytes[self.sent] as usize];
        self.sent += 1;
        if self.sent == sample.length {
            word |= END_MARK;
            if sample.is_resource() {
                self.resource_held = false;
            }
            self.first = (self.first + 1) % PLACES;
            self.held -= 1;
            self.sent = 0;
        }
        Some(word)
    }
}

// -------------------------------------------------------- sets of counters

/// A set of counters, laid out as the fields of Enable, Mode and Clock Select
/// are: bit 4i is set if counter i belongs to it. So "register >> n & EVERY"
/// is the set of the counters whose field has bit n.
type Set = u64;

const EVERY: Set = 0x1111_1111_1111_1111;
const EVEN: Set = 0x0101_0101_0101_0101;

/// The set of eight neighbouring counters for each byte with a bit for each.
const SET_OF_BYTE: [u32; 256] = {
    let mut table = [0u32; 256];
    let mut byte = 0;
    while byte < 256 {
        let mut bit = 0;
        while bit < 8 {
            table[byte] |= (byte as u32 >> bit & 1) << (4 * bit);
            bit += 1;
        }
        byte += 1;
    }
    table
};

/// The set for a mask of the external lines: line i is counter i's.
fn set_of_lines(mask: u16) -> Set {
    let [low, high] = mask.to_le_bytes();
    SET_OF_BYTE[low as usize] as Set | (SET_OF_BYTE[high as usize] as Set) << 32
}

/// Writes the fields of a register for which `named` has bit 4i set, all four
/// bits of each, and leaves the others.
fn write_fields(register: &mut u64, data: u64, named: u64) {
    let bits = (named & EVERY) * 15;
    *register = *register & !bits | data & bits;
}

// ------------------------------------------------------------------- chip

const COUNTERS: usize = 16;
/// [Counters] Timestamp wraps at 2^56.
const TIMESTAMP_MASK: u64 = (1 << 56) - 1;
/// [B5], [B6], [B7] The fields marked as default, their x bits 0.
const ALL_DISABLED: u64 = 0x1111_1111_1111_1111;
const ALL_EXTERNAL_SINGLE: u64 = 0x4444_4444_4444_4444;
const ALL_TIMESTAMP_CLOCK: u64 = 0x4444_4444_4444_4444;
/// [B4] The High Order register's address.
const HIGH_ORDER: u8 = 7;

/// [II: Value of a read] A value with ones above the register's width.
fn ones_above(width: u32, value: u64) -> u64 {
    value | u64::MAX << width
}

/// The whole record of the chip.
struct Chip {
    timestamp: u64,
    /// Node ticks since the last reset, modulo 100.
    node_phase: u64,
    sampling: bool,
    write_wait: bool,
    read_wait: bool,
    /// 32-bit mode: the upper half of a write's data is the High Order
    /// register's.
    narrow_bus: bool,
    /// CSR bit 8: a trigger was lost with 8 samples held.
    overrun_full: bool,
    /// CSR bit 9: a Resource trigger was lost with the shadows busy.
    overrun_shadows: bool,
    lost_mark: bool,
    filter: u16,
    wait_counter: u32,
    overrun_counter: u32,
    high_order: u32,
    enable: u64,
    mode: u64,
    clock_select: u64,
    sources: [u32; 8],
    counters: [u32; COUNTERS],
    shadows: [u32; COUNTERS],
    queue: Queue,
}

impl Chip {
    /// [II: Record and operations] A fresh chip: all zero, but for write wait
    /// and the defaults of the three field registers.
    fn new() -> Chip {
        Chip {
            timestamp: 0,
            node_phase: 0,
            sampling: false,
            write_wait: true,
            read_wait: false,
            narrow_bus: false,
            overrun_full: false,
            overrun_shadows: false,
            lost_mark: false,
            filter: 0,
            wait_counter: 0,
            overrun_counter: 0,
            high_order: 0,
            enable: ALL_DISABLED,
            mode: ALL_EXTERNAL_SINGLE,
            clock_select: ALL_TIMESTAMP_CLOCK,
            sources: [0; 8],
            counters: [0; COUNTERS],
            shadows: [0; COUNTERS],
            queue: Queue::new(),
        }
    }

    /// [The chip's operations] Hardware reset: a fresh chip.
    fn hardware_reset(&mut self) -> Reply {
        *self = Chip::new();
        done(0)
    }

    /// [Software reset] As after a hardware reset, except the Timestamp.
    fn software_reset(&mut self) {
        *self = Chip { timestamp: self.timestamp, ..Chip::new() };
    }

    /// [B4], [II: Addresses] Column Write.
    fn write(&mut self, address: u8, data: u64, lines: u8) -> Reply {
        // [II: Data of a write] In 32-bit mode, for every write.
        let data = if self.narrow_bus {
            (self.high_order as u64) << 32 | data & 0xFFFF_FFFF
        } else {
            data
        };
        match address {
            0 => self.software_reset(),
            1 => self.write_csr(data),
            4 => self.filter = data as u16,
            5 => self.wait_counter = 0,
            6 => self.clear_overrun(),
            HIGH_ORDER => self.high_order = data as u32,
            8 => self.write_enable(data),
            // [B5], [B6] Fields x000 change nothing.
            10 => write_fields(&mut self.mode, data, data | data >> 1 | data >> 2),
            12 => write_fields(&mut self.clock_select, data, data | data >> 1 | data >> 2),
            32..=39 => self.sources[address as usize - 32] = data as u32,
            64..=79 => self.counters[address as usize - 64] = data as u32,
            80..=95 => {
                let this_one = 1 << (4 * (address - 80));
                self.count(self.count_software() & this_one, 1);
            }
            96..=127 => return self.trigger(address, data, lines),
            2 => return reply(WRONG_DIRECTION),
            128.. => return reply(ADDRESS_TOO_HIGH),
            _ => return reply(NOTHING_THERE),
        }
        done(0)
    }

    /// [B4], [II: Addresses] Column Read.
    fn read(&mut self, address: u8) -> Reply {
        let answer = match address {
            1 => done(self.read_csr()),
            2 => done(ones_above(56, self.timestamp)),
            4 => done(ones_above(16, self.filter as u64)),
            5 => done(ones_above(32, self.wait_counter as u64)),
            6 => done(ones_above(32, self.overrun_counter as u64)),
            HIGH_ORDER => done(ones_above(32, self.high_order as u64)),
            8 => done(self.enable),
            10 => done(self.mode),
            12 => done(self.clock_select),
            32..=39 => done(ones_above(32, self.sources[address as usize - 32] as u64)),
            64..=79 => self.read_with_copy(address as usize - 64),
            80..=95 => self.read_without_copy(address as usize - 80),
            0 | 96..=127 => reply(WRONG_DIRECTION),
            128.. => reply(ADDRESS_TOO_HIGH),
            _ => reply(NOTHING_THERE),
        };
        // [II: Value of a read] In both modes of the bus, but not at 7 itself.
        if answer.number == 0 && address != HIGH_ORDER {
            self.high_order = (answer.value >> 32) as u32;
        }
        answer
    }

    /// [CSR], [B1] Four pairs of bits; the odd bit of a pair wins.
    fn write_csr(&mut self, data: u64) {
        let bit = |number: u32| data >> number & 1 == 1;
        self.sampling = (self.sampling || bit(0)) && !bit(1);
        self.write_wait = (self.write_wait || bit(2)) && !bit(3);
        self.read_wait = (self.read_wait || bit(4)) && !bit(5);
        self.narrow_bus = (self.narrow_bus || bit(14)) && !bit(15);
    }

    /// [CSR], [B1] The settings, the two states, the two overrun flags and
    /// both bits for the mode of the bus. Bits 10 and 12 read 0.
    fn read_csr(&self) -> u64 {
        (self.sampling as u64)
            | (self.write_wait as u64) << 2
            | (self.read_wait as u64) << 4
            | (self.queue.is_full() as u64) << 6
            | (self.queue.resource_held as u64) << 7
            | (self.overrun_full as u64) << 8
            | (self.overrun_shadows as u64) << 9
            | (self.narrow_bus as u64) << 14
            | (!self.narrow_bus as u64) << 15
    }

    /// [Triggers and the queue] Writing address 6 clears the counter and
    /// flags 8 and 9, not the lost mark.
    fn clear_overrun(&mut self) {
        self.overrun_counter = 0;
        self.overrun_full = false;
        self.overrun_shadows = false;
    }

    /// [B7] Fields xx00 change nothing; xx11 also sets the counter to 0, and
    /// of a pair only the half that it names.
    fn write_enable(&mut self, data: u64) {
        write_fields(&mut self.enable, data, data | data >> 1);
        let mut resets = data & data >> 1 & EVERY;
        while resets != 0 {
            self.counters[resets.trailing_zeros() as usize / 4] = 0;
            resets &= resets - 1;
        }
    }

    // ---- what counts ----

    /// [B5] The even counters that are paired with the odd one above them:
    /// 1xxx in the even one's own field.
    fn pairs(&self) -> Set {
        self.mode >> 3 & EVEN
    }

    /// [B7], [II: Counters] The counters that are enabled and are not the odd
    /// half of a pair.
    fn can_count(&self) -> Set {
        self.enable >> 1 & EVERY & !(self.pairs() << 4)
    }

    /// [B5] Those that count software events: x010, x110.
    fn count_software(&self) -> Set {
        self.can_count() & self.mode >> 1 & !self.mode
    }

    /// [B5] Those that count external events: x100.
    fn count_external(&self) -> Set {
        self.can_count() & self.mode >> 2 & !(self.mode >> 1) & !self.mode
    }

    /// [B5] Those that count their clock while these lines are high: x001 and
    /// x101 whatever the lines, x011 and x111 if their own line is high.
    fn count_clock(&self, high: u16) -> Set {
        self.can_count() & self.mode & (!(self.mode >> 1) | set_of_lines(high))
    }

    /// [II: Counters] Adds a number of events to each counter of the set,
    /// modulo 2^32. The even half of a pair carries into the odd half.
    fn count(&mut self, mut set: Set, events: u32) {
        let pairs = self.pairs();
        while set != 0 {
            let place = set.trailing_zeros();
            set &= set - 1;
            let number = place as usize / 4;
            let (sum, carry) = self.counters[number].overflowing_add(events);
            self.counters[number] = sum;
            if carry && pairs >> place & 1 == 1 {
                let odd_half = &mut self.counters[number + 1];
                *odd_half = odd_half.wrapping_add(1);
            }
        }
    }

    /// [B6] Clock Select x100 is the Timestamp clock.
    fn timestamp_ticks(&mut self, ticks: u32, high: u16) -> Reply {
        self.timestamp = (self.timestamp + ticks as u64) & TIMESTAMP_MASK;
        let select = self.clock_select;
        let timestamp_clock = select >> 2 & !(select >> 1) & !select;
        self.count(self.count_clock(high) & timestamp_clock, ticks);
        done(0)
    }

    /// [B6] Clock Select x001 and x101 are the node clock, x010 and x110 a
    /// tenth of it, x011 and x111 a hundredth. [II: Counters] A tenth falls on
    /// every tenth node tick since the last reset, a hundredth likewise.
    fn node_ticks(&mut self, ticks: u32, high: u16) -> Reply {
        let before = self.node_phase;
        let after = before + ticks as u64;
        self.node_phase = after % 100;
        let clocked = self.count_clock(high);
        let (bit_0, bit_1) = (self.clock_select, self.clock_select >> 1);
        self.count(clocked & bit_0 & !bit_1, ticks);
        self.count(clocked & bit_1 & !bit_0, (after / 10 - before / 10) as u32);
        self.count(clocked & bit_0 & bit_1, (after / 100) as u32);
        done(0)
    }

    /// [The chip's operations] One event for each set bit.
    fn external_events(&mut self, mask: u16) -> Reply {
        self.count(self.count_external() & set_of_lines(mask), 1);
        done(0)
    }

    // ---- reads of counters ----

    /// [Counters] A read with copy copies all sixteen to the shadows, or
    /// meets busy shadows.
    fn read_with_copy(&mut self, number: usize) -> Reply {
        if !self.queue.resource_held {
            self.shadows = self.counters;
            self.read_without_copy(number)
        } else if self.read_wait {
            self.wait()
        } else {
            Reply { number: SHADOWS_BUSY, value: 1 << 63 }
        }
    }

    /// [II: Counters] The shadow, also while the shadows are busy.
    fn read_without_copy(&self, number: usize) -> Reply {
        done(ones_above(32, self.shadows[number] as u64))
    }

    /// [Reply numbers] Reply 10 adds one to the Wait Counter.
    fn wait(&mut self) -> Reply {
        self.wait_counter = self.wait_counter.wrapping_add(1);
        reply(TRY_AGAIN)
    }

    // ---- samples ----

    /// [Triggers and the queue] A write to 96..127, tried in the order 4, 6,
    /// 7, then 8 or 10.
    fn trigger(&mut self, address: u8, data: u64, lines: u8) -> Reply {
        let resource = address >= 112;
        let level = address % 16;
        if !lines.is_power_of_two() {
            return reply(NOT_ONE_LINE);
        }
        if !self.sampling {
            return reply(SAMPLING_OFF);
        }
        if self.filter >> level & 1 == 0 {
            return reply(FILTERED);
        }

        let full = self.queue.is_full();
        let shadows_busy = resource && self.queue.resource_held;
        if full || shadows_busy {
            if self.write_wait {
                return self.wait();
            }
            self.overrun_counter = self.overrun_counter.wrapping_add(1);
            self.overrun_full |= full;
            self.overrun_shadows |= shadows_busy;
            self.lost_mark = true;
            return reply(LOST);
        }

        // [Sample and words] The header, and the active line's Source Address.
        let line = lines.trailing_zeros() as u8;
        let header = line | (resource as u8) << 3 | (self.lost_mark as u8) << 4;
        let source = self.sources[line as usize & 7];
        let sample = self.queue.add();
        sample.put_fields(header, source, self.timestamp, data);
        if resource {
            self.shadows = self.counters;
            sample.put_counters(&self.shadows);
            self.queue.resource_held = true;
        }
        self.lost_mark = false;
        done(0)
    }

    /// [The chip's operations] Send one word.
    fn send(&mut self) -> Reply {
        match self.queue.next_word() {
            Some(word) => done(word as u64),
            None => reply(NO_WORD),
        }
    }

    /// [The chip's operations] Send into a lent buffer: as many words as it
    /// has places or as are left. Gives how many; none left is no refusal.
    fn send_into(&mut self, buffer: &mut [u16]) -> usize {
        let mut sent = 0;
        for place in buffer {
            let Some(word) = self.queue.next_word() else { break };
            *place = word;
            sent += 1;
        }
        sent
    }
}

// ---------------------------------------------------------------- records

const RECORD: usize = 16;
/// The most places that a record may give a buffer send.
const MOST_WORDS: usize = 1000;

/// One record: kind, address, lines, a zero byte, the mask of high lines, two
/// zero bytes, data. A bad record doesn't reach the chip. Gives the reply, and
/// the words of a buffer send.
fn run_record<'a>(
    chip: &mut Chip,
    record: &[u8; RECORD],
    buffer: &'a mut [u16; MOST_WORDS],
) -> (Reply, &'a [u16]) {
    let [kind, address, lines, zero_3, high_0, high_1, zero_6, zero_7, data @ ..] = *record;
    let high = u16::from_le_bytes([high_0, high_1]);
    let data = u64::from_le_bytes(data);
    if zero_3 | zero_6 | zero_7 != 0 {
        return (reply(BAD_RECORD), &[]);
    }
    let answer = match kind {
        0 => chip.hardware_reset(),
        1 => chip.write(address, data, lines),
        2 => chip.read(address),
        3 if data <= u32::MAX as u64 => chip.timestamp_ticks(data as u32, high),
        4 if data <= u32::MAX as u64 => chip.node_ticks(data as u32, high),
        5 if data <= u16::MAX as u64 => chip.external_events(data as u16),
        6 => chip.send(),
        7 if data <= MOST_WORDS as u64 => {
            let sent = chip.send_into(&mut buffer[..data as usize]);
            return (done(sent as u64), &buffer[..sent]);
        }
        _ => reply(BAD_RECORD),
    };
    (answer, &[])
}

const BLOCK: usize = 64 * 1024;
/// Room for any line without words: "0 18446744073709551615\n" has 23 bytes,
/// and no line has more than two digits, a space, twenty digits and a newline.
const LINE: usize = 24;
/// Room for a word on the line: a space and at most four digits.
const WORD: usize = 5;

/// Output lines gathered into large blocks.
struct Lines<W: Write> {
    to: W,
    block: Box<[u8; BLOCK]>,
    used: usize,
}

impl<W: Write> Lines<W> {
    fn new(to: W) -> Lines<W> {
        Lines { to, block: Box::new([0; BLOCK]), used: 0 }
    }

    fn heading(&mut self, text: &[u8]) {
        self.block[..text.len()].copy_from_slice(text);
        self.used = text.len();
    }

    /// Reply, space, value in decimal, a space and a number for each word,
    /// newline.
    #[inline(always)]
    fn put(&mut self, reply: Reply, words: &[u16]) -> io::Result<()> {
        let room = LINE + WORD * words.len();
        if BLOCK - self.used < room {
            self.pass_on()?;
        }
        let line = &mut self.block[self.used..self.used + room];
        let mut at = put_decimal(line, 0, reply.number as u64);
        line[at] = b' ';
        at = put_decimal(line, at + 1, reply.value);
        for word in words {
            line[at] = b' ';
            at = put_decimal(line, at + 1, *word as u64);
        }
        line[at] = b'\n';
        self.used += at + 1;
        Ok(())
    }

    fn pass_on(&mut self) -> io::Result<()> {
        self.to.write_all(&self.block[..self.used])?;
        self.used = 0;
        Ok(())
    }

    fn finish(mut self) -> io::Result<()> {
        self.pass_on()?;
        self.to.flush()
    }
}

/// Writes a number from a place on and gives the place behind it.
#[inline(always)]
fn put_decimal(line: &mut [u8], from: usize, mut number: u64) -> usize {
    let digits = number.checked_ilog10().unwrap_or(0) as usize + 1;
    for place in line[from..from + digits].iter_mut().rev() {
        *place = b'0' + (number % 10) as u8;
        number /= 10;
    }
    from + digits
}

/// One read, tried again when a signal came between. 0 is the end of input.
fn read_some(from: &mut impl Read, into: &mut [u8]) -> io::Result<usize> {
    loop {
        match from.read(into) {
            Err(error) if error.kind() == ErrorKind::Interrupted => continue,
            outcome => return outcome,
        }
    }
}

fn main() -> io::Result<()> {
    let mut input = io::stdin().lock();
    let mut lines = Lines::new(io::stdout().lock());
    lines.heading(b"answer value\n");

    let mut chip = Chip::new();
    let mut buffer = [0; MOST_WORDS];
    let mut block = vec![0u8; BLOCK];
    // Bytes at the front of the block: a record begun in an earlier read.
    let mut begun = 0;
    loop {
        let read = read_some(&mut input, &mut block[begun..])?;
        if read == 0 {
            break;
        }
        let filled = begun + read;
        let records = block[..filled].chunks_exact(RECORD);
        begun = records.remainder().len();
        for record in records {
            let record = record.try_into().expect("chunks have the record's length");
            let (reply, words) = run_record(&mut chip, record, &mut buffer);
            lines.put(reply, words)?;
        }
        block.copy_within(filled - begun..filled, 0);
    }
    // A last part of a record gives reply 9.
    if begun > 0 {
        lines.put(reply(BAD_RECORD), &[])?;
    }
    lines.finish()
}
