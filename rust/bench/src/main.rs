//! Prints nanoseconds an operation, and how many times as long the others take: reading, writing, offer + draw, and reception reports, by
//! the proved library, by plain Rust, by libre's and speexdsp's jitter buffers, and two copies of the frame for scale. Of logs it prints
//! bytes a second, with a copy of the log for scale.
//!
//! Each figure is the least of several samples, taken turn by turn so that all contenders meet the same machine. Build with the
//! profile `measured`: bench.sh does.

use bench::plain;
use reference::{
    step_ticks, DRAW_AREA, HEADER_BYTES, LOG_FRAME, MAX_CHANNELS, MAX_PACKET, MAX_ROWS, ROW_AREA, SLOTS, SLOT_BYTES, STORE_BYTES,
};
use std::hint::black_box;
use std::time::{Duration, Instant};

const SAMPLES: usize = 200;
/// of rounds that are longer than a sample by themselves
const FEW_SAMPLES: usize = 40;
const SAMPLE: Duration = Duration::from_micros(400);
const PLAIN: u8 = 97;
const REDUNDANCY: u8 = 121;
const LENGTH: usize = 160;
/// of AMR at 12.2 kbit/s
const AMR_LENGTH: usize = 31;
/// frames that the rows point to
const FRAMES: usize = 12;

/// Who does the work: one round of it, answering how many operations it made.
struct Contender<'a> {
    name: &'static str,
    round: Box<dyn FnMut() -> usize + 'a>,
}

fn contender<'a>(name: &'static str, round: impl FnMut() -> usize + 'a) -> Contender<'a> {
    Contender { name, round: Box::new(round) }
}

/// Measures the contenders and prints one line of the table, in nanoseconds.
fn measure(title: &str, columns: &[&str], contenders: Vec<Contender>) {
    measure_in(|time| format!("{} ns", shown(time)), SAMPLES, title, columns, contenders);
}

/// Measures the contenders, each operation a byte, and prints one line of the table, in bytes a second.
fn measure_bytes(samples: usize, title: &str, columns: &[&str], contenders: Vec<Contender>) {
    // a byte in a nanosecond
    let rate = |time: f64| 1.0 / time;
    measure_in(|time| format!("{:.2} GB/s", rate(time)), samples, title, columns, contenders);
}

fn measure_in(said: impl Fn(f64) -> String, samples: usize, title: &str, columns: &[&str], mut contenders: Vec<Contender>) {
    let mut least = vec![f64::INFINITY; contenders.len()];
    for sample in 0..=samples {
        for (contender, least) in contenders.iter_mut().zip(&mut least) {
            let start = Instant::now();
            let mut operations = 0;
            while start.elapsed() < SAMPLE {
                operations += (contender.round)();
            }
            let each = start.elapsed().as_nanos() as f64 / operations.max(1) as f64;
            // the first is for warming up
            if sample > 0 {
                *least = least.min(each);
            }
        }
    }
    let base = least[0];
    print!("{title:<44}");
    for column in columns {
        match contenders.iter().position(|contender| contender.name == *column) {
            None => print!("{:>20}", "-"),
            Some(0) => print!("{:>20}", said(least[0])),
            Some(i) => print!("{:>20}", format!("{} ({:.2})", said(least[i]), least[i] / base)),
        }
    }
    println!();
}

/// Nanoseconds in figures: a few of them with a tenth.
fn shown(time: f64) -> String {
    if time < 10.0 {
        format!("{time:.1}")
    } else {
        format!("{time:.0}")
    }
}

fn head(title: &str, columns: &[&str]) {
    print!("\n{title:<44}");
    for column in columns {
        print!("{column:>20}");
    }
    println!();
}

const LIBRARY: &str = "heolstorpit";
const RUST: &str = "plain Rust";
const REFERENCE: &str = "slow reference";

fn settings(format: u8, channels: u8) -> reference::Settings {
    reference::Settings { format, channels, payload_type: PLAIN, redundancy_type: REDUNDANCY }
}

#[cfg(any(feature = "read", feature = "write", feature = "buffer", feature = "log"))]
fn given(s: reference::Settings) -> heolstorpit::Settings {
    let reference::Settings { format, channels, payload_type, redundancy_type } = s;
    heolstorpit::Settings { format: format.into(), channels, payload_type, redundancy_type }
}

/// Rows of `blocks` frame-blocks of `length` bytes, 0 for no data, from a time, in steps; they point into `bytes`.
fn list(s: reference::Settings, time: u32, blocks: usize, length: u32, steps: u32) -> Vec<u32> {
    let ticks = step_ticks(s.format) * steps;
    let class = 256 * length.min(1);
    let row = |block: usize, channel: u32| [time + ticks * block as u32, class + channel, (SLOT_BYTES * (block % FRAMES)) as u32, length];
    (0..blocks).flat_map(|block| (0..s.channels as u32).flat_map(move |channel| row(block, channel))).collect()
}

fn bytes() -> Vec<u8> {
    (0..SLOT_BYTES * FRAMES).map(|i| (i * 7 % 251) as u8).collect()
}

/// Beside the rows of a packet that is written: mode request, sequence number, SSRC.
const MODE_REQUEST: u8 = 7;
const SEQUENCE: u16 = 1;
const SOURCE: u32 = 2;

/// A packet as the reference writes it.
fn packet(s: reference::Settings, counts: &[u32], rows: &[u32]) -> Vec<u8> {
    let mut out = vec![0; MAX_PACKET];
    let length = reference::write_packet(s, MODE_REQUEST, false, SEQUENCE, SOURCE, counts, rows, &bytes(), &mut out);
    let length = length.expect("a packet that can be written");
    out.truncate(length as usize);
    out
}

/// What is read and written: a name, settings, and lists.
fn samples() -> Vec<(&'static str, reference::Settings, Vec<u32>, Vec<u32>)> {
    let (basic, stereo, array, interleaved) = (settings(1, 1), settings(1, 2), settings(1, MAX_CHANNELS), settings(2, 1));
    let (gsm, amr) = (settings(3, 1), settings(4, 1));
    let three = [list(basic, 0, 2, 80, 1), list(basic, 1920, 2, 80, 1), list(basic, 3840, 2, 160, 1)].concat();
    let mixed = [list(basic, 0, 1, 80, 1), list(basic, 960, 1, 90, 1), list(basic, 1920, 1, 100, 1), list(basic, 2880, 1, 80, 1)].concat();
    // five of sound are longer than a packet: 5 x 6 x 80 bytes and more
    let six = [list(array, 0, 4, 80, 1), list(array, 3840, 1, 0, 1)].concat();
    vec![
        ("G.719, 1 frame of 160 bytes", basic, vec![1], list(basic, 0, 1, 160, 1)),
        ("G.719, 12 frames of 160 bytes", basic, vec![12], list(basic, 0, 12, 160, 1)),
        ("G.719, 4 frames in 4 entries", basic, vec![4], mixed),
        ("G.719 stereo, 5 frame-blocks of 2 x 160", stereo, vec![10], list(stereo, 0, 5, 160, 1)),
        ("G.719 six channels, 5 frame-blocks, 4 of 6 x 80", array, vec![30], six),
        ("G.719, 384 rows of no data", basic, vec![MAX_ROWS as u32], list(basic, 0, MAX_ROWS, 0, 1)),
        ("G.719 interleaved, 4 frames of 80 bytes", interleaved, vec![4], list(interleaved, 0, 4, 80, 5)),
        ("G.719 with 2 redundant blocks, 6 frames", basic, vec![2, 2, 2], three),
        ("GSM-HR, 10 frames", gsm, vec![10], list(gsm, 0, 10, 14, 1)),
        ("AMR, 10 frames", amr, vec![10], list(amr, 0, 10, AMR_LENGTH as u32, 1)),
    ]
}

fn reading() {
    let columns = [LIBRARY, RUST, REFERENCE];
    head("Reading, a packet", &columns);
    for (title, s, counts, rows) in samples() {
        let packet = packet(s, &counts, &rows);
        let (mut area, mut area_2) = (vec![0; ROW_AREA], vec![0; ROW_AREA]);
        #[allow(unused_mut)]
        let mut contenders = Vec::new();
        #[cfg(feature = "read")]
        {
            let (packet, mut area) = (&packet, vec![0; ROW_AREA]);
            contenders.push(contender(LIBRARY, move || {
                for _ in 0..64 {
                    heolstorpit::read(given(s), black_box(packet), black_box(&mut area)).unwrap();
                }
                64
            }));
        }
        contenders.push(contender(RUST, || {
            for _ in 0..64 {
                plain::read(s, black_box(&packet), black_box(&mut area)).unwrap();
            }
            64
        }));
        contenders.push(contender(REFERENCE, || {
            for _ in 0..64 {
                reference::read(s, black_box(&packet), black_box(&mut area_2)).unwrap();
            }
            64
        }));
        measure(title, &columns, contenders);
    }
}

fn writing() {
    let columns = [LIBRARY, RUST, REFERENCE];
    head("Writing, a packet", &columns);
    let bytes = bytes();
    for (title, s, counts, rows) in samples() {
        let (mut out, mut out_2) = (vec![0; MAX_PACKET], vec![0; MAX_PACKET]);
        #[allow(unused_mut)]
        let mut contenders = Vec::new();
        #[cfg(feature = "write")]
        {
            let (counts, rows, bytes, mut out) = (&counts, &rows, &bytes, vec![0; MAX_PACKET]);
            let header = heolstorpit::Header { mode_request: MODE_REQUEST, marker: false, sequence: SEQUENCE, source: SOURCE };
            contenders.push(contender(LIBRARY, move || {
                for _ in 0..64 {
                    heolstorpit::write_packet(given(s), header, black_box(counts), black_box(rows), bytes, black_box(&mut out)).unwrap();
                }
                64
            }));
        }
        contenders.push(contender(RUST, || {
            for _ in 0..64 {
                let (counts, rows, out) = (black_box(&counts), black_box(&rows), black_box(&mut out));
                plain::write_packet(s, MODE_REQUEST, false, SEQUENCE, SOURCE, counts, rows, &bytes, out).unwrap();
            }
            64
        }));
        contenders.push(contender(REFERENCE, || {
            for _ in 0..64 {
                let (counts, rows, out) = (black_box(&counts), black_box(&rows), black_box(&mut out_2));
                reference::write_packet(s, MODE_REQUEST, false, SEQUENCE, SOURCE, counts, rows, &bytes, out).unwrap();
            }
            64
        }));
        measure(title, &columns, contenders);
    }
}

/// A reorder buffer as the benchmark uses it: frames come in packets of `per` frames, one after another in time.
trait Reorder {
    /// Packet number `n`, whose first frame has number `n * per`, with its packet bytes.
    fn put(&mut self, n: u32, packet: &mut [u8]);
    /// Is a frame handed out?
    fn get(&mut self) -> bool;
}

/// What comes in packets of `per` frames.
#[derive(Clone, Copy)]
struct Load {
    settings: reference::Settings,
    /// frames of a packet
    per: u32,
    /// bytes of a frame
    length: usize,
    /// where the sound of a packet starts
    sound: usize,
    /// ticks from a frame to the next
    step: u32,
}

impl Load {
    /// G.719, in one table entry.
    fn g719(per: u32) -> Load {
        Load { settings: settings(1, 1), per, length: LENGTH, sound: HEADER_BYTES + 2, step: step_ticks(1) }
    }

    /// AMR: the mode byte, and an entry a frame.
    fn amr(per: u32) -> Load {
        Load { settings: settings(4, 1), per, length: AMR_LENGTH, sound: HEADER_BYTES + 1 + per as usize, step: step_ticks(4) }
    }

    /// The bytes of frame number `i` of a packet.
    fn frame<'a>(&self, packet: &'a [u8], i: u32) -> &'a [u8] {
        let start = self.sound + self.length * i as usize;
        &packet[start..start + self.length]
    }

    /// Sets the timestamp of packet number `n`.
    fn stamp(&self, n: u32, packet: &mut [u8]) {
        packet[4..8].copy_from_slice(&(n * self.per).wrapping_mul(self.step).to_be_bytes());
    }
}

/// packets of one frame each that fill the buffer
const FULL: u32 = SLOTS as u32;

#[cfg(feature = "buffer")]
struct Proved {
    buffer: heolstorpit::Buffer,
    rows: Vec<u32>,
    store: Vec<u8>,
    area: Vec<u8>,
    load: Load,
}

#[cfg(feature = "buffer")]
impl Reorder for Proved {
    fn put(&mut self, n: u32, packet: &mut [u8]) {
        self.load.stamp(n, packet);
        let verdicts = self.buffer.offer(packet, &mut self.rows, &mut self.store).unwrap();
        debug_assert_eq!(verdicts.inserted, self.load.per);
    }

    fn get(&mut self) -> bool {
        self.buffer.draw(&self.store, &mut self.area).unwrap().is_some()
    }
}

struct Plain {
    take: plain::Take,
    rows: Vec<u32>,
    store: Vec<u8>,
    area: Vec<u8>,
    load: Load,
}

impl Reorder for Plain {
    fn put(&mut self, n: u32, packet: &mut [u8]) {
        self.load.stamp(n, packet);
        let verdicts = self.take.offer(packet, &mut self.rows, &mut self.store).unwrap();
        debug_assert_eq!(verdicts.inserted, self.load.per);
    }

    fn get(&mut self) -> bool {
        self.take.draw(&self.store, &mut self.area).unwrap() != reference::Drawn::Empty
    }
}

/// Two copies of the frame: into a slot of a store, and out of it.
struct Copies {
    store: Vec<u8>,
    area: Vec<u8>,
    load: Load,
    drawn: u32,
}

impl Reorder for Copies {
    fn put(&mut self, n: u32, packet: &mut [u8]) {
        for i in 0..self.load.per {
            let slot = SLOT_BYTES * ((n * self.load.per + i) % FULL) as usize;
            black_box(&mut self.store)[slot..slot + self.load.length].copy_from_slice(self.load.frame(packet, i));
        }
    }

    fn get(&mut self) -> bool {
        let slot = SLOT_BYTES * (self.drawn % FULL) as usize;
        self.drawn = self.drawn.wrapping_add(1);
        black_box(&mut self.area)[..self.load.length].copy_from_slice(&self.store[slot..slot + self.load.length]);
        true
    }
}

/// ticks of a frame in peers.c, whatever the load
#[cfg(any(feature = "libre", feature = "speexdsp"))]
const PEER_STEP: u32 = reference::G719_STEP;

#[cfg(any(feature = "libre", feature = "speexdsp"))]
struct InC {
    peer: bench::peers::Peer,
    area: [u8; DRAW_AREA],
    load: Load,
}

#[cfg(any(feature = "libre", feature = "speexdsp"))]
impl Reorder for InC {
    fn put(&mut self, n: u32, packet: &mut [u8]) {
        for i in 0..self.load.per {
            let number = n * self.load.per + i;
            self.peer.put(number as u16, number.wrapping_mul(PEER_STEP), self.load.frame(packet, i));
        }
    }

    fn get(&mut self) -> bool {
        self.peer.get(&mut self.area)
    }
}

/// In which order packets are put and frames are got.
#[derive(Clone, Copy)]
enum Way {
    /// one in, one out, with so many held: the packets of each eight in a mixed order
    Singly { held: u32 },
    /// so many in, in a mixed order, and all of them out
    Bursts { packets: u32 },
    /// so many in, the last first, and all of them out
    Reversed { packets: u32 },
    /// so many in, each `stride` numbers after the one before, round and round, and all of them out; 1: in order
    Strided { packets: u32, stride: u32 },
}

/// The packets of each eight in a mixed order.
const MIXED: [u32; 8] = [3, 0, 5, 1, 7, 2, 6, 4];

/// One round: as many packets as fill the buffer, or so; `next` is the number of the next packet. Answers how many frames came out.
fn round(way: Way, per: u32, next: &mut u32, packet: &mut [u8], peer: &mut dyn Reorder) -> usize {
    let mut out = 0;
    match way {
        Way::Singly { held } => {
            if *next == 0 {
                for n in 0..held {
                    peer.put(n, packet);
                }
                *next = held;
            }
            for _ in 0..FULL as usize / MIXED.len() {
                for place in MIXED {
                    peer.put(*next + place, packet);
                    for _ in 0..per {
                        out += peer.get() as usize;
                    }
                }
                *next += 8;
            }
        }
        Way::Bursts { packets } => {
            for _ in 0..(FULL / packets).max(1) {
                for i in 0..packets {
                    let place = if packets % 8 == 0 { i / 8 * 8 + MIXED[i as usize % 8] } else { i };
                    peer.put(*next + place, packet);
                }
                for _ in 0..packets * per {
                    out += peer.get() as usize;
                }
                *next += packets;
            }
        }
        Way::Reversed { packets } => {
            for i in (0..packets).rev() {
                peer.put(*next + i, packet);
            }
            for _ in 0..packets * per {
                out += peer.get() as usize;
            }
            *next += packets;
        }
        Way::Strided { packets, stride } => {
            for i in 0..packets {
                peer.put(*next + i * stride % packets, packet);
            }
            for _ in 0..packets * per {
                out += peer.get() as usize;
            }
            *next += packets;
        }
    }
    out
}

fn gathering() {
    let mut columns = vec![LIBRARY, RUST];
    if cfg!(feature = "libre") {
        columns.push("libre jbuf");
    }
    if cfg!(feature = "speexdsp") {
        columns.push("speexdsp");
    }
    columns.push("two memcpys");
    head("Offer and draw, a frame of 160 bytes", &columns);
    let lost = gathered(
        &columns,
        &[
            ("singly, 8 held", Way::Singly { held: 8 }, Load::g719(1)),
            ("singly, 64 held", Way::Singly { held: 64 }, Load::g719(1)),
            ("singly, 176 held", Way::Singly { held: 176 }, Load::g719(1)),
            ("bursts of 8 packets", Way::Bursts { packets: 8 }, Load::g719(1)),
            ("bursts of 192 packets", Way::Bursts { packets: FULL }, Load::g719(1)),
            ("bursts of 1 packet of 12 frames", Way::Bursts { packets: 1 }, Load::g719(12)),
            ("bursts of 16 packets of 12 frames", Way::Bursts { packets: 16 }, Load::g719(12)),
            ("192 packets, the last first", Way::Reversed { packets: FULL }, Load::g719(1)),
            ("192 packets in order", Way::Strided { packets: FULL, stride: 1 }, Load::g719(1)),
            ("192 packets, shuffled", Way::Strided { packets: FULL, stride: 77 }, Load::g719(1)),
        ],
    );
    println!("{}", lost.join("\n"));
    head("Offer and draw, an AMR frame of 31 bytes", &columns);
    let lost = gathered(
        &columns,
        &[
            ("AMR, singly, 8 held", Way::Singly { held: 8 }, Load::amr(1)),
            ("AMR, singly, 64 held", Way::Singly { held: 64 }, Load::amr(1)),
            ("AMR, bursts of 8 packets", Way::Bursts { packets: 8 }, Load::amr(1)),
            ("AMR, bursts of 16 packets of 12 frames", Way::Bursts { packets: 16 }, Load::amr(12)),
        ],
    );
    println!("{}", lost.join("\n"));
}

/// One line of the table for each way and load; answers who handed out fewer frames than came in.
fn gathered(columns: &[&str], ways: &[(&'static str, Way, Load)]) -> Vec<String> {
    let mut lost = Vec::new();
    for &(title, way, load) in ways {
        let (s, per) = (load.settings, load.per);
        let packet = packet(s, &[per], &list(s, 0, per as usize, load.length as u32, 1));
        let mut peers: Vec<(&'static str, Box<dyn Reorder>)> = Vec::new();
        #[cfg(feature = "buffer")]
        peers.push((
            LIBRARY,
            Box::new(Proved {
                buffer: heolstorpit::Buffer::new(given(s)).unwrap(),
                rows: vec![0; ROW_AREA],
                store: vec![0; STORE_BYTES],
                area: vec![0; DRAW_AREA],
                load,
            }),
        ));
        peers.push((
            RUST,
            Box::new(Plain {
                take: plain::Take::new(s).unwrap(),
                rows: vec![0; ROW_AREA],
                store: vec![0; STORE_BYTES],
                area: vec![0; DRAW_AREA],
                load,
            }),
        ));
        #[cfg(feature = "libre")]
        peers.push(("libre jbuf", Box::new(InC { peer: bench::peers::Peer::new(bench::peers::LIBRE), area: [0; DRAW_AREA], load })));
        #[cfg(feature = "speexdsp")]
        peers.push(("speexdsp", Box::new(InC { peer: bench::peers::Peer::new(bench::peers::SPEEXDSP), area: [0; DRAW_AREA], load })));
        peers.push(("two memcpys", Box::new(Copies { store: vec![0; STORE_BYTES], area: vec![0; DRAW_AREA], load, drawn: 0 })));

        let frames = match way {
            Way::Singly { .. } => FULL,
            Way::Bursts { packets } => (FULL / packets).max(1) * packets,
            Way::Reversed { packets } | Way::Strided { packets, .. } => packets,
        } * per;
        let counts: Vec<(&'static str, std::rc::Rc<std::cell::Cell<(u64, u64)>>)> =
            peers.iter().map(|(name, _)| (*name, Default::default())).collect();
        let contenders = peers
            .into_iter()
            .zip(&counts)
            .map(|((name, mut peer), (_, count))| {
                let (mut next, mut packet, count) = (0, packet.clone(), count.clone());
                contender(name, move || {
                    let out = round(way, per, &mut next, &mut packet, peer.as_mut());
                    let (all, got) = count.get();
                    count.set((all + frames as u64, got + out as u64));
                    frames as usize
                })
            })
            .collect();
        measure(title, columns, contenders);
        for (name, count) in counts {
            let (all, got) = count.get();
            if got != all {
                lost.push(format!("{title}: {name} handed out {:.1} % of the frames", 100.0 * got as f64 / all as f64));
            }
        }
    }
    lost
}

/// What a receiver does for its reports.
trait Receive {
    fn packet(&mut self, sequence: u16, timestamp: u32, arrival: u32) -> bool;
    /// The fraction lost.
    fn report(&mut self) -> u32;
}

#[cfg(feature = "reception")]
impl Receive for heolstorpit::Reception {
    fn packet(&mut self, sequence: u16, timestamp: u32, arrival: u32) -> bool {
        self.packet(sequence, timestamp, arrival).unwrap()
    }

    fn report(&mut self) -> u32 {
        self.report().unwrap().fraction_lost as u32
    }
}

impl Receive for plain::Reception {
    fn packet(&mut self, sequence: u16, timestamp: u32, arrival: u32) -> bool {
        self.packet(sequence, timestamp, arrival)
    }

    fn report(&mut self) -> u32 {
        self.report().fraction_lost
    }
}

impl Receive for reference::Reception {
    fn packet(&mut self, sequence: u16, timestamp: u32, arrival: u32) -> bool {
        let (after, valid) = reference::reception_packet(self, sequence, timestamp, arrival);
        *self = after;
        valid.unwrap()
    }

    fn report(&mut self) -> u32 {
        let (after, report) = reference::reception_report(self);
        *self = after;
        report.unwrap().fraction_lost
    }
}

/// Rounds of 64 times so many packets, each eighth of the stream lost, and so many reports.
fn receiver<'a>(name: &'static str, packets: usize, reports: usize, mut peer: impl Receive + 'a) -> Contender<'a> {
    let mut sequence = 0u16;
    let mut next = move |peer: &mut dyn Receive| {
        sequence = sequence.wrapping_add(if sequence % 8 == 6 { 2 } else { 1 });
        let time = reference::G719_STEP.wrapping_mul(sequence as u32);
        peer.packet(black_box(sequence), black_box(time), black_box(time ^ u32::from(sequence % 64)))
    };
    // past the probation
    for _ in 0..4 {
        next(&mut peer);
    }
    contender(name, move || {
        for _ in 0..64 {
            for _ in 0..packets {
                assert!(next(&mut peer));
            }
            for _ in 0..reports {
                black_box(peer.report());
            }
        }
        64
    })
}

fn receiving() {
    let columns = [LIBRARY, RUST, REFERENCE];
    head("Reception reports", &columns);
    for (title, packets, reports) in [("one packet", 1, 0), ("one report", 0, 1), ("one packet and one report", 1, 1)] {
        #[allow(unused_mut)]
        let mut contenders = Vec::new();
        #[cfg(feature = "reception")]
        contenders.push(receiver(LIBRARY, packets, reports, heolstorpit::Reception::new()));
        contenders.push(receiver(RUST, packets, reports, plain::Reception::default()));
        contenders.push(receiver(REFERENCE, packets, reports, reference::Reception::default()));
        measure(title, &columns, contenders);
    }
}

/// A log of about so many bytes: settings, rows, the bytes that they point into, and the log.
struct Logged {
    settings: reference::Settings,
    rows: Vec<u32>,
    bytes: Vec<u8>,
    log: Vec<u8>,
}

impl Logged {
    /// Frames of one length, each with bytes of its own.
    fn new(settings: reference::Settings, length: usize, bytes: usize) -> Logged {
        let frames = bytes / (LOG_FRAME + length);
        let row = |i: usize| [(i as u32).wrapping_mul(step_ticks(settings.format)), 256, (length * i) as u32, length as u32];
        let rows: Vec<u32> = (0..frames).flat_map(row).collect();
        let bytes: Vec<u8> = (0..length * frames).map(|i| (i * 7 % 251) as u8).collect();
        let mut log = vec![0; reference::LOG_FIRST + frames * (LOG_FRAME + length) + reference::LOG_LAST];
        let written = reference::log_write(settings, &rows, &bytes, &mut log);
        assert_eq!(written, Ok(log.len() as u64));
        Logged { settings, rows, bytes, log }
    }
}

const COPY: &str = "memcpy";

/// Logs by title, with the number of samples.
fn logs() -> Vec<(&'static str, usize, Logged)> {
    let (g719, amr) = (settings(1, 1), settings(4, 1));
    let (small, large) = (64 << 10, 16 << 20);
    vec![
        ("64 KiB of G.719 frames of 160 bytes", SAMPLES, Logged::new(g719, LENGTH, small)),
        ("64 KiB of AMR frames of 31 bytes", SAMPLES, Logged::new(amr, AMR_LENGTH, small)),
        ("16 MiB of G.719 frames of 160 bytes", FEW_SAMPLES, Logged::new(g719, LENGTH, large)),
        ("16 MiB of AMR frames of 31 bytes", FEW_SAMPLES, Logged::new(amr, AMR_LENGTH, large)),
    ]
}

/// Copies the log.
fn copier<'a>(logged: &'a Logged) -> Contender<'a> {
    let mut out = vec![0; logged.log.len()];
    contender(COPY, move || {
        black_box(&mut out).copy_from_slice(black_box(&logged.log));
        out.len()
    })
}

fn logging() {
    let columns = [LIBRARY, RUST, COPY];
    let logs = logs();
    head("Reading a log by steps", &columns);
    for (title, samples, logged) in &logs {
        #[allow(unused_mut)]
        let mut contenders = Vec::new();
        #[cfg(feature = "log")]
        contenders.push(contender(LIBRARY, move || {
            let mut reader = heolstorpit::LogReader::open(black_box(&logged.log)).unwrap();
            while let Some(frame) = reader.step().unwrap() {
                black_box(frame);
            }
            logged.log.len()
        }));
        contenders.push(contender(RUST, move || {
            let mut reader = plain::Log::open(black_box(&logged.log)).unwrap();
            while let Some(frame) = reader.step().unwrap() {
                black_box(frame);
            }
            logged.log.len()
        }));
        contenders.push(copier(logged));
        measure_bytes(*samples, title, &columns, contenders);
    }
    head("Writing a log", &columns);
    for (title, samples, logged) in &logs {
        let Logged { settings: s, rows, bytes, log } = logged;
        let mut out = vec![0; log.len()];
        #[allow(unused_mut)]
        let mut contenders = Vec::new();
        #[cfg(feature = "log")]
        {
            let mut out = vec![0; log.len()];
            contenders
                .push(contender(LIBRARY, move || heolstorpit::write_log(given(*s), black_box(rows), bytes, black_box(&mut out)).unwrap()));
        }
        contenders.push(contender(RUST, move || plain::write_log(*s, black_box(rows), bytes, black_box(&mut out)).unwrap()));
        contenders.push(copier(logged));
        measure_bytes(*samples, title, &columns, contenders);
    }
}

fn main() {
    println!("Nanoseconds an operation, or bytes a second of a log, the best of {SAMPLES} samples (of {FEW_SAMPLES} with 16 MiB); in");
    println!("brackets: times as long as {LIBRARY}.");
    if !cfg!(feature = "libre") {
        println!("libre-dev is not installed: its jbuf is left out.");
    }
    if !cfg!(feature = "speexdsp") {
        println!("libspeexdsp-dev is not installed: its jitter buffer is left out.");
    }
    for (group, on) in [
        ("read", cfg!(feature = "read")),
        ("write", cfg!(feature = "write")),
        ("buffer", cfg!(feature = "buffer")),
        ("reception", cfg!(feature = "reception")),
        ("log", cfg!(feature = "log")),
    ] {
        if !on {
            println!("Built without the library's functions of the group `{group}`: the first column there is plain Rust.");
        }
    }
    // words: only these parts
    let words: Vec<String> = std::env::args().skip(1).collect();
    let parts =
        [("reading", reading as fn()), ("writing", writing), ("gathering", gathering), ("receiving", receiving), ("logging", logging)];
    for (word, part) in parts {
        if words.is_empty() || words.iter().any(|w| w == word) {
            part();
        }
    }
}
