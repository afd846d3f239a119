//! Makes feedback messages from a seed: every kind of chunk and mixtures of them, each boundary, messages as receivers send them, damaged and random ones.
use crate::make::Random;

/// A message, and where its deltas start and end: after them may be more bytes.
pub struct Made {
    pub bytes: Vec<u8>,
    pub deltas: usize,
    pub end: usize,
}

pub fn header(base: u16, count: u16, reference: i32, feedback: u8) -> Vec<u8> {
    let [_, a, b, c] = reference.to_be_bytes();
    [&base.to_be_bytes()[..], &count.to_be_bytes(), &[a, b, c, feedback]].concat()
}

/// A message as a receiver writes it: at each place the chunk that covers most statuses, if equal a run, then the one-bit kind; no more deltas than statuses received.
/// A status is the ticks from the reference, or none where not received.
pub fn written(base: u16, reference: i32, feedback: u8, statuses: &[Option<i32>]) -> Vec<u8> {
    let (mut last, mut symbols, mut deltas) = (0, vec![], vec![]);
    for status in statuses {
        let Some(ticks) = status else {
            symbols.push(0u16);
            continue;
        };
        let step = ticks - last;
        if (0..256).contains(&step) {
            symbols.push(1);
            deltas.push(step as u8);
        } else {
            symbols.push(2);
            deltas.extend((step as i16).to_be_bytes());
        }
        last = *ticks;
    }
    let mut message = header(base, statuses.len() as u16, reference, feedback);
    let mut rest = &symbols[..];
    while !rest.is_empty() {
        let run = rest.iter().take_while(|s| **s == rest[0]).count().min(8191);
        let (single, double) = (rest.len().min(14), rest.len().min(7));
        let single = if rest[..single].contains(&2) { 0 } else { single };
        let packed = |n: usize, width: usize| (0..n).map(|i| rest[i] << (14 - width * (i + 1))).sum::<u16>();
        let (chunk, n) = if run >= single.max(double) {
            (rest[0] << 13 | run as u16, run)
        } else if single >= double {
            (0x8000 | packed(single, 1), single)
        } else {
            (0xc000 | packed(double, 2), double)
        };
        message.extend(chunk.to_be_bytes());
        rest = &rest[n..];
    }
    message.extend(deltas);
    message
}

/// What a receiver has of so many packets: bursts of one to eight that arrive within some ticks, a pause between them; of each thousand so many are lost and so many come 256 ticks
/// or more after the packet before, or before it.
pub fn received(r: &mut Random, n: usize, lost: u64, large: u64) -> Vec<Option<i32>> {
    let (mut ticks, mut burst) = (r.below(256) as i32, 0);
    let mut statuses = vec![];
    for i in 0..n {
        if r.below(1000) < lost {
            statuses.push(None);
            continue;
        }
        if i > 0 {
            ticks += match burst {
                _ if r.below(1000) < large => r.pick(&[-40, -3, 256, 300, 1000]),
                0 => 20 + r.below(60) as i32,
                _ => r.below(4) as i32,
            };
        }
        burst = if burst == 0 { r.below(8) } else { burst - 1 };
        statuses.push(Some(ticks));
    }
    statuses
}

fn count(r: &mut Random) -> usize {
    match r.below(2000) {
        0 => r.pick(&[65_535, 65_534, 65_528, 65_521, 40_000]),
        1 => 1 + r.below(65_535) as usize,
        2..10 => 1 + r.below(9000) as usize,
        10..14 => 8189 + r.below(6) as usize,
        14..90 => 1 + r.below(1000) as usize,
        90..500 => 1 + r.pick(&[0, 1, 5, 6, 7, 12, 13, 14, 15, 20, 27, 28]),
        500..1300 => 1 + r.below(12) as usize,
        _ => 1 + r.below(60) as usize,
    }
}

fn base(r: &mut Random, count: usize) -> u16 {
    match r.below(4) {
        0 => r.pick(&[0, 1, 65_534, 65_535]),
        1 => 0u16.wrapping_sub(r.near(count as u64) as u16),
        _ => r.next() as u16,
    }
}

fn reference(r: &mut Random) -> i32 {
    match r.below(8) {
        0 => r.pick(&[0, 1, -1, 0x7f_ffff, 0x7f_fffe, -0x80_0000, -0x7f_ffff]),
        1 => -(r.sized(23) as i32),
        _ => r.sized(23) as i32,
    }
}

/// How the symbols and deltas of a message are drawn.
struct Style {
    /// Of 16 symbols so many are not received, and of those received so many large.
    lost: u64,
    large: u64,
    /// Of 1,000 counted symbols so many are 3.
    reserved: u64,
    /// One chunk in so many is an empty run; 0 for none.
    empty: u64,
    /// Of 16 chunks so many are runs, and of the others so many one-bit where no symbol is large.
    runs: u64,
    single: u64,
    small_deltas: u64,
    large_deltas: u64,
    spare: u64,
}

impl Style {
    fn new(r: &mut Random) -> Self {
        Style {
            lost: r.pick(&[0, 0, 1, 2, 8, 15, 16]),
            large: r.pick(&[0, 0, 0, 1, 4, 12, 16]),
            reserved: if r.one_in(6) { r.pick(&[5, 50, 300, 1000]) } else { 0 },
            empty: if r.one_in(6) { r.pick(&[1, 2, 4, 10]) } else { 0 },
            runs: r.pick(&[0, 2, 8, 16]),
            single: r.pick(&[0, 8, 16]),
            small_deltas: r.below(5),
            large_deltas: r.below(8),
            spare: r.below(7),
        }
    }

    fn symbol(&self, r: &mut Random) -> u16 {
        if self.reserved > 0 && r.below(1000) < self.reserved {
            3
        } else if r.below(16) < self.lost {
            0
        } else {
            1 + (r.below(16) < self.large) as u16
        }
    }

    /// A spare symbol of so many bits.
    fn spare(&self, r: &mut Random, bits: u16) -> u16 {
        let any = match self.spare {
            0 => 3,
            1 => self.symbol(r),
            2 => r.below(4) as u16,
            _ => 0,
        };
        any & ((1 << bits) - 1)
    }

    fn small(&self, r: &mut Random) -> u8 {
        match self.small_deltas {
            0 => r.pick(&[0, 1, 127, 128, 254, 255]),
            1 => 255,
            2 => r.below(10) as u8,
            _ => r.next() as u8,
        }
    }

    fn large(&self, r: &mut Random) -> i16 {
        match self.large_deltas {
            0 => r.pick(&[0, 1, 255, 256, 257, -1, -2, -255, -256, 32_767, -32_768, -32_767]),
            1 => 32_767,
            2 => -32_768,
            3 => r.below(512) as i16 - 256,
            4 => r.sized(15) as i16,
            _ => r.next() as i16,
        }
    }
}

/// The next chunk, where so many statuses are left; never one of length 0.
fn chunk(r: &mut Random, style: &Style, left: usize) -> u16 {
    if r.below(16) < style.runs {
        let n = match r.below(8) {
            0 => left,
            1 => left + 1,
            2 => left + r.sized(13) as usize,
            3 => r.pick(&[8190, 8191, 1, 2]),
            4 if left > 100 => 1 + r.below(left as u64) as usize,
            _ => 1 + r.below(left.min(40) as u64) as usize,
        };
        return style.symbol(r) << 13 | n.clamp(1, 8191) as u16;
    }
    let single = r.below(16) < style.single;
    let (width, places) = if single { (1, 14) } else { (2, 7) };
    let mut x = 0x8000 | (!single as u16) << 14;
    for i in 0..places {
        let symbol = if i < left { if single { style.symbol(r).min(1) } else { style.symbol(r) } } else { style.spare(r, width) };
        x |= symbol << (14 - width * (i as u16 + 1));
    }
    x
}

/// A whole message; the symbol 3 may be among the counted ones.
fn good(r: &mut Random, count: usize) -> Made {
    let style = Style::new(r);
    let mut bytes = header(base(r, count), count as u16, reference(r), r.next() as u8);
    let (mut left, mut deltas) = (count, vec![]);
    while left > 0 {
        if style.empty > 0 && r.one_in(style.empty + 1) {
            let many = if r.one_in(30) { r.below(300) } else { 1 + r.below(3) };
            for _ in 0..many {
                bytes.extend((r.pick(&[0u16, 0, 1, 2, 3]) << 13).to_be_bytes());
            }
        }
        let x = chunk(r, &style, left);
        bytes.extend(x.to_be_bytes());
        let (run, double) = (x < 0x8000, x >= 0xc000);
        let places = if run { x as usize & 0x1fff } else if double { 7 } else { 14 };
        for i in 0..places.min(left) {
            let symbol = if run { x >> 13 } else if double { x >> (12 - 2 * i) & 3 } else { x >> (13 - i) & 1 };
            match symbol {
                1 => deltas.push(style.small(r)),
                2 => deltas.extend(style.large(r).to_be_bytes()),
                _ => {}
            }
        }
        left -= places.min(left);
    }
    let start = bytes.len();
    bytes.extend(deltas);
    let end = bytes.len();
    if r.one_in(3) {
        let more = if r.one_in(4) { r.below(200) } else { 1 + r.below(8) };
        let zeros = r.one_in(2);
        bytes.extend((0..more).map(|_| if zeros { 0 } else { r.next() as u8 }));
    }
    Made { bytes, deltas: start, end }
}

/// A place in a message, from one up to and without another, the first and the last ones often.
fn place(r: &mut Random, from: usize, to: usize) -> usize {
    match r.below(4) {
        _ if to <= from => from,
        0 => from + r.below(2.min((to - from) as u64)) as usize,
        1 => to - 1 - r.below(2.min((to - from) as u64)) as usize,
        _ => from + r.below((to - from) as u64) as usize,
    }
}

fn set_count(bytes: &mut [u8], to: impl Fn(u16) -> u16) {
    if bytes.len() >= 4 {
        let count = to(u16::from_be_bytes([bytes[2], bytes[3]]));
        bytes[2..4].copy_from_slice(&count.to_be_bytes());
    }
}

/// One thing that is wrong, or may be.
fn damage(r: &mut Random, made: &mut Made) {
    let cut = match r.below(12) {
        0 => r.below(9) as usize,
        1 | 2 => place(r, 8, made.deltas),
        3 | 4 => place(r, made.deltas, made.end),
        5 => made.end.saturating_sub(1),
        6 => {
            set_count(&mut made.bytes, |n| n.wrapping_add(1));
            return;
        }
        7 => {
            set_count(&mut made.bytes, |n| n.wrapping_sub(1));
            return;
        }
        8 if made.bytes.len() > 8 => {
            // a byte too many or too few among the chunks or deltas
            let at = place(r, 8, made.bytes.len());
            if r.one_in(2) {
                made.bytes.insert(at, r.next() as u8);
            } else {
                made.bytes.remove(at);
            }
            return;
        }
        _ => {
            let from = if r.one_in(2) { made.deltas.min(made.bytes.len()) } else { made.bytes.len() };
            if from > 0 {
                let at = r.below(from as u64) as usize;
                made.bytes[at] ^= 1 << r.below(8);
            }
            return;
        }
    };
    made.bytes.truncate(cut);
}

/// Any bytes, most often behind a header with a small count.
fn random(r: &mut Random) -> Vec<u8> {
    let length = if r.one_in(4) { r.below(9) } else { r.below(100) };
    let mut bytes: Vec<u8> = (0..length).map(|_| r.next() as u8).collect();
    if !r.one_in(4) {
        let few = if r.one_in(8) { 0 } else { r.below(40) as u16 };
        set_count(&mut bytes, |_| few);
    }
    bytes
}

pub fn message(r: &mut Random) -> Vec<u8> {
    let n = count(r);
    match r.below(40) {
        0..17 => {
            let mut made = good(r, n);
            for _ in 0..1 + r.below(5) / 3 {
                damage(r, &mut made);
            }
            made.bytes
        }
        17..20 => random(r),
        20..22 => {
            let mut bytes = good(r, n).bytes;
            set_count(&mut bytes, |_| 0);
            bytes
        }
        22..26 => {
            let (lost, large) = (r.pick(&[0, 20, 50, 300, 900]), r.pick(&[0, 0, 10, 100]));
            let statuses = received(r, n, lost, large);
            written(base(r, n), reference(r), r.next() as u8, &statuses)
        }
        _ => good(r, n).bytes,
    }
}
