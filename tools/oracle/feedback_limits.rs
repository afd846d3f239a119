//! Feedback messages at each limit of order 2 of document 02 and beside it: a fixed list. Each has the number that is expected written beside it, by the document's words.
use crate::feedback::{hex, read, rust_checked, silence, write_case, Answer, Parts};
use crate::feedback_make::header;
use std::io::{BufWriter, StdoutLock};

struct Cases(BufWriter<StdoutLock<'static>>);

impl Cases {
    /// A message whose answer has this number.
    fn is(&mut self, number: u32, message: &[u8]) {
        let answer = read(message, Parts::default());
        let said = if let Answer::Refused(n) = answer { n } else { 0 };
        if said != number {
            eprintln!("{number} was expected, not {said}, of {}", hex(message));
            std::process::exit(1);
        }
        rust_checked(message);
        write_case(&mut self.0, message, &answer);
    }
}

/// Behind a header: chunks, then bytes.
fn behind(mut header: Vec<u8>, chunks: &[u16], deltas: &[u8]) -> Vec<u8> {
    header.extend(chunks.iter().flat_map(|x| x.to_be_bytes()));
    header.extend(deltas);
    header
}

fn of(count: u16, chunks: &[u16], deltas: &[u8]) -> Vec<u8> {
    behind(header(300, count, 1000, 7), chunks, deltas)
}

/// So many unlike bytes.
fn bytes(n: usize) -> Vec<u8> {
    (0..n).map(|i| (1 + 7 * i) as u8).collect()
}

pub fn feedback() {
    silence();
    let mut c = Cases(BufWriter::new(std::io::stdout().lock()));
    headers(&mut c);
    runs(&mut c);
    one_bit(&mut c);
    two_bit(&mut c);
    chunk_words(&mut c);
    deltas(&mut c);
    cuts(&mut c);
    order_of_questions(&mut c);
    not_read(&mut c);
    most(&mut c);
    for (number, (_, message)) in [16, 0, 15, 15, 0, 0, 0, 14, 0, 0, 0, 0, 0].into_iter().zip(TABLE) {
        c.is(number, &unhex(message));
    }
}

/// Where the Rust says something else than document 02 does: what it does, and a message.
pub const TABLE: [(&str, &str); 13] = [
    ("a count of 0 is a message without packets", "0000 0000 000000 00"),
    ("the reference is unsigned", "0000 0001 ffffff 00 2001 05"),
    ("the symbol 3 is 'not received', in a run", "0000 0001 000000 00 6001"),
    ("and in a two-bit chunk", "0000 0001 000000 00 f000"),
    ("deltas are wanted past the count, of a run", "0000 0001 000000 00 2002 05"),
    ("and of spare symbols", "0000 0001 000000 00 b000 05"),
    ("after a run of n large deltas the next is looked for n bytes on, not 2n", "0000 0002 000000 00 4001 2001 0506 07"),
    ("so a cut message passes", "0000 0002 000000 00 4001 2001 0506"),
    ("a run of length 0 goes on to the last packet", "0000 0001 000000 00 0000 2001 05"),
    ("it takes the deltas of others", "0000 0002 000000 00 2000 0001 2001 05"),
    ("and where none is left the packets end", "0000 0003 000000 00 2000 2001 0002 05"),
    ("of the other size it panics: whoever sends this stops the program", "0000 0001 000000 00 4000 2001 05"),
    ("the same the other way round", "0000 0001 000000 00 2000 4001 0005"),
];

/// The bytes of hexadecimal digits, with spaces anywhere between bytes.
pub fn unhex(text: &str) -> Vec<u8> {
    let digits: Vec<u8> = text.chars().filter(|c| *c != ' ').map(|c| c.to_digit(16).expect("no hexadecimal digit") as u8).collect();
    digits.chunks(2).map(|d| d[0] << 4 | d[1]).collect()
}

fn headers(c: &mut Cases) {
    // cut in the header, in a chunk, before a delta; whole; a byte more
    let whole = of(1, &[0x2001], &[5, 6]);
    for length in 0..=whole.len() {
        c.is(if length < 11 { 14 } else { 0 }, &whole[..length]);
    }
    // a count of 0: 14 while the header is cut, then 16 whatever follows
    let zero = of(0, &[0x2001], &[5]);
    for length in 0..=zero.len() {
        c.is(if length < 8 { 14 } else { 16 }, &zero[..length]);
    }
    // counts beside a run of one; both bytes of a count
    for (count, number) in [(0, 16), (1, 0), (2, 14)] {
        c.is(number, &of(count, &[0x2001], &[5]));
    }
    for count in [1u16, 2, 255, 256, 257, 513] {
        c.is(0, &of(count, &[0x0000 | count], &[]));
        c.is(14, &of(count, &[0x0000 | count - 1], &[]));
        c.is(0, &of(count, &[0x0000 | count + 1], &[]));
    }
    // each byte of the header is where it is, and the reference has a sign
    for base in [0, 1, 255, 256, 32_767, 32_768, 65_533, 65_534, 65_535] {
        c.is(0, &behind(header(base, 3, 1000, 7), &[0x2003], &[1, 2, 4]));
        c.is(0, &behind(header(base, 14, 1000, 7), &[0xaaaa], &bytes(7)));
    }
    for reference in [0, 1, 0xff, 0x100, 0xffff, 0x1_0000, 0x7f_fffe, 0x7f_ffff, -0x80_0000, -0x7f_ffff, -0x1_0000, -0x100, -2, -1] {
        c.is(0, &behind(header(300, 1, reference, 7), &[0x2001], &[5]));
        c.is(0, &behind(header(300, 1, reference, 255), &[0x0001], &[]));
    }
    for feedback in [0, 1, 127, 128, 254, 255] {
        c.is(0, &behind(header(300, 1, -1, feedback), &[0x2001], &[5]));
    }
}

fn runs(c: &mut Cases) {
    for symbol in 0..4u16 {
        for run in 0..4u16 {
            for count in 1..4u16 {
                let refused = if symbol == 3 && run > 0 { 15 } else { 0 };
                // a second chunk is read where the first does not reach the count, else it is the first delta
                c.is(refused, &of(count, &[symbol << 13 | run, 0x2003], &bytes(9)));
                c.is(refused, &of(count, &[symbol << 13 | run, 0x4003], &bytes(9)));
                // no second chunk, and the deltas of the counted part alone
                let deltas = bytes(symbol as usize % 3 * count as usize);
                let short = if refused == 0 && run < count { 14 } else { refused };
                c.is(short, &of(count, &[symbol << 13 | run], &if run < count { vec![] } else { deltas }));
            }
        }
    }
    // the longest runs: one status past each, and one counted of each
    for run in [8190, 8191] {
        c.is(14, &of(run + 1, &[run], &[]));
        for (symbol, wanted) in [(0, 0), (1, 1), (2, 2)] {
            c.is(0, &of(1, &[symbol << 13 | run], &bytes(wanted)));
            if wanted > 0 {
                c.is(14, &of(1, &[symbol << 13 | run], &bytes(wanted - 1)));
            }
        }
        c.is(15, &of(1, &[0x6000 | run], &[]));
    }
    // the draft's examples
    c.is(0, &of(221, &[0x00dd], &[]));
    c.is(14, &of(222, &[0x00dd], &[]));
    c.is(15, &of(24, &[0x6018], &[]));
    // empty runs of each symbol in front, between and many in a row; nothing behind them is cut short
    for symbol in 0..4 {
        let empty = symbol << 13;
        c.is(0, &of(2, &[empty, 0x2001, empty, 0x4001], &bytes(3)));
        c.is(14, &of(2, &[empty, 0x2001, empty, 0x4001], &bytes(2)));
        c.is(14, &of(1, &[empty], &[]));
        for many in [100, 1000] {
            let mut chunks = vec![empty; many];
            c.is(14, &of(2, &chunks, &[]));
            chunks.push(0xd800);
            c.is(0, &of(2, &chunks, &bytes(3)));
        }
    }
    // so many that the place of the chunk behind them is past 65,535
    c.is(0, &of(1, &[vec![0; 32_764], vec![0x2001]].concat(), &[5]));
}

fn one_bit(c: &mut Cases) {
    for place in 0..14u16 {
        let chunk = 0x8000 | 1 << (13 - place);
        c.is(0, &of(14, &[chunk], &[9]));
        c.is(14, &of(14, &[chunk], &[]));
        // the last that is counted, and the first that is spare
        c.is(0, &of(place + 1, &[chunk], &[9]));
        if place > 0 {
            c.is(0, &of(place, &[chunk], &[]));
        }
    }
    for (count, number) in [(13, 0), (14, 0), (15, 14)] {
        c.is(number, &of(count, &[0xbfff], &bytes(14)[..count.min(14) as usize]));
        c.is(0, &of(count, &[0xbfff, 0x8000], &bytes(14)));
        c.is(number, &of(count, &[0x8000], &[]));
    }
    c.is(14, &of(15, &[0xbfff, 0xa000], &bytes(14)));
    c.is(0, &of(15, &[0xbfff, 0xa000], &bytes(15)));
    // the draft's example: 1 lost, 5 received, 3 lost, 3 received, 2 lost
    c.is(0, &of(14, &[0x9f1c], &bytes(8)));
    c.is(14, &of(14, &[0x9f1c], &bytes(7)));
}

fn two_bit(c: &mut Cases) {
    for place in 0..7u16 {
        for symbol in 1..4u16 {
            let chunk = 0xc000 | symbol << (12 - 2 * place);
            let (number, wanted) = if symbol == 3 { (15, 0) } else { (0, symbol as usize) };
            c.is(number, &of(7, &[chunk], &bytes(wanted)));
            c.is(number, &of(place + 1, &[chunk], &bytes(wanted)));
            if wanted > 0 {
                c.is(14, &of(7, &[chunk], &bytes(wanted - 1)));
            }
            if place > 0 {
                c.is(0, &of(place, &[chunk], &[]));
            }
        }
    }
    for (chunk, each) in [(0xc000, 0), (0xd555, 1), (0xeaaa, 2)] {
        for (count, number) in [(6, 0), (7, 0), (8, 14)] {
            c.is(number, &of(count, &[chunk], &if count < 8 { bytes(count as usize * each) } else { vec![] }));
            c.is(0, &of(count, &[chunk, 0xc000], &bytes(7 * each)));
        }
    }
    for count in 1..9 {
        c.is(15, &of(count, &[0xffff], &bytes(14)));
    }
    // the draft's example has a 3 in its second place
    c.is(0, &of(1, &[0xcd50], &[]));
    for count in [2, 7] {
        c.is(15, &of(count, &[0xcd50], &bytes(8)));
    }
    // all three symbols: lost, small, large, twice
    c.is(0, &of(6, &[0xc618], &bytes(6)));
    c.is(14, &of(6, &[0xc618], &bytes(5)));
}

fn chunk_words(c: &mut Cases) {
    let words = [0x0000, 0x0001, 0x1fff, 0x2000, 0x2001, 0x3fff, 0x4000, 0x4001, 0x5fff, 0x6000, 0x6001, 0x7fff, 0x8000, 0x8001, 0xbfff, 0xc000, 0xc001, 0xc003, 0xffff];
    for word in words {
        for count in [1, 7, 14] {
            let reserved = matches!(word, 0x6001 | 0x7fff | 0xffff) || word == 0xc003 && count > 1;
            c.is(if reserved { 15 } else { 0 }, &of(count, &[word, 0xbfff], &bytes(40)));
        }
    }
}

fn deltas(c: &mut Cases) {
    for small in [0, 1, 2, 127, 128, 129, 254, 255] {
        c.is(0, &of(1, &[0x2001], &[small]));
        c.is(0, &of(3, &[0xb800], &[small, small, 1]));
    }
    for large in [0i16, 1, 127, 128, 255, 256, 257, 0x0102, 32_766, 32_767, -1, -2, -128, -255, -256, -257, -32_767, -32_768] {
        let two = large.to_be_bytes();
        c.is(0, &of(1, &[0x4001], &two));
        c.is(0, &of(1, &[0xe000], &two));
        // before a small one, after a small one, twice
        c.is(0, &of(2, &[0xe400], &[two[0], two[1], 9]));
        c.is(0, &of(2, &[0xd800], &[9, two[0], two[1]]));
        c.is(0, &of(2, &[0x4002], &[two, two].concat()));
    }
    // down and up again, over lost ones
    c.is(0, &of(7, &[0xe210], &[0x80, 0, 0x7f, 0xff, 1]));
}

fn cuts(c: &mut Cases) {
    // each kind of chunk and delta, cut at each byte; then whole, and a byte more
    let whole = of(27, &[0x2002, 0x4002, 0xbf03, 0xe19a, 0x0000, 0x4002], &bytes(2 + 4 + 8 + 10 + 4 + 1));
    for length in 0..=whole.len() {
        c.is(if length < whole.len() - 1 { 14 } else { 0 }, &whole[..length]);
    }
    // seven large deltas in one chunk
    c.is(14, &of(7, &[0xeaaa], &bytes(13)));
    c.is(0, &of(7, &[0xeaaa], &bytes(14)));
    // a count that is one more wants another chunk; one less leaves a delta unread
    c.is(14, &of(28, &[0x2002, 0x4002, 0xbf03, 0xe19a, 0x0000, 0x4002], &[]));
    c.is(0, &of(26, &[0x2002, 0x4002, 0xbf03, 0xe19a, 0x0000, 0x4002], &bytes(26)));
}

fn order_of_questions(c: &mut Cases) {
    // all chunks come first: a counted 3 in a whole chunk before a delta that is missing or cut, and before a later chunk that is
    c.is(15, &of(2, &[0x2001, 0x6001], &[]));
    c.is(15, &of(2, &[0x4001, 0x6001], &[5]));
    c.is(15, &of(2, &[0x2001, 0x6001], &[5]));
    c.is(15, &of(2, &[0x6001], &[]));
    c.is(15, &of(2, &[0x6001], &[0x20]));
    c.is(15, &of(9, &[0xffff], &[]));
    c.is(15, &of(14, &[0xd555, 0xd557], &[]));
    // a chunk that is cut before the 3 in it, or before the chunk that might have one
    c.is(14, &of(1, &[], &[0x60]));
    c.is(14, &of(1, &[], &[]));
    c.is(14, &of(2, &[0x2001], &[0x60]));
    c.is(14, &of(2, &[0x2001], &[]));
    c.is(14, &of(7, &[], &[0xff]));
    c.is(14, &of(2, &[0x6000, 0x2001], &[]));
    // 16 straight after the header, before a 3 and before a cut chunk
    c.is(16, &of(0, &[0x6001], &[]));
    c.is(16, &of(0, &[], &[0x60]));
    c.is(16, &of(0, &[0xffff], &[]));
    // 14 before 15 for a delta: the 3 is spare
    c.is(14, &of(1, &[0xdc00], &[]));
    c.is(15, &of(2, &[0xdc00], &[]));
}

fn not_read(c: &mut Cases) {
    // spare 3s behind one to six counted symbols
    for count in 1..7 {
        let chunk = 0xffff >> (2 + 2 * count) | 0xc000;
        c.is(0, &of(count, &[chunk], &[]));
        c.is(15, &of(count + 1, &[chunk], &[]));
    }
    // a 3 in an empty run, in front and behind the others
    c.is(0, &of(1, &[0x6000, 0x2001], &[5]));
    c.is(0, &of(2, &[0x2001, 0x6000, 0x2001], &[5, 6]));
    c.is(14, &of(1, &[0x6000], &[]));
    // once the count is covered the next byte is a delta's, though it looks like a chunk
    c.is(0, &of(1, &[0x2001, 0x6001], &[]));
    c.is(0, &of(1, &[0x4001, 0x6001], &[]));
    c.is(0, &of(14, &[0x8000, 0xffff], &[]));
    // a delta between the chunks is not looked for: 0x0520 is a run of lost ones
    c.is(0, &of(2, &[0x2001, 0x0520, 0x0106], &[]));
    // bytes after the last delta
    for more in [1, 2, 3, 100] {
        c.is(0, &of(2, &[0xd800], &bytes(3 + more)));
        c.is(0, &of(2, &[0x0002], &vec![0xff; more]));
    }
}

fn most(c: &mut Cases) {
    let of = |chunks: &[u16], deltas: &[u8]| behind(header(65_535, 65_535, -1, 255), chunks, deltas);
    // one chunk short of each kind
    c.is(14, &of(&[0x8000; 4681], &[]));
    c.is(14, &of(&[0xc000; 9362], &[0xc0]));
    c.is(14, &of(&[8191; 8], &[]));
    // 65,536 bytes of deltas are wanted, and there are none
    c.is(14, &of(&[&[0x4001][..], &[0x3fff; 8], &[0x2006]].concat(), &[]));
    // none received, and all
    c.is(0, &of(&[0x8000; 4682], &[]));
    c.is(0, &of(&[0xbfff; 4682], &[255; 65_535]));
    // the largest ticks, and the smallest, in the longest runs
    c.is(0, &of(&[0xeaaa; 9363], &[0x7f, 0xff].repeat(65_535)));
    c.is(0, &of(&[&[0x5fff; 8][..], &[0x4007]].concat(), &[0x80, 0x00].repeat(65_535)));
}
