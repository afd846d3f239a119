//! Messages that real receivers sent, with the reading that three other programs agree on; and where the Rust parts from document 02, by runs.
use crate::feedback::{hex, read, rust_checked, silence, write_case, Answer, Header, Packet, Parts};
use crate::feedback_limits::{unhex, TABLE};
use std::io::BufWriter;

/// The text of a field of a line, up to what ends it.
fn field<'a>(line: &'a str, name: &str, start: &str, end: &str) -> Option<&'a str> {
    let from = line.split_once(&format!("\"{name}\": {start}"))?.1;
    Some(from.split_once(end).unwrap_or_else(|| panic!("{name} does not end: {line}")).0)
}

fn number(text: &str) -> i32 {
    text.trim().parse().unwrap_or_else(|_| panic!("no number: {text}"))
}

/// The reading that a line gives: `refused`, or `header` (base, count, reference, feedback count) and `packets` (sequence, ticks or null).
fn reading(line: &str) -> Answer {
    if let Some(refused) = field(line, "refused", "", "}") {
        return Answer::Refused(number(refused) as u32);
    }
    let header: Vec<i32> = field(line, "header", "[", "]").expect("no header").split(',').map(number).collect();
    let header = Header { base: header[0] as u16, count: header[1] as u16, reference: header[2], feedback: header[3] as u8 };
    let packet = |text: &str| -> Packet {
        let (sequence, ticks) = text.trim_matches(|c| "[], ".contains(c)).split_once(',').expect("no packet");
        (number(sequence) as u16, if ticks.trim() == "null" { None } else { Some(number(ticks)) })
    };
    Answer::Told(header, field(line, "packets", "[", "]]").expect("no packets").split("],").map(packet).collect())
}

/// A case for each line of standard input, with the line's own reading, which the model gives too; else this ends.
pub fn real() {
    silence();
    let mut out = BufWriter::new(std::io::stdout().lock());
    for line in std::io::stdin().lines() {
        let line = line.unwrap();
        let message = unhex(field(&line, "message", "\"", "\"").expect("no message"));
        let (given, model) = (reading(&line), read(&message, Parts::default()));
        if given != model {
            eprintln!("the model does not read as the file gives: {}\nthe file: {given:?}\nthe model: {model:?}", hex(&message));
            std::process::exit(1);
        }
        rust_checked(&message);
        write_case(&mut out, &message, &given);
    }
}

/// An answer in words; the reference where it is asked for.
fn told(answer: &Answer, with_reference: bool) -> String {
    let packets = |packets: &[Packet]| packets.iter().map(|p| p.1.map_or("not received".into(), |t| format!("tick {t}"))).collect::<Vec<String>>().join(", ");
    match answer {
        Answer::Refused(number) => format!("{number}"),
        Answer::Told(_, p) if p.is_empty() => "no packets".into(),
        Answer::Told(h, p) => {
            let reference = if with_reference { format!("reference {}; ", h.reference) } else { String::new() };
            let end = if p.len() < h.count as usize { "; the others are left out" } else { "" };
            format!("{reference}{}{end}", packets(p))
        }
        Answer::Panics(_, p) if p.is_empty() => "panics".into(),
        Answer::Panics(_, p) => format!("{}, then panics", packets(p)),
    }
}

/// Rows for docs/DIFFERENCES.md: a message, document 02's answer, the Rust's. Its errors have no number.
pub fn differences() {
    silence();
    println!("| message | document 02, and here | the Rust | what the Rust does |\n|---|---|---|---|");
    for (what, text) in TABLE {
        let message = unhex(text);
        let (ours, theirs) = (read(&message, Parts::default()), rust_checked(&message));
        assert!(ours != theirs, "no difference: {text}");
        let with_reference = matches!((&ours, &theirs), (Answer::Told(a, _), Answer::Told(b, _)) if a.reference != b.reference);
        let rust = if let Answer::Refused(_) = theirs { "an error".into() } else { told(&theirs, with_reference) };
        println!("| `{text}` | {} | {rust} | {what} |", told(&ours, with_reference));
    }
}
