//! A plain program over vortex-buffer that answers the lines of `vbits` in the inputs of
//! `bench/lines`. An unknown line ends it.

use std::io::{self, BufRead, BufWriter, Write};

use vortex_buffer::{BitBufferMut, ByteBufferMut};

/// The value of a hexadecimal digit, and 16 for any other byte.
const DIGITS: [u8; 256] = digits();

const fn digits() -> [u8; 256] {
    let mut table = [16; 256];
    let mut digit = 0;
    while digit < 16 {
        table[b"0123456789abcdef"[digit] as usize] = digit as u8;
        table[b"0123456789ABCDEF"[digit] as usize] = digit as u8;
        digit += 1;
    }
    table
}

fn number(word: Option<&str>) -> Option<usize> {
    word?.parse().ok()
}

fn bytes(hex: &str) -> Option<ByteBufferMut> {
    let hex = hex.as_bytes();
    if !hex.len().is_multiple_of(2) {
        return None;
    }
    let mut bytes = ByteBufferMut::with_capacity(hex.len() / 2);
    for pair in hex.chunks_exact(2) {
        let (high, low) = (DIGITS[pair[0] as usize], DIGITS[pair[1] as usize]);
        if high | low > 15 {
            return None;
        }
        bytes.push(high << 4 | low);
    }
    Some(bytes)
}

fn bits(set: &BitBufferMut, out: &mut impl Write) -> io::Result<()> {
    let mut text = Vec::with_capacity(set.len() + 1);
    text.extend(set.as_view().iter().map(|bit| b'0' + u8::from(bit)));
    text.push(b'\n');
    out.write_all(&text)
}

/// Runs a line over the slots; `None` where it isn't one of the known ones.
fn run(line: &str, slots: &mut [Option<BitBufferMut>; 16], out: &mut impl Write) -> Option<()> {
    let mut words = line.split_ascii_whitespace();
    let command = words.next()?;
    let slot = slots.get_mut(number(words.next())?)?;
    let written = match command {
        "import" => {
            let (offset, len) = (number(words.next())?, number(words.next())?);
            *slot = Some(BitBufferMut::from_buffer(
                bytes(words.next()?)?,
                offset,
                len,
            ));
            writeln!(out, "ok")
        }
        "full" => {
            let value = number(words.next())? == 1;
            *slot = Some(BitBufferMut::full(value, number(words.next())?));
            writeln!(out, "ok")
        }
        "drop" => {
            slot.take()?;
            writeln!(out, "ok")
        }
        "len" => writeln!(out, "{}", slot.as_ref()?.len()),
        "count" => writeln!(out, "{}", slot.as_ref()?.as_view().true_count()),
        "get" => {
            let set = slot.as_ref()?;
            let place = number(words.next())?;
            writeln!(
                out,
                "{}",
                u8::from((place < set.len()).then(|| set.value(place))?)
            )
        }
        "select" => match slot.as_ref()?.as_view().select(number(words.next())?) {
            Some(place) => writeln!(out, "{place}"),
            None => writeln!(out, "none"),
        },
        "countrange" => {
            let (start, end) = (number(words.next())?, number(words.next())?);
            writeln!(
                out,
                "{}",
                slot.as_ref()?.as_view().slice(start..end).true_count()
            )
        }
        "bits" => bits(slot.as_ref()?, out),
        _ => return None,
    };
    written.ok()
}

fn main() {
    let mut slots = [const { None }; 16];
    let mut input = io::stdin().lock();
    let mut out = BufWriter::with_capacity(1 << 16, io::stdout().lock());
    let mut line = String::new();
    while input.read_line(&mut line).expect("input can be read") > 0 {
        run(&line, &mut slots, &mut out).expect("the line is one of those that are known");
        line.clear();
    }
    out.flush().expect("output can be written");
}
