// The work of bench/works in plain Rust, with a Vec of slices:
//   rustc --edition 2021 -O -o /tmp/reading bench/reading.rs && time /tmp/reading discover 2000000
use std::borrow::Cow;
use std::hint::black_box;

#[allow(dead_code)]
struct Header {
    op: u8,
    htype: u8,
    hlen: u8,
    hops: u8,
    xid: u32,
    secs: u16,
    flags: u16,
    addresses: [u32; 4],
    chaddr: [u8; 16],
    sname: [u8; 64],
    file: [u8; 128],
}

#[allow(dead_code)]
struct Message<'a> {
    header: Header,
    len: usize,
    options: Vec<(u8, Cow<'a, [u8]>)>,
}

fn number(bytes: &[u8]) -> u32 {
    u32::from_be_bytes(bytes.try_into().unwrap())
}

fn header(b: &[u8]) -> Option<Header> {
    if b.len() < 240 || b.len() > 4096 || number(&b[236..240]) != 0x63825363 || (b[0] != 1 && b[0] != 2) {
        return None;
    }
    Some(Header {
        op: b[0],
        htype: b[1],
        hlen: b[2],
        hops: b[3],
        xid: number(&b[4..8]),
        secs: u16::from_be_bytes([b[8], b[9]]),
        flags: u16::from_be_bytes([b[10], b[11]]),
        addresses: [number(&b[12..16]), number(&b[16..20]), number(&b[20..24]), number(&b[24..28])],
        chaddr: b[28..44].try_into().unwrap(),
        sname: b[44..108].try_into().unwrap(),
        file: b[108..236].try_into().unwrap(),
    })
}

fn add<'a>(options: &mut Vec<(u8, Cow<'a, [u8]>)>, mut area: &'a [u8]) -> Option<()> {
    while let Some((&code, rest)) = area.split_first() {
        match code {
            0 => area = rest,
            255 => break,
            _ => {
                let (&n, rest) = rest.split_first()?;
                let value = rest.get(..n as usize)?;
                area = &rest[n as usize..];
                match options.iter_mut().find(|o| o.0 == code) {
                    Some(option) => option.1.to_mut().extend_from_slice(value),
                    None => options.push((code, Cow::Borrowed(value))),
                }
            }
        }
    }
    Some(())
}

fn option<'m>(options: &'m [(u8, Cow<'_, [u8]>)], code: u8) -> Option<&'m [u8]> {
    options.iter().find(|o| o.0 == code).map(|o| o.1.as_ref())
}

fn read(bytes: &[u8]) -> Option<Message<'_>> {
    let header = header(bytes)?;
    let mut options = Vec::new();
    add(&mut options, &bytes[240..])?;
    let overload = match option(&options, 52) {
        Some(&[n @ 1..=3]) => n,
        _ => 0,
    };
    if overload & 1 != 0 {
        add(&mut options, &bytes[108..236])?;
    }
    if overload & 2 != 0 {
        add(&mut options, &bytes[44..108])?;
    }
    if !matches!(option(&options, 53), Some([1..=8])) {
        return None;
    }
    for code in [50, 54] {
        if option(&options, code).is_some_and(|v| v.len() != 4) {
            return None;
        }
    }
    Some(Message { header, len: bytes.len(), options })
}

fn head() -> Vec<u8> {
    let mut bytes = vec![1, 1, 6, 0, 0, 0, 0, 1];
    bytes.resize(28, 0);
    bytes.extend([10, 0, 0, 0, 0, 1]);
    bytes.resize(236, 0);
    bytes.extend([99, 130, 83, 99]);
    bytes
}

fn main() {
    let words: Vec<String> = std::env::args().collect();
    let rounds: u32 = words[2].parse().unwrap();
    let mut bytes = head();
    if words[1] == "pieces" {
        bytes.extend([53, 1, 1]);
        for _ in 0..3 {
            for code in 60..93u8 {
                bytes.extend([code, 36]);
                bytes.extend([code; 36]);
            }
        }
        bytes.resize(4096, 0);
    } else {
        bytes.extend(b"\x35\x01\x01\x3d\x07\x01\x0a\x00\x00\x00\x00\x01\x32\x04\xc0\x00\x02\x0a");
        bytes.extend(b"\x39\x02\x05\xdc\x3c\x06udhcp1\x0c\x03box\x37\x04\x01\x03\x06\x0f\x74\x01\x01\xff");
        bytes.resize(300, 0);
    }
    let mut count = 0u32;
    for _ in 0..rounds {
        if let Some(message) = black_box(read(black_box(&bytes))) {
            count += option(&message.options, 60).is_some() as u32;
        }
    }
    println!("{count}");
}
