// A plain stack machine for the same tokens, for comparison: `machine short 1000000`, `long`, `digits`.
use std::borrow::Cow;

enum Token {
    PushBytes(Vec<u8>),
    PushOption(u8),
    OptionExists(u8),
    Equal,
    Not,
    And,
    HexString,
}

enum Value<'a> {
    Bool(bool),
    Bytes(Cow<'a, [u8]>),
}

struct Outcome {
    value: bool,
    steps: u32,
    peak_depth: u32,
    peak_length: u32,
}

fn pop_bytes<'a>(stack: &mut Vec<Value<'a>>) -> Option<Cow<'a, [u8]>> {
    match stack.pop()? {
        Value::Bytes(bytes) => Some(bytes),
        Value::Bool(_) => None,
    }
}

fn pop_bool(stack: &mut Vec<Value>) -> Option<bool> {
    match stack.pop()? {
        Value::Bool(b) => Some(b),
        Value::Bytes(_) => None,
    }
}

fn hex_text(bytes: &[u8], separator: &[u8]) -> Vec<u8> {
    let mut out = Vec::new();
    for (i, byte) in bytes.iter().enumerate() {
        if i > 0 {
            out.extend_from_slice(separator);
        }
        out.extend_from_slice(&[b"0123456789abcdef"[usize::from(byte / 16)], b"0123456789abcdef"[usize::from(byte % 16)]]);
    }
    out
}

fn eval(tokens: &[Token], options: &[(u8, Vec<u8>)]) -> Option<Outcome> {
    let option = |code: u8| options.iter().find(|o| o.0 == code).map(|o| o.1.as_slice());
    let mut stack: Vec<Value> = Vec::with_capacity(64);
    let (mut steps, mut peak_depth, mut peak_length) = (0, 0, 0);
    for token in tokens {
        let value = match token {
            Token::PushBytes(bytes) => Value::Bytes(Cow::Borrowed(bytes.as_slice())),
            Token::PushOption(code) => Value::Bytes(Cow::Borrowed(option(*code).unwrap_or(&[]))),
            Token::OptionExists(code) => Value::Bool(option(*code).is_some()),
            Token::Equal => {
                let second = pop_bytes(&mut stack)?;
                let first = pop_bytes(&mut stack)?;
                Value::Bool(first == second)
            }
            Token::Not => Value::Bool(!pop_bool(&mut stack)?),
            Token::And => {
                let second = pop_bool(&mut stack)?;
                let first = pop_bool(&mut stack)?;
                Value::Bool(first && second)
            }
            Token::HexString => {
                let separator = pop_bytes(&mut stack)?;
                let bytes = pop_bytes(&mut stack)?;
                Value::Bytes(Cow::Owned(hex_text(&bytes, &separator)))
            }
        };
        let length = if let Value::Bytes(bytes) = &value { bytes.len() as u32 } else { 0 };
        stack.push(value);
        steps += 1;
        peak_depth = peak_depth.max(stack.len() as u32);
        peak_length = peak_length.max(length);
    }
    let value = pop_bool(&mut stack)?;
    Some(Outcome { value, steps, peak_depth, peak_length })
}

fn main() {
    let words: Vec<String> = std::env::args().collect();
    let rounds: u32 = words[2].parse().unwrap();
    let a = || Token::PushBytes(b"a".to_vec());
    let short = || vec![Token::PushOption(60), a(), Token::Equal];
    let mut options = vec![
        (53, vec![1]),
        (61, vec![1, 10, 0, 0, 0, 0, 1]),
        (50, vec![192, 0, 2, 10]),
        (57, vec![5, 220]),
        (60, b"udhcp1".to_vec()),
        (12, b"box".to_vec()),
        (55, vec![1, 3, 6, 15]),
        (116, vec![1]),
    ];
    let tokens = match words[1].as_str() {
        "short" => short(),
        "long" => {
            let mut tokens = vec![Token::OptionExists(60)];
            for _ in 0..204 {
                tokens.extend(short());
                tokens.extend([Token::Not, Token::And]);
            }
            tokens.extend([Token::Not, Token::Not, Token::Not]);
            tokens
        }
        _ => {
            options = vec![(53, vec![1]), (43, vec![0xa5; 3820])];
            vec![
                Token::PushOption(43),
                Token::PushBytes(b":".to_vec()),
                Token::HexString,
                Token::PushBytes(b"x".to_vec()),
                Token::Equal,
            ]
        }
    };
    let mut ended = 0u32;
    let mut sum = 0u32;
    for _ in 0..rounds {
        let outcome = eval(std::hint::black_box(&tokens), std::hint::black_box(&options)).unwrap();
        ended += u32::from(!outcome.value);
        sum = sum.wrapping_add(outcome.steps + outcome.peak_depth + outcome.peak_length);
    }
    println!("{ended} {sum}");
}
