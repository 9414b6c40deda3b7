// The peer of `gds once degree` in plain Rust: the whole input read, digits parsed by bytes, degrees counted in an
// array, nothing checked but what the numbers need.
use std::io::{Read, Write};

fn number(text: &[u8], at: &mut usize) -> usize {
    let mut value = 0;
    while *at < text.len() && text[*at].is_ascii_digit() {
        value = value * 10 + (text[*at] - b'0') as usize;
        *at += 1;
    }
    value
}

// Puts the digits of a number behind a text.
fn push_number(out: &mut Vec<u8>, mut value: usize) {
    let mut digits = [0u8; 20];
    let mut start = digits.len();
    loop {
        start -= 1;
        digits[start] = b'0' + (value % 10) as u8;
        value /= 10;
        if value == 0 {
            break;
        }
    }
    out.extend_from_slice(&digits[start..]);
}

fn main() {
    let mut text = Vec::new();
    std::io::stdin().lock().read_to_end(&mut text).unwrap();
    let mut at = "nodes ".len();
    let nodes = number(&text, &mut at);
    let mut degrees = vec![0u32; nodes];
    at += 1;
    while at < text.len() {
        at += "rel ".len();
        let source = number(&text, &mut at);
        at += 1;
        let _target = number(&text, &mut at);
        at += 1;
        degrees[source] += 1;
    }
    let mut out = Vec::with_capacity(1 << 17);
    let stdout = std::io::stdout();
    let mut stdout = stdout.lock();
    for (node, degree) in degrees.iter().enumerate() {
        push_number(&mut out, node);
        out.push(b' ');
        push_number(&mut out, *degree as usize);
        out.push(b'\n');
        if out.len() >= 1 << 16 {
            stdout.write_all(&out).unwrap();
            out.clear();
        }
    }
    stdout.write_all(&out).unwrap();
    stdout.flush().unwrap();
}
