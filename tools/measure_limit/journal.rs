//! The journal: entries in memory, made into text at the end.

use std::fs::File;
use std::io::{self, Write};

pub enum Entry {
    Line(u32),
    Sent(u64, u32, Box<[u8]>),
    Crossed(u64, u32),
    Arrived(u64, u32, Box<[u8]>),
}

pub struct Names {
    hosts: Vec<Vec<u8>>,
    switches: Vec<Vec<u8>>,
}

impl Names {
    pub fn new(k: usize) -> Names {
        let half = k / 2;
        let label = |letter: char, n: usize| format!("{letter}{}.{}", n / half, n % half).into_bytes();
        let edges = (0..k * half).map(|n| label('e', n));
        let aggregations = (0..k * half).map(|n| label('a', n));
        let cores = (0..half * half).map(|n| label('c', n));
        Names {
            switches: edges.chain(aggregations).chain(cores).collect(),
            hosts: (0..k * half * half).map(|h| format!("h{h}").into_bytes()).collect(),
        }
    }
}

fn put_number(text: &mut Vec<u8>, mut n: u64) {
    let mut digits = [0; 20];
    let mut at = 20;
    loop {
        at -= 1;
        digits[at] = b'0' + (n % 10) as u8;
        n /= 10;
        if n == 0 {
            break;
        }
    }
    text.extend_from_slice(&digits[at..]);
}

const HEX: [[u8; 2]; 256] = {
    let digits = *b"0123456789abcdef";
    let mut table = [[0; 2]; 256];
    let mut n = 0;
    while n < 256 {
        table[n] = [digits[n >> 4], digits[n & 15]];
        n += 1;
    }
    table
};

fn put_hex(text: &mut Vec<u8>, bytes: &[u8]) {
    let start = text.len();
    text.resize(start + 2 * bytes.len(), 0);
    for (pair, byte) in text[start..].chunks_exact_mut(2).zip(bytes) {
        pair.copy_from_slice(&HEX[usize::from(*byte)]);
    }
}

fn put_words(text: &mut Vec<u8>, word: &[u8], id: u64, name: &[u8]) {
    text.extend_from_slice(word);
    put_number(text, id);
    text.push(b' ');
    text.extend_from_slice(name);
}

fn put_frame(text: &mut Vec<u8>, word: &[u8], id: u64, name: &[u8], frame: &[u8]) {
    put_words(text, word, id, name);
    text.push(b' ');
    put_hex(text, frame);
}

fn put_entry(text: &mut Vec<u8>, entry: &Entry, names: &Names) {
    match entry {
        Entry::Line(n) => {
            text.extend_from_slice(b"line ");
            put_number(text, (*n).into());
        }
        Entry::Sent(id, host, frame) => put_frame(text, b"sent ", *id, &names.hosts[*host as usize], frame),
        Entry::Crossed(id, switch) => put_words(text, b"crossed ", *id, &names.switches[*switch as usize]),
        Entry::Arrived(id, host, frame) => {
            put_frame(text, b"arrived ", *id, &names.hosts[*host as usize], frame)
        }
    }
    text.push(b'\n');
}

pub fn save(journal: &[Entry], names: &Names, mut file: File) -> io::Result<()> {
    let mut text = Vec::with_capacity(1 << 17);
    for entry in journal {
        put_entry(&mut text, entry, names);
        if text.len() >= 1 << 16 {
            file.write_all(&text)?;
            text.clear();
        }
    }
    file.write_all(&text)
}

#[cfg(test)]
mod tests {
    use super::*;

    #[test]
    fn lines() {
        let names = Names { hosts: vec![b"a".to_vec()], switches: vec![b"e0.0".to_vec()] };
        let mut text = Vec::new();
        for entry in [Entry::Line(5), Entry::Crossed(10, 0), Entry::Sent(1, 0, Box::new([0, 0xff, 0x1a]))] {
            put_entry(&mut text, &entry, &names);
        }
        assert_eq!(text, b"line 5\ncrossed 10 e0.0\nsent 1 a 00ff1a\n");
    }
}
