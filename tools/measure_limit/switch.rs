//! A switch: where it stands, whom it knows, and by which port a frame goes on.

use std::collections::HashMap;

use crate::frames::{flow_hash, Mac};

pub const PORTS: usize = 24;

#[derive(Clone, Copy, PartialEq)]
pub enum Level {
    Edge,
    Aggregation,
    Core,
}

#[derive(Clone, Copy, Default)]
struct Record {
    heard: [u8; 12],
    silent: u8,
}

pub struct Switch {
    level: Level,
    pod: u16,
    position: u8,
    /// The set of ports up, and those of ports down by position (aggregation) or pod (core).
    pub up: u32,
    pub down: [u32; PORTS],
    /// By destination, the ports that are not to be taken.
    avoided: Vec<(u32, u32)>,
    pub addresses: HashMap<(u8, Mac), Mac>,
    /// By port, then by the number in the pseudo address less 1.
    pub granted: Vec<Vec<Mac>>,
    records: [Record; PORTS],
}

impl Switch {
    /// The switch of this number, before it has a link.
    pub fn new(k: usize, n: usize) -> Switch {
        let (half, edges) = (k / 2, k * k / 2);
        let (level, pod, position) = match n {
            n if n < edges => (Level::Edge, (n / half) as u16, (n % half) as u8),
            n if n < 2 * edges => (Level::Aggregation, ((n - edges) / half) as u16, 255),
            _ => (Level::Core, 65_535, 255),
        };
        Switch {
            level,
            pod,
            position,
            up: 0,
            down: [0; PORTS],
            avoided: Vec::new(),
            addresses: HashMap::new(),
            granted: vec![Vec::new(); k],
            records: [Record::default(); PORTS],
        }
    }

    /// The port by which a frame goes on, with its own address in it where it has come to its host's switch.
    pub fn next_port(&self, is_from_host: bool, frame: &mut [u8]) -> Option<u8> {
        let (pod, position) = (u16::from_be_bytes([frame[0], frame[1]]), frame[2]);
        let ports = match self.level {
            Level::Edge if pod == self.pod && position == self.position => {
                let number = usize::from(u16::from_be_bytes([frame[4], frame[5]]));
                let macs = self.granted.get(usize::from(frame[3]))?;
                let out = frame[3];
                frame[..6].copy_from_slice(macs.get(number.wrapping_sub(1))?);
                return Some(out);
            }
            Level::Edge if !is_from_host => 0,
            Level::Aggregation if pod == self.pod => self.down[usize::from(position) % PORTS],
            Level::Core => self.down[usize::from(pod) % PORTS],
            _ => self.ports_up(u32::from(pod) * 256 + u32::from(position)),
        };
        if ports == 0 {
            return None;
        }
        Some(nth_bit(ports.into(), flow_hash(frame) % ports.count_ones()) as u8)
    }

    fn ports_up(&self, place: u32) -> u32 {
        match self.avoided.binary_search_by_key(&place, |row| row.0) {
            Ok(n) => self.up & !self.avoided[n].1,
            Err(_) => self.up,
        }
    }

    pub fn hear(&mut self, port: u8, frame: &[u8]) {
        if frame.len() >= 33 && frame[14] == 1 && frame[15] == 1 {
            let record = &mut self.records[usize::from(port)];
            record.heard.copy_from_slice(&frame[16..28]);
            record.silent = 0;
        }
    }

    /// What it says of its place on a port, and the id that it heard there.
    pub fn message(&mut self, id: u64, port: usize) -> Box<[u8]> {
        let id = &id.to_be_bytes()[2..];
        let record = &mut self.records[port];
        record.silent = (record.silent + 1).min(3);
        let mut frame = [0; 33];
        frame[..6].copy_from_slice(&[3, 0x50, 0x4c, 0, 0, 1]);
        frame[6..12].copy_from_slice(id);
        frame[12..16].copy_from_slice(&[0x88, 0xb5, 1, 1]);
        frame[16..22].copy_from_slice(id);
        frame[22] = self.level as u8;
        frame[23] = self.position;
        frame[24..26].copy_from_slice(&self.pod.to_be_bytes());
        frame[27..33].copy_from_slice(&record.heard[..6]);
        Box::new(frame)
    }
}

/// The n-th set bit, from 0.
pub fn nth_bit(set: u64, n: u32) -> u32 {
    (0..n).fold(set, |set, _| set & (set - 1)).trailing_zeros()
}

#[cfg(test)]
mod tests {
    use super::*;

    #[test]
    fn set_bits() {
        assert_eq!([0b1011, 0b1000].map(|set: u64| nth_bit(set, set.count_ones() - 1)), [3, 3]);
    }
}
