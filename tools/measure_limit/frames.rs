//! Frames: their bytes, their flow, and who sends them to whom.

use std::ops::Range;

pub type Mac = [u8; 6];

pub const CONTROL: u16 = 0x88b5;
const ARP: u16 = 0x0806;
const PARTNERS: usize = 8;

pub fn kind(frame: &[u8]) -> u16 {
    u16::from_be_bytes([frame[12], frame[13]])
}

/// FNV-1a of 32 bits (Fowler, Noll and Vo).
fn fnv1a(hash: u32, bytes: &[u8]) -> u32 {
    bytes.iter().fold(hash, |hash, byte| (hash ^ u32::from(*byte)).wrapping_mul(16_777_619))
}

pub fn flow_hash(frame: &[u8]) -> u32 {
    let hash = fnv1a(2_166_136_261, &frame[..14]);
    let payload = &frame[14..];
    if kind(frame) != 0x0800 || payload.len() < 20 || payload[0] >> 4 != 4 {
        return hash;
    }
    let head = 4 * usize::from(payload[0] & 15);
    if head < 20 || payload.len() < head {
        return hash;
    }
    let hash = fnv1a(fnv1a(hash, &payload[9..10]), &payload[12..20]);
    let is_whole = u16::from_be_bytes([payload[6], payload[7]]) & 0x3fff == 0;
    if matches!(payload[9], 6 | 17) && is_whole && payload.len() >= head + 4 {
        return fnv1a(hash, &payload[head..head + 4]);
    }
    hash
}

pub fn is_arp_or_igmp(frame: &[u8]) -> bool {
    kind(frame) == ARP || (kind(frame) == 0x0800 && frame.len() > 34 && frame[23] == 2)
}

/// The first pseudo address of a port.
pub fn pmac(pod: usize, position: usize, port: usize) -> Mac {
    let pod = (pod as u16).to_be_bytes();
    [pod[0], pod[1], position as u8, port as u8, 0, 1]
}

pub fn mac_of(host: usize) -> Mac {
    [2, 0, 0, 0, (host >> 8) as u8, host as u8]
}

/// To whom a host sends its frame of this number.
pub fn partner(host: usize, number: u64, hosts: usize) -> usize {
    let turn = (number % PARTNERS as u64) as usize;
    (host + 1 + (turn * (hosts / PARTNERS).max(1) + host) % (hosts - 1)) % hosts
}

pub fn frame_of(host: usize, number: u64, k: usize) -> Box<[u8]> {
    let half = k / 2;
    let to = partner(host, number, k * half * half);
    let (edge, port) = (to / half, to % half);
    let mut frame = vec![0; 60].into_boxed_slice();
    frame[..6].copy_from_slice(&pmac(edge / half, edge % half, port));
    frame[6..12].copy_from_slice(&mac_of(host));
    frame[12..14].copy_from_slice(&[0x88, 0xb6]);
    frame[14..18].copy_from_slice(&(number as u32).to_be_bytes());
    frame
}

/// The lines that send: four frames of each host in turn, until each has sent its share.
pub fn turns(frames: u64, hosts: usize) -> impl Iterator<Item = (usize, Range<u64>)> {
    let count = hosts as u64;
    let rounds = frames.div_ceil(count).div_ceil(4);
    (0..rounds).flat_map(move |round| {
        (0..hosts).filter_map(move |host| {
            let share = frames / count + u64::from((host as u64) < frames % count);
            let from = 4 * round;
            (from < share).then(|| (host, from..share.min(from + 4)))
        })
    })
}

#[cfg(test)]
mod tests {
    use super::*;

    fn frame(to: Mac) -> Vec<u8> {
        let mut frame = vec![0; 60];
        frame[..6].copy_from_slice(&to);
        frame[6..12].copy_from_slice(&pmac(0, 0, 0));
        frame[12..14].copy_from_slice(&[0x88, 0xb6]);
        frame
    }

    /// The first three are test vectors of FNV-1a's authors.
    #[test]
    fn hashes() {
        assert_eq!(fnv1a(2_166_136_261, b""), 0x811c_9dc5);
        assert_eq!(fnv1a(2_166_136_261, b"a"), 0xe40c_292c);
        assert_eq!(fnv1a(2_166_136_261, b"foobar"), 0xbf9c_f968);
        assert_eq!(flow_hash(&frame(pmac(1, 0, 0))) % 2, 0);
        assert_eq!(flow_hash(&frame(pmac(0, 1, 1))) % 2, 1);
    }

    #[test]
    fn each_host_sends_its_share() {
        let sent: Vec<_> = turns(11, 2).collect();
        assert_eq!(sent, [(0, 0..4), (1, 0..4), (0, 4..6), (1, 4..5)]);
    }
}
