//! The fabric: its queues, what is in them, and the steps that deliver it.

use std::collections::VecDeque;
use std::fs::File;
use std::io::{self, BufWriter, Write};
use std::ops::Range;

use crate::frames::{frame_of, is_arp_or_igmp, kind, mac_of, pmac, Mac, CONTROL};
use crate::journal::{self, Entry, Names};
use crate::switch::{nth_bit, Switch};

struct Item {
    id: u64,
    frame: Box<[u8]>,
}

#[derive(Clone, Copy)]
enum Peer {
    Switch(u32, u8),
    Host(u32),
}

pub struct World {
    k: usize,
    pub hosts: usize,
    switches: Vec<Switch>,
    /// Hosts' queues, then each switch's by rising port: the order of a sweep.
    queues: Vec<VecDeque<Item>>,
    peers: Vec<Peer>,
    /// A bit for each queue that is not empty.
    busy: Vec<u64>,
    journal: Vec<Entry>,
    captures: Vec<Vec<u8>>,
    line: u32,
    /// By host, the last line in which it received, and how often in that line.
    in_line: Vec<(u32, u32)>,
    sent: u64,
    pub crossed: u64,
    pub arrived: u64,
}

impl World {
    pub fn new(k: usize) -> World {
        let hosts = k * k * k / 4;
        let switches: Vec<_> = (0..k * k + k * k / 4).map(|n| Switch::new(k, n)).collect();
        let count = hosts + switches.len() * k;
        let mut world = World {
            k,
            hosts,
            switches,
            queues: (0..count).map(|_| VecDeque::new()).collect(),
            peers: vec![Peer::Host(0); count],
            busy: vec![0; count.div_ceil(64)],
            journal: Vec::new(),
            captures: vec![Vec::new(); hosts],
            line: 0,
            in_line: vec![(0, 0); hosts],
            sent: 0,
            crossed: 0,
            arrived: 0,
        };
        (0..hosts).for_each(|host| world.stand(host));
        (0..k * k * k / 4).for_each(|n| world.join_in_pod(n));
        (0..k * k * k / 4).for_each(|n| world.join_to_core(n));
        world
    }

    fn stand(&mut self, host: usize) {
        let half = self.k / 2;
        let (edge, port) = (host / half, host % half);
        let switch = &mut self.switches[edge];
        switch.addresses.insert((port as u8, mac_of(host)), pmac(edge / half, edge % half, port));
        switch.granted[port].push(mac_of(host));
        self.peers[host] = Peer::Switch(edge as u32, port as u8);
        self.peers[self.hosts + edge * self.k + port] = Peer::Host(host as u32);
    }

    /// The n-th link of edge and aggregation switches.
    fn join_in_pod(&mut self, n: usize) {
        let half = self.k / 2;
        let (pod, i, j) = (n / (half * half), n / half % half, n % half);
        let (edge, aggregation) = (pod * half + i, self.k * half + pod * half + j);
        self.join((edge, half + j), (aggregation, i));
        self.switches[aggregation].down[i] |= 1 << i;
    }

    /// The n-th link of aggregation and core switches.
    fn join_to_core(&mut self, n: usize) {
        let half = self.k / 2;
        let (pod, j, m) = (n / (half * half), n / half % half, n % half);
        let (aggregation, core) = (self.k * half + pod * half + j, 2 * self.k * half + j * half + m);
        self.join((aggregation, half + m), (core, pod));
        self.switches[core].down[pod] |= 1 << pod;
    }

    /// A link from a port of a lower switch up to a port of another.
    fn join(&mut self, lower: (usize, usize), upper: (usize, usize)) {
        self.peers[self.hosts + lower.0 * self.k + lower.1] = Peer::Switch(upper.0 as u32, upper.1 as u8);
        self.peers[self.hosts + upper.0 * self.k + upper.1] = Peer::Switch(lower.0 as u32, lower.1 as u8);
        self.switches[lower.0].up |= 1 << lower.1;
    }

    fn push(&mut self, queue: usize, item: Item) {
        self.queues[queue].push_back(item);
        self.busy[queue / 64] |= 1 << (queue % 64);
    }

    /// A line that lets a host send frames of its own.
    pub fn send(&mut self, host: usize, numbers: Range<u64>) {
        self.begin_line();
        for number in numbers {
            let frame = frame_of(host, number, self.k);
            self.sent += 1;
            self.journal.push(Entry::Sent(self.sent, host as u32, frame.clone()));
            self.push(host, Item { id: self.sent, frame });
        }
    }

    fn begin_line(&mut self) {
        self.line += 1;
        self.journal.push(Entry::Line(self.line));
    }

    /// The head of a queue is delivered.
    fn deliver(&mut self, queue: usize) {
        let item = self.queues[queue].pop_front().expect("the queue is not empty");
        if self.queues[queue].is_empty() {
            self.busy[queue / 64] &= !(1 << (queue % 64));
        }
        match self.peers[queue] {
            Peer::Switch(switch, port) => self.receive(switch as usize, port, queue < self.hosts, item),
            Peer::Host(host) => self.arrive(host, item),
        }
    }

    fn arrive(&mut self, host: u32, item: Item) {
        if item.frame[..6] != mac_of(host as usize) {
            return;
        }
        self.arrived += 1;
        let seen = &mut self.in_line[host as usize];
        if seen.0 != self.line {
            *seen = (self.line, 0);
        }
        let length = item.frame.len() as u32;
        let capture = &mut self.captures[host as usize];
        for part in [seen.0, seen.1.min(999_999), length, length] {
            capture.extend_from_slice(&part.to_le_bytes());
        }
        capture.extend_from_slice(&item.frame);
        seen.1 += 1;
        self.journal.push(Entry::Arrived(item.id, host, item.frame));
    }

    fn receive(&mut self, s: usize, port: u8, is_from_host: bool, mut item: Item) {
        let frame = &mut item.frame;
        if frame.len() < 14 || frame.len() > 65_553 {
            return;
        }
        if kind(frame) == CONTROL {
            self.switches[s].hear(port, frame);
            return;
        }
        self.crossed += 1;
        self.journal.push(Entry::Crossed(item.id, s as u32));
        let switch = &self.switches[s];
        if is_from_host {
            let source: Mac = frame[6..12].try_into().expect("six bytes");
            let Some(granted) = switch.addresses.get(&(port, source)) else { return };
            if is_arp_or_igmp(frame) {
                return;
            }
            frame[6..12].copy_from_slice(granted);
        }
        if let Some(out) = switch.next_port(is_from_host, frame) {
            self.push(self.hosts + s * self.k + usize::from(out), item);
        }
    }

    /// A location discovery message on each port that is no host port.
    fn tick(&mut self, s: usize) {
        for port in 0..self.k {
            let queue = self.hosts + s * self.k + port;
            if let Peer::Switch(..) = self.peers[queue] {
                let frame = self.switches[s].message(s as u64 + 1, port);
                self.push(queue, Item { id: 0, frame });
            }
        }
    }

    /// The first queue from this one on that is not empty.
    fn next_busy(&self, from: usize) -> Option<usize> {
        let mut word = from / 64;
        let mut bits = self.busy.get(word)? & (!0 << (from % 64));
        while bits == 0 {
            word += 1;
            bits = *self.busy.get(word)?;
        }
        Some(64 * word + bits.trailing_zeros() as usize)
    }

    /// The queue that is the n-th of those that are not empty, from 0.
    fn nth_busy(&self, mut n: u32) -> usize {
        let mut word = 0;
        while n >= self.busy[word].count_ones() {
            n -= self.busy[word].count_ones();
            word += 1;
        }
        64 * word + nth_bit(self.busy[word], n) as usize
    }

    fn sweep(&mut self) {
        let mut next = self.next_busy(0);
        while let Some(queue) = next {
            (0..self.queues[queue].len()).for_each(|_| self.deliver(queue));
            next = self.next_busy(queue + 1);
        }
    }

    /// Sweeps until every queue is empty.
    pub fn drain(&mut self) {
        self.begin_line();
        while self.next_busy(0).is_some() {
            self.sweep();
        }
    }

    /// Steps that are drawn: a queue that is not empty delivers its head, or a switch ticks.
    pub fn draw(&mut self, steps: u64) {
        self.begin_line();
        let mut state: u64 = 3;
        for _ in 0..steps {
            state = state.wrapping_mul(6_364_136_223_846_793_005).wrapping_add(1_442_695_040_888_963_407);
            let full: u64 = self.busy.iter().map(|word| u64::from(word.count_ones())).sum();
            let chosen = (state >> 32) % (full + self.switches.len() as u64);
            match chosen.checked_sub(full) {
                Some(switch) => self.tick(switch as usize),
                None => self.deliver(self.nth_busy(chosen as u32)),
            }
        }
    }

    pub fn save(&self, folder: &str) -> io::Result<()> {
        journal::save(&self.journal, &Names::new(self.k), File::create(format!("{folder}/journal.txt"))?)?;
        for (host, capture) in self.captures.iter().enumerate() {
            let mut file = BufWriter::new(File::create(format!("{folder}/h{host}.pcap"))?);
            file.write_all(&[
                0xd4, 0xc3, 0xb2, 0xa1, 2, 0, 4, 0, 0, 0, 0, 0, 0, 0, 0, 0, 0, 0, 4, 0, 1, 0, 0, 0,
            ])?;
            file.write_all(capture)?;
            file.flush()?;
        }
        Ok(())
    }
}
