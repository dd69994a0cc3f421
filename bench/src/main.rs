//! Times the port and the Rust in one process on the same accesses, and prints medians and ratios.
//!
//! Each is called as a VMM calls it: the port behind a lent device, with all its words for actions; the Rust as a
//! `dyn DeviceIo`. Rounds of the two take turns, so that a slow moment of the machine meets both.

mod rust;

use std::hint::black_box;
use std::time::Instant;

use dbs_device::{DeviceIo, IoAddress};
use dewbracket::{Actions, Configuration, Device, ALL};

const ROUNDS: usize = 61;
const PASSES: usize = 5;
const READS: u32 = 200_000;

#[derive(Clone, Copy)]
enum Access {
    Read { offset: u64, length: usize },
    Write { offset: u64, length: usize, value: u32 },
}

/// A line is `r OFFSET LENGTH` or `w OFFSET LENGTH VALUE`, offset and value in hex.
fn parse(line: &str) -> Access {
    let words: Vec<&str> = line.split(' ').collect();
    let hex = |word: &str| u64::from_str_radix(word.trim_start_matches("0x"), 16).expect("a number in hex");
    let (offset, length) = (hex(words[1]), words[2].parse().expect("a length"));
    match words[0] {
        "r" => Access::Read { offset, length },
        _ => Access::Write { offset, length, value: hex(words[3]) as u32 },
    }
}

fn port_device() -> Device {
    let mut sizes = [0; 16];
    sizes[0] = rust::QUEUE_SIZE;
    Device::new(Configuration {
        base: rust::BASE,
        size: rust::WINDOW,
        memory: rust::MEMORY,
        kind: rust::KIND,
        page0: rust::PAGES[0],
        page1: rust::PAGES[1],
        dataqueues: 1,
        sizes,
        ..Configuration::default()
    })
    .expect("an accepted configuration")
}

fn by_port(device: &mut Device, actions: &mut Actions, list: &[Access], reply: &mut [u8; 4]) {
    for access in list {
        match *access {
            Access::Read { offset, length } => {
                device.read(ALL, offset, black_box(&mut reply[..length]), actions);
            }
            Access::Write { offset, length, value } => {
                let bytes = value.to_le_bytes();
                device.write(ALL, offset, black_box(&bytes[..length]), actions);
            }
        }
    }
}

fn by_rust(device: &dyn DeviceIo, list: &[Access], reply: &mut [u8; 4]) {
    for access in list {
        match *access {
            Access::Read { offset, length } => {
                device.read(IoAddress(rust::BASE), IoAddress(offset), black_box(&mut reply[..length]));
            }
            Access::Write { offset, length, value } => {
                let bytes = value.to_le_bytes();
                device.write(IoAddress(rust::BASE), IoAddress(offset), black_box(&bytes[..length]));
            }
        }
    }
}

/// Both give the same replies, one access at a time.
fn check(list: &[Access]) {
    let (mut port, rust) = (port_device(), rust::Host::new());
    let mut actions = Actions::default();
    for access in list {
        let (mut a, mut b) = ([0; 4], [0; 4]);
        by_port(&mut port, &mut actions, &[*access], &mut a);
        by_rust(rust.device(), &[*access], &mut b);
        assert_eq!(a, b);
    }
}

#[derive(Default)]
struct Times {
    port: Vec<f64>,
    rust: Vec<f64>,
}

impl Times {
    fn print(mut self, name: &str) {
        self.port.sort_by(f64::total_cmp);
        self.rust.sort_by(f64::total_cmp);
        let middle = |times: &[f64]| times[times.len() / 2];
        let (port, rust) = (middle(&self.port), middle(&self.rust));
        println!(
            "{name:24} port {port:6.2} ns  Rust {rust:6.2} ns  ratio {:.2}   (best: {:.2} / {:.2} = {:.2})",
            port / rust,
            self.port[0],
            self.rust[0],
            self.port[0] / self.rust[0]
        );
    }
}

fn recorded(list: &[Access]) -> Times {
    let mut times = Times::default();
    let mut reply = [0; 4];
    for _ in 0..ROUNDS {
        let mut spent = [0.0; 2];
        for _ in 0..PASSES {
            let (mut device, mut actions) = (port_device(), Actions::default());
            let start = Instant::now();
            by_port(black_box(&mut device), &mut actions, list, &mut reply);
            spent[0] += start.elapsed().as_nanos() as f64;
            let host = rust::Host::new();
            let start = Instant::now();
            by_rust(black_box(host.device()), list, &mut reply);
            spent[1] += start.elapsed().as_nanos() as f64;
        }
        let accesses = (PASSES * list.len()) as f64;
        times.port.push(spent[0] / accesses);
        times.rust.push(spent[1] / accesses);
    }
    times
}

/// One register read over and over, of a device that the list brought up.
fn alone(list: &[Access], offset: u64) -> Times {
    let (mut device, mut actions, host) = (port_device(), Actions::default(), rust::Host::new());
    let mut reply = [0; 4];
    by_port(&mut device, &mut actions, list, &mut reply);
    by_rust(host.device(), list, &mut reply);
    let mut times = Times::default();
    for _ in 0..ROUNDS {
        let start = Instant::now();
        for _ in 0..READS {
            black_box(&device).read(ALL, black_box(offset), black_box(&mut reply), &mut actions);
        }
        times.port.push(start.elapsed().as_nanos() as f64 / f64::from(READS));
        let start = Instant::now();
        for _ in 0..READS {
            black_box(host.device()).read(IoAddress(rust::BASE), IoAddress(black_box(offset)), black_box(&mut reply));
        }
        times.rust.push(start.elapsed().as_nanos() as f64 / f64::from(READS));
    }
    times
}

fn main() {
    let list: Vec<Access> = include_str!("../polling-blk.txt").lines().map(parse).collect();
    check(&list);
    println!("{} recorded accesses; {ROUNDS} rounds; ns an access, medians", list.len());
    recorded(&list).print("recorded, polling-blk");
    for offset in [0x060, 0x044, 0x070] {
        alone(&list, offset).print(&format!("read of {offset:03x} alone"));
    }
}
