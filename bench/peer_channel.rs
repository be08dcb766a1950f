//! Threads of one process send and receive texts of one length through a bounded channel of Rust's
//! standard library, and the receivers count the bytes that came: `peer_channel WORD BYTES COUNT
//! SENDERS RECEIVERS QUOTA`. WORD is `flow`, where each sender sends COUNT texts, or `two`, where two
//! threads pass one text there and back, on two channels. A channel of the standard library has one
//! receiver: several share it by a mutex. As many texts may wait as QUOTA has bytes for, or that many
//! of no bytes. A program that bench/threads.sh times the queues against.
use std::sync::mpsc::{Receiver, SyncSender, sync_channel};
use std::sync::{Arc, Mutex};
use std::thread;

static SOURCE: [u8; 65_536] = [b'x'; 65_536];

fn bounded(size: usize, quota: usize) -> (SyncSender<Vec<u8>>, Receiver<Vec<u8>>) {
    sync_channel(quota / size.max(1))
}

fn pass_back(size: usize, count: usize, quota: usize) -> usize {
    let (there, comes) = bounded(size, quota);
    let (answer, back) = bounded(size, quota);
    let other = thread::spawn(move || {
        for _ in 0..count {
            comes.recv().unwrap();
            answer.send(SOURCE[..size].to_vec()).unwrap();
        }
    });
    let mut bytes = 0;
    for _ in 0..count {
        there.send(SOURCE[..size].to_vec()).unwrap();
        bytes += back.recv().unwrap().len();
    }
    other.join().unwrap();
    bytes
}

fn flow(senders: usize, receivers: usize, size: usize, count: usize, quota: usize) -> usize {
    let (there, comes) = bounded(size, quota);
    let comes = Arc::new(Mutex::new(comes));
    let mut threads = Vec::new();
    for _ in 0..senders {
        let there = there.clone();
        threads.push(thread::spawn(move || {
            for _ in 0..count {
                there.send(SOURCE[..size].to_vec()).unwrap();
            }
            0
        }));
    }
    for _ in 0..receivers {
        let comes = Arc::clone(&comes);
        threads.push(thread::spawn(move || {
            let mut bytes = 0;
            for _ in 0..senders * count / receivers {
                let text = comes.lock().unwrap().recv().unwrap();
                bytes += text.len();
            }
            bytes
        }));
    }
    threads.into_iter().map(|it| it.join().unwrap()).sum()
}

fn main() {
    let words: Vec<String> = std::env::args().skip(1).collect();
    let number = |k: usize| words[k].parse::<usize>().unwrap();
    let (size, count, quota) = (number(1), number(2), number(5));
    let bytes = if words[0] == "two" {
        pass_back(size, count, quota)
    } else {
        flow(number(3), number(4), size, count, quota)
    };
    println!("{bytes} bytes came");
}
