//! Sends COUNT messages as producer.c does: `messages FILE COUNT`. Receives them as consumer.c
//! does: `messages FILE`. Programs in C, C++ and Rust may use one file, and be killed.
use bb_memory::{PoolFile, PoolFileOptions, Reap};
use std::{env, error, process};

const OPTIONS: PoolFileOptions = PoolFileOptions {
    bucket_size: 256,
    bucket_align: 64,
    buckets: 1000,
    parties: 16,
    slots: 1,
    depth: 100,
    mode: 0o600,
    user_bytes: 0,
};

/// The queue of the messages.
const SLOT: u32 = 0;

fn main() -> Result<(), Box<dyn error::Error>> {
    let words: Vec<String> = env::args().collect();
    let file = PoolFile::open(&words[1], &OPTIONS)?;
    if let Some(count) = words.get(2) {
        let sender = file.sender(SLOT)?;
        for number in 0..count.parse::<u64>()? {
            sender.send(format!("{} {number}\0", process::id()))?;
        }
        return Ok(());
    }
    let receiver = file.receiver(SLOT)?;
    // A message that a killed receiver had taken comes first.
    file.reap(Reap::Held)?;
    for message in receiver.iter() {
        let mut message = message?;
        println!("{}", String::from_utf8_lossy(&message).trim_end_matches('\0'));
        // If this process is killed before this, another one prints the message again.
        message.done();
    }
    Ok(())
}
