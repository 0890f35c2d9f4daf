//! Links descriptor sets from disk, and tells what is in them or why they are not linked.
//!
//!     cargo run --example link -- set.pb

use protolink::{DescriptorError, DescriptorPool};
use std::error::Error;
use std::{env, fs, process};

fn main() -> Result<(), Box<dyn Error>> {
    let mut pool = DescriptorPool::new();
    for name in env::args_os().skip(1) {
        match pool.decode_file_descriptor_set(fs::read(name)?) {
            Ok(_) => {}
            Err(DescriptorError::Refused(faults)) => {
                for fault in &faults {
                    eprintln!("{fault}\n  note: {}", fault.note);
                }
                process::exit(1);
            }
            Err(other) => return Err(other.into()),
        }
    }
    for message in pool.all_messages() {
        println!("{}", message.full_name());
        for field in message.fields() {
            println!("  {} = {}: {}", field.name(), field.number(), field.kind());
        }
    }
    println!("{:?}", pool.counts());
    Ok(())
}
