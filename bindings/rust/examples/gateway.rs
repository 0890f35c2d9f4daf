//! A gateway finds the method of each request by its path, from four threads that share one pool.
//!
//!     cargo run --release --example gateway -- set.pb
//!
//! Without a method in the sets it finds messages. It tells how many look-ups were made a second,
//! and how many found something else.

use protolink::{DescriptorPool, MethodDescriptor};
use std::error::Error;
use std::sync::Arc;
use std::time::Instant;
use std::{env, fs, process, thread};

const THREADS: usize = 4;

/// How many look-ups each thread makes.
const LOOK_UPS: usize = 100_000;

/// What all threads share. It has no lifetime, so a server may keep it.
struct Gateway {
    pool: DescriptorPool,
    /// The paths of requests, as gRPC has them, or the names of messages.
    paths: Vec<String>,
}

impl Gateway {
    fn new(pool: DescriptorPool) -> Gateway {
        let methods = pool
            .services()
            .flat_map(|service| service.methods().collect::<Vec<_>>());
        let mut paths: Vec<String> = methods.map(|method| path_of(&method)).collect();
        if paths.is_empty() {
            let messages = pool.all_messages();
            paths.extend(messages.map(|message| message.full_name().to_owned()));
        }
        Gateway { pool, paths }
    }

    /// The method of a path `/package.Service/Method`.
    fn method(&self, path: &str) -> Option<MethodDescriptor> {
        let (service, method) = path.strip_prefix('/')?.split_once('/')?;
        let service = self.pool.get_service_by_name(service)?;
        service.get_method_by_name(method)
    }

    /// Whether a path leads to what it was made of.
    fn is_right(&self, path: &str) -> bool {
        match self.method(path) {
            Some(method) => path_of(&method) == *path && !method.input().full_name().is_empty(),
            None => self
                .pool
                .get_message_by_name(path)
                .map_or(false, |message| message.full_name() == path),
        }
    }

    /// Looks paths up, beginning with one of them, and answers how many found something else.
    fn look_up(&self, first: usize) -> usize {
        let paths = self.paths.iter().cycle().skip(first);
        paths
            .take(LOOK_UPS)
            .filter(|path| !self.is_right(path))
            .count()
    }
}

fn path_of(method: &MethodDescriptor) -> String {
    format!("/{}/{}", method.parent_service().full_name(), method.name())
}

fn main() -> Result<(), Box<dyn Error>> {
    let mut pool = DescriptorPool::new();
    for name in env::args_os().skip(1) {
        pool.decode_file_descriptor_set(fs::read(name)?)?;
    }
    let gateway = Arc::new(Gateway::new(pool));
    if gateway.paths.is_empty() {
        return Err("usage: gateway SET..".into());
    }
    let begun = Instant::now();
    let threads: Vec<_> = (0..THREADS)
        .map(|thread| {
            let gateway = Arc::clone(&gateway);
            thread::spawn(move || gateway.look_up(thread))
        })
        .collect();
    let wrong: usize = threads
        .into_iter()
        .map(|thread| thread.join().expect("a thread"))
        .sum();
    let a_second = (THREADS * LOOK_UPS) as f64 / begun.elapsed().as_secs_f64();
    println!(
        "{} paths, {THREADS} threads, {a_second:.0} look-ups a second, {wrong} wrong",
        gateway.paths.len()
    );
    if wrong > 0 {
        process::exit(1);
    }
    Ok(())
}
