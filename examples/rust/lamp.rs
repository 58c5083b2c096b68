//! The desk lamp of examples/c in Rust, with no crate but this one:
//!
//!     rustc -O -L out/lib examples/rust/lamp.rs && ./lamp 9001
mod vestrulj;

use std::collections::HashMap;
use std::net::UdpSocket;
use std::time::{Duration, SystemTime, UNIX_EPOCH};
use vestrulj::{Argument, Limits, Refused, Server, arguments};

/// The time as OSC has it: seconds since 1900 in 32 bits, and a fraction in 32.
fn now() -> u64 {
    let time = SystemTime::now().duration_since(UNIX_EPOCH).unwrap_or_default();
    (time.as_secs() + 2_208_988_800) << 32 | (u64::from(time.subsec_nanos()) << 32) / 1_000_000_000
}

fn time_until(moment: u64) -> Duration {
    let left = moment.saturating_sub(now());
    Duration::from_millis(((left >> 16) * 1000 >> 16) + 1)
}

/// The first argument as a number, 1 where there is none.
fn value_in(message: &[u8]) -> f64 {
    match arguments(message).unwrap_or_default().first() {
        Some(&Argument::Int(number)) => number.into(),
        Some(&Argument::Float(number)) => number.into(),
        Some(&Argument::Bool(false)) => 0.0,
        _ => 1.0,
    }
}

fn take(server: &mut Server, link: &UdpSocket) {
    let mut bytes = vec![0; 65536];
    let Ok(size) = link.recv(&mut bytes) else { return };
    // The wait for a datagram may have lasted: the clock is set before the packet is taken.
    let _ = server.tick(now());
    match server.submit(&bytes[..size]) {
        Ok(_) => {}
        Err(Refused::BadPacket { kind, place }) => println!("no packet: fault {kind} at {place}"),
        Err(Refused::Other(answer)) => println!("no room: status {}", answer.status),
    }
}

fn run(link: &UdpSocket) -> Result<(), Refused> {
    let mut server = Server::open(&Limits {
        units: 64,
        blocks: 256,
        methods: 16,
        nodes: 32,
        ..Limits::default()
    })?;
    let mut names = HashMap::new();
    for address in ["/lamp/level", "/lamp/on", "/lamp/unplug"] {
        names.insert(server.add(address)?, address);
    }
    let mut is_plugged = true;
    let mut next = None;
    while is_plugged {
        let _ = link.set_read_timeout(next.map(time_until));
        take(&mut server, link);
        let _ = server.tick(now());
        next = server.release_all(|call, message| {
            let value = value_in(message);
            match names[&call.method] {
                _ if !is_plugged => {}
                "/lamp/level" => println!("level {value:.2}"),
                "/lamp/on" => println!("{}", if value != 0.0 { "on" } else { "off" }),
                _ => {
                    println!("unplugged");
                    is_plugged = false;
                }
            }
        })?;
    }
    Ok(())
}

fn main() -> std::io::Result<()> {
    let port = std::env::args().nth(1).unwrap_or_else(|| "0".into());
    let link = UdpSocket::bind(format!("0.0.0.0:{port}"))?;
    println!("port {}", link.local_addr()?.port());
    run(&link).map_err(|why| std::io::Error::other(format!("{why:?}")))
}
