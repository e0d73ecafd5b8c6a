//! Compares the time of the wrapper with that of the call that it makes: compare FILE ROUNDS [COLUMN], where FILE is a
//! corpus of crates/slice_bench/corpora.py, as bindings/c/examples/compare.cc reads it. Prints nanoseconds for each
//! frame, of the fastest round. With COLUMN, a printed name, only that column runs, so that its instructions can be
//! counted.
use etherparse_c::{sys, ChecksumVerdict, Entry, LinkSlice, NetSlice, PacketHeaders, SlicedPacket, TransportSlice};
use std::{env, error::Error, fs, hint::black_box, time::Instant};

fn by_call(frames: &[&[u8]]) -> usize {
    let mut packet = sys::Packet::default();
    let mut sum = 0;
    for frame in frames {
        // SAFETY: both pointers come from references that outlive the call, and they do not overlap.
        let status = unsafe { sys::etherparse_slice(sys::ENTRY_ETHERNET, 0, frame.as_ptr(), frame.len(), &mut packet) };
        sum += if status == sys::OK { packet.payload.len } else { 0 };
    }
    sum
}

fn by_wrapper(frames: &[&[u8]]) -> usize {
    let mut sum = 0;
    for frame in frames {
        if let Ok(packet) = SlicedPacket::from_ethernet(frame) {
            sum += packet.payload().len();
        }
    }
    sum
}

/// Slices each frame into a new packet that is passed on to code that is opaque to the compiler.
fn handed_on(frames: &[&[u8]]) -> usize {
    let mut sum = 0;
    for frame in frames {
        if let Ok(packet) = &SlicedPacket::from_ethernet(frame) {
            sum += black_box(packet).payload().len();
        }
    }
    sum
}

/// Slices each frame into one packet that is reused.
fn into_one_handed_on(frames: &[&[u8]]) -> usize {
    let (mut sum, mut packet) = (0, SlicedPacket::EMPTY);
    for frame in frames {
        if packet.slice_into(Entry::Ethernet, frame).is_ok() {
            sum += black_box(&packet).payload().len();
        }
    }
    sum
}

/// Returns the sum of some fields of each layer.
fn sum_of_fields(link: Option<LinkSlice>, net: Option<NetSlice>, transport: Option<TransportSlice>) -> usize {
    let mut sum = 0;
    if let Some(LinkSlice::Ethernet2(link)) = link {
        sum += usize::from(link.ether_type().0) + usize::from(link.source()[5]);
    }
    if let Some(NetSlice::Ipv4(ip)) = net {
        sum += usize::from(ip.header().ttl()) + usize::from(ip.header().source()[3]);
    }
    if let Some(TransportSlice::Udp(udp)) = transport {
        sum += usize::from(udp.source_port()) + usize::from(udp.length()) + udp.payload().len();
    }
    sum
}

/// Slices each frame, and reads the fields of all headers by one call.
fn fields(frames: &[&[u8]]) -> usize {
    let mut sum = 0;
    for frame in frames {
        if let Ok(packet) = SlicedPacket::from_ethernet(frame) {
            let fields = packet.fields();
            sum += sum_of_fields(fields.link(), fields.net(), fields.transport());
        }
    }
    sum
}

/// Slices each frame, and reads the fields of each layer by a call of its own.
fn layers(frames: &[&[u8]]) -> usize {
    let mut sum = 0;
    for frame in frames {
        if let Ok(packet) = SlicedPacket::from_ethernet(frame) {
            sum += sum_of_fields(packet.link(), packet.net(), packet.transport());
        }
    }
    sum
}

/// Slices each frame, and reads one field.
fn one_field(frames: &[&[u8]]) -> usize {
    let mut sum = 0;
    for frame in frames {
        if let Ok(packet) = SlicedPacket::from_ethernet(frame) {
            sum +=
                packet.transport().and_then(|transport| transport.udp()).map_or(0, |udp| usize::from(udp.checksum()));
        }
    }
    sum
}

/// Slices each frame into owned headers.
fn owned(frames: &[&[u8]]) -> usize {
    let mut sum = 0;
    for frame in frames {
        if let Ok(headers) = &PacketHeaders::from_ethernet_slice(frame) {
            sum += black_box(headers).payload.len();
        }
    }
    sum
}

/// Slices each frame, and verifies its checksums.
fn checksums(frames: &[&[u8]]) -> usize {
    let mut sum = 0;
    for frame in frames {
        if let Ok(packet) = SlicedPacket::from_ethernet(frame) {
            sum += usize::from(packet.checksums().transport == Some(ChecksumVerdict::Valid));
        }
    }
    sum
}

/// A way to read frames: its name, and a function that returns the sum of the values that it reads.
type Column = (&'static str, fn(&[&[u8]]) -> usize);

fn main() -> Result<(), Box<dyn Error>> {
    let mut args = env::args().skip(1);
    let (Some(path), Some(rounds)) = (args.next(), args.next()) else {
        return Err("usage: compare FILE ROUNDS [COLUMN]".into());
    };
    let chosen = args.next();
    let (all, rounds) = (fs::read(path)?, rounds.parse::<u32>()?);
    let (mut frames, mut at) = (Vec::new(), 0);
    while let Some(len) = all.get(at..at + 4) {
        let end = at + 4 + u32::from_le_bytes(len.try_into()?) as usize;
        frames.push(all.get(at + 4..end).ok_or("the corpus is cut")?);
        at = end;
    }
    let columns: [Column; 9] = [
        ("call_from_rust", by_call),
        ("slice", by_wrapper),
        ("handed_on", handed_on),
        ("into_one_handed_on", into_one_handed_on),
        ("one_field", one_field),
        ("fields", fields),
        ("layers", layers),
        ("owned", owned),
        ("checksums", checksums),
    ];
    let columns = columns.into_iter().filter(|(name, _)| chosen.as_deref().map_or(true, |chosen| chosen == *name));
    let mut columns: Vec<_> = columns.map(|(name, run)| (name, run, f64::INFINITY, 0)).collect();
    for _ in 0..rounds {
        for (_, run, fastest, sum) in &mut columns {
            let from = Instant::now();
            *sum = run(black_box(&frames));
            *fastest = fastest.min(from.elapsed().as_nanos() as f64 / frames.len() as f64);
        }
    }
    println!("{} frames", frames.len());
    for (name, _, fastest, sum) in columns {
        println!("{name:18} {fastest:8.1} ns  (sum {sum})");
    }
    Ok(())
}
