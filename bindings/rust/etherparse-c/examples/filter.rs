//! Prints the UDP datagrams to a port of an Ethernet II capture (classic pcap, little-endian).
use etherparse_c::{SlicedPacket, TransportSlice};
use std::{env, error::Error, fs};

fn main() -> Result<(), Box<dyn Error>> {
    let mut args = env::args().skip(1);
    let (Some(port), Some(path)) = (args.next(), args.next()) else {
        return Err("usage: filter PORT FILE".into());
    };
    let port: u16 = port.parse()?;
    let capture = fs::read(path)?;
    let word = |at: usize| capture.get(at..at + 4).map(|word| u32::from_le_bytes(word.try_into().unwrap()));
    if word(0) != Some(0xa1b2_c3d4) || word(20) != Some(1) {
        return Err("no capture of Ethernet".into());
    }
    let (mut at, mut frames, mut found, mut refused) = (24, 0, 0, 0);
    while let Some(len) = word(at + 8) {
        let end = at + 16 + len as usize;
        let frame = capture.get(at + 16..end).ok_or("the capture is cut")?;
        at = end;
        frames += 1;
        let packet = match SlicedPacket::from_ethernet(frame) {
            Ok(packet) => packet,
            Err(refusal) => {
                println!("{frames}: {refusal}");
                refused += 1;
                continue;
            }
        };
        let Some(TransportSlice::Udp(udp)) = packet.transport() else { continue };
        if udp.destination_port() != port {
            continue;
        }
        found += 1;
        print!("{frames}: port {}, {:02x?}", udp.source_port(), udp.payload());
        for id in packet.vlan_ids() {
            print!(", VLAN {id}");
        }
        println!();
    }
    println!("{frames} frames, {found} to port {port}, {refused} refused");
    Ok(())
}
