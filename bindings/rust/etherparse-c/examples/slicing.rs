//! Slices a frame and prints its layers.
use etherparse_c::{PacketBuilder, SlicedPacket};

fn main() {
    let mut frame = Vec::new();
    let builder = PacketBuilder::ethernet2([1, 2, 3, 4, 5, 6], [7, 8, 9, 10, 11, 12])
        .ipv4([192, 168, 1, 1], [192, 168, 1, 2], 20)
        .tcp(80, 4000, 7, 512)
        .ack(9);
    builder.write(&mut frame, b"hello").expect("it fits");

    for frame in [&frame[..], &frame[..30]] {
        match SlicedPacket::from_ethernet(frame) {
            Ok(packet) => {
                println!("link: {:?}", packet.link());
                println!("link_exts: {:?}", packet.link_exts());
                println!("net: {:?}", packet.net());
                println!("transport: {:?}", packet.transport());
            }
            Err(refusal) => println!("refused: {refusal}"),
        }
    }
}
