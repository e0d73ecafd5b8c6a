//! Parses the headers of a frame into owned values and prints their fields.
use etherparse_c::{PacketBuilder, PacketHeaders};

fn main() {
    let mut frame = Vec::new();
    let builder =
        PacketBuilder::ethernet2([1, 2, 3, 4, 5, 6], [7, 8, 9, 10, 11, 12]).ipv6([1; 16], [2; 16], 64).udp(21, 1234);
    builder.write(&mut frame, &[1, 2, 3]).expect("it fits");

    for frame in [&frame[..], &frame[..60]] {
        match PacketHeaders::from_ethernet_slice(frame) {
            Ok(headers) => {
                println!("link: {:?}", headers.link);
                println!("link_exts: {:?}", headers.link_exts);
                println!("net: {:?}", headers.net);
                println!("transport: {:?}", headers.transport);
                println!("payload: {:?}", headers.payload);
            }
            Err(refusal) => println!("refused: {refusal}"),
        }
    }
}
