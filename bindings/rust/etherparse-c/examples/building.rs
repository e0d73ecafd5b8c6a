//! Builds the frame of a UDP datagram header by header.
use etherparse_c::PacketBuilder;

fn main() -> Result<(), etherparse_c::BuildError> {
    let builder = PacketBuilder::ethernet2([1, 2, 3, 4, 5, 6], [7, 8, 9, 10, 11, 12]) // source, destination
        .ipv4([192, 168, 1, 1], [192, 168, 1, 2], 20) // source, destination, TTL
        .udp(21, 1234); // source, destination
    let payload = [1, 2, 3, 4, 5, 6, 7, 8];

    // enough capacity for the frame, so that it is not reallocated while it is written
    let mut frame = Vec::with_capacity(builder.size(payload.len()));
    builder.write(&mut frame, &payload)?;
    println!("{frame:02x?}");
    Ok(())
}
