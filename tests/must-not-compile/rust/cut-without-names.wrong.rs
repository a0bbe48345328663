// The numbers of a cut come without names, and exchanged.
use lobzhinar::{Cut, Packet};

pub fn host(packet: Packet<'_>) -> bool {
    packet.is_cut(&[Cut(36, 48)]) //~ E0423
}
