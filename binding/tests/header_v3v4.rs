//! The header of `NTPv3` and `NTPv4`, and its units.

use lobzhinar::{
    HEADER_SIZE, HeaderError, LeapBits, NtpAssociationMode, NtpHeaderV3V4, NtpHeaderV5, NtpShort,
    NtpTimestamp, NtpVersionV3V4, PollInterval, ReferenceId, Refusal,
};

/// Every part has bytes of its own.
const BYTES: [u8; HEADER_SIZE] = [
    0xA4, 0x02, 0x0A, 0xE9, 0x00, 0x01, 0x00, 0x03, 0x00, 0x00, 0x80, 0x05, 0x47, 0x50, 0x53, 0x01,
    0x11, 0x12, 0x13, 0x14, 0x15, 0x16, 0x17, 0x18, 0x21, 0x22, 0x23, 0x24, 0x25, 0x26, 0x27, 0x28,
    0x31, 0x32, 0x33, 0x34, 0x35, 0x36, 0x37, 0x38, 0x41, 0x42, 0x43, 0x44, 0x45, 0x46, 0x47, 0x48,
];

const HEADER: NtpHeaderV3V4 = NtpHeaderV3V4 {
    leap: LeapBits::Leap59,
    version: NtpVersionV3V4::V4,
    mode: NtpAssociationMode::Server,
    stratum: 2,
    poll: PollInterval::from_byte(10),
    precision_log2_seconds: -23,
    root_delay: NtpShort::from_units_of_2pow_minus_16_s(0x0001_0003),
    root_dispersion: NtpShort::from_units_of_2pow_minus_16_s(0x0000_8005),
    reference_id: ReferenceId::from_bytes(*b"GPS\x01"),
    reference_timestamp: NtpTimestamp::from_units_of_2pow_minus_32_s_in_era(0x1112_1314_1516_1718),
    origin_timestamp: NtpTimestamp::from_units_of_2pow_minus_32_s_in_era(0x2122_2324_2526_2728),
    receive_timestamp: NtpTimestamp::from_units_of_2pow_minus_32_s_in_era(0x3132_3334_3536_3738),
    transmit_timestamp: NtpTimestamp::from_units_of_2pow_minus_32_s_in_era(0x4142_4344_4546_4748),
};

const LEAPS: [LeapBits; 4] = [
    LeapBits::NoWarning,
    LeapBits::Leap61,
    LeapBits::Leap59,
    LeapBits::Unsynchronized,
];

const MODES: [NtpAssociationMode; 8] = [
    NtpAssociationMode::Reserved,
    NtpAssociationMode::SymmetricActive,
    NtpAssociationMode::SymmetricPassive,
    NtpAssociationMode::Client,
    NtpAssociationMode::Server,
    NtpAssociationMode::Broadcast,
    NtpAssociationMode::Control,
    NtpAssociationMode::Private,
];

#[test]
fn every_part_has_its_place() {
    assert_eq!(NtpHeaderV3V4::deserialize(&BYTES), Ok(HEADER));
    // What follows the header is not looked at.
    let longer = [&BYTES[..], &[0xFF]].concat();
    assert_eq!(NtpHeaderV3V4::deserialize(&longer), Ok(HEADER));
    let mut out = [0xEE; HEADER_SIZE + 2];
    assert_eq!(HEADER.serialize(&mut out, 1), Ok(HEADER_SIZE));
    assert_eq!(out[1..=HEADER_SIZE], BYTES);
    assert_eq!([out[0], out[HEADER_SIZE + 1]], [0xEE; 2]);
}

#[test]
fn every_leap_version_and_mode_is_kept() {
    for (leap, bits) in LEAPS.into_iter().zip(0..) {
        for (version, number) in [(NtpVersionV3V4::V3, 3), (NtpVersionV3V4::V4, 4)] {
            for (mode, low) in MODES.into_iter().zip(0..) {
                let mut bytes = BYTES;
                bytes[0] = bits << 6 | number << 3 | low;
                let header = NtpHeaderV3V4 {
                    leap,
                    version,
                    mode,
                    ..HEADER
                };
                assert_eq!(NtpHeaderV3V4::deserialize(&bytes), Ok(header));
                let mut out = [0; HEADER_SIZE];
                assert_eq!(header.serialize(&mut out, 0), Ok(HEADER_SIZE));
                assert_eq!(out, bytes);
            }
        }
    }
}

#[test]
fn other_versions_are_refused() {
    for version in [0, 1, 2, 5, 6, 7] {
        let mut bytes = BYTES;
        bytes[0] = version << 3;
        let refused = Err(HeaderError::InvalidVersion(version));
        assert_eq!(NtpHeaderV3V4::deserialize(&bytes), refused);
        let refused = Err(HeaderError::Refused(Refusal::IncorrectLength));
        assert_eq!(NtpHeaderV3V4::deserialize(&bytes[..47]), refused);
    }
    let refused = Err(HeaderError::Refused(Refusal::IncorrectLength));
    assert_eq!(NtpHeaderV3V4::deserialize(&[]), refused);
}

/// A host that does not know the version asks one reader, and the other if it says so.
#[test]
fn each_reader_tells_the_version_of_the_other() {
    assert_eq!(
        NtpHeaderV5::deserialize(&BYTES),
        Err(HeaderError::InvalidVersion(4))
    );
    let mut bytes = BYTES;
    bytes[0] = 0x2C;
    assert_eq!(
        NtpHeaderV3V4::deserialize(&bytes),
        Err(HeaderError::InvalidVersion(5))
    );
}

#[test]
fn without_room_nothing_is_written() {
    let mut out = [0xEE; HEADER_SIZE + 2];
    for (room, offset) in [(47, 0), (50, 3), (48, 1), (48, usize::MAX), (0, 0)] {
        assert_eq!(
            HEADER.serialize(&mut out[..room], offset),
            Err(Refusal::NoRoom)
        );
        assert_eq!(out, [0xEE; HEADER_SIZE + 2]);
    }
}

#[test]
fn times_are_exact() {
    let seconds = |units| NtpShort::from_units_of_2pow_minus_16_s(units).seconds();
    assert_eq!(seconds(0x0001_0000).to_bits(), 0x3FF0_0000_0000_0000);
    assert_eq!(seconds(1).to_bits(), 0x3EF0_0000_0000_0000);
    assert_eq!(seconds(0).to_bits(), 0);
}

#[test]
fn the_distance_counts_half_of_the_delay() {
    let distance = |delay, dispersion| {
        let header = NtpHeaderV3V4 {
            root_delay: NtpShort::from_units_of_2pow_minus_16_s(delay),
            root_dispersion: NtpShort::from_units_of_2pow_minus_16_s(dispersion),
            ..HEADER
        };
        header.time_reading().distance_seconds.to_bits()
    };
    assert_eq!(distance(65_536, 32_768), 0x3FF0_0000_0000_0000);
    assert_eq!(distance(32_768, 65_536), 0x3FF4_0000_0000_0000);
    assert_eq!(distance(1, 0), 0x3EE0_0000_0000_0000);
    assert_eq!(distance(u32::MAX, u32::MAX), 0x40F7_FFFF_FFE8_0000);
}

#[test]
fn reference_ids_are_their_bytes() {
    for id in [
        ReferenceId::KISS_DENY,
        ReferenceId::KISS_RATE,
        ReferenceId::KISS_RSTR,
        ReferenceId::KISS_NTSN,
    ] {
        let mut out = [0; HEADER_SIZE];
        let header = NtpHeaderV3V4 {
            reference_id: id,
            ..HEADER
        };
        assert_eq!(header.serialize(&mut out, 0), Ok(HEADER_SIZE));
        assert_eq!(out[12..16], id.to_bytes());
    }
    assert_eq!(ReferenceId::KISS_DENY.to_bytes(), *b"DENY");
}
