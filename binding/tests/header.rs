//! The header of `NTPv5`, its units, and the interface.

use core::error::Error;
use lobzhinar::{
    Full, HeaderError, INTERFACE, NotItsTurn, NtpHeaderV5, PollInterval, Refusal, Time32,
    interface_of_library,
};

#[test]
fn the_library_has_the_interface_of_this_crate() {
    assert_eq!(INTERFACE, interface_of_library());
}

#[test]
fn times_are_exact() {
    let seconds = |units| Time32::from_units_of_2pow_minus_28_s(units).seconds();
    assert_eq!(seconds(0x1000_0000).to_bits(), 0x3FF0_0000_0000_0000);
    assert_eq!(seconds(1).to_bits(), 0x3E30_0000_0000_0000);
    assert_eq!(seconds(0).to_bits(), 0);
}

#[test]
fn the_distance_counts_half_of_the_delay() {
    let distance = |delay: u32, dispersion: u32| {
        let mut bytes = [0; 48];
        bytes[0] = 0x2C;
        bytes[4..8].copy_from_slice(&delay.to_be_bytes());
        bytes[8..12].copy_from_slice(&dispersion.to_be_bytes());
        let header = NtpHeaderV5::deserialize(&bytes).unwrap();
        header.time_reading().distance_seconds.to_bits()
    };
    assert_eq!(distance(0x1000_0000, 0x0800_0000), 0x3FF0_0000_0000_0000);
    assert_eq!(distance(0x0800_0000, 0x1000_0000), 0x3FF4_0000_0000_0000);
    assert_eq!(distance(1, 0), 0x3E20_0000_0000_0000);
    assert_eq!(distance(u32::MAX, u32::MAX), 0x4037_FFFF_FFE8_0000);
}

#[test]
fn polls_are_signed() {
    for byte in 0..=255 {
        let poll = PollInterval::from_byte(byte);
        assert_eq!(poll.as_log2_seconds(), i8::from_be_bytes([byte]));
        assert_eq!(poll.as_byte(), byte);
    }
}

#[test]
fn a_header_error_says_the_version() {
    let error = NtpHeaderV5::deserialize(&[0x23; 48]).unwrap_err();
    assert_eq!(error, HeaderError::InvalidVersion(4));
    assert_eq!(error.number(), 11);
    assert_eq!(
        error.to_string(),
        "the version is 4, which is not this header's"
    );
    let error = NtpHeaderV5::deserialize(&[0x2B; 47]).unwrap_err();
    assert_eq!(error, HeaderError::Refused(Refusal::IncorrectLength));
    assert_eq!(Refusal::from(error), Refusal::IncorrectLength);
}

#[test]
fn errors_can_be_boxed() {
    let errors: [Box<dyn Error>; 4] = [
        Box::new(Refusal::NoRoom),
        Box::new(HeaderError::InvalidVersion(4)),
        Box::new(Full),
        Box::new(NotItsTurn),
    ];
    for error in errors {
        assert!(!error.to_string().is_empty());
    }
}
