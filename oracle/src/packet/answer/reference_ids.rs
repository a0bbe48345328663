//! Reference id requests and responses.

use super::domain::{LONGEST, LONGEST_V5_DATA, Outside, inside};
use super::line::Answer;
use super::numbers;
use super::output::{self, Output};
use crate::format::{Parsed, Words, hex};
use crate::packet::v5::extension_fields::probe::make_request;
use crate::packet::v5::extension_fields::{ReferenceIdRequest, ReferenceIdResponse};
use crate::packet::v5::server_reference_id::BloomFilter;

pub fn request_new(words: &mut Words) -> Parsed<Answer> {
    let payload = words.number()?;
    let offset = words.number()?;
    words.end()?;
    Ok(new_request(payload, offset).into())
}

fn new_request(payload: u16, offset: u16) -> Result<Answer, Outside> {
    // The Rust adds the two only for a payload that is a multiple of four.
    let added = payload.is_multiple_of(4);
    let wraps = added && payload.checked_add(offset).is_none();
    inside(!wraps, Outside::RequestSumWraps)?;
    let request = ReferenceIdRequest::new(payload, offset);
    Ok(request.map_or(Answer::number(numbers::CANNOT_BE_MADE), numbers_of_request))
}

fn numbers_of_request(request: ReferenceIdRequest) -> Answer {
    Answer::accepted(format_args!(
        "{} {}",
        request.payload_len(),
        request.offset()
    ))
}

pub fn request_read(words: &mut Words) -> Parsed<Answer> {
    let message = words.bytes()?;
    words.end()?;
    Ok(read_request(&message).into())
}

fn read_request(message: &[u8]) -> Result<Answer, Outside> {
    // The Rust panics on a longer message, which no field can hold.
    inside(message.len() <= LONGEST, Outside::MessageTooLong)?;
    Ok(match ReferenceIdRequest::decode(message) {
        Ok(request) => numbers_of_request(request),
        Err(refused) => numbers::refusal(&refused),
    })
}

pub fn request_write(words: &mut Words) -> Parsed<Answer> {
    let payload = words.number()?;
    let offset = words.number()?;
    let output = Output::read(words)?;
    words.end()?;
    Ok(write_request(make_request(payload, offset), output).into())
}

fn write_request(request: ReferenceIdRequest, output: Output) -> Result<Answer, Outside> {
    request_inside(request)?;
    output.inside_limits()?;
    let done = output.write(|cursor| request.serialize(cursor));
    Ok(output::answer(done))
}

/// The Rust writes eight bytes with length 4 for payload 0, asserts a multiple
/// of four after it has written the first eight bytes, and lets the sum of the
/// payload and four wrap.
pub fn request_inside(request: ReferenceIdRequest) -> Result<(), Outside> {
    let payload = usize::from(request.payload_len());
    let whole_words = payload != 0 && payload % 4 == 0;
    inside(whole_words, Outside::RequestNotWritable)?;
    inside(payload <= LONGEST_V5_DATA, Outside::FieldTooLong)
}

pub fn response_new(words: &mut Words) -> Parsed<Answer> {
    let bytes = words.bytes()?;
    words.end()?;
    Ok(new_response(&bytes).into())
}

fn new_response(bytes: &[u8]) -> Result<Answer, Outside> {
    inside(bytes.len() <= LONGEST, Outside::MessageTooLong)?;
    Ok(match ReferenceIdResponse::new(bytes) {
        Some(response) => Answer::accepted(response.bytes().len()),
        None => Answer::number(numbers::CANNOT_BE_MADE),
    })
}

pub fn response_cut(words: &mut Words) -> Parsed<Answer> {
    let payload = words.number()?;
    let offset = words.number()?;
    let filter = words.bytes()?;
    words.end()?;
    Ok(cut_response(make_request(payload, offset), filter).into())
}

fn cut_response(request: ReferenceIdRequest, filter: Vec<u8>) -> Result<Answer, Outside> {
    let filter = filter.try_into().map_err(|_| Outside::FilterSize)?;
    let filter = BloomFilter::from_bytes(filter);
    Ok(match request.to_response(&filter) {
        Some(response) => Answer::accepted(hex(response.bytes())),
        None => Answer::number(numbers::CANNOT_BE_MADE),
    })
}

pub fn response_read(words: &mut Words) -> Parsed<Answer> {
    let message = words.bytes()?;
    words.end()?;
    Ok(read_response(&message).into())
}

fn read_response(message: &[u8]) -> Result<Answer, Outside> {
    inside(message.len() <= LONGEST, Outside::MessageTooLong)?;
    let response = ReferenceIdResponse::decode(message);
    Ok(Answer::accepted(hex(response.bytes())))
}

pub fn response_write(words: &mut Words) -> Parsed<Answer> {
    let bytes = words.bytes()?;
    let output = Output::read(words)?;
    words.end()?;
    Ok(write_response(&ReferenceIdResponse::decode(&bytes), output).into())
}

fn write_response(response: &ReferenceIdResponse, output: Output) -> Result<Answer, Outside> {
    response_inside(response)?;
    output.inside_limits()?;
    let done = output.write(|cursor| response.serialize(cursor));
    Ok(output::answer(done))
}

/// The Rust lets the sum of the length and four wrap.
pub fn response_inside(response: &ReferenceIdResponse) -> Result<(), Outside> {
    let length = response.bytes().len();
    inside(length <= LONGEST_V5_DATA, Outside::FieldTooLong)
}
