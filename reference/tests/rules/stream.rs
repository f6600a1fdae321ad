//! The stream of docs/CONSOLE.md.

use crate::given::k;
use reference::comparison::record_builder::mixed;
use reference::comparison::session::{
    batch, event, give_record, load, load_bytes, power_on, read, read_status, security_in, security_out,
    serves, write,
};
use reference::record_bytes::give;
use reference::stream::{serve, Command, Drive};

/// The replies of a fresh drive to bytes.
fn replies(bytes: &[u8]) -> Vec<u8> {
    let mut output = Vec::new();
    serve(&mut Drive::new(), &mut &bytes[..], &mut output).expect("memory can be read and written");
    output
}

/// The replies of a fresh drive to commands.
fn replies_to(commands: &[Command]) -> Vec<u8> {
    let mut bytes = Vec::new();
    commands.iter().for_each(|command| command.give(&mut bytes));
    replies(&bytes)
}

#[test]
fn a_command_is_eight_bytes_and_its_data() {
    let mut bytes = Vec::new();
    security_out(3, k()).give(&mut bytes);
    assert_eq!(bytes[..8], [2, 3, 0x00, 0x10, 0x20, 0, 0, 52]);
    assert_eq!(bytes[8..], k());
    assert_eq!(Command::read(&mut &bytes[..]).expect("memory can be read"), Some(security_out(3, k())));
}

#[test]
fn in_gives_the_length_and_the_whole_buffer() {
    let given = replies_to(&[security_in(0, 0x0001, 8)]);
    assert_eq!(given, [0, 0, 0, 0, 0, 10, 0, 6, 0, 1, 0, 2, 0, 0x10, 0xA5, 0xA5]);
    let refused = replies_to(&[security_in(0, 0x0002, 3)]);
    assert_eq!(refused, [6, 5, 0x24, 0, 0, 5, 0, 0, 0xA5, 0xA5, 0xA5]);
}

#[test]
fn write_gives_three_bytes() {
    let given = replies_to(&[security_out(3, k()), write(3, true), write(3, false)]);
    assert_eq!(given[6..], [0, 0, 0, 0, 0, 3, 2, 1, 1, 12, 7, 0x74, 7, 0, 0]);
}

#[test]
fn read_gives_two_bytes() {
    let mut bytes = Vec::new();
    read(3, 1, 2).give(&mut bytes);
    assert_eq!(bytes, [11, 3, 1, 2, 0, 0, 0, 0]);
    let given = replies_to(&[security_out(3, k()), read(3, 1, 0), read(4, 0, 255)]);
    assert_eq!(given[6..], [0, 0, 0, 0, 0, 2, 2, 1, 0, 0, 0, 0, 0, 2, 0, 0]);
    let refused = replies_to(&[security_out(3, k()), read(3, 1, 1), read(4, 1, 255), read(3, 0, 0)]);
    assert_eq!(refused[6..], [14, 0, 0, 0, 0, 0, 15, 7, 0x74, 1, 0, 0, 16, 7, 0x74, 2, 0, 0]);
    assert_eq!(replies_to(&[security_out(3, k()), read(3, 1, 255)])[6..], [17, 7, 0x74, 3, 0, 0]);
}

#[test]
fn read_gives_0_plain_1_raw_2_decrypted() {
    let k_with_mode = |mode| {
        let mut page = k();
        page[7] = mode;
        security_out(3, page)
    };
    let given = replies_to(&[k_with_mode(1), read(3, 0, 255), read(3, 2, 255)]);
    assert_eq!(given[6..], [0, 0, 0, 0, 0, 2, 0, 1, 0, 0, 0, 0, 0, 2, 1, 1]);
    let given = replies_to(&[k_with_mode(3), read(3, 0, 255), read(3, 1, 0)]);
    assert_eq!(given[6..], [0, 0, 0, 0, 0, 2, 0, 1, 0, 0, 0, 0, 0, 2, 2, 1]);
}

#[test]
fn a_read_ignores_protocol_port_and_length() {
    let read = Command { protocol: 0x99, port: 7, length: 500, ..read(3, 0, 255) };
    assert_eq!(replies_to(&[read.clone(), read]), [0, 0, 0, 0, 0, 2, 0, 0, 0, 0, 0, 0, 0, 2, 0, 0]);
}

#[test]
fn the_status_reader_gives_57_bytes() {
    let mut page = vec![0x00, 0x20, 0x00, 25, 0x42, 2, 3, 1, 1, 2, 3, 4, 0x05];
    page.resize(24, 0);
    page.extend([1, 0, 0, 1, 0xAD]);
    let mut expected = vec![0, 0, 0, 0, 0, 57, 2, 2, 2, 3, 1, 1, 2, 3, 4, 2, 1, 0];
    expected.extend([0; 32]);
    expected.extend([1, 0xAD]);
    expected.extend([0; 11]);
    assert_eq!(replies_to(&[read_status(page)]), expected);
    assert_eq!(replies_to(&[read_status(vec![])]), [7, 5, 0x1A, 0, 0, 0]);
}

#[test]
fn records_are_taken_and_given() {
    let bytes = give(&mixed());
    let given = replies_to(&[load(&mixed()), load_bytes(vec![2; 1357]), load_bytes(vec![]), give_record()]);
    assert_eq!(given[..18], [0, 0, 0, 0, 0, 0, 1, 0, 0, 0, 0, 0, 1, 0, 0, 0, 0, 0]);
    assert_eq!(given[18..24], [0, 0, 0, 0, 0x05, 0x4D]);
    assert_eq!(given[24..], bytes);
}

#[test]
fn a_record_that_is_not_well_formed_is_taken_and_given_and_refused() {
    let mut bytes = give(&mixed());
    bytes[5] = 7;
    let given =
        replies_to(&[load_bytes(bytes.clone()), write(0, true), give_record(), power_on(), write(0, true)]);
    assert_eq!(given[..12], [0, 0, 0, 0, 0, 0, 1, 0, 0, 0, 0, 0]);
    assert_eq!(given[18..1375], bytes);
    assert_eq!(given[1375..], [0, 0, 0, 0, 0, 0, 0, 0, 0, 0, 0, 3, 0, 0, 0]);
}

#[test]
fn kind_13_gives_the_word_of_a_place() {
    let mut bytes = Vec::new();
    serves(1).give(&mut bytes);
    assert_eq!(bytes, [13, 0, 0, 1, 0, 0, 0, 0]);
    let given =
        replies_to(&[security_out(3, k()), serves(0), serves(1), serves(4), serves(5), serves(0x0100)]);
    let expected = [
        &[0; 6][..],
        &[0, 0, 0, 0, 0, 8, 0, 0, 0, 0, 0, 0, 0xFF, 0xF7],
        &[0, 0, 0, 0, 0, 8, 0, 0, 0, 0, 0, 0, 0, 8],
        &[0, 0, 0, 0, 0, 8, 0, 0, 0, 0, 0, 0, 0, 0],
        &[13, 0, 0, 0, 0, 0],
        &[13, 0, 0, 0, 0, 0],
    ];
    assert_eq!(given, expected.concat());
}

#[test]
fn kind_13_ignores_nexus_protocol_port_and_length() {
    let sent = [load(&mixed()), serves(2), give_record()];
    let expected = replies_to(&sent);
    // nexus 4 has something pending, nexus 3 isn't registered
    for (nexus, protocol, port, length) in [(4, 0x20, 0, 0), (3, 0x20, 1, 8), (16, 0x21, 255, 0xFFFF)] {
        let command = Command { nexus, protocol, port, length, ..serves(2) };
        assert_eq!(replies_to(&[sent[0].clone(), command, sent[2].clone()]), expected);
    }
}

#[test]
fn kind_13_asks_for_a_well_formed_record_first() {
    let mut bytes = give(&mixed());
    bytes[1356] ^= 1;
    let given =
        replies_to(&[load_bytes(bytes.clone()), serves(0), serves(5), give_record(), power_on(), serves(0)]);
    assert_eq!(given[..18], [0, 0, 0, 0, 0, 0, 1, 0, 0, 0, 0, 0, 1, 0, 0, 0, 0, 0]);
    assert_eq!(given[24..1381], bytes);
    assert_eq!(given[1381..], [0, 0, 0, 0, 0, 0, 0, 0, 0, 0, 0, 8, 0, 0, 0, 0, 0, 0, 0xFF, 0xFF]);
}

#[test]
fn unknown_kinds_have_no_data() {
    let unknown = Command { length: 500, ..event(14) };
    assert_eq!(replies_to(&[unknown, event(252)]), [255, 0, 0, 0, 0, 0, 255, 0, 0, 0, 0, 0]);
}

/// The data of a batch: E, the events, the page bytes.
fn batch_data(events: &[[u8; 8]], page_bytes: &[u8]) -> Vec<u8> {
    let length = 8 * events.len() as u16;
    [&length.to_be_bytes()[..], &events.concat(), page_bytes].concat()
}

/// K from nexus 3, whose page is the page bytes; a write of nexus 3 without support.
const OUT_K: [u8; 8] = [2, 3, 0x00, 0x10, 0, 0, 0, 52];
const WRITE: [u8; 8] = [3, 3, 0, 0, 0, 0, 0, 0];

#[test]
fn a_batch_is_kind_12_with_the_buffers_size_as_argument() {
    let data = batch_data(&[OUT_K, WRITE], &k());
    assert_eq!(data[..2], [0, 16]);
    let mut bytes = Vec::new();
    batch(data.clone(), 10).give(&mut bytes);
    assert_eq!(bytes[..8], [12, 0, 0, 10, 0, 0, 0, 70]);
    assert_eq!(bytes[8..], data);
    let given = replies(&bytes);
    assert_eq!(given, [0, 0, 0, 0, 0, 10, 0, 0, 0, 0, 12, 7, 0x74, 7, 0xA5, 0xA5]);
}

#[test]
fn a_refused_batch_gives_its_lent_buffer() {
    let given = replies_to(&[
        batch(batch_data(&[OUT_K, WRITE], &k()), 7),
        batch(batch_data(&[OUT_K, WRITE], &k()[..51]), 8),
        batch(batch_data(&[OUT_K], &k())[..10].to_vec(), 4),
        batch(vec![0, 1, 0], 2),
        batch(vec![0, 0], 0),
    ]);
    let expected = [
        &[18, 0, 0, 0, 0, 7][..],
        &[0xA5; 7],
        &[22, 0, 0, 0, 0, 8],
        &[0xA5; 8],
        &[22, 0, 0, 0, 0, 4],
        &[0xA5; 4],
        &[22, 0, 0, 0, 0, 2],
        &[0xA5; 2],
        &[0; 6],
    ];
    assert_eq!(given, expected.concat());
}

#[test]
fn a_batch_has_its_data_read_where_it_is_unknown_too() {
    const UNKNOWN: [u8; 6] = [255, 0, 0, 0, 0, 0];
    let data = batch_data(&[OUT_K], &k());
    // no E, half an E, E past the data by one and by much, a buffer above 4,096, and both
    let unknown = [
        batch(vec![], 4),
        batch(vec![0], 4),
        batch(vec![0, 1], 4),
        batch(vec![0, 8, 5, 0, 0, 0, 0, 0, 0], 4),
        batch([&[0xFF, 0xFF][..], &data[2..]].concat(), 4),
        batch(data.clone(), 4097),
        batch(data.clone(), 65_535),
        batch(vec![], 4097),
        batch(vec![9; 4000], 4097),
    ];
    for command in unknown {
        // in step afterwards, and the record stays: the write is clear
        let given = replies_to(&[command.clone(), write(3, false), command, power_on()]);
        assert_eq!(given, [&UNKNOWN[..], &[0, 0, 0, 0, 0, 3, 0, 0, 0], &UNKNOWN, &[0; 6]].concat());
    }
    // the limits themselves aren't unknown: E at the data's end, 4,096 bytes
    for (data, room) in [(data.clone(), 4096), (vec![0, 0], 4096), (vec![0, 8, 5, 0, 0, 0, 0, 0, 0, 0], 4)] {
        let given = replies_to(&[batch(data, room), power_on()]);
        assert_eq!(given[..4], [0; 4]);
        assert_eq!(given.len(), 6 + usize::from(room) + 6);
    }
}

#[test]
fn a_batch_ignores_nexus_protocol_and_port() {
    let sent = batch(batch_data(&[OUT_K, WRITE], &k()), 8);
    let expected = replies_to(&[sent.clone(), give_record()]);
    for (nexus, protocol, port) in [(3, 0x20, 0), (16, 0x21, 1), (255, 0xFF, 255)] {
        let command = Command { nexus, protocol, port, ..sent.clone() };
        assert_eq!(replies_to(&[command, give_record()]), expected);
    }
}

#[test]
fn a_batch_runs_from_the_record_that_the_stream_has() {
    let write = |nexus| batch(batch_data(&[[3, nexus, 0, 1, 0, 0, 0, 0]], &[]), 4);
    let given = replies_to(&[security_out(3, k()), event(5), write(3), write(3), write(4)]);
    let expected = [
        &[0; 12][..],
        &[0, 0, 0, 0, 0, 4, 4, 6, 0x2A, 0x12],
        &[0, 0, 0, 0, 0, 4, 11, 7, 0x2A, 0x13],
        &[0, 0, 0, 0, 0, 4, 0, 0, 0, 0],
    ];
    assert_eq!(given, expected.concat());
    let mut bytes = give(&mixed());
    bytes[5] = 7;
    let given = replies_to(&[load_bytes(bytes.clone()), write(3), batch(vec![0, 0], 1), give_record()]);
    assert_eq!(given[6..23], [0, 0, 0, 0, 0, 4, 1, 0, 0, 0, 0, 0, 0, 0, 0, 1, 0xA5]);
    assert_eq!(given[29..], bytes);
}

#[test]
fn part_batches_are_ignored() {
    let mut bytes = Vec::new();
    batch(batch_data(&[OUT_K], &k()), 4).give(&mut bytes);
    for cut in 0..bytes.len() {
        assert_eq!(replies(&bytes[..cut]), []);
    }
    assert_eq!(replies(&bytes).len(), 10);
}

#[test]
fn part_commands_are_ignored() {
    let mut bytes = Vec::new();
    power_on().give(&mut bytes);
    security_out(3, k()).give(&mut bytes);
    for cut in 8..bytes.len() {
        assert_eq!(replies(&bytes[..cut]), [0; 6]);
    }
    assert_eq!(replies(&bytes), [0; 12]);
}
