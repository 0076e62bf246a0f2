//! The documents' own cases (M1 to M10) and rounds worked out by hand: in these someone sends.

use model::{
    listing, read_address, round, write_address, write_data, Cluster, Edition, File, FileNumber, LogicalName,
    Pending, Refusal, Slave,
};

/// The 96-byte file of M10.
const M10: &str = "54410102001000600000000000000000 0018020000 3C0200
    0803002 03D020030 00000000000000FF0000000000000000 000000000000000700000010
    08030044 3D020054 00000000000000FF0000000000000000 0000000000000007000000A0";

fn bytes(text: &str) -> Vec<u8> {
    let digits: String = text.split_whitespace().collect();
    (0..digits.len()).step_by(2).map(|i| u8::from_str_radix(&digits[i..i + 2], 16).unwrap()).collect()
}

/// The answer to a frame: mask, and the bytes of the slots from 1 on.
fn answer_to(file: &mut [u8], frame: &str) -> Result<(u64, Vec<u8>), Refusal> {
    let mut buffer = [0xEE; 66];
    let frame = bytes(frame);
    let senders = round(file, &frame, &mut buffer)?;
    assert_eq!(buffer[0], frame[0]);
    assert_eq!(buffer[64..], [0xEE, 0xEE]);
    Ok((senders, buffer[1..64].to_vec()))
}

fn heard(sent: &[u8]) -> Vec<u8> {
    let mut slots = sent.to_vec();
    slots.resize(63, 0xFF);
    slots
}

/// A slave with the two needed files and others.
fn slave(logical_name: u8, physical_name: u64, comparison_value: u64, others: &[(u8, &str)]) -> Slave {
    let mut configuration = vec![0, 0, 0, 0, 0, 0, 0, logical_name];
    configuration.extend(comparison_value.to_be_bytes());
    let mut documentation = vec![0; 4];
    documentation.extend(physical_name.to_be_bytes());
    let mut files = vec![
        File { number: FileNumber::CONFIGURATION, bytes: configuration },
        File { number: FileNumber::DOCUMENTATION, bytes: documentation },
    ];
    for &(number, content) in others {
        files.push(File { number: FileNumber(number), bytes: bytes(content) });
    }
    files.sort_by_key(|file| file.number);
    Slave { asleep: false, files }
}

fn file_of(slaves: Vec<Slave>) -> Vec<u8> {
    let pending = Pending { flag: false, name: LogicalName(0), pb2: 0, pb3: 0 };
    Cluster { edition: Edition::One, epoch: 0, pending, slaves }.encode()
}

/// M10 after the address frame of a write, M2.
fn awaiting_data() -> Vec<u8> {
    let mut file = bytes(M10);
    assert_eq!(answer_to(&mut file, "5500FF21018A"), Ok((0, heard(&[]))));
    file
}

#[test]
fn m1_to_m5_frames() {
    let mut frame = [0xEE; 6];
    assert_eq!(write_address(&mut frame, 5, 0xFF, 0x08, 2, 2), Ok(()));
    assert_eq!(frame, [0x55, 0x05, 0xFF, 0x22, 0x02, 0x8F]);
    assert_eq!(write_address(&mut frame, 0, 0xFF, 0x08, 1, 1), Ok(()));
    assert_eq!(frame, [0x55, 0x00, 0xFF, 0x21, 0x01, 0x8A]);
    assert_eq!(write_data(&mut frame, [0, 0, 1, 0xFF]), Ok(()));
    assert_eq!(frame, [0x49, 0x00, 0x00, 0x01, 0xFF, 0xB7]);
    assert_eq!(write_address(&mut frame, 2, 1, 0x3D, 0, 1), Ok(()));
    assert_eq!(frame, [0x55, 0x02, 0x01, 0xF4, 0x01, 0xA3]);
    assert_eq!(read_address(&bytes("5505FF22028E")), Err(Refusal(12)));
}

#[test]
fn one_check_byte_fits() {
    for (begun, fitting) in
        [("5505FF2202", 0x8F), ("5500FF2101", 0x8A), ("49000001FF", 0xB7), ("550201F401", 0xA3)]
    {
        for check in 0x00..=0xFF {
            let frame = format!("{begun}{check:02X}");
            let expected = if check == fitting { Ok((0, heard(&[]))) } else { Err(Refusal(12)) };
            assert_eq!(answer_to(&mut awaiting_data(), &frame), expected, "{frame}");
            if !frame.starts_with("49") {
                assert_eq!(read_address(&bytes(&frame)).is_ok(), check == fitting, "{frame}");
            }
        }
    }
}

/// M1 to M4 with the exclusive or of the four bytes alone, and with the other round's firework in it.
#[test]
fn a_check_without_its_firework_is_refused() {
    let mut file = awaiting_data();
    for frame in
        ["5505FF2202DA", "5500FF2101DF", "550201F401F6", "5505FF220293", "5500FF210196", "550201F401BF"]
    {
        assert_eq!(read_address(&bytes(frame)), Err(Refusal(12)), "{frame}");
        assert_eq!(answer_to(&mut file, frame), Err(Refusal(12)), "{frame}");
    }
    for frame in ["49000001FFFE", "49000001FFAB"] {
        assert_eq!(answer_to(&mut file, frame), Err(Refusal(12)), "{frame}");
    }
    assert_eq!(file, awaiting_data());
}

#[test]
fn m6_equal_replies_and_m7_one_less_is_silent() {
    for (comparison_value, senders, slot) in [(0x700, 0b10, 0x00), (0x701, 0, 0xFF)] {
        let mut file = file_of(vec![slave(0xFF, 0x700, comparison_value, &[])]);
        assert_eq!(answer_to(&mut file, "5505FF22028F"), Ok((0, heard(&[]))));
        assert_eq!(answer_to(&mut file, "49"), Ok((senders, heard(&[slot]))));
        assert_eq!(file[8..13], [6, 1, 0xFF, 0x22, 2], "epoch, flag and pending bytes");
    }
}

#[test]
fn m8_two_senders_yield_the_and() {
    let others = |record: &'static str| vec![(0x10, record)];
    let mut file = file_of(vec![
        slave(3, 1, 0, &others("00000000 F0000001")),
        slave(3, 2, 0, &others("00000000 3C000003")),
        slave(4, 3, 0, &others("00000000 00000000")),
    ]);
    assert_eq!(answer_to(&mut file, "55 00 03 40 01 17"), Ok((0, heard(&[]))));
    // The checks sent in slot 5 are B8 and 76.
    assert_eq!(answer_to(&mut file, "49"), Ok((0b11_1110, heard(&[0x30, 0x00, 0x00, 0x01, 0x30]))));
}

/// Two slaves of one name send records whose exclusive ors x and y differ. Slot 5 is neither the check of the and
/// of the records, nor 0x49 folded into the and of x and y.
#[test]
fn each_sender_folds_the_firework_into_its_own_check() {
    let (x, y) = (0x01 ^ 0x0A ^ 0x10 ^ 0x40, 0x03 ^ 0x02 ^ 0x30 ^ 0x08);
    let sent = (0x49 ^ x) & (0x49 ^ y);
    assert_eq!((x, y, sent), (0x5B, 0x39, 0x10));
    assert_eq!(0x49 ^ (x & y), 0x50);
    assert_eq!(0x49 ^ 0x01 ^ 0x02 ^ 0x10, 0x5A);
    let mut file = file_of(vec![
        slave(3, 1, 0, &[(0x10, "00000000 010A1040")]),
        slave(3, 2, 0, &[(0x10, "00000000 03023008")]),
    ]);
    assert_eq!(answer_to(&mut file, "55 00 03 40 01 17"), Ok((0, heard(&[]))));
    assert_eq!(answer_to(&mut file, "49"), Ok((0b11_1110, heard(&[0x01, 0x02, 0x10, 0x00, sent]))));
}

#[test]
fn m9_a_read_at_ff_is_silent() {
    let mut file = bytes(M10);
    assert_eq!(answer_to(&mut file, "55 00 FF F4 01 5F"), Ok((0, heard(&[]))));
    assert_eq!(answer_to(&mut file, "49"), Ok((0, heard(&[]))));
}

#[test]
fn m10_listing() {
    let text = "01 00000007000000A0 65\n02 0000000700000010 65\nnamed 2 compares 131 rounds 275\n";
    assert_eq!(listing(&bytes(M10)), text);
    let mut wrong = bytes(M10);
    wrong[0] = 0;
    assert_eq!(listing(&wrong), "refused 2\n");
}

/// "Loading a file from outside (the checker's call and the listing program, nothing else)"
#[test]
fn equal_logical_names_are_not_listed() {
    for name in [0x00, 0x01, 0xFE] {
        let mut file = bytes(M10);
        (file[0x27], file[0x4B]) = (name, name);
        assert_eq!(listing(&file), "refused 22\n");
        // Equal physical names come first.
        file[0x5F] = 0x10;
        assert_eq!(listing(&file), "refused 8\n");
    }
}

#[test]
fn a_later_slot_sees_what_an_earlier_one_stored() {
    // Slave 1 sends bytes 4 and 5 of its file 0x10 in slots 1 and 2. Slave 2 stores slot 1 in byte 5 of
    // its file 0x11, sends nothing in slot 2, and sends that byte 5 in slot 3.
    let sender = slave(1, 1, 0, &[(2, "00000000 40011101"), (0x10, "00000000 A15C0000")]);
    let partner = slave(2, 2, 0, &[(2, "00000000 45010001 45011003"), (0x11, "00000000 00000000")]);
    let unnamed = slave(0xFF, 3, 0, &[(2, "00000000 40011101"), (0x10, "00000000 00000000")]);
    let mut file = file_of(vec![sender.clone(), partner, unnamed.clone()]);
    assert_eq!(answer_to(&mut file, "BA"), Ok((0b1110, heard(&[0xA1, 0x5C, 0xA1]))));
    let stored = slave(2, 2, 0, &[(2, "00000000 45010001 45011003"), (0x11, "00000000 00A10000")]);
    let mut expected = file_of(vec![sender, stored, unnamed]);
    expected[8] = 1;
    assert_eq!(file, expected);
}

#[test]
fn the_first_entry_before_the_end_that_covers_a_slot_acts() {
    // An idle entry covers slot 1; one whose place lies outside covers slot 2; slot 3 is sent; the entry
    // after the end would send in slot 4.
    let list = "00000000 40013001 40FF1002 40011003 40011001 40011002 00006000 40011004";
    let mut file = file_of(vec![slave(1, 1, 0, &[(2, list), (0x10, "00000000 A15C0000")])]);
    assert_eq!(answer_to(&mut file, "BA"), Ok((0b1000, heard(&[0xFF, 0xFF, 0xA1]))));
}

#[test]
fn a_receive_stores_outside_record_0_only() {
    // Slot 1 is received at byte 3 and slot 2 at byte 4 of file 0x10: record 0, align 3.
    let sends = slave(1, 0x0102_0304, 0, &[(2, "00000000 F4021101")]);
    let stores = |content| slave(2, 9, 0, &[(2, "00000000 43000101"), (0x10, content)]);
    let mut file = file_of(vec![sends.clone(), stores("00000000 00000000")]);
    assert_eq!(answer_to(&mut file, "BA"), Ok((0b110, heard(&[0x01, 0x02]))));
    let mut expected = file_of(vec![sends, stores("00000000 02000000")]);
    expected[8] = 1;
    assert_eq!(file, expected);
}

#[test]
fn an_operation_stays_pending() {
    let mut file = awaiting_data();
    assert_eq!(answer_to(&mut file, "4900000107 4F"), Ok((0, heard(&[]))));
    // Both slaves have their new name and are still unnamed, so another data frame finds them again.
    assert_eq!((&file[0x24..0x28], &file[0x48..0x4C]), (&[0, 0, 1, 0xFF][..], &[0, 0, 1, 0xFF][..]));
    assert_eq!(answer_to(&mut file, "4900000208 43"), Ok((0, heard(&[]))));
    assert_eq!((&file[0x24..0x28], &file[0x48..0x4C]), (&[0, 0, 2, 0xFF][..], &[0, 0, 2, 0xFF][..]));
    assert_eq!(answer_to(&mut file, "49"), Err(Refusal(11)));
}
