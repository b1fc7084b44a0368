//! The lowest parts by themselves, where the codes above them would hide a fault.

use peer::bits::{copy_bytes, load64, BitWriter, Code};
use peer::utf8;

#[test]
fn a_wide_load_takes_64_bits_from_any_place() {
    let bytes = [0x01, 0x23, 0x45, 0x67, 0x89, 0xab, 0xcd, 0xef, 0xfe, 0xdc];
    assert_eq!(load64(&bytes, 0), 0x0123_4567_89ab_cdef);
    assert_eq!(load64(&bytes, 4), 0x1234_5678_9abc_deff);
    assert_eq!(load64(&bytes, 15), 0xa2b3_c4d5_e6f7_ff6e);
    assert_eq!(load64(&bytes, 16), 0x4567_89ab_cdef_fedc);
    assert_eq!(load64(&bytes, 76), 0xc000_0000_0000_0000);
    assert_eq!(load64(&bytes, 80), 0);
    assert_eq!(load64(&[], 0), 0);
}

#[test]
fn bytes_are_copied_from_any_bit() {
    let mut target = [0xdd; 2];
    copy_bytes(&[0x12, 0x34, 0x56], 0, &mut target);
    assert_eq!(target, [0x12, 0x34]);
    copy_bytes(&[0x12, 0x34, 0x56], 4, &mut target);
    assert_eq!(target, [0x23, 0x45]);
    copy_bytes(&[0x12, 0x34, 0x56], 7, &mut target);
    assert_eq!(target, [0x1a, 0x2b]);
    copy_bytes(&[], 0, &mut []);
}

#[test]
fn codes_are_put_one_behind_the_other() {
    let mut out = [0xdd; 8];
    let mut writer = BitWriter::new(&mut out);
    writer.put(Code::new(1, 1));
    writer.put(Code::NONE);
    writer.put_bytes(&[0xff, 0x00]);
    writer.put(Code::new(0xffff_ffff, 32));
    writer.put(Code::new(0b01, 2));
    assert_eq!(writer.finish(), 7);
    assert_eq!(out, [0xff, 0x80, 0x7f, 0xff, 0xff, 0xff, 0xa0, 0xdd]);
    let mut out = [0xdd; 3];
    let mut writer = BitWriter::new(&mut out);
    writer.put_bytes(&[1, 2]);
    assert_eq!(writer.finish(), 2);
    assert_eq!(out, [1, 2, 0xdd]);
}

#[test]
fn texts_agree_with_the_standard_library_on_all_short_texts() {
    for first in 0..=255_u8 {
        for second in 0..=255_u8 {
            for tail in [&[][..], &[0x80], &[0xbf, 0x80], &[0x41, 0x80]] {
                let text = [&[first, second], tail].concat();
                let expected = match std::str::from_utf8(&text) {
                    Err(_) => 16,
                    Ok(text) if text.chars().any(|one| one.is_ascii_control() && !"\t\n\r\x7f".contains(one)) => 25,
                    Ok(_) => 0,
                };
                assert_eq!(utf8::check(&text), expected, "{text:02x?}");
            }
        }
    }
}

#[test]
fn utf8_is_checked_from_any_bit_and_only_as_far_as_the_text_goes() {
    // C2 80 behind four bits; the second byte is not the text's where the count is 1.
    let payload = [0x0c, 0x28, 0x00];
    assert_eq!(utf8::check_at(&payload, 4, 2), 0);
    assert_eq!(utf8::check_at(&payload, 4, 1), 16);
    assert_eq!(utf8::check_at(&payload, 4, 0), 0);
}
