//! The disk, by passthroughs: each command, its Status, its data and the medium.

use super::adapter::{
    address, answer, buffer, code_of, fis, medium, passthrough, return_code, sample, stage,
};

/// The reply to a passthrough of the sample's phy 0: Status, the data and the medium.
fn pass(fis: [u8; 20], data: &[u8]) -> (Vec<u8>, Vec<u8>, Vec<u8>) {
    let body = passthrough(fis, data);
    let mut sent = buffer(25, &body);
    let mut disk = medium(5);
    let code = code_of(&mut sample(), &mut disk, &mut stage(), &mut sent);
    assert_eq!(code, 0);
    assert_eq!(sent[28..72], body[..44]);
    (sent[72..164].to_vec(), sent[164..].to_vec(), disk)
}

/// Status as document 01 words it.
fn status_of(fis: [u8; 20], status: u8, error: u8, count: u8, moved: u32) -> Vec<u8> {
    [
        &[0; 4][..],
        &[0x34, 0, status, error],
        &fis[4..12],
        &[count, fis[13]],
        &[0; 6],
        &[0; 64],
        &moved.to_le_bytes(),
    ]
    .concat()
}

#[test]
fn disk_reads() {
    let command = fis(0x20, 3, 2);
    let (status, data, disk) = pass(command, &[0xCC; 1030]);
    assert_eq!(status, status_of(command, 0x50, 0, 2, 1024));
    assert_eq!(data[..1024], medium(5)[3 * 512..5 * 512]);
    assert_eq!(data[1024..], [0xCC; 6]);
    assert_eq!(disk, medium(5));
}

#[test]
fn disk_writes() {
    let command = fis(0x30, 14, 2);
    let bytes: Vec<u8> = (0..1030).map(|i| (i * 3 + i / 256) as u8).collect();
    let (status, data, disk) = pass(command, &bytes);
    assert_eq!(status, status_of(command, 0x50, 0, 2, 1024));
    assert_eq!(data, bytes);
    let mut expected = medium(5);
    expected[14 * 512..16 * 512].copy_from_slice(&bytes[..1024]);
    assert_eq!(disk, expected);
}

#[test]
fn disk_of_phy_n() {
    let mut body = passthrough(fis(0x30, 0, 1), &[0x5A; 512]);
    body[0] = 4;
    body[4..12].copy_from_slice(&address(4));
    let mut disk = medium(5);
    let mut sent = buffer(25, &body);
    let code = code_of(&mut sample(), &mut disk, &mut stage(), &mut sent);
    assert_eq!(code, 0);
    let mut expected = medium(5);
    expected[4 * 8192..4 * 8192 + 512].fill(0x5A);
    assert_eq!(disk, expected);
}

#[test]
fn disk_identifies() {
    let mut command = fis(0xEC, 0, 9);
    command[7] = 0;
    let (status, data, _) = pass(command, &[0xCC; 512]);
    assert_eq!(status, status_of(command, 0x50, 0, 9, 512));
    let mut expected = [0; 512];
    expected[99] = 2;
    expected[120] = 16;
    assert_eq!(data, expected);
}

#[test]
fn disk_checks_power() {
    let mut command = fis(0xE5, 0, 9);
    command[7] = 0;
    let (status, data, _) = pass(command, &[0xCC; 3]);
    assert_eq!(status, status_of(command, 0x50, 0, 0xFF, 0));
    assert_eq!(data, [0xCC; 3]);
}

#[test]
fn disk_errors() {
    for command in [0x20, 0x30] {
        let past = fis(command, 15, 2);
        let (status, data, disk) = pass(past, &[0xCC; 1024]);
        assert_eq!(status, status_of(past, 0x51, 0x10, 2, 0));
        assert_eq!((data, disk), (vec![0xCC; 1024], medium(5)));
        // an error needs no room for data
        assert_eq!(pass(past, &[]).0, status);
        let mut chs = past;
        chs[7] = 0xBF;
        let (status, _, disk) = pass(chs, &[0xCC; 1024]);
        assert_eq!(status, status_of(chs, 0x51, 0x04, 2, 0));
        assert_eq!(disk, medium(5));
    }
    for command in (0..=255).filter(|command| !matches!(command, 0x20 | 0x30 | 0xEC | 0xE5)) {
        let other = fis(command, 0, 1);
        let (status, data, disk) = pass(other, &[0xCC; 512]);
        assert_eq!(status, status_of(other, 0x51, 0x04, 1, 0));
        assert_eq!((data, disk), (vec![0xCC; 512], medium(5)));
    }
}

#[test]
fn disk_data_over_data_length() {
    for (command, count) in [(0x20, 1), (0x30, 1), (0xEC, 0)] {
        let body = passthrough(fis(command, 0, count), &[0xCC; 511]);
        assert_eq!(answer(25, &body), 3);
        // room in the buffer is not room in uDataLength
        let mut longer = [&body[..], &[0xCC; 600]].concat();
        assert_eq!(answer(25, &longer), 3);
        longer[40..44].copy_from_slice(&512u32.to_le_bytes());
        assert_eq!(answer(25, &longer), 0);
        longer[40..44].copy_from_slice(&u32::MAX.to_le_bytes());
        assert_eq!(answer(25, &longer), 3);
    }
}

/// A list of requests: each gets what the call before it left.
#[test]
fn a_write_is_read_back() {
    let (mut state, mut disk, mut stage) = (sample(), medium(5), stage());
    let mut write = buffer(25, &passthrough(fis(0x30, 7, 1), &[0x99; 512]));
    assert_eq!(code_of(&mut state, &mut disk, &mut stage, &mut write), 0);
    let mut read = buffer(25, &passthrough(fis(0x20, 7, 1), &[0; 512]));
    assert_eq!(code_of(&mut state, &mut disk, &mut stage, &mut read), 0);
    assert_eq!(read[164..], [0x99; 512]);
    assert_eq!(return_code(&read), 0);
}
