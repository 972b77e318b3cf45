use super::*;
use crate::session::{parse, Form};

fn request(line: &str) -> Vec<u8> {
    parse(line).unwrap()[4..].to_vec()
}

fn differences(replies: &[&[u8]], like: &[usize], most: usize) -> Vec<Difference> {
    super::differences(Header::Srb, replies, like, most)
}

fn lines(low: &[u8], high: &[u8]) -> Vec<String> {
    let found = differences(&[low, high], &[0, 0], 99);
    let line = |d: &Difference| format!("{}: {}", d.what, d.values.join(" | "));
    found.iter().map(line).collect()
}

#[test]
fn fields_by_their_names() {
    let low = request("stp-passthru command=20h data=00*512");
    let high = request("stp-passthru command=20h data=5A*512 data-bytes=512 return-code=4");
    assert_eq!(
        lines(&low, &high),
        [
            "return-code: 0 | 4",
            "data-bytes: 0 | 512",
            "data, 512 bytes: 00*512 | 5A*512"
        ]
    );
    assert_eq!(differences(&[&low, &low, &low], &[0; 3], 99), []);
}

#[test]
fn texts_as_texts() {
    let low = request("get-driver-info");
    let high = request("get-driver-info name=\"csmilab\"");
    assert_eq!(lines(&low, &high), ["name: \"\" | \"csmilab\""]);
}

#[test]
fn the_phys_of_a_code_20() {
    let low = request("get-phy-info");
    let mut high = low.clone();
    high[28 + 4 + 64 + 29] = 9;
    assert_eq!(
        lines(&low, &high),
        ["phy 1 negotiated: 0 (unknown) | 9 (3.0 Gb/s)"]
    );
    let mut held = low.clone();
    held[28 + 4 + 64 + 29] = 3;
    assert_eq!(
        lines(&held, &high),
        ["phy 1 negotiated: 3 (spin-up hold) | 9 (3.0 Gb/s)"]
    );
}

#[test]
fn a_front_page_by_its_names() {
    let low = request("get-cntlr-config class=hba flags=sas-hba serial=\"A\"");
    let high = request("get-cntlr-config bus=pci slot=unknown flags=sas-hba+fwd-online");
    assert_eq!(
        lines(&low, &high),
        [
            "slot: 0 | 65535 (unknown)",
            "class: 5 (hba) | 0",
            "bus: 0 | 3 (pci)",
            "serial: \"A\" | \"\"",
            "flags: 00000001h (sas-hba) | 00020001h (sas-hba+fwd-online)"
        ]
    );
    let low = request("get-cntlr-status status=good");
    let high = request("get-cntlr-status status=offline offline-reason=initializing");
    assert_eq!(
        lines(&low, &high),
        [
            "status: 1 (good) | 3 (offline)",
            "offline-reason: 0 (no-reason) | 1 (initializing)"
        ]
    );
    let low = request("get-connector-info");
    let high = request("get-connector-info references=00*36+020000004A31+00*14+04+00*15+00*1080");
    assert_eq!(
        lines(&low, &high),
        [
            "phy 1 pinout: 0 | 00000002h (sff-8482)",
            "phy 1 connector: \"\" | \"J1\"",
            "phy 1 location: 0 | 04h (external)"
        ]
    );
}

#[test]
fn long_values_from_the_first_byte_that_differs() {
    let low: Vec<u8> = (0..=255).collect();
    let mut high = low.clone();
    (high[17], high[250]) = (0, 0);
    let found = bytes_differ("data", &[&low, &high]).unwrap();
    assert_eq!(found.what, "data, 2 bytes");
    assert_eq!(found.values[0], "at 17: 1112131415161718..");
    assert_eq!(found.values[1], "at 17: 0012131415161718..");
}

#[test]
fn runs_that_are_compared_and_fields_that_are_counted() {
    let denied = request("stp-passthru data=00*20 return-code=4");
    let low = request("stp-passthru data=00*20 data-bytes=20");
    let high = request("stp-passthru data=00*19+01 data-bytes=20");
    let found = differences(&[&denied, &low, &high], &[0, 1, 1], 99);
    assert_eq!(found.len(), 1);
    assert_eq!(found[0].what, "data, 1 byte");
    let found = differences(&[&denied, &low, &high], &[0, 0, 0], 1);
    assert_eq!(found.len(), 2);
    assert_eq!(found[0].what, "return-code");
    assert_eq!(found[1].what, "and 2 more");
    assert_eq!(found[1].values, ["", "", ""]);
}

#[test]
fn linux_replies_by_the_fields_of_their_header() {
    let low = Form::Both.parse("linux get-link-errors").unwrap();
    let high = "linux get-link-errors return-code=4 direction=1 reset-problem=7";
    let high = Form::Both.parse(high).unwrap();
    let header = Header::Linux { control: 22 };
    let found = super::differences(header, &[&low[12..], &high[12..]], &[0, 0], 99);
    let names: Vec<&str> = found.iter().map(|d| d.what.as_str()).collect();
    assert_eq!(names, ["return-code", "direction", "reset-problem"]);
}

/// Whatever byte differs, in whatever request, some difference names it.
#[test]
fn every_byte_is_seen() {
    for line in [
        "get-driver-info",
        "get-phy-info",
        "set-phy-info",
        "get-link-errors buffer=60",
        "stp-passthru data=00*9",
        "get-sata-signature",
        "get-scsi-address",
        "get-device-address",
        "get-cntlr-config",
        "get-cntlr-status",
        "get-connector-info",
        "smp-passthru",
        "request control=99 body=0102",
        "get-phy-info buffer=40",
        "raw 0102030405",
    ] {
        for line in [line.to_string(), format!("linux {line}")] {
            every_byte_of(&line);
        }
    }
}

fn every_byte_of(line: &str) {
    let session = Form::Both.parse(line).unwrap();
    let sent = Form::Both.split(&session).requests[0];
    for at in 0..sent.buffer.len() {
        if sent.header == Header::Srb && (16..20).contains(&at) {
            continue;
        }
        let mut other = sent.buffer.to_vec();
        other[at] ^= 0x11;
        let found = super::differences(sent.header, &[sent.buffer, &other], &[0, 0], 99);
        assert!(!found.is_empty(), "{line}, byte {at}");
    }
}

/// The granted reply of a code 4 and a denied one; and an image, which no reply of the library alters.
#[test]
fn firmware_by_its_names() {
    let line = "firmware-download validate status=reject severity=error blocks=2";
    let low = request(&format!("{line} return-code=4"));
    let high = request("firmware-download validate blocks=2");
    assert_eq!(
        lines(&low, &high),
        [
            "return-code: 4 | 0",
            "status: 3 (reject) | 0 (success)",
            "severity: 2 (error) | 0 (information)"
        ]
    );
    let other = request("firmware-download validate blocks=2 damage=1");
    assert_eq!(
        lines(&high, &other),
        ["image, 1 byte: 00*508+01+00*511+02000000 | 00*508+01+00*511+03000000"]
    );
}
