use super::*;
use crate::session::{parse, Form};

fn request(line: &str) -> Vec<u8> {
    parse(line).unwrap()[4..].to_vec()
}

fn reply(request: &[u8], reply: &[u8]) -> Result<String, String> {
    super::reply(Header::Srb, request, reply)
}

/// What a Linux request that one line describes gets, if the other describes the reply.
fn linux(sent: &str, got: &str) -> String {
    let [sent, got] = [sent, got].map(|line| Form::Both.parse(line).unwrap());
    let [sent, got] = [&sent, &got].map(|session| Form::Both.split(session).requests[0]);
    super::reply(sent.header, sent.buffer, got.buffer).unwrap()
}

#[test]
fn counters_in_words() {
    let sent = request("get-link-errors phy=1");
    let got = request("get-link-errors phy=1 loss-of-sync=7");
    assert_eq!(
        reply(&sent, &got).unwrap(),
        "get-link-errors (22): 0 success
* marks what the reply changed
  phy                1
  reset              0
  reserved           0000
  invalid-dword      0
  running-disparity  0
* loss-of-sync       7
  reset-problem      0
"
    );
}

#[test]
fn a_status_fis_and_data_in_words() {
    let sent = request("stp-passthru command=20h data=00*12");
    let got =
        request("stp-passthru command=20h data=5A*12 data-bytes=12 status-fis=34005000+00*16");
    let text = reply(&sent, &got).unwrap();
    assert!(text.contains("* status-fis         340050+00*17 (success)\n"));
    assert!(text.contains("* data               5A*12\n"));
    let got = request("stp-passthru command=20h data=00*12 status-fis=34005110+00*16");
    let text = reply(&sent, &got).unwrap();
    assert!(text.contains("(error, past the last sector)"));
    assert!(text.contains("  data               00*12\n"));
}

#[test]
fn phys_in_words() {
    let sent = request("get-phy-info");
    let got = request("get-phy-info phys=2");
    let text = reply(&sent, &got).unwrap();
    assert!(text.contains("* phys               2\n"));
    assert_eq!(
        text.lines()
            .filter(|line| line.contains("no device"))
            .count(),
        2
    );
    let mut held = request("get-phy-info phys=1");
    held[28 + 4 + 29] = 3;
    let text = reply(&sent, &held).unwrap();
    assert!(text.contains("* phy 0              port 0, negotiated 3 (spin-up hold), "));
}

#[test]
fn a_front_page_in_words() {
    let text = |name: &str, fields: &str| {
        let got = request(&format!("{name} {fields}"));
        reply(&request(name), &got).unwrap()
    };
    let config = text(
        "get-cntlr-config",
        "class=hba bus=pci slot=unknown serial=\"L4\" flags=sas-hba board=30A81000h",
    );
    assert!(config.starts_with("get-cntlr-config (2): 0 success\n"));
    for line in [
        "* board              30A81000h",
        "* slot               65535 (unknown)",
        "* class              5 (hba)",
        "* bus                3 (pci)",
        "* serial             \"L4\"",
        "* flags              00000001h (sas-hba)",
        "  bios-major         0",
        "  rrom-bios-release  0",
    ] {
        assert!(config.lines().any(|found| found == line), "{line}");
    }
    assert_eq!(
        text(
            "get-cntlr-status",
            "status=offline offline-reason=initializing"
        ),
        "get-cntlr-status (3): 0 success
* marks what the reply changed
* status             3 (offline)
* offline-reason     1 (initializing)
  reserved           00*28
"
    );
    let first = "000001004A31+00*14+02+00*15";
    assert_eq!(
        text(
            "get-connector-info",
            &format!("references=00*36+{first}+00*1080")
        ),
        "get-connector-info (30): 0 success
* marks what the reply changed
  phy 0              connector \"\", pinout 0, location 0
* phy 1              connector \"J1\", pinout sff-8484-lane-1, location internal
  phys 2 to 31       00*36 each
"
    );
    let denied = text("get-connector-info", "return-code=4");
    assert!(denied.ends_with("\n  references         00*1152\n"));
    let full = text("get-connector-info", "references=01*1152");
    assert_eq!(full.lines().count(), 34);
    let but_one = text("get-connector-info", "references=01*1116+00*36");
    assert!(but_one.ends_with("\n  phy 31             00*36 each\n"));
}

#[test]
fn linux_replies_in_words() {
    let text = linux(
        "linux get-link-errors phy=1",
        "linux get-link-errors phy=1 return-code=2002 loss-of-sync=7",
    );
    assert!(text.starts_with("linux get-link-errors (22): 2002 phy does not exist\n"));
    assert!(text.contains("* loss-of-sync       7\n"));
    assert!(text.contains("  phy                1\n"));
    let text = linux(
        "linux stp-passthru command=20h data=00*12",
        "linux stp-passthru command=20h data=5A*12",
    );
    assert!(text.contains("* data               5A*12\n"));
    assert_eq!(
        linux(
            "linux request control=CC770014h",
            "linux request control=CC770014h return-code=2"
        ),
        "linux unknown control code (CC770014h): 2 bad control code\nthe body is as sent\n"
    );
    let text = linux(
        "linux get-cntlr-status",
        "linux get-cntlr-status status=good",
    );
    assert!(text.starts_with("linux get-cntlr-status (3): 0 success\n"));
    assert!(text.contains("* status             1 (good)\n"));
    let short = "linux raw control=22 00*19";
    assert_eq!(linux(short, short), "no header, so no return code\n");
}

#[test]
fn refusals_in_words() {
    let sent = request("ssp-passthru");
    let got = request("ssp-passthru return-code=2");
    assert_eq!(
        reply(&sent, &got).unwrap(),
        "ssp-passthru (24): 2 bad control code\nthe body is as sent\n"
    );
    assert_eq!(reply(&[1], &[1]).unwrap(), "no header, so no return code\n");
    assert_eq!(
        reply(&[1], &[1, 2]).unwrap_err(),
        "the request has 1 bytes, the reply 2"
    );
}

#[test]
fn firmware_in_words() {
    let line =
        "firmware-download validate reserved=01*32 status=7 severity=3 major=2 release=7 blocks=2";
    let sent = request(line);
    let got = request("firmware-download validate reserved=01*32 major=2 release=7 blocks=2");
    let rest = "  reserved           01*32
* status             0 (success)
* severity           0 (information)
  image              2.0.0.7, 2 blocks, checks right
";
    let head = "firmware-download (4): 0 success
* marks what the reply changed
  buffer-length      1024
  flags              00000001h (validate)
";
    assert_eq!(reply(&sent, &got).unwrap(), format!("{head}{rest}"));
    let failed = |words: &str, code: u32| {
        let line = format!("firmware-download {words} status=7 severity=3");
        let got = request(&format!("{line} return-code={code}"));
        reply(&request(&line), &got).unwrap()
    };
    let text = failed("validate blocks=2 damage=1", 1);
    assert!(text.starts_with("firmware-download (4): 1 failed\n"));
    assert!(text.contains("\n  flags              validate\n"));
    assert!(text.contains("\n  status             7, as sent\n  severity           3, as sent\n"));
    assert!(
        text.ends_with("\n  image              0.0.0.0, 2 blocks, the check of block 1 wrong\n")
    );
    let text = failed("commit", 1);
    assert!(
        text.ends_with("\n  severity           3, as sent\n"),
        "{text}"
    );
    assert!(failed("validate", 4).starts_with("firmware-download (4): 4 denied, write attempted\n"));
    let text = linux(
        "linux firmware-download commit status=7",
        "linux firmware-download commit",
    );
    assert!(text.starts_with("linux firmware-download (4): 0 success\n"));
    assert!(text.contains("\n* status             0 (success)\n"));
}

/// Status and severity of a refusal are what was sent, and say nothing.
#[test]
fn a_refused_image_in_words() {
    for code in [1, 3, 4] {
        let line = "firmware-download validate";
        let got = request(&format!("{line} return-code={code}"));
        let text = reply(&request(line), &got).unwrap();
        assert!(
            text.contains("\n  status             0, as sent\n  severity           0, as sent\n")
        );
        assert!(!text.contains("success") && !text.contains("information"));
    }
    let got = request("firmware-download commit return-code=1 status=2");
    let text = reply(&request("firmware-download commit"), &got).unwrap();
    assert!(
        text.contains("\n* status             using-rrom\n"),
        "{text}"
    );
    let text = linux(
        "linux get-cntlr-status status=good",
        "linux get-cntlr-status status=good return-code=3",
    );
    assert!(text.contains("\n  status             good\n"), "{text}");
}

/// The image ends at uBufferLength, and bytes without the flag are none.
#[test]
fn bytes_that_are_no_image() {
    let shown = |words: &str| {
        let sent = request(&format!("firmware-download {words}"));
        let text = reply(&sent, &sent).unwrap();
        let (_, rows) = text.split_once("(information)\n").unwrap();
        rows.to_string()
    };
    let image = "  image              0.0.0.0, 2 blocks, checks right\n";
    assert_eq!(
        shown("validate blocks=3 damage=2 buffer-length=1024"),
        format!("{image}  data               00*508+04000000\n")
    );
    assert_eq!(shown("validate blocks=2 buffer-length=4294967295"), image);
    assert_eq!(
        shown("validate buffer-length=0"),
        "  data               00*508+01000000\n"
    );
    assert_eq!(shown("commit data=5A*512"), "  data               5A*512\n");
    assert_eq!(shown("flags=validate"), "");
    let sent = request("firmware-download validate blocks=2 buffer-length=512");
    let mut got = sent.clone();
    *got.last_mut().unwrap() ^= 1;
    let text = reply(&sent, &got).unwrap();
    assert!(text.contains("\n  image              0.0.0.0, 1 block, checks right\n* data  "));
}
