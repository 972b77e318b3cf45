//! Code 4 (6.4, W-207) in a description: `validate` with an image, `commit` without one, or its fields and `data` alone.

use super::describe::{word, Described};
use super::image;
use super::layout::{layout, DOWNLOAD_FLAGS, DOWNLOAD_LENGTH, FIRMWARE_DOWNLOAD};
use super::request::bytes;
use crate::text::{Line, Word};
use crate::value::MOST_BYTES;
use crate::Fault;
use std::fs;
use std::path::Path;

/// CSMI_SAS_FWD_VALIDATE.
const VALIDATE_FLAG: u32 = 1;
const VALIDATE: &str = "validate";
const COMMIT: &str = "commit";

/// The body that a line describes, but for the fields of its structure.
pub fn from_line(line: &mut Line, folder: Option<&Path>) -> Result<Vec<u8>, Fault> {
    let validates = line.take_plain(VALIDATE);
    if !validates {
        line.take_plain(COMMIT);
    }
    let mut data = data(line, validates, folder)?;
    if let Some(word) = line.take("damage")? {
        image::damage_by(&mut data, &word)?;
    }
    Ok(body(validates, &data))
}

/// The structure with the length of its data, and with the flag of a validation; then the data.
fn body(validates: bool, data: &[u8]) -> Vec<u8> {
    let mut body = vec![0; layout(FIRMWARE_DOWNLOAD).size];
    let flags = if validates { VALIDATE_FLAG } else { 0 };
    for (field, n) in [
        (DOWNLOAD_LENGTH, data.len() as u32),
        (DOWNLOAD_FLAGS, flags),
    ] {
        body[field.at..][..4].copy_from_slice(&n.to_le_bytes());
    }
    body.extend(data);
    body
}

/// The bytes behind the structure: those given, those of a file, or of a validation the image that is described.
fn data(line: &mut Line, validates: bool, folder: Option<&Path>) -> Result<Vec<u8>, Fault> {
    let data = match (line.take("data")?, line.take("image")?) {
        (Some(_), Some(word)) => return Err(word.fault("does not go with data")),
        (Some(word), None) => bytes(&word)?,
        (None, Some(word)) => read(&word, folder)?,
        (None, None) if validates => return image::from_line(line),
        (None, None) => Vec::new(),
    };
    for name in image::WORDS {
        if let Some(word) = line.take(name)? {
            return Err(word.fault("goes with validate, and with neither data nor image"));
        }
    }
    Ok(data)
}

/// The bytes of the file that a word names, by a path from the folder of the description or a whole one.
fn read(word: &Word, folder: Option<&Path>) -> Result<Vec<u8>, Fault> {
    let Some(folder) = folder else {
        return Err(word.fault("there is no folder to read a file from"));
    };
    let path = folder.join(&word.value);
    let fault = |reason: String| word.fault(format!("{}: {reason}", path.display()));
    let about = fs::metadata(&path).map_err(|error| fault(error.to_string()))?;
    // a pipe or a device might never end
    if !about.is_file() {
        return Err(fault("not a file".to_string()));
    }
    if about.len() > MOST_BYTES as u64 {
        return Err(fault(format!("more than {MOST_BYTES} bytes")));
    }
    fs::read(&path).map_err(|error| fault(error.to_string()))
}

/// The description of a whole structure and its data.
pub fn described(given: &[u8]) -> Described {
    let (structure, data) = given.split_at(layout(FIRMWARE_DOWNLOAD).size);
    let (first, words) = match (data, validates(structure), image::to_words(data)) {
        (_, _, Some(words)) => (Some(VALIDATE), words),
        ([], false, _) => (Some(COMMIT), Vec::new()),
        _ => (None, Vec::from_iter(word("data", data))),
    };
    Described {
        first,
        sound: body(first == Some(VALIDATE), data),
        data: words,
    }
}

fn validates(structure: &[u8]) -> bool {
    DOWNLOAD_FLAGS.get(structure) & VALIDATE_FLAG != 0
}

/// The image that a whole structure with the flag has behind it, as far as there are bytes, and the bytes behind that.
pub fn split(body: &[u8]) -> (&[u8], &[u8]) {
    let (structure, data) = body.split_at(layout(FIRMWARE_DOWNLOAD).size);
    let length = match validates(structure) {
        true => DOWNLOAD_LENGTH.get(structure) as usize,
        false => 0,
    };
    data.split_at(length.min(data.len()))
}

/// What a whole structure and its data ask for: `validate 2.1.0.7, 2 blocks`, with `damaged` behind it if a check is wrong, or `commit`.
pub fn in_words(body: &[u8]) -> String {
    let (structure, data) = body.split_at(layout(FIRMWARE_DOWNLOAD).size);
    let length = DOWNLOAD_LENGTH.get(structure) as usize;
    let bytes = image::blocks_words(length);
    let image = data.get(..length).unwrap_or(&[]);
    let damaged = if image::is_damaged(image) {
        ", damaged"
    } else {
        ""
    };
    match (validates(structure), image::revisions(image), length) {
        (true, Some(revisions), _) => format!("{VALIDATE} {revisions}, {bytes}{damaged}"),
        (true, None, _) => format!("{VALIDATE}, {bytes}"),
        (false, _, 0) => COMMIT.to_string(),
        (false, _, _) => format!("{COMMIT}, {bytes}"),
    }
}

#[cfg(test)]
mod tests {
    use crate::session::{Form, Request};
    use std::fs;
    use std::path::{Path, PathBuf};

    fn body(line: &str) -> Vec<u8> {
        let session = Form::Both.parse(line).unwrap();
        let Request { header, buffer } = Form::Both.split(&session).requests[0];
        assert_eq!(
            header.length().get(buffer) as usize,
            buffer.len() - if header.is_linux() { 0 } else { 28 }
        );
        buffer[header.size()..].to_vec()
    }

    /// Under either header.
    fn fault(line: &str) -> String {
        let linux = format!("linux {line}");
        let [first, second] = [line, &linux].map(|line| Form::Both.parse(line).unwrap_err());
        assert_eq!(first.to_string(), second.to_string().replace("linux ", ""));
        first.to_string()
    }

    #[test]
    fn validations_and_commits() {
        for word in ["", "linux "] {
            let body = |line: &str| body(&format!("{word}firmware-download {line}"));
            let image = body("validate major=2 blocks=2");
            assert_eq!(image.len(), 44 + 1024);
            assert_eq!(image[..8], [0, 4, 0, 0, 1, 0, 0, 0]);
            assert_eq!(image[8..46], [&[0; 36][..], &[2, 0]].concat());
            assert_eq!(body("commit"), [0; 44]);
            assert_eq!(body(""), [0; 44]);
            assert_eq!(body("flags=validate")[..8], [0, 0, 0, 0, 1, 0, 0, 0]);
            assert_eq!(body("data=0102")[..8], [2, 0, 0, 0, 0, 0, 0, 0]);
            assert_eq!(body("validate data=0102")[..8], [2, 0, 0, 0, 1, 0, 0, 0]);
        }
    }

    /// The check of a block, a length and flags of one's own.
    #[test]
    fn damaged_requests() {
        let sound = body("firmware-download validate blocks=2");
        let wrong = body("firmware-download validate blocks=2 damage=1");
        let moved: Vec<usize> = (0..sound.len())
            .filter(|at| sound[*at] != wrong[*at])
            .collect();
        assert_eq!(moved, [44 + 1020]);
        let own = body("firmware-download validate buffer-length=4294967295 flags=0");
        assert_eq!(own[..8], [0xFF, 0xFF, 0xFF, 0xFF, 0, 0, 0, 0]);
        assert_eq!(own[44..], body("firmware-download validate")[44..]);
    }

    /// A folder of the test's own.
    fn folder(name: &str) -> PathBuf {
        let folder = std::env::temp_dir().join(format!("labkit-{}-{name}", std::process::id()));
        fs::create_dir_all(&folder).unwrap();
        folder
    }

    #[test]
    fn images_from_files() {
        let folder = folder("image");
        let image = &body("firmware-download validate major=3 blocks=2 fill=11h")[44..];
        fs::write(folder.join("new.bin"), image).unwrap();
        fs::write(folder.join("a b"), [1, 2]).unwrap();
        let made = |line: &str| Form::Program.parse_in(&folder, line).unwrap();
        let described = |words: &str| {
            let line = format!("firmware-download validate {words}");
            Form::Program.parse(&line).unwrap()
        };
        assert_eq!(
            made("firmware-download validate image=\"new.bin\""),
            described("major=3 blocks=2 fill=11h")
        );
        let whole = folder.join("new.bin");
        assert_eq!(
            made(&format!(
                "firmware-download validate image=\"{}\"",
                whole.display()
            )),
            described("major=3 blocks=2 fill=11h")
        );
        assert_eq!(
            made("firmware-download validate image=new.bin damage=0 flags=3"),
            described("major=3 blocks=2 fill=11h damage=0 flags=3")
        );
        assert_eq!(
            made("firmware-download validate image=\"a b\""),
            described("data=0102")
        );
        let refused = |line: &str| {
            let fault = Form::Program
                .parse_in(&folder, line)
                .unwrap_err()
                .to_string();
            fault.replace(folder.to_str().unwrap(), "HERE")
        };
        assert_eq!(
            refused("get-phy-info\nfirmware-download validate image=\"old.bin\""),
            "line 2: image: HERE/old.bin: No such file or directory (os error 2)"
        );
        assert_eq!(
            refused("firmware-download validate image=\".\""),
            "line 1: image: HERE/.: not a file"
        );
        assert_eq!(
            refused("firmware-download validate image=\"a b\" damage=0"),
            "line 1: damage: there is no whole block 0"
        );
        fs::write(folder.join("long"), vec![0; 32_768]).unwrap();
        assert_eq!(
            refused("firmware-download validate image=long"),
            "line 1: a request of 32840 bytes, over 32768"
        );
        let file = fs::File::create(folder.join("longer")).unwrap();
        file.set_len(1_048_577).unwrap();
        assert_eq!(
            refused("firmware-download validate image=longer"),
            "line 1: image: HERE/longer: more than 1048576 bytes"
        );
        fs::remove_dir_all(Path::new(&folder)).unwrap();
    }

    #[test]
    fn faults_name_the_word() {
        for (words, reason) in [
            (
                "validate commit",
                "firmware-download does not take 'commit'",
            ),
            (
                "validate validate",
                "firmware-download does not take 'validate'",
            ),
            ("update", "firmware-download does not take 'update'"),
            ("\"validate\"", "firmware-download does not take 'validate'"),
            ("body=00", "firmware-download has no field 'body'"),
            ("validate=1", "firmware-download has no field 'validate'"),
            ("validate major=65536", "major: 65536 is over 65535"),
            ("validate blocks=0", "blocks: an image has at least 1"),
            ("validate blocks=00", "blocks: an image has at least 1"),
            ("validate blocks=0h", "blocks: an image has at least 1"),
            (
                "commit blocks=1",
                "blocks: goes with validate, and with neither data nor image",
            ),
            (
                "major=1",
                "major: goes with validate, and with neither data nor image",
            ),
            (
                "validate data=00*512 fill=1",
                "fill: goes with validate, and with neither data nor image",
            ),
            (
                "validate data=00 image=\"a\"",
                "image: does not go with data",
            ),
            (
                "validate image=\"a\"",
                "image: there is no folder to read a file from",
            ),
            ("validate damage=1", "damage: there is no whole block 1"),
            ("commit damage=0", "damage: there is no whole block 0"),
            (
                "flags=check",
                "flags: 'check' is no number and none of validate, soft-reset, hard-reset",
            ),
            (
                "buffer-length=4294967296",
                "buffer-length: 4294967296 is over 4294967295",
            ),
            ("status=65536", "status: 65536 is over 65535"),
        ] {
            let line = format!("firmware-download {words}");
            assert_eq!(fault(&line), format!("line 1: {reason}"));
        }
    }
}
