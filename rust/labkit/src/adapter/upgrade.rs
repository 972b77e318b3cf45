//! Files of the layout before W-204, which ended behind the rows. The length tells them from present ones, but only with the counts that
//! the file itself has: other counts give the same length in the other layout.

use super::{
    check, connector_at, controller_at, file_length, front, seal, status_at, store, BLOCK,
    CHECK_AT, MOST_PHYS, MOST_ROWS,
};

/// Whether a file has the length that its counts had in the old layout.
pub fn is_old(file: &[u8]) -> bool {
    counts(file).is_ok_and(|(phys, rows)| file.len() == controller_at(phys, rows))
}

/// The present file that has what an old one has, and for the rest what a description gets that does not name it; or why there is none.
pub fn upgrade(old: &[u8]) -> Result<Vec<u8>, String> {
    let (phys, rows) = counts(old)?;
    let (before, now) = (controller_at(phys, rows), file_length(phys, rows));
    let length = old.len();
    if length == now {
        return Err(format!(
            "it is of the present layout already, which has {length} bytes for {phys} phys and {rows} rows"
        ));
    }
    if length != before {
        return Err(format!(
            "it has {length} bytes; for {phys} phys and {rows} rows the old layout has {before}, and the present one {now}"
        ));
    }
    match (0..length / BLOCK).find(|number| !holds(old, *number)) {
        Some(number) => Err(wrong_check(number)),
        None => Ok(extended(old, phys, rows)),
    }
}

/// The old file with the blocks behind it.
fn extended(old: &[u8], phys: usize, rows: usize) -> Vec<u8> {
    let mut file = old.to_vec();
    file.resize(file_length(phys, rows), 0);
    store(&mut file, controller_at(phys, rows), &front::controller());
    store(&mut file, status_at(phys, rows), &front::status());
    for n in 0..phys {
        store(&mut file, connector_at(phys, rows, n), &front::connector());
    }
    seal(&mut file);
    file
}

/// The counts of a file whose block 0 is sound, or why it is not.
fn counts(file: &[u8]) -> Result<(usize, usize), String> {
    if file.len() < BLOCK {
        return Err(format!(
            "it has {} bytes, and an adapter file has {BLOCK} at least",
            file.len()
        ));
    }
    if !holds(file, 0) {
        return Err(wrong_check(0));
    }
    let (phys, rows) = (usize::from(file[0]), usize::from(file[1]));
    match (1..=MOST_PHYS).contains(&phys) && rows <= MOST_ROWS {
        true => Ok((phys, rows)),
        false => Err(format!(
            "it counts {phys} phys and {rows} rows, and an adapter file has 1 to {MOST_PHYS} phys and up to {MOST_ROWS} rows"
        )),
    }
}

/// Whether the check of a block that the file has is right.
fn holds(file: &[u8], number: usize) -> bool {
    let block = &file[BLOCK * number..][..BLOCK];
    block[CHECK_AT..] == check(block, number).to_le_bytes()
}

fn wrong_check(number: usize) -> String {
    format!("the check of its block {number} is wrong")
}

#[cfg(test)]
mod tests {
    use super::super::{describe, parse};
    use super::*;

    const TEXT: &str = "driver name=\"x\"\nphy attached=sata\nphy\nrow target=1\n";

    /// The old file of a description.
    fn old(text: &str) -> Vec<u8> {
        let file = parse(text).unwrap();
        let end = controller_at(file[0].into(), file[1].into());
        file[..end].to_vec()
    }

    #[test]
    fn what_a_description_says_nothing_of() {
        for phys in [1, 2, 7, 32] {
            for rows in [0, 1, 25, 26, 64] {
                let row = |i| format!("row target={i}\n");
                let text = "phy\n".repeat(phys) + &(0..rows).map(row).collect::<String>();
                let before = old(&text);
                assert!(is_old(&before));
                assert_eq!(upgrade(&before).unwrap(), parse(&text).unwrap());
                assert!(!is_old(&parse(&text).unwrap()));
            }
        }
    }

    /// The old layout had no spin-up hold; what stands in its byte is carried.
    #[test]
    fn a_spinup_hold_is_carried() {
        for hold in ["0", "1", "255"] {
            let text = format!("phy attached=sata spin-up-hold={hold}\nphy spin-up-hold={hold}\n");
            assert_eq!(upgrade(&old(&text)).unwrap(), parse(&text).unwrap());
        }
    }

    /// An old file is described as a present one that is cut off.
    #[test]
    fn an_old_file_in_words() {
        let text = describe(&old(TEXT)).unwrap();
        assert_eq!(text, format!("{TEXT}length 2048\n"));
    }

    #[test]
    fn files_that_are_not_old() {
        let fault = |file: &[u8]| {
            assert!(!is_old(file));
            upgrade(file).unwrap_err()
        };
        let now = parse(TEXT).unwrap();
        assert_eq!(
            fault(&now),
            "it is of the present layout already, which has 3584 bytes for 2 phys and 1 rows"
        );
        assert_eq!(
            fault(&now[..2560]),
            "it has 2560 bytes; for 2 phys and 1 rows the old layout has 2048, and the present one 3584"
        );
        assert_eq!(
            fault(&now[..2047]).split(';').next(),
            Some("it has 2047 bytes")
        );
        assert_eq!(
            fault(&[]),
            "it has 0 bytes, and an adapter file has 512 at least"
        );
        assert_eq!(fault(&[0; BLOCK]), "the check of its block 0 is wrong");
        for counts in ["byte 0 0 0", "byte 0 0 33", "byte 0 1 65"] {
            let file = parse(&format!("{TEXT}{counts}")).unwrap();
            assert!(fault(&file).starts_with("it counts "), "{counts}");
        }
    }

    /// Eight blocks are three phys without rows now, and were seven.
    #[test]
    fn lengths_of_other_counts() {
        let now = parse("phy\nphy\nphy\n").unwrap();
        let before = old(&"phy\n".repeat(7));
        assert_eq!(now.len(), before.len());
        assert!(is_old(&before) && !is_old(&now));
        assert!(upgrade(&before).is_ok() && upgrade(&now).is_err());
    }

    #[test]
    fn every_check_is_looked_at() {
        let whole = old(TEXT);
        for number in 1..whole.len() / BLOCK {
            for at in [0, 300, CHECK_AT, BLOCK - 1] {
                let mut file = whole.clone();
                file[BLOCK * number + at] ^= 0x10;
                assert_eq!(upgrade(&file), Err(wrong_check(number)));
            }
        }
    }
}
