//! An adapter file made from its description.

use super::fields::{CONNECTOR, CONTROLLER, DRIVER, ROW, STATUS};
use super::{
    connector_at, controller_at, file_length, front, phy, row_at, seal, status_at, store, BLOCK,
    CONNECTOR_BYTES, CONTROLLER_BYTES, DRIVER_AT, DRIVER_BYTES, MOST_PHYS, MOST_ROWS, ROW_BYTES,
    STATUS_BYTES,
};
use crate::field::fill;
use crate::text::{lines, Line};
use crate::value::{number, MOST_BYTES};
use crate::Fault;

/// What the lines say, in the order in which the file is made: blocks, single bytes, checks, length, damaged bytes.
#[derive(Default)]
struct Description {
    driver: Option<[u8; DRIVER_BYTES]>,
    controller: Option<[u8; CONTROLLER_BYTES]>,
    status: Option<[u8; STATUS_BYTES]>,
    phys: Vec<[u8; BLOCK]>,
    connectors: Vec<[u8; CONNECTOR_BYTES]>,
    rows: Vec<[u8; ROW_BYTES]>,
    bytes: Vec<Place>,
    length: Option<usize>,
    damage: Vec<Place>,
}

/// One byte of the file and its value, and the line that says so.
struct Place {
    line: usize,
    at: usize,
    value: u8,
}

/// The file that a description makes.
pub fn parse(text: &str) -> Result<Vec<u8>, Fault> {
    let mut said = Description::default();
    for mut line in lines(text)? {
        said.add(&mut line)?;
        line.finish()?;
    }
    said.file()
}

impl Description {
    fn add(&mut self, line: &mut Line) -> Result<(), Fault> {
        match line.name.as_str() {
            "driver" => self.add_driver(line),
            "controller" => self.add_controller(line),
            "status" => self.add_status(line),
            "phy" => self.add_phy(line),
            "row" => self.add_row(line),
            "byte" => add_place(&mut self.bytes, line),
            "damage" => add_place(&mut self.damage, line),
            "length" => self.add_length(line),
            other => {
                let reason = format!("'{other}' is none of driver, controller, status, phy, row, byte, length, damage");
                Err(Fault::new(line.number, reason))
            }
        }
    }

    fn add_driver(&mut self, line: &mut Line) -> Result<(), Fault> {
        let mut info = [0; DRIVER_BYTES];
        fill(&mut info, &DRIVER, line)?;
        once(&mut self.driver, info, line)
    }

    fn add_controller(&mut self, line: &mut Line) -> Result<(), Fault> {
        let mut info = front::controller();
        fill(&mut info, &CONTROLLER, line)?;
        once(&mut self.controller, info, line)
    }

    fn add_status(&mut self, line: &mut Line) -> Result<(), Fault> {
        let mut info = front::status();
        fill(&mut info, &STATUS, line)?;
        once(&mut self.status, info, line)
    }

    fn add_phy(&mut self, line: &mut Line) -> Result<(), Fault> {
        if self.phys.len() == MOST_PHYS {
            return Err(Fault::new(line.number, "more than 32 phys"));
        }
        self.phys.push(phy::from_line(line, self.phys.len())?);
        let mut connector = front::connector();
        fill(&mut connector, &CONNECTOR, line)?;
        self.connectors.push(connector);
        Ok(())
    }

    fn add_row(&mut self, line: &mut Line) -> Result<(), Fault> {
        if self.rows.len() == MOST_ROWS {
            return Err(Fault::new(line.number, "more than 64 rows"));
        }
        let mut row = [0; ROW_BYTES];
        fill(&mut row, &ROW, line)?;
        self.rows.push(row);
        Ok(())
    }

    fn add_length(&mut self, line: &mut Line) -> Result<(), Fault> {
        let word = line.expect("a number of bytes")?;
        let length = number(&word.value, MOST_BYTES as u64).map_err(|e| word.fault(e))?;
        once(&mut self.length, length as usize, line)
    }

    fn file(&self) -> Result<Vec<u8>, Fault> {
        let (phys, rows) = (self.phys.len(), self.rows.len());
        let mut file = vec![0; file_length(phys, rows)];
        file[0] = phys as u8;
        file[1] = rows as u8;
        if let Some(info) = &self.driver {
            store(&mut file, DRIVER_AT, info);
        }
        for (n, block) in self.phys.iter().enumerate() {
            store(&mut file, BLOCK * (1 + n), block);
        }
        for (i, row) in self.rows.iter().enumerate() {
            store(&mut file, row_at(phys, i), row);
        }
        let controller = self.controller.unwrap_or_else(front::controller);
        let status = self.status.unwrap_or_else(front::status);
        store(&mut file, controller_at(phys, rows), &controller);
        store(&mut file, status_at(phys, rows), &status);
        for (n, connector) in self.connectors.iter().enumerate() {
            store(&mut file, connector_at(phys, rows, n), connector);
        }
        put(&mut file, &self.bytes)?;
        seal(&mut file);
        file.resize(self.length.unwrap_or(file.len()), 0);
        put(&mut file, &self.damage)?;
        Ok(file)
    }
}

/// Keeps what a line says; a second such line is a fault.
fn once<T>(kept: &mut Option<T>, said: T, line: &Line) -> Result<(), Fault> {
    match kept.replace(said) {
        Some(_) => Err(Fault::new(
            line.number,
            format!("a second {} line", line.name),
        )),
        None => Ok(()),
    }
}

/// Adds the place that a line `byte BLOCK OFFSET VALUE` gives.
fn add_place(places: &mut Vec<Place>, line: &mut Line) -> Result<(), Fault> {
    let mut next = |most: usize| {
        let word = line.expect("a block, an offset and a value")?;
        number(&word.value, most as u64).map_err(|e| word.fault(e))
    };
    let block = next(MOST_BYTES / BLOCK)? as usize;
    let offset = next(BLOCK - 1)? as usize;
    let value = next(255)? as u8;
    places.push(Place {
        line: line.number,
        at: BLOCK * block + offset,
        value,
    });
    Ok(())
}

fn put(file: &mut [u8], places: &[Place]) -> Result<(), Fault> {
    for place in places {
        let Some(byte) = file.get_mut(place.at) else {
            return Err(Fault::new(place.line, "the file has no such byte"));
        };
        *byte = place.value;
    }
    Ok(())
}

#[cfg(test)]
mod tests {
    use super::super::check;
    use super::*;

    #[test]
    fn counts_blocks_and_checks() {
        let text = "driver name=\"lab\" minor=7\nphy attached=sata\nphy connector=\"J2\"\nrow address=5000C50000000001 target=4\ncontroller serial=\"A1\" board=30A81000h\nstatus status=offline offline-reason=2\n";
        let file = parse(text).unwrap();
        assert_eq!(file.len(), 7 * BLOCK);
        assert_eq!(file[..2], [2, 1]);
        assert_eq!(file[4..8], *b"lab\0");
        assert_eq!(file[168..170], [7, 0]);
        assert_eq!(file[1024 + 20], 1);
        assert_eq!(file[1536..1538], [0x50, 0]);
        assert_eq!(file[1536 + 18], 4);
        let controller = &file[2048..2560];
        assert_eq!(controller[12..20], [0, 0x10, 0xA8, 0x30, 0xFF, 0xFF, 5, 3]);
        assert_eq!(controller[52..55], *b"A1\0");
        assert_eq!(controller[149..153], [1, 0, 0, 0]);
        assert_eq!(controller[176..184], [3, 0, 0, 0, 2, 0, 0, 0]);
        assert_eq!(controller[184..508], [0; 324]);
        let [first, second] = [2560, 3072].map(|at| &file[at..at + 508]);
        assert_eq!((first[0], first[20], second[0], second[20]), (1, 1, 1, 1));
        assert_eq!((&first[4..7], &second[4..7]), (&[0; 3][..], &b"J2\0"[..]));
        assert!(second[21..].iter().all(|b| *b == 0));
        for (number, block) in file.chunks(BLOCK).enumerate() {
            assert_eq!(block[508..], check(block, number).to_le_bytes());
        }
    }

    #[test]
    fn a_spinup_hold_stands_in_byte_104() {
        let free = parse("phy\nphy attached=sata\n").unwrap();
        let held = parse("phy\nphy attached=sata spin-up-hold=1\n").unwrap();
        let moved: Vec<usize> = (0..free.len())
            .filter(|at| free[*at] != held[*at])
            .collect();
        assert_eq!(moved, [1024 + 29, 1024 + 104, 1024 + 508, 1024 + 509]);
        assert_eq!((held[1024 + 29], held[1024 + 104]), (3, 1));
    }

    #[test]
    fn single_bytes_length_and_damage() {
        let whole = parse("phy").unwrap();
        let sealed = parse("phy\nbyte 1 200 9").unwrap();
        assert_eq!((sealed[712], sealed[1020]), (9, whole[1020] + 9));
        let damaged = parse("damage 1 200 9\nphy").unwrap();
        assert_eq!((damaged[712], damaged[1020]), (9, whole[1020]));
        let long = parse("phy\nlength 2054\ndamage 4 5 255").unwrap();
        assert_eq!((long.len(), long[2053]), (2054, 255));
        assert_eq!(parse("phy\nlength 0").unwrap(), []);
    }

    #[test]
    fn faults_name_line_and_reason() {
        let fault = |text: &str| parse(text).unwrap_err().to_string();
        assert_eq!(
            fault("phy\nrwo"),
            "line 2: 'rwo' is none of driver, controller, status, phy, row, byte, length, damage"
        );
        assert_eq!(fault("phy\nrow lun=00"), "line 2: lun: 1 bytes, not 8");
        assert_eq!(fault("phy port=300"), "line 1: port: 300 is over 255");
        assert_eq!(
            fault("phy spin-up-hold=256"),
            "line 1: spin-up-hold: 256 is over 255"
        );
        assert_eq!(fault("phy\n\n  prt=3"), "line 3: phy has no field 'prt'");
        assert_eq!(fault("length 1\nlength 2"), "line 2: a second length line");
        assert_eq!(
            fault("byte 1 0"),
            "line 1: byte needs a block, an offset and a value"
        );
        assert_eq!(
            fault("phy\nbyte 4 0 1"),
            "line 2: the file has no such byte"
        );
        assert_eq!(fault("phy 3"), "line 1: phy does not take '3'");
        assert_eq!(fault("status\nstatus"), "line 2: a second status line");
        assert_eq!(
            fault("controller bus=usb"),
            "line 1: bus: 'usb' is no number and none of pci, pcmcia"
        );
        assert_eq!(
            fault("phy connector=\"seventeen letters\""),
            "line 1: connector: the text has more than 16 bytes"
        );
        assert_eq!(fault(&"phy\n".repeat(33)), "line 33: more than 32 phys");
        assert_eq!(fault(&"row\n".repeat(65)), "line 65: more than 64 rows");
    }
}
