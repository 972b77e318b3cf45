//! A sample adapter, its file, and requests to it.

use crate::layout::entity;
use crate::layout::file::{
    BLOCK, CHECK, DRIVER_INFO, DRIVER_INFO_END, PHY_COUNT, ROWS_PER_BLOCK, ROW_COUNT,
};
use crate::{block_check, open, request, Connector, Phy, Row, State};

pub const FULL: &[u8] = b"CSMI=Full;";

/// The attached SAS address of phy n.
pub fn address(n: u8) -> [u8; 8] {
    [0x50, 1, 2, 3, 4, 5, 6, n]
}

pub fn bare(n: u8, port: u8) -> Phy {
    let mut phy = Phy::ZERO;
    phy.entity[entity::PHY_IDENTIFIER] = n;
    phy.entity[entity::SIGNAL_CLASS] = 1;
    phy.entity[entity::PORT_IDENTIFIER] = port;
    phy.entity[entity::MINIMUM] = 0x88;
    phy.entity[entity::MAXIMUM] = 0x99;
    phy.entity[0] = 0x10;
    phy.counters = [11, 22, 33, 44 + u32::from(n)];
    phy
}

pub fn attach(mut phy: Phy, device_type: u8, target_protocols: u8, lowest: u8, highest: u8) -> Phy {
    let n = phy.entity[entity::PHY_IDENTIFIER];
    phy.entity[entity::ATTACHED] = device_type;
    phy.entity[entity::ATTACHED_TARGET_PROTOCOLS] = target_protocols;
    phy.entity[48..56].copy_from_slice(&address(n));
    phy.lowest = lowest;
    phy.highest = highest;
    phy.entity[entity::NEGOTIATED] = highest;
    phy
}

/// A phy held at spin-up: 3 in the place of 8 or 9.
pub fn hold(phy: &mut Phy) {
    phy.spinup_hold = 1;
    if matches!(phy.negotiated(), 8 | 9) {
        phy.entity[entity::NEGOTIATED] = 3;
    }
}

/// Five phys: 0 a SATA phy with its signature held, 1 without a device, 2 an expander on port 0,
/// 3 a fixed SATA phy of 1.5 Gb/s without a signature, 4 a SATA phy on port 3; two rows; and a
/// controller and connectors without a zero among their free bytes.
pub fn sample() -> State {
    let mut state = State::ZERO;
    state.level = 3;
    state.p = 5;
    state.a = 2;
    state.driver_info = std::array::from_fn(|i| i as u8);
    state.phys[0] = attach(bare(0, 2), 0x10, 0x01, 8, 9);
    state.phys[0].held = 1;
    state.phys[0].signature = std::array::from_fn(|i| 0x34 + i as u8);
    state.phys[1] = bare(1, 1);
    state.phys[2] = attach(bare(2, 0), 0x20, 0x02, 8, 9);
    state.phys[3] = attach(bare(3, 3), 0x10, 0x01, 8, 8);
    state.phys[3].fixed = 1;
    state.phys[4] = attach(bare(4, 3), 0x10, 0x05, 9, 9);
    state.rows[0] = row(1);
    state.rows[1] = row(2);
    state.controller_config = std::array::from_fn(|i| 1 + i as u8);
    state.controller_status = std::array::from_fn(|i| 0xB0 + i as u8);
    let pinouts = [0x000F_0F03, 1, 2, 0x0000_0800, 0x0001_0000];
    for (n, pinout) in (0..).zip(pinouts) {
        state.connectors[usize::from(n)] = connector(n, pinout);
    }
    state
}

/// The sample with these phys held at spin-up.
pub fn sample_held(phys: &[usize]) -> State {
    let mut state = sample();
    for &n in phys {
        hold(&mut state.phys[n]);
    }
    state
}

/// The sample with 32 phys and 64 rows.
pub fn largest() -> State {
    let mut state = sample();
    (state.p, state.a) = (32, 64);
    for n in 5..32 {
        let phy = usize::from(n);
        state.phys[phy] = bare(n, 1);
        state.connectors[phy] = connector(n, 0x100);
    }
    state.rows = std::array::from_fn(|i| row(i as u8));
    state
}

/// The largest, cut to these counts.
pub fn cut(p: u8, a: u8) -> State {
    let mut state = largest();
    (state.p, state.a) = (p, a);
    for phy in state.live_phys_mut() {
        phy.entity[entity::PORT_IDENTIFIER] %= p;
    }
    for n in usize::from(p)..32 {
        (state.phys[n], state.connectors[n]) = (Phy::ZERO, Connector::ZERO);
    }
    state.rows[usize::from(a)..].fill(Row::ZERO);
    state
}

/// The sample at a level.
pub fn sample_at(level: u8) -> State {
    let mut state = sample();
    state.level = level;
    state
}

pub fn row(n: u8) -> Row {
    Row {
        sas_address: address(n),
        sas_lun: [0, n, 0, 0, 0, 0, 0, 0],
        os: [2, 0, n, 1],
    }
}

/// A connector of phy n with this pinout.
pub fn connector(n: u8, pinout: u32) -> Connector {
    let mut bytes = std::array::from_fn(|i| 1 + ((37 * usize::from(n) + i) % 251) as u8);
    bytes[..4].copy_from_slice(&pinout.to_le_bytes());
    Connector(bytes)
}

/// The blocks of a file that holds the state, their checks not yet set.
pub fn blocks(state: &State) -> Vec<[u8; BLOCK]> {
    let mut first = [0; BLOCK];
    first[PHY_COUNT] = state.p;
    first[ROW_COUNT] = state.a;
    first[DRIVER_INFO..DRIVER_INFO_END].copy_from_slice(&state.driver_info);
    let mut blocks = vec![first];
    for phy in state.live_phys() {
        blocks.push(block(&phy.to_bytes()));
    }
    for rows in state.live_rows().chunks(ROWS_PER_BLOCK) {
        let rows: Vec<_> = rows.iter().map(Row::to_bytes).collect();
        blocks.push(block(rows.as_flattened()));
    }
    let controller = [&state.controller_config[..], &state.controller_status];
    blocks.push(block(&controller.concat()));
    for connector in state.live_connectors() {
        blocks.push(block(&connector.0));
    }
    blocks
}

/// A block that starts with these bytes.
fn block(bytes: &[u8]) -> [u8; BLOCK] {
    let mut block = [0; BLOCK];
    block[..bytes.len()].copy_from_slice(bytes);
    block
}

/// The file of these blocks, with their checks.
pub fn sealed(mut blocks: Vec<[u8; BLOCK]>) -> Vec<u8> {
    for (k, block) in blocks.iter_mut().enumerate() {
        let check = block_check(block, k as u32);
        block[CHECK..].copy_from_slice(&check.to_le_bytes());
    }
    blocks.concat()
}

pub fn file(state: &State) -> Vec<u8> {
    sealed(blocks(state))
}

pub fn medium(p: u8) -> Vec<u8> {
    (0..8192 * usize::from(p))
        .map(|i| (i / 512 * 7 + i) as u8)
        .collect()
}

/// A stage whose blocks differ.
const STAGE: [u8; 16_384] = {
    let mut stage = [0; 16_384];
    let mut i = 0;
    while i < stage.len() {
        stage[i] = (i / 512 * 11 + i * 3 + 1) as u8;
        i += 1;
    }
    stage
};

pub fn stage() -> Vec<u8> {
    STAGE.to_vec()
}

/// The number of an opening at level Full.
pub fn opening(file: &[u8], p: u8) -> u32 {
    open(FULL, file, &medium(p)).0
}

/// A sound buffer of a code with this body.
pub fn buffer(code: u32, body: &[u8]) -> Vec<u8> {
    let signature = match code {
        1..=4 => b"CSMIALL\0",
        _ => b"CSMISAS\0",
    };
    [
        &28u32.to_le_bytes()[..],
        signature,
        &60u32.to_le_bytes(),
        &code.to_le_bytes(),
        &0x5555_5555u32.to_le_bytes(),
        &(body.len() as u32).to_le_bytes(),
        body,
    ]
    .concat()
}

pub fn return_code(buffer: &[u8]) -> u32 {
    u32::from_le_bytes(buffer[20..24].try_into().unwrap())
}

/// The return code of a request whose call's number is 0; only the code's bytes of the buffer
/// change if it isn't 0, and neither state nor medium nor stage does.
pub fn code_of(state: &mut State, medium: &mut [u8], stage: &mut [u8], buffer: &mut [u8]) -> u32 {
    let before = (state.clone(), medium.to_vec(), buffer.to_vec());
    let stage_before = stage.to_vec();
    assert_eq!(request(state, medium, stage, buffer), 0);
    let code = return_code(buffer);
    if code != 0 {
        assert_eq!(*state, before.0);
        assert_eq!(*medium, before.1);
        assert_eq!(*stage, stage_before);
    }
    assert_eq!(buffer[..20], before.2[..20]);
    assert_eq!(buffer[24..28], before.2[24..28]);
    if code != 0 {
        assert_eq!(buffer[28..], before.2[28..]);
    }
    code
}

/// The return code of one request to the sample.
pub fn answer(code: u32, body: &[u8]) -> u32 {
    answer_of(&mut sample(), &mut buffer(code, body))
}

pub fn answer_of(state: &mut State, buffer: &mut [u8]) -> u32 {
    let mut medium = medium(state.p);
    code_of(state, &mut medium, &mut stage(), buffer)
}

/// A command FIS to sectors, bit 6 of byte 7 set.
pub fn fis(command: u8, lba: u32, count: u8) -> [u8; 20] {
    let mut fis = [0; 20];
    fis[0] = 0x27;
    fis[1] = 0x80;
    fis[2] = command;
    let lba = lba.to_le_bytes();
    fis[4..7].copy_from_slice(&lba[..3]);
    fis[7] = 0x40 | lba[3];
    fis[12] = count;
    fis[13] = 0xAB;
    fis[14..].fill(0xEE);
    fis
}

/// The body of a passthrough to phy 0 with as many data bytes as given.
pub fn passthrough(fis: [u8; 20], data: &[u8]) -> Vec<u8> {
    let mut body = vec![0x77; 136];
    body[..4].copy_from_slice(&[0, 0xFF, 0, 0x77]);
    body[4..12].copy_from_slice(&address(0));
    body[16..36].copy_from_slice(&fis);
    body[40..44].copy_from_slice(&(data.len() as u32).to_le_bytes());
    body.extend_from_slice(data);
    body
}
