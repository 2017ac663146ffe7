//! The module in plain Rust, changed in place: written from the papers, to compare the library with.
use std::slice::from_raw_parts;

const IDLE: u8 = 0;
const LOAD: u8 = 1;
const BURN: u8 = 2;
const FIRST: u8 = 3;

#[repr(C)]
pub struct Job {
    due: u8,
    last: u8,
    ended: u8,
    kind: u8,
}

/// Customer bytes of the store that are not the copy's, and that are not zero.
#[repr(C)]
#[derive(Default)]
pub struct Differing {
    copy: u8,
    zero: u8,
}

#[repr(C)]
#[derive(Default)]
pub struct Bus {
    address: u16,
    counter: u16,
}

#[repr(C)]
#[derive(Default)]
pub struct Controls {
    rx_alarm: u16,
    tx_alarm: u16,
    lasi: u16,
    tx_flag: u16,
    rx_flag: u16,
}

#[repr(C)]
#[derive(Default)]
pub struct Latch {
    live: u16,
    since: u16,
}

#[repr(C)]
pub struct Alarms {
    controls: Controls,
    rx_faults: Latch,
    tx_faults: Latch,
    tx_alarm: Latch,
    rx_alarm: Latch,
    tx_warning: Latch,
    rx_warning: Latch,
    link: bool,
    changed: bool,
}

#[repr(C)]
#[derive(Clone, Copy, Default)]
pub struct Sample {
    temperature: i16,
    bias: u16,
    transmit: u16,
    receive: u16,
}

#[repr(C)]
#[derive(Default)]
pub struct Monitor {
    sample: Sample,
    held: bool,
    quantity: u8,
    byte: u8,
}

#[repr(C)]
pub struct Module {
    copy: [u8; 256],
    job: Job,
    store: [u8; 256],
    differing: Differing,
    powered: bool,
    port: u8,
    thresholds: [u8; 40],
    command: u16,
    bus: Bus,
    alarms: Alarms,
    monitor: Monitor,
}

#[repr(C)]
pub struct Lines {
    receive: u16,
    transmit: u16,
    signal: bool,
    block: bool,
    lanes: bool,
}

const SILENT: u32 = 1 << 16;
const SET: u32 = 2 << 16;
const WRITTEN: u32 = 3 << 16;
const DROPPED: u32 = 4 << 16;
const DATA: u32 = 5 << 16;
const NOTHING: u32 = 1 << 16;
const LOADED: u32 = 2 << 16;
const BURNED: u32 = 3 << 16;
const UNSAVED: u32 = 1 << 16;
const OFF: u32 = 7 << 24;
const ON: u32 = 8 << 24;
const TEMPERATURE: u32 = 6 << 24;

impl Latch {
    fn standing(&self) -> u16 {
        self.live | self.since
    }

    fn feed(&mut self, word: u16) {
        self.live = word;
        self.since |= word;
    }

    fn read(&mut self) -> u16 {
        let word = self.standing();
        self.since = 0;
        word
    }
}

impl Alarms {
    fn receive(&self) -> u16 {
        let flagged = self.rx_alarm.standing() & self.controls.rx_flag != 0;
        self.rx_faults.standing() | (flagged as u16) << 1
    }

    fn transmit(&self) -> u16 {
        let flagged = self.tx_alarm.standing() & self.controls.tx_flag != 0;
        self.tx_faults.standing() | (flagged as u16) << 1
    }

    fn status(&self) -> u16 {
        let receive = self.receive() & self.controls.rx_alarm != 0;
        let transmit = self.transmit() & self.controls.tx_alarm != 0;
        (receive as u16) << 2 | (transmit as u16) << 1 | self.changed as u16
    }
}

impl Sample {
    fn code(&self, quantity: u8) -> u16 {
        match quantity {
            0 => self.temperature as u16,
            1 => self.bias,
            2 => self.transmit,
            _ => self.receive,
        }
    }
}

impl Monitor {
    fn high(&mut self, quantity: u8) -> u16 {
        let code = self.sample.code(quantity);
        self.held = true;
        self.quantity = quantity;
        self.byte = code as u8;
        code >> 8
    }

    fn low(&mut self, quantity: u8) -> u16 {
        if self.held && self.quantity == quantity {
            self.held = false;
            self.byte as u16
        } else {
            self.sample.code(quantity) & 0xff
        }
    }
}

impl Module {
    /// What the customer byte at an offset adds to the counts.
    fn differs(&self, at: usize) -> (u8, u8) {
        let customer = (119..=166).contains(&at);
        let (store, copy) = (self.store[at], self.copy[at]);
        (
            (customer && store != copy) as u8,
            (customer && store != 0) as u8,
        )
    }

    /// The counts when the bytes at an offset have changed, by what they added before.
    fn recount(&mut self, at: usize, (copy, zero): (u8, u8)) {
        let now = self.differs(at);
        self.differing.copy = self.differing.copy - copy + now.0;
        self.differing.zero = self.differing.zero - zero + now.1;
    }

    fn set_copy(&mut self, at: usize, byte: u8) {
        let was = self.differs(at);
        self.copy[at] = byte;
        self.recount(at, was);
    }

    fn set_store(&mut self, at: usize, byte: u8) {
        let was = self.differs(at);
        self.store[at] = byte;
        self.recount(at, was);
    }

    /// What power-on and reset share: the lines stay.
    fn start(&mut self) {
        self.copy = [0; 256];
        self.differing.copy = self.differing.zero;
        self.job = Job {
            due: 0,
            last: 255,
            ended: 0,
            kind: FIRST,
        };
        self.command = 3;
        self.bus = Bus::default();
        self.monitor = Monitor::default();
        self.alarms.controls = Controls::default();
        self.alarms.rx_faults.since = 0;
        self.alarms.tx_faults.since = 0;
        self.alarms.tx_alarm = Latch::default();
        self.alarms.rx_alarm = Latch::default();
        self.alarms.tx_warning = Latch::default();
        self.alarms.rx_warning = Latch::default();
        self.alarms.changed = false;
    }

    fn read(&mut self, address: u16) -> u16 {
        match address {
            0x0000 => {
                if self.job.kind == FIRST {
                    0xa040
                } else {
                    0x2040
                }
            }
            0x8000 => {
                let status = if self.job.kind == IDLE {
                    self.job.ended
                } else {
                    2
                };
                self.job.ended = 0;
                self.command | (status as u16) << 2
            }
            0x8007..=0x8106 => self.copy[(address - 0x8007) as usize] as u16,
            0x9000 => self.alarms.controls.rx_alarm,
            0x9001 => self.alarms.controls.tx_alarm,
            0x9002 => self.alarms.controls.lasi,
            0x9003 => {
                let word = self.alarms.receive();
                self.alarms.rx_faults.since = 0;
                word
            }
            0x9004 => {
                let word = self.alarms.transmit();
                self.alarms.tx_faults.since = 0;
                word
            }
            0x9005 => {
                let word = self.alarms.status();
                self.alarms.changed = false;
                word
            }
            0x9006 => self.alarms.controls.tx_flag,
            0x9007 => self.alarms.controls.rx_flag,
            0xa000..=0xa027 => self.thresholds[(address - 0xa000) as usize] as u16,
            0xa060 => self.monitor.high(0),
            0xa061 => self.monitor.low(0),
            0xa064 => self.monitor.high(1),
            0xa065 => self.monitor.low(1),
            0xa066 => self.monitor.high(2),
            0xa067 => self.monitor.low(2),
            0xa068 => self.monitor.high(3),
            0xa069 => self.monitor.low(3),
            0xa070 => self.alarms.tx_alarm.read(),
            0xa071 => self.alarms.rx_alarm.read(),
            0xa074 => self.alarms.tx_warning.read(),
            0xa075 => self.alarms.rx_warning.read(),
            _ => 0,
        }
    }

    fn command(&mut self, data: u16) {
        let offset = (data >> 8) as u8;
        let write = data & 0x20 != 0;
        let job = |due, last, kind| Job {
            due,
            last,
            ended: 0,
            kind,
        };
        self.command = data & 0xff23;
        self.job = match (data & 3, write) {
            (3, false) => job(0, 255, LOAD),
            (3, true) => job(119, 166, BURN),
            (2, false) => job(offset, offset, LOAD),
            (2, true) if (119..=166).contains(&offset) => job(offset, offset, BURN),
            _ => Job {
                due: 0,
                last: 0,
                ended: 3,
                kind: IDLE,
            },
        };
    }

    fn write(&mut self, address: u16, data: u16) -> u32 {
        let free = self.job.kind == IDLE;
        match address {
            0x0000 if data & 0x8000 != 0 => self.start(),
            0x8000 if free => self.command(data),
            0x807e..=0x80ad if free => self.set_copy((address - 0x8007) as usize, data as u8),
            0x9000 => self.alarms.controls.rx_alarm = data & 0x003b,
            0x9001 => self.alarms.controls.tx_alarm = data & 0x03db,
            0x9002 => self.alarms.controls.lasi = data & 0x0007,
            0x9006 => self.alarms.controls.tx_flag = data & 0x00cf,
            0x9007 => self.alarms.controls.rx_flag = data & 0x00c0,
            _ => return DROPPED,
        }
        WRITTEN
    }

    /// The code at two bytes of the thresholds.
    fn code(&self, at: usize) -> u16 {
        u16::from_be_bytes([self.thresholds[at], self.thresholds[at + 1]])
    }

    /// The flags of a row of thresholds at a level, 0 for alarms and 4 for warnings: high, then low.
    fn crossed(&self, row: usize, level: usize, reading: u16) -> u16 {
        let (high, low) = (self.code(row + level), self.code(row + level + 2));
        ((reading > high) as u16) << 1 | (reading < low) as u16
    }

    fn flags(&self, level: usize, s: &Sample) -> (u16, u16) {
        let (high, low) = (self.code(level) as i16, self.code(level + 2) as i16);
        let temperature = ((s.temperature > high) as u16) << 1 | (s.temperature < low) as u16;
        let bias = self.crossed(16, level, s.bias);
        let transmit = self.crossed(24, level, s.transmit);
        let receive = self.crossed(32, level, s.receive);
        (temperature << 6 | bias << 2 | transmit, receive << 6)
    }
}

#[no_mangle]
pub extern "C" fn rust_power_on(m: &mut Module) -> u32 {
    if m.powered {
        return ON;
    }
    m.start();
    m.alarms.rx_faults.live = 0;
    m.alarms.tx_faults.live = 0;
    m.alarms.link = false;
    m.powered = true;
    0
}

#[no_mangle]
pub extern "C" fn rust_reset_pin(m: &mut Module) -> u32 {
    if !m.powered {
        return OFF;
    }
    m.start();
    0
}

#[no_mangle]
pub extern "C" fn rust_cut(m: &mut Module) -> u32 {
    if !m.powered {
        return OFF;
    }
    m.powered = false;
    0
}

#[no_mangle]
pub extern "C" fn rust_cut_torn(m: &mut Module, byte: u8) -> u32 {
    if m.powered && m.job.kind == BURN {
        m.set_store(m.job.due as usize, byte);
    }
    rust_cut(m)
}

#[no_mangle]
pub extern "C" fn rust_tick(m: &mut Module) -> u32 {
    if !m.powered {
        return OFF;
    }
    let (kind, at) = (m.job.kind, m.job.due);
    if kind == IDLE {
        return NOTHING;
    }
    if at == m.job.last {
        m.job.kind = IDLE;
        m.job.ended = 1;
    } else {
        m.job.due = at + 1;
    }
    let i = at as usize;
    let which = if kind == BURN {
        m.set_store(i, m.copy[i]);
        BURNED
    } else {
        m.set_copy(i, m.store[i]);
        LOADED
    };
    which | (at as u32) << 8 | m.copy[i] as u32
}

#[no_mangle]
pub extern "C" fn rust_settle(m: &mut Module, budget: u32) -> u32 {
    if !m.powered {
        return OFF;
    }
    let mut ticks = 0;
    while ticks < budget && m.job.kind != IDLE {
        rust_tick(m);
        ticks += 1;
    }
    ticks
}

#[no_mangle]
pub extern "C" fn rust_frame(m: &mut Module, word: u32) -> u32 {
    if !m.powered {
        return OFF;
    }
    let for_us = word >> 30 == 0 && word >> 23 & 31 == m.port as u32 && word >> 18 & 31 == 1;
    let turned = word >> 16 & 3 == 2;
    let (operation, data) = (word >> 28 & 3, word as u16);
    let address = m.bus.address;
    match operation {
        _ if !for_us => SILENT,
        0 | 1 if !turned => SILENT,
        0 => {
            m.bus.address = data;
            SET
        }
        1 => m.write(address, data),
        _ => {
            let value = m.read(address);
            m.bus.counter = m.bus.counter.saturating_add(1);
            if operation == 2 {
                m.bus.address = address.saturating_add(1);
            }
            DATA | value as u32
        }
    }
}

#[no_mangle]
pub extern "C" fn rust_lines(m: &mut Module, given: Lines) -> u32 {
    if !m.powered {
        return OFF;
    }
    let up = given.signal && given.block && given.lanes;
    m.alarms.rx_faults.feed(given.receive & 0x0039);
    m.alarms.tx_faults.feed(given.transmit & 0x03d9);
    m.alarms.changed |= up != m.alarms.link;
    m.alarms.link = up;
    0
}

#[no_mangle]
pub extern "C" fn rust_sample(m: &mut Module, given: Sample) -> u32 {
    if !m.powered {
        return OFF;
    }
    if !(-0x2800..=0x7d00).contains(&given.temperature) {
        return TEMPERATURE;
    }
    let (tx_alarm, rx_alarm) = m.flags(0, &given);
    let (tx_warning, rx_warning) = m.flags(4, &given);
    m.alarms.tx_alarm.feed(tx_alarm);
    m.alarms.rx_alarm.feed(rx_alarm);
    m.alarms.tx_warning.feed(tx_warning);
    m.alarms.rx_warning.feed(rx_warning);
    m.monitor.sample = given;
    0
}

#[no_mangle]
pub extern "C" fn rust_line(m: &Module) -> bool {
    m.powered && m.alarms.status() & m.alarms.controls.lasi != 0
}

#[no_mangle]
pub extern "C" fn rust_counter(m: &Module) -> u16 {
    m.bus.counter
}

#[no_mangle]
pub extern "C" fn rust_stored(m: &Module, offset: u8) -> u8 {
    m.store[offset as usize]
}

/// The full count.
#[no_mangle]
pub extern "C" fn rust_unsaved(m: &Module) -> u32 {
    if !m.powered {
        return OFF;
    }
    let bytes = m.copy[119..=166].iter().zip(&m.store[119..=166]);
    UNSAVED | bytes.filter(|(copy, store)| copy != store).count() as u32
}

#[no_mangle]
pub extern "C" fn rust_tenths(code: i16) -> i16 {
    (code as f64 * 10.0 / 256.0).round_ties_even() as i16
}

fn ordered<T: PartialOrd>(row: [T; 4]) -> bool {
    row[1] <= row[3] && row[3] <= row[2] && row[2] <= row[0]
}

fn refusal(port: u8, image: &[u8], thresholds: &[u8]) -> u32 {
    let row = |at: usize| {
        [0, 2, 4, 6].map(|i| u16::from_be_bytes([thresholds[at + i], thresholds[at + i + 1]]))
    };
    if port > 31 {
        1
    } else if image.len() != 256 {
        2
    } else if thresholds.len() != 40 {
        3
    } else if image[..118]
        .iter()
        .fold(0u8, |sum, byte| sum.wrapping_add(*byte))
        != image[118]
    {
        4
    } else if !ordered(row(0).map(|code| code as i16))
        || ![16, 24, 32].into_iter().all(|at| ordered(row(at)))
    {
        5
    } else {
        0
    }
}

/// # Safety
/// `image` and `thresholds` point to as many bytes as their sizes say.
#[no_mangle]
pub unsafe extern "C" fn rust_make(
    m: &mut Module,
    port: u8,
    image: *const u8,
    image_size: usize,
    thresholds: *const u8,
    thresholds_size: usize,
) -> u32 {
    let image = unsafe { from_raw_parts(image, image_size) };
    let thresholds = unsafe { from_raw_parts(thresholds, thresholds_size) };
    let number = refusal(port, image, thresholds);
    m.start();
    m.job = Job {
        due: 0,
        last: 0,
        ended: 0,
        kind: IDLE,
    };
    m.command = 0;
    m.alarms.rx_faults.live = 0;
    m.alarms.tx_faults.live = 0;
    m.alarms.link = false;
    m.powered = false;
    (m.port, m.store, m.thresholds) = (0, [0; 256], [0; 40]);
    if number == 0 {
        m.port = port;
        m.store.copy_from_slice(image);
        m.thresholds.copy_from_slice(thresholds);
    }
    let zero = m.store[119..=166].iter().filter(|byte| **byte != 0).count() as u8;
    m.differing = Differing { copy: zero, zero };
    number << 24
}
