//! The lines of the benchmark: cards, and the steps that each is given.

use model::lines::{CLK, FUS, IO, PGM, RST, VCC};
use model::{maker, Card, MOST_STEPS};

/// A card and what it is given from power up, in runs of at most 4,096 steps.
pub struct Line {
    pub name: &'static str,
    pub memory: [u8; 174],
    pub fuses: u8,
    pub steps: Vec<u8>,
}

/// Steps from power up, none of them refused.
struct Waveform {
    card: Card,
    fus: bool,
    steps: Vec<u8>,
}

impl Waveform {
    fn new(memory: [u8; 174], fus: bool) -> Self {
        let mut waveform = Self {
            card: Card::new(memory, 7),
            fus,
            steps: vec![],
        };
        let fus = if fus { FUS } else { 0 };
        waveform.put(IO);
        waveform.put(IO | fus);
        waveform.put(IO | fus | VCC);
        waveform
    }

    fn put(&mut self, step: u8) {
        self.card.step(step).expect("the step is accepted");
        self.steps.push(step);
    }

    fn act(&mut self, make: impl FnOnce(bool, &mut [u8]) -> Result<usize, u8>) {
        let mut buffer = [0; MOST_STEPS];
        let count = make(self.fus, &mut buffer).expect("the act is made");
        for &step in &buffer[..count] {
            self.put(step);
        }
    }

    fn walk_to(&mut self, address: u16) {
        let way = address - self.card.volatile.address;
        self.act(|fus, out| maker::walk(way, fus, out));
    }

    fn open(&mut self) {
        let memory = self.card.memory;
        let code = u16::from_be_bytes([memory[10], memory[11]]);
        self.act(|fus, out| maker::open(code, memory[12], fus, out));
    }

    fn line(self, name: &'static str, memory: [u8; 174]) -> Line {
        Line {
            name,
            memory,
            fuses: 7,
            steps: self.steps,
        }
    }
}

/// A splitmix64 number.
fn next(state: &mut u64) -> u64 {
    *state = state.wrapping_add(0x9e37_79b9_7f4a_7c15);
    let mut z = *state;
    z = (z ^ (z >> 30)).wrapping_mul(0xbf58_476d_1ce4_e5b9);
    z = (z ^ (z >> 27)).wrapping_mul(0x94d0_49bb_1331_11eb);
    z ^ (z >> 31)
}

fn patterned() -> [u8; 174] {
    let mut state = 1;
    let mut memory = [0; 174];
    memory.fill_with(|| next(&mut state) as u8);
    // A fresh try, and a read flag.
    memory[12] = 255;
    memory[22] |= 64;
    memory
}

/// Once round all addresses.
fn walk() -> Line {
    let memory = patterned();
    let mut waveform = Waveform::new(memory, false);
    for _ in 0..1520 {
        for step in [VCC | IO | CLK, VCC | IO] {
            waveform.put(step);
        }
    }
    waveform.line("walk over all addresses", memory)
}

/// Opened, and every bit read.
fn read_out() -> Line {
    let memory = patterned();
    let mut waveform = Waveform::new(memory, true);
    waveform.open();
    assert!(waveform.card.volatile.sv, "the card is open");
    waveform.act(maker::reset);
    waveform.walk_to(1391);
    waveform.line("open and read-out", memory)
}

/// A line turned over by chance, as often as not CLK; power is seldom off for
/// long.
fn random() -> Line {
    let memory = patterned();
    let mut waveform = Waveform::new(memory, true);
    let mut state = 2;
    while waveform.steps.len() < MOST_STEPS {
        let lines = waveform.card.volatile.lines;
        let line = match next(&mut state) % 64 {
            // VCC rises with CLK and PGM low alone.
            0..=31 if lines & (VCC | CLK | PGM) == 0 => VCC,
            0..=31 if lines & (VCC | CLK) == 0 => PGM,
            0..=31 => CLK,
            32..=43 => IO,
            44..=53 => PGM,
            54..=58 => FUS,
            59..=62 => RST,
            _ => VCC,
        };
        let step = lines ^ line;
        if waveform.card.step(step).is_ok() {
            waveform.steps.push(step);
        }
    }
    waveform.line("random valid steps", memory)
}

/// A new card: opened, its memory erased as a block, the issuer zone written,
/// MF and ISS blown.
fn personalise() -> Line {
    let memory = [255; 174];
    let mut waveform = Waveform::new(memory, true);
    waveform.open();
    waveform.walk_to(1392);
    waveform.act(|fus, out| maker::program(false, fus, out));
    waveform.act(|fus, out| maker::program(true, fus, out));
    waveform.act(maker::reset);
    for address in 16..80 {
        waveform.walk_to(address);
        if address % 3 == 0 {
            waveform.act(|fus, out| maker::program(false, fus, out));
        }
    }
    // Blowing ends with RST's fall, at address 0.
    waveform.walk_to(1408);
    waveform.act(maker::blow);
    waveform.walk_to(1504);
    waveform.act(maker::blow);
    assert_eq!(waveform.card.fuses, 2, "MF and ISS are blown");
    waveform.line("block personalisation", memory)
}

/// Opened, and most zones rewritten: each word erased, and every other bit of
/// it written.
fn rewrite() -> Line {
    let memory = patterned();
    let mut waveform = Waveform::new(memory, true);
    waveform.open();
    waveform.act(maker::reset);
    // IZ; then CPZ, AZ, EZ, EC and MTZ. The code and its tries stay.
    for address in (16..80).chain(112..1376) {
        waveform.walk_to(address);
        if address % 16 == 0 {
            waveform.act(|fus, out| maker::program(true, fus, out));
        }
        if address % 2 == 0 {
            waveform.act(|fus, out| maker::program(false, fus, out));
        }
    }
    let [iz, az, mtz] = [2, 100, 171].map(|byte| waveform.card.memory[byte]);
    assert_eq!([iz, az, mtz], [0x55; 3], "the zones are rewritten");
    waveform.line("writes and erases", memory)
}

pub fn all() -> [Line; 5] {
    [walk(), read_out(), random(), personalise(), rewrite()]
}
