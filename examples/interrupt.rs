//! A drive in an interrupt, to start from: interrupt.c in Rust, which writes the same. The handler is what you copy, with your own registers
//! in the place of `Station`. bin/library says how to compile and link it; it takes Rust 1.82 or later.

use std::mem::{offset_of, size_of};

/// In the order of docs/RULES.md, "Settings".
#[repr(C)]
#[derive(Clone, Copy, Default)]
pub struct Settings {
    pub t: i32,
    pub skp: i32,
    pub skcor: i32,
    pub ski: i32,
    pub ckp: i32,
    pub ckcor: i32,
    pub cki: i32,
    pub v: i32,
    pub q: i32,
    pub kr: i32,
    pub kt: i32,
    pub kth: i32,
    pub kn: i32,
    pub f: i32,
    pub r: i32,
}

#[repr(C)]
#[derive(Clone, Copy, Default)]
pub struct Shaft {
    pub count: i32,
    pub seen: bool,
    pub sum: i32,
    pub steps: i32,
    pub speed: i32,
}

#[repr(C)]
#[derive(Clone, Copy, Default)]
pub struct Command {
    pub target: i32,
    pub reference: i32,
    pub torque: i32,
    pub flux: i32,
}

#[repr(C)]
#[derive(Clone, Copy, Default)]
pub struct Field {
    pub fine: i32,
    pub angle: i32,
}

#[repr(C)]
#[derive(Clone, Copy, Default)]
pub struct Integrals {
    pub speed: i32,
    pub d: i32,
    pub q: i32,
}

/// The record. `Drive::default()` is zeroed, and so broken until it is started.
#[repr(C)]
#[derive(Clone, Copy, Default)]
pub struct Drive {
    pub settings: Settings,
    pub shaft: Shaft,
    pub command: Command,
    pub field: Field,
    pub integrals: Integrals,
    pub tripped: bool,
}

#[repr(C)]
#[derive(Clone, Copy, Default)]
pub struct Output {
    pub a: i32,
    pub b: i32,
    pub c: i32,
    pub number: i32,
    pub clipped: bool,
    pub alpha: i32,
    pub beta: i32,
}

// The archive was compiled for this layout: the size, and where each word is.
macro_rules! layout {
    ($type:ident $size:literal: $($word:ident $at:literal),*) => {
        const _: () = assert!(size_of::<$type>() == $size $(&& offset_of!($type, $word) == $at)*);
    };
}
layout!(Settings 60: t 0, skp 4, skcor 8, ski 12, ckp 16, ckcor 20, cki 24, v 28, q 32, kr 36, kt 40, kth 44, kn 48, f 52, r 56);
layout!(Shaft 20: count 0, seen 4, sum 8, steps 12, speed 16);
layout!(Command 16: target 0, reference 4, torque 8, flux 12);
layout!(Field 8: fine 0, angle 4);
layout!(Integrals 12: speed 0, d 4, q 8);
layout!(Drive 120: settings 0, shaft 60, command 80, field 96, integrals 104, tripped 116);
layout!(Output 28: a 0, b 4, c 8, number 12, clipped 16, alpha 20, beta 24);

// All that a caller owes is in the types: `&mut` keeps everybody else away from the record, and a `bool` is true or false. So the calls
// are safe, and what mirgalhet.h says of them holds for every number.
unsafe extern "C" {
    safe fn mirgalhet_start(d: &mut Drive, settings: Settings) -> i32;
    safe fn mirgalhet_step(d: &mut Drive, ia: i32, ib: i32, count: i32) -> Output;
    safe fn mirgalhet_target(d: &mut Drive, wanted: i32) -> i32;
    safe fn mirgalhet_clear(d: &mut Drive) -> i32;
}

const ACCEPTED: i32 = 0;

/// The registers: currents and count come in, compares and the enable of the gates go out.
#[derive(Default)]
pub struct Station {
    ia: i32,
    ib: i32,
    count: i32,
    a: i32,
    b: i32,
    c: i32,
    gates: bool,
}

/// What the handler and the main line share; `refused` is the number that took the gates away, or 0. Who has it as `&mut` has it alone, so
/// the handler cannot come in the middle of a call: in firmware it lies in a `critical_section::Mutex<RefCell<Shared>>` or the like, which
/// lends it while interrupts are off.
#[derive(Default)]
pub struct Shared {
    drive: Drive,
    refused: i32,
    station: Station,
}

pub fn pulse_interrupt(s: &mut Shared) {
    let o = mirgalhet_step(&mut s.drive, s.station.ia, s.station.ib, s.station.count);

    if o.number == ACCEPTED {
        s.station.a = o.a;
        s.station.b = o.b;
        s.station.c = o.c;
        s.station.gates = true;
    } else {
        s.station.gates = false;
        if s.refused == ACCEPTED {
            s.refused = o.number;
        }
    }
}

// The main line.

fn start(s: &mut Shared, settings: Settings) -> i32 {
    let number = mirgalhet_start(&mut s.drive, settings);
    if number == ACCEPTED {
        s.refused = ACCEPTED;
    }
    number
}

fn target(s: &mut Shared, wanted: i32) -> i32 {
    mirgalhet_target(&mut s.drive, wanted)
}

/// Whoever clears a trip has found out what it was. The drive is fresh then, and its target 0.
fn clear(s: &mut Shared) -> i32 {
    let number = mirgalhet_clear(&mut s.drive);
    if number == ACCEPTED {
        s.refused = ACCEPTED;
    }
    number
}

// The desk.

const BENCH: Settings = Settings {
    t: 600,
    skp: 8192, skcor: 64, ski: 128,
    ckp: 4096, ckcor: 256, cki: 256,
    v: 4096, q: 3277,
    kr: 75, kt: 310, kth: 164, kn: 64, f: 2458, r: 41,
};

/// Samples, a row for each period: ia, ib, count. The fifth has a current that is out of range, and trips.
const SAMPLES: [[i32; 3]; 8] = [
    [0, 0, 0], [310, -160, 2], [590, -280, 4], [840, -430, 6], [9000, -430, 8], [1050, -520, 10], [240, -130, 65534], [460, -220, 0],
];

fn periods(s: &mut Shared, rows: &[[i32; 3]]) {
    for &[ia, ib, count] in rows {
        (s.station.ia, s.station.ib, s.station.count) = (ia, ib, count);
        pulse_interrupt(s);
        if s.station.gates {
            println!("compares {} {} {}, gates on", s.station.a, s.station.b, s.station.c);
        } else {
            println!("gates off, number {}", s.refused);
        }
    }
}

fn main() {
    let s = &mut Shared::default();

    periods(s, &SAMPLES[..1]);
    println!("start {}", start(s, BENCH));
    println!("target {}", target(s, 2048));
    periods(s, &SAMPLES[..6]);
    println!("target {}", target(s, 2048));
    println!("clear {}", clear(s));
    println!("target {}", target(s, 2048));
    periods(s, &SAMPLES[6..]);
}
