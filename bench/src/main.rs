//! Cycles per second of the proved engine against a plain Rust interpreter, on the same program, in one run.
mod plain;

use std::hint::black_box;
use std::time::Instant;

extern "C" {
    fn measured_run(code: *const u8, length: usize, cycles: u32, register: u8) -> u64;
}

/// The proved engine: a run on a new machine; cycles finished, and a register.
fn proved(code: &[u8], cycles: u32, register: u8) -> (usize, u8) {
    let answer = unsafe { measured_run(code.as_ptr(), code.len(), cycles, register) };
    ((answer / 256) as usize, (answer % 256) as u8)
}

fn plain(code: &[u8], cycles: u32, register: u8) -> (usize, u8) {
    let mut machine = plain::Machine::new();
    let (finished, _) = machine.run(code, cycles as usize);
    (finished, machine.registers[register as usize % 16])
}

/// A program with every class of instructions.
const MIXED: [u8; 36] = [
    0xc7, 0x05, 0xcf, 0x09, 0xc0, 0x01, 0x21, 0x01, 0x17, 0x62, 0xcf, 0x09, 0x62, 0x43, 0xa3, 0x09, 0xe0, 0x09,
    0x01, 0x9f, 0xd6, 0x41, 0x5b, 0xa4, 0x9f, 0x30, 0xb7, 0x8f, 0xe0, 0x03, 0xe0, 0x03, 0x25, 0x26, 0x1f, 0x94,
];

const CYCLES: u32 = 65_536;
const RUNS: u32 = 2_000;

fn seconds(run: impl Fn(&[u8], u32, u8) -> (usize, u8)) -> f64 {
    let start = Instant::now();
    for i in 0..RUNS {
        black_box(run(black_box(&MIXED), CYCLES, (i % 16) as u8));
    }
    start.elapsed().as_secs_f64()
}

/// Pseudo-random code, so that the two are compared on every kind of word and fault.
fn compare() -> u32 {
    let mut x = 0x2545_f491_4f6c_dd1du64;
    let mut compared = 0;
    for _ in 0..20_000 {
        let mut code = [0u8; 128];
        for byte in code.iter_mut() {
            x ^= x << 13;
            x ^= x >> 7;
            x ^= x << 17;
            *byte = x as u8;
        }
        // selects first, so that banks are ready
        code[..4].copy_from_slice(&[0xc7, x as u8, 0xcf, (x >> 8) as u8]);
        for register in 0..16 {
            assert_eq!(proved(&code, 200, register), plain(&code, 200, register));
            compared += 1;
        }
    }
    compared
}

fn main() {
    println!("compared {} registers after runs of random code", compare());
    for register in 0..16 {
        assert_eq!(proved(&MIXED, CYCLES, register), plain(&MIXED, CYCLES, register));
    }
    for _ in 0..3 {
        let engine = seconds(proved);
        let rust = seconds(plain);
        let cycles = CYCLES as f64 * RUNS as f64 / 1e6;
        println!(
            "proved {:.0} million cycles a second, plain Rust {:.0}, ratio {:.2}",
            cycles / engine,
            cycles / rust,
            rust / engine
        );
    }
}
