// The same fields as fields.rattle, in plain Rust, octet by octet. It prints the same lines.
use std::hint::black_box;
use std::time::Instant;

fn read(octets: &[u8], at: usize, width: u8) -> u128 {
    let (first, skip) = (at / 8, at % 8);
    if skip == 0 && width % 8 == 0 {
        let octets = &octets[first..first + usize::from(width) / 8];
        return octets.iter().fold(0, |number, octet| number << 8 | u128::from(*octet));
    }
    let (mut number, mut index, mut skip, mut left) = (0, first, skip, usize::from(width));
    while left > 0 {
        let count = left.min(8 - skip);
        let part = octets[index] << skip >> (8 - count);
        number = number << count | u128::from(part);
        (index, skip, left) = (index + 1, 0, left - count);
    }
    number
}

fn write(octets: &mut [u8], at: usize, width: u8, value: u128) {
    let (first, skip) = (at / 8, at % 8);
    if skip == 0 && width % 8 == 0 {
        let mut rest = value;
        for octet in octets[first..first + usize::from(width) / 8].iter_mut().rev() {
            *octet = rest as u8;
            rest >>= 8;
        }
        return;
    }
    let (mut index, mut skip, mut left) = (first, skip, usize::from(width));
    while left > 0 {
        let count = left.min(8 - skip);
        left -= count;
        let rest = 8 - skip - count;
        let mask = 0xffu8 >> (8 - count) << rest;
        octets[index] = octets[index] & !mask | ((value >> left) as u8) << rest & mask;
        (index, skip) = (index + 1, 0);
    }
}

fn measure(names: [&str; 2], first: usize, width: u8, rounds: u32) {
    let mut octets = vec![7u8; 256];
    let width = black_box(width);
    let start = Instant::now();
    for round in 0..rounds {
        write(&mut octets, first + (round % 8) as usize * 128, width, u128::from(round));
    }
    println!("{} rust {rounds} {} {}", names[1], start.elapsed().as_nanos(), octets[20]);
    let start = Instant::now();
    let mut sum = 0u64;
    for round in 0..rounds {
        sum = sum.wrapping_add(read(&octets, first + (round % 8) as usize * 128, width) as u64);
    }
    println!("{} rust {rounds} {} {sum}", names[0], start.elapsed().as_nanos());
}

fn main() {
    measure(["read48", "write48"], 8, 48, 100000000);
    measure(["read48odd", "write48odd"], 11, 48, 100000000);
    measure(["read128", "write128"], 8, 128, 100000000);
    measure(["read128odd", "write128odd"], 11, 128, 20000000);
}
