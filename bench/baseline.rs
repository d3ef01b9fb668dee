// The same look-ups, CRCs and sums as tables.rattle, in plain Rust over BTreeMap. It prints the same lines.
use std::collections::BTreeMap;
use std::hint::black_box;
use std::time::Instant;

struct Random(u64);

impl Random {
    fn next(&mut self) -> u32 {
        self.0 = self
            .0
            .wrapping_mul(6364136223846793005)
            .wrapping_add(1442695040888963407);
        (self.0 >> 32) as u32
    }
}

fn report(what: &str, count: usize, start: Instant, sum: u64) {
    println!("{what} rust {count} {} {sum}", start.elapsed().as_nanos());
}

fn look_up<K: Copy>(what: &str, keys: &[K], rounds: usize, find: impl Fn(K) -> u32) {
    let start = Instant::now();
    let mut sum = 0u64;
    for _ in 0..rounds {
        for key in keys {
            sum = sum.wrapping_add(u64::from(find(*key)));
        }
    }
    report(what, keys.len() * rounds, start, sum);
}

fn exact(count: u32, rounds: usize) {
    let mut random = Random(14);
    let (mut map, mut keys) = (BTreeMap::new(), Vec::new());
    for number in 0..count {
        let value = u128::from(random.next());
        map.entry(value).or_insert(number);
        keys.push(value);
    }
    look_up("exact", &keys, rounds, |key| {
        map.get(&key).copied().unwrap_or(0)
    });
}

fn lpm(count: u32, rounds: usize) {
    let mut random = Random(14);
    let (mut maps, mut keys) = (vec![BTreeMap::new(); 33], Vec::new());
    for number in 0..count {
        let value = random.next();
        let bits = 8 + random.next() % 24;
        maps[bits as usize]
            .entry(u128::from(value >> (32 - bits)))
            .or_insert(number);
        keys.push(u128::from(value ^ random.next() >> bits));
    }
    let used: Vec<_> = (0..=32).rev().filter(|bits| !maps[*bits].is_empty()).collect();
    let find = |key: u128| {
        used.iter()
            .find_map(|&bits| maps[bits].get(&(key >> (32 - bits))))
    };
    look_up("lpm", &keys, rounds, |key| find(key).copied().unwrap_or(0));
}

fn pair(count: u32, rounds: usize) {
    let mut random = Random(14);
    let (mut maps, mut keys) = (vec![BTreeMap::new(); 33], Vec::new());
    for number in 0..count {
        let group = u128::from(random.next() % 256);
        let value = random.next();
        let bits = 8 + random.next() % 24;
        maps[bits as usize]
            .entry((group, u128::from(value >> (32 - bits))))
            .or_insert(number);
        keys.push((group, u128::from(value ^ random.next() >> bits)));
    }
    let used: Vec<_> = (0..=32).rev().filter(|bits| !maps[*bits].is_empty()).collect();
    let find = |(group, key): (u128, u128)| {
        used.iter()
            .find_map(|&bits| maps[bits].get(&(group, key >> (32 - bits))))
    };
    look_up("pair", &keys, rounds, |key| find(key).copied().unwrap_or(0));
}

fn calculate(what: &str, rounds: u32, calculation: impl Fn(&[u8]) -> u32) {
    let mut random = Random(14);
    let mut list: Vec<u8> = (0..1048576).map(|_| random.next() as u8).collect();
    let start = Instant::now();
    let (mut count, mut sum) = (0, 0u64);
    for round in 0..rounds {
        list.push(round as u8);
        count += list.len();
        sum = sum.wrapping_add(u64::from(calculation(black_box(&list))));
    }
    report(what, count, start, sum);
}

fn crc32(list: &[u8]) -> u32 {
    static TABLE: [u32; 256] = {
        let mut table = [0; 256];
        let mut i = 0;
        while i < 2048 {
            let entry = if i % 8 == 0 {
                i as u32 / 8
            } else {
                table[i / 8]
            };
            table[i / 8] = if entry & 1 == 1 {
                entry >> 1 ^ 0xedb88320
            } else {
                entry >> 1
            };
            i += 1;
        }
        table
    };
    !list.iter().fold(!0, |register, octet| {
        TABLE[(register as u8 ^ octet) as usize] ^ register >> 8
    })
}

fn csum16(list: &[u8]) -> u32 {
    let sum = list.chunks(2).fold(0u32, |sum, word| {
        let sum = sum + (u32::from(word[0]) << 8 | u32::from(*word.get(1).unwrap_or(&0)));
        (sum & 0xffff) + (sum >> 16)
    });
    0xffff - sum
}

fn main() {
    exact(65536, 40);
    lpm(10000, 40);
    pair(65536, 20);
    calculate("crc32", 100, crc32);
    calculate("csum16", 100, csum16);
}
