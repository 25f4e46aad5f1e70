//! Renumbers the labels 1 to n that `drain make` wrote, one to one and in an order that follows no pattern. Label 0, no data, stays.
//! With `near` they are 1 to n again, with `far` they are as far apart as 31 bits allow.
//!
//! Usage: scatter_labels near|far BAS.BIL

fn main() -> std::io::Result<()> {
    let words: Vec<String> = std::env::args().skip(1).collect();
    let [how, file] = &words[..] else {
        eprintln!("usage: scatter_labels near|far BAS.BIL");
        std::process::exit(2);
    };
    let bytes = std::fs::read(file)?;
    let labels = || bytes.as_chunks().0.iter().map(|label| u32::from_le_bytes(*label));
    let count = labels().max().unwrap_or(0);
    let apart = if how == "far" { i32::MAX as u32 / count.max(1) } else { 1 };
    let mut renumbered: Vec<u32> = (0..=count).map(|label| label * apart).collect();
    // Each changes places with one before it, by numbers of xorshift.
    let mut number = 0x9e37_79b9_7f4a_7c15_u64;
    for label in (2..=count as usize).rev() {
        for shift in [13, -7, 17] {
            number ^= if shift > 0 { number << shift } else { number >> -shift };
        }
        renumbered.swap(label, 1 + (number % label as u64) as usize);
    }
    let written = labels().flat_map(|label| renumbered[label as usize].to_le_bytes());
    std::fs::write(file, written.collect::<Vec<u8>>())
}
