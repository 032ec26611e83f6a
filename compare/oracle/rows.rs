// A row of a program's input: a letter and six numbers of eight hex digits, 56 bytes with the newline.
// A row that begins with '#' is a heading, which the program copies to its output.

pub const WIDTH: usize = 56;

pub struct Row {
    pub letter: u8,
    pub f: [u32; 6],
}

pub fn text(letter: char, fields: &[u32]) -> String {
    let mut f = [0u32; 6];
    f[..fields.len()].copy_from_slice(fields);
    format!("{letter} {:08X} {:08X} {:08X} {:08X} {:08X} {:08X}\n", f[0], f[1], f[2], f[3], f[4], f[5])
}

pub fn heading(words: &str) -> String {
    let start = format!("# {words} ");
    assert!(start.len() < WIDTH, "heading too long: {words}");
    format!("{start:-<55}\n")
}

pub fn parse(row: &[u8]) -> Row {
    let word = std::str::from_utf8(row).expect("text");
    let mut f = [0u32; 6];
    for (k, slot) in f.iter_mut().enumerate() {
        let at = 2 + 9 * k;
        *slot = u32::from_str_radix(&word[at..at + 8], 16).expect("eight hex digits");
    }
    Row { letter: row[0], f }
}
