//! Writes a sample of the original's answers and links: a line for each command with its report, and an empty line after each script.
use crate::long;

fn hex(bytes: &[u8]) -> String {
    bytes.iter().map(|byte| format!("{byte:02x}")).collect()
}

pub fn write() {
    for (seed, around, turns, every) in [(1, 1, 6, 1), (2, 3, 8, 1), (3, 8, 6, 1), (4, 17, 4, 2), (5, 40, 30, 60), (7, 255, 12, 60)] {
        let script = long::script(5000 + seed, around, turns, every);
        assert!(script.commands.len() <= 4096);
        for (command, report) in script.commands.iter().zip(&script.expected) {
            println!("{} {}", hex(command), hex(report));
        }
        println!();
    }
}
