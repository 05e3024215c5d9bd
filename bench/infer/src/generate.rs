//! Modules by number.
use std::fmt::Write as _;

struct Draws(u64);

impl Draws {
    fn draw(&mut self, below: u64) -> u64 {
        self.0 = (self.0 * 1_103_515_245 + 12_345) % 2_147_483_648;
        self.0 / 65_536 % below
    }
}

/// The module of a seed, with so many bindings.
pub fn generate(seed: u32, count: usize) -> String {
    let mut draws = Draws(u64::from(seed));
    let mut text = String::new();
    for number in 0..count as u64 {
        let before = number / 4 + 1;
        let _ = match number % 4 {
            0 => {
                let value = draws.draw(1_000);
                writeln!(text, "let v{number} = fun x -> fun y -> {{a = x, b = y, c = {value}}}")
            }
            1 => {
                let used = 4 * draws.draw(before);
                let value = draws.draw(1_000);
                writeln!(text, "let v{number} = (v{used} {value}) true")
            }
            2 => {
                let label = ["a", "b", "c"][draws.draw(3) as usize];
                let used = 4 * draws.draw(before) + 1;
                writeln!(text, "let v{number} = fun r -> r.{label} + v{used}.c")
            }
            _ => {
                let value = draws.draw(1_000);
                let used = 4 * draws.draw(before) + 2;
                let made = "{a = n, b = n, c = n}";
                writeln!(text, "let rec v{number} = fun n -> if n < {value} then v{used} {made} else v{number} (n - 1)")
            }
        };
    }
    text
}
