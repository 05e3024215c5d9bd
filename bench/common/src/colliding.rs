//! Names that a map with the hash of the proved programs' toolchain would put into one place.

const START: u64 = 0x243f_6a88_85a3_08d3;
const MULTIPLIER: u64 = 0x9e37_79b9_7f4a_7c15;

/// The bits of a hash that say where a map of up to 73,728 entries looks first.
const PLACE: u64 = 0x1fff;

fn folded(first: u64, second: u64) -> u64 {
    let product = u128::from(first) * u128::from(second);
    product as u64 ^ (product >> 64) as u64
}

/// The state of the hash after a byte more.
fn with_byte(state: u64, byte: u8) -> u64 {
    folded(state ^ u64::from(byte) * 0x1_0101, MULTIPLIER ^ 2)
}

/// Adds to the names those of so many letters more whose hash has no bit of the place, until there are enough.
fn extend(state: u64, name: &mut String, left: usize, count: usize, names: &mut Vec<String>) {
    if names.len() == count {
        return;
    }
    if left == 0 {
        if (state ^ state >> 32) & PLACE == 0 {
            names.push(name.clone());
        }
        return;
    }
    for letter in b'a'..=b'z' {
        name.push(char::from(letter));
        extend(with_byte(state, letter), name, left - 1, count, names);
        name.pop();
    }
}

/// So many names of seven letters that collide.
pub fn colliding_names(count: usize) -> Vec<String> {
    let mut names = Vec::new();
    extend(folded(START ^ 7, MULTIPLIER ^ 16), &mut String::new(), 7, count, &mut names);
    names
}

/// So many names of seven letters in the order of a dictionary, to be compared with those that collide.
pub fn counted_names(count: usize) -> Vec<String> {
    let name = |number: usize| {
        let mut rest = number;
        let mut letters = [b'a'; 7];
        for letter in letters.iter_mut().rev() {
            *letter += (rest % 26) as u8;
            rest /= 26;
        }
        letters.iter().copied().map(char::from).collect()
    };
    (0..count).map(name).collect()
}
