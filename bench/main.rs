// Compares the proved library with plain Rust on many inputs, then measures both in one run: time, hash calls, stack.
// usage: bench [ROUNDS]; bench calls HEIGHT makes one call of each kind for callgrind to count; bench counted HEIGHT [FILE] compares
// what it counted.
mod chains;
mod counts;
mod keys;
mod lives;
mod ours;
mod plain;
mod random;
mod scheme;
mod speed;
mod stack;

fn number<N: std::str::FromStr>(word: &str) -> N {
    word.parse().ok().expect("a number")
}

fn main() {
    let words: Vec<String> = std::env::args().skip(1).collect();
    match words.first().map(String::as_str) {
        Some("calls") => counts::make_calls(number(&words[1])),
        Some("counted") => counts::compare(number(&words[1]), words.get(2)),
        word => {
            let rounds = word.map_or(5000, number);
            chains::run(rounds);
            keys::compare();
            speed::run(rounds);
            stack::run();
        }
    }
}
