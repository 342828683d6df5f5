//! The program watch as plain Rust, to compare speeds with.
use juntreak_tests::plain;

fn main() {
    let watched = plain::rules().and_then(|book| plain::watch(&book, std::io::stdin().lock(), std::io::stdout().lock()));
    if let Err(e) = watched {
        eprintln!("plain_watch: {e}");
        std::process::exit(1);
    }
}
