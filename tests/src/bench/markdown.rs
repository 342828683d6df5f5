//! Tables as markdown.

/// A number with the given digits after the point, and commas between thousands.
pub fn number(x: f64, digits: usize) -> String {
    let plain = format!("{x:.digits$}");
    let (whole, rest) = plain.split_at(plain.find('.').unwrap_or(plain.len()));
    let mut out = String::new();
    for (i, c) in whole.chars().enumerate() {
        if i > 0 && (whole.len() - i) % 3 == 0 {
            out.push(',');
        }
        out.push(c);
    }
    out + rest
}

/// A number with three digits that count, or all of a large one.
pub fn figure(x: f64) -> String {
    number(x, if x < 10.0 { 2 } else if x < 100.0 { 1 } else { 0 })
}

pub fn table(title: &str, head: &[&str], rows: &[Vec<String>]) {
    let line = |cells: &[String]| println!("| {} |", cells.join(" | "));
    println!("{title}\n");
    line(&head.iter().map(|h| h.to_string()).collect::<Vec<_>>());
    println!("|{}", "---|".repeat(head.len()));
    rows.iter().for_each(|r| line(r));
    println!();
}
