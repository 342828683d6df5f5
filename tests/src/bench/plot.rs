//! The speeds of the streams as bars on a log scale, as SVG.
use super::stream::Speeds;
use std::fmt::Write;

const WIDTH: f64 = 1120.0;
const HEIGHT: f64 = 500.0;
const LEFT: f64 = 90.0;
const RIGHT: f64 = 20.0;
const TOP: f64 = 80.0;
const BOTTOM: f64 = 75.0;
const BAR: f64 = 18.0;

/// Powers of ten at the lower and the upper end of the scale.
const LOWEST: i32 = 6;
const HIGHEST: i32 = 9;

const SERIES: [(&str, &str); 5] = [
    ("proved session", "#1b6ca8"),
    ("plain Rust twin", "#8fbfe0"),
    ("queue-based monitor, tick by tick", "#d9822b"),
    ("the same in blocks", "#f0c48f"),
    ("naive evaluator", "#8a8a8a"),
];

fn values(s: &Speeds) -> [f64; 5] {
    [s.proved, s.twin, s.queue, s.queue_blocks, s.naive]
}

/// The height of a speed on the page, from above.
fn height_of(speed: f64) -> f64 {
    let part = (speed.log10() - LOWEST as f64) / (HIGHEST - LOWEST) as f64;
    HEIGHT - BOTTOM - part.clamp(0.0, 1.0) * (HEIGHT - BOTTOM - TOP)
}

fn text(out: &mut String, x: f64, y: f64, size: u32, anchor: &str, words: &str) {
    writeln!(out, r##"<text x="{x:.1}" y="{y:.1}" font-size="{size}" text-anchor="{anchor}" fill="#222">{words}</text>"##).unwrap();
}

fn rectangle(out: &mut String, x: f64, y: f64, width: f64, height: f64, fill: &str) {
    writeln!(out, r#"<rect x="{x:.1}" y="{y:.1}" width="{width:.1}" height="{height:.1}" fill="{fill}"/>"#).unwrap();
}

fn scale(out: &mut String) {
    let names = ["1", "10", "100"];
    for power in LOWEST..=HIGHEST {
        let y = height_of(10f64.powi(power));
        writeln!(out, r##"<line x1="{LEFT}" x2="{:.1}" y1="{y:.1}" y2="{y:.1}" stroke="#ccc"/>"##, WIDTH - RIGHT).unwrap();
        let unit = ["", " thousand", " million", " billion"][power as usize / 3];
        text(out, LEFT - 8.0, y + 4.0, 12, "end", &format!("{}{unit}", names[power as usize % 3]));
    }
}

fn legend(out: &mut String) {
    let mut x = LEFT;
    for (name, colour) in SERIES {
        rectangle(out, x, 46.0, 13.0, 13.0, colour);
        text(out, x + 19.0, 57.0, 13, "start", name);
        x += 50.0 + 7.2 * name.len() as f64;
    }
}

/// A speed in millions, short enough for the top of a bar.
fn label(speed: f64) -> String {
    let m = speed / 1e6;
    format!("{m:.*}", if m < 9.95 { 1 } else { 0 })
}

fn group(out: &mut String, s: &Speeds, middle: f64) {
    for (i, ((_, colour), speed)) in SERIES.iter().zip(values(s)).enumerate() {
        let x = middle + (i as f64 - 2.5) * (BAR + 2.0) + 1.0;
        let y = height_of(speed);
        rectangle(out, x, y, BAR, HEIGHT - BOTTOM - y, colour);
        text(out, x + BAR / 2.0, y - 4.0, 10, "middle", &label(speed));
    }
    // The name in one or two lines.
    let name = s.name.replace("\\|", "|");
    let lines = name.split_once(", ").or_else(|| name.split_once(" | ")).or_else(|| name.split_once(' ').filter(|_| name.len() > 12));
    let joined = if name.contains(" | ") { " |" } else { "" };
    let (first, second) = lines.map_or((name.clone(), String::new()), |(a, b)| (format!("{a}{joined}"), b.to_string()));
    text(out, middle, HEIGHT - BOTTOM + 20.0, 12, "middle", &first);
    text(out, middle, HEIGHT - BOTTOM + 36.0, 12, "middle", &second);
}

/// The plot as the text of an SVG file.
pub fn svg(speeds: &[Speeds]) -> String {
    let mut out = String::new();
    writeln!(out, r#"<svg xmlns="http://www.w3.org/2000/svg" viewBox="0 0 {WIDTH} {HEIGHT}" width="{WIDTH}" height="{HEIGHT}" font-family="sans-serif">"#).unwrap();
    rectangle(&mut out, 0.0, 0.0, WIDTH, HEIGHT, "#fff");
    text(&mut out, LEFT, 28.0, 17, "start", "Verdicts per second of a stream, log scale (numbers in millions): random states of density 0.5");
    legend(&mut out);
    scale(&mut out);
    let step = (WIDTH - LEFT - RIGHT) / speeds.len() as f64;
    for (i, s) in speeds.iter().enumerate() {
        group(&mut out, s, LEFT + step * (i as f64 + 0.5));
    }
    writeln!(out, r##"<line x1="{LEFT}" x2="{:.1}" y1="{1:.1}" y2="{1:.1}" stroke="#222"/>"##, WIDTH - RIGHT, HEIGHT - BOTTOM).unwrap();
    text(&mut out, LEFT, HEIGHT - 10.0, 11, "start", "The session, the twin and the naive evaluator are fed blocks of 1,024 states. BENCHMARKS.md says what each of them is.");
    out + "</svg>\n"
}
