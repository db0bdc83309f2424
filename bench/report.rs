//! The tables of docs/BENCHMARKS.md, between its two marks, and the plot docs/benchmarks.svg.
use std::fmt::Write;
use std::fs;

const FROM: &str = "<!-- measured -->\n";
const TO: &str = "<!-- end of measured -->\n";

struct Line {
    name: String,
    /// Nanoseconds of the proved library, the Rust and nanoflann; then their instructions.
    time: [f64; 3],
    count: [f64; 3],
}

fn read(path: &str) -> String {
    fs::read_to_string(path).unwrap_or_else(|e| panic!("{path}: {e}"))
}

/// The instructions of a row and a side: the total of the dump that has its label.
fn counted(dumps: &[String], row: usize, side: usize) -> f64 {
    let label = format!("Client Request: row {row} side {side}\n");
    let dump = dumps
        .iter()
        .find(|d| d.contains(&label))
        .unwrap_or_else(|| panic!("no dump with {label}"));
    let total = dump
        .lines()
        .find_map(|l| l.strip_prefix("totals: "))
        .expect("a dump has its totals");
    total.trim().parse().expect("a number")
}

fn lines(times: &str, counts: &str) -> Vec<Line> {
    let dumps: Vec<String> = fs::read_dir(counts)
        .expect("the folder of dumps")
        .map(|file| read(file.expect("a file").path().to_str().expect("a plain name")))
        .collect();
    let line = |(i, text): (usize, &str)| {
        let parts: Vec<&str> = text.split('\t').collect();
        Line {
            name: format!("{} ({})", parts[0], grouped(parts[1])),
            time: [2, 3, 4].map(|j| parts[j].parse().expect("nanoseconds")),
            count: [0, 1, 2].map(|side| counted(&dumps, i, side)),
        }
    };
    read(times).lines().enumerate().map(line).collect()
}

/// Every number of a text with its thousands parted by commas.
fn grouped(text: &str) -> String {
    let word = |w: &str| {
        let (digits, rest) = w.split_at(w.find(|c: char| !c.is_ascii_digit()).unwrap_or(w.len()));
        let mut out = String::new();
        for (i, c) in digits.chars().enumerate() {
            if i > 0 && (digits.len() - i) % 3 == 0 {
                out.push(',');
            }
            out.push(c);
        }
        out + rest
    };
    text.split(' ').map(word).collect::<Vec<_>>().join(" ")
}

fn table(out: &mut String, lines: &[Line], of: impl Fn(&Line) -> [f64; 3]) {
    out.push_str("| row (points) | proved | the Rust | nanoflann | proved : Rust | proved : nanoflann |\n|---|---|---|---|---|---|\n");
    for line in lines {
        let [proved, rust, nano] = of(line).map(|x| x / 1e6);
        let (by_rust, by_nano) = (proved / rust, proved / nano);
        let _ = writeln!(
            out,
            "| {} | {proved:.1} | {rust:.1} | {nano:.1} | {by_rust:.2} | {by_nano:.2} |",
            line.name
        );
    }
}

/// Two bars for each row: the time of the proved library and of nanoflann over that of the Rust, which is the line at 1.
fn plot(lines: &[Line]) -> String {
    let most = lines
        .iter()
        .map(|l| l.time[0].max(l.time[2]) / l.time[1])
        .fold(1.0, f64::max);
    let (left, step, unit) = (350.0, 34.0, 480.0 / most);
    let (width, height, one) = (left + 530.0, 60.0 + step * lines.len() as f64, left + unit);
    let mut out = format!(
        "<svg xmlns=\"http://www.w3.org/2000/svg\" width=\"{width}\" height=\"{height}\" font-family=\"sans-serif\" font-size=\"12\">\n\
         <rect width=\"100%\" height=\"100%\" fill=\"#ffffff\"/>\n\
         <text x=\"10\" y=\"20\" font-size=\"14\">Processor time over that of the Rust (the line at 1)</text>\n"
    );
    let text = |out: &mut String, x: f64, y: f64, words: &str| {
        let _ = writeln!(out, "<text x=\"{x:.1}\" y=\"{y}\">{words}</text>");
    };
    let bar = |out: &mut String, y: f64, long: f64, fill: &str| {
        let _ = writeln!(
            out,
            "<rect x=\"{left}\" y=\"{y}\" width=\"{long:.1}\" height=\"12\" fill=\"{fill}\"/>"
        );
    };
    for (i, line) in lines.iter().enumerate() {
        let y = 36.0 + step * i as f64;
        text(&mut out, 10.0, y + 16.0, &line.name);
        for (side, name, fill, y) in [(0, "proved", "#7fb2f0", y), (2, "nanoflann", "#c8ccd2", y + 13.0)] {
            let ratio = line.time[side] / line.time[1];
            bar(&mut out, y, unit * ratio, fill);
            text(&mut out, left + 4.0, y + 10.0, &format!("{name} {ratio:.2}"));
        }
    }
    let _ = writeln!(
        out,
        "<line x1=\"{one:.1}\" y1=\"30\" x2=\"{one:.1}\" y2=\"{}\" stroke=\"#d1242f\"/>\n</svg>",
        height - 20.0
    );
    out
}

pub fn write(times: &str, counts: &str, head: &str) {
    let lines = lines(times, counts);
    let mut text = read(head);
    text.push_str("\nMilliseconds of processor time, the best of five rounds:\n\n");
    table(&mut text, &lines, |l| l.time);
    text.push_str("\nMillions of instructions, each row at a tenth of its points and queries:\n\n");
    table(&mut text, &lines, |l| l.count);
    let page = read("docs/BENCHMARKS.md");
    let (before, rest) = page.split_once(FROM).expect("the mark where the tables begin");
    let (_, after) = rest.split_once(TO).expect("the mark where they end");
    fs::write("docs/BENCHMARKS.md", format!("{before}{FROM}{text}{TO}{after}")).expect("docs/BENCHMARKS.md is written");
    fs::write("docs/benchmarks.svg", plot(&lines)).expect("docs/benchmarks.svg is written");
    print!("{text}");
    for line in lines.iter().filter(|l| l.time[0] > l.time[1]) {
        println!("above the Rust: {} at {:.2}", line.name, line.time[0] / line.time[1]);
    }
}
