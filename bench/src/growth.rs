//! How the judge's time grows with templates × assertions: a small plot as SVG.

use crate::judging::{costly, pair};
use std::fmt::Write;

const SIZES: [(usize, &str); 4] = [(8, "#1b9e77"), (16, "#7570b3"), (32, "#d95f02"), (64, "#e7298a")];
const ASSERTIONS: [usize; 6] = [1, 2, 4, 8, 16, 32];

struct Point {
    product: usize,
    library: f64,
    reference: f64,
}

fn points(turns: usize, n: usize) -> Vec<Point> {
    let point = |&k: &usize| {
        let d = costly(n, 32, k);
        let times = (20_000 / (n * n * k)).max(1);
        let t = pair(turns, times, &d.plan_text(), &d.policy_text());
        Point { product: n * k, library: t[0] / 1e6, reference: t[1] / 1e6 }
    };
    ASSERTIONS.iter().map(point).collect()
}

/// 8 to 2,048 across, 0.01 to 10,000 ms upwards, both in powers.
fn x(product: usize) -> f64 {
    60.0 + 440.0 * (product as f64 / 8.0).log2() / 8.0
}

fn y(ms: f64) -> f64 {
    320.0 - 290.0 * ((ms / 0.01).log10() / 6.0).clamp(0.0, 1.0)
}

fn axes(svg: &mut String) {
    for ms in ["0.01", "0.1", "1", "10", "100", "1000", "10000"] {
        let at = y(ms.parse().unwrap_or(1.0));
        write!(svg, r##"<path d="M60 {at:.1}H500" stroke="#ddd"/>"##).unwrap();
        writeln!(svg, r#"<text x="54" y="{:.1}" text-anchor="end">{ms}</text>"#, at + 4.0).unwrap();
    }
    for product in [8, 32, 128, 512, 2048] {
        let at = x(product);
        write!(svg, r##"<path d="M{at:.1} 30V320" stroke="#ddd"/>"##).unwrap();
        writeln!(svg, r#"<text x="{at:.1}" y="336" text-anchor="middle">{product}</text>"#).unwrap();
    }
    svg.push_str("<text x=\"280\" y=\"354\" text-anchor=\"middle\">templates × assertions</text>\n");
    svg.push_str("<text x=\"60\" y=\"18\">ms a verdict: library (line), reference (dashed); 32 identifiers, prots that hold</text>\n");
}

fn line(svg: &mut String, color: &str, dashes: &str, places: impl Iterator<Item = (f64, f64)>) {
    let path: Vec<String> = places.map(|(x, y)| format!("{x:.1} {y:.1}")).collect();
    writeln!(svg, r#"<path d="M{}" fill="none" stroke="{color}" stroke-width="2"{dashes}/>"#, path.join("L")).unwrap();
}

/// The plot; its figures are printed as a table.
pub fn plot(turns: usize) -> String {
    let size = "width=\"600\" height=\"364\"";
    let mut svg = format!("<svg xmlns=\"http://www.w3.org/2000/svg\" {size} font-family=\"sans-serif\" font-size=\"12\">\n");
    writeln!(svg, "<rect {size} fill=\"white\"/>").unwrap();
    axes(&mut svg);
    println!("| ms, library / reference | {} |", ASSERTIONS.map(|k| format!("{k} assertions")).join(" | "));
    println!("|---|{}", "---|".repeat(ASSERTIONS.len()));
    for (n, color) in SIZES {
        let row = points(turns, n);
        line(&mut svg, color, "", row.iter().map(|p| (x(p.product), y(p.library))));
        line(&mut svg, color, " stroke-dasharray=\"4 3\"", row.iter().map(|p| (x(p.product), y(p.reference))));
        let end = &row[row.len() - 1];
        let (right, down) = (x(end.product) + 6.0, y(end.library) + 4.0);
        writeln!(svg, r#"<text x="{right:.1}" y="{down:.1}" fill="{color}">{n} templates</text>"#).unwrap();
        let cells: Vec<String> = row.iter().map(|p| format!("{:.2} / {:.2}", p.library, p.reference)).collect();
        println!("| {n} templates | {} |", cells.join(" | "));
    }
    svg + "</svg>\n"
}
