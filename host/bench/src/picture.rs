//! The picture of rates over the order, as SVG.

use crate::libraries::Library;
use crate::measure::Race;
use crate::problem::Problem;
use crate::shared::target;
use std::fmt::Write;
use std::fs;
use thamrunlek::Routine;

const ORDERS: [usize; 17] = [4, 6, 8, 12, 16, 24, 32, 48, 64, 96, 128, 192, 256, 384, 512, 768, 1024];
const SWEEPS: usize = 21;
const PANELS: [(&str, Routine, &[u8]); 2] =
    [("GEMM, N N", Routine::Gemm, b"NN"), ("TRSM, L L N N", Routine::Trsm, b"LLNN")];

/// A library's label, colour and dashes, by its name.
const STYLES: [(&str, &str, &str, &str); 8] = [
    ("x86-64-v4", "Thamrunlek, x86-64-v4", "#08519c", ""),
    ("x86-64-v3", "Thamrunlek, x86-64-v3", "#3182bd", ""),
    ("x86-64", "Thamrunlek, x86-64", "#7ab6e0", ""),
    ("OB-SkylakeX", "OpenBLAS, SkylakeX (fused)", "#a63603", "7 3"),
    ("OB-Haswell", "OpenBLAS, Haswell (fused)", "#e6550d", "7 3"),
    ("OB-SSE", "OpenBLAS, SSE", "#fdae6b", "7 3"),
    ("OpenBLAS", "OpenBLAS, its own choice", "#31a354", "2 3"),
    ("netlib", "netlib", "#888888", "2 3"),
];

/// The size of a panel's plot, and the space around it.
const WIDTH: f64 = 380.0;
const HEIGHT: f64 = 300.0;
const LEFT: f64 = 48.0;
const TOP: f64 = 34.0;
const GAP: f64 = 62.0;
const BELOW: f64 = 122.0;

/// Where a panel's plot begins.
fn left_of(panel: usize) -> f64 {
    LEFT + panel as f64 * (WIDTH + GAP)
}

/// The distance of an order from the left end, by its logarithm.
fn across(n: usize) -> f64 {
    let [first, last] = [ORDERS[0], ORDERS[ORDERS.len() - 1]].map(|n| (n as f64).log2());
    WIDTH * ((n as f64).log2() - first) / (last - first)
}

/// A text at a place, anchored at its start, middle or end.
fn text(svg: &mut String, (x, y): (f64, f64), anchor: &str, text: &str) {
    let _ = writeln!(svg, r#"<text x="{x:.1}" y="{y:.1}" text-anchor="{anchor}">{text}</text>"#);
}

/// A line of a colour, perhaps dashed.
fn line(svg: &mut String, points: &str, colour: &str, width: f64, dashes: &str) {
    let _ = writeln!(
        svg,
        r#"<polyline points="{points}" fill="none" stroke="{colour}" stroke-width="{width}" stroke-dasharray="{dashes}"/>"#
    );
}

/// A panel's title, its axes and their grid up to the rate `top`.
fn axes(svg: &mut String, panel: usize, top: f64) {
    let left = left_of(panel);
    text(
        svg,
        (left + WIDTH / 2.0, TOP - 14.0),
        "middle",
        &format!("{}: GFLOP/s on one core, best of {SWEEPS}", PANELS[panel].0),
    );
    let mut rate = 0.0;
    while rate <= top {
        let y = TOP + HEIGHT * (1.0 - rate / top);
        line(svg, &format!("{left:.1},{y:.1} {:.1},{y:.1}", left + WIDTH), "#dddddd", 1.0, "");
        text(svg, (left - 6.0, y + 4.0), "end", &rate.to_string());
        rate += 10.0;
    }
    for n in ORDERS.into_iter().filter(|n| n.is_power_of_two()) {
        let x = left + across(n);
        line(svg, &format!("{x:.1},{TOP:.1} {x:.1},{:.1}", TOP + HEIGHT), "#eeeeee", 1.0, "");
        text(svg, (x, TOP + HEIGHT + 16.0), "middle", &n.to_string());
    }
    text(svg, (left + WIDTH / 2.0, TOP + HEIGHT + 34.0), "middle", "order n");
}

/// The names of the lines, in columns below the panels.
fn legend(svg: &mut String, libraries: &[Library]) {
    let styles = STYLES.iter().filter(|style| libraries.iter().any(|library| library.name == style.0));
    for (place, (_, label, colour, dashes)) in styles.enumerate() {
        let x = LEFT + 270.0 * (place / 3) as f64;
        let y = TOP + HEIGHT + 62.0 + 20.0 * (place % 3) as f64;
        line(svg, &format!("{x:.1},{y:.1} {:.1},{y:.1}", x + 34.0), colour, 2.5, dashes);
        text(svg, (x + 42.0, y + 4.0), "start", label);
    }
}

/// The best rates of each library for each order, of sweeps over all orders: a while in which the machine is slow is no
/// dent in the lines.
fn rates(libraries: &[Library], routine: Routine, options: &'static [u8]) -> Vec<Vec<f64>> {
    let mut races = ORDERS.map(|n| Race::new(Problem::new(routine, options, n), libraries));
    for _ in 0..SWEEPS {
        races.iter_mut().for_each(|race| race.run(1));
    }
    let bests = races.each_ref().map(Race::bests);
    let rate = |place: usize, library: usize| races[place].problem.rate(bests[place][library]);
    (0..libraries.len()).map(|library| (0..ORDERS.len()).map(|place| rate(place, library)).collect()).collect()
}

/// Times all libraries and writes the picture.
pub fn draw(libraries: &[Library]) -> Result<(), String> {
    let panels = PANELS.map(|(_, routine, options)| rates(libraries, routine, options));
    let highest = panels.iter().flatten().flatten().fold(0.0, |top: f64, rate| top.max(*rate));
    let top = (highest / 10.0).ceil() * 10.0;
    let (width, height) = (left_of(PANELS.len()) - GAP + 22.0, TOP + HEIGHT + BELOW);
    let mut svg = format!(
        "<svg xmlns=\"http://www.w3.org/2000/svg\" viewBox=\"0 0 {width} {height}\" width=\"{width}\" \
         height=\"{height}\" font-family=\"sans-serif\" font-size=\"12\">\n\
         <rect width=\"{width}\" height=\"{height}\" fill=\"white\"/>\n"
    );
    for (panel, lines) in panels.iter().enumerate() {
        axes(&mut svg, panel, top);
        for (name, _, colour, dashes) in STYLES.iter().rev() {
            let Some(place) = libraries.iter().position(|library| library.name == *name) else { continue };
            let point = |(n, rate): (usize, &f64)| {
                format!("{:.1},{:.1}", left_of(panel) + across(n), TOP + HEIGHT * (1.0 - rate / top))
            };
            let points: Vec<String> = ORDERS.into_iter().zip(&lines[place]).map(point).collect();
            line(&mut svg, &points.join(" "), colour, 2.0, dashes);
        }
    }
    legend(&mut svg, libraries);
    svg += "</svg>\n";
    let path = target().join("../docs/speed.svg");
    fs::write(&path, svg).map_err(|error| format!("{}: {error}", path.display()))?;
    println!("docs/speed.svg is drawn");
    Ok(())
}
