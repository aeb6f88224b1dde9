//! The growth as an SVG picture: four panels, both axes logarithmic.

use std::fmt::{self, Write};

use crate::growth::{Growth, Point};
use crate::table::in_unit;

const WIDTH: f64 = 330.0;
const HEIGHT: f64 = 300.0;
const LEFT: f64 = 62.0;
const TOP: f64 = 44.0;
const GAP: f64 = 70.0;
const ROW: f64 = TOP + HEIGHT + 52.0;
const TOTAL_WIDTH: f64 = LEFT + 2.0 * WIDTH + GAP + 18.0;
const TOTAL_HEIGHT: f64 = 2.0 * ROW;

const BLUE: &str = "#1f5fa8";
const ORANGE: &str = "#d4691e";
const GREY: &str = "#777777";
const SOLID: &str = "none";
const DASHED: &str = "5 4";

/// Seconds by size.
type Curve = Vec<(f64, f64)>;

struct Series {
    name: &'static str,
    colour: &'static str,
    dashes: &'static str,
    curve: Curve,
}

struct Panel {
    title: &'static str,
    axis: &'static str,
    series: Vec<Series>,
}

impl Panel {
    fn points(&self) -> impl Iterator<Item = &(f64, f64)> {
        self.series.iter().flat_map(|series| &series.curve)
    }
}

fn curve<T>(points: &[Point<T>], seconds: impl Fn(&T) -> f64) -> Curve {
    let point = |point: &Point<T>| (point.size as f64, seconds(&point.seconds));
    points.iter().map(point).collect()
}

/// The proved library's curves are solid, the baseline's dashed.
fn series(name: &'static str, colour: &'static str, curve: Curve) -> Series {
    let dashes = if name.ends_with("baseline") {
        DASHED
    } else {
        SOLID
    };
    Series {
        name,
        colour,
        dashes,
        curve,
    }
}

fn audits(growth: &Growth) -> Panel {
    let (in_order, shuffled) = (&growth.in_order, &growth.shuffled);
    Panel {
        title: "Audit, pages in order and shuffled",
        axis: "words of the state",
        series: vec![
            series("shuffled, baseline", ORANGE, curve(shuffled, |a| a.0[1])),
            series("shuffled, proved", ORANGE, curve(shuffled, |a| a.0[0])),
            series("in order, baseline", BLUE, curve(in_order, |a| a.0[1])),
            series("in order, proved", BLUE, curve(in_order, |a| a.0[0])),
            series("plain read", GREY, curve(in_order, |a| a.1)),
        ],
    }
}

fn batches_by_state(growth: &Growth) -> Panel {
    Panel {
        title: "Batch of 512 maps, pages in order",
        axis: "words of the state",
        series: vec![
            series("baseline", BLUE, curve(&growth.batch, |pair| pair[1])),
            series("proved", BLUE, curve(&growth.batch, |pair| pair[0])),
            series("plain read", GREY, curve(&growth.in_order, |a| a.1)),
        ],
    }
}

fn batches_by_requests(growth: &Growth) -> Panel {
    Panel {
        title: "Batch of maps, T = 16, P = 65,536",
        axis: "requests",
        series: vec![
            series("baseline", BLUE, curve(&growth.requests, |pair| pair[1])),
            series("proved", BLUE, curve(&growth.requests, |pair| pair[0])),
        ],
    }
}

fn trims(growth: &Growth) -> Panel {
    Panel {
        title: "Trim, every second TreeLing empty",
        axis: "TreeLings of the domain",
        series: vec![
            series("baseline", BLUE, curve(&growth.trims, |pair| pair[1])),
            series("proved", BLUE, curve(&growth.trims, |pair| pair[0])),
        ],
    }
}

/// A range of numbers on a logarithmic axis, as powers of ten.
#[derive(Clone, Copy)]
struct Range {
    low: f64,
    high: f64,
}

impl Range {
    /// A little more than these numbers take.
    fn of(numbers: impl Iterator<Item = f64>) -> Range {
        const MARGIN: f64 = 0.25;
        let powers = numbers.map(f64::log10);
        let (low, high) = powers.fold((f64::MAX, f64::MIN), |(low, high), power| {
            (low.min(power), high.max(power))
        });
        assert!(
            low.is_finite() && high.is_finite(),
            "a number is not above 0"
        );
        Range {
            low: low - MARGIN,
            high: high + MARGIN,
        }
    }

    /// How far along a number lies, 0 to 1.
    fn place(self, number: f64) -> f64 {
        (number.log10() - self.low) / (self.high - self.low)
    }

    /// The powers of ten within.
    fn marks(self) -> impl Iterator<Item = f64> {
        (self.low.ceil() as i32..=self.high.floor() as i32).map(|power| 10_f64.powi(power))
    }
}

/// The axes of a panel.
struct Axes {
    left: f64,
    top: f64,
    sizes: Range,
    times: Range,
}

impl Axes {
    fn x(&self, size: f64) -> f64 {
        self.left + WIDTH * self.sizes.place(size)
    }

    fn y(&self, seconds: f64) -> f64 {
        self.top + HEIGHT * (1.0 - self.times.place(seconds))
    }
}

pub fn draw(growth: &Growth) -> String {
    let mut out = String::new();
    let panels = [
        audits(growth),
        batches_by_state(growth),
        batches_by_requests(growth),
        trims(growth),
    ];
    draw_all(&mut out, &panels).expect("writing to a String cannot fail");
    out
}

fn draw_all(out: &mut String, panels: &[Panel]) -> fmt::Result {
    let times = panels.iter().flat_map(Panel::points).map(|point| point.1);
    let times = Range::of(times);
    write!(
        out,
        "<svg xmlns='http://www.w3.org/2000/svg' viewBox='0 0 {TOTAL_WIDTH} {TOTAL_HEIGHT}'"
    )?;
    writeln!(
        out,
        " font-family='Helvetica, Arial, sans-serif' font-size='12'>"
    )?;
    writeln!(out, "<rect width='100%' height='100%' fill='white'/>")?;
    for (k, panel) in panels.iter().enumerate() {
        let axes = Axes {
            left: LEFT + (k % 2) as f64 * (WIDTH + GAP),
            top: TOP + (k / 2) as f64 * ROW,
            sizes: Range::of(panel.points().map(|point| point.0)),
            times,
        };
        draw_panel(out, panel, &axes)?;
    }
    writeln!(out, "</svg>")
}

fn draw_panel(out: &mut String, panel: &Panel, axes: &Axes) -> fmt::Result {
    let Panel { title, axis, .. } = panel;
    let (left, middle) = (axes.left, axes.left + WIDTH / 2.0);
    let (top, above, below) = (axes.top, axes.top - 16.0, axes.top + HEIGHT + 36.0);
    draw_times(out, axes)?;
    draw_sizes(out, axes)?;
    writeln!(
        out,
        "<rect x='{left}' y='{top}' width='{WIDTH}' height='{HEIGHT}' fill='none' stroke='#888'/>"
    )?;
    writeln!(
        out,
        "<text x='{left}' y='{above}' font-size='14' font-weight='bold'>{title}</text>"
    )?;
    writeln!(
        out,
        "<text x='{middle}' y='{below}' text-anchor='middle' fill='#444'>{axis}</text>"
    )?;
    for (k, series) in panel.series.iter().enumerate() {
        draw_curve(out, series, axes)?;
        draw_key(out, series, left + 14.0, top + 18.0 + 17.0 * k as f64)?;
    }
    Ok(())
}

fn draw_times(out: &mut String, axes: &Axes) -> fmt::Result {
    let (left, right, before) = (axes.left, axes.left + WIDTH, axes.left - 7.0);
    for seconds in axes.times.marks() {
        let y = axes.y(seconds);
        let (low, (number, unit)) = (y + 4.0, in_unit(seconds));
        writeln!(out, "<path d='M{left} {y:.1}H{right}' stroke='#e4e4e4'/>")?;
        writeln!(out, "<text x='{before}' y='{low:.1}' text-anchor='end' fill='#444'>{number:.0} {unit}</text>")?;
    }
    Ok(())
}

fn draw_sizes(out: &mut String, axes: &Axes) -> fmt::Result {
    let (top, bottom, below) = (axes.top, axes.top + HEIGHT, axes.top + HEIGHT + 17.0);
    for size in axes.sizes.marks() {
        let (x, count) = (axes.x(size), count(size));
        writeln!(out, "<path d='M{x:.1} {top}V{bottom}' stroke='#e4e4e4'/>")?;
        writeln!(
            out,
            "<text x='{x:.1}' y='{below}' text-anchor='middle' fill='#444'>{count}</text>"
        )?;
    }
    Ok(())
}

/// 1, 10, 100, 1 k and so on.
fn count(number: f64) -> String {
    match number {
        n if n < 1e3 => format!("{n:.0}"),
        n if n < 1e6 => format!("{:.0} k", n / 1e3),
        n => format!("{:.0} M", n / 1e6),
    }
}

fn draw_curve(out: &mut String, series: &Series, axes: &Axes) -> fmt::Result {
    let Series { colour, dashes, .. } = series;
    let place = |&(size, seconds): &(f64, f64)| (axes.x(size), axes.y(seconds));
    let places: Vec<(f64, f64)> = series.curve.iter().map(place).collect();
    let points: Vec<String> = places
        .iter()
        .map(|(x, y)| format!("{x:.1},{y:.1}"))
        .collect();
    let points = points.join(" ");
    let fill = if *dashes == SOLID { colour } else { "white" };
    write!(
        out,
        "<polyline points='{points}' fill='none' stroke='{colour}'"
    )?;
    writeln!(out, " stroke-width='1.8' stroke-dasharray='{dashes}'/>")?;
    for (x, y) in places {
        writeln!(out, "<circle cx='{x:.1}' cy='{y:.1}' r='2.8' fill='{fill}' stroke='{colour}' stroke-width='1.4'/>")?;
    }
    Ok(())
}

fn draw_key(out: &mut String, series: &Series, x: f64, y: f64) -> fmt::Result {
    let Series {
        name,
        colour,
        dashes,
        ..
    } = series;
    let (end, text, low) = (x + 26.0, x + 33.0, y + 4.0);
    write!(out, "<path d='M{x} {y}H{end}' stroke='{colour}'")?;
    writeln!(out, " stroke-width='1.8' stroke-dasharray='{dashes}'/>")?;
    writeln!(out, "<text x='{text}' y='{low}'>{name}</text>")
}
