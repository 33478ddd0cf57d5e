//! The chart of the growth: on the left nanoseconds, on the right the ratio to the Rust, both over the number of vertices. The
//! layout is fixed, and its colours can be read on light and on dark ground.

use super::growth::Row;
use std::fmt::Write;

const WORKS: [(&str, &str); 3] = [
    ("judging a hull", "#2a9d5c"),
    ("a call, type 0", "#d9772b"),
    ("a warm call", "#3b7dd8"),
];

/// Which mark is which kind of hulls.
const KINDS: &str =
    "circles: cubes and prisms of 6 to 42 sides; squares: 64-gon pyramids (V 65), the most vertices (V 126, four faces)";

const WIDTH: f64 = 900.0;
const HEIGHT: f64 = 430.0;
const TOP: f64 = 70.0;
const BOTTOM: f64 = 350.0;

/// A panel from one x to another.
struct Panel {
    left: f64,
    right: f64,
    title: &'static str,
    /// The values at its lower and at its upper edge, and whether the axis is logarithmic.
    low: f64,
    high: f64,
    log: bool,
    marks: &'static [f64],
}

const NANOSECONDS: Panel = Panel {
    left: 75.0,
    right: 425.0,
    title: "nanoseconds (logarithmic)",
    low: 50.0,
    high: 200_000.0,
    log: true,
    marks: &[100.0, 1000.0, 10_000.0, 100_000.0],
};

const RATIOS: Panel = Panel {
    left: 530.0,
    right: 880.0,
    title: "ratio to the Rust: below 1 is faster",
    low: 0.0,
    high: 2.5,
    log: false,
    marks: &[0.0, 0.5, 1.0, 1.5, 2.0, 2.5],
};

const MOST_VERTICES: f64 = 130.0;

impl Panel {
    fn x(&self, vertices: f64) -> f64 {
        self.left + (self.right - self.left) * vertices / MOST_VERTICES
    }

    fn y(&self, value: f64) -> f64 {
        let scale = |x: f64| if self.log { x.ln() } else { x };
        let value = value.clamp(self.low, self.high);
        let share = (scale(value) - scale(self.low)) / (scale(self.high) - scale(self.low));
        BOTTOM - (BOTTOM - TOP) * share
    }

    fn frame(&self, to: &mut String) {
        let (left, right) = (self.left, self.right);
        let middle = (left + right) / 2.0;
        put(
            to,
            format_args!(
                r#"<text x="{middle:.1}" y="{:.1}" text-anchor="middle">{}</text>"#,
                TOP - 14.0,
                self.title
            ),
        );
        for &mark in self.marks {
            let y = self.y(mark);
            put(
                to,
                format_args!(
                    r#"<line class="grid" x1="{left:.1}" y1="{y:.1}" x2="{right:.1}" y2="{y:.1}"/>"#
                ),
            );
            let label = if self.log {
                thousands(mark)
            } else {
                format!("{mark:.1}")
            };
            put(
                to,
                format_args!(
                    r#"<text x="{:.1}" y="{:.1}" text-anchor="end">{label}</text>"#,
                    left - 6.0,
                    y + 4.0
                ),
            );
        }
        for vertices in [0, 20, 40, 60, 80, 100, 120] {
            let x = self.x(vertices.into());
            put(
                to,
                format_args!(
                    r#"<line class="axis" x1="{x:.1}" y1="{BOTTOM:.1}" x2="{x:.1}" y2="{:.1}"/>"#,
                    BOTTOM + 5.0
                ),
            );
            put(
                to,
                format_args!(
                    r#"<text x="{x:.1}" y="{:.1}" text-anchor="middle">{vertices}</text>"#,
                    BOTTOM + 19.0
                ),
            );
        }
        put(
            to,
            format_args!(
                r#"<line class="axis" x1="{left:.1}" y1="{BOTTOM:.1}" x2="{right:.1}" y2="{BOTTOM:.1}"/>"#
            ),
        );
        put(
            to,
            format_args!(
                r#"<line class="axis" x1="{left:.1}" y1="{TOP:.1}" x2="{left:.1}" y2="{BOTTOM:.1}"/>"#
            ),
        );
        put(
            to,
            format_args!(
                r#"<text x="{middle:.1}" y="{:.1}" text-anchor="middle">vertices of each hull</text>"#,
                BOTTOM + 37.0
            ),
        );
    }

    /// Prisms joined by a line, the other kinds as marks of their own.
    fn series(
        &self,
        to: &mut String,
        rows: &[Row],
        colour: &str,
        dashed: bool,
        value: impl Fn(&Row) -> f64,
    ) {
        let at = |row: &Row| (self.x(row.size.vertices as f64), self.y(value(row)));
        let points: Vec<String> = (rows.iter().filter(|row| row.prism))
            .map(|row| {
                let (x, y) = at(row);
                format!("{x:.1},{y:.1}")
            })
            .collect();
        let dashes = if dashed {
            r#" stroke-dasharray="5 4""#
        } else {
            ""
        };
        put(
            to,
            format_args!(
                r#"<polyline fill="none" stroke="{colour}" stroke-width="2"{dashes} points="{}"/>"#,
                points.join(" ")
            ),
        );
        let fill = if dashed { "none" } else { colour };
        for row in rows {
            let (x, y) = at(row);
            if row.prism {
                put(
                    to,
                    format_args!(
                        r#"<circle cx="{x:.1}" cy="{y:.1}" r="3" fill="{fill}" stroke="{colour}"/>"#
                    ),
                );
            } else {
                let (x, y) = (x - 3.5, y - 3.5);
                put(
                    to,
                    format_args!(
                        r#"<rect x="{x:.1}" y="{y:.1}" width="7" height="7" fill="{fill}" stroke="{colour}"/>"#
                    ),
                );
            }
        }
    }
}

pub fn chart(rows: &[Row]) -> String {
    let mut svg = String::new();
    let to = &mut svg;
    put(
        to,
        format_args!(
            r#"<svg xmlns="http://www.w3.org/2000/svg" viewBox="0 0 {WIDTH} {HEIGHT}" width="{WIDTH}" height="{HEIGHT}" role="img">"#
        ),
    );
    put(
        to,
        format_args!("<title>How the times grow with the hulls</title>"),
    );
    put(to, format_args!("<style>"));
    put(
        to,
        format_args!("text {{ font: 12px sans-serif; fill: #333 }}"),
    );
    put(to, format_args!(".grid {{ stroke: #8884 }} .axis {{ stroke: #888 }} .one {{ stroke: #888; stroke-dasharray: 2 3 }}"));
    put(
        to,
        format_args!("@media (prefers-color-scheme: dark) {{ text {{ fill: #ddd }} }}"),
    );
    put(to, format_args!("</style>"));
    legend(to);
    NANOSECONDS.frame(to);
    RATIOS.frame(to);
    let one = RATIOS.y(1.0);
    put(
        to,
        format_args!(
            r#"<line class="one" x1="{:.1}" y1="{one:.1}" x2="{:.1}" y2="{one:.1}"/>"#,
            RATIOS.left, RATIOS.right
        ),
    );
    for (work, (_, colour)) in WORKS.into_iter().enumerate() {
        NANOSECONDS.series(to, rows, colour, true, |row| row.times[work][1]);
        NANOSECONDS.series(to, rows, colour, false, |row| row.times[work][0]);
        RATIOS.series(to, rows, colour, false, |row| {
            row.times[work][0] / row.times[work][1]
        });
    }
    put(to, format_args!("</svg>"));
    svg
}

fn legend(to: &mut String) {
    let mut x = NANOSECONDS.left;
    for (name, colour) in WORKS {
        put(
            to,
            format_args!(
                r#"<line x1="{x:.1}" y1="20" x2="{:.1}" y2="20" stroke="{colour}" stroke-width="3"/>"#,
                x + 24.0
            ),
        );
        put(
            to,
            format_args!(r#"<text x="{:.1}" y="24">{name}</text>"#, x + 30.0),
        );
        x += 140.0;
    }
    put(
        to,
        format_args!(
            r#"<text x="{x:.1}" y="24">full: ours; dashed: the plain Rust validator, the Rust text</text>"#
        ),
    );
    let y = HEIGHT - 14.0;
    put(
        to,
        format_args!(
            r#"<text x="{:.1}" y="{y:.1}">{KINDS}</text>"#,
            NANOSECONDS.left
        ),
    );
}

fn put(to: &mut String, line: std::fmt::Arguments) {
    writeln!(to, "{line}").expect("a string takes it");
}

fn thousands(number: f64) -> String {
    let number = number as u64;
    match number / 1000 {
        0 => number.to_string(),
        high => format!("{high},{:03}", number % 1000),
    }
}
