//! The plot of sampled rates beside exact ones, as SVG.

use crate::code::Basis;
use crate::sample::Point;
use crate::statistics::wilson;
use std::fmt::Write;

const WIDTH: f64 = 760.0;
const HEIGHT: f64 = 560.0;
const LEFT: f64 = 84.0;
const RIGHT: f64 = 736.0;
const TOP: f64 = 64.0;
const BOTTOM: f64 = 496.0;

/// The probabilities at the ends of the axis, and its ticks.
const ENDS: (f64, f64) = (0.008, 0.2);
const TICKS: [f64; 7] = [0.01, 0.02, 0.03, 0.05, 0.07, 0.1, 0.2];

const INK: &str = "#222222";
const GRID: &str = "#dddddd";
const NO_CODE: &str = "#777777";

/// A colour and a marker for each distance, told apart without colours too.
const STYLES: [(&str, Marker); 3] =
    [("#0072b2", Marker::Circle), ("#d55e00", Marker::Square), ("#007a5a", Marker::Triangle)];

#[derive(Clone, Copy)]
enum Marker {
    Circle,
    Square,
    Triangle,
}

/// The plot of these points, both axes logarithmic: those of the bit-flip code filled, those of the phase-flip code open.
pub fn svg(points: &[Point]) -> String {
    let least = points.iter().map(|point| point.exact).fold(1.0, f64::min);
    let mut plot = Plot { text: String::new(), decades: -least.log10().floor() };
    plot.axes();
    plot.curve(&[(ENDS.0, ENDS.0), (ENDS.1, ENDS.1)], NO_CODE, "5 4");
    let mut distances: Vec<usize> = points.iter().map(|point| point.code.distance).collect();
    distances.sort_unstable();
    distances.dedup();
    for (distance, (colour, marker)) in distances.iter().zip(STYLES) {
        let own = |point: &&Point| point.code.distance == *distance;
        let exact: Vec<(f64, f64)> = points
            .iter()
            .filter(own)
            .filter(|point| point.basis == Basis::Bit)
            .map(|point| (point.p, point.exact))
            .collect();
        plot.curve(&exact, colour, "none");
        for point in points.iter().filter(own) {
            plot.point(point, colour, marker);
        }
    }
    plot.legend(&distances);
    let shots = points.first().map_or(0, |point| point.shots);
    plot.titles(shots);
    format!(
        "<svg xmlns=\"http://www.w3.org/2000/svg\" viewBox=\"0 0 {WIDTH} {HEIGHT}\" width=\"{WIDTH}\" height=\"{HEIGHT}\" \
         font-family=\"Helvetica, Arial, sans-serif\" font-size=\"13\" fill=\"{INK}\">\n\
         <rect width=\"{WIDTH}\" height=\"{HEIGHT}\" fill=\"#ffffff\"/>\n{}</svg>\n",
        plot.text
    )
}

struct Plot {
    text: String,
    /// How many decades the axis of rates has, below 1.
    decades: f64,
}

impl Plot {
    fn x(&self, p: f64) -> f64 {
        LEFT + (RIGHT - LEFT) * (p / ENDS.0).ln() / (ENDS.1 / ENDS.0).ln()
    }

    /// The height of a rate; what lies below the axis is put on it.
    fn y(&self, rate: f64) -> f64 {
        (TOP - (BOTTOM - TOP) * rate.log10() / self.decades).min(BOTTOM)
    }

    fn put(&mut self, element: &str) {
        self.text.push_str(element);
        self.text.push('\n');
    }

    fn line(&mut self, (x1, y1): (f64, f64), (x2, y2): (f64, f64), colour: &str, dashes: &str) {
        self.put(&format!(
            "<line x1=\"{x1:.1}\" y1=\"{y1:.1}\" x2=\"{x2:.1}\" y2=\"{y2:.1}\" stroke=\"{colour}\" stroke-dasharray=\"{dashes}\"/>"
        ));
    }

    fn label(&mut self, (x, y): (f64, f64), anchor: &str, text: &str) {
        self.put(&format!("<text x=\"{x:.1}\" y=\"{y:.1}\" text-anchor=\"{anchor}\">{text}</text>"));
    }

    fn axes(&mut self) {
        for p in TICKS {
            let x = self.x(p);
            self.line((x, TOP), (x, BOTTOM), GRID, "none");
            self.line((x, BOTTOM), (x, BOTTOM + 5.0), INK, "none");
            self.label((x, BOTTOM + 20.0), "middle", &p.to_string());
        }
        let mut decade = 0.0;
        while decade <= self.decades {
            let y = self.y(10_f64.powf(-decade));
            self.line((LEFT, y), (RIGHT, y), GRID, "none");
            self.line((LEFT - 5.0, y), (LEFT, y), INK, "none");
            let label = if decade == 0.0 { "1".into() } else { format!("10{}", superscript(-decade)) };
            self.label((LEFT - 9.0, y + 4.5), "end", &label);
            for part in 2..10 {
                let rate = f64::from(part) * 10_f64.powf(-decade - 1.0);
                if decade < self.decades {
                    self.line((LEFT - 3.0, self.y(rate)), (LEFT, self.y(rate)), INK, "none");
                }
            }
            decade += 1.0;
        }
        let (width, height) = (RIGHT - LEFT, BOTTOM - TOP);
        self.put(&format!(
            "<rect x=\"{LEFT}\" y=\"{TOP}\" width=\"{width}\" height=\"{height}\" fill=\"none\" stroke=\"{INK}\"/>"
        ));
    }

    fn titles(&mut self, shots: u64) {
        let middle = f64::midpoint(LEFT, RIGHT);
        self.put(&format!(
            "<text x=\"{LEFT}\" y=\"26\" font-size=\"16\" font-weight=\"bold\">Repetition code, two rounds of parity measurements by ancillas</text>"
        ));
        let subtitle = format!(
            "points: {} shots each, 95 % intervals (Wilson); filled: bit flips, open: phase flips; lines: exact",
            thousands(shots)
        );
        self.label((LEFT, 46.0), "start", &subtitle);
        self.label((middle, BOTTOM + 46.0), "middle", "probability p of a depolarizing fault, at each place");
        let height = f64::midpoint(TOP, BOTTOM);
        self.put(&format!(
            "<text transform=\"translate(26 {height}) rotate(-90)\" text-anchor=\"middle\">logical error rate per shot</text>"
        ));
    }

    /// A line through exact rates, each at its probability.
    fn curve(&mut self, rates: &[(f64, f64)], colour: &str, dashes: &str) {
        let mut points = String::new();
        for (p, rate) in rates {
            write!(points, "{:.1},{:.1} ", self.x(*p), self.y(*rate)).expect("a string takes all");
        }
        self.put(&format!(
            "<polyline points=\"{}\" fill=\"none\" stroke=\"{colour}\" stroke-width=\"1.5\" stroke-dasharray=\"{dashes}\"/>",
            points.trim_end()
        ));
    }

    /// A point with its interval; without failures, the interval alone.
    fn point(&mut self, point: &Point, colour: &str, marker: Marker) {
        let (low, high) = wilson(point.failures, point.shots);
        let x = self.x(point.p);
        let (bottom, top) = (self.y(low), self.y(high));
        self.line((x, bottom), (x, top), colour, "none");
        self.line((x - 4.0, top), (x + 4.0, top), colour, "none");
        self.line((x - 4.0, bottom), (x + 4.0, bottom), colour, "none");
        if point.failures > 0 {
            let y = self.y(point.rate());
            let fill = if point.basis == Basis::Bit { colour } else { "#ffffff" };
            self.marker((x, y), colour, fill, marker);
        }
    }

    fn marker(&mut self, (x, y): (f64, f64), colour: &str, fill: &str, marker: Marker) {
        let shape = match marker {
            Marker::Circle => format!("<circle cx=\"{x:.1}\" cy=\"{y:.1}\" r=\"4\""),
            Marker::Square => format!("<rect x=\"{:.1}\" y=\"{:.1}\" width=\"7\" height=\"7\"", x - 3.5, y - 3.5),
            Marker::Triangle => {
                let (left, right, low) = (x - 4.5, x + 4.5, y + 3.5);
                format!("<polygon points=\"{left:.1},{low:.1} {right:.1},{low:.1} {x:.1},{:.1}\"", y - 4.5)
            }
        };
        self.put(&format!("{shape} fill=\"{fill}\" stroke=\"{colour}\" stroke-width=\"1.5\"/>"));
    }

    /// Below the curves, on the right.
    fn legend(&mut self, distances: &[usize]) {
        let (left, row) = (RIGHT - 214.0, 22.0);
        #[allow(clippy::cast_precision_loss)]
        let height = row * (distances.len() + 1) as f64 + 12.0;
        let mut y = BOTTOM - height - 14.0;
        self.put(&format!(
            "<rect x=\"{left}\" y=\"{y}\" width=\"200\" height=\"{height}\" fill=\"#ffffff\" stroke=\"{GRID}\"/>"
        ));
        y += 17.0;
        for (distance, (colour, marker)) in distances.iter().zip(STYLES) {
            self.line((left + 12.0, y), (left + 52.0, y), colour, "none");
            self.marker((left + 24.0, y), colour, colour, marker);
            self.marker((left + 40.0, y), colour, "#ffffff", marker);
            self.label((left + 62.0, y + 4.5), "start", &format!("distance {distance}"));
            y += row;
        }
        self.line((left + 12.0, y), (left + 52.0, y), NO_CODE, "5 4");
        self.label((left + 62.0, y + 4.5), "start", "rate = p");
    }
}

/// A whole number in superscript characters.
fn superscript(number: f64) -> String {
    let raised = |c| match c {
        '-' => '⁻',
        '1' => '¹',
        '2' => '²',
        '3' => '³',
        digit => char::from_u32(u32::from('⁰') + digit.to_digit(10).unwrap_or(0)).unwrap_or('⁰'),
    };
    number.to_string().chars().map(raised).collect()
}

/// A number with a comma before each three digits.
pub fn thousands(number: u64) -> String {
    let digits = number.to_string();
    let comma = |place: usize| place > 0 && (digits.len() - place).is_multiple_of(3);
    digits
        .chars()
        .enumerate()
        .flat_map(|(place, digit)| comma(place).then_some(',').into_iter().chain([digit]))
        .collect()
}

#[cfg(test)]
mod tests {
    use super::*;

    #[test]
    fn numbers_in_words() {
        assert_eq!([0, 999, 1_000, 262_144, 1_048_576].map(thousands).join(" "), "0 999 1,000 262,144 1,048,576");
        assert_eq!([-1.0, -2.0, -3.0, -4.0, -10.0].map(superscript).join(" "), "⁻¹ ⁻² ⁻³ ⁻⁴ ⁻¹⁰");
    }

    /// Each point lies at its height, within the frame, and every element is closed.
    #[test]
    fn a_plot_has_its_points() {
        let point = |distance, p, failures| {
            let code = crate::code::Code { distance, rounds: 2 };
            Point { code, basis: Basis::Bit, p, shots: 1000, failures, exact: 0.0015 }
        };
        let text = svg(&[point(3, 0.05, 28), point(3, 0.1, 104), point(5, 0.1, 0)]);
        assert_eq!(text.matches("<circle").count(), 4, "two points and the legend's");
        // 28 failures of 1,000, on an axis of three decades
        let y = TOP + (BOTTOM - TOP) * -0.028_f64.log10() / 3.0;
        assert!(text.contains(&format!("cy=\"{y:.1}\" r=\"4\"")), "{text}");
        // the interval of no failures ends at the axis
        assert!(text.contains(&format!("y1=\"{BOTTOM:.1}\"")));
        assert!(text.contains(">logical error rate per shot<"));
        for line in text.lines() {
            let closed = line.ends_with("/>") || line.ends_with("</text>") || line.ends_with("</svg>");
            assert!(closed || line.starts_with("<svg "), "{line}");
        }
    }
}
