//! The cost of a call by the octets that it brings, as a plot in SVG.

use crate::figures::whole;
use crate::timing::Times;

/// Pixels: a doubling of the octets, the height of a panel, and what stands around them.
const DOUBLING: f64 = 36.0;
const HEIGHT: f64 = 340.0;
const LEFT: f64 = 108.0;
const GAP: f64 = 56.0;
const RIGHT: f64 = 32.0;
const TOP: f64 = 112.0;
const BOTTOM: f64 = 64.0;

/// A line of the plot: its name in the legend, its colour, its mark and what it shows.
struct Series {
    name: &'static str,
    colour: &'static str,
    mark: fn(f64, f64, &str) -> String,
    value: fn(&Times) -> f64,
}

const SERIES: [Series; 3] = [
    Series {
        name: "ours",
        colour: "#0b62a4",
        mark: disc,
        value: |times| times.ours,
    },
    Series {
        name: "reference",
        colour: "#c2571a",
        mark: square,
        value: |times| times.reference,
    },
    Series {
        name: "memcpy",
        colour: "#5f6b76",
        mark: diamond,
        value: |times| times.memcpy,
    },
];

/// Measured calls of one kind of traffic, by the octets that a call brings.
pub struct Panel {
    pub title: &'static str,
    pub points: Vec<(usize, Times)>,
}

impl Panel {
    fn most(&self) -> f64 {
        self.points
            .iter()
            .map(|(octets, _)| *octets)
            .max()
            .unwrap_or(1) as f64
    }

    fn width(&self) -> f64 {
        self.most().log2() * DOUBLING
    }

    fn values(&self) -> impl Iterator<Item = f64> + '_ {
        let points = self.points.iter();
        points.flat_map(|(_, times)| SERIES.iter().map(|series| (series.value)(times)))
    }
}

/// The powers of ten between which all values lie.
struct Scale {
    low: i32,
    high: i32,
}

impl Scale {
    fn of(panels: &[Panel]) -> Scale {
        let values = || panels.iter().flat_map(Panel::values);
        let (least, most) = (
            values().fold(f64::INFINITY, f64::min),
            values().fold(0.0, f64::max),
        );
        let low = least.log10().floor() as i32;
        let high = (most.log10().ceil() as i32).max(low + 1);
        Scale { low, high }
    }

    fn height(&self, value: f64) -> f64 {
        let part = (value.log10() - f64::from(self.low)) / f64::from(self.high - self.low);
        TOP + HEIGHT * (1.0 - part)
    }
}

fn disc(x: f64, y: f64, colour: &str) -> String {
    format!("<circle cx=\"{x:.1}\" cy=\"{y:.1}\" r=\"3.6\" fill=\"{colour}\"/>\n")
}

fn square(x: f64, y: f64, colour: &str) -> String {
    let (x, y) = (x - 3.3, y - 3.3);
    format!("<rect x=\"{x:.1}\" y=\"{y:.1}\" width=\"6.6\" height=\"6.6\" fill=\"{colour}\"/>\n")
}

fn diamond(x: f64, y: f64, colour: &str) -> String {
    format!("<path d=\"M{x:.1} {y:.1}m0 -4.6l4.6 4.6l-4.6 4.6l-4.6 -4.6z\" fill=\"{colour}\"/>\n")
}

fn line(from: (f64, f64), to: (f64, f64), style: &str) -> String {
    let ((x1, y1), (x2, y2)) = (from, to);
    format!("<line x1=\"{x1:.1}\" y1=\"{y1:.1}\" x2=\"{x2:.1}\" y2=\"{y2:.1}\" {style}/>\n")
}

fn text(x: f64, y: f64, anchor: &str, words: &str) -> String {
    format!("<text x=\"{x:.1}\" y=\"{y:.1}\" text-anchor=\"{anchor}\">{words}</text>\n")
}

const GRID: &str = "stroke=\"#dfe3e8\"";
const AXIS: &str = "stroke=\"#3c444d\"";

/// The powers of ten across a panel, with their numbers beside the first one.
fn levels(left: f64, right: f64, scale: &Scale, numbers: bool) -> String {
    let mut svg = String::new();
    for power in scale.low..=scale.high {
        let value = 10f64.powi(power);
        let y = scale.height(value);
        svg += &line((left, y), (right, y), GRID);
        if numbers {
            let words = if power < 0 {
                value.to_string()
            } else {
                whole(value)
            };
            svg += &text(left - 9.0, y + 4.5, "end", &words);
        }
    }
    svg
}

/// A tick for each doubling of the octets, and a number for every other and the last.
fn sizes(left: f64, last: i32) -> String {
    let bottom = TOP + HEIGHT;
    let mut svg = String::new();
    for power in 0..=last {
        let x = left + f64::from(power) * DOUBLING;
        svg += &line((x, bottom), (x, bottom + 5.0), AXIS);
        if power % 2 == 0 || power == last {
            svg += &line((x, TOP), (x, bottom), GRID);
            svg += &text(x, bottom + 20.0, "middle", &whole(2f64.powi(power)));
        }
    }
    svg
}

/// All of a panel but its curves.
fn frame(panel: &Panel, left: f64, scale: &Scale, numbers: bool) -> String {
    let (right, bottom) = (left + panel.width(), TOP + HEIGHT);
    let middle = (left + right) / 2.0;
    levels(left, right, scale, numbers)
        + &sizes(left, panel.most().log2().round() as i32)
        + &line((left, bottom), (right, bottom), AXIS)
        + &line((left, TOP), (left, bottom), AXIS)
        + &text(middle, TOP - 14.0, "middle", panel.title)
        + &text(middle, bottom + 46.0, "middle", "octets a call")
}

/// A series in a panel: its line, and a mark at each point.
fn curve(panel: &Panel, left: f64, scale: &Scale, series: &Series) -> String {
    let places: Vec<(f64, f64)> = panel
        .points
        .iter()
        .map(|(octets, times)| {
            let x = left + (*octets as f64).log2() * DOUBLING;
            (x, scale.height((series.value)(times)))
        })
        .collect();
    let path: Vec<String> = places
        .iter()
        .map(|(x, y)| format!("{x:.1},{y:.1}"))
        .collect();
    let (path, colour) = (path.join(" "), series.colour);
    let style = format!("fill=\"none\" stroke=\"{colour}\" stroke-width=\"2\"");
    let mut svg = format!("<polyline points=\"{path}\" {style}/>\n");
    for (x, y) in places {
        svg += &(series.mark)(x, y, colour);
    }
    svg
}

fn legend() -> String {
    let mut svg = String::new();
    for (place, series) in SERIES.iter().enumerate() {
        let (x, y) = (LEFT + 130.0 * place as f64, 52.0);
        let style = format!("stroke=\"{}\" stroke-width=\"2\"", series.colour);
        svg += &line((x, y), (x + 32.0, y), &style);
        svg += &(series.mark)(x + 16.0, y, series.colour);
        svg += &text(x + 40.0, y + 4.5, "start", series.name);
    }
    svg
}

/// The whole plot: panels side by side over one scale of time, on white wherever it is shown.
pub fn svg(title: &str, panels: &[Panel]) -> String {
    let scale = Scale::of(panels);
    let widths: f64 = panels.iter().map(|panel| panel.width() + GAP).sum();
    let (width, height) = (LEFT + widths - GAP + RIGHT, TOP + HEIGHT + BOTTOM);
    let mut svg = format!(
        "<svg xmlns=\"http://www.w3.org/2000/svg\" viewBox=\"0 0 {width:.0} {height:.0}\" \
         width=\"{width:.0}\" height=\"{height:.0}\" \
         font-family=\"sans-serif\" font-size=\"13\" fill=\"#1f262d\">\n\
         <title>{title}</title>\n<rect width=\"100%\" height=\"100%\" fill=\"#ffffff\"/>\n"
    );
    svg += &format!(
        "<g font-size=\"16\">{}</g>\n",
        text(LEFT, 28.0, "start", title).trim()
    );
    svg += &legend();
    let middle = TOP + HEIGHT / 2.0;
    let label = text(0.0, 0.0, "middle", "nanoseconds a call");
    svg += &format!(
        "<g transform=\"translate(26 {middle}) rotate(-90)\">{}</g>\n",
        label.trim()
    );
    let mut left = LEFT;
    for (place, panel) in panels.iter().enumerate() {
        svg += &frame(panel, left, &scale, place == 0);
        for series in SERIES.iter().rev() {
            svg += &curve(panel, left, &scale, series);
        }
        left += panel.width() + GAP;
    }
    svg + "</svg>\n"
}

#[cfg(test)]
mod tests {
    use super::*;

    #[test]
    fn every_value_lies_inside_its_panel() {
        let times = |ours, reference, memcpy| Times {
            ours,
            reference,
            memcpy,
        };
        let points = vec![
            (1, times(150.0, 13.0, 0.4)),
            (16384, times(7e5, 305.0, 280.0)),
        ];
        let panels = [Panel {
            title: "passing",
            points,
        }];
        let scale = Scale::of(&panels);
        assert_eq!((scale.low, scale.high), (-1, 6));
        for value in panels[0].values() {
            let y = scale.height(value);
            assert!((TOP..=TOP + HEIGHT).contains(&y), "{value} at {y}");
        }
        let svg = svg("a title", &panels);
        assert_eq!(svg.matches("<polyline").count(), SERIES.len());
        assert!(svg.contains(">16,384<") && svg.contains(">0.1<"));
    }
}
