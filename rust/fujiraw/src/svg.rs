//! A chart of bits a line over sheets, as a picture that a browser shows.
use std::fmt::Write;

/// A sheet: its name, its moment and its bits a line, if it is whole.
pub struct Point {
    pub name: String,
    pub moment: String,
    pub bits: Option<u64>,
}

const WIDTH: f64 = 1000.0;
const HEIGHT: f64 = 420.0;
const LEFT: f64 = 90.0;
const RIGHT: f64 = 20.0;
const TOP: f64 = 50.0;
const BOTTOM: f64 = 60.0;
/// The moving mean is that of a sheet and the nine before it.
const WINDOW: usize = 10;

/// Where values lie in the picture.
struct Scale {
    count: usize,
    least: f64,
    most: f64,
    step: f64,
}

impl Scale {
    fn of(points: &[Point]) -> Scale {
        let bits = points.iter().filter_map(|p| p.bits).map(|b| b as f64);
        let (least, most) = (bits.clone().fold(f64::INFINITY, f64::min), bits.fold(0.0, f64::max));
        let (least, most) = if least > most { (0.0, 1.0) } else { (least, most) };
        // Steps of 1, 2 or 5 and zeros, about five of them.
        let rough = ((most - least) / 5.0).max(most / 500.0).max(1.0);
        let ten = 10f64.powf(rough.log10().floor());
        let step = [1.0, 2.0, 5.0, 10.0].iter().map(|s| s * ten).find(|s| *s >= rough).unwrap_or(rough);
        let least = (least / step).floor() * step;
        let most = ((most / step).ceil() * step).max(least + step);
        Scale { count: points.len(), least, most, step }
    }

    fn x(&self, i: usize) -> f64 {
        let inner = WIDTH - LEFT - RIGHT;
        LEFT + inner * if self.count > 1 { i as f64 / (self.count - 1) as f64 } else { 0.5 }
    }

    fn y(&self, bits: f64) -> f64 {
        HEIGHT - BOTTOM - (bits - self.least) / (self.most - self.least) * (HEIGHT - TOP - BOTTOM)
    }
}

pub fn chart(points: &[Point], by_time: bool) -> String {
    let scale = Scale::of(points);
    let mut svg = format!(
        "<svg xmlns=\"http://www.w3.org/2000/svg\" viewBox=\"0 0 {WIDTH} {HEIGHT}\" width=\"{WIDTH}\" height=\"{HEIGHT}\" \
         font-family=\"sans-serif\" font-size=\"13\">\n<rect width=\"100%\" height=\"100%\" fill=\"#ffffff\"/>\n"
    );
    let _ = writeln!(
        svg,
        "<text x=\"{LEFT}\" y=\"24\" font-size=\"16\">Bits a line of {} sheets, by {}</text>",
        points.len(),
        if by_time { "time" } else { "name" }
    );
    legend(&mut svg);
    grid(&mut svg, &scale);
    edges(&mut svg, points, by_time);
    let mean: Vec<String> = means(points).iter().map(|(i, mean)| format!("{:.1},{:.1}", scale.x(*i), scale.y(*mean))).collect();
    let _ = writeln!(svg, "<polyline points=\"{}\" fill=\"none\" stroke=\"#c0392b\" stroke-width=\"2\"/>", mean.join(" "));
    for (i, point) in points.iter().enumerate() {
        dot(&mut svg, &scale, i, point);
    }
    svg + "</svg>\n"
}

fn legend(svg: &mut String) {
    let x = WIDTH - RIGHT;
    let _ = writeln!(
        svg,
        "<text x=\"{x}\" y=\"24\" text-anchor=\"end\"><tspan fill=\"#2471a3\">● sheet</tspan> <tspan fill=\"#c0392b\">━ mean of {WINDOW} sheets</tspan> \
         <tspan fill=\"#7f8c8d\">× not whole</tspan></text>"
    );
}

fn grid(svg: &mut String, scale: &Scale) {
    let steps = ((scale.most - scale.least) / scale.step).round() as usize;
    for bits in (0..=steps).map(|n| scale.least + n as f64 * scale.step) {
        let (y, right) = (scale.y(bits), WIDTH - RIGHT);
        let _ = writeln!(svg, "<line x1=\"{LEFT}\" y1=\"{y:.1}\" x2=\"{right}\" y2=\"{y:.1}\" stroke=\"#dddddd\"/>");
        let _ = writeln!(svg, "<text x=\"{}\" y=\"{:.1}\" text-anchor=\"end\">{bits}</text>", LEFT - 8.0, y + 4.0);
    }
}

/// What the first and the last sheet are.
fn edges(svg: &mut String, points: &[Point], by_time: bool) {
    let label = |p: &Point| escaped(if by_time { &p.moment } else { short(&p.name) });
    let (y, right) = (HEIGHT - BOTTOM + 24.0, WIDTH - RIGHT);
    if let Some(first) = points.first() {
        let _ = writeln!(svg, "<text x=\"{LEFT}\" y=\"{y}\">{}</text>", label(first));
    }
    if let Some(last) = points.get(1..).and_then(<[Point]>::last) {
        let _ = writeln!(svg, "<text x=\"{right}\" y=\"{y}\" text-anchor=\"end\">{}</text>", label(last));
    }
}

/// The end of a name that would be too long.
fn short(name: &str) -> &str {
    let from = name.char_indices().rev().nth(39).map_or(0, |(at, _)| at);
    &name[from..]
}

fn dot(svg: &mut String, scale: &Scale, i: usize, point: &Point) {
    let title = format!("<title>{}, {}</title>", escaped(&point.name), escaped(&point.moment));
    let x = scale.x(i);
    let _ = match point.bits {
        Some(bits) => {
            let title = title.replace("</title>", &format!(": {bits} bits a line</title>"));
            writeln!(svg, "<circle cx=\"{x:.1}\" cy=\"{:.1}\" r=\"2.5\" fill=\"#2471a3\">{title}</circle>", scale.y(bits as f64))
        }
        None => writeln!(svg, "<text x=\"{x:.1}\" y=\"{}\" text-anchor=\"middle\" fill=\"#7f8c8d\">×{title}</text>", HEIGHT - BOTTOM + 4.0),
    };
}

/// For each sheet that is whole its mean with those before it.
fn means(points: &[Point]) -> Vec<(usize, f64)> {
    let whole: Vec<(usize, u64)> = points.iter().enumerate().filter_map(|(i, p)| Some((i, p.bits?))).collect();
    let mean = |part: &[(usize, u64)]| part.iter().map(|(_, b)| *b as f64).sum::<f64>() / part.len() as f64;
    whole.iter().enumerate().map(|(n, (i, _))| (*i, mean(&whole[(n + 1).saturating_sub(WINDOW)..=n]))).collect()
}

fn escaped(text: &str) -> String {
    let mut all = String::new();
    for c in text.chars() {
        match c {
            '&' => all += "&amp;",
            '<' => all += "&lt;",
            '>' => all += "&gt;",
            '"' => all += "&quot;",
            // No such sign may stand in XML.
            c if (c as u32) < 0x20 => all.push('?'),
            c => all.push(c),
        }
    }
    all
}
