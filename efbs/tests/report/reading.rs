//! Reading a page's charts.

/// The charts of a page, each from its opening tag to the end of its account's part.
pub fn charts(page: &str) -> Vec<&str> {
    let articles = page.split("<article id=").skip(1);
    articles
        .map(|article| article.split("</article>").next().unwrap_or(""))
        .collect()
}

pub fn attribute<'a>(tag: &'a str, name: &str) -> Option<&'a str> {
    let (_, rest) = tag.split_once(&format!(" {name}=\""))?;
    rest.split('"').next()
}

pub fn number(text: &str) -> f64 {
    text.replace(',', "").parse().expect("a number")
}

/// Amounts in Dth and where they are drawn, as the axis of a chart says.
pub fn axis(chart: &str) -> Vec<(f64, f64)> {
    let ticks = chart
        .split("<text class=\"tick\"")
        .skip(1)
        .filter_map(|tick| {
            let label = tick.split_once('>')?.1.split('<').next()?;
            let amount = label.replace(',', "").parse().ok()?;
            Some((amount, number(attribute(tick, "y")?) - 4.0))
        });
    ticks.collect()
}

pub struct Path<'a> {
    pub class: &'a str,
    /// The small sign before a flag's words.
    pub of_flag: bool,
    line: &'a str,
}

pub fn paths(chart: &str) -> impl Iterator<Item = Path<'_>> {
    let tags = chart.split("<path").skip(1);
    tags.filter_map(|rest| {
        let tag = rest.split('>').next()?;
        Some(Path {
            class: attribute(tag, "class")?,
            of_flag: attribute(tag, "data-part") == Some("flag"),
            line: attribute(tag, "d")?,
        })
    })
}

impl Path<'_> {
    /// Where its pen goes, by the letters M, L, H and V; Z goes back.
    pub fn corners(&self) -> Vec<(f64, f64)> {
        let mut corners = Vec::new();
        let mut pen = (0.0, 0.0);
        for (letter, rest) in moves(self.line) {
            pen = match (letter, rest.split_once(' ')) {
                ('M' | 'L', Some((x, y))) => (number(x), number(y)),
                ('H', None) => (number(rest), pen.1),
                ('V', None) => (pen.0, number(rest)),
                ('Z', None) => continue,
                _ => panic!("no such move: {letter}{rest}"),
            };
            corners.push(pen);
        }
        corners
    }
}

/// Each letter of a path with what follows it.
fn moves(line: &str) -> impl Iterator<Item = (char, &str)> {
    let starts = line.match_indices(|c: char| c.is_ascii_uppercase());
    starts.map(|(at, letter)| {
        let rest = &line[at + 1..];
        let end = rest.find(|c: char| c.is_ascii_uppercase());
        (
            letter.chars().next().unwrap_or(' '),
            &rest[..end.unwrap_or(rest.len())],
        )
    })
}

/// The points of the first path of a class.
pub fn points(chart: &str, class: &str) -> Vec<(f64, f64)> {
    let path = paths(chart).find(|path| path.class == class);
    path.expect("a path of the class").corners()
}

pub struct Area {
    pub least: (f64, f64),
    pub greatest: (f64, f64),
}

impl Area {
    pub fn holds(&self, (x, y): (f64, f64)) -> bool {
        let across = self.least.0 <= x && x <= self.greatest.0;
        across && self.least.1 <= y && y <= self.greatest.1
    }
}

/// The whole drawing, as its view box says.
pub fn drawing(chart: &str) -> Area {
    let (_, rest) = chart.split_once("<svg").expect("a drawing");
    let sizes: Vec<f64> = attribute(rest, "viewBox")
        .expect("a box")
        .split(' ')
        .map(number)
        .collect();
    Area {
        least: (sizes[0], sizes[1]),
        greatest: (sizes[2], sizes[3]),
    }
}

/// From the upright line before April to the one after March.
pub fn plot(chart: &str) -> Area {
    let upright = paths(chart).filter(|path| path.class == "grid" && path.line.contains('V'));
    let lines: Vec<_> = upright.map(|path| path.corners()).collect();
    assert_eq!(lines.len(), 13);
    Area {
        least: lines[0][0],
        greatest: lines[12][1],
    }
}

/// Where the axis of a chart puts an amount in Dth.
pub fn on_axis(chart: &str, amount: f64) -> f64 {
    let axis = axis(chart);
    let ((low, low_y), (high, high_y)) = (axis[0], axis[axis.len() - 1]);
    low_y + (amount - low) / (high - low) * (high_y - low_y)
}

/// The height of a line of steps at a place between two of its corners.
pub fn height_at(steps: &[(f64, f64)], x: f64) -> f64 {
    let step = steps
        .chunks(2)
        .find(|ends| ends[0].0 <= x && x <= ends[1].0)
        .expect("within");
    assert_eq!(step[0].1, step[1].1, "a step is level");
    step[0].1
}
