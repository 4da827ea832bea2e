//! A picture of which host owned which tags when.
use crate::bags::clock;
use crate::owners::{Bar, Owners, NOBODY};
use crate::world::HOSTS;
use std::fmt::Write;

const WIDTH: f64 = 1200.0;
const HEIGHT: f64 = 640.0;
const LEFT: f64 = 120.0;
const TOP: f64 = 70.0;
const MARGIN: f64 = 30.0;

const COLOURS: [&str; 5] = ["#0072b2", "#e69f00", "#009e73", "#cc79a7", "#56b4e9"];
const MOVING: &str = "#1a1a1a";

/// A range that is on its way is so wide at least, so that it can be seen.
const SEEN: f64 = 1.2;

pub fn svg(owners: &Owners, end: u64) -> String {
    let mut svg = String::new();
    // Writing into a string does not fail.
    let _ = write(&mut svg, owners, end);
    svg
}

fn write(svg: &mut String, owners: &Owners, end: u64) -> std::fmt::Result {
    let (width, height) = (LEFT + WIDTH + MARGIN, TOP + HEIGHT + 2.0 * MARGIN);
    let style = r#"font-family="sans-serif" font-size="14" shape-rendering="crispEdges""#;
    let space = "http://www.w3.org/2000/svg";
    writeln!(
        svg,
        r#"<svg xmlns="{space}" viewBox="0 0 {width} {height}" {style}>"#
    )?;
    writeln!(
        svg,
        r#"<rect width="{width}" height="{height}" fill="white"/>"#
    )?;
    writeln!(
        svg,
        r#"<text x="{LEFT}" y="24" font-size="18">Which host owned which bag tags</text>"#
    )?;
    legend(svg)?;
    // Ranges on their way lie above the others, since they are drawn wider than they were.
    let (moving, kept): (Vec<&Bar>, Vec<&Bar>) =
        owners.bars.iter().partition(|bar| bar.owner == NOBODY);
    for bar in kept.into_iter().chain(moving) {
        draw(svg, bar, owners.tags.len() as f64, end as f64)?;
    }
    hours(svg, end)?;
    tags(svg, &owners.tags)?;
    writeln!(svg, "</svg>")
}

fn draw(svg: &mut String, bar: &Bar, tags: f64, end: f64) -> std::fmt::Result {
    let x = LEFT + bar.time.0 as f64 / end * WIDTH;
    let y = TOP + bar.tags.0 as f64 / tags * HEIGHT;
    let wide = (bar.time.1 - bar.time.0) as f64 / end * WIDTH;
    let high = (bar.tags.1 - bar.tags.0) as f64 / tags * HEIGHT;
    let (colour, wide) = match COLOURS.get(bar.owner) {
        Some(colour) => (*colour, wide),
        None => (MOVING, wide.max(SEEN)),
    };
    writeln!(
        svg,
        r#"<rect x="{x:.2}" y="{y:.2}" width="{wide:.2}" height="{high:.2}" fill="{colour}"/>"#
    )
}

fn legend(svg: &mut String) -> std::fmt::Result {
    let names = HOSTS.iter().map(|host| host.escape_ascii().to_string());
    let names = names.chain(["on its way".to_string()]);
    let colours = COLOURS.iter().chain([&MOVING]);
    for (i, (name, colour)) in names.zip(colours).enumerate() {
        let x = LEFT + 170.0 * i as f64;
        writeln!(
            svg,
            r#"<rect x="{x}" y="40" width="14" height="14" fill="{colour}"/>"#
        )?;
        writeln!(svg, r#"<text x="{}" y="52">{name}</text>"#, x + 20.0)?;
    }
    Ok(())
}

fn hours(svg: &mut String, end: u64) -> std::fmt::Result {
    for time in (0..=end).step_by(3_600) {
        let x = LEFT + time as f64 / end as f64 * WIDTH;
        let (low, label) = (TOP + HEIGHT, clock(time));
        writeln!(
            svg,
            r#"<line x1="{x:.1}" y1="{TOP}" x2="{x:.1}" y2="{low}" stroke="white" stroke-opacity="0.5"/>"#
        )?;
        writeln!(
            svg,
            r#"<text x="{x:.1}" y="{}" text-anchor="middle">{label}</text>"#,
            low + 20.0
        )?;
    }
    Ok(())
}

/// Some of the tags, beside the place of each.
fn tags(svg: &mut String, tags: &[u64]) -> std::fmt::Result {
    for (i, tag) in tags.iter().enumerate().step_by((tags.len() / 10).max(1)) {
        let y = TOP + (i as f64 + 0.5) / tags.len() as f64 * HEIGHT + 5.0;
        writeln!(
            svg,
            r#"<text x="{}" y="{y:.1}" text-anchor="end">{tag:010}</text>"#,
            LEFT - 8.0
        )?;
    }
    Ok(())
}
