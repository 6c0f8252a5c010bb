//! The picture as a page of its own: all rows in parts that a browser draws when they are seen, the whole run as a strip beside them, and
//! what is pointed at in words. It needs no network, and tells the browser to fetch nothing; without a script it is still the picture.
use super::data::data;
use super::draw::Drawing;
use super::layout::Row;
use super::pen::{escaped, Pen};
use super::say;
use super::strip::strip;
use super::svg::{heads, legend_svg, title, worded_rows, CSS, DEFS, HEAD};
use crate::words;

/// The page, with a name in double braces where something is put in.
const PAGE: &str = include_str!("page.html");
const PAGE_CSS: &str = include_str!("page.css");
const SCRIPT: &str = include_str!("page.js");
/// How many rows a part has: a page of paper has room for it.
const PART: usize = 40;

pub fn html(drawing: &Drawing) -> String {
    let story = drawing.story;
    let rows = worded_rows(story, 0..story.moments.len());
    let height = rows.last().map_or(0, |row| row.y + row.height);
    let open = story.first_crash().unwrap_or(0) + 1;
    filled(|name| match name {
        "title" => escaped(&title(story)),
        "style" => format!("{CSS}{PAGE_CSS}"),
        "strip" => strip(drawing, &rows, height),
        "heads" => picture(drawing.lanes.width, HEAD, |pen| {
            pen.put(DEFS);
            heads(drawing, pen);
        }),
        "parts" => rows.chunks(PART).map(|rows| part(drawing, rows)).collect(),
        "called" => escaped(&say::called(story).unwrap_or_default()),
        "quiet" => words::quiet(story.played.ran.quiet).to_string(),
        "legend" => legend_svg(1),
        "data" => data(story, &rows, open),
        "script" => SCRIPT.to_string(),
        _ => unreachable!("{name}: no such name in the page"),
    })
}

/// The page with something for each of its names.
fn filled(of: impl Fn(&str) -> String) -> String {
    let (mut page, mut rest) = (String::new(), PAGE);
    while let Some((before, after)) = rest.split_once("{{") {
        let (name, behind) = after.split_once("}}").expect("a name ends");
        page += before;
        page += &of(name);
        rest = behind;
    }
    page + rest
}

/// A picture within the page.
fn picture(width: i32, height: i32, draw: impl FnOnce(&mut Pen)) -> String {
    let mut pen = Pen::default();
    pen.put(format_args!("<svg viewBox=\"0 0 {width} {height}\" width=\"{width}\" height=\"{height}\">\n"));
    draw(&mut pen);
    pen.put("</svg>");
    pen.text
}

/// Some rows as a picture of their own, as high as they are.
fn part(drawing: &Drawing, rows: &[Row]) -> String {
    let top = rows[0].y;
    let last = &rows[rows.len() - 1];
    let (width, height) = (drawing.lanes.width, last.y + last.height - top);
    let rows: Vec<Row> = rows.iter().map(|row| Row { y: row.y - top, ..row.clone() }).collect();
    let drawn = picture(width, height, |pen| drawing.rows(&rows, pen));
    format!("<tr><td><div class=\"part\" style=\"width:{width}px;height:{height}px\">{drawn}</div></td></tr>\n")
}
