//! A page on which the maze is walked: the picture, what stands in the rooms as data, and the script. It needs no other file and no network.

use super::picture::{element, heading};
use super::words::size;
use super::{object, program, Asked};
use crate::draw::{escaped, style};

const STYLE: &str = include_str!("page.css");
const BODY: &str = include_str!("page.html");
const SCRIPT: &str = include_str!("page.js");

pub fn told(asked: &Asked) -> String {
    let title = escaped(&heading(asked));
    // Within a script a '<' could end it; in JSON it may be written as its number.
    let data = object::whole(asked).replace('<', "\\u003c");
    let body = BODY.replace("@TITLE@", &title).replace("@SIZE@", &size(asked)).replace("@PROGRAM@", &program::element(asked)).replace("@PICTURE@", &element(asked));
    format!(
        "<!DOCTYPE html>\n<html lang=\"en\">\n<head>\n<meta charset=\"utf-8\">\n<meta name=\"viewport\" content=\"width=device-width,initial-scale=1\">\n<title>{}</title>\n\
         <style>\n{}{}</style>\n</head>\n<body>\n{}<script type=\"application/json\" id=\"maze\">{}</script>\n<script>\n{}</script>\n</body>\n</html>\n",
        title, style::chosen(&style::MAZE), STYLE, body, data, SCRIPT
    )
}
