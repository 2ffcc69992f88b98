//! The page of pictures that `inspect --html` writes: one file with all that it needs.

use crate::captures::packets::Stream;
use crate::errors::Failure;
use crate::output::chart::Chart;
use crate::output::file::Output;
use crate::output::json;
use crate::output::printing::shown;
use crate::streams::codecs::name;
use crate::streams::tally::Tally;
use emupedestal::Codec;
use serde_json::{Value, json};
use std::path::Path;

const PAGE: &str = include_str!("page.html.in");

pub struct Page {
    output: Output,
    file: String,
    streams: Vec<Value>,
}

impl Page {
    /// A page about what is read from `input`.
    pub fn create(path: &Path, input: &Path) -> Result<Self, Failure> {
        Ok(Page {
            output: Output::create(path, input)?,
            file: shown(input),
            streams: Vec::new(),
        })
    }

    pub fn add(
        &mut self,
        stream: &Stream,
        codec: Codec,
        chart: &Chart,
        tally: &Tally,
        told: &[String],
    ) {
        self.streams.push(json!({
            "stream": format!("{stream} as {}", name(codec)),
            "totals": json::totals(tally, told),
            "seconds": chart.seconds(),
            "width": chart.width(),
            "columns": chart.columns(),
        }));
    }

    pub fn finish(mut self) -> Result<(), Failure> {
        let data = json!({"file": self.file, "streams": self.streams});
        // Within a script nothing may end it.
        let data = data.to_string().replace('<', "\\u003c");
        self.output
            .gathered
            .extend(PAGE.replace("@DATA@", &data).bytes());
        self.output.finish().map(drop)
    }
}
