//! Where packets go that are sent: into a capture, or over the network.

use crate::captures::frames::file_header;
use crate::commands::arguments::Send;
use crate::errors::Failure;
use crate::network::transmission::Transmission;
use crate::output::file::Output;
use crate::streams::chooser::counted;

pub enum Sink {
    Capture(Output),
    Network(Box<Transmission>, Vec<u8>),
}

impl Sink {
    pub fn new(asked: &Send) -> Result<Self, Failure> {
        if let Some(to) = asked.to {
            let transmission = Transmission::new(asked, to)?;
            return Ok(Sink::Network(Box::new(transmission), Vec::new()));
        }
        let mut output = Output::create(&asked.output, &asked.input)?;
        output.gathered.extend(file_header());
        Ok(Sink::Capture(output))
    }

    pub fn is_network(&self) -> bool {
        matches!(self, Sink::Network(..))
    }

    /// The records of packets that are to go next. Whoever appends to it calls `pass_on` behind.
    pub fn gathered(&mut self) -> &mut Vec<u8> {
        match self {
            Sink::Capture(output) => &mut output.gathered,
            Sink::Network(_, gathered) => gathered,
        }
    }

    /// An access unit ends.
    pub fn pass_on(&mut self) -> Result<(), Failure> {
        match self {
            Sink::Capture(output) => output.pass_on(),
            Sink::Network(transmission, gathered) => {
                transmission.send(gathered)?;
                gathered.clear();
                Ok(())
            }
        }
    }

    /// Ends, and says how much went.
    pub fn finish(self) -> Result<String, Failure> {
        let transmission = match self {
            Sink::Capture(output) => return Ok(counted(output.finish()?, "byte")),
            Sink::Network(transmission, _) => transmission,
        };
        let (sent, again, keyframes) = transmission.finish();
        let mut said = counted(sent, "byte");
        if again > 0 {
            said += &format!(", {} sent again", counted(again, "packet"));
        }
        if keyframes > 0 {
            said += &format!(", a keyframe asked for {}", counted(keyframes, "time"));
        }
        Ok(said)
    }
}
