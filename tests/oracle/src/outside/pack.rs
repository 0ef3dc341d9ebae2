//! A question to a packer: steps, each lent some bytes of output behind what was emitted before.

use std::io;

use tantivy_bitpacker::BitPacker;

use super::{NOT_RUN, Question, run};
use crate::line::Line;
use crate::pack::{self, Asked, NEW};

/// The bytes that a step is lent where nothing else is said.
const ENOUGH: usize = 8;

pub struct Case {
    pub line: &'static str,
    /// The packer's fields: the bits held as a number, and how many they are.
    pub packer: [u64; 2],
    pub steps: Vec<Step>,
    /// The bytes that the port has emitted then, by document 01.
    pub stream: Vec<u8>,
}

pub enum Port {
    Emits(u64),
    Refuses(u64),
}

pub struct Step {
    asked: Asked,
    room: usize,
    port: Port,
}

pub fn write(value: u64, width: u8, port: Port) -> Step {
    Step {
        asked: Asked::Write { value, width },
        room: ENOUGH,
        port,
    }
}

pub fn flush(port: Port) -> Step {
    Step {
        asked: Asked::Flush,
        room: ENOUGH,
        port,
    }
}

impl Step {
    pub fn into(self, room: usize) -> Step {
        Step { room, ..self }
    }
}

impl Question for Case {
    fn line(&self) -> &'static str {
        self.line
    }

    fn of(&self) -> String {
        match self.packer {
            NEW => "a new packer".to_string(),
            [held, bits] => format!("a packer, {bits} bits held: {held:#x}"),
        }
    }

    fn asked(&self) -> String {
        let steps: Vec<String> = self.steps.iter().map(Step::text).collect();
        steps.join("; ")
    }

    fn rust(&self) -> String {
        if self.packer != NEW {
            return NOT_RUN.to_string();
        }
        let mut packer = BitPacker::new();
        let mut stream = Vec::new();
        let mut answers = Vec::new();
        for step in &self.steps {
            let mut output = vec![0; step.room];
            let mut left = output.as_mut_slice();
            let answer = run(|| step.ask_the_rust(&mut packer, &mut left));
            let emitted = step.room - left.len();
            stream.extend(&output[..emitted]);
            match answer {
                Ok(Ok(())) => answers.push(emitted.to_string()),
                Ok(Err(why)) => answers.push(format!("{emitted} and the error \"{why}\"")),
                Err(panic) => {
                    answers.push(panic);
                    break;
                }
            }
        }
        told(&answers, &stream)
    }

    fn port(&self) -> String {
        let answers: Vec<String> = self.steps.iter().map(|step| step.port.text()).collect();
        told(&answers, &self.stream)
    }

    fn case(&self) -> Option<Vec<Line>> {
        let steps: Vec<pack::Step> = self.steps.iter().map(Step::taken).collect();
        Some(pack::lines(self.packer, &steps, &self.stream))
    }
}

/// What each step answers, then the bytes that it all comes to.
fn told(answers: &[String], stream: &[u8]) -> String {
    let bytes: Vec<String> = stream.iter().map(|byte| format!("{byte:02x}")).collect();
    let bytes = match bytes.as_slice() {
        [] => "no bytes".to_string(),
        _ => bytes.join(" "),
    };
    format!("{}: {bytes}", answers.join("; "))
}

impl Step {
    fn text(&self) -> String {
        let room = match self.room {
            ENOUGH => String::new(),
            room => format!(" into {room} bytes"),
        };
        match self.asked {
            Asked::Write { value, width } => format!("{value:#x} at {width} bits{room}"),
            Asked::Flush => format!("flush{room}"),
        }
    }

    fn ask_the_rust(&self, packer: &mut BitPacker, output: &mut &mut [u8]) -> io::Result<()> {
        match self.asked {
            Asked::Write { value, width } => packer.write(value, width, output),
            Asked::Flush => packer.flush(output),
        }
    }

    fn taken(&self) -> pack::Step {
        pack::Step {
            asked: self.asked,
            room: self.room,
            emitted: match self.port {
                Port::Emits(bytes) => Ok(bytes),
                Port::Refuses(number) => Err(number),
            },
        }
    }
}

impl Port {
    fn text(&self) -> String {
        match self {
            Port::Emits(bytes) => bytes.to_string(),
            Port::Refuses(number) => format!("refuses {number}"),
        }
    }
}
