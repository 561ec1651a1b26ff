//! A run of the bench: what happens at each line, and which way each frame takes.

use crate::end::End;
use crate::kind;
use crate::name;
use reference::bench::book;
use reference::bench::program::BenchProgram;
use reference::bench::{Order, Side};
use reference::frame::Body;
use reference::stream::Lines;
use reference::{line, Frame, Refusal, Request};

/// The first byte of an answer line after the end's, if the line is not refused.
const SUCCESS: u8 = 0x80;

/// What a restart is called.
const RESTART: &str = "power lost, restart";

/// A run, line by line.
#[derive(Clone, Debug)]
pub struct Run {
    pub events: Vec<Event>,
    /// The ways of all frames, in the order in which they were sent.
    pub flights: Vec<Flight>,
}

/// What happens at a line: a request, a restart, or the delivery of a frame.
#[derive(Clone, Debug, PartialEq, Eq)]
pub struct Event {
    /// The end at which it happens.
    pub side: Side,
    /// The request or the restart, if it is one.
    pub request: Option<String>,
    /// State, L and D that it leaves.
    pub left: String,
    /// The notice with its number, or nothing.
    pub notice: &'static str,
}

/// The way of a frame.
#[derive(Clone, Debug, PartialEq, Eq)]
pub struct Flight {
    pub sender: Side,
    /// Such as `CRAO(1,0)`.
    pub frame: String,
    /// The place of the event that sent it.
    pub from: usize,
    /// The place of its delivery; none if it is lost.
    pub to: Option<usize>,
    /// Was it delivered before?
    pub again: bool,
}

/// A frame of the book.
struct Sent {
    sender: Side,
    frame: String,
    from: usize,
    /// The places of its deliveries.
    deliveries: Vec<usize>,
}

/// A bench between two lines.
#[derive(Default)]
struct Bench {
    program: BenchProgram,
    events: Vec<Event>,
    book: Vec<Sent>,
}

impl Run {
    /// The run of these lines, with spaces between them, on two fresh ends and an empty book. No
    /// line may be refused.
    pub fn of(lines: &str) -> Result<Self, String> {
        let mut bench = Bench::default();
        for text in lines.split_whitespace() {
            let made = bench.make(text);
            made.map_err(|error| format!("bench line {text}: {error}"))?;
        }
        let flights = bench.book.iter().flat_map(Sent::flights).collect();
        Ok(Self {
            events: bench.events,
            flights,
        })
    }
}

impl Bench {
    /// Makes one line.
    fn make(&mut self, text: &str) -> Result<(), String> {
        let bytes = line::read(text.as_bytes()).map_err(refused)?;
        let order = Order::read(&bytes).map_err(refused)?;
        let (side, notice) = self.answer(text)?;
        let request = match order {
            Order::Request(_, request) => Some(request_text(request)?),
            Order::Delivery(number) => {
                self.book[number].deliveries.push(self.events.len());
                None
            }
            Order::Restart(_) => Some(RESTART.to_string()),
        };
        if self.program.used().len() > self.book.len() {
            self.book.push(self.sent()?);
        }
        let end = End::read(self.program.record(side))?;
        self.events.push(Event {
            side,
            request,
            left: end_text(&end),
            notice: name::notice(notice)?,
        });
        Ok(())
    }

    /// Gives the line to the program; which end the answer is about, and its notice.
    fn answer(&mut self, text: &str) -> Result<(Side, u8), String> {
        let mut output = Vec::new();
        self.program.line(text.as_bytes(), &mut output);
        let first = output.split(|&byte| byte == b'\n').next();
        let bytes = line::read(first.unwrap_or_default()).map_err(refused)?;
        match bytes[..] {
            [lead, SUCCESS, _, notice, ..] => {
                let side = Side::BOTH.into_iter().find(|side| side.lead() == lead);
                let side = side.ok_or("the answer is about no end")?;
                Ok((side, notice))
            }
            _ => Err(format!("refused: {}", String::from_utf8_lossy(&output))),
        }
    }

    /// The frame that the line just made has sent.
    fn sent(&self) -> Result<Sent, String> {
        let (sender, frame) = book::find(self.program.used(), self.book.len()).map_err(refused)?;
        Ok(Sent {
            sender,
            frame: frame_text(frame)?,
            from: self.events.len(),
            deliveries: Vec::new(),
        })
    }
}

impl Sent {
    /// Its ways: one for each delivery, or one that leads nowhere.
    fn flights(&self) -> Vec<Flight> {
        let flight = |to, again| Flight {
            sender: self.sender,
            frame: self.frame.clone(),
            from: self.from,
            to,
            again,
        };
        if self.deliveries.is_empty() {
            return vec![flight(None, false)];
        }
        let deliveries = self.deliveries.iter().enumerate();
        deliveries
            .map(|(times, &event)| flight(Some(event), times > 0))
            .collect()
    }
}

/// A refusal as an error.
fn refused(refusal: Refusal) -> String {
    format!("refused with number {}", refusal.number())
}

/// A request's name, and its block if it has one.
fn request_text(bytes: &[u8]) -> Result<String, String> {
    let request = Request::read(bytes).map_err(refused)?;
    let name = kind::of(request.kind())?.name;
    Ok(match request {
        Request::Send(block) => format!("{name} {}", block_text(block.bytes())),
        _ => name.to_string(),
    })
}

/// A block as text where it can be read, else in hexadecimal.
fn block_text(block: &[u8]) -> String {
    let is_readable = |byte: &u8| matches!(byte, b' '..=b'~');
    let text = match block.iter().all(is_readable) {
        true => block.to_vec(),
        false => line::write(block),
    };
    format!("“{}”", String::from_utf8_lossy(&text))
}

/// State, L and D of an end.
fn end_text(end: &End) -> String {
    let (state, local, remote) = (name::state(end.state), end.local, end.remote);
    format!("{state}, L = {local}, D = {remote}")
}

/// A frame with its numbers, such as `CRAO(1,0)`.
fn frame_text(bytes: &[u8]) -> Result<String, String> {
    let frame = Frame::read(bytes).map_err(refused)?;
    let name = kind::of(frame.body.kind())?.name;
    let (s, r) = (frame.sender, frame.quoted);
    Ok(match frame.body {
        Body::Signal(_) => format!("{name}({s},{r})"),
        Body::Data { sequence, .. } => format!("{name}({s},{r},{sequence})"),
        Body::Ack { count } => format!("{name}({s},{r},{count})"),
    })
}

#[cfg(test)]
mod tests {
    use super::*;

    #[test]
    fn a_line_shows_the_request_and_what_it_leaves() {
        let run = Run::of("5140").unwrap();
        let event = Event {
            side: Side::B,
            request: Some("connect".to_string()),
            left: "calling, L = 1, D = 0".to_string(),
            notice: "",
        };
        assert_eq!(run.events, [event]);
    }

    #[test]
    fn a_frame_flies_once_for_each_delivery_or_is_lost() {
        let run = Run::of("5140 520000 520000").unwrap();
        let ways: Vec<_> = run
            .flights
            .iter()
            .map(|flight| (&flight.frame[..], flight.from, flight.to, flight.again))
            .collect();
        let expected = [
            ("CRAO(1,0)", 0, Some(1), false),
            ("CRAO(1,0)", 0, Some(2), true),
            ("REJ(0,1)", 1, None, false),
            ("REJ(0,1)", 2, None, false),
        ];
        assert_eq!(ways, expected);
    }

    #[test]
    fn a_restart_leaves_a_closed_end_with_the_last_number_reserved() {
        let run = Run::of("5040 5350").unwrap();
        let event = Event {
            side: Side::A,
            request: Some("power lost, restart".to_string()),
            left: "closed, L = 16, D = 0".to_string(),
            notice: "",
        };
        assert_eq!(run.events[1], event);
    }

    #[test]
    fn a_refused_line_is_an_error() {
        assert!(Run::of("5043").is_err());
        assert!(Run::of("520000").is_err());
        assert!(Run::of("zz").is_err());
    }

    #[test]
    fn blocks_are_shown_as_text_or_in_hexadecimal() {
        assert_eq!(block_text(b"ok"), "“ok”");
        assert_eq!(block_text(&[0, 0xff]), "“00ff”");
    }
}
