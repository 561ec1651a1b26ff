//! The codec of the reference, lent the same buffers and numbers.

use crate::codec::{Codec, Fields};
use cases::Reference;
use reference::buffer::{ask_room, put};
use reference::frame::{Body, Signal, ACK, DATA, LONGEST_FRAME};
use reference::{line, refusal, Block, Frame, Message, Refusal, Request};

impl Codec for Reference {
    fn read_line(line: &[u8], out: &mut [u8], length: &mut usize) -> u8 {
        let bytes = ask_room(out, LONGEST_FRAME).and_then(|()| line::read(line));
        refusal::number(bytes.map(|bytes| *length = put(out, &bytes)))
    }

    fn write_line(bytes: &[u8], out: &mut [u8]) -> u8 {
        let line = line::write(bytes);
        refusal::number(ask_room(out, line.len()).map(|()| put(out, &line)))
    }

    fn read(known: u8, bytes: &[u8], fields: &mut Fields, block: &mut usize) -> u8 {
        let message = match known {
            1 => Frame::read(bytes).map(Message::Frame),
            2 => Request::read(bytes).map(Message::Request),
            3 => Message::read(bytes),
            _ => Err(Refusal::Kind),
        };
        refusal::number(message.map(|message| {
            *fields = fields_of(&message);
            *block = block_of(&message).len();
        }))
    }

    fn write(fields: &Fields, block: &[u8], out: &mut [u8], length: &mut usize) -> u8 {
        let frame = ask_room(out, LONGEST_FRAME).and_then(|()| frame_of(fields, block));
        refusal::number(frame.map(|frame| *length = frame.put(out)))
    }
}

/// The numbers of a frame or request that was read.
fn fields_of(message: &Message) -> Fields {
    match message {
        Message::Frame(frame) => Fields {
            kind: frame.body.kind(),
            sender: frame.sender,
            quoted: frame.quoted,
            number: number_of(&frame.body),
        },
        Message::Request(request) => Fields {
            kind: request.kind(),
            sender: 0,
            quoted: 0,
            number: 0,
        },
    }
}

/// The block of a DATA or a send, else nothing.
fn block_of<'a>(message: &Message<'a>) -> &'a [u8] {
    match message {
        Message::Frame(Frame {
            body: Body::Data { block, .. },
            ..
        }) => block.bytes(),
        Message::Request(Request::Send(block)) => block.bytes(),
        _ => &[],
    }
}

/// The sequence number of DATA or the count of ACK, else 0.
fn number_of(body: &Body) -> u32 {
    match *body {
        Body::Signal(_) => 0,
        Body::Data { sequence, .. } => sequence,
        Body::Ack { count } => count,
    }
}

/// The frame of these numbers and this block.
fn frame_of<'a>(fields: &Fields, block: &'a [u8]) -> Result<Frame<'a>, Refusal> {
    let body = match fields.kind {
        DATA => Body::Data {
            sequence: fields.number,
            block: Block::new(block)?,
        },
        ACK => Body::Ack {
            count: fields.number,
        },
        kind => Body::Signal(Signal::of(kind)?),
    };
    Ok(Frame::new(fields.sender, fields.quoted, body))
}
