//! The tables of a run, and its image.

use std::io::{self, Write};

use crate::blocks::{Class, State};
use crate::engine::Engine;
use crate::history::History;
use crate::tree::Node;

/// A text under way to a writer, with integers through `itoa`.
struct Out<W: Write> {
    text: Vec<u8>,
    writer: W,
    digits: itoa::Buffer,
}

const FLUSH_AT: usize = 1 << 16;

impl<W: Write> Out<W> {
    fn text(&mut self, text: &str) -> &mut Self {
        self.bytes(text.as_bytes())
    }

    fn bytes(&mut self, bytes: &[u8]) -> &mut Self {
        self.text.extend_from_slice(bytes);
        self
    }

    fn number(&mut self, number: impl itoa::Integer) -> &mut Self {
        self.text
            .extend_from_slice(self.digits.format(number).as_bytes());
        self
    }

    fn end_line(&mut self) -> io::Result<()> {
        self.text.push(b'\n');
        if self.text.len() >= FLUSH_AT {
            self.flush()
        } else {
            Ok(())
        }
    }

    fn flush(&mut self) -> io::Result<()> {
        self.writer.write_all(&self.text)?;
        self.text.clear();
        Ok(())
    }
}

pub fn print(engine: &Engine<impl History>, image: bool, writer: impl Write) -> io::Result<()> {
    let text = Vec::with_capacity(FLUSH_AT + 4096);
    let mut out = Out {
        text,
        writer,
        digits: itoa::Buffer::new(),
    };
    tables(engine, &mut out)?;
    if image {
        out.text("image").end_line()?;
        save(engine, &mut out)?;
    }
    out.flush()?;
    out.writer.flush()
}

fn tables<W: Write>(engine: &Engine<impl History>, out: &mut Out<W>) -> io::Result<()> {
    out.text("txid ").number(engine.last_txid).end_line()?;
    engine.tree.visit(|path, node| {
        match node {
            Node::Dir(_) => {
                out.text("dir \"").bytes(path).text("\"");
            }
            Node::File(file) => {
                out.text("file \"")
                    .bytes(path)
                    .text("\" ")
                    .number(file.replication);
                out.text(if file.closed { " closed" } else { " open" });
                for block in &file.blocks {
                    out.text(" ").number(block.id).text(":").number(block.stamp);
                    out.text(":").number(block.len);
                }
            }
        }
        out.end_line()
    })?;
    for (id, row) in engine.table.sorted_rows() {
        for replica in row.replicas() {
            out.text("replica ").number(id).text(" ").number(replica.dn);
            out.text(" ")
                .number(replica.stamp)
                .text(" ")
                .number(replica.len);
            out.text(if replica.state == State::Received {
                " received "
            } else {
                " receiving "
            });
            out.text(match row.class(replica) {
                Class::Live => "live",
                Class::Building => "building",
                Class::Stale => "stale",
                Class::Ahead => "ahead",
                Class::WrongLength => "wronglength",
            });
            out.end_line()?;
        }
    }
    for (id, dn) in engine.table.orders() {
        out.text("order ")
            .number(id)
            .text(" ")
            .number(dn)
            .end_line()?;
    }
    let (safe, needed) = (engine.table.safe(), engine.needed());
    out.text("blocks ")
        .number(engine.table.total())
        .text(" safe ")
        .number(safe);
    out.text(" needed ").number(needed);
    out.text(if safe < needed {
        " mode on"
    } else {
        " mode off"
    })
    .end_line()
}

fn save<W: Write>(engine: &Engine<impl History>, out: &mut Out<W>) -> io::Result<()> {
    out.text("{\"awaiting\":[");
    for (n, id) in engine.sorted_awaiting().into_iter().enumerate() {
        out.text(if n > 0 { "," } else { "" }).number(id);
    }
    out.text("],\"image\":\"hdfs-standby\",\"last_block\":")
        .number(engine.last_block);
    out.text(",\"last_gen\":").number(engine.last_stamp);
    out.text(",\"profile\":").number(engine.profile);
    out.text(",\"txid\":")
        .number(engine.last_txid)
        .text(",\"version\":2}")
        .end_line()?;
    let mut paths = 0u64;
    engine.tree.visit(|path, node| {
        match node {
            Node::Dir(_) if path == b"/" => return Ok(()),
            Node::Dir(_) => {
                out.text("{\"path\":\"")
                    .bytes(path)
                    .text("\",\"type\":\"dir\"}");
            }
            Node::File(file) => {
                out.text("{\"blocks\":[");
                for (n, block) in file.blocks.iter().enumerate() {
                    out.text(if n > 0 { ",{\"gen\":" } else { "{\"gen\":" })
                        .number(block.stamp);
                    out.text(",\"id\":").number(block.id);
                    out.text(",\"len\":").number(block.len).text("}");
                }
                out.text("],\"closed\":")
                    .text(if file.closed { "true" } else { "false" });
                out.text(",\"path\":\"").bytes(path);
                out.text("\",\"replication\":").number(file.replication);
                out.text(",\"type\":\"file\"}");
            }
        }
        paths += 1;
        out.end_line()
    })?;
    out.text("{\"end\":").number(paths).text("}").end_line()
}
