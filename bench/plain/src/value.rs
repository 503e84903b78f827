//! A line read as a `serde_json::Value`, of which its operation's keys are looked up.

use std::borrow::Cow;

use serde_json::{Map, Value};

use crate::fault::Fault;
use crate::fields::{Blocks, Fields, Keyword, Named, Number, Op, Text};
use crate::line::Block;

type Object = Map<String, Value>;

/// The fields of a line.
pub fn read(text: &str) -> serde_json::Result<Fields<'_>> {
    let mut object: Object = serde_json::from_str(text)?;
    let op = keyword(&object, "op");
    let mut fields = Fields {
        op,
        ..Fields::default()
    };
    match op {
        Keyword::Missing => read_report(&object, &mut fields),
        Keyword::Known(op) => read_edit(&mut object, op, &mut fields),
        Keyword::Other => {}
    }
    Ok(fields)
}

fn read_report(object: &Object, fields: &mut Fields) {
    fields.dn = number(object, "dn");
    fields.block = number(object, "block");
    fields.stamp = number(object, "gen");
    fields.len = number(object, "len");
    fields.kind = keyword(object, "kind");
}

fn read_edit(object: &mut Object, op: Op, fields: &mut Fields) {
    fields.txid = number(object, "txid");
    match op {
        Op::StartSegment => fields.profile = number(object, "profile"),
        Op::EndSegment => {}
        Op::Mkdir | Op::Append | Op::Delete => fields.path = text(object, "path"),
        Op::Add | Op::SetReplication => {
            fields.path = text(object, "path");
            fields.replication = number(object, "replication");
        }
        Op::AddBlock => {
            fields.path = text(object, "path");
            fields.id = number(object, "id");
            fields.stamp = number(object, "gen");
        }
        Op::UpdateBlocks | Op::Close => {
            fields.path = text(object, "path");
            fields.blocks = blocks(object);
        }
        Op::Rename => {
            fields.src = text(object, "src");
            fields.dst = text(object, "dst");
        }
        Op::AllocateBlockId => fields.id = number(object, "id"),
        Op::SetGenstamp => fields.stamp = number(object, "gen"),
    }
}

fn number(object: &Object, key: &str) -> Number {
    match object.get(key) {
        None => Number::Missing,
        Some(value) => value.as_u64().map_or(Number::Other, Number::Whole),
    }
}

fn keyword<T: Named>(object: &Object, key: &str) -> Keyword<T> {
    match object.get(key) {
        None => Keyword::Missing,
        Some(Value::String(text)) => Keyword::named(text),
        Some(_) => Keyword::Other,
    }
}

fn text<'a>(object: &mut Object, key: &str) -> Text<'a> {
    match object.get_mut(key) {
        None => Text::Missing,
        Some(Value::String(text)) => Text::Text(Cow::Owned(std::mem::take(text))),
        Some(_) => Text::Other,
    }
}

fn blocks(object: &Object) -> Blocks {
    match object.get("blocks") {
        None => Blocks::Missing,
        Some(Value::Array(list)) => list
            .iter()
            .map(block)
            .collect::<Result<_, _>>()
            .map_or_else(Blocks::Bad, Blocks::List),
        Some(_) => Blocks::Bad(Fault::MissingField),
    }
}

fn block(value: &Value) -> Result<Block, Fault> {
    let object = value.as_object().ok_or(Fault::MissingField)?;
    let get = |key| number(object, key).get();
    Ok(Block {
        id: get("id")?,
        stamp: get("gen")?,
        len: get("len")?,
    })
}
