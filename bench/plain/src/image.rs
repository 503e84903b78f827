//! The image that a run may start from: each of its lines is read into fields, checked, and put into the tree and the table.

use std::cmp::Ordering;
use std::io::Read;

use serde::de::SeqAccess;

use crate::engine::{Engine, Issued, FIRST_BLOCK, FIRST_STAMP};
use crate::fault::{Fault, Refusal};
use crate::fields::{Blocks, Keyword, Named, Number, Text};
use crate::line::PathText;
use crate::scenario::Lines;
use crate::tree::{File, Node};
use crate::typed::{read_into, reads_object, skip_rest, FromJson, Json};

const MARK: &[u8] = b"image\n";

/// Cuts the image off the input, and starts the engine from it. Inside is what is wrong with the image, of which the first
/// fault counts.
pub fn load(
    lines: &mut Lines<impl Read>,
    engine: &mut Engine,
) -> Result<Result<(), Refusal>, Refusal> {
    let mut line = lines.next_whole()?;
    if line.first() != Some(&b'{') {
        while line != MARK {
            if line.is_empty() {
                return Ok(Err(Refusal::Image(Fault::NotHeader)));
            }
            line = lines.next_whole()?;
        }
        line = lines.next_whole()?;
    }
    let Some(line) = line.strip_suffix(b"\n") else {
        return Ok(Err(Refusal::Image(Fault::Truncated)));
    };
    let header = read(line).ok_or(Fault::NotHeader);
    let mut loaded = header
        .and_then(|members| members.start(engine))
        .map_err(Refusal::Image);
    let mut rows = Rows::default();
    loop {
        let Some(line) = lines.next_whole()?.strip_suffix(b"\n") else {
            return Ok(loaded.and(Err(Refusal::Image(Fault::Truncated))));
        };
        match read(line) {
            Some(members) if !matches!(members.end, Number::Missing) => {
                return Ok(loaded.and_then(|()| rows.end(members.end)));
            }
            members if loaded.is_ok() => loaded = rows.push(members, engine),
            _ => {}
        }
    }
}

/// The rows that were taken.
#[derive(Default)]
struct Rows {
    count: u64,
    /// The last path without its slash in front; that of the root is empty.
    last: String,
}

impl Rows {
    /// The refusal of the next line. The header is line 1.
    fn refusal(&self, fault: Fault) -> Refusal {
        Refusal::ImageLine {
            fault,
            line: self.count + 2,
        }
    }

    fn push(&mut self, members: Option<Members<'_>>, engine: &mut Engine) -> Result<(), Refusal> {
        let bad = || self.refusal(Fault::BadImageLine);
        let (path, node) = members.and_then(Members::row).ok_or_else(bad)?;
        let names = path.below_root();
        if self.last.split('/').cmp(names.split('/')) != Ordering::Less {
            return Err(self.refusal(Fault::WrongOrder));
        }
        engine.restore(&path, node).ok_or_else(bad)?;
        self.last.clear();
        self.last.push_str(names);
        self.count += 1;
        Ok(())
    }

    fn end(&self, count: Number) -> Result<(), Refusal> {
        match count.get() {
            Ok(count) if count == self.count => Ok(()),
            Ok(_) => Err(Refusal::Image(Fault::CountMismatch)),
            Err(_) => Err(self.refusal(Fault::BadImageLine)),
        }
    }
}

/// What an object has at the keys of an image's lines.
#[derive(Default)]
struct Members<'a> {
    path: Text<'a>,
    kind: Keyword<Form>,
    blocks: Blocks,
    closed: Flag,
    replication: Number,
    end: Number,
    image: Keyword<Mark>,
    version: Number,
    txid: Number,
    last_block: Number,
    last_stamp: Number,
    profile: Number,
    awaiting: Ids,
}

fn read(line: &[u8]) -> Option<Members<'_>> {
    let text = std::str::from_utf8(line).ok()?;
    let mut members = Members::default();
    read_into(text, &mut members).ok()?;
    Some(members)
}

impl<'a> Members<'a> {
    fn row(self) -> Option<(PathText<'a>, Node)> {
        let path = self.path.path().ok()?;
        let Keyword::Known(form) = self.kind else {
            return None;
        };
        let node = match form {
            Form::Dir => Node::dir(),
            Form::File => Node::File(File {
                blocks: self.blocks.get().ok()?.into_iter().collect(),
                closed: self.closed.get()?,
                replication: self.replication.get_from(1..=512).ok()? as u16,
            }),
        };
        Some((path, node))
    }

    /// Of a header: what was issued is that of the engine.
    fn start(self, engine: &mut Engine) -> Result<(), Fault> {
        let version = self.version.get().map_err(|_| Fault::NotHeader)?;
        if version != 1 && version != 2 {
            return Err(Fault::BadVersion);
        }
        self.issued(version)
            .map(|issued| engine.start(issued))
            .ok_or(Fault::NotHeader)
    }

    fn issued(self, version: u64) -> Option<Issued> {
        let Keyword::Known(Mark) = self.image else {
            return None;
        };
        let profile = match version {
            1 => 1,
            _ => self.profile.get_from(1..=2).ok()? as u8,
        };
        let issued = Issued {
            last_txid: self.txid.get().ok()?,
            last_block: self.last_block.get().ok()?,
            last_stamp: self.last_stamp.get().ok()?,
            awaiting: self.awaiting.get()?,
            profile,
        };
        let ids = &issued.awaiting;
        let lawful = issued.last_block >= FIRST_BLOCK - 1
            && issued.last_stamp >= FIRST_STAMP - 1
            && ids.windows(2).all(|pair| pair[0] < pair[1])
            && ids
                .iter()
                .all(|id| (FIRST_BLOCK..=issued.last_block).contains(id));
        lawful.then_some(issued)
    }
}

#[derive(Clone, Copy)]
enum Form {
    Dir,
    File,
}

impl Named for Form {
    fn of_name(name: &str) -> Option<Form> {
        Some(match name {
            "dir" => Form::Dir,
            "file" => Form::File,
            _ => return None,
        })
    }
}

#[derive(Clone, Copy)]
struct Mark;

impl Named for Mark {
    fn of_name(name: &str) -> Option<Mark> {
        (name == "hdfs-standby").then_some(Mark)
    }
}

/// What a key that should hold `true` or `false` holds.
#[derive(Default)]
enum Flag {
    Truth(bool),
    #[default]
    Other,
}

impl Flag {
    fn get(self) -> Option<bool> {
        match self {
            Flag::Truth(truth) => Some(truth),
            Flag::Other => None,
        }
    }
}

impl FromJson<'_> for Flag {
    fn other() -> Self {
        Flag::Other
    }
    fn truth(truth: bool) -> Self {
        Flag::Truth(truth)
    }
}

/// What a key that should hold numbers holds.
#[derive(Default)]
enum Ids {
    List(Vec<u64>),
    #[default]
    Other,
}

impl Ids {
    fn get(self) -> Option<Vec<u64>> {
        match self {
            Ids::List(ids) => Some(ids),
            Ids::Other => None,
        }
    }
}

impl<'de> FromJson<'de> for Ids {
    fn other() -> Self {
        Ids::Other
    }
    fn array<A: SeqAccess<'de>>(mut seq: A) -> Result<Self, A::Error> {
        let mut ids = Vec::new();
        while let Some(Json(number)) = seq.next_element::<Json<Number>>()? {
            match number.get() {
                Ok(id) => ids.push(id),
                Err(_) => return skip_rest(seq).map(|()| Ids::Other),
            }
        }
        Ok(Ids::List(ids))
    }
}

enum Key {
    Path,
    Kind,
    Blocks,
    Closed,
    Replication,
    End,
    Image,
    Version,
    Txid,
    LastBlock,
    LastStamp,
    Profile,
    Awaiting,
    Other,
}

impl FromJson<'_> for Key {
    fn other() -> Self {
        Key::Other
    }
    fn text(text: &str) -> Self {
        match text {
            "path" => Key::Path,
            "type" => Key::Kind,
            "blocks" => Key::Blocks,
            "closed" => Key::Closed,
            "replication" => Key::Replication,
            "end" => Key::End,
            "image" => Key::Image,
            "version" => Key::Version,
            "txid" => Key::Txid,
            "last_block" => Key::LastBlock,
            "last_gen" => Key::LastStamp,
            "profile" => Key::Profile,
            "awaiting" => Key::Awaiting,
            _ => Key::Other,
        }
    }
}

reads_object!(Members {
    Path => path,
    Kind => kind,
    Blocks => blocks,
    Closed => closed,
    Replication => replication,
    End => end,
    Image => image,
    Version => version,
    Txid => txid,
    LastBlock => last_block,
    LastStamp => last_stamp,
    Profile => profile,
    Awaiting => awaiting,
});
