//! The command line of the program `gravitar` as a call.
use crate::{COMMAND_ROOM, DONE, Error, answer, calls, refusal};

/// What a command line did.
#[derive(Debug, Clone, PartialEq, Eq)]
pub struct Done {
    /// 0 to 5, as docs/COMMANDS.md has them.
    pub status: u8,
    /// What the program writes to the standard output, and to the standard error.
    pub out: Vec<u8>,
    pub note: Vec<u8>,
    /// The stores in their order, each a name and its bytes.
    pub stores: Vec<(String, Vec<u8>)>,
}

impl Done {
    /// The bytes that are stored last under a name.
    pub fn file(&self, name: &str) -> Option<&[u8]> {
        let mut stores = self.stores.iter().rev();
        stores.find(|it| it.0 == name).map(|it| &it.1[..])
    }
}

/// Does a command line of the program, such as `["run", "i", "t"]`, over files in memory, each a
/// name and its bytes. A file that isn't among them is absent, and none of them changes: what the
/// command stores is in the answer. It gives byte for byte what the program gives over such files.
pub fn command<W: AsRef<str>>(words: &[W], files: &[(&str, &[u8])]) -> Result<Done, Error> {
    let request = request(words, files);
    let (status, report, wrote) = answer(&COMMAND_ROOM, |room, report| {
        // SAFETY: each pointer and length are those of one slice, of which the one that is written
        // is the caller's own. The report has the header's layout.
        unsafe {
            calls::gravitar_command(
                request.as_ptr(),
                request.len(),
                room.as_mut_ptr(),
                room.len(),
                report,
            )
        }
    });
    if status == DONE {
        Ok(done(&wrote))
    } else {
        Err(refusal(status, &report, &[]))
    }
}

/// The bytes of docs/FORMATS.md, "A command line as bytes".
fn request<W: AsRef<str>>(words: &[W], files: &[(&str, &[u8])]) -> Vec<u8> {
    let mut request = Vec::new();
    request.extend((words.len() as u64).to_le_bytes());
    request.extend((files.len() as u64).to_le_bytes());
    let mut put = |piece: &[u8]| {
        request.extend((piece.len() as u64).to_le_bytes());
        request.extend(piece);
    };
    for word in words {
        put(word.as_ref().as_bytes());
    }
    for (name, bytes) in files {
        put(name.as_bytes());
        put(bytes);
    }
    request
}

/// Takes a number, or a piece behind its length, from the front of an answer.
fn number(rest: &mut &[u8]) -> usize {
    let (head, tail) = rest.split_at(8);
    *rest = tail;
    u64::from_le_bytes(head.try_into().unwrap_or_default()) as usize
}
fn bytes(rest: &mut &[u8], len: usize) -> Vec<u8> {
    let (head, tail) = rest.split_at(len);
    *rest = tail;
    head.to_vec()
}

fn done(mut rest: &[u8]) -> Done {
    let rest = &mut rest;
    let [status, out, note, _] = [(); 4].map(|()| number(rest));
    let (out, note) = (bytes(rest, out), bytes(rest, note));
    let mut stores = Vec::new();
    while !rest.is_empty() {
        let len = number(rest);
        let name = String::from_utf8_lossy(&bytes(rest, len)).into_owned();
        let len = number(rest);
        stores.push((name, bytes(rest, len)));
    }
    Done {
        status: status as u8,
        out,
        note,
        stores,
    }
}
