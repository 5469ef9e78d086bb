//! Cuts a script into sections that can be run alone.

/// Each but perhaps the first begins with a `new` line, and reads no file that was kept before it.
pub fn of(script: &[u8]) -> Vec<Vec<u8>> {
    let mut pieces = vec![Vec::new()];
    for line in script.split_inclusive(|&b| b == b'\n') {
        if line.starts_with(b"new ") {
            pieces.push(Vec::new());
        }
        pieces.last_mut().expect("one at least").extend_from_slice(line);
    }
    let mut all: Vec<Vec<u8>> = Vec::new();
    for mut piece in pieces {
        match all.last_mut() {
            Some(before) if needs_a_file(&piece) => before.append(&mut piece),
            _ => all.push(piece),
        }
    }
    all
}

/// A file is read before one is saved or made. Under midpoint none is saved, nor with a ladder.
fn needs_a_file(piece: &[u8]) -> bool {
    let mut lines = piece.split_inclusive(|&b| b == b'\n');
    let saves = !lines.any(|line| line.ends_with(b" midpoint\n") || line.ends_with(b" log -\n"));
    let says = |line: &[u8]| match line {
        b"restore\n" | b"bytes\n" => Some(true),
        b"save\n" if saves => Some(false),
        _ if line.starts_with(b"put ") => Some(true),
        _ if line.starts_with(b"file ") => Some(false),
        _ => None,
    };
    piece.split_inclusive(|&b| b == b'\n').find_map(says).unwrap_or(false)
}

#[cfg(test)]
mod tests {
    #[test]
    fn a_kept_file_is_not_cut_off() {
        let sections: [&[u8]; 6] = [
            b"# x\n",
            b"new 1\nsave\nnew 2\nrestore\n",
            b"new 1\nsave\nnew 2 midpoint\nsave\nrestore\n",
            b"new 1\nsave\nnew 2\nsample 1 int 1 64 log -\nsave\nbytes\n",
            b"new 3\nlook\n",
            b"new 4\nfile 1\nput 0 00\n",
        ];
        assert_eq!(super::of(&sections.concat()), sections);
    }
}
