#!/usr/bin/env bash
# read.sh [ROUNDS]: what it costs to read a program file, to check it and to print it, for files of every shape that is known to
# be dear, and how that grows with their length. It prints a table and asserts nothing.
#
# A small program calls the reader of program files and its printer, and times each call; it is proved and built here over a
# copy of the sources, so the first call takes as long as the proofs of the crates below it, less what earlier runs on this
# machine kept. With a folder in GP_READ it is left there, and taken from there by the next call. See read.py for what the
# figures are.
. "$(dirname -- "${BASH_SOURCE[0]}")/room.bash" "$@"
kept=${GP_READ:-$room/kept}
mkdir -p -- "$kept" || exit 1
kept=$(cd -P -- "$kept" && pwd)

# The program: WHAT FILE TIMES, with WHAT `read` or `print`. It prints what the file is and the least nanoseconds of a call.
program() {
  cat <<'PROGRAM'
//! Times the reader of program files and the printer: WHAT FILE TIMES, with WHAT `read` or `print`.
#![tactic(auto)]

use anyhow::{Result, bail};
use gp_io::{FileSource, read_all};
use gp_isa::Program;
use gp_text::{TextError, print, read};
use std::alloc::Global;
use std::env;
use std::time::Instant;

// What a file is. The program that was read is let go here.
fn kind(answer: Result<Program, TextError>) -> &'static str {
    match answer {
        Ok(_) => "program",
        Err(TextError::Refused { .. }) => "refused",
        Err(TextError::Memory) => "memory",
    }
}

// What a file is, and how many bytes its program's text has, 0 where there is none.
fn size(alloc: Global, program: &Program) -> usize {
    match print(alloc, program) {
        Ok(text) => text.len(),
        Err(_) => 0,
    }
}

fn main(rt: HostRuntime) -> Result<()> {
    let words: Vec<String> = env::args(&rt)?.collect(rt.alloc())?;
    let [_, what, path, times] = words.as_slice() else {
        bail!("WHAT FILE TIMES");
    };
    let Ok(times) = times.as_str().parse::<u32>() else {
        bail!("TIMES is no number");
    };
    let mut source = FileSource::new(&rt, path.as_str());
    let Ok(file) = read_all(rt.alloc(), &mut source, 1_048_576) else {
        bail!("FILE can't be read");
    };
    let mut least = u128::MAX;
    let mut said = "nothing";
    let mut bytes = 0;
    if what.as_str() == "read" {
        for _ in 0..times {
            let begin = Instant::now(&rt)?;
            said = kind(read(rt.alloc(), file.as_slice()));
            least = least.min(begin.elapsed(&rt)?.as_nanos());
        }
    } else if let Ok(program) = read(rt.alloc(), file.as_slice()) {
        for _ in 0..times {
            let begin = Instant::now(&rt)?;
            bytes = size(rt.alloc(), &program);
            least = least.min(begin.elapsed(&rt)?.as_nanos());
        }
        said = "printed";
    }
    println!(rt; "{said} {bytes} {least}")?;
    Ok(())
}
PROGRAM
}

if ! [ -x "$kept/gp_read" ]; then
  repo=$room/repo
  mkdir -- "$repo" "$repo/.git" || exit 1
  (cd -- "$top" && tar cf - --exclude=out HANDLES crates/gp_isa crates/gp_labels crates/gp_text crates/gp_io) | tar xf - -C "$repo" || exit 1
  grep -E '^gp_(isa|labels|text|io):' "$top/crates.txt" >"$repo/crates.txt" || exit 1
  mkdir -p -- "$repo/crates/gp_read/src" || exit 1
  program >"$repo/crates/gp_read/src/main.rt"
  echo 'gp_read: gp_isa gp_labels gp_text gp_io sqlite_items indexmap anyhow' >>"$repo/crates.txt"
  (cd -- "$repo/crates/gp_read" && rt run --jobs 1) >"$room/log" 2>&1
  if ! [ -x "$repo/crates/gp_read/out/gp_read" ]; then
    tail -n 30 -- "$room/log" >&2
    echo "read.sh: the program that times the reader could not be built" >&2
    exit 1
  fi
  cp -- "$repo/crates/gp_read/out/gp_read" "$kept/gp_read" || exit 1
fi

cd -- "$room" || exit 1
python3 "$here/read.py" "$kept/gp_read" "$rounds"
