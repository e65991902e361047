"""What the scripts share that measure crates made for them: each has one program, whose words are numbers."""
import os
import subprocess
import sys
from pathlib import Path

from common.repository import TOP

# What a program ends with: `measure` gets its three words, and the number that it answers is printed.
END = r'''
/// The number that a word is, or 0.
fn number_of(word: Option<String>) -> u32 {
    match word {
        None => 0,
        Some(word) => match word.as_str().parse() {
            Ok(number) => number,
            Err(_) => 0,
        },
    }
}

fn main(rt: HostRuntime) -> io::Result<ExitCode> {
    let alloc = rt.alloc();
    let mut out = rt.stdout();
    let mut err = rt.stderr();
    let Ok(words) = env::args(&(&rt, alloc)) else {
        return Ok(ExitCode::from(2));
    };
    let mut words = words.skip(1);
    let what = number_of(words.next());
    let count = number_of(words.next());
    let rounds = number_of(words.next());
    match measure(&rt, alloc, what, count, rounds) {
        Ok(said) => {
            writeln!(out, "{said}")?;
            Ok(ExitCode::from(0))
        }
        Err(refusal) => {
            writeln!(err, "{refusal}")?;
            Ok(ExitCode::from(1))
        }
    }
}
'''


def built(work, name, source, stands_on, build="unproved"):
    """A program, built on a copy of the last commit by a script of `.ci/build`."""
    copy = Path(work) / "copy"
    if not copy.exists():
        subprocess.run(["git", "clone", "-q", str(TOP), str(copy)], check=True)
    crate = copy / "crates" / name
    subprocess.run(["rt", "new", f"crates/{name}", "start_io"], cwd=copy, check=True, stdout=subprocess.DEVNULL)
    for file in crate.rglob("*"):
        if file.is_file():
            file.unlink()
    (crate / "src").mkdir(exist_ok=True)
    (crate / "src/main.rt").write_text(source.lstrip() + END)
    with open(copy / "crates.txt", "a") as crates:
        crates.write(f"{name}: slot_types {stands_on}\n")
    subprocess.run(["rt", "fmt"], cwd=crate, check=True)
    program = Path(work) / name
    subprocess.run([copy / ".ci/build" / build, program, name], check=True)
    return program


def run(program, *words):
    """The processor seconds and the greatest memory in MiB of a run."""
    child = os.fork()
    if child == 0:
        os.dup2(os.open(os.devnull, os.O_WRONLY), 1)
        os.execv(program, [str(program), *map(str, words)])
    _, status, used = os.wait4(child, 0)
    if status:
        sys.exit(f"{program} {words}: status {status}")
    return used.ru_utime + used.ru_stime, used.ru_maxrss / 1024


def seconds(program, runs, *words):
    return min(run(program, *words)[0] for _ in range(runs))


def said_by(program, *words):
    """The number that a run prints."""
    return int(subprocess.run([program, *map(str, words)], check=True, capture_output=True, text=True).stdout)
