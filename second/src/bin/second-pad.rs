//! second-pad: lines `p <hex of data> <buffer length>` or `s <hex of block>`.

use second::lines::run_with;
use second::pad_lines::answer;
use std::io;

fn main() -> io::Result<()> {
    run_with(1 << 20, answer, io::stdin().lock(), io::stdout().lock())
}
