//! Running a program to its end, which must come soon.

use super::Said;
use std::io::{Read, Result};
use std::process::Child;
use std::thread::sleep;
use std::time::{Duration, Instant};

/// No run takes a hundredth of it.
const LONGEST: Duration = Duration::from_secs(10);

/// What the child has printed on the streams that are piped. One that does not
/// end is killed and has said so.
pub fn finish(mut child: Child) -> Result<Said> {
    let start = Instant::now();
    let mut said = Said::default();
    while child.try_wait()?.is_none() {
        if start.elapsed() > LONGEST {
            child.kill()?;
            child.wait()?;
            said.err = b"it does not end\n".to_vec();
            return Ok(said);
        }
        sleep(Duration::from_millis(1));
    }
    if let Some(out) = &mut child.stdout {
        out.read_to_end(&mut said.out)?;
    }
    if let Some(err) = &mut child.stderr {
        err.read_to_end(&mut said.err)?;
    }
    Ok(said)
}
