//! What `threads.c` does, in Rust: four threads add a vector to one total, a hundred times each, by a call that each prepared once.

use cilweddor::{Caller, Error, Machine, Reply};
use std::thread;

fn work(caller: &mut Caller) -> Result<(), Error> {
    caller.set_ints("unit", &[1, 2])?;
    let add = caller.prepare("total = add_wuz total unit")?;
    for _ in 0..100 {
        caller.post_prepared(add)?;
        caller.answer()?;
    }
    Ok(())
}

fn main() -> Result<(), Error> {
    let mut callers = Machine::open(4, 1000)?;
    callers[0].set_ints("total", &[0, 0])?;
    thread::scope(|scope| {
        let workers: Vec<_> = callers.iter_mut().map(|caller| scope.spawn(|| work(caller))).collect();
        workers.into_iter().try_for_each(|worker| worker.join().expect("a worker"))
    })?;
    let Reply::Ints(total) = callers[0].call("get total")? else {
        return Err(Error::NoReply);
    };
    println!("total {} {}", total[0], total[1]);
    for caller in callers {
        if let Some(closed) = caller.close()? {
            println!("history {}, audit {}", closed.history, if closed.audited { "ok" } else { "wrong" });
        }
    }
    Ok(())
}
