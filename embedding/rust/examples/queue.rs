//! A site that many threads ask: one thread owns it, and answers through a queue.

use std::sync::mpsc::{channel, Sender};
use std::thread;
use weirbowl::{request, Answer, Error, Site, Uid};

/// The stack of the thread that owns the site. A policy may be nested 1,000 deep, which takes up to some 3 MiB.
const STACK: usize = 8 << 20;

type Job = Box<dyn FnOnce(&mut Site) + Send>;

/// Hands calls to the thread that owns the site.
#[derive(Clone)]
struct Handle(Sender<Job>);

impl Handle {
    /// Opens a site on a thread of its own, and returns once it is open.
    fn open(schema: Vec<u8>, name: String) -> Result<Handle, Error> {
        let (jobs, queue) = channel::<Job>();
        let (opened, is_open) = channel();
        let owner = move || match Site::open(schema, &name) {
            Ok(mut site) => {
                let _ = opened.send(Ok(()));
                queue.iter().for_each(|job| job(&mut site));
            }
            Err(error) => drop(opened.send(Err(error))),
        };
        thread::Builder::new().stack_size(STACK).spawn(owner).expect("a thread");
        is_open.recv().expect("the thread answers")?;
        Ok(Handle(jobs))
    }

    /// Makes a call on that thread, and returns what it returns.
    fn ask<T: Send + 'static>(&self, call: impl FnOnce(&mut Site) -> T + Send + 'static) -> T {
        let (done, answer) = channel();
        self.0.send(Box::new(move |site| drop(done.send(call(site))))).expect("the thread lives");
        answer.recv().expect("the thread answers")
    }

    fn decide(&self, user: &str, photo: &str) -> Result<Answer, Error> {
        let asked = request(&Uid::new("User", user), &Uid::new("Action", "view"), &Uid::new("Photo", photo));
        self.ask(move |site| site.authorize(asked))
    }
}

fn main() -> Result<(), Error> {
    let schema = r#"{"":{"entityTypes":{"User":{},"Photo":{}},"actions":{"view":{"appliesTo":
        {"principalTypes":["User"],"resourceTypes":["Photo"]}}}}}"#;
    let site = Handle::open(schema.into(), "one".into())?;
    site.ask(|site| site.put_policy("ann", r#"permit(principal == User::"ann", action, resource);"#))?;
    let asking: Vec<_> = ["ann", "bob"].map(|user| (user, site.clone())).into_iter().collect();
    for (user, site) in asking {
        let answer = thread::spawn(move || site.decide(user, "p1")).join().expect("no panic")?;
        println!("{user}: {:?}", answer.decision);
    }
    Ok(())
}
