//! Calls of a listener.
use super::is;
use jc_outside::CompletionListener;
use jc_plain::{Listen, Listening};
use jc_types::Refusal;

/// Counts its calls, and keeps the last failure.
#[derive(Drop)]
struct Counts {
    completions: u32,
    exceptions: u32,
    last: Option<Refusal>,
}

impl Listen for Counts {
    fn on_completion(&mut self) {
        self.completions = self.completions.saturating_add(1);
    }

    fn on_exception(&mut self, refusal: Refusal) {
        self.exceptions = self.exceptions.saturating_add(1);
        self.last = Some(refusal);
    }
}

fn tell<L: CompletionListener>(listener: &mut L, ended: Result<(), Refusal>) {
    match ended {
        Ok(()) => listener.on_completion(),
        Err(refusal) => listener.on_exception(refusal),
    }
}

#[test]
fn each_telling_is_passed_on_once(rt: HostRuntime) {
    let mut listening = Listening {
        listener: Counts {
            completions: 0,
            exceptions: 0,
            last: None,
        },
    };
    tell(&mut listening, Ok(()));
    let heard = &listening.listener;
    is(
        &rt,
        "completed",
        (heard.completions, heard.exceptions),
        (1, 0),
    );
    tell(&mut listening, Err(Refusal::LoaderFailed(7)));
    let heard = &listening.listener;
    is(&rt, "failed", (heard.completions, heard.exceptions), (1, 1));
    is(&rt, "cause", heard.last, Some(Refusal::LoaderFailed(7)));
}
