//! Stand-in for `commonware_macros`: the select loop, with the probe in it.

/// Parts of the crate that the engine does not use are left out.
#[macro_export]
macro_rules! stability_scope {
    ($($left_out:tt)*) => {};
}

/// Which of the loop's arms goes on.
pub enum Chosen<A, B, C, D> {
    Probe,
    Stopped,
    First(A),
    Second(B),
    Third(C),
    Fourth(D),
}

/// A loop that runs its start, waits for the first arm that is ready, and runs that arm.
/// While nothing is ready the engine is idle. Asked by the driver, it copies the engine's private
/// state out and waits again.
#[macro_export]
macro_rules! select_loop {
    (
        $me:ident . context,
        on_start => { $($start:tt)* },
        on_stopped => $stopped:block,
        $p1:pat = $updates:ident . recv() else $gone:block => $b1:block,
        $p2:pat = $e2:expr => $b2:block,
        $p3:pat = $e3:expr => $b3:block,
        $p4:pat = $e4:expr => $b4:block $(,)?
    ) => {
        loop {
            $($start)*
            let chosen = {
                use ::std::{future::Future, pin::pin, task::Poll};
                let mut stopped = pin!($me.context.stopped());
                let mut first = pin!($updates.recv());
                let mut second = pin!($e2);
                let mut third = pin!($e3);
                let mut fourth = pin!($e4);
                ::std::future::poll_fn(|cx| {
                    use $crate::Chosen;
                    if ::world::with(|w| ::std::mem::take(&mut w.probe)) {
                        return Poll::Ready(Chosen::Probe);
                    }
                    if stopped.as_mut().poll(cx).is_ready() {
                        return Poll::Ready(Chosen::Stopped);
                    }
                    if let Poll::Ready(value) = first.as_mut().poll(cx) {
                        return Poll::Ready(Chosen::First(value));
                    }
                    if let Poll::Ready(value) = second.as_mut().poll(cx) {
                        return Poll::Ready(Chosen::Second(value));
                    }
                    if let Poll::Ready(value) = third.as_mut().poll(cx) {
                        return Poll::Ready(Chosen::Third(value));
                    }
                    if let Poll::Ready(value) = fourth.as_mut().poll(cx) {
                        return Poll::Ready(Chosen::Fourth(value));
                    }
                    Poll::Pending
                })
                .await
            };
            match chosen {
                $crate::Chosen::Probe => { $crate::probe!($me); }
                $crate::Chosen::Stopped => { $stopped; break; }
                $crate::Chosen::First(value) => { let $p1 = value else $gone; $b1 }
                $crate::Chosen::Second(value) => { let $p2 = value; $b2 }
                $crate::Chosen::Third(value) => { let $p3 = value; $b3 }
                $crate::Chosen::Fourth(value) => { let $p4 = value; $b4 }
            }
        }
    };
}

/// Copies the engine's private fields.
#[macro_export]
macro_rules! probe {
    ($me:ident) => {{
        let mut state = ::world::State::default();
        state.epoch = $me.epoch.get();
        state.tip = $me.tip.get();
        state.safe_tip = $me.safe_tip.get().get();
        (state.seats, state.lo, state.hi) = $me.safe_tip.probe();
        for (height, pending) in &$me.pending {
            let (digest, acks) = match pending {
                Pending::Unverified(acks) => (None, acks),
                Pending::Verified(digest, acks) => (Some(digest.as_ref().to_vec()), acks),
            };
            state.pending.push((height.get(), digest));
            for (epoch, acks) in acks {
                for (signer, ack) in acks {
                    state.acks.push((
                        height.get(),
                        epoch.get(),
                        u64::from(signer.0),
                        ack.item.digest.as_ref().to_vec(),
                        ack.attestation.signature.as_ref().to_vec(),
                    ));
                }
            }
        }
        for (height, certificate) in &$me.confirmed {
            let bytes = ::commonware_codec::Encode::encode(&certificate.certificate).to_vec();
            let digest = certificate.item.digest.as_ref().to_vec();
            state.certified.push((height.get(), digest, bytes));
        }
        for (deadline, height) in $me.rebroadcast_deadlines.iter() {
            state
                .deadlines
                .push((::commonware_runtime::milliseconds(*deadline), height.get()));
        }
        ::world::with(|w| w.state = Some(state));
    }};
}
