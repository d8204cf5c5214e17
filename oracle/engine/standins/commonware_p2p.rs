//! Stand-in for `commonware_p2p`: messages come from the driver, what is sent and who is blocked
//! is noted as output.

use commonware_cryptography::PublicKey;

pub enum Recipients {
    All,
}

/// Blocks a peer.
pub trait Blocker: 'static {
    type PublicKey: PublicKey;

    fn block(&mut self, key: Self::PublicKey);
}

/// Sends bytes to all.
pub trait Sender: 'static {
    type PublicKey: PublicKey;

    fn send(&mut self, bytes: &[u8]);
}

/// Gives the bytes that the driver feeds, with their sender.
pub trait Receiver: 'static {
    type PublicKey: PublicKey;

    fn take(&mut self) -> Option<(Self::PublicKey, Vec<u8>)>;
}

#[macro_export]
macro_rules! block {
    ($blocker:expr, $key:expr, ?$err:ident, $what:literal) => {{
        ::world::said($what, format!("{:?}", $err));
        $crate::Blocker::block(&mut $blocker, $key);
    }};
}

pub mod utils {
    pub mod codec {
        use crate::{Receiver, Recipients, Sender};
        use commonware_codec::{Encode, Error, Read, decode};
        use std::future::{Future, poll_fn};
        use std::marker::PhantomData;
        use std::task::Poll;

        pub struct WrappedSender<S, V>(S, PhantomData<V>);
        pub struct WrappedReceiver<R, V>(R, PhantomData<V>);

        pub fn wrap<S, R, V>(
            _: (),
            sender: S,
            receiver: R,
        ) -> (WrappedSender<S, V>, WrappedReceiver<R, V>) {
            (
                WrappedSender(sender, PhantomData),
                WrappedReceiver(receiver, PhantomData),
            )
        }

        impl<S: Sender, V: Encode> WrappedSender<S, V> {
            pub fn send(&mut self, _: Recipients, value: V, _priority: bool) {
                self.0.send(&value.encode());
            }
        }

        type Received<K, V> = Result<(K, Result<V, Error>), ()>;

        impl<R: Receiver, V: Read<Cfg = ()>> WrappedReceiver<R, V> {
            pub fn recv(&mut self) -> impl Future<Output = Received<R::PublicKey, V>> {
                poll_fn(|_| match self.0.take() {
                    Some((key, bytes)) => Poll::Ready(Ok((key, decode(&bytes, &())))),
                    None => Poll::Pending,
                })
            }
        }
    }
}
