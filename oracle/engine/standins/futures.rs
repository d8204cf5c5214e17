//! Stand-in for `futures`: two futures of which one stands, and one that never ends.

pub mod future {
    use std::future::Future;
    use std::pin::Pin;
    use std::task::{Context, Poll};

    pub use std::future::pending;

    pub enum Either<A, B> {
        Left(A),
        Right(B),
    }

    impl<A: Future + Unpin, B: Future<Output = A::Output> + Unpin> Future for Either<A, B> {
        type Output = A::Output;

        fn poll(self: Pin<&mut Self>, cx: &mut Context<'_>) -> Poll<A::Output> {
            match self.get_mut() {
                Self::Left(a) => Pin::new(a).poll(cx),
                Self::Right(b) => Pin::new(b).poll(cx),
            }
        }
    }
}
