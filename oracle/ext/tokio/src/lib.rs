//! forced: frame.rs names these four traits, `read_exact` and `write_all`. Chosen: all bytes are there at once, and a `Vec`
//! takes all that it is given, so that nothing waits.
pub mod io {
    use std::future::Future;
    use std::io::{Read, Result, Write};

    pub trait AsyncRead {
        fn fill(&mut self, buffer: &mut [u8]) -> Result<()>;
    }

    impl AsyncRead for &[u8] {
        fn fill(&mut self, buffer: &mut [u8]) -> Result<()> {
            Read::read_exact(self, buffer)
        }
    }

    pub trait AsyncReadExt: AsyncRead {
        fn read_exact(&mut self, buffer: &mut [u8]) -> impl Future<Output = Result<usize>> + Send
        where
            Self: Send,
        {
            async move {
                self.fill(buffer)?;
                Ok(buffer.len())
            }
        }
    }

    impl<R: AsyncRead + ?Sized> AsyncReadExt for R {}

    pub trait AsyncWrite {
        fn take(&mut self, bytes: &[u8]) -> Result<()>;
    }

    impl AsyncWrite for Vec<u8> {
        fn take(&mut self, bytes: &[u8]) -> Result<()> {
            Write::write_all(self, bytes)
        }
    }

    pub trait AsyncWriteExt: AsyncWrite {
        fn write_all(&mut self, bytes: &[u8]) -> impl Future<Output = Result<()>> + Send
        where
            Self: Send,
        {
            async move { self.take(bytes) }
        }
    }

    impl<W: AsyncWrite + ?Sized> AsyncWriteExt for W {}
}
