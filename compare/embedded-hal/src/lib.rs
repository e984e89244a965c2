//! Stand-in for the crate embedded-hal: the part of its `i2c` module that the driver implements.

pub mod i2c {
    use core::fmt::Debug;

    pub type SevenBitAddress = u8;
    pub type TenBitAddress = u16;

    /// Why a transaction failed, whatever the driver.
    #[derive(Clone, Copy, Debug, PartialEq, Eq)]
    pub enum ErrorKind {
        Bus,
        ArbitrationLoss,
        NoAcknowledge(NoAcknowledgeSource),
        Other,
    }

    /// What was not acknowledged. The driver never knows.
    #[derive(Clone, Copy, Debug, PartialEq, Eq)]
    pub enum NoAcknowledgeSource {
        Unknown,
    }

    pub trait Error: Debug {
        fn kind(&self) -> ErrorKind;
    }

    pub trait ErrorType {
        type Error: Error;
    }

    /// One part of a transaction, with the bytes lent for it.
    #[derive(Debug)]
    pub enum Operation<'a> {
        Read(&'a mut [u8]),
        Write(&'a [u8]),
    }

    /// A controller that reaches targets by addresses of type `A`.
    pub trait I2c<A>: ErrorType {
        fn transaction(
            &mut self,
            address: A,
            operations: &mut [Operation<'_>],
        ) -> Result<(), Self::Error>;
    }
}
