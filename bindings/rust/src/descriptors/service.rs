//! Services and their methods.

use super::{by_index, by_position, may_be_deprecated, named, FileDescriptor, MessageDescriptor};
use crate::ffi;
use crate::kinds::Location;
use crate::pool::DescriptorPool;
use crate::shared::held;

type Parent = ServiceDescriptor;

/// A service of a pool.
#[derive(Clone, PartialEq, Eq, Hash)]
pub struct ServiceDescriptor {
    pool: DescriptorPool,
    index: u32,
}

by_index!(ServiceDescriptor, ffi::SERVICE);
named!(ServiceDescriptor);
may_be_deprecated!(ServiceDescriptor);

impl ServiceDescriptor {
    fn info(&self) -> ffi::ServiceInfo {
        held(self.pool.shared.raw.service(self.index))
    }

    /// Its methods, in the order of declaration.
    pub fn methods(
        &self,
    ) -> impl ExactSizeIterator<Item = MethodDescriptor> + DoubleEndedIterator + '_ {
        (0..self.info().methods as u32).map(move |position| MethodDescriptor::new(self, position))
    }

    /// The method with a name.
    ///
    /// # Panics
    /// Where memory was refused.
    #[must_use]
    pub fn get_method_by_name(&self, name: &str) -> Option<MethodDescriptor> {
        let position = self.pool.shared.raw.method_named(self.index, name)?;
        Some(MethodDescriptor::new(self, position))
    }
}

/// A method of a service.
#[derive(Clone, PartialEq, Eq, Hash)]
pub struct MethodDescriptor {
    service: ServiceDescriptor,
    position: u32,
}

by_position!(MethodDescriptor, ffi::METHOD, service);
named!(MethodDescriptor);
may_be_deprecated!(MethodDescriptor);

impl MethodDescriptor {
    fn info(&self) -> ffi::MethodInfo {
        let raw = &self.parent_pool().shared.raw;
        held(raw.method(self.service.index() as u32, self.position))
    }

    /// The service that it stands in.
    #[must_use]
    pub fn parent_service(&self) -> &ServiceDescriptor {
        &self.service
    }

    /// The message that it takes.
    #[must_use]
    pub fn input(&self) -> MessageDescriptor {
        MessageDescriptor::new(self.parent_pool(), self.info().input)
    }

    /// Whether it takes a stream of messages.
    #[must_use]
    pub fn is_client_streaming(&self) -> bool {
        self.info().client_streaming != 0
    }

    /// Whether it gives a stream of messages.
    #[must_use]
    pub fn is_server_streaming(&self) -> bool {
        self.info().server_streaming != 0
    }

    /// The message that it gives.
    #[must_use]
    pub fn output(&self) -> MessageDescriptor {
        MessageDescriptor::new(self.parent_pool(), self.info().output)
    }
}
