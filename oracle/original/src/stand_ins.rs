//! Written by hand for what the original text names and is not at hand.
//! Nothing here takes part in deriving a sheet.

use crate::base::{NodeProperties, Value, ValueProperties};
use crate::errors::Result;
use crate::Warnable;
use indexmap::map::IndexMap;

/// The one method of the original's trait that the nine components are called by.
pub trait Component {
    fn propagate_property(
        &self,
        privacy_definition: &Option<proto::PrivacyDefinition>,
        public_arguments: IndexMap<crate::base::IndexKey, &Value>,
        properties: NodeProperties,
        node_id: u32,
    ) -> Result<Warnable<ValueProperties>>;
}

/// Names of the generated module: the components have no fields that their
/// `propagate_property` reads.
pub mod proto {
    macro_rules! empty {
        ($($name:ident)*) => { $(#[derive(Clone, Debug)] pub struct $name;)* }
    }

    empty!(Abs Add And Divide Equal GreaterThan LessThan Log Modulo Multiply);
    empty!(Negate Negative Or Power RowMax RowMin Subtract);
    empty!(PrivacyDefinition Function);

    #[derive(Clone, Debug)]
    pub struct FunctionProperties {
        pub releasable: bool,
    }

    pub mod component {
        /// An aggregator's component, here the opaque number of the sheet.
        #[derive(Clone, Debug)]
        pub struct Variant(pub u32);
    }
}

/// The names of `ndarray` that the cut items mention; no component uses them.
pub mod ndarray {
    #[allow(dead_code)]
    #[derive(Clone, Debug)]
    pub struct ArrayD<T>(Vec<T>);

    pub fn arr1<T: Clone>(values: &[T]) -> ArrayD<T> {
        ArrayD(values.to_vec())
    }

    impl<T> ArrayD<T> {
        pub fn into_dyn(self) -> Self {
            self
        }
    }
}
