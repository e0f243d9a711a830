//! Views as values, as bytes and in loops.
use crate::ReadError;
use crate::parts::spa_view::whole_bytes;
use crate::pod::{Pod, PodObject, PodObjectIter, PodProp, PodStruct, PodStructIter, Value};

impl<'a> Pod<'a> {
    /// The whole pod: header, body and padding, as readers want it. [`as_bytes`](Pod::as_bytes) is without the padding.
    #[must_use]
    pub fn padded_bytes(&self) -> &'a [u8] {
        whole_bytes(self)
    }

    /// The value of the pod.
    ///
    /// ```
    /// use spa_pod::pod::{Pod, Value};
    /// use spa_pod::utils::Id;
    ///
    /// let id = [4, 0, 0, 0, 3, 0, 0, 0, 7, 0, 0, 0, 0, 0, 0, 0];
    /// let pod = Pod::from_bytes(&id).ok_or("no pod")?;
    /// assert_eq!(pod.to_value()?, Value::Id(Id(7)));
    /// # Ok::<(), Box<dyn std::error::Error>>(())
    /// ```
    ///
    /// # Errors
    /// Those of [`read`](crate::read), whose bytes are counted from the pod's first one.
    pub fn to_value(&self) -> Result<Value, ReadError> {
        Ok(crate::read(self.padded_bytes())?.0)
    }
}

impl PodProp<'_> {
    /// The value of the property.
    ///
    /// # Errors
    /// Those of [`Pod::to_value`].
    pub fn to_value(&self) -> Result<Value, ReadError> {
        self.value().to_value()
    }
}

impl<'a> PodProp<'a> {
    /// The whole property: key, flags, and its value's pod with the padding.
    #[must_use]
    pub const fn padded_bytes(&self) -> &'a [u8] {
        self.bytes
    }
}

impl PodObject<'_> {
    /// The value of the object.
    ///
    /// # Errors
    /// Those of [`Pod::to_value`].
    pub fn to_value(&self) -> Result<Value, ReadError> {
        self.as_pod().to_value()
    }
}

impl TryFrom<Pod<'_>> for Value {
    type Error = ReadError;

    fn try_from(pod: Pod<'_>) -> Result<Value, ReadError> {
        pod.to_value()
    }
}

/// The properties or the members in order, up to the first that isn't whole.
macro_rules! gone_through {
    ($($view:ident: $item:ident, $iter:ident, $call:ident;)*) => { $(
        impl<'a> $view<'a> {
            #[doc = concat!("The same iterator as that of [`", stringify!($call), "`](Self::", stringify!($call), ").")]
            #[must_use]
            pub fn iter(&self) -> $iter<'a> {
                self.$call()
            }
        }

        impl<'a> IntoIterator for $view<'a> {
            type Item = $item<'a>;
            type IntoIter = $iter<'a>;

            fn into_iter(self) -> $iter<'a> {
                self.$call()
            }
        }

        impl<'a> IntoIterator for &$view<'a> {
            type Item = $item<'a>;
            type IntoIter = $iter<'a>;

            fn into_iter(self) -> $iter<'a> {
                self.$call()
            }
        }
    )* };
}

gone_through! {
    PodObject: PodProp, PodObjectIter, props;
    PodStruct: Pod, PodStructIter, fields;
}
