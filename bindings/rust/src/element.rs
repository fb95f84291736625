use crate::{raw, Refused};

/// A ring element by value: sixty-four coefficients, lowest power first, those past d zero.
///
/// ```
/// use lizkarg::Element;
///
/// let x = Element::new([1, 2]);
/// assert_eq!(x.multiply(2, x)?, Element::new([-3, 4]));
/// assert_eq!(Element::X.multiply(2, Element::X)?, Element::new([-1]));
/// # Ok::<(), lizkarg::Refused>(())
/// ```
#[repr(C)]
#[derive(Clone, Copy, Debug, PartialEq, Eq, Hash)]
pub struct Element {
    /// The coefficients, each from -2147483598 to 2147483598.
    pub coefficients: [i32; 64],
}

impl Element {
    /// 0.
    pub const ZERO: Element = Element::new([]);
    /// 1.
    pub const ONE: Element = Element::new([1]);
    /// X.
    pub const X: Element = Element::new([0, 1]);

    /// The element with these coefficients, and zeros after them. More than sixty-four do not compile.
    #[must_use]
    pub const fn new<const N: usize>(lowest: [i32; N]) -> Element {
        const { assert!(N <= 64, "an element has sixty-four coefficients") };
        let mut coefficients = [0; 64];
        let mut i = 0;
        while i < N {
            coefficients[i] = lowest[i];
            i += 1;
        }
        Element { coefficients }
    }

    /// The product in `Z_q[X]/(X^d+1)`.
    ///
    /// # Errors
    /// Refused 1 (the degree), 8 (a coefficient out of range, or not zero past d).
    pub fn multiply(self, d: usize, other: Element) -> Result<Element, Refused> {
        let product = raw::lizkarg_multiply(d, self, other);
        product.answer.written().map(|()| product.element)
    }
}
