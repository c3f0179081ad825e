//! One type for each index space, for the offsets of each edition of hints, and for the customers and
//! holds of a shared table, so that none is taken for another.

use std::fmt;

macro_rules! number {
    ($(#[$doc:meta])* $name:ident) => {
        $(#[$doc])*
        #[derive(Clone, Copy, Debug, PartialEq, Eq, PartialOrd, Ord, Hash)]
        #[repr(transparent)] // so that a list of them is lent to the library as it is
        pub struct $name(pub u32);

        impl From<u32> for $name {
            fn from(number: u32) -> $name {
                $name(number)
            }
        }

        impl fmt::Display for $name {
            fn fmt(&self, f: &mut fmt::Formatter<'_>) -> fmt::Result {
                fmt::Display::fmt(&self.0, f)
            }
        }
    };
}

number! {
    /// Which function of a module, counted from 0 with its imported functions first.
    ///
    /// ```
    /// use wakemiono::FunctionIndex;
    ///
    /// assert_eq!(FunctionIndex(3).to_string(), "3");
    /// assert!(FunctionIndex::from(3) < FunctionIndex(4));
    /// ```
    ///
    /// No other number is taken for it:
    ///
    /// ```compile_fail,E0308
    /// use wakemiono::{LocalIndex, NamePayload};
    ///
    /// NamePayload::new(&[]).function_name(LocalIndex(3));
    /// ```
    FunctionIndex
}

number! {
    /// Which local of a function, counted from 0 with its parameters first.
    ///
    /// ```
    /// use wakemiono::LocalIndex;
    ///
    /// assert_eq!(LocalIndex::from(7).0, 7);
    /// ```
    LocalIndex
}

number! {
    /// Which label of a function, counted from 0.
    ///
    /// ```
    /// use wakemiono::LabelIndex;
    ///
    /// assert_eq!(LabelIndex::from(2).0, 2);
    /// ```
    LabelIndex
}

number! {
    /// Which type of a module, counted from 0.
    ///
    /// ```
    /// use wakemiono::TypeIndex;
    ///
    /// assert_eq!(format!("{:?}", TypeIndex(2)), "TypeIndex(2)");
    /// ```
    TypeIndex
}

number! {
    /// Which field of a type, counted from 0.
    ///
    /// ```
    /// use wakemiono::FieldIndex;
    ///
    /// assert_eq!(FieldIndex(1), FieldIndex::from(1));
    /// ```
    FieldIndex
}

number! {
    /// Which table of a module, counted from 0 with its imported tables first.
    ///
    /// ```
    /// use wakemiono::TableIndex;
    ///
    /// assert_eq!(TableIndex(1).to_string(), "1");
    /// ```
    TableIndex
}

number! {
    /// Which memory of a module, counted from 0 with its imported memories first.
    ///
    /// ```
    /// use wakemiono::MemoryIndex;
    ///
    /// assert_eq!(MemoryIndex::from(0), MemoryIndex(0));
    /// ```
    MemoryIndex
}

number! {
    /// Which global of a module, counted from 0 with its imported globals first.
    ///
    /// ```
    /// use wakemiono::GlobalIndex;
    ///
    /// assert!(GlobalIndex(2) < GlobalIndex(3));
    /// ```
    GlobalIndex
}

number! {
    /// Which element segment of a module, counted from 0.
    ///
    /// ```
    /// use wakemiono::ElementIndex;
    ///
    /// assert_eq!(format!("{:?}", ElementIndex(4)), "ElementIndex(4)");
    /// ```
    ElementIndex
}

number! {
    /// Which data segment of a module, counted from 0.
    ///
    /// ```
    /// use wakemiono::DataIndex;
    ///
    /// assert_eq!(format!("{:>3}", DataIndex(5)), "  5");
    /// ```
    DataIndex
}

number! {
    /// Which tag of a module, counted from 0.
    ///
    /// ```
    /// use wakemiono::TagIndex;
    ///
    /// assert_eq!(TagIndex(0).max(TagIndex(5)), TagIndex(5));
    /// ```
    TagIndex
}

number! {
    /// A place in a function's code, in bytes from where its declaration of locals starts, as code
    /// metadata counts it.
    ///
    /// ```
    /// use wakemiono::CodeOffset;
    ///
    /// assert_eq!(format!("{:>4}", CodeOffset(17)), "  17");
    /// ```
    CodeOffset
}

number! {
    /// A place in a function's code, in bytes from its first instruction, as the older edition of
    /// hints counts it.
    ///
    /// ```
    /// use wakemiono::InstructionOffset;
    ///
    /// assert_eq!(InstructionOffset::from(17).to_string(), "17");
    /// ```
    ///
    /// It is not taken for a place that counts from the locals, nor that for it:
    ///
    /// ```compile_fail,E0308
    /// use wakemiono::{FunctionIndex, Hints, InstructionOffset};
    ///
    /// Hints::new(&[]).hint(FunctionIndex(3), InstructionOffset(17));
    /// ```
    ///
    /// ```compile_fail,E0308
    /// use wakemiono::{CodeOffset, FunctionIndex, OldHints};
    ///
    /// OldHints::new(&[]).hint(FunctionIndex(3), CodeOffset(17));
    /// ```
    InstructionOffset
}

number! {
    /// Which customer of a [`SharedTable`](crate::SharedTable): 0 to 15. Any number may be given, and
    /// one above 15 is refused as [`NoCustomer`](crate::Reason::NoCustomer).
    ///
    /// ```
    /// use wakemiono::{Customer, NamePayload, Reason, SharedTable};
    ///
    /// let mut table = SharedTable::new(1)?;
    /// assert!(table.open(Customer(15), NamePayload::new(&[])).is_ok());
    /// let refusal = table.open(Customer(16), NamePayload::new(&[])).unwrap_err();
    /// assert_eq!(refusal.reason(), Reason::NoCustomer);
    /// # Ok::<(), wakemiono::Refusal>(())
    /// ```
    Customer
}

number! {
    /// Which hold of a customer: 0 to 7. [`SharedTable::open`](crate::SharedTable::open) gives it, and
    /// it is that customer's alone, up to its close. Any number may be given, and one that is not open
    /// is refused as [`HoldNotOpen`](crate::Reason::HoldNotOpen).
    ///
    /// ```
    /// use wakemiono::{Customer, Hold, NamePayload, SharedTable};
    ///
    /// let mut table = SharedTable::new(1)?;
    /// let hold = table.open(Customer(2), NamePayload::new(&[]))?;
    /// assert_eq!(hold, Hold(0));
    /// assert_eq!(table.close(Customer(3), hold).unwrap_err().number(), 24);
    /// # Ok::<(), wakemiono::Refusal>(())
    /// ```
    ///
    /// It is not taken for a customer, nor that for it:
    ///
    /// ```compile_fail,E0308
    /// use wakemiono::{Customer, Hold, SharedTable};
    ///
    /// SharedTable::new(1)?.close(Hold(0), Customer(2));
    /// # Ok::<(), wakemiono::Refusal>(())
    /// ```
    Hold
}
