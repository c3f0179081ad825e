//! The wider edition of names: how it is opened, and the questions that only it has.

use crate::{
    DataIndex, ElementIndex, FunctionIndex, GlobalIndex, LabelIndex, MemoryIndex, Module, Name,
    NamePayload, Refusal, TableIndex, Wider,
};

impl<'a> NamePayload<'a, Wider> {
    /// Takes any bytes in the wider edition of names, and checks nothing.
    ///
    /// ```
    /// use wakemiono::NamePayload;
    ///
    /// let no_globals = NamePayload::wider(&[0x07, 0x01, 0x00]);
    /// assert_eq!(no_globals.to_canonical()?, []);
    /// # Ok::<(), wakemiono::Refusal>(())
    /// ```
    #[must_use]
    pub const fn wider(payload: &'a [u8]) -> NamePayload<'a, Wider> {
        NamePayload::in_edition(payload)
    }

    /// The name of a label in a function.
    ///
    /// ```
    /// use wakemiono::{FunctionIndex, LabelIndex, NamePayload};
    ///
    /// let payload = NamePayload::wider(&[0x03, 0x06, 0x01, 0x03, 0x01, 0x02, 0x01, 0x6C]);
    /// let name = payload.label_name(FunctionIndex(3), LabelIndex(2))?;
    /// assert_eq!(name.unwrap().to_str(), Ok("l"));
    /// # Ok::<(), wakemiono::Refusal>(())
    /// ```
    ///
    /// # Errors
    ///
    /// As [`judge`](Self::judge).
    pub fn label_name(
        &self,
        function: FunctionIndex,
        label: LabelIndex,
    ) -> Result<Option<Name<'a>>, Refusal> {
        self.name(Wider::label_name(self.as_bytes(), function.0, label.0))
    }

    /// A table's name.
    ///
    /// ```
    /// use wakemiono::{NamePayload, TableIndex};
    ///
    /// let payload = NamePayload::wider(&[0x05, 0x04, 0x01, 0x00, 0x01, 0x74]);
    /// assert_eq!(payload.table_name(TableIndex(0))?.unwrap().to_str(), Ok("t"));
    /// # Ok::<(), wakemiono::Refusal>(())
    /// ```
    ///
    /// # Errors
    ///
    /// As [`judge`](Self::judge).
    pub fn table_name(&self, table: TableIndex) -> Result<Option<Name<'a>>, Refusal> {
        self.name(Wider::table_name(self.as_bytes(), table.0))
    }

    /// A memory's name.
    ///
    /// ```
    /// use wakemiono::{MemoryIndex, NamePayload};
    ///
    /// let payload = NamePayload::wider(&[0x06, 0x04, 0x01, 0x00, 0x01, 0x6D]);
    /// assert_eq!(payload.memory_name(MemoryIndex(0))?.unwrap().to_str(), Ok("m"));
    /// # Ok::<(), wakemiono::Refusal>(())
    /// ```
    ///
    /// # Errors
    ///
    /// As [`judge`](Self::judge).
    pub fn memory_name(&self, memory: MemoryIndex) -> Result<Option<Name<'a>>, Refusal> {
        self.name(Wider::memory_name(self.as_bytes(), memory.0))
    }

    /// A global's name.
    ///
    /// ```
    /// use wakemiono::{GlobalIndex, NamePayload};
    ///
    /// let payload = NamePayload::wider(&[0x07, 0x04, 0x01, 0x03, 0x01, 0x67]);
    /// assert_eq!(payload.global_name(GlobalIndex(3))?.unwrap().to_str(), Ok("g"));
    /// assert_eq!(payload.global_name(GlobalIndex(0))?, None);
    /// # Ok::<(), wakemiono::Refusal>(())
    /// ```
    ///
    /// # Errors
    ///
    /// As [`judge`](Self::judge).
    pub fn global_name(&self, global: GlobalIndex) -> Result<Option<Name<'a>>, Refusal> {
        self.name(Wider::global_name(self.as_bytes(), global.0))
    }

    /// An element segment's name.
    ///
    /// ```
    /// use wakemiono::{ElementIndex, NamePayload};
    ///
    /// let payload = NamePayload::wider(&[0x08, 0x04, 0x01, 0x01, 0x01, 0x65]);
    /// assert_eq!(payload.element_name(ElementIndex(1))?.unwrap().to_str(), Ok("e"));
    /// # Ok::<(), wakemiono::Refusal>(())
    /// ```
    ///
    /// # Errors
    ///
    /// As [`judge`](Self::judge).
    pub fn element_name(&self, element: ElementIndex) -> Result<Option<Name<'a>>, Refusal> {
        self.name(Wider::element_name(self.as_bytes(), element.0))
    }

    /// A data segment's name.
    ///
    /// ```
    /// use wakemiono::{DataIndex, NamePayload};
    ///
    /// let payload = NamePayload::wider(&[0x09, 0x04, 0x01, 0x01, 0x01, 0x64]);
    /// assert_eq!(payload.data_name(DataIndex(1))?.unwrap().to_str(), Ok("d"));
    /// # Ok::<(), wakemiono::Refusal>(())
    /// ```
    ///
    /// # Errors
    ///
    /// As [`judge`](Self::judge).
    pub fn data_name(&self, data: DataIndex) -> Result<Option<Name<'a>>, Refusal> {
        self.name(Wider::data_name(self.as_bytes(), data.0))
    }
}

impl<'a> Module<'a, Wider> {
    /// Takes any bytes, for names in the wider edition, and checks nothing.
    ///
    /// ```
    /// use wakemiono::{GlobalIndex, Module};
    ///
    /// let module = Module::wider(b"\0asm\x01\0\0\0\x00\x0B\x04name\x07\x04\x01\x03\x01g");
    /// let names = module.names()?.unwrap(); // in the wider edition too
    /// assert_eq!(names.global_name(GlobalIndex(3))?.unwrap().to_str(), Ok("g"));
    /// # Ok::<(), wakemiono::Refusal>(())
    /// ```
    #[must_use]
    pub const fn wider(module: &'a [u8]) -> Module<'a, Wider> {
        Module::in_edition(module)
    }

    /// The name of a label in a function; none also without a `name` section.
    ///
    /// ```
    /// use wakemiono::{FunctionIndex, LabelIndex, Module};
    ///
    /// let module = Module::wider(b"\0asm\x01\0\0\0\x00\x0D\x04name\x03\x06\x01\x03\x01\x02\x01l");
    /// let name = module.label_name(FunctionIndex(3), LabelIndex(2))?;
    /// assert_eq!(name.unwrap().to_str(), Ok("l"));
    /// # Ok::<(), wakemiono::Refusal>(())
    /// ```
    ///
    /// # Errors
    ///
    /// As [`module_name`](Self::module_name).
    pub fn label_name(
        &self,
        function: FunctionIndex,
        label: LabelIndex,
    ) -> Result<Option<Name<'a>>, Refusal> {
        self.name(Wider::label_name_in(self.as_bytes(), function.0, label.0))
    }

    /// A table's name; none also without a `name` section.
    ///
    /// ```
    /// use wakemiono::{Module, TableIndex};
    ///
    /// let module = Module::wider(b"\0asm\x01\0\0\0\x00\x0B\x04name\x05\x04\x01\x00\x01t");
    /// assert_eq!(module.table_name(TableIndex(0))?.unwrap().to_str(), Ok("t"));
    /// # Ok::<(), wakemiono::Refusal>(())
    /// ```
    ///
    /// # Errors
    ///
    /// As [`module_name`](Self::module_name).
    pub fn table_name(&self, table: TableIndex) -> Result<Option<Name<'a>>, Refusal> {
        self.name(Wider::table_name_in(self.as_bytes(), table.0))
    }

    /// A memory's name; none also without a `name` section.
    ///
    /// ```
    /// use wakemiono::{MemoryIndex, Module};
    ///
    /// let module = Module::wider(b"\0asm\x01\0\0\0\x00\x0B\x04name\x06\x04\x01\x00\x01m");
    /// assert_eq!(module.memory_name(MemoryIndex(0))?.unwrap().to_str(), Ok("m"));
    /// # Ok::<(), wakemiono::Refusal>(())
    /// ```
    ///
    /// # Errors
    ///
    /// As [`module_name`](Self::module_name).
    pub fn memory_name(&self, memory: MemoryIndex) -> Result<Option<Name<'a>>, Refusal> {
        self.name(Wider::memory_name_in(self.as_bytes(), memory.0))
    }

    /// A global's name; none also without a `name` section.
    ///
    /// ```
    /// use wakemiono::{GlobalIndex, Module};
    ///
    /// let module = Module::wider(b"\0asm\x01\0\0\0\x00\x0B\x04name\x07\x04\x01\x03\x01g");
    /// assert_eq!(module.global_name(GlobalIndex(3))?.unwrap().to_str(), Ok("g"));
    /// # Ok::<(), wakemiono::Refusal>(())
    /// ```
    ///
    /// # Errors
    ///
    /// As [`module_name`](Self::module_name).
    pub fn global_name(&self, global: GlobalIndex) -> Result<Option<Name<'a>>, Refusal> {
        self.name(Wider::global_name_in(self.as_bytes(), global.0))
    }

    /// An element segment's name; none also without a `name` section.
    ///
    /// ```
    /// use wakemiono::{ElementIndex, Module};
    ///
    /// let module = Module::wider(b"\0asm\x01\0\0\0\x00\x0B\x04name\x08\x04\x01\x01\x01e");
    /// assert_eq!(module.element_name(ElementIndex(1))?.unwrap().to_str(), Ok("e"));
    /// # Ok::<(), wakemiono::Refusal>(())
    /// ```
    ///
    /// # Errors
    ///
    /// As [`module_name`](Self::module_name).
    pub fn element_name(&self, element: ElementIndex) -> Result<Option<Name<'a>>, Refusal> {
        self.name(Wider::element_name_in(self.as_bytes(), element.0))
    }

    /// A data segment's name; none also without a `name` section.
    ///
    /// ```
    /// use wakemiono::{DataIndex, Module};
    ///
    /// let module = Module::wider(b"\0asm\x01\0\0\0\x00\x0B\x04name\x09\x04\x01\x01\x01d");
    /// assert_eq!(module.data_name(DataIndex(1))?.unwrap().to_str(), Ok("d"));
    /// # Ok::<(), wakemiono::Refusal>(())
    /// ```
    ///
    /// # Errors
    ///
    /// As [`module_name`](Self::module_name).
    pub fn data_name(&self, data: DataIndex) -> Result<Option<Name<'a>>, Refusal> {
        self.name(Wider::data_name_in(self.as_bytes(), data.0))
    }
}
