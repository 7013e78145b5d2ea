use std::fmt;

/// A call of the library. Displayed by documents 01's and 02's name of it.
#[derive(Clone, Copy, Debug, PartialEq, Eq, Hash)]
#[non_exhaustive]
pub enum Call {
    /// [`read`](crate::read)
    Read,
    /// [`list_marks`](crate::list_marks)
    ListMarks,
    /// [`open`](crate::open)
    Open,
    /// [`strike`](crate::strike())
    Strike,
    /// [`settle`](crate::settle)
    Settle,
    /// [`judge`](crate::judge)
    Judge,
    /// [`import`](crate::import) and [`imported`](crate::imported)
    Import,
    /// [`export`](crate::export) and [`exported`](crate::exported)
    Export,
    /// [`check_plant`](crate::check_plant)
    CheckPlant,
    /// [`draw_plant`](crate::draw_plant) and [`drawn_plant`](crate::drawn_plant)
    DrawPlant,
}

impl Call {
    /// All of them, in the documents' order.
    pub const ALL: [Call; 10] = [
        Call::Read,
        Call::ListMarks,
        Call::Open,
        Call::Strike,
        Call::Settle,
        Call::Judge,
        Call::Import,
        Call::Export,
        Call::CheckPlant,
        Call::DrawPlant,
    ];
}

impl fmt::Display for Call {
    fn fmt(&self, f: &mut fmt::Formatter<'_>) -> fmt::Result {
        f.write_str(match self {
            Call::Read => "read",
            Call::ListMarks => "list marks",
            Call::Open => "open",
            Call::Strike => "strike",
            Call::Settle => "settle",
            Call::Judge => "judge",
            Call::Import => "import",
            Call::Export => "export",
            Call::CheckPlant => "check plant",
            Call::DrawPlant => "draw plant",
        })
    }
}
