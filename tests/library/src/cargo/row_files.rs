//! Files in memory, for rows.
use cc2_base::files::FileTable;
use std::alloc::Global;
use std::test::Fail;

/// Files at paths, each with its text.
pub(crate) fn files(alloc: Global, texts: &[(&str, &str)]) -> Result<FileTable, Fail> {
    let mut files = FileTable::new(alloc);
    for (path, text) in texts {
        let path = String::from_str(alloc, path)?;
        let content = String::from_str(alloc, text)?.into_bytes();
        files.put(path, Some(content))?;
    }
    Ok(files)
}
