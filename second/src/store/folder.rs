//! Writing the cases to a folder, and comparing the folder with them.

use std::collections::BTreeMap;
use std::fs;
use std::path::Path;

use super::{cases, output, Case};

/// Every file of the folder, by its path in the folder.
fn contents(cases: &[Case]) -> BTreeMap<String, Vec<u8>> {
    let mut files = BTreeMap::new();
    let mut names = String::new();
    let mut text = String::new();
    for case in cases {
        names += &format!("{}\n", case.name);
        text += &output(case);
        files.insert(format!("data/{}", case.name), case.file.clone());
        files.insert(format!("data/{}.ask", case.name), lines(&case.questions));
    }
    files.insert("args".to_string(), names.into_bytes());
    files.insert("stdout".to_string(), text.into_bytes());
    files
}

/// Each line with its end.
fn lines(lines: &[String]) -> Vec<u8> {
    lines.iter().flat_map(|line| format!("{line}\n").into_bytes()).collect()
}

/// Makes the folder anew and answers the number of cases.
pub fn store(folder: &Path) -> Result<usize, String> {
    let cases = cases();
    let data = folder.join("data");
    if data.exists() {
        fs::remove_dir_all(&data).map_err(|error| format!("{}: {error}", data.display()))?;
    }
    fs::create_dir_all(&data).map_err(|error| format!("{}: {error}", data.display()))?;
    for (name, bytes) in contents(&cases) {
        let path = folder.join(name);
        fs::write(&path, bytes).map_err(|error| format!("{}: {error}", path.display()))?;
    }
    Ok(cases.len())
}

/// Answers the number of cases, or names the first file that differs, is
/// missing, or is there without belonging to a case.
pub fn compare(folder: &Path) -> Result<usize, String> {
    let cases = cases();
    let files = contents(&cases);
    for (name, bytes) in &files {
        match fs::read(folder.join(name)) {
            Ok(stored) if stored == *bytes => {}
            Ok(_) => return Err(format!("{name} differs")),
            Err(error) => return Err(format!("{name}: {error}")),
        }
    }
    let data = folder.join("data");
    for entry in fs::read_dir(&data).map_err(|error| format!("data: {error}"))? {
        let entry = entry.map_err(|error| format!("data: {error}"))?;
        let name = format!("data/{}", entry.file_name().to_string_lossy());
        if !files.contains_key(&name) {
            return Err(format!("{name} belongs to no case"));
        }
    }
    Ok(cases.len())
}
