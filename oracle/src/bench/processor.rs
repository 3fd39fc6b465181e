//! The processor, in the system's words.

const FIELDS: [&str; 5] = ["model name", "vendor_id", "cpu family", "model", "stepping"];

/// Its name, and the numbers that tell it from others of that name: what there is of it.
pub fn processor() -> String {
    let info = std::fs::read_to_string("/proc/cpuinfo").unwrap_or_default();
    let said = FIELDS.iter().filter_map(|field| {
        let mut pairs = info.lines().filter_map(|line| line.split_once(':'));
        let (_, value) = pairs.find(|(name, _)| name.trim() == *field)?;
        Some(format!("{field} {}", value.trim()))
    });
    let said: Vec<String> = said.collect();
    if said.is_empty() {
        "not named".to_string()
    } else {
        said.join(", ")
    }
}
