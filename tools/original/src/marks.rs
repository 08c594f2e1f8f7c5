//! Scripts of calls on a marked map, and on another that is merged into it, as a row `marks` has them.

use crate::row::Row;
use cfgrammar::markmap::{Entry, MarkMap, MergeBehavior};

type Map = MarkMap<String, u32>;

/// Lines of each call, its result, and the map after it.
pub fn lines(row: &Row) -> Vec<String> {
    let (mut map, mut other, mut lines) = (Map::new(), Map::new(), Vec::new());
    for (word, rest) in &row.lines {
        match word.as_str() {
            "other" => lines.push(format!("    other {rest}: {}", call(&mut other, rest))),
            "call" => {
                lines.push(format!("    {rest}: {}", call(&mut map, rest)));
                add_map(&mut lines, row, &mut map);
            }
            "merge" => {
                let merged = map.merge_from(std::mem::replace(&mut other, Map::new()));
                lines.push(format!(
                    "    merge {rest}: {}",
                    merged.map_or_else(|error| error.to_string(), |()| "()".to_string())
                ));
                add_map(&mut lines, row, &mut map);
            }
            _ => {}
        }
    }
    lines
}

/// Makes a call on a map: its result.
fn call(map: &mut Map, line: &str) -> String {
    let mut words = line.split(' ');
    let (name, word, value) = (words.next(), words.next().unwrap_or(""), words.next().unwrap_or(""));
    let key = word.to_string();
    match name {
        Some("insert") => return format!("{:?}", map.insert(key, value.parse().unwrap_or(0))),
        Some("remove") => return format!("{:?}", map.remove(&key)),
        Some("mark_used") => map.mark_used(&key),
        Some("mark_required") => map.mark_required(&key),
        Some("set_merge_behavior") => map.set_merge_behavior(&key, behavior(value)),
        Some("default") => map.set_default_merge_behavior(behavior(word)),
        _ => return "no such call".to_string(),
    }
    "()".to_string()
}

fn behavior(word: &str) -> MergeBehavior {
    match word {
        "Theirs" => MergeBehavior::Theirs,
        "Ours" => MergeBehavior::Ours,
        _ => MergeBehavior::MutuallyExclusive,
    }
}

/// What each of the row's keys has, and the map's lists.
fn add_map(lines: &mut Vec<String>, row: &Row, map: &mut Map) {
    let watched = row.first("watch").unwrap_or("").split_whitespace();
    lines.push(format!("       {}", watched.map(|key| watched_text(map, key.to_string())).collect::<String>()));
    let keys: String = map.keys().map(|key| format!(" {key:?}")).collect();
    let entries: String = (&*map).into_iter().map(|(key, value)| format!(" {key:?} {value}")).collect();
    let unused: String = map.unused().iter().map(|key| format!(" {key:?}")).collect();
    let missing: String = map.missing().iter().map(|key| format!(" {key:?}")).collect();
    lines.push(format!("        keys{keys}; entries{entries}; unused{unused}; missing{missing}"));
}

fn watched_text(map: &mut Map, key: String) -> String {
    let value = map.get(&key).map_or("-".to_string(), u32::to_string);
    let used = if map.is_used(&key) { " used" } else { "" };
    let required = if map.is_required(&key) { " required" } else { "" };
    let mark = match map.entry(key.clone()) {
        Entry::Occupied(entry) => format!(", mark {}", entry.get_mark()),
        Entry::Vacant(_) => String::new(),
    };
    format!(" [{key:?} {value}{used}{required}{mark}]")
}
