//! How much memory is free: for the machine by /proc/meminfo, and for the control group that the tool runs in.
//!
//! The number is an estimate of the moment. It keeps the tool from asking for more than there is; it is no promise that
//! nobody else takes the memory meanwhile. Where nothing can be read, as outside of Linux, nothing is known.

use std::fs;
use std::path::{Path, PathBuf};

/// What is left to the rest of the machine, so that the tool does not drive it into the ground.
const RESERVE: u64 = 64 << 20;

/// The bytes that are free for a store, or that it is not known.
pub fn free() -> Option<u64> {
    let machine = fs::read_to_string("/proc/meminfo").ok().and_then(|text| field_of_meminfo(&text, "MemAvailable"));
    let groups = group_folders(&fs::read_to_string("/proc/self/cgroup").unwrap_or_default());
    let least = groups.iter().filter_map(|g| left_in_group(g)).chain(machine).min()?;
    Some(least.saturating_sub(RESERVE))
}

/// A field of /proc/meminfo or of a group's memory.stat, in bytes. Only the former has a unit, which is kB.
fn field_of_meminfo(text: &str, name: &str) -> Option<u64> {
    for line in text.lines() {
        let mut words = line.split_ascii_whitespace();
        if words.next().map(|w| w.trim_end_matches(':')) != Some(name) {
            continue;
        }
        let number: u64 = words.next()?.parse().ok()?;
        return Some(if words.next() == Some("kB") { number.saturating_mul(1024) } else { number });
    }
    None
}

/// The folders that may hold a limit for this process: those of its group and of all groups above, of both kinds of control
/// groups. Within a container the path of the group is often not to be seen, and then the root of the mount is its own group.
fn group_folders(proc_self_cgroup: &str) -> Vec<PathBuf> {
    let mut folders = Vec::new();
    for line in proc_self_cgroup.lines() {
        let mut parts = line.splitn(3, ':');
        let (Some(_), Some(controllers), Some(path)) = (parts.next(), parts.next(), parts.next()) else { continue };
        let roots: &[&str] = match controllers {
            "" => &["/sys/fs/cgroup", "/sys/fs/cgroup/unified"],
            c if c.split(',').any(|name| name == "memory") => &["/sys/fs/cgroup/memory"],
            _ => continue,
        };
        for root in roots {
            let relative = Path::new(path.trim_start_matches('/'));
            folders.extend(relative.ancestors().map(|a| Path::new(root).join(a)));
        }
    }
    folders
}

/// A number in a file of its own. The word `max`, for no limit, is no number.
fn number_in(path: PathBuf) -> Option<u64> {
    fs::read_to_string(path).ok()?.trim().parse().ok()
}

/// What a group may still take: its limit, less what it uses, but for cached files that nobody has touched for a while, which
/// the kernel gives back by itself.
fn left_in_group(folder: &Path) -> Option<u64> {
    let (limit, used) = match number_in(folder.join("memory.max")) {
        Some(limit) => (limit, number_in(folder.join("memory.current"))?),
        None => (number_in(folder.join("memory.limit_in_bytes"))?, number_in(folder.join("memory.usage_in_bytes"))?),
    };
    let stat = fs::read_to_string(folder.join("memory.stat")).unwrap_or_default();
    let cached = field_of_meminfo(&stat, "total_inactive_file").or_else(|| field_of_meminfo(&stat, "inactive_file"));
    Some(limit.saturating_sub(used.saturating_sub(cached.unwrap_or(0))))
}

/// The most memory that this process has had at a time, in bytes, if the system says so.
pub fn peak() -> Option<u64> {
    field_of_meminfo(&fs::read_to_string("/proc/self/status").ok()?, "VmHWM")
}

#[cfg(test)]
mod tests {
    use super::*;

    #[test]
    fn a_field_is_found_with_its_unit() {
        let text = "MemTotal:       100 kB\nMemAvailable:   7 kB\n";
        assert_eq!(field_of_meminfo(text, "MemAvailable"), Some(7168));
        assert_eq!(field_of_meminfo("inactive_file 12\n", "inactive_file"), Some(12));
        assert_eq!(field_of_meminfo(text, "Mem"), None);
    }

    #[test]
    fn the_groups_above_are_looked_at_too() {
        let folders = group_folders("4:memory:/a/b\n3:cpu:/c\n0::/d\n");
        let expected = [
            "/sys/fs/cgroup/memory/a/b",
            "/sys/fs/cgroup/memory/a",
            "/sys/fs/cgroup/memory/",
            "/sys/fs/cgroup/d",
            "/sys/fs/cgroup/",
            "/sys/fs/cgroup/unified/d",
            "/sys/fs/cgroup/unified/",
        ];
        assert_eq!(folders, expected.map(PathBuf::from));
    }

    /// A folder as a control group has it, with files of these names and texts.
    fn group(name: &str, files: &[(&str, &str)]) -> PathBuf {
        let folder = std::env::temp_dir().join(format!("proofscale-group-{}-{name}", std::process::id()));
        fs::create_dir_all(&folder).expect("a folder can be made");
        files.iter().for_each(|(file, text)| fs::write(folder.join(file), text).expect("a file can be made"));
        folder
    }

    #[test]
    fn a_group_has_its_limit_less_what_it_uses() {
        let stat = ("memory.stat", "anon 5\ninactive_file 30\n");
        let new = group("new", &[("memory.max", "1000\n"), ("memory.current", "400\n"), stat]);
        assert_eq!(left_in_group(&new), Some(630));
        let open = group("open", &[("memory.max", "max\n"), ("memory.current", "400\n"), stat]);
        assert_eq!(left_in_group(&open), None);
        let old = group("old", &[("memory.limit_in_bytes", "1000\n"), ("memory.usage_in_bytes", "1400\n")]);
        assert_eq!(left_in_group(&old), Some(0));
        [new, open, old].iter().for_each(|folder| fs::remove_dir_all(folder).expect("the folder can be removed"));
    }

    #[test]
    fn something_is_free_here() {
        assert!(free().is_some_and(|bytes| bytes > 0));
    }
}
