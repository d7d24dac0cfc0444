//! The pages of the repository: every link leads somewhere, and the first page stays short.

use std::fs;
use std::path::{Path, PathBuf};

fn root() -> PathBuf {
    Path::new(env!("CARGO_MANIFEST_DIR")).join("../..").canonicalize().expect("the repository")
}

/// The pages, those of the crates aside.
fn pages() -> Vec<PathBuf> {
    let root = root();
    let mut pages = vec![root.join("README.md"), root.join("host/README.md")];
    for folder in ["docs", "docs/landings"] {
        let entries =
            fs::read_dir(root.join(folder)).expect("a folder").map(|entry| entry.expect("a file").path());
        pages.extend(entries.filter(|path| path.extension().is_some_and(|extension| extension == "md")));
    }
    pages.sort();
    pages
}

/// The lines outside of blocks of code.
fn prose(text: &str) -> impl Iterator<Item = &str> {
    let mut code = false;
    text.lines().filter(move |line| {
        let fence = line.starts_with("```");
        code ^= fence;
        !code && !fence && !line.starts_with("    ")
    })
}

/// What stands in the round brackets behind square ones.
fn links(text: &str) -> Vec<String> {
    let target = |piece: &str| piece.split_once(')').map(|(target, _)| target.to_string());
    prose(text).flat_map(|line| line.split("](").skip(1).filter_map(target).collect::<Vec<_>>()).collect()
}

/// The anchors of a page's headings, as readers of Markdown make them.
fn anchors(text: &str) -> Vec<String> {
    let anchor = |heading: &str| {
        let kept = |letter: &char| letter.is_alphanumeric() || " -_".contains(*letter);
        heading.trim().to_lowercase().chars().filter(kept).collect::<String>().replace(' ', "-")
    };
    prose(text)
        .filter(|line| line.starts_with('#'))
        .map(|line| anchor(line.trim_start_matches('#')))
        .collect()
}

/// What is wrong with a link of a page, if anything is.
fn broken(page: &Path, link: &str) -> Option<String> {
    if link.starts_with("http") {
        return None;
    }
    let (file, anchor) = link.split_once('#').map_or((link, None), |(file, anchor)| (file, Some(anchor)));
    let target = if file.is_empty() { page.to_path_buf() } else { page.parent()?.join(file) };
    let told = |what: &str| Some(format!("{}: {link} {what}", page.display()));
    if !target.exists() {
        return told("leads nowhere");
    }
    let anchor = anchor?;
    let text = fs::read_to_string(&target).ok()?;
    if anchors(&text).iter().any(|known| known == anchor) {
        return None;
    }
    told("has no such heading")
}

#[test]
fn every_link_leads_somewhere() {
    let mut count = 0;
    let mut wrong = Vec::new();
    for page in pages() {
        for link in links(&fs::read_to_string(&page).expect("a page")) {
            count += 1;
            wrong.extend(broken(&page, &link));
        }
    }
    assert!(wrong.is_empty(), "{}", wrong.join("\n"));
    assert!(count > 80, "only {count} links were found");
}

#[test]
fn broken_links_are_told() {
    let page = root().join("README.md");
    assert!(broken(&page, "docs/NOWHERE.md").is_some());
    assert!(broken(&page, "docs/CALLS.md#nowhere").is_some());
    assert!(broken(&page, "#nowhere").is_some());
    assert_eq!(broken(&page, "docs/CALLS.md#the-table-in-bytes"), None);
    assert_eq!(
        anchors("# What a call's `value` is, in (C)\n```\n# no heading\n```"),
        ["what-a-calls-value-is-in-c"]
    );
    assert_eq!(links("[one](a.md) and [two](b.md#c)\n```\n[no](link)\n```"), ["a.md", "b.md#c"]);
}

#[test]
fn the_first_page_is_short() {
    let page = fs::read_to_string(root().join("README.md")).expect("a page");
    let lines = page.lines().count();
    assert!(lines <= 120, "README.md has {lines} lines, and may have 120");
    let first = page.lines().take(20).collect::<Vec<_>>().join("\n");
    for limit in ["64", "4,096 bytes", "8", "1,000,000", "x86-64"] {
        assert!(first.contains(limit), "the first screen should tell the limit {limit}");
    }
}

/// The picture of the crates shows each that is listed.
#[test]
fn rooms_are_the_crates() {
    let root = root();
    let listed = fs::read_to_string(root.join("crates.txt")).expect("crates.txt");
    let picture = fs::read_to_string(root.join("docs/rooms.svg")).expect("rooms.svg");
    let heads = listed.lines().filter(|line| !line.starts_with('#')).filter_map(|line| line.split_once(':'));
    for name in heads.filter_map(|(head, _)| head.split_whitespace().next()) {
        assert!(
            picture.contains(&format!(">{name}<")),
            "{name} is not in docs/rooms.svg: run `make pictures`"
        );
    }
}
