//! Words that mean nothing and files that cannot be used: a sentence, status 2, and nothing lost or half written.
mod common;

use std::{
    fs::{self, File},
    io::Read,
    path::Path,
    process::Stdio,
};

use common::{example, sentence, with, Folder, EXAMPLE, FILES};

#[test]
fn bad_words_and_flags() {
    let folder = example("files-flags");
    for line in [
        "",
        "nope",
        "--nope",
        "Show a.sheet",
        "show",
        "show a.sheet b.sheet",
        "show a.sheet --nope",
        "show a.sheet --set",
        "show a.sheet --results",
        "show a.sheet --text --json",
        "show a.sheet --text --set 0=1",
        "show a.sheet --text --results a.results",
        "check",
        "check a.sheet --set 0=1",
        "make",
        "make a.txt",
        "make -o b.sheet",
        "make a.txt -o",
        "make a.txt -o b.sheet --json",
        "fresh a.sheet",
        "fresh a.sheet -o b.results -o c.results",
        "set a.sheet",
        "set a.sheet a.results",
        "set a.sheet a.results --json",
        "explain a.sheet",
        "explain a.sheet 0 1",
        "graph a.sheet",
        "ops a.sheet",
        "ops --json",
        "help nope",
    ] {
        folder.run(line).failed(2);
    }
    for words in [&["show", ""][..], &["make", "a.txt", "-o", ""], &["fresh", "a.sheet", "-o", ""]] {
        folder.booth(words).failed(2);
    }
    for picture in ["b", "b.gif", "b.svgz", ".dot", "b.dot.txt", "b.sheet"] {
        folder.run(&format!("graph a.sheet -o {picture}")).failed(2).holds(&[picture, ".svg", ".dot"]);
    }
    assert_eq!(folder.names(), FILES);
}

/// A word, a path or a text may hold what moves the cursor or rings the bell: a complaint does not.
#[test]
fn complaints_are_plain_text() {
    let folder = example("files-plain");
    folder.write("t.txt", "const a = \"x\u{1b}[31my\"\n");
    folder.write("u.txt", "const \u{1b}[2J = 1\n");
    let (escape, bell) = ("\u{1b}[31m", "a\u{7}b");
    for words in [
        &["make", "t.txt", "-o", "b.sheet"][..],
        &["make", "u.txt", "-o", "b.sheet"],
        &["show", "a.sheet", "--set", &format!("{escape}=5")],
        &["show", "a.sheet", "--set", &format!("0={escape}")],
        &["show", "a.sheet", "--set", bell],
        &["set", "a.sheet", "a.results", &format!("1={bell}")],
        &["explain", "a.sheet", escape],
        &["explain", "a.sheet", bell],
        &["graph", "a.sheet", "-o", "b.dot", "--setting", escape],
        &["graph", "a.sheet", "-o", escape],
        &["show", escape],
        &["check", bell],
        &["fresh", "a.sheet", "-o", "nowhere/\u{1b}[31m"],
    ] {
        let said = folder.booth(words);
        assert!(said.status == 1 || said.status == 2, "{}", said.asked);
        let strange = |c: char| c.is_control() && c != '\n' && c != '\t';
        assert!(!said.err.contains(strange) && said.out.is_empty(), "{} said {:?}", said.asked, said.err);
        sentence(&said.asked, &said.err);
    }
    assert_eq!(folder.names(), ["a.results", "a.sheet", "t.txt", "u.txt"]);
}

#[test]
fn files_that_cannot_be_read() {
    let folder = example("files-read");
    fs::create_dir(folder.path("folder")).unwrap();
    let none = "No such file";
    for (path, why) in
        [("nothing", none), ("folder", "directory"), ("nowhere/a", none), ("a.sheet/b", "ot a directory")]
    {
        for line in [
            "show PATH",
            "check PATH",
            "check PATH --json",
            "make PATH -o b.sheet",
            "fresh PATH -o b.results",
            "set PATH a.results 0=1",
            "explain PATH 0",
            "graph PATH -o b.dot",
            "show a.sheet --results PATH",
            "explain a.sheet 0 --results PATH",
        ] {
            folder.run(&line.replace("PATH", path)).failed(2).holds(&[path, why]);
        }
        folder.run(&format!("set a.sheet {path} 0=1")).failed(2).holds(&[path]);
    }
    assert_eq!(folder.names(), ["a.results", "a.sheet", "folder"]);
    assert_eq!(fs::read_dir(folder.path("folder")).unwrap().count(), 0);
}

#[cfg(unix)]
fn shut(folder: &Folder, name: &str, mode: u32) {
    use std::os::unix::fs::PermissionsExt;
    fs::set_permissions(folder.path(name), fs::Permissions::from_mode(mode)).unwrap();
}

#[cfg(unix)]
#[test]
fn files_that_may_not_be_read() {
    let folder = example("files-shut");
    shut(&folder, "a.results", 0);
    if File::open(folder.path("a.results")).is_ok() {
        return println!("this user may read every file: nothing was tried");
    }
    folder.run("show a.sheet --results a.results").failed(2).holds(&["a.results", "ermission denied"]);
    folder.run("set a.sheet a.results 0=1").failed(2).holds(&["a.results", "ermission denied"]);
    folder.write("a.sheet.names", "a\nb\nc\n");
    shut(&folder, "a.sheet.names", 0);
    let said = folder.run("show a.sheet").holds(&["a.sheet.names", "ermission denied"]);
    assert!(said.status == 0 && said.out.contains("1u << #0"), "{}", said.out);
    shut(&folder, "a.sheet", 0);
    folder.run("check a.sheet").failed(2).holds(&["a.sheet", "ermission denied"]);
    folder.run("make a.sheet -o b.sheet").failed(2).holds(&["a.sheet", "ermission denied"]);
}

#[test]
fn files_that_cannot_be_written() {
    let folder = example("files-write");
    fs::create_dir(folder.path("folder")).unwrap();
    folder.write("t.txt", "const a = 1\n");
    let before = folder.names();
    for output in ["nowhere/b.dot", "a.sheet/b.dot", "b.dot/", "x/../b.dot", "folder/x/b.dot"] {
        for line in ["fresh a.sheet", "make t.txt", "graph a.sheet"] {
            folder.run(&format!("{line} -o {output}")).failed(2).holds(&[output, "irectory"]);
        }
    }
    for output in ["folder", ".", "..", "folder/", "/"] {
        for line in ["fresh a.sheet", "make t.txt"] {
            folder.run(&format!("{line} -o {output}")).failed(2).holds(&[output, "irectory"]);
        }
    }
    // What neither a user nor the administrator can make.
    if Path::new("/proc/self").exists() {
        for line in ["fresh a.sheet -o /proc/b.dot", "make t.txt -o /proc/b.dot", "graph a.sheet -o /proc/b.dot"] {
            folder.run(line).failed(2).holds(&["/proc/b.dot"]);
        }
    }
    fs::create_dir(folder.path("picture.dot")).unwrap();
    folder.run("graph a.sheet -o picture.dot").failed(2).holds(&["picture.dot", "irectory"]);
    // The names have no place: neither is written.
    fs::create_dir(folder.path("b.sheet.names")).unwrap();
    folder.run("make t.txt -o b.sheet").failed(2).holds(&["b.sheet.names", "irectory"]);
    fs::remove_dir(folder.path("b.sheet.names")).unwrap();
    fs::remove_dir(folder.path("picture.dot")).unwrap();
    assert_eq!(folder.names(), before);
    assert_eq!(fs::read_dir(folder.path("folder")).unwrap().count(), 0);
}

#[test]
fn a_full_device() {
    if !Path::new("/dev/full").exists() {
        return println!("no /dev/full here: nothing was tried");
    }
    let folder = example("files-full");
    folder.write("t.txt", "const a = 1\n");
    folder.write("bad.sheet", with(22, 5));
    for line in [
        "show a.sheet",
        "show a.sheet --json",
        "show a.sheet --text",
        "check a.sheet",
        "check a.sheet --json",
        "check bad.sheet --json",
        "make t.txt -o b.sheet",
        "fresh a.sheet -o b.results",
        "set a.sheet a.results 0=1",
        "explain a.sheet 1",
        "graph a.sheet -o b.dot",
        "ops",
    ] {
        let full = File::options().write(true).open("/dev/full").unwrap();
        let words: Vec<&str> = line.split(' ').collect();
        let output = folder.command(&words).stdout(full).output().unwrap();
        let err = String::from_utf8(output.stderr).unwrap();
        assert_eq!(output.status.code(), Some(2), "{line} said {err}");
        assert!(err.contains("standard output"), "{line} said {err}");
        sentence(line, &err);
    }
    let before = folder.names();
    assert_eq!(before.join(" "), "a.results a.sheet b.dot b.results b.sheet b.sheet.names bad.sheet t.txt");
    for line in ["fresh a.sheet -o /dev/full", "make t.txt -o /dev/full"] {
        folder.run(line).failed(2).holds(&["/dev/full", "No space"]);
    }
    folder.run("set a.sheet /dev/full 0=1").failed(2).holds(&["/dev/full"]);
    assert_eq!(folder.names(), before);
    assert!(!Path::new("/dev/full.names").exists());
}

#[test]
fn a_reader_that_goes_away() {
    let folder = example("files-away");
    for words in [&["ops"][..], &["show", "a.sheet", "--json"], &["check", "a.sheet", "--json"]] {
        let mut child = folder.command(words).stdout(Stdio::piped()).stderr(Stdio::piped()).spawn().unwrap();
        drop(child.stdout.take());
        let mut err = String::new();
        child.stderr.take().unwrap().read_to_string(&mut err).unwrap();
        assert_eq!((child.wait().unwrap().code(), &*err), (Some(0), ""), "{words:?}");
    }
}

#[test]
fn nothing_is_left_of_what_failed() {
    let folder = example("files-left");
    folder.write("bad.txt", "const a = \n");
    folder.write("bad.sheet", with(22, 5));
    folder.write("t.sheet", "the old sheet");
    folder.write("t.sheet.names", "the old names");
    folder.write("b.results", "the old results");
    folder.write("b.dot", "the old picture");
    let files = || folder.names().into_iter().map(|name| (folder.read(&name), name)).collect::<Vec<_>>();
    let before = files();
    for (line, status) in [
        ("make bad.txt -o t.sheet", 1),
        ("make nothing -o t.sheet", 2),
        ("fresh bad.sheet -o b.results", 1),
        ("fresh nothing -o b.results", 2),
        ("set a.sheet b.results 0=1", 1),
        ("set a.sheet a.results 0=1 1=1", 1),
        ("set a.sheet a.results 0=1 0=x", 2),
        ("graph bad.sheet -o b.dot", 1),
        ("graph a.sheet --setting 1 -o b.dot", 1),
        ("graph a.sheet --setting nobody -o b.dot", 2),
    ] {
        folder.run(line).failed(status);
        assert_eq!(files(), before, "{line}");
    }
}

/// What an answer is made of is not replaced by it, however the file is called.
#[test]
fn nothing_is_written_over_its_source() {
    let folder = example("files-source");
    folder.write("t.txt", "const a = 1\n");
    folder.write("t.names", "const a = 1\n");
    folder.run("make t.txt -o t.sheet").well();
    folder.write("p.dot", EXAMPLE);
    let files = || folder.names().into_iter().map(|name| (folder.read(&name), name)).collect::<Vec<_>>();
    let before = files();
    for line in [
        "make t.txt -o t.txt",
        "make t.txt -o ./t.txt",
        "make t.names -o t",
        "fresh a.sheet -o a.sheet",
        "fresh t.sheet -o t.sheet.names",
        "graph p.dot -o p.dot",
    ] {
        folder.run(line).failed(2).holds(&["would be lost"]);
        assert_eq!(files(), before, "{line}");
    }
}

/// Results of another sheet are shown and changed as they stand, and a sentence says that they are not this sheet's.
#[test]
fn results_of_another_sheet() {
    let folder = example("files-doubt");
    folder.write("b.sheet", with(44, 3));
    let said =
        ["show b.sheet --results a.results", "explain b.sheet 1 --results a.results", "set b.sheet a.results 0=6"];
    for line in said {
        let said = folder.run(line).holds(&["a.results: not worked out from this sheet: the slot of #2 is not"]);
        assert_eq!(said.status, 0, "{}", said.err);
    }
    // The change has worked out all that depends on the setting, so now they are.
    folder.run("show b.sheet --results a.results").well();
    folder.run("set b.sheet a.results 0=5").well();
    // A setting has its own type, and a value.
    folder.write("c.sheet", with(6, 3));
    folder.run("show c.sheet --results a.results").holds(&["the slot of #0, of #2 is"]);
    folder.write("zeros.results", vec![0; 3 * 136]);
    folder.run("show a.sheet --results zeros.results").holds(&["the slot of #0, of #1, of #2"]);
}

/// `--set` takes all changes behind it and no other word.
#[test]
fn words_behind_the_changes() {
    let folder = example("files-behind");
    let shown = folder.run("show a.sheet --set 0=6 0=7").well().out;
    for line in ["show --set 0=6 0=7 a.sheet", "show --set 0=6 --set 0=7 a.sheet", "show --set=0=6 --set=0=7 a.sheet"] {
        assert_eq!(folder.run(line).well().out, shown, "{line}");
    }
    let told = folder.run("explain a.sheet 2 --set 0=6").well().out;
    for line in ["explain a.sheet --set 0=6 2", "explain --set 0=6 a.sheet 2"] {
        assert_eq!(folder.run(line).well().out, told, "{line}");
    }
}

#[cfg(unix)]
#[test]
fn files_that_are_read_only_and_links() {
    use std::os::unix::fs::{symlink, PermissionsExt};
    let folder = example("files-only");
    let old = folder.read("a.results");
    // A file that is write-protected stays, though another could be moved over it.
    shut(&folder, "a.results", 0o440);
    for line in ["set a.sheet a.results 0=32", "fresh a.sheet -o a.results"] {
        folder.run(line).failed(2).holds(&["a.results", "write-protected"]);
    }
    assert_eq!(folder.read("a.results"), old);
    // Any other is replaced by a new one with its permissions.
    shut(&folder, "a.results", 0o640);
    folder.run("set a.sheet a.results 0=32").well();
    assert_ne!(folder.read("a.results"), old);
    assert_eq!(fs::metadata(folder.path("a.results")).unwrap().permissions().mode() & 0o777, 0o640);
    // A link stays one, and what it leads to is replaced.
    fs::create_dir(folder.path("far")).unwrap();
    fs::rename(folder.path("a.results"), folder.path("far/b.results")).unwrap();
    symlink("far/b.results", folder.path("a.results")).unwrap();
    folder.run("set a.sheet a.results 0=5").well();
    assert_eq!(folder.read("far/b.results"), old);
    assert!(fs::symlink_metadata(folder.path("a.results")).unwrap().file_type().is_symlink());
    assert_eq!(fs::read_dir(folder.path("far")).unwrap().count(), 1);
    // In a folder that takes no new file nothing changes.
    shut(&folder, "far", 0o555);
    if File::create(folder.path("far/try")).is_ok() {
        shut(&folder, "far", 0o755);
        return println!("this user may write to every folder: a read-only one was not tried");
    }
    for line in ["set a.sheet far/b.results 0=32", "set a.sheet a.results 0=32", "fresh a.sheet -o far/c.results"] {
        folder.run(line).failed(2).holds(&["ermission denied"]);
    }
    let count = fs::read_dir(folder.path("far")).unwrap().count();
    shut(&folder, "far", 0o755);
    assert_eq!((count, folder.read("far/b.results")), (1, old));
}
