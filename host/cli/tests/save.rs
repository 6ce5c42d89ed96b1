//! What `new` writes: whole or not at all, with the bits that a file has, and never over its kernel.

use cli::{answer, Style};
use std::env::temp_dir;
use std::fs::{self, File, Permissions};
use std::io::Read;
use std::os::unix::fs::{symlink, FileTypeExt, MetadataExt, PermissionsExt};
use std::path::{Path, PathBuf};
use std::process::{self, Command};
use std::thread;

/// A fresh folder, removed at the end.
struct Folder(PathBuf);

impl Folder {
    fn new(name: &str) -> Folder {
        let folder = temp_dir().join(format!("plokamyr-{}-{name}", process::id()));
        fs::create_dir(&folder).unwrap();
        Folder(folder)
    }

    fn path(&self, name: &str) -> PathBuf {
        self.0.join(name)
    }

    fn names(&self) -> Vec<String> {
        let mut names: Vec<String> =
            fs::read_dir(&self.0).unwrap().map(|entry| entry.unwrap().file_name().into_string().unwrap()).collect();
        names.sort();
        names
    }
}

impl Drop for Folder {
    fn drop(&mut self) {
        let _ = fs::remove_dir_all(&self.0);
    }
}

/// `new -o FILE` with a kernel or without: the exit status and what is said.
fn new(file: &Path, kernel: Option<&Path>) -> (u8, String) {
    let mut given: Vec<String> = ["new", "--vl", "128", "-o"].map(String::from).to_vec();
    given.extend([Some(file), kernel].iter().flatten().map(|path| path.to_str().unwrap().to_string()));
    match answer(&given, Style::PLAIN) {
        Ok(outcome) => (outcome.status, String::new()),
        Err(failure) => (failure.status, failure.text),
    }
}

fn mode(path: &Path) -> u32 {
    fs::metadata(path).unwrap().permissions().mode() & 0o7777
}

fn is_image(path: &Path) -> bool {
    fs::read(path).unwrap().starts_with(&[3, 0, 0, 0])
}

#[test]
fn files_have_the_bits_of_the_old_one_or_of_any_other() {
    let folder = Folder::new("bits");
    let (file, plain) = (folder.path("a.image"), folder.path("plain"));
    File::create(&plain).unwrap();
    assert_eq!(new(&file, None).0, 0);
    assert_eq!(mode(&file), mode(&plain));
    fs::set_permissions(&file, Permissions::from_mode(0o640)).unwrap();
    let before = fs::metadata(&file).unwrap().ino();
    assert_eq!(new(&file, None).0, 0);
    assert!(mode(&file) == 0o640 && is_image(&file));
    // it is another file, put in the place of the old one
    assert_ne!(fs::metadata(&file).unwrap().ino(), before);
    assert_eq!(folder.names(), ["a.image", "plain"]);
}

#[test]
fn links_stay_and_lead_to_the_image() {
    let folder = Folder::new("links");
    fs::create_dir(folder.path("deep")).unwrap();
    for target in ["deep/there.image", "deep/none.image"] {
        let link = folder.path("link");
        if target.contains("there") {
            fs::write(folder.path(target), "old").unwrap();
        }
        symlink(target, &link).unwrap();
        assert_eq!(new(&link, None).0, 0);
        assert!(is_image(&folder.path(target)));
        assert_eq!(fs::read_link(&link).unwrap(), Path::new(target));
        fs::remove_file(&link).unwrap();
    }
    symlink("round", folder.path("round")).unwrap();
    assert_eq!(new(&folder.path("round"), None).0, 3);
    assert_eq!(folder.names(), ["deep", "round"]);
}

#[test]
fn pipes_and_devices_are_written_as_they_are() {
    let folder = Folder::new("pipes");
    let pipe = folder.path("pipe");
    assert!(Command::new("mkfifo").arg(&pipe).status().unwrap().success());
    let reader = thread::spawn({
        let pipe = pipe.clone();
        move || {
            let mut bytes = Vec::new();
            File::open(pipe).unwrap().read_to_end(&mut bytes).unwrap();
            bytes
        }
    });
    assert_eq!(new(&pipe, None).0, 0);
    assert_eq!(reader.join().unwrap().len(), 313);
    assert!(fs::metadata(&pipe).unwrap().file_type().is_fifo());
    assert_eq!(new(Path::new("/dev/null"), None).0, 0);
    assert!(fs::metadata("/dev/null").unwrap().file_type().is_char_device());
    let full = new(Path::new("/dev/full"), None);
    assert_eq!(full, (3, "new: /dev/full cannot be written: No space left on device".to_string()));
    assert_eq!(folder.names(), ["pipe"]);
}

#[test]
fn no_name_of_the_kernel_is_written() {
    let folder = Folder::new("kernel");
    let kernel = folder.path("k.s");
    fs::write(&kernel, "setffr\n").unwrap();
    fs::hard_link(&kernel, folder.path("hard.s")).unwrap();
    symlink("k.s", folder.path("soft.s")).unwrap();
    for name in ["k.s", "hard.s", "soft.s"] {
        let (status, said) = new(&folder.path(name), Some(&kernel));
        assert!(status == 3 && said.ends_with(": another file than the kernel would do"), "{name}: {said}");
        assert_eq!(fs::read_to_string(folder.path(name)).unwrap(), "setffr\n");
    }
    // one with the same content is another file
    fs::copy(&kernel, folder.path("copy.s")).unwrap();
    assert_eq!(new(&folder.path("copy.s"), Some(&kernel)).0, 0);
}

#[test]
fn what_cannot_be_written_leaves_nothing() {
    let folder = Folder::new("nothing");
    for name in ["no/such/folder", "", "."] {
        let path = if name.is_empty() { PathBuf::new() } else { folder.path(name) };
        assert_eq!(new(&path, None).0, 3, "{name}");
    }
    assert!(folder.names().is_empty());
    assert!(fs::read_dir(".").unwrap().all(|entry| !entry
        .unwrap()
        .file_name()
        .to_str()
        .unwrap()
        .contains("plokamyr-")));
}
