use plokamyr::{fold, Reply};

fn main() {
    for vl in [128, 512] {
        let mut title: Vec<u16> = "Études à Noël".encode_utf16().collect();
        assert_eq!(fold(&mut title, vl), Reply::Done);
        println!("{vl} bits: {}", String::from_utf16_lossy(&title));
    }
}
