//! The serial run without files and threads.
//!
//! bench CART BOOT TABLE SCRIPT FRAMES [VIDEO AUDIO]
//!         runs a cartridge and prints the sums of the bytes of both sides, as `snes demo` does; writes them where files are named
//! bench make NUMBER FOLDER
//!         writes the cartridge that a number makes and the demo's other files: cart.sfc, boot.bin, table.bin, script.txt
use crate::audio_side::AudioSide;
use crate::clock_ratio::end_stamp_in;
use crate::console_machine::ConsoleSide;
use crate::shelf::Failed;
use crate::kit::{Global, Vec};
use crate::run_drive::{Sink, run_serial};
use crate::snes_defs::{Job, Side};
use std::io::Write;

/// Takes what a run emits; it keeps the sums of the bytes, and the bytes where files are asked for.
struct Sums {
    video: u64,
    audio: u64,
    files: Option<(std::fs::File, std::fs::File)>,
}

/// A sum with more bytes, as `snes demo` prints it.
fn summed(sum: u64, bytes: &[u8]) -> u64 {
    bytes.chunks(256).fold(sum, |sum, few| sum + u64::from(few.iter().map(|byte| u32::from(*byte)).sum::<u32>()))
}

impl Sink for Sums {
    #[inline(never)]
    fn take(&mut self, side: Side, bytes: &[u8]) -> Result<(), Failed> {
        match side {
            Side::Console => self.video = summed(self.video, bytes),
            Side::Sound => self.audio = summed(self.audio, bytes),
        }
        if let Some((video, audio)) = &mut self.files {
            let file = match side {
                Side::Console => video,
                Side::Sound => audio,
            };
            file.write_all(bytes).map_err(|_| Failed)?;
        }
        Ok(())
    }
}

/// Writes the files of a number's cartridge into a folder.
fn make(number: u32, folder: &str) {
    let Ok(cart) = crate::demo_files::image(Global, number) else { panic!("no memory") };
    let table = crate::demo_files::demo_table();
    let bytes: std::vec::Vec<u8> = (0..512).flat_map(|i| table.at(i).to_le_bytes()).collect();
    let write = |name: &str, bytes: &[u8]| std::fs::write(format!("{folder}/{name}"), bytes).expect("a file");
    write("cart.sfc", cart.as_slice());
    write("boot.bin", &crate::demo_files::demo_boot_rom());
    write("table.bin", &bytes);
    write("script.txt", &[]);
}

pub fn main() {
    let words: std::vec::Vec<String> = std::env::args().skip(1).collect();
    if words[0] == "make" {
        return make(words[1].parse().expect("a number"), &words[2]);
    }
    let file = |i: usize| std::fs::read(&words[i]).expect("a file");
    let Ok(cart) = crate::cart_map::accept(Vec::of(file(0))) else { panic!("the cartridge is refused") };
    let Some(boot) = crate::input_files::read_boot(&file(1)) else { panic!("the boot ROM is refused") };
    let Ok(table) = crate::input_files::read_table(&file(2)) else { panic!("the table is refused") };
    let Ok(script) = crate::input_files::read_script(Global, &file(3)) else { panic!("the script is refused") };
    let frames: u32 = words[4].parse().expect("a number of frames");
    let region = script.region();
    let job = Job { cart, boot, table, script, frames, region };
    let Ok(console) = ConsoleSide::new(Global, &job) else { panic!("no memory") };
    let Ok(sound) = AudioSide::new(Global, &job) else { panic!("no memory") };
    let files = (words.len() > 6).then(|| {
        (std::fs::File::create(&words[5]).expect("a file"), std::fs::File::create(&words[6]).expect("a file"))
    });
    let mut sums = Sums { video: 0, audio: 0, files };
    let mut buffer = vec![0u8; 65_536];
    let done = run_serial(console, sound, end_stamp_in(region, frames), &mut buffer, &mut sums);
    println!("{} video {} audio {}", if done.is_ok() { "done" } else { "failed" }, sums.video, sums.audio);
}
