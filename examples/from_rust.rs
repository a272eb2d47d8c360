//! The sign and the central system from Rust: it publishes a text and prints the rows of its pages, as from_python.py.
//!
//!     make -C examples
//!     rustc -O -L native=examples/out -l static=wisangub -l static=wisangub_heap examples/from_rust.rs
//!     ./from_rust DESCRIPTION TEXT
//!
//! The functions are those of include/wisangub.h, which the library has under their names; an enum is 32 bits. The
//! static `wisangub_1_0_0` has the version in its name, so that another library does not link.

use std::ffi::c_void;
use std::fmt::Write as _;
use std::process::ExitCode;

const DATAGRAM: usize = 1472;
const PAGE_HEAD: usize = 3;
const LOOK: u32 = 0;
const MOST_SECONDS: u32 = 60;
const DONE: u32 = 0;
const NOTHING: u32 = 1;
const TOO_SMALL: u32 = 2;

/// A sign, or a central system: the pointer that the library wrote there.
#[repr(C)]
struct Place {
    at: *mut c_void,
}

#[repr(C)]
#[derive(Default)]
struct TextFault {
    place: usize,
    code: u8,
}

#[repr(C)]
#[derive(Default)]
struct Status {
    value: i64,
    entries: usize,
    busy: u8,
    last: u8,
    step: u8,
    why: u8,
}

const _: () = {
    use std::mem::{offset_of, size_of};
    assert!(size_of::<Place>() == 8 && size_of::<TextFault>() == 16 && size_of::<Status>() == 24);
    assert!(offset_of!(TextFault, code) == 8 && offset_of!(Status, entries) == 8 && offset_of!(Status, why) == 19);
};

unsafe extern "C" {
    static wisangub_1_0_0: u8;
    fn wisangub_sign_new(sign: *mut Place, text: *const u8, size: usize, first: *mut u32, line: *mut usize) -> u32;
    fn wisangub_sign_receive(
        sign: *mut Place,
        datagram: *const u8,
        size: usize,
        reply: *mut u8,
        room: usize,
        reply_size: *mut usize,
    ) -> u32;
    fn wisangub_sign_tick(sign: *mut Place) -> u32;
    fn wisangub_sign_matrix(sign: *const Place, width: *mut u16, height: *mut u16) -> u32;
    fn wisangub_sign_writer(sign: *const Place, community: *mut u8, room: usize, size: *mut usize) -> u32;
    fn wisangub_sign_check(
        sign: *const Place,
        text: *const u8,
        size: usize,
        pages: *mut usize,
        fault: *mut TextFault,
    ) -> u32;
    fn wisangub_sign_pages(sign: *const Place, layer: u32, pages: *mut u8, room: usize, size: *mut usize) -> u32;
    fn wisangub_row_bits(looks: *const u8, count: usize, bits: *mut u8, room: usize, size: *mut usize) -> u32;
    fn wisangub_sign_free(sign: *mut Place);
    fn wisangub_centre_new(centre: *mut Place, community: *const u8, size: usize, order: u32, first: u32) -> u32;
    fn wisangub_centre_command(
        centre: *mut Place,
        line: *const u8,
        size: usize,
        request: *mut u8,
        room: usize,
        request_size: *mut usize,
    ) -> u32;
    fn wisangub_centre_receive(
        centre: *mut Place,
        datagram: *const u8,
        size: usize,
        request: *mut u8,
        room: usize,
        request_size: *mut usize,
    ) -> u32;
    fn wisangub_centre_tick(centre: *mut Place, request: *mut u8, room: usize, request_size: *mut usize) -> u32;
    fn wisangub_centre_status(centre: *const Place, status: *mut Status) -> u32;
    fn wisangub_centre_free(centre: *mut Place);
}

type Refusal = String;

/// Whether there is something in the buffer.
fn done(answer: u32, what: &str) -> Result<bool, Refusal> {
    match answer {
        DONE => Ok(true),
        NOTHING => Ok(false),
        other => Err(format!("{what}: answer {other}")),
    }
}

/// A sign, which is not copied, and is given back once. It holds a raw pointer, so it stays on its thread.
struct Sign(Place);

impl Sign {
    /// The sign of a description, and the number of the first request of its central system.
    fn new(description: &[u8]) -> Result<(Sign, u32), Refusal> {
        let mut sign = Sign(Place {
            at: std::ptr::null_mut(),
        });
        let (mut first, mut line) = (0, 0);
        let answer = unsafe {
            wisangub_sign_new(
                &mut sign.0,
                description.as_ptr(),
                description.len(),
                &mut first,
                &mut line,
            )
        };
        done(answer, &format!("the description, line {line}"))?;
        Ok((sign, first))
    }

    fn receive(&mut self, datagram: &[u8], reply: &mut [u8; DATAGRAM]) -> Result<Option<usize>, Refusal> {
        let mut size = 0;
        let answer = unsafe {
            wisangub_sign_receive(
                &mut self.0,
                datagram.as_ptr(),
                datagram.len(),
                reply.as_mut_ptr(),
                DATAGRAM,
                &mut size,
            )
        };
        Ok(done(answer, "the sign")?.then_some(size))
    }

    fn tick(&mut self) -> Result<(), Refusal> {
        done(unsafe { wisangub_sign_tick(&mut self.0) }, "a second").map(|_| ())
    }

    fn matrix(&self) -> Result<(usize, usize), Refusal> {
        let (mut width, mut height) = (0, 0);
        done(
            unsafe { wisangub_sign_matrix(&self.0, &mut width, &mut height) },
            "the matrix",
        )?;
        Ok((width.into(), height.into()))
    }

    fn writer(&self) -> Result<Vec<u8>, Refusal> {
        let (mut community, mut size) = (vec![0; 32], 0);
        done(
            unsafe { wisangub_sign_writer(&self.0, community.as_mut_ptr(), 32, &mut size) },
            "the community",
        )?;
        community.truncate(size);
        Ok(community)
    }

    fn check(&self, text: &[u8]) -> Result<(), Refusal> {
        let (mut pages, mut fault) = (0, TextFault::default());
        let answer = unsafe { wisangub_sign_check(&self.0, text.as_ptr(), text.len(), &mut pages, &mut fault) };
        done(
            answer,
            &format!("the text has fault {} at octet {}", fault.code, fault.place),
        )
        .map(|_| ())
    }

    /// The looks of the pages that it shows.
    fn pages(&self) -> Result<Vec<u8>, Refusal> {
        let mut size = 0;
        if unsafe { wisangub_sign_pages(&self.0, LOOK, std::ptr::null_mut(), 0, &mut size) } != TOO_SMALL {
            return Err("there is no memory for the pages".into());
        }
        let mut pages = vec![0; size];
        let answer = unsafe { wisangub_sign_pages(&self.0, LOOK, pages.as_mut_ptr(), pages.len(), &mut size) };
        done(answer, "the pages")?;
        Ok(pages)
    }
}

impl Drop for Sign {
    fn drop(&mut self) {
        unsafe { wisangub_sign_free(&mut self.0) }
    }
}

/// A central system.
struct Centre(Place);

impl Centre {
    fn new(community: &[u8], is_swapped: bool, first: u32) -> Result<Centre, Refusal> {
        let mut centre = Centre(Place {
            at: std::ptr::null_mut(),
        });
        let answer = unsafe {
            wisangub_centre_new(
                &mut centre.0,
                community.as_ptr(),
                community.len(),
                is_swapped.into(),
                first,
            )
        };
        done(answer, "the central system")?;
        Ok(centre)
    }

    fn command(&mut self, line: &str, request: &mut [u8; DATAGRAM]) -> Result<Option<usize>, Refusal> {
        let mut size = 0;
        let answer = unsafe {
            wisangub_centre_command(
                &mut self.0,
                line.as_ptr(),
                line.len(),
                request.as_mut_ptr(),
                DATAGRAM,
                &mut size,
            )
        };
        Ok(done(answer, "the command")?.then_some(size))
    }

    fn receive(&mut self, datagram: &[u8], request: &mut [u8; DATAGRAM]) -> Result<Option<usize>, Refusal> {
        let mut size = 0;
        let answer = unsafe {
            wisangub_centre_receive(
                &mut self.0,
                datagram.as_ptr(),
                datagram.len(),
                request.as_mut_ptr(),
                DATAGRAM,
                &mut size,
            )
        };
        Ok(done(answer, "the central system")?.then_some(size))
    }

    fn tick(&mut self, request: &mut [u8; DATAGRAM]) -> Result<Option<usize>, Refusal> {
        let mut size = 0;
        let answer = unsafe { wisangub_centre_tick(&mut self.0, request.as_mut_ptr(), DATAGRAM, &mut size) };
        Ok(done(answer, "a tick")?.then_some(size))
    }

    fn status(&self) -> Result<Status, Refusal> {
        let mut status = Status::default();
        done(unsafe { wisangub_centre_status(&self.0, &mut status) }, "the status")?;
        Ok(status)
    }
}

impl Drop for Centre {
    fn drop(&mut self) {
        unsafe { wisangub_centre_free(&mut self.0) }
    }
}

/// Has the text published in row 1, with a second between each poll.
fn publish(sign: &mut Sign, centre: &mut Centre, text: &[u8]) -> Result<(), Refusal> {
    let (mut request, mut reply) = ([0; DATAGRAM], [0; DATAGRAM]);
    let mut digits = String::new();
    for octet in text {
        write!(digits, "{octet:02x}").map_err(|fault| fault.to_string())?;
    }
    let line = format!(
        "publish 3 1 {} - 0 0 200 65535 255 127.0.0.1",
        if text.is_empty() { "-" } else { &digits }
    );
    sign.check(text)?;
    let mut sends = centre.command(&line, &mut request)?;
    for _ in 0..MOST_SECONDS {
        while let Some(size) = sends {
            let Some(answered) = sign.receive(&request[..size], &mut reply)? else {
                break;
            };
            sends = centre.receive(&reply[..answered], &mut request)?;
        }
        let status = centre.status()?;
        if status.busy == 0 {
            return if status.step == 0 {
                Ok(())
            } else {
                Err(format!("it failed at step {}", status.step))
            };
        }
        sign.tick()?;
        sends = centre.tick(&mut request)?;
    }
    Err("it is not done in a minute".into())
}

/// Prints the rows of the pages, as a driver of lamps has them.
fn print_rows(sign: &Sign) -> Result<(), Refusal> {
    let (width, height) = sign.matrix()?;
    for page in sign.pages()?.chunks(PAGE_HEAD + width * height) {
        println!("page {} {}", page[0], page[1]);
        for looks in page[PAGE_HEAD..].chunks(width) {
            let (mut bits, mut size) = ([0u8; 32], 0);
            let answer = unsafe { wisangub_row_bits(looks.as_ptr(), width, bits.as_mut_ptr(), bits.len(), &mut size) };
            done(answer, "a row")?;
            let lamp = |x: usize| if bits[x / 8] >> (7 - x % 8) & 1 == 1 { '*' } else { '.' };
            println!("{}", (0..width).map(lamp).collect::<String>());
        }
    }
    Ok(())
}

fn run(description: &str, text: &str) -> Result<(), Refusal> {
    let description = std::fs::read(description).map_err(|fault| format!("{description}: {fault}"))?;
    if unsafe { std::ptr::read_volatile(&raw const wisangub_1_0_0) } != 1 {
        return Err("the library is of another version".into());
    }
    let (mut sign, first) = Sign::new(&description)?;
    let is_swapped = description.windows(14).any(|part| part == b"\norder swapped");
    let mut centre = Centre::new(&sign.writer()?, is_swapped, first)?;
    publish(&mut sign, &mut centre, text.as_bytes())?;
    print_rows(&sign)
}

fn main() -> ExitCode {
    let words: Vec<String> = std::env::args().collect();
    let [_, description, text] = words.as_slice() else {
        eprintln!("usage: from_rust DESCRIPTION TEXT");
        return ExitCode::from(2);
    };
    match run(description, text) {
        Ok(()) => ExitCode::SUCCESS,
        Err(refusal) => {
            eprintln!("{refusal}");
            ExitCode::FAILURE
        }
    }
}
