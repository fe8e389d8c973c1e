//! The proved library, through its C entry.

extern "C" {
    fn rig_session(file: *const u8, file_length: usize, listing: *mut u8, listing_length: usize) -> u32;
}

pub const LISTING_BYTES: usize = 65_536;
const REFUSED: u32 = 100_000;

/// Plays the file. Answers the bytes of the listing, which then stands in `listing`, or the number of
/// the refusal.
pub fn play_into(file: &[u8], listing: &mut [u8]) -> Result<usize, u32> {
    // The two slices are valid for their lengths and do not overlap, which is all that the entry asks.
    let answer = unsafe { rig_session(file.as_ptr(), file.len(), listing.as_mut_ptr(), listing.len()) };
    if answer >= REFUSED {
        Err(answer - REFUSED)
    } else {
        Ok(answer as usize)
    }
}

/// Memory for listings, filled before each call so that a byte altered out of turn shows.
pub struct Library {
    listing: Vec<u8>,
}

const FILLER: u8 = 0xa5;

impl Library {
    pub fn new() -> Library {
        Library { listing: vec![FILLER; LISTING_BYTES] }
    }

    /// The listing or the number of the refusal; an error if memory that must stay was altered.
    pub fn play(&mut self, file: &[u8]) -> Result<Result<Vec<u8>, u32>, String> {
        let answer = play_into(file, &mut self.listing);
        let written = answer.unwrap_or(0);
        if written > LISTING_BYTES {
            return Err(format!("the library answers {written} bytes"));
        }
        let listing = self.listing[..written].to_vec();
        let altered = self.listing[written..].iter().position(|&byte| byte != FILLER);
        self.listing.fill(FILLER);
        match altered {
            Some(place) => Err(format!("the byte {} behind the listing was altered", written + place)),
            None => Ok(answer.map(|_| listing)),
        }
    }
}

impl Default for Library {
    fn default() -> Library {
        Library::new()
    }
}
