//! The proved receiver, by include/tesla.h.

use crate::wire::Delivery;
use std::ffi::c_void;

#[link(name = "os_c", kind = "static")]
unsafe extern "C" {}

#[link(name = "receiver_c", kind = "static")]
unsafe extern "C" {
    fn tesla_receiver_size() -> usize;
    fn tesla_deliveries_size() -> usize;
    fn tesla_receiver_new(receiver: *mut c_void, settings: *const u8, settings_len: usize) -> u8;
    fn tesla_receiver_clock(receiver: *mut c_void, bytes: *const u8, len: usize) -> u8;
    fn tesla_receiver_air(receiver: *mut c_void, bytes: *const u8, len: usize, deliveries: *mut c_void) -> u8;
    fn tesla_delivery(deliveries: *const c_void, i: usize, record: *mut u8) -> usize;
}

const GUARD: u64 = 0xa5c3_96f0_1e2d_4b78;
const GUARDS: usize = 8;

/// Memory of some bytes, aligned to 8, with a guard before and behind it.
struct Lent(Vec<u64>);

impl Lent {
    fn new(bytes: usize, fill: u64) -> Lent {
        let mut words = vec![fill; bytes.div_ceil(8) + 2 * GUARDS];
        let n = words.len();
        words[..GUARDS].fill(GUARD);
        words[n - GUARDS..].fill(GUARD);
        Lent(words)
    }

    fn start(&mut self) -> *mut c_void {
        self.0[GUARDS..].as_mut_ptr().cast()
    }

    fn guarded(&self) -> bool {
        let n = self.0.len();
        self.0[..GUARDS]
            .iter()
            .chain(&self.0[n - GUARDS..])
            .all(|&w| w == GUARD)
    }
}

pub struct Library {
    receiver: Lent,
    deliveries: Lent,
}

impl Library {
    /// The number that the constructor gives; a fault if it wrote where it must not.
    pub fn new(settings: &[u8], fill: u64) -> Result<(u8, Library), String> {
        let (receiver, deliveries) = unsafe { (tesla_receiver_size(), tesla_deliveries_size()) };
        let mut it = Library {
            receiver: Lent::new(receiver, fill),
            deliveries: Lent::new(deliveries, 0),
        };
        let number = it.renew(settings)?;
        if unsafe { tesla_delivery(it.deliveries.start(), 0, [0; 256].as_mut_ptr()) } != 0 {
            return Err("zeroed memory has a delivery".into());
        }
        Ok((number, it))
    }

    /// The constructor over the memory as it is now.
    pub fn renew(&mut self, settings: &[u8]) -> Result<u8, String> {
        let before = self.receiver.0.clone();
        let number = unsafe { tesla_receiver_new(self.receiver.start(), settings.as_ptr(), settings.len()) };
        if number != 0 && self.receiver.0 != before {
            return Err(format!(
                "settings refused with {number}, and the memory is not as it was"
            ));
        }
        self.guarded()?;
        Ok(number)
    }

    fn guarded(&self) -> Result<(), String> {
        if self.receiver.guarded() && self.deliveries.guarded() {
            return Ok(());
        }
        Err("memory beside the receiver's or the deliveries' was written".into())
    }

    pub fn clock(&mut self, bytes: &[u8]) -> Result<u8, String> {
        let before = self.deliveries.0.clone();
        let number = unsafe { tesla_receiver_clock(self.receiver.start(), bytes.as_ptr(), bytes.len()) };
        if self.deliveries.0 != before {
            return Err("a tick changed the deliveries".into());
        }
        self.guarded()?;
        Ok(number)
    }

    pub fn air(&mut self, bytes: &[u8]) -> Result<(u8, Vec<Delivery>), String> {
        let number = unsafe {
            tesla_receiver_air(
                self.receiver.start(),
                bytes.as_ptr(),
                bytes.len(),
                self.deliveries.start(),
            )
        };
        self.guarded()?;
        let mut delivered = vec![];
        let mut record = [0u8; 256];
        loop {
            let n = unsafe { tesla_delivery(self.deliveries.start(), delivered.len(), record.as_mut_ptr()) };
            if n == 0 {
                break;
            }
            let r = record
                .get(..n)
                .filter(|r| (5..=205).contains(&n) && r[0] == 16 && r[4] as usize == n - 5);
            let Some(r) = r else {
                return Err(format!("a delivery of {n} bytes is no record: {record:?}"));
            };
            let interval = u16::from_be_bytes([r[1], r[2]]);
            delivered.push(Delivery {
                interval,
                index: r[3],
                text: r[5..].to_vec(),
            });
            if delivered.len() > 64 {
                return Err("more than 64 deliveries of one call".into());
            }
        }
        for i in [delivered.len() + 1, 64, 65, 1 << 32, usize::MAX] {
            if i > delivered.len() && unsafe { tesla_delivery(self.deliveries.start(), i, record.as_mut_ptr()) } != 0 {
                return Err(format!(
                    "{} are delivered, and there is one of number {i}",
                    delivered.len()
                ));
            }
        }
        Ok((number, delivered))
    }
}
