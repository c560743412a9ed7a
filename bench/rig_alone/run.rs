// Loads in which one pin after the other is driven alone.
use shim::*;
use stubs::machine_config::Config;
use stubs::machine_faults::FaultSet;
use stubs::machine_shape::*;
use stubs::rig::PinBits;
#[repr(C)]
struct Ts {
    s: i64,
    n: i64,
}
extern "C" {
    fn clock_gettime(c: i32, t: *mut Ts) -> i32;
}
struct Instant(f64);
fn now() -> f64 {
    let mut t = Ts { s: 0, n: 0 };
    unsafe {
        clock_gettime(3, &mut t);
    }
    t.s as f64 + t.n as f64 * 1e-9
}
impl Instant {
    fn now() -> Instant {
        Instant(now())
    }
    fn elapsed(&self) -> D {
        D(now() - self.0)
    }
}
struct D(f64);
impl D {
    fn as_secs_f64(&self) -> f64 {
        self.0
    }
}
fn main() {
    let a: std::vec::Vec<u32> = std::env::args().skip(1).map(|w| w.parse().unwrap()).collect();
    let (pins, lines, loads, each, common) = (a[0], a[1], a[2], a[3], a[4]);
    let g = Global;
    let shape = Shape { pins, lines };
    let mut sim = sim::Sim::new(g, FaultSet { shape }).unwrap();
    let mut drives = std::vec::Vec::new();
    let mut reads = std::vec::Vec::new();
    drives.push(PinBits::new(g, pins).unwrap());
    for k in 0..pins {
        let mut d = PinBits::new(g, pins).unwrap();
        d.set(Pin(k), false);
        drives.push(d);
    }
    for _ in 0..=pins {
        reads.push(PinBits::new(g, pins).unwrap());
    }
    let mut seed = 12345u64;
    let mut sum = 0u64;
    let mut next = move || {
        seed = seed.wrapping_mul(6364136223846793005).wrapping_add(1442695040888963407);
        (seed >> 33) as u32
    };
    let front: std::vec::Vec<Cross> = (0..common).map(|i| Cross((i / lines % pins) * lines + i % lines)).collect();
    let (mut tl, mut tc) = (0.0, 0.0);
    for _ in 0..loads {
        let mut closed = front.clone();
        for l in 0..lines {
            for _ in 0..each {
                closed.push(Cross((next() % pins) * lines + l));
            }
        }
        let config = Config { shape, closed, ticks: 1 };
        let t = Instant::now();
        sim.load(&config, pins + 1).unwrap();
        tl += t.elapsed().as_secs_f64();
        let t = Instant::now();
        sim.cycles(&drives, &mut reads).unwrap();
        tc += t.elapsed().as_secs_f64();
        for (i, r) in reads.iter().enumerate().step_by(7) {
            for k in (0..pins).step_by(5) {
                sum = sum.wrapping_mul(31).wrapping_add(r.get(Pin(k)) as u64 + i as u64);
            }
        }
    }
    println!(
        "{pins} pins x {lines} lines, {loads} loads of {} crosspoints: loads {:.2} us each, cycles {:.3} us each; sum {sum:x}",
        common + lines * each,
        tl * 1e6 / loads as f64,
        tc * 1e6 / loads as f64 / (pins + 1) as f64
    );
}
