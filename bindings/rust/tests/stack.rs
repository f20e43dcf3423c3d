//! The stack that is said to be enough: each call runs on its largest input in a thread that has no
//! more. A call that needed more would end the process.

use cundarivo::{AlertSetting, CHANNELS, ROWS, Refusal, SETTINGS, programs};
use std::thread;

const KIBIBYTE: usize = 1_024;
const CALLS: usize = 32 * KIBIBYTE;
const DRAW: usize = 64 * KIBIBYTE;
const PROGRAMS: usize = 64 * KIBIBYTE;
const PROGRAM_DRAW: usize = 96 * KIBIBYTE;
const JUDGE: usize = 640 * KIBIBYTE;

/// What a call gives in a thread with a stack of so many bytes.
fn within<Output: Send>(stack: usize, call: impl FnOnce() -> Output + Send) -> Output {
    thread::scope(|scope| {
        let thread = thread::Builder::new().stack_size(stack);
        let thread = thread.spawn_scoped(scope, call).expect("a new thread");
        thread.join().expect("a call that ends")
    })
}

/// 256 rows of 8 channels, of which most are no corners.
fn reference() -> Vec<u8> {
    let value = |row: usize, channel: usize| (row * row * (channel + 3) + 7 * channel) % 2_001;
    let line = |row: usize| {
        let values = (0..CHANNELS).map(|channel| format!(",{}", value(row, channel)));
        format!("ROW-{row}{}\n", values.collect::<String>())
    };
    let rows: String = (1..=ROWS).map(line).collect();
    format!("REF,8{}\n{rows}", ",TOC".repeat(CHANNELS)).into_bytes()
}

/// A reading that is far outside.
fn reading() -> Vec<u8> {
    format!("LOOP-1{}\n", ",TOC,2000".repeat(CHANNELS)).into_bytes()
}

#[test]
fn calls() -> Result<(), Refusal> {
    let (text, reading) = (reference(), reading());
    let mut table = vec![0; ROWS * CHANNELS];
    let mut codes = vec![0; CHANNELS];
    let counts = within(CALLS, || {
        cundarivo::read_reference(&text, &mut table, &mut codes)
    })?;
    let (m, n) = (counts.m, counts.n);
    assert_eq!((m, n), (ROWS, CHANNELS));
    assert_eq!(within(CALLS, || cundarivo::label(&text, m)), b"ROW-256");
    let labels: Vec<String> = (1..=m).map(|row| format!("ROW-{row}")).collect();
    let written = within(CALLS, || {
        cundarivo::write_reference(&table, m, n, &codes, &labels)
    })?;
    assert_eq!(written, text);
    let drawing = within(DRAW, || cundarivo::draw(&table, m, n, 10_000))?;
    within(CALLS, || cundarivo::check(&table, m, n, &drawing.weights))?;
    let envelope = drawing.envelope(&codes);
    let figures = &envelope.figures;
    within(CALLS, || cundarivo::judge(figures, &reading))?;
    within(CALLS, || cundarivo::measure(figures, &reading))?;
    let settings = [AlertSetting { k: 1, c: 1 }; SETTINGS];
    let readings = reading.repeat(800);
    within(CALLS, || {
        cundarivo::try_settings(figures, &settings, &readings)
    })?;
    within(CALLS, || cundarivo::chart(figures, 1, n))?;
    within(CALLS, || cundarivo::panel(figures))?;
    let record = within(CALLS, || cundarivo::write_record(&envelope, &table, m))?;
    within(CALLS, || {
        cundarivo::read_record(&table, m, n, &codes, &record)
    })?;
    Ok(())
}

#[test]
fn draw_plain_verify_panel_and_alerts() {
    let text = reference();
    assert_eq!(within(PROGRAMS, || programs::plain(&text)), text);
    let record = within(PROGRAM_DRAW, || programs::draw(&text));
    assert!(record.starts_with(b"ENV,8"));
    let verified = within(PROGRAMS, || programs::verify(&text, &record));
    assert_eq!(verified, b"OK\n");
    let shown = within(PROGRAMS, || programs::panel(&text, &record));
    assert!(shown.starts_with(b"TOC,"));
    let (settings, readings) = ("1,1\n".repeat(SETTINGS), reading().repeat(800));
    let trial = within(PROGRAMS, || {
        programs::alerts(&text, &record, settings.as_bytes(), &readings)
    });
    assert!(trial.ends_with(b"\n1,1,1,800\n800,800,0,0\n"));
}

#[test]
fn judge() {
    let text = reference();
    let record = programs::draw(&text);
    for readings in [reading().repeat(800), vec![b'\n'; 65_536]] {
        let output = within(JUDGE, || programs::judge(&text, &record, &readings));
        let count = |text: &[u8]| text.iter().filter(|&&byte| byte == b'\n').count();
        assert_eq!(count(&output), count(&readings));
    }
}
